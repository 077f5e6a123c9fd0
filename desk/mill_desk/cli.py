"""The words of the desk."""

import os
import sys
import traceback
from argparse import ArgumentParser, Namespace, RawDescriptionHelpFormatter
from collections.abc import Callable
from pathlib import Path

from mill_desk.console import complain, soften_streams
from mill_desk.program import Program, find_program, stop_on_signals
from mill_desk.settings import Settings, read_settings
from mill_desk.trouble import Exit, Trouble

EPILOG = '''The same names stand in a file desk.toml beside the orders, as in
  sizes = "12; 14.5; 17"
  colours-per-slab = 2
An option wins over the file. Sizes may also be a sheet named sizes.
Status: 0, 1 and 4 to 9 as the program; 2 wrong words; 3 a table to mend;
70 a fault of the desk; 126 or 127 where the program is missing; 130 where
Ctrl-C, or the time of --minutes, ended it before there was an answer.'''


def add_program(parser: ArgumentParser) -> None:
    """The options of every command."""
    parser.add_argument('--program', metavar='FILE',
                        help='another program than ./mill_slab; nothing is claimed for it')
    parser.add_argument('--colours-per-slab', metavar='N', help='1 to 8; the default is 2')


def add_search(parser: ArgumentParser) -> None:
    """The options of a search."""
    parser.add_argument('--nodes', metavar='N', help='how many nodes are closed at most')
    parser.add_argument('--minutes', metavar='M', help='growing budgets for so many minutes')
    parser.add_argument('--workers', metavar='N', help='where the program serves it')
    parser.add_argument('--moves', metavar='N', help='where the program serves it')


def add_table(parser: ArgumentParser) -> None:
    """The options of a table of orders."""
    parser.add_argument('orders', type=Path, metavar='ORDERS', help='a .csv or .xlsx file')
    parser.add_argument('--sizes', metavar='LIST', help='the slab sizes, as in "12; 14.5; 17"')
    for column in ('id', 'weight', 'colour', 'slab'):
        parser.add_argument(f'--{column}', metavar='HEADER', help=f'the column of the {column}')
    parser.add_argument('--sheet', metavar='NAME', help='the sheet of the orders')
    parser.add_argument('--unit', metavar='UNIT', help='the unit of weights and sizes')
    parser.add_argument('--decimal', metavar='MARK', help='point or comma')
    parser.add_argument('--step', metavar='STEP', help='weights and sizes are multiples of it')
    parser.add_argument('--round-up', action='store_true', default=None,
                        help='round weights up to --step, and sizes down')
    add_output(parser)


def add_output(parser: ArgumentParser) -> None:
    """The options of what is written."""
    parser.add_argument('--title', metavar='TEXT', help='the title of the page')
    parser.add_argument('-o', '--out', metavar='DIR', help='the folder of the files')


def parser_of() -> ArgumentParser:
    """The parser of all words."""
    parser = ArgumentParser(prog='desk', epilog=EPILOG,
                            formatter_class=RawDescriptionHelpFormatter,
                            description='From a spreadsheet of orders to a plan of slabs.')
    commands = parser.add_subparsers(dest='command', required=True, metavar='COMMAND')

    def command(name: str, text: str, *parts: Callable[[ArgumentParser], None]) -> ArgumentParser:
        """The parser of one command."""
        made = commands.add_parser(name, help=text, description=text, epilog=EPILOG,
                                   formatter_class=RawDescriptionHelpFormatter)
        for part in parts:
            part(made)
        add_program(made)
        return made

    made = command('plan', 'Find a plan of a table of orders.', add_table, add_search)
    made.add_argument('--prove', action='store_true', help='ask for a proof, and have it verified')
    made = command('check', 'Judge a plan from a spreadsheet.', add_table)
    made.add_argument('plan', type=Path, metavar='PLAN', help='a table with order and slab')
    made = command('compare', 'Put two plans side by side.', add_table)
    made.add_argument('plans', type=Path, nargs=2, metavar='PLAN')
    made = command('what-if', 'Tell what other sizes or colours would lose.', add_table,
                   add_search)
    made.add_argument('--add-size', action='append', metavar='SIZE', default=[])
    made.add_argument('--prove', action='store_true', help='ask for proofs, and verify them')
    for name, text in (('show', 'Make the pages for the program\'s own texts.'),
                       ('tree', 'Show the proof in an answer as a tree.')):
        made = command(name, text, add_output)
        made.add_argument('instance', type=Path, metavar='INSTANCE')
        made.add_argument('answer', type=Path, metavar='ANSWER')
    made = command('explain', 'Say what is wrong in texts written by hand, and where.')
    made.add_argument('instance', type=Path, metavar='INSTANCE')
    made.add_argument('answer', type=Path, nargs='?', metavar='ANSWER')
    made = command('table', 'Prove each instance, and write a row of CSV for it.', add_search)
    made.add_argument('instances', type=Path, nargs='+', metavar='INSTANCE')
    return parser


def run(words: Namespace) -> int:
    """Runs one command."""
    beside = getattr(words, 'orders', None)
    settings = read_settings(words, beside)
    program = find_program(words.program)
    return COMMANDS[words.command](program, settings, words)


def run_plan(program: Program, settings: Settings, words: Namespace) -> int:
    """`desk plan`."""
    from mill_desk.planning import plan
    return plan(program, words.orders, settings, words.prove)


def run_check(program: Program, settings: Settings, words: Namespace) -> int:
    """`desk check`."""
    from mill_desk.planning import check
    return check(program, words.orders, words.plan, settings)


def run_compare(program: Program, settings: Settings, words: Namespace) -> int:
    """`desk compare`."""
    from mill_desk.compare import compare
    return compare(program, words.orders, words.plans, settings)


def run_show(program: Program, settings: Settings, words: Namespace) -> int:
    """`desk show`."""
    from mill_desk.showing import show_texts
    return show_texts(program, words.instance, words.answer, settings)


def run_tree(program: Program, settings: Settings, words: Namespace) -> int:
    """`desk tree`."""
    from mill_desk.showing import show_tree
    return show_tree(program, words.instance, words.answer, settings)


def run_explain(program: Program, settings: Settings, words: Namespace) -> int:
    """`desk explain`."""
    from mill_desk.explain import explain
    return explain(program, words.instance, words.answer, settings)


def run_what_if(program: Program, settings: Settings, words: Namespace) -> int:
    """`desk what-if`."""
    from mill_desk.what_if import what_if
    return what_if(program, words.orders, settings, words.add_size, words.limits, words.prove)


def run_table(program: Program, settings: Settings, words: Namespace) -> int:
    """`desk table`."""
    from mill_desk.runs_table import runs_table
    return runs_table(program, words.instances, settings)


COMMANDS: dict[str, Callable[[Program, Settings, Namespace], int]] = {
    'plan': run_plan, 'check': run_check, 'compare': run_compare, 'show': run_show,
    'tree': run_tree, 'explain': run_explain, 'what-if': run_what_if, 'table': run_table,
}


def main(arguments: list[str]) -> int:
    """Runs the desk; answers with its status."""
    soften_streams()
    stop_on_signals()
    words = parser_of().parse_args(arguments)
    if words.command == 'what-if':
        words.limits, words.colours_per_slab = words.colours_per_slab, None
    try:
        return run(words)
    except Trouble as trouble:
        complain(f'desk: {trouble}')
        return trouble.status
    except OSError as error:
        return broken(error)
    except KeyboardInterrupt:
        complain('desk: stopped')
        return Exit.STOPPED
    except Exception:
        complain(f'desk: The desk has a fault.\n{traceback.format_exc()}')
        return Exit.DESK_FAULT


def broken(error: OSError) -> int:
    """What to do where the system refuses to read or to write."""
    if isinstance(error, BrokenPipeError):
        os.dup2(os.open(os.devnull, os.O_WRONLY), sys.stdout.fileno())
        return Exit.DONE
    complain(f'desk: {error.filename or "writing"}: {error.strerror}')
    return Exit.WRITING
