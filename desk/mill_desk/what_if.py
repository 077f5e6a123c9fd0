"""`desk what-if`: what other sizes, or other numbers of colours, would lose."""

import csv
import re
import sys
from collections.abc import Sequence
from dataclasses import dataclass, replace
from fractions import Fraction
from pathlib import Path

from mill_desk.console import complain, plain, say
from mill_desk.numbers import percent, show, show_plain
from mill_desk.orders import read_problem
from mill_desk.output import choose_folder, output_folder
from mill_desk.plan import slabs_of, totals_of
from mill_desk.planning import recount, verify
from mill_desk.problem import what_was_read
from mill_desk.program import Program
from mill_desk.search import answer_of, search
from mill_desk.settings import Settings, WrongValue, positive
from mill_desk.trouble import Exit, WordsTrouble
from mill_desk.verdicts import of_answer
from mill_desk.wording import Case

WHAT_IF_FILES = frozenset({'what-if.csv'})
HEADERS = ('sizes', 'colours a slab', 'loss', 'of the steel', 'slabs', 'what is proved', 'seconds')
ROUNDED_HEADER = 'rounded loss'
WIDTHS = {'sizes': 16, 'colours a slab': 14, 'loss': 10, ROUNDED_HEADER: 12, 'of the steel': 15,
          'slabs': 6, 'what is proved': 50, 'seconds': 8}
AT_LEFT = ('sizes', 'what is proved')
PROVED = {
    Case.OPTIMAL: 'no legal plan loses less',
    Case.VERIFIED: 'no legal plan loses less; the proof was verified',
    Case.FEASIBLE: 'a legal plan; a better one may exist',
    Case.NO_LOSS: 'loses nothing, so none is better',
}


@dataclass(frozen=True)
class Variant:
    """What is asked: sizes that are added, and how many colours a slab may have."""

    added: tuple[Fraction, ...]
    limit: int

    @property
    def sizes(self) -> str:
        """The sizes in words."""
        return 'as given' if not self.added else ' and '.join(show(size) for size in self.added) \
            + ' added'


def read_limits(text: str | None, default: int) -> list[int]:
    """Numbers of colours: `2`, `1-4` or `1,3`."""
    if text is None:
        return [default]
    limits: list[int] = []
    for part in text.split(','):
        found = re.fullmatch(r'\s*([1-8])\s*(?:-\s*([1-8])\s*)?', part, re.ASCII)
        if not found or int(found[1]) > int(found[2] or 8):
            raise WordsTrouble(f'--colours-per-slab: "{text}" must be as 2, 1-4 or 1,3, within '
                               '1 to 8')
        limits += range(int(found[1]), int(found[2] or found[1]) + 1)
    return sorted(set(limits))


def read_added(texts: Sequence[str]) -> list[tuple[Fraction, ...]]:
    """No added size, and each added size alone."""
    added: list[tuple[Fraction, ...]] = [()]
    for text in texts:
        try:
            added.append((positive(text),))
        except WrongValue as wrong:
            raise WordsTrouble(f'--add-size: "{text}" {wrong}') from None
    return added


def what_if(program: Program, orders: Path, settings: Settings, sizes: Sequence[str],
            limits: str | None, prove: bool) -> int:
    """Prints a row for each variant as it comes; with --out also writes what-if.csv."""
    variants = [Variant(added, limit) for added in read_added(sizes)
                for limit in read_limits(limits, settings.colours_per_slab)]
    folder = None if settings.out is None else choose_folder(settings.out, WHAT_IF_FILES, [orders])
    problem = read_problem(orders, settings)
    say(f'Read {what_was_read(problem)}.')
    if not program.is_ours:
        say(f'{program.name} answers; nothing is claimed for it.')
    headers = headers_of(problem.rounded)
    rows = [headers]
    print_row(headers, headers)
    for variant in variants:
        row = row_of(program, orders, settings, variant, prove)
        rows.append(row)
        print_row(headers, row)
    if folder is not None:
        with output_folder(folder) as output:
            with output.path('what-if.csv').open('w', newline='', encoding='utf-8-sig') as stream:
                csv.writer(stream).writerows([[plain(cell) for cell in row] for row in rows])
            output.publish()
        say(f'Written to {folder.target / "what-if.csv"}')
    return Exit.DONE


def headers_of(rounded: bool) -> tuple[str, ...]:
    """The headers; where numbers were rounded, what is lost in these stands beside the loss."""
    return (*HEADERS[:3], ROUNDED_HEADER, *HEADERS[3:]) if rounded else HEADERS


def row_of(program: Program, orders: Path, settings: Settings, variant: Variant,
           prove: bool) -> tuple[str, ...]:
    """The row of a variant."""
    problem = read_problem(orders, replace(settings, colours_per_slab=variant.limit),
                           variant.added)
    run = search(program, problem, settings, 'prove' if prove else 'solve', complain)
    answer = answer_of(program, problem, run)
    slabs = slabs_of(problem, answer.plan)
    recount(problem, answer, slabs)
    if answer.log is not None:
        verify(program, problem, answer)
    case = of_answer(program, problem, answer, answer.log is not None).case
    sums = totals_of(slabs)
    proved = PROVED[case] if program.is_ours else f'the program says {answer.kind.value}'
    losses = [show_plain(sums.loss)]
    if problem.rounded:
        losses.append(show_plain(answer.loss * problem.step))
        proved = f'in the rounded numbers: {proved}'
    return (variant.sizes, str(variant.limit), *losses, percent(sums.loss, sums.steel),
            str(sums.slabs), proved, f'{run.seconds:.2f}')


def print_row(headers: Sequence[str], row: Sequence[str]) -> None:
    """A row in columns."""
    cells = [cell.ljust(WIDTHS[header]) if header in AT_LEFT else cell.rjust(WIDTHS[header])
             for header, cell in zip(headers, row, strict=True)]
    print('  '.join(plain(cell) for cell in cells).rstrip(), file=sys.stdout, flush=True)
