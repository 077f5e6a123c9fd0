"""`desk table`: proves each instance, and writes a row of CSV for it."""

import csv
import sys
from collections.abc import Sequence
from pathlib import Path

from mill_desk.answer import Answer, read_answer
from mill_desk.problem import Problem, problem_of_instance
from mill_desk.program import Program, Run, RunStopped
from mill_desk.search import search_words
from mill_desk.settings import Settings
from mill_desk.tables import read_bytes
from mill_desk.trouble import Exit, Trouble, WordsTrouble

HEADERS = ('instance', 'n', 'sizes', 'p', 'status', 'loss', 'spent', 'seconds', 'records',
           'log bytes', 'verify', 'verify seconds', 'line')


def runs_table(program: Program, instances: Sequence[Path], settings: Settings) -> int:
    """Writes the rows to standard output as they come."""
    if settings.minutes is not None:
        raise WordsTrouble('desk table takes --nodes, so that its rows can be compared')
    writer = csv.writer(sys.stdout, lineterminator='\n')
    writer.writerow(HEADERS)
    for path in instances:
        writer.writerow(row_of(program, path, settings))
        sys.stdout.flush()
    return Exit.DONE


def row_of(program: Program, path: Path, settings: Settings) -> list[str]:
    """The row of an instance; one that is refused has the program's line alone."""
    instance = read_bytes(path)
    limit = settings.colours_per_slab
    words = search_words('prove', Problem('', (), {}, (), limit), settings, settings.nodes)
    run = stopped_as_trouble(program, words, instance)
    if run.status not in (0, 1, 4):
        return [str(path), '', '', str(limit), str(run.status), '', '', f'{run.seconds:.3f}', '',
                '', '', '', run.line]
    problem = problem_of_instance(instance.decode('ascii'), path.stem, limit)
    answer = read_answer(run.output, len(problem.orders))
    row = [str(path), str(len(problem.orders)), str(len(problem.sizes)), str(limit),
           str(run.status)]
    if answer is None or run.status == 1:
        return [*row, '', '', f'{run.seconds:.3f}', '', '', '', '',
                ' '.join(run.output.split('\n')).strip()]
    return [*row, str(answer.loss), str(answer.spent) if run.status == 4 else '',
            f'{run.seconds:.3f}', *proof_cells(program, instance, answer, limit)]


def proof_cells(program: Program, instance: bytes, answer: Answer, limit: int) -> list[str]:
    """The records, the bytes of the log, and what `verify` says of it."""
    if answer.log is None:
        return ['', '', '', '', '']
    log = answer.text[answer.text.index('\nlog ') + 1:]
    run = stopped_as_trouble(program, ['verify', '--colours', str(limit)],
                             instance + b'\n' + answer.text.encode())
    return [str(len(answer.log)), str(len(log)), run.line, f'{run.seconds:.3f}', '']


def stopped_as_trouble(program: Program, words: list[str], data: bytes) -> Run:
    """Runs the program; Ctrl-C ends the table."""
    try:
        return program.run(words, data)
    except RunStopped:
        raise Trouble(Exit.STOPPED, 'Stopped; the rows above are whole.') from None
