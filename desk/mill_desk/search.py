"""Runs the search: once, or in growing budgets for some minutes."""

import time
from collections.abc import Callable

from mill_desk.answer import Answer, Kind, read_answer
from mill_desk.numbers import plural, show
from mill_desk.problem import Problem
from mill_desk.program import Program, Run, RunStopped
from mill_desk.settings import Settings
from mill_desk.trouble import DeskFault, Exit, Trouble, WordsTrouble
from mill_desk.wording import line_sentence, status_sentence

FIRST_BUDGET = 20_000
GROWTH = 4
MOST_NODES = 1_000_000_000
Say = Callable[[str], None]


def search_words(command: str, problem: Problem, settings: Settings,
                 nodes: int | None) -> list[str]:
    """The words of a search; the colours are always said."""
    words = [command, '--colours', str(problem.limit)]
    for name, value in (('--nodes', nodes), ('--workers', settings.workers),
                        ('--moves', settings.moves)):
        if value is not None:
            words += [name, str(value)]
    return words


def search(program: Program, problem: Problem, settings: Settings, command: str,
           say: Say) -> Run:
    """The run whose answer is kept."""
    data = problem.instance_text().encode()
    if settings.minutes is None:
        try:
            return program.run(search_words(command, problem, settings, settings.nodes), data)
        except RunStopped:
            raise Trouble(Exit.STOPPED, 'Stopped; nothing was written. The program tells its best '
                          'plan at its end alone: give it fewer --nodes, or --minutes, which '
                          'keeps the best finished answer.') from None
    return growing_search(program, problem, settings, command, say)


def growing_search(program: Program, problem: Problem, settings: Settings, command: str,
                   say: Say) -> Run:
    """Budgets of 20,000, 80,000, .. nodes until the time is up; the best finished one is kept."""
    data = problem.instance_text().encode()
    until = time.monotonic() + float(60 * (settings.minutes or 0))
    best: tuple[int, Run] | None = None
    nodes = FIRST_BUDGET
    while True:
        words = search_words(command, problem, settings, nodes)
        try:
            run = program.run(words, data, until - time.monotonic())
        except RunStopped as stopped:
            return kept(best, nodes, stopped, say)
        answer = read_answer(run.output, len(problem.orders))
        if run.status not in (0, 4) or answer is None:
            return run
        say(f'{show(nodes)} nodes: loses {problem.amount_of_steps(answer.loss)}, '
            f'{run.seconds:.1f} s')
        if best is None or answer.loss <= best[0] or run.status == 0:
            best = answer.loss, run
        if run.status == 0 or answer.loss == 0 or nodes == MOST_NODES:
            return best[1]
        nodes = min(GROWTH * nodes, MOST_NODES)


def kept(best: tuple[int, Run] | None, nodes: int, stopped: RunStopped, say: Say) -> Run:
    """The best finished run where the last one was stopped."""
    why = 'stopped by Ctrl-C' if stopped.by_user else 'the time is up'
    if best is None:
        raise Trouble(Exit.STOPPED, f'{why[0].upper()}{why[1:]} before the first budget of '
                      f'{plural(nodes, "node")} ended; nothing was written.')
    say(f'{show(nodes)} nodes: {why}; the best finished answer is kept')
    return best[1]


def answer_of(program: Program, problem: Problem, run: Run) -> Answer:
    """The answer of a search that found a plan; else what the program said, as it is."""
    answer = read_answer(run.output, len(problem.orders))
    if answer is not None and run.status in (0, 4) and answer.kind is not Kind.INFEASIBLE:
        return answer
    if run.status == 2:
        raise WordsTrouble(not_served(program, run))
    if run.status == 3:
        raise DeskFault('the program refused the instance that it wrote. '
                        + line_sentence(run.line))
    raise failed(run)


def not_served(program: Program, run: Run) -> str:
    """Which word of a run the program doesn't serve."""
    command, *options = run.words
    if not program.serves([command]):
        return f'{program.name} doesn\'t serve {command}.'
    pairs = [options[i:i + 2] for i in range(0, len(options), 2)]
    wrong = [' '.join(pair) for pair in pairs if not program.serves([command, *pair])]
    listed = ' and '.join(wrong) or ' '.join(run.words)
    return f'{program.name} doesn\'t serve {listed} yet; leave it out.'


def failed(run: Run) -> Trouble:
    """What to say of a run that gave no answer: its status, its files, and its output as it is."""
    said = status_sentence(run.status)
    if run.status == 5:
        said += f' It read {run.files[0]}.'
    if run.status == 6:
        said += f' It wrote {run.files[1]}.'
    shown = run.output.strip()
    told = f'{said} (mill_slab {run.words[0]}, status {run.status})'
    return Trouble(run.status if run.status > 0 else Exit.DESK_FAULT,
                   f'{told}\n{shown}' if shown else told)


def judge(program: Program, problem: Problem, command: str, answer: str) -> Run:
    """What `check` or `verify` says of an answer to the problem."""
    data = (problem.instance_text() + answer).encode()
    try:
        return program.run([command, '--colours', str(problem.limit)], data)
    except RunStopped:
        raise Trouble(Exit.STOPPED, f'Stopped in {command}; nothing was written.') from None
