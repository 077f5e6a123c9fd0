"""What is said of a plan: the case that the program's words come to, with names and amounts."""

from collections.abc import Sequence
from fractions import Fraction

from mill_desk.answer import Answer, Kind
from mill_desk.numbers import percent, plural
from mill_desk.plan import Slab, check_line, is_heavy_in_steps, totals_of
from mill_desk.problem import Order, Problem
from mill_desk.program import Program, Run
from mill_desk.trouble import DeskFault
from mill_desk.wording import HEAVY_IN_ROUNDED, ROUNDED, Case, Speaker, Verdict, read_line, verdict

MOST_LISTED = 30
ABOUT_LOGS = ('verified loss L', 'rejected missing k g1 .. gk', 'rejected stray k g1 .. gk',
              'rejected unsound k g1 .. gk')


def speaker(program: Program, problem: Problem) -> Speaker | None:
    """A program for which nothing is claimed; None for the one that is ours."""
    source = ' from the table' if problem.headers else ''
    return None if program.is_ours else Speaker(program.name, source)


def of_answer(program: Program, problem: Problem, answer: Answer, is_verified: bool) -> Verdict:
    """The verdict on an answer of `solve` or `prove`."""
    if answer.loss == 0:
        case = Case.NO_LOSS
    elif answer.kind is Kind.FEASIBLE:
        case = Case.FEASIBLE
    else:
        case = Case.VERIFIED if is_verified else Case.OPTIMAL
    return verdict(case, speaker(program, problem), problem.rounded,
                   loss=problem.amount_of_steps(answer.loss),
                   spent=plural(answer.spent, 'node'),
                   records=plural(len(answer.log or ()), 'record'))


def of_infeasible(program: Program, problem: Problem) -> Verdict:
    """The verdict where an order is heavier than the largest size, with every other such order."""
    heavy = problem.heavy_orders()
    first = heavy[0]
    listed = [f'{named(order)} {problem.amount(order.weight)}' for order in heavy]
    return verdict(Case.INFEASIBLE, speaker(program, problem), first=f'Order {named(first)}',
                   weight=problem.amount(first.weight), top=problem.amount(problem.sizes[-1]),
                   all=some_of(listed, '; '))


def named(order: Order) -> str:
    """An order with its cell, where it has one."""
    return order.id if order.place == f'order {order.id}' else f'{order.id} ({order.place})'


def of_check(program: Program, problem: Problem, run: Run, slabs: Sequence[Slab],
             rows: dict[str, int]) -> Verdict:
    """The verdict of `check` or `verify` on a plan; `rows` are the rows of the plan's orders."""
    said = read_line(run.line)
    by_number = {slab.number: slab for slab in slabs}
    who, rounded = speaker(program, problem), problem.rounded
    if said is None:
        return verdict(Case.OTHER, sentence=f'The program says: {run.line}', line=run.line)
    if said.form in ('legal loss L', 'verified loss L'):
        case = Case.LEGAL if said.form.startswith('legal') else Case.VERIFIED
        return verdict(case, who, rounded, loss=problem.amount_of_steps(said.number('L')),
                       records='its log')
    if 'S' in said.values and said.number('S') not in by_number:
        return verdict(Case.OTHER, who, sentence=said.sentence, line=run.line)
    if said.form == 'rejected heavy slab S load W':
        slab = by_number[said.number('S')]
        return verdict(Case.HEAVY, who, rounded, slab=slab.name,
                       top=problem.amount_of_steps(problem.size_steps[-1]),
                       weight=problem.amount_of_steps(said.number('W')),
                       where=where_heavy(problem, slabs), rows=orders_of(problem, slab, rows))
    if said.form == 'rejected colourful slab S colours C':
        slab = by_number[said.number('S')]
        return verdict(Case.COLOURFUL, who, slab=slab.name, colours=said.values['C'],
                       limit=plural(problem.limit, 'colour'), rows=orders_of(problem, slab, rows))
    if said.form == 'rejected loss stated A found B':
        return verdict(Case.LOSS, who, rounded, stated=problem.amount_of_steps(said.number('A')),
                       loss=problem.amount_of_steps(said.number('B')))
    return verdict(Case.OTHER, who, sentence=said.sentence, line=run.line)


def where_heavy(problem: Problem, slabs: Sequence[Slab]) -> str:
    """In which numbers a plan with a heavy slab isn't legal; '' where nothing was rounded."""
    if not problem.rounded:
        return ''
    wrong = sum(not slab.is_legal for slab in slabs)
    counted = 'every slab is legal' if not wrong else \
        f'{plural(wrong, "slab")} {"is" if wrong == 1 else "are"}n\'t legal either'
    return HEAVY_IN_ROUNDED.format(step=problem.amount(problem.step), counted=counted)


def refuse_other_count(problem: Problem, answer: Answer, run: Run) -> None:
    """Ends the command where the desk counts otherwise than `check` or `verify` says.

    A line that is in no table is shown as it is, but not where it accepts what the desk doesn't.
    """
    counted, said = check_line(problem, answer), read_line(run.line)
    is_good, is_accepted = not counted.startswith('rejected'), run.status == 0
    if said is None:
        agrees = is_good or not is_accepted
    elif is_good and run.words[0] == 'verify':
        agrees = said.form in ABOUT_LOGS and is_accepted == (
            run.line == f'verified loss {answer.loss}')
    else:
        agrees = run.line == counted and is_accepted == is_good
    if not agrees:
        raise DeskFault(f'its own count comes to "{counted}"; {run.words[0]} ended with status '
                        f'{run.status} and said: {run.line}')


def orders_of(problem: Problem, slab: Slab, rows: dict[str, int]) -> str:
    """The orders of a slab, each with its row, weight and colour."""
    listed = []
    for order in sorted(slab.orders, key=lambda order: rows.get(order.id, order.row)):
        row = f'row {rows[order.id]}, ' if order.id in rows else ''
        listed.append(f'{row}{order.id}: {problem.amount(order.weight)}, '
                      f'{problem.colours[order.colour]}')
    return some_of(listed, '; ')


def some_of(listed: list[str], between: str) -> str:
    """The first of a list, and how many more."""
    more = len(listed) - MOST_LISTED
    return between.join(listed[:MOST_LISTED]) + (f' and {more} more' if more > 0 else '')


def further_lines(problem: Problem, slabs: Sequence[Slab]) -> list[str]:
    """What stands below the verdict: further slabs that aren't legal, and what was rounded."""
    lines = []
    wrong = [slab for slab in slabs if not slab.is_legal]
    if len(wrong) > 1:
        listed = ', '.join(f'{slab.name} ({why_illegal(problem, slab)})' for slab in wrong)
        numbers = ' in the table\'s own numbers' if problem.rounded else ''
        lines.append(f'The desk\'s own count finds {len(wrong)} slabs that aren\'t legal'
                     f'{numbers}: {listed}.')
    heavy = any(is_heavy_in_steps(problem, slab) for slab in slabs)
    if problem.rounded and not wrong and not heavy:
        lines.append(ROUNDED.format(step=problem.amount(problem.step),
                                    true=problem.amount(totals_of(slabs).loss)))
    return lines


def why_illegal(problem: Problem, slab: Slab) -> str:
    """Why a slab isn't legal."""
    if slab.is_heavy:
        return f'weighs {problem.amount(slab.load)}'
    return plural(len(slab.colours), 'colour')


def in_short(problem: Problem, slabs: Sequence[Slab]) -> str:
    """The sums of a plan in a line, which are those of the table's own numbers."""
    sums = totals_of(slabs)
    whose = 'In the table\'s own numbers: ' if problem.rounded else ''
    share = f', {percent(sums.loss, sums.steel)} of it lost' if sums.steel else ''
    return (f'{whose}{plural(sums.slabs, "slab")}, {sums.losing} of them '
            f'{"loses" if sums.losing == 1 else "lose"} something; '
            f'{problem.amount(sums.steel or Fraction(0))} of steel{share}')
