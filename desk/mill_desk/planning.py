"""`desk plan`, `desk check` and `desk show`: from an answer to files that were checked twice."""

import shlex
from collections.abc import Mapping, Sequence
from dataclasses import dataclass
from pathlib import Path

from mill_desk import picture, rendering, sheets, verdicts, workbook
from mill_desk.answer import Answer, plan_answer, read_answer
from mill_desk.console import say
from mill_desk.numbers import plural, show_plain
from mill_desk.orders import read_problem
from mill_desk.output import Output, choose_folder, output_folder
from mill_desk.page import Fact, plan_page
from mill_desk.plan import Slab, loss_in_steps, slabs_of, totals_of
from mill_desk.plan_table import PlanTable, read_plan
from mill_desk.problem import Problem, what_was_read
from mill_desk.program import NOT_SERVED, Program, Run, hashed
from mill_desk.search import answer_of, failed, judge, search
from mill_desk.settings import Settings
from mill_desk.trouble import DeskFault, Exit, Trouble
from mill_desk.wording import Verdict, line_sentence

PLAN_FILES = frozenset({'plan.xlsx', 'plan.csv', 'plan.html', 'plan.svg', 'plan.png',
                        'instance.txt', 'answer.txt'})
CHECK_FILES = frozenset({'check.html', 'instance.txt', 'answer.txt'})


@dataclass(frozen=True)
class Result:
    """A plan with what was said of it, ready to be written."""

    problem: Problem
    answer: Answer
    slabs: list[Slab]
    verdict: Verdict
    facts: list[Fact]

    @property
    def further(self) -> list[str]:
        """What stands below the verdict."""
        return verdicts.further_lines(self.problem, self.slabs)


def plan(program: Program, orders: Path, settings: Settings, prove: bool) -> int:
    """Solves, or proves and verifies; writes the plan."""
    folder = choose_folder(settings.out or Path(f'{orders.stem}-plan'), PLAN_FILES, [orders])
    problem = read_problem(orders, settings)
    say(f'Read {what_was_read(problem)}.')
    run = search(program, problem, settings, 'prove' if prove else 'solve', say)
    if run.status == 1:
        raise DeskFault('it finds no order that is too heavy, and the program says infeasible')
    answer = answer_of(program, problem, run)
    verified = verify(program, problem, answer) if answer.log is not None else None
    slabs = slabs_of(problem, answer.plan)
    recount(problem, answer, slabs)
    facts = run_facts(program, problem, answer, run, verified, folder.target)
    result = Result(problem, answer, slabs,
                    verdicts.of_answer(program, problem, answer, verified is not None), facts)
    with output_folder(folder) as output:
        left_out = write_plan(output, program, result)
        paths = output.publish()
    if prove and verified is None:
        left_out.append('there is no proof to verify, since the budget ended first')
    tell(result, paths, left_out)
    return run.status


def verify(program: Program, problem: Problem, answer: Answer) -> Run:
    """The run of `verify` that accepted the proof; anything else ends the command."""
    run = judge(program, problem, 'verify', answer.text)
    if run.status == 0 and run.line == f'verified loss {answer.loss}':
        return run
    if run.status == 8:
        raise Trouble(Exit.REJECTED, f'verify rejected what prove gave; nothing was written. '
                      f'{line_sentence(run.line)}')
    raise failed(run)


def recount(problem: Problem, answer: Answer, slabs: Sequence[Slab]) -> None:
    """Counts loads, colours and loss anew; refuses to go on where the program said otherwise."""
    counted = loss_in_steps(problem, answer.plan)
    wrong = [slab for slab in slabs if not slab.is_legal]
    if wrong or counted != answer.loss:
        raise DeskFault(f'its own count of the plan differs from the program\'s: it finds '
                        f'{plural(len(wrong), "slab")} not legal and a loss of {counted} steps, '
                        f'the program says {answer.loss}')
    if not problem.rounded and totals_of(slabs).loss != answer.loss * problem.step:
        raise DeskFault('the loss in the table\'s numbers isn\'t the one in steps')


def write_plan(output: Output, program: Program, result: Result) -> list[str]:
    """Writes the files of a plan and reads the tables back; says which files are left out."""
    problem, slabs = result.problem, result.slabs
    output.path('instance.txt').write_text(problem.instance_text(), encoding='ascii')
    output.path('answer.txt').write_text(result.answer.text, encoding='ascii')
    tables = [output.path('plan.csv')]
    sheets.write_csv(tables[0], sheets.plan_rows(problem, slabs))
    left_out = []
    if workbook.is_installed():
        tables.append(output.path('plan.xlsx'))
        sheets.write_workbook(tables[1], problem, slabs, statement_of(result))
    else:
        left_out.append(f'plan.xlsx is left out: {workbook.NEEDED}')
    for path in tables:
        read_back(program, result, path)
    if rendering.is_installed():
        page = plan_page(problem, slabs, result.verdict, result.facts, further=result.further)
        output.path('plan.html').write_text(page, encoding='utf-8')
        output.path('plan.svg').write_text(
            picture.slide(problem, slabs, result.verdict), encoding='utf-8')
        picture.write_png(output.path('plan.svg'), output.path('plan.png'))
    else:
        left_out.append(f'plan.html and plan.svg are left out: {rendering.NEEDED}')
    return left_out


def read_back(program: Program, result: Result, path: Path) -> None:
    """Reads a written plan and has it judged: it must be the plan, and lose what was said."""
    problem, answer = result.problem, result.answer
    again = read_plan(path, problem, Settings())
    if slab_sets(again.plan) != slab_sets(answer.plan):
        raise DeskFault(f'{path.name} doesn\'t read back as the plan')
    run = judge(program, problem, 'check', plan_answer(answer.loss, list(again.plan)))
    if run.status != 0 or run.line != f'legal loss {answer.loss}':
        raise DeskFault(f'{path.name} was read back, and check said: {run.line}')


def slab_sets(plan: Sequence[int]) -> set[frozenset[int]]:
    """The slabs of a plan as sets of orders, whatever their numbers."""
    found: dict[int, set[int]] = {}
    for order, slab in enumerate(plan):
        found.setdefault(slab, set()).add(order)
    return {frozenset(orders) for orders in found.values()}


def statement_of(result: Result) -> list[tuple[str, str]]:
    """What the workbook says of its plan."""
    problem = result.problem
    rows = [('verdict', result.verdict.headline), ('explained', result.verdict.text)]
    rows += [('further', line) for line in result.further]
    rows += [('loss', show_plain(totals_of(result.slabs).loss)), ('unit', problem.unit)]
    rows += [(fact.name, fact.value) for fact in result.facts]
    return rows + [('note', note) for note in problem.notes]


def tell(result: Result, paths: Sequence[Path], left_out: Sequence[str]) -> None:
    """Says what came out, and where it was written."""
    say(result.verdict.headline)
    for line in (result.verdict.text, *result.further):
        if line:
            say(line)
    if all(slab.is_legal for slab in result.slabs):
        say(verdicts.in_short(result.problem, result.slabs) + '.')
    for note in result.problem.notes:
        say(f'Note: {note}.')
    for line in left_out:
        say(f'Note: {line}.')
    say(f'Written to {paths[0].parent}: ' + ', '.join(path.name for path in paths))


def run_facts(program: Program, problem: Problem, answer: Answer, run: Run,
              verified: Run | None, target: Path) -> list[Fact]:
    """How the plan was found, where each value came from, and the commands that repeat it."""
    facts = source_facts(problem)
    facts.append(Fact('found in', f'{run.seconds:.2f} s'
                      + (f', verified in {verified.seconds:.2f} s' if verified else '')))
    facts.append(place_fact(program, target))
    facts.append(Fact('repeat it', f'{shlex.quote(program.name)} {" ".join(run.words)} '
                      '< "$DIR/instance.txt" > "$DIR/answer.txt"', is_code=True))
    facts.append(again_fact(program, problem, 'verify' if verified is not None else 'check'))
    missing = [f'{word} ({use})' for word, use in NOT_SERVED.items()]
    facts.append(Fact('not used', f'{", ".join(missing)}: the desk doesn\'t call these yet'))
    return facts + digest_facts(program, {'instance.txt': problem.instance_text(),
                                          'answer.txt': answer.text})


def place_fact(program: Program, target: Path) -> Fact:
    """Where the commands run that repeat a run: no folder holds the program and its texts."""
    place = 'run them in the folder that holds ./mill_slab, and ' if program.is_ours else ''
    return Fact('the commands', f'{place}set DIR to the folder of this page (it was written to '
                f'{target})')


def again_fact(program: Program, problem: Problem, command: str = 'check',
               answer: str = 'answer.txt', name: str = 'it') -> Fact:
    """The command that judges an answer again."""
    return Fact(f'check {name} again', f'cat "$DIR/instance.txt" "$DIR/{answer}" | '
                f'{shlex.quote(program.name)} {command} --colours {problem.limit}', is_code=True)


def source_facts(problem: Problem) -> list[Fact]:
    """Where the values of the run come from."""
    facts = [Fact(source.name, f'{source.value} ({source.origin})' if source.value
                  else source.origin) for source in problem.sources]
    rounding = ('weights were rounded up to it, sizes down' if problem.rounded else
                'all weights and sizes are whole multiples of it; nothing was rounded')
    return facts + [Fact('one step', f'{problem.amount(problem.step)}: {rounding}')]


def digest_facts(program: Program, texts: Mapping[str, str | bytes]) -> list[Fact]:
    """The program, and the digests of what the run rests on: the program and texts by name."""
    named = f'{program.name} ' + ('(proved and built by it)' if program.is_ours else
                                  '(nothing is claimed for it)')
    return [Fact('program', named),
            Fact('SHA-256 of the program', program.sha256(), is_code=True),
            *(Fact(f'SHA-256 of {name}', hashed(text), is_code=True)
              for name, text in texts.items())]


def check(program: Program, orders: Path, plan_path: Path, settings: Settings) -> int:
    """Judges a plan from a table."""
    folder = choose_folder(settings.out or Path(f'{plan_path.stem}-check'), CHECK_FILES,
                           [orders, plan_path])
    problem = read_problem(orders, settings)
    say(f'Read {what_was_read(problem)}.')
    table = read_plan(plan_path, problem, settings)
    result, run = judged(program, problem, table)
    result.facts.extend(check_facts(program, result, table.name, folder.target))
    heading = f'Check of {table.name}'
    with output_folder(folder) as output:
        left_out = write_check(output, result, heading)
        paths = output.publish()
    tell(result, paths, left_out)
    return run.status


def judged(program: Program, problem: Problem, table: PlanTable) -> tuple[Result, Run]:
    """What `check` says of the plan of a table, beside the desk's own count."""
    slabs = slabs_of(problem, table.plan, table.slab_names)
    counted = loss_in_steps(problem, table.plan)
    text = plan_answer(counted or 0, list(table.plan))
    run = judge(program, problem, 'check', text)
    if run.status not in (0, 8):
        raise failed(run)
    rows = {order.id: row for order, row in zip(problem.orders, table.rows, strict=True)}
    answer = read_answer(text, len(problem.orders))
    if answer is None:
        raise DeskFault('it can\'t read the answer that it wrote')
    verdicts.refuse_other_count(problem, answer, run)
    return Result(problem, answer, slabs, verdicts.of_check(program, problem, run, slabs, rows),
                  source_facts(problem)), run


def check_facts(program: Program, result: Result, name: str, target: Path) -> list[Fact]:
    """The plan's file, the command that judges it again, and the digests."""
    problem = result.problem
    return [Fact('plan', name), place_fact(program, target), again_fact(program, problem),
            *digest_facts(program, {'instance.txt': problem.instance_text(),
                                    'answer.txt': result.answer.text})]


def write_check(output: Output, result: Result, heading: str) -> list[str]:
    """Writes the page of a check, and the texts for the sceptic."""
    output.path('instance.txt').write_text(result.problem.instance_text(), encoding='ascii')
    output.path('answer.txt').write_text(result.answer.text, encoding='ascii')
    if not rendering.is_installed():
        return [f'check.html is left out: {rendering.NEEDED}']
    page = plan_page(result.problem, result.slabs, result.verdict, result.facts, heading,
                     result.further)
    output.path('check.html').write_text(page, encoding='utf-8')
    return []


