"""`desk show` and `desk tree`: pages for the program's own texts."""

import shlex
from collections.abc import Sequence
from dataclasses import dataclass
from pathlib import Path

from mill_desk import picture, rendering, verdicts
from mill_desk.answer import Answer, Kind, read_answer
from mill_desk.console import say
from mill_desk.explain import Texts, complain_of, read_texts
from mill_desk.log_tree import LogTree
from mill_desk.numbers import plural
from mill_desk.output import choose_folder, output_folder
from mill_desk.page import Fact, plan_page
from mill_desk.plan import slabs_of
from mill_desk.planning import digest_facts
from mill_desk.problem import Problem, problem_of_instance, what_was_read
from mill_desk.program import Program, Run, RunStopped
from mill_desk.search import failed
from mill_desk.settings import Settings
from mill_desk.tree_page import tree_page
from mill_desk.trouble import DeskFault, Exit, Trouble
from mill_desk.wording import Case, Verdict, line_sentence, read_line, verdict

SHOW_FILES = frozenset({'plan.html', 'plan.svg'})
TREE_FILES = frozenset({'tree.html'})


@dataclass(frozen=True)
class Judged:
    """Two texts that the program read, and what it said of them."""

    problem: Problem
    answer: Answer
    run: Run
    facts: list[Fact]


def judge_texts(program: Program, texts: Texts, settings: Settings) -> Judged:
    """Has the program judge the answer: by `verify` where it has a log, else by `check`."""
    words = [texts.command, '--colours', str(settings.colours_per_slab)]
    try:
        run = program.run(words, texts.joined)
    except RunStopped:
        raise Trouble(Exit.STOPPED, f'Stopped in {texts.command}; nothing was written.') from None
    if run.status == 3:
        raise Trouble(3, complain_of(texts, run))
    if run.status not in (0, 8):
        raise failed(run)
    problem = problem_of_instance(texts.instance.decode('ascii'), settings.title or texts.name,
                                  settings.colours_per_slab)
    answer = read_answer(texts.answer_text, len(problem.orders))
    if answer is None:
        raise DeskFault('it can\'t read an answer that the program read')
    verdicts.refuse_other_count(problem, answer, run)
    facts = [Fact('texts', f'{texts.instance_name}, {texts.answer_name}'),
             Fact('check it again', again_command(program, texts, words), is_code=True),
             *digest_facts(program, {texts.instance_name: texts.instance,
                                     texts.answer_name: texts.answer})]
    return Judged(problem, answer, run, facts)


def again_command(program: Program, texts: Texts, words: Sequence[str]) -> str:
    """What judges the texts again; it runs anywhere, or for `./mill_slab` in the folder of it."""
    paths = [shlex.quote(str(Path(name).absolute()))
             for name in (texts.instance_name, texts.answer_name)]
    is_whole = texts.joined == texts.instance + texts.answer
    both = f'cat {" ".join(paths)}' if is_whole else f'(cat {paths[0]}; echo; cat {paths[1]})'
    return f'{both} | {shlex.quote(program.name)} {" ".join(words)}'


def show_texts(program: Program, instance: Path, answer: Path, settings: Settings) -> int:
    """The page and the picture of an answer."""
    folder = choose_folder(settings.out or Path(f'{instance.stem}-plan'), SHOW_FILES,
                           [instance, answer])
    texts = read_texts(instance, answer)
    judged = judge_texts(program, texts, settings)
    problem, run = judged.problem, judged.run
    if problem.orders:
        say(f'Read {what_was_read(problem)}.')
    slabs = slabs_of(problem, judged.answer.plan) if judged.answer.plan else []
    said = verdict_of(program, judged)
    further = verdicts.further_lines(problem, slabs)
    with output_folder(folder) as output:
        page = plan_page(problem, slabs, said, judged.facts, further=further)
        output.path('plan.html').write_text(page, encoding='utf-8')
        if slabs and all(slab.is_legal for slab in slabs):
            output.path('plan.svg').write_text(picture.slide(problem, slabs, said),
                                               encoding='utf-8')
        paths = output.publish()
    for line in (said.headline, said.text, *further):
        if line:
            say(line)
    say(f'Written to {folder.target}: ' + ', '.join(path.name for path in paths))
    return run.status


def verdict_of(program: Program, judged: Judged) -> Verdict:
    """What is said of an answer from anywhere."""
    if judged.answer.kind is Kind.INFEASIBLE and judged.run.status == 0:
        return verdicts.of_infeasible(program, judged.problem)
    slabs = slabs_of(judged.problem, judged.answer.plan) if judged.answer.plan else []
    made = verdicts.of_check(program, judged.problem, judged.run, slabs, {})
    if made.case is Case.VERIFIED:
        return verdict(Case.VERIFIED, verdicts.speaker(program, judged.problem),
                       loss=judged.problem.amount(judged.answer.loss),
                       records=plural(len(judged.answer.log or ()), 'record'))
    return made


def show_tree(program: Program, instance: Path, answer: Path, settings: Settings) -> int:
    """The tree of the log of an answer."""
    if not rendering.is_installed():
        raise Trouble(Exit.NO_PROGRAM, rendering.NEEDED)
    folder = choose_folder(settings.out or Path(f'{answer.stem}-tree'), TREE_FILES,
                           [instance, answer])
    texts = read_texts(instance, answer)
    if texts.command != 'verify':
        raise Trouble(Exit.TABLE, f'{answer.name} has no log; ask for one by prove')
    judged = judge_texts(program, texts, settings)
    if judged.answer.log is None:
        raise DeskFault('it can\'t find the log of an answer')
    tree = LogTree(judged.problem, judged.answer.log, judged.answer.loss)
    said = verdict_of(program, judged)
    refuse_doubt(tree, judged.run)
    with output_folder(folder) as output:
        page = tree_page(judged.problem, tree, said, judged.facts)
        output.path('tree.html').write_text(page, encoding='utf-8')
        output.publish()
    say(said.headline)
    say(said.text or line_sentence(judged.run.line))
    say(f'Written to {folder.target / "tree.html"}')
    return judged.run.status


def refuse_doubt(tree: LogTree, run: Run) -> None:
    """Ends the command where the desk's own reading of the log differs from `verify`'s."""
    line = read_line(run.line)
    about_log = line is not None and line.form in verdicts.ABOUT_LOGS
    unclear = any(tree.is_sound(record) is None for record in tree.records.values())
    if about_log and not unclear and tree.verify_line() != run.line:
        raise DeskFault(f'it reads the log as {tree.verify_line()}, and verify said: {run.line}')
