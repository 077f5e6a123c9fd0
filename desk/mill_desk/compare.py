"""`desk compare`: two plans of one table of orders, side by side."""

from collections.abc import Sequence
from dataclasses import dataclass
from fractions import Fraction
from pathlib import Path

from mill_desk.bars import Bar, Scale, bars_of, room_of, scale_of
from mill_desk.console import say
from mill_desk.numbers import plural, show
from mill_desk.orders import read_problem
from mill_desk.output import choose_folder, output_folder
from mill_desk.page import Fact, subtitle, unit_of
from mill_desk.palette import shades
from mill_desk.plan import Slab, totals_of
from mill_desk.plan_table import own_settings, read_plan
from mill_desk.planning import (Result, again_fact, digest_facts, judged, place_fact,
                                source_facts)
from mill_desk.problem import Problem, what_was_read
from mill_desk.program import Program, hashed
from mill_desk.rendering import render
from mill_desk.settings import Settings
from mill_desk.trouble import Exit
from mill_desk.verdicts import speaker
from mill_desk.wording import Case, Verdict, verdict

COLUMN_CHARACTERS = 52
ANSWERS = ('answer-1.txt', 'answer-2.txt')
COMPARE_FILES = frozenset({'compare.html', 'instance.txt', *ANSWERS})


@dataclass(frozen=True)
class Side:
    """One of the two plans: its file, and its slabs by what is on them."""

    name: str
    result: Result

    @property
    def sets(self) -> dict[frozenset[str], Slab]:
        """The slabs by the ids of their orders."""
        return {frozenset(order.id for order in slab.orders): slab for slab in self.result.slabs}

    @property
    def loss(self) -> Fraction:
        """What the plan loses."""
        return totals_of(self.result.slabs).loss


@dataclass(frozen=True)
class Half:
    """A side of the page: the slabs that the other plan doesn't have, and what they lose."""

    name: str
    loss: str
    bars: tuple[Bar, ...]


@dataclass(frozen=True)
class Move:
    """An order whose slab differs, with its slab in each plan."""

    id: str
    weight: str
    colour: str
    shade: str
    slabs: tuple[str, str]


def compare(program: Program, orders: Path, plans: Sequence[Path], settings: Settings) -> int:
    """Judges both plans, and writes the page that compares them."""
    folder = choose_folder(settings.out or Path(f'{orders.stem}-compare'), COMPARE_FILES,
                           [orders, *plans])
    problem = read_problem(orders, settings)
    say(f'Read {what_was_read(problem)}.')
    sides = []
    for path, own in zip(plans, own_settings(plans, settings), strict=True):
        result, run = judged(program, problem, read_plan(path, problem, own))
        if run.status != 0:
            say(f'{path}: {result.verdict.headline} {result.verdict.text}')
            return Exit.REJECTED
        sides.append(Side(path.name, result))
    first, second = told_apart(sides, plans)
    said = verdict_of(program, problem, first, second)
    with output_folder(folder) as output:
        texts = {'instance.txt': problem.instance_text(),
                 **{name: side.result.answer.text
                    for name, side in zip(ANSWERS, (first, second), strict=True)}}
        for name, text in texts.items():
            output.path(name).write_text(text, encoding='ascii')
        facts = facts_of(program, problem, (first, second), plans, folder.target)
        facts += digest_facts(program, texts)
        output.path('compare.html').write_text(
            compare_page(problem, first, second, said, facts), encoding='utf-8')
        output.publish()
    say(f'{said.headline} {said.text}')
    say(f'Written to {folder.target / "compare.html"}')
    return Exit.DONE


def facts_of(program: Program, problem: Problem, sides: Sequence[Side], plans: Sequence[Path],
             target: Path) -> list[Fact]:
    """Where the values come from, the plans' files, and the commands that judge them again."""
    facts = source_facts(problem)
    facts += [Fact(f'SHA-256 of {path}', hashed(path.read_bytes()), is_code=True)
              for path in plans]
    facts.append(place_fact(program, target))
    return facts + [again_fact(program, problem, answer=answer, name=side.name)
                    for side, answer in zip(sides, ANSWERS, strict=True)]


def told_apart(sides: Sequence[Side], plans: Sequence[Path]) -> tuple[Side, Side]:
    """The two sides; where files are named alike, by their whole paths."""
    first, second = sides
    if first.name != second.name:
        return first, second
    return Side(str(plans[0]), first.result), Side(str(plans[1]), second.result)


def verdict_of(program: Program, problem: Problem, first: Side, second: Side) -> Verdict:
    """Which plan loses less."""
    less = first.loss - second.loss
    headline = 'Both lose the same.'
    if less:
        better = second if less > 0 else first
        headline = f'{better.name} loses {problem.amount(abs(less))} less.'
    parts = [f'{side.name}: {problem.amount(side.loss)} on '
             f'{plural(len(side.result.slabs), "slab")}.' for side in (first, second)]
    return verdict(Case.COMPARED, speaker(program, problem), better=headline,
                   losses=' '.join(parts))


def compare_page(problem: Problem, first: Side, second: Side, said: Verdict,
                 facts: Sequence[Fact]) -> str:
    """The page."""
    shared = first.sets.keys() & second.sets.keys()
    slabs = [*first.result.slabs, *second.result.slabs]
    scale = scale_of(problem, slabs, COLUMN_CHARACTERS)
    same = bars_of(scale, [slab for ids, slab in first.sets.items() if ids in shared])
    moves = moves_of(problem, first, second, shared)
    return render('compare.html', title=problem.name, subtitle=subtitle(problem, ()),
                  verdict=said, halves=[half_of(problem, scale, side, shared)
                                        for side in (first, second)],
                  same=[same[::2], same[1::2]], same_count=plural(len(same), 'slab'),
                  names=(first.name, second.name), moves=moves, unit=unit_of(problem),
                  moved=plural(len(moves), 'order'), facts=facts, notes=problem.notes,
                  room=room_of(problem, slabs))


def half_of(problem: Problem, scale: Scale, side: Side, shared: set[frozenset[str]]) -> Half:
    """The slabs of a side that the other doesn't have."""
    own = [slab for ids, slab in side.sets.items() if ids not in shared]
    loss = sum((slab.loss for slab in own), Fraction(0))
    return Half(side.name, problem.amount(loss), tuple(bars_of(scale, own)))


def moves_of(problem: Problem, first: Side, second: Side,
             shared: set[frozenset[str]]) -> list[Move]:
    """The orders that lie on slabs that differ."""
    still = {name for ids in shared for name in ids}
    where = [{order.id: slab.name for slab in side.result.slabs for order in slab.orders}
             for side in (first, second)]
    tint = shades(problem)
    return [Move(order.id, show(order.weight), problem.colours[order.colour], tint[order.colour],
                 (where[0][order.id], where[1][order.id]))
            for order in problem.orders if order.id not in still]
