"""The page of a plan: one HTML file that needs nothing beside it."""

from collections import Counter
from collections.abc import Sequence
from dataclasses import dataclass
from fractions import Fraction

from mill_desk.bars import bars_of, grid_of, room_of, scale_of, sort_key, ticks_of
from mill_desk.numbers import percent, plural, show
from mill_desk.palette import shades
from mill_desk.plan import Slab, totals_of
from mill_desk.problem import Problem
from mill_desk.rendering import render
from mill_desk.wording import Verdict


@dataclass(frozen=True)
class Figure:
    """A number that is shown large, and what it is."""

    value: str
    what: str
    is_loss: bool = False


@dataclass(frozen=True)
class Fact:
    """A row of the part on how the plan was found. Code is shown in a fixed width."""

    name: str
    value: str
    is_code: bool = False


@dataclass(frozen=True)
class Key:
    """A colour of the legend."""

    colour: int
    name: str
    shade: str
    count: int


@dataclass(frozen=True)
class SizeRow:
    """The slabs of one size."""

    size: str
    count: int
    steel: str
    loss: str
    keys: tuple[str, str, str]


@dataclass(frozen=True)
class OrderRow:
    """An order in the table of orders."""

    id: str
    weight: str
    colour: str
    shade: str
    slab: str
    size: str
    loss: str
    keys: tuple[str, str, str, str]


def subtitle(problem: Problem, slabs: Sequence[Slab]) -> str:
    """What the plan is of, in a line."""
    sizes = problem.sizes
    listed = (f'1 size, {problem.amount(sizes[0])}' if len(sizes) == 1 else
              f'{len(sizes)} sizes from {show(sizes[0])} to {problem.amount(sizes[-1])}')
    on = f' on {plural(len(slabs), "slab")}' if slabs else ''
    return (f'{plural(len(problem.orders), "order")} of {plural(len(problem.colours), "colour")}'
            f'{on}; {listed}; at most {plural(problem.limit, "colour")} a slab')


def figures_of(problem: Problem, slabs: Sequence[Slab]) -> list[Figure]:
    """The sums of the plan, in the table's own numbers."""
    sums = totals_of(slabs)
    lost = 'lost in the table\'s own numbers' if problem.rounded else 'lost'
    return [Figure(problem.amount(sums.loss), f'{lost}, {percent(sums.loss, sums.steel)} of the '
                   'steel', sums.loss > 0),
            Figure(problem.amount(sums.steel), 'of slabs to cast'),
            Figure(problem.amount(problem.weight), 'of orders'),
            Figure(show(sums.slabs), 'slabs' if sums.slabs != 1 else 'slab'),
            Figure(show(sums.losing), 'of them lose something')]


def legend_of(problem: Problem) -> list[Key]:
    """The colours, each with the number of its orders."""
    tint = shades(problem)
    count = Counter(order.colour for order in problem.orders)
    return [Key(colour, name, tint[colour], count[colour])
            for colour, name in sorted(problem.colours.items())]


def size_rows(problem: Problem, slabs: Sequence[Slab]) -> list[SizeRow]:
    """The sizes to cast, rising."""
    rows = []
    for size in problem.sizes:
        here = [slab for slab in slabs if slab.size == size]
        if here:
            loss = sum((slab.loss for slab in here), Fraction(0))
            steel = size * len(here)
            rows.append(SizeRow(show(size), len(here), show(steel), show(loss),
                                keys_of(problem, size, steel, loss)))
    return rows


def order_rows(problem: Problem, slabs: Sequence[Slab]) -> list[OrderRow]:
    """The orders as the table has them, each with its slab."""
    tint = shades(problem)
    where = {order.id: slab for slab in slabs for order in slab.orders}
    rows = []
    for order in problem.orders:
        slab = where[order.id]
        size = slab.size if slab.size is not None else Fraction(0)
        weight, size_key, loss = keys_of(problem, order.weight, size, slab.loss)
        rows.append(OrderRow(order.id, show(order.weight), problem.colours[order.colour],
                             tint[order.colour], slab.name,
                             show(size) if slab.size is not None else 'none', show(slab.loss),
                             (weight, str(slab.number), size_key, loss)))
    return rows


def keys_of(problem: Problem, *values: Fraction) -> tuple[str, str, str]:
    """What three columns are sorted by."""
    first, second, third = (sort_key(problem, value) for value in values)
    return first, second, third


def unit_of(problem: Problem) -> str:
    """The unit as it stands behind a header; '' where there is none."""
    return f' ({problem.unit})' if problem.unit else ''


def headers_of(problem: Problem) -> tuple[str, str, str]:
    """The headers of the orders' own table, where they have some."""
    names = list(problem.headers.values())
    return (names[0], names[1], names[2]) if len(names) == 3 else ('order', 'weight', 'colour')


def plan_page(problem: Problem, slabs: Sequence[Slab], verdict: Verdict, facts: Sequence[Fact],
              heading: str = 'Slab plan', further: Sequence[str] = ()) -> str:
    """The page of a plan, whether legal or not. `further` are paragraphs below the verdict."""
    scale = scale_of(problem, slabs)
    legal = all(slab.is_legal for slab in slabs)
    return render('page.html', heading=heading, title=problem.name,
                  subtitle=subtitle(problem, slabs), verdict=verdict, further=further,
                  figures=figures_of(problem, slabs) if slabs and legal else [],
                  legend=legend_of(problem), ticks=ticks_of(scale), grid=grid_of(scale),
                  bars=bars_of(scale, slabs), sizes=size_rows(problem, slabs),
                  orders=order_rows(problem, slabs) if slabs else [],
                  headers=headers_of(problem), unit=unit_of(problem), facts=facts,
                  notes=problem.notes,
                  room=room_of(problem, slabs))
