"""Slabs as bars to scale, for the pages: lengths are percents of the longest bar.

Sums are made with fractions; only the finished lengths are written as decimals.
"""

from collections.abc import Sequence
from dataclasses import dataclass
from fractions import Fraction

from mill_desk.numbers import show
from mill_desk.palette import shades
from mill_desk.plan import Slab, short_names
from mill_desk.problem import Problem

MOST_GRID_LINES = 40


@dataclass(frozen=True)
class Piece:
    """An order on a bar."""

    id: str
    label: str
    tip: str
    colour: int
    shade: str
    left: str
    width: str
    is_new_colour: bool


@dataclass(frozen=True)
class Bar:
    """A slab as a bar. `spare` is the loss, or what is too much, as left and width."""

    slab: Slab
    pieces: tuple[Piece, ...]
    spare: tuple[str, str] | None
    end: str
    colours: str
    loss: str
    filled: str
    fault: str
    loss_key: str
    size_key: str


@dataclass(frozen=True)
class Tick:
    """A size on the axis; every second one stands higher where they are close."""

    text: str
    left: str
    is_high: bool


@dataclass(frozen=True)
class Scale:
    """How bars are drawn: what full length stands for, and how many characters it has room for."""

    problem: Problem
    top: Fraction
    characters: int

    def length(self, value: Fraction) -> str:
        """A length in percent."""
        return f'{float(100 * value / self.top):.3f}'

    def fits(self, value: Fraction, text: str) -> bool:
        """Whether the text has room on a piece of that weight."""
        return value * self.characters > self.top * (len(text) + Fraction(1, 2))


def scale_of(problem: Problem, slabs: Sequence[Slab], characters: int = 110) -> Scale:
    """The scale on which the largest size, or a heavier slab, is full length."""
    longest = max([problem.sizes[-1], *(slab.load for slab in slabs)])
    return Scale(problem, longest, characters)


@dataclass(frozen=True)
class Room:
    """Pixels for the names of slabs and for what is lost, and how much all ids share."""

    name: int
    lost: int
    cut: int


def room_of(problem: Problem, slabs: Sequence[Slab]) -> Room:
    """The room that a page needs beside its bars."""
    longest = max((len(slab.name) for slab in slabs), default=0)
    ids = [order.id for order in problem.orders]
    short = short_names(ids)
    return Room(min(120, max(44, 8 * longest)),
                66 if all(slab.is_legal for slab in slabs) else 104,
                min((len(name) - len(short[name]) for name in ids), default=0))


def ticks_of(scale: Scale) -> list[Tick]:
    """The sizes that can be written without touching, in two lines; the largest first."""
    room = Fraction(42, 1000) * scale.top
    last: dict[bool, Fraction | None] = {False: None, True: None}
    ticks = []
    for size in reversed(scale.problem.sizes):
        for is_high in (False, True):
            before = last[is_high]
            if before is None or before - size > room:
                ticks.append(Tick(show(size), scale.length(size), is_high))
                last[is_high] = size
                break
    return ticks


def grid_of(scale: Scale) -> list[str]:
    """Where thin lines mark the sizes; none where they would be a carpet."""
    sizes = scale.problem.sizes
    return [scale.length(size) for size in sizes] if len(sizes) <= MOST_GRID_LINES else []


def bars_of(scale: Scale, slabs: Sequence[Slab]) -> list[Bar]:
    """The bars of the slabs, those that lose most first."""
    tint = shades(scale.problem)
    short = short_names([order.id for order in scale.problem.orders])
    ordered = sorted(slabs, key=lambda slab: (slab.is_legal, -slab.loss, slab.number))
    return [bar_of(scale, slab, tint, short) for slab in ordered]


def bar_of(scale: Scale, slab: Slab, tint: dict[int, str], short: dict[str, str]) -> Bar:
    """The bar of one slab."""
    problem, largest = scale.problem, scale.problem.sizes[-1]
    size = slab.size if slab.size is not None else largest
    spare: tuple[str, str] | None
    if slab.is_heavy:
        spare = (scale.length(largest), scale.length(slab.load - largest))
    else:
        spare = (scale.length(slab.load), scale.length(slab.loss)) if slab.loss else None
    return Bar(
        slab, pieces_of(scale, slab, tint, short), spare, scale.length(size),
        ', '.join(problem.colours[colour] for colour in slab.colours), show(slab.loss),
        f'{show(slab.load)} / {show(size)}', fault_of(problem, slab),
        sort_key(problem, slab.loss), sort_key(problem, size))


def sort_key(problem: Problem, value: Fraction) -> str:
    """What a script compares: the value in steps, as a decimal."""
    return f'{float(value / problem.step):.9g}'


def fault_of(problem: Problem, slab: Slab) -> str:
    """Why a slab isn't legal, in few words; '' where it is."""
    if slab.is_heavy:
        return f'{show(slab.load - problem.sizes[-1])} too much'
    return f'{len(slab.colours)} colours' if slab.is_colourful else ''


def pieces_of(scale: Scale, slab: Slab, tint: dict[int, str],
              short: dict[str, str]) -> tuple[Piece, ...]:
    """The orders of a slab, side by side."""
    pieces: list[Piece] = []
    at, before = Fraction(0), slab.orders[0].colour
    for order in slab.orders:
        name = scale.problem.colours[order.colour]
        label = next((text for text in (order.id, short[order.id])
                      if scale.fits(order.weight, text)), '')
        pieces.append(Piece(order.id, label, f'{order.id}: {scale.problem.amount(order.weight)}, '
                            f'{name}', order.colour, tint[order.colour], scale.length(at),
                            scale.length(order.weight), order.colour != before))
        at, before = at + order.weight, order.colour
    return tuple(pieces)
