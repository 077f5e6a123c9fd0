"""The picture of a plan: an SVG of 16:9 for a slide, slabs side by side.

Past sixty slabs those that lose most are drawn, and the rest are told by size and count. Pixels are
fractions, and only the finished places and lengths are written as decimals.
"""

import shutil
import subprocess
from collections.abc import Sequence
from dataclasses import dataclass
from fractions import Fraction
from pathlib import Path

from mill_desk.numbers import percent, plural, show
from mill_desk.palette import MOST_HUES, shades
from mill_desk.plan import Slab, short_names, totals_of
from mill_desk.problem import Problem
from mill_desk.rendering import render
from mill_desk.wording import Mood, Verdict

WIDTH, HEIGHT = 1600, 900
LEFT, RIGHT, HEAD = 88, 30, 134
MOST_SLABS = 60
WIDEST = Fraction(240)
# The pixels of a character: on a block and in the key; and its width by its height in a name.
ON_BLOCK, IN_KEY, IN_NAME = Fraction(79, 10), Fraction(94, 10), Fraction(5, 8)
# From the middle of a text to its base line.
BASE = Fraction(46, 10)
MOST_ROWS = 20


@dataclass(frozen=True)
class Block:
    """An order, or the loss, on an upright slab."""

    x: str
    y: str
    width: str
    height: str
    fill: str
    tip: str
    label: str = ''
    is_upright: bool = False
    middle_x: str = ''
    middle_y: str = ''


@dataclass(frozen=True)
class Line:
    """A size as a line, with its text where it has room."""

    y: str
    text: str


@dataclass(frozen=True)
class Name:
    """The name of a slab below it."""

    x: str
    text: str
    points: int


@dataclass(frozen=True)
class Entry:
    """A colour of the key."""

    x: int
    y: int
    fill: str
    text: str


@dataclass(frozen=True)
class Frame:
    """Where bars stand: pixels of a step of the unit, of a slab and of the gap."""

    problem: Problem
    bottom: int
    right: int
    count: int

    @property
    def foot(self) -> int:
        """The line that slabs stand on."""
        return HEIGHT - self.bottom

    def height(self, value: Fraction) -> Fraction:
        """The pixels of an amount."""
        return value / self.problem.sizes[-1] * (self.foot - HEAD)

    @property
    def pitch(self) -> Fraction:
        """From one slab to the next."""
        return min(WIDEST, Fraction(WIDTH - LEFT - self.right, max(1, self.count)))

    @property
    def width(self) -> Fraction:
        """Of a slab."""
        return self.pitch - max(Fraction(1), min(Fraction(12), self.pitch * Fraction(4, 25)))


def slide(problem: Problem, slabs: Sequence[Slab], verdict: Verdict) -> str:
    """The text of the picture."""
    drawn = sorted(slabs, key=lambda slab: (-slab.loss, slab.number))[:MOST_SLABS]
    drawn.sort(key=lambda slab: (-(slab.size or 0), -slab.loss, slab.number))
    chosen = {slab.number for slab in drawn}
    rest = [slab for slab in slabs if slab.number not in chosen]
    keyed = len(problem.colours) <= MOST_HUES
    entries = key_of(problem) if keyed else []
    rows = 1 + max((entry.y for entry in entries), default=-1)
    frame = Frame(problem, 62 + 27 * rows if keyed else 62, 330 if rest else RIGHT, len(drawn))
    sums = totals_of(slabs)
    return render('picture.svg', width=WIDTH, height=HEIGHT, left=LEFT, frame=frame,
                  title=f'{clipped(problem.name, 46)}: {plural(len(problem.orders), "order")} on '
                        f'{plural(len(slabs), "slab")}',
                  lost=f'{problem.amount(sums.loss)} lost', loses=sums.loss > 0,
                  steel=f'of {problem.amount(sums.steel)} of steel '
                        f'({percent(sums.loss, sums.steel)}).',
                  settled=verdict.mood is Mood.SETTLED,
                  headline=clipped(verdict.headline, 74), lines=lines_of(frame), entries=entries,
                  blocks=blocks_of(frame, drawn), names=names_of(frame, drawn),
                  rest=rest_of(problem, rest), rest_count=len(rest), foot=frame.foot)


def pixels(value: Fraction) -> str:
    """A place or a length as the picture has it."""
    return f'{float(value):.1f}'


def clipped(text: str, most: int) -> str:
    """The text, cut where it would run out of the picture."""
    return text if len(text) <= most else text[:most - 2] + '..'


def lines_of(frame: Frame) -> list[Line]:
    """The sizes, the largest first; a text that would touch the one above is left out."""
    lines: list[Line] = []
    last: Fraction | None = None
    for size in reversed(frame.problem.sizes):
        y = frame.foot - frame.height(size)
        has_room = last is None or y - last > 18
        last = y if has_room else last
        lines.append(Line(pixels(y), show(size) if has_room else ''))
    return lines


def blocks_of(frame: Frame, slabs: Sequence[Slab]) -> list[Block]:
    """The orders and losses of the slabs."""
    problem, tint = frame.problem, shades(frame.problem)
    short = short_names([order.id for order in problem.orders])
    blocks = []
    for place, slab in enumerate(slabs):
        x, y = LEFT + place * frame.pitch, Fraction(frame.foot)
        for order in slab.orders:
            high = frame.height(order.weight)
            y -= high
            tip = f'{order.id}: {problem.amount(order.weight)}, {problem.colours[order.colour]}'
            label, is_upright = label_of(frame, high, (order.id, short[order.id]))
            blocks.append(block(frame, x, y, high, tint[order.colour], tip, label, is_upright))
        if slab.loss:
            high = frame.height(slab.loss)
            tip = f'lost: {problem.amount(slab.loss)}'
            blocks.append(block(frame, x, y - high, high, 'url(#lost)', tip))
    return blocks


def block(frame: Frame, x: Fraction, y: Fraction, high: Fraction, fill: str, tip: str,
          label: str = '', is_upright: bool = False) -> Block:
    """A block with its text in the middle."""
    right, down = (BASE, Fraction(0)) if is_upright else (Fraction(0), BASE)
    return Block(pixels(x), pixels(y), pixels(frame.width), pixels(high), fill, tip, label,
                 is_upright, pixels(x + frame.width / 2 + right), pixels(y + high / 2 + down))


def label_of(frame: Frame, high: Fraction, texts: Sequence[str]) -> tuple[str, bool]:
    """The longest text that has room, and whether it stands upright."""
    for text in texts:
        if high > 15 and frame.width > ON_BLOCK * len(text) + 4:
            return text, False
        if frame.width > 13 and high > ON_BLOCK * len(text) + 6:
            return text, True
    return '', False


def names_of(frame: Frame, slabs: Sequence[Slab]) -> list[Name]:
    """The names of the slabs, where they all have room."""
    longest = max((len(slab.name) for slab in slabs), default=1)
    points = min(14, int(frame.pitch / (IN_NAME * longest)))
    if points < 8:
        return []
    return [Name(pixels(LEFT + place * frame.pitch + frame.width / 2), slab.name, points)
            for place, slab in enumerate(slabs)]


def key_of(problem: Problem) -> list[Entry]:
    """The colours, in as many rows as they need; `y` is the row."""
    tint = shades(problem)
    entries: list[Entry] = []
    x, y = LEFT - 8, 0
    for fill, text in [*((tint[colour], name) for colour, name in problem.colours.items()),
                       ('url(#lost)', 'lost')]:
        wide = 50 + int(IN_KEY * len(text))
        if x + wide > WIDTH - RIGHT and x > LEFT:
            x, y = LEFT - 8, y + 1
        entries.append(Entry(x, y, fill, text))
        x += wide
    return entries


def rest_of(problem: Problem, slabs: Sequence[Slab]) -> list[str]:
    """The slabs that aren't drawn, by size and count; at most twenty lines."""
    lines = []
    for size in reversed(problem.sizes):
        here = [slab for slab in slabs if slab.size == size]
        if here:
            lines.append(f'{len(here)} of {problem.amount(size)}')
    if len(lines) > MOST_ROWS:
        lines = lines[:MOST_ROWS - 1] + [f'and {len(lines) - MOST_ROWS + 1} more sizes']
    return lines


def write_png(svg: Path, png: Path) -> bool:
    """Makes a PNG of the picture where rsvg-convert is installed; says whether it did."""
    tool = shutil.which('rsvg-convert')
    if tool is None:
        return False
    made = subprocess.run([tool, '-w', str(WIDTH), '-o', str(png), str(svg)],
                          capture_output=True, check=False)
    if made.returncode != 0:
        png.unlink(missing_ok=True)
    return made.returncode == 0
