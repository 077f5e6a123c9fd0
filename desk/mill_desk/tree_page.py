"""The teaching page: the tree of a log, each record with its reason."""

from collections.abc import Sequence
from dataclasses import dataclass, field
from fractions import Fraction

from mill_desk.answer import RecordKind
from mill_desk.log_tree import LogTree, Path
from mill_desk.numbers import plural, show
from mill_desk.page import Fact, subtitle
from mill_desk.palette import shades
from mill_desk.problem import Order, Problem
from mill_desk.record_words import path_text, words_of
from mill_desk.rendering import render
from mill_desk.wording import Verdict

MOST_UNFOLDED = 200
MOST_AT_FIRST = 60
MOST_DRAWN = 2000
BOX_ROWS = 8


@dataclass(frozen=True)
class SlabBar:
    """A begun slab in a box: its orders to scale, and the size that holds it."""

    pieces: tuple[tuple[str, str], ...]
    size: str


@dataclass
class Box:
    """A record as a box. Its children follow to the right; `hidden` records aren't drawn."""

    number: int
    kind: str
    label: str
    joins: str
    slabs: tuple[SlabBar, ...]
    more_slabs: int
    target: int | None
    below: int = 0
    is_folded: bool = False
    is_cut: bool = False
    children: list['Box'] = field(default_factory=list)


@dataclass(frozen=True)
class Column:
    """An order in rank, at the head of its column."""

    name: str
    about: str
    width: str
    shade: str


@dataclass(frozen=True)
class Legend:
    """A kind of record, and what it says."""

    kind: str
    text: str


KINDS = {
    'S': Legend('split', 'each case of the next order follows'),
    'L': Legend('leaf', 'every order has its slab, and the plan isn\'t cheaper'),
    'P': Legend('priced', 'prices show that no plan below is cheaper'),
    'D': Legend('dominated', 'another path is at least as good'),
}
NAMES = {RecordKind.SPLIT: 'split', RecordKind.LEAF: 'leaf', RecordKind.PRICED: 'priced',
         RecordKind.DOMINATED: 'dominated'}


class Drawing:
    """Makes the boxes of a tree. Paths that are missing are drawn too."""

    def __init__(self, tree: LogTree, problem: Problem) -> None:
        self.tree, self.problem = tree, problem
        self.tint = shades(problem)
        paths = sorted({*tree.records, *tree.missing})
        self.depth = self._deepest(paths)
        self.paths = [path for path in paths if len(path) <= self.depth]
        self.numbers = {path: number for number, path in enumerate(self.paths)}
        self.below = self._count_below(paths)

    def _deepest(self, paths: Sequence[Path]) -> int:
        """The depth down to which at most so many paths are drawn."""
        return deepest(paths, MOST_DRAWN)

    def _count_below(self, paths: Sequence[Path]) -> dict[Path, int]:
        """How many paths lie below each one that is drawn."""
        below = dict.fromkeys(self.paths, 0)
        for path in paths:
            for depth in range(min(len(path), self.depth + 1)):
                if path[:depth] in below:
                    below[path[:depth]] += 1
        return below

    def root(self) -> Box | None:
        """The box of the empty path, with all others below; a stray without a parent has none."""
        folds = deepest(self.paths, MOST_AT_FIRST) if len(self.paths) > MOST_UNFOLDED else None
        boxes: dict[Path, Box] = {}
        for path in self.paths:
            box = self._box(path)
            box.is_folded = folds is not None and len(path) >= folds and box.below > 0
            boxes[path] = box
            if path and path[:-1] in boxes:
                boxes[path[:-1]].children.append(box)
        return boxes.get(())

    def _box(self, path: Path) -> Box:
        """The box of one path."""
        record, words = self.tree.records.get(path), words_of(self.tree, path)
        fault = self.tree.fault_of(path)
        kind = 'wrong' if fault is not None else NAMES[record.kind] if record else 'wrong'
        target = self.numbers.get(record.rest) if record and \
            record.kind is RecordKind.DOMINATED else None
        joins = '' if not path else \
            f'slab {path[-1]}' if path[-1] in path[:-1] else f'new slab {path[-1]}'
        groups = list(self.tree.ranking.groups(path).values())
        slabs = tuple(self._slab(orders) for orders in groups[:BOX_ROWS])
        return Box(self.numbers[path], kind, words.label, joins, slabs,
                   max(0, len(groups) - BOX_ROWS), target, self.below[path],
                   is_cut=len(path) == self.depth and self.below[path] > 0)

    def _slab(self, orders: Sequence[Order]) -> SlabBar:
        """A begun slab to scale."""
        top = self.tree.ranking.top
        load = sum(order.steps for order in orders)
        size = next((size for size in self.problem.size_steps if size >= load), load)
        pieces = tuple((percent(order.steps, max(top, load)), self.tint[order.colour])
                       for order in orders)
        return SlabBar(pieces, percent(size, max(top, load)))


def deepest(paths: Sequence[Path], most: int) -> int:
    """The greatest depth with at most so many paths down to it; at least 1."""
    depths = sorted(len(path) for path in paths)
    if len(depths) <= most:
        return depths[-1] if depths else 0
    return max(1, depths[most] - 1)


def percent(part: int, whole: int) -> str:
    """A share in percent."""
    return f'{float(Fraction(100 * part, whole)):.2f}'


def columns_of(tree: LogTree, problem: Problem) -> list[Column]:
    """The orders in rank."""
    tint, top = shades(problem), tree.ranking.top
    columns = []
    before: Order | None = None
    for order in tree.ranking.orders:
        equal = before is not None and (before.steps, before.colour) == (order.steps, order.colour)
        about = f'weight {show(order.steps)}, colour {problem.colours[order.colour]}'
        columns.append(Column(f'then order {order.id}', about + (' (equal)' if equal else ''),
                              percent(min(order.steps, top), top), tint[order.colour]))
        before = order
    return columns


def tree_page(problem: Problem, tree: LogTree, verdict: Verdict, facts: Sequence[Fact]) -> str:
    """The page of a log."""
    drawing = Drawing(tree, problem)
    root = drawing.root()
    kinds = {record.kind.value for record in tree.records.values()}
    legend = [entry for kind, entry in KINDS.items() if kind in kinds]
    if any(tree.fault_of(path) for path in drawing.paths):
        legend.append(Legend('wrong', 'missing, stray or unsound'))
    rows = max((len(set(path)) for path in drawing.paths), default=0)
    texts = [f'Path {path_text(path)}. {words_of(tree, path).text}' for path in drawing.paths]
    return render('tree.html', title=problem.name, subtitle=subtitle(problem, ()),
                  verdict=verdict, legend=legend, columns=columns_of(tree, problem), root=root,
                  texts=texts, rows=min(rows, BOX_ROWS + 1), facts=facts,
                  count=plural(len(tree.records), 'record'), loss=show(tree.loss),
                  is_folded=len(drawing.paths) > MOST_UNFOLDED,
                  left_out=len(tree.records) + len(tree.missing) - len(drawing.paths))
