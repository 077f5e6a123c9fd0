"""What a log says, record by record, computed from docs/definitions.md by plain enumeration.

This is the desk's explanation; the verdict on a log is `verify`'s alone. Prices are judged over
all sets of open orders, so only where at most twelve are open.
"""

from collections import Counter
from collections.abc import Sequence
from dataclasses import dataclass
from enum import Enum
from functools import cached_property

from mill_desk.answer import Record, RecordKind
from mill_desk.problem import Order, Problem

MOST_OPEN = 12
Path = tuple[int, ...]
LiveGroup = tuple[int, int, tuple[bool, ...]]


class Fault(Enum):
    """How a path may be wrong, in the words of `verify`."""

    MISSING = 'missing'
    STRAY = 'stray'
    UNSOUND = 'unsound'


class Room(Enum):
    """Whether the next order may go on a group, and why not."""

    FREE = 'free'
    HEAVY = 'heavy'
    COLOURFUL = 'colourful'
    FALLING = 'falling'


@dataclass(frozen=True)
class Pricing:
    """A priced record, in sixtieths of a loss unit: least slack of each group, and the worth.

    `overpaid` is a legal set of open orders whose prices are more than 60 times its charge; None
    where the prices are valid.
    """

    overpaid: tuple[Order, ...] | None
    slacks: dict[int, int]
    worth: int


class Ranking:
    """The orders in rank, and what follows from paths over them."""

    def __init__(self, problem: Problem) -> None:
        self.problem = problem
        self.orders: tuple[Order, ...] = tuple(
            sorted(problem.orders, key=lambda order: (-order.steps, order.colour)))
        self.top = problem.size_steps[-1]

    @cached_property
    def charges(self) -> list[int]:
        """The charge of each load up to the largest size."""
        charges, sizes = [0], iter(self.problem.size_steps)
        size = next(sizes)
        for load in range(1, self.top + 1):
            while size < load:
                size = next(sizes)
            charges.append(size - load)
        return charges

    def charge(self, orders: Sequence[Order]) -> int:
        """What a legal slab of these orders loses."""
        return self.charges[sum(order.steps for order in orders)]

    def is_legal(self, orders: Sequence[Order]) -> bool:
        """Whether these orders may share a slab."""
        return (sum(order.steps for order in orders) <= self.top
                and len({order.colour for order in orders}) <= self.problem.limit)

    def starts_class(self, depth: int) -> bool:
        """Whether the orders on both sides of this depth differ, or it is an end."""
        if depth in (0, len(self.orders)):
            return True
        before, after = self.orders[depth - 1], self.orders[depth]
        return (before.steps, before.colour) != (after.steps, after.colour)

    def groups(self, path: Path) -> dict[int, list[Order]]:
        """The orders of each group of a path, by first appearance."""
        found: dict[int, list[Order]] = {}
        for order, group in zip(self.orders, path, strict=False):
            found.setdefault(group, []).append(order)
        return found

    def room(self, path: Path, group: int) -> Room:
        """Whether the path may go on with this group, of its own or the next new one."""
        order = self.orders[len(path)]
        joined = [*self.groups(path).get(group, []), order]
        if sum(other.steps for other in joined) > self.top:
            return Room.HEAVY
        if not self.is_legal(joined):
            return Room.COLOURFUL
        if not self.starts_class(len(path)) and group < path[-1]:
            return Room.FALLING
        return Room.FREE

    def children(self, path: Path) -> list[Path]:
        """The paths that this one may go on to."""
        if len(path) == len(self.orders):
            return []
        count = len(set(path))
        return [(*path, group) for group in range(1, count + 2)
                if self.room(path, group) is Room.FREE]

    def is_in_tree(self, path: Path) -> bool:
        """Whether the path is reached from the empty one."""
        for depth, group in enumerate(path):
            before = path[:depth]
            if not 1 <= group <= len(set(before)) + 1 or self.room(before, group) is not Room.FREE:
                return False
        return True

    def live_key(self, path: Path) -> Counter[LiveGroup]:
        """The live groups as a multiset: load, number of colours, and which later colours."""
        later = self.orders[len(path):]
        key: Counter[LiveGroup] = Counter()
        for orders in self.groups(path).values():
            if self.is_live(orders, later):
                colours = {order.colour for order in orders}
                key[sum(order.steps for order in orders), len(colours),
                    tuple(order.colour in colours for order in later)] += 1
        return key

    def dead_loss(self, path: Path) -> int:
        """What the groups lose that no later order may join alone."""
        later = self.orders[len(path):]
        return sum(self.charge(orders) for orders in self.groups(path).values()
                   if not self.is_live(orders, later))

    def is_live(self, orders: list[Order], later: Sequence[Order]) -> bool:
        """Whether some later order may join the group alone."""
        return any(self.is_legal([*orders, order]) for order in later)

    def losses(self, path: Path) -> list[int]:
        """What each group of a path loses."""
        return [self.charge(orders) for orders in self.groups(path).values()]

    def pricing(self, path: Path, prices: Sequence[int]) -> Pricing:
        """A priced record, over all sets of open orders."""
        later = self.orders[len(path):]
        sets = _sets(later, prices)
        overpaid = next((tuple(order for i, order in enumerate(later) if marks >> i & 1)
                         for marks, (load, colours, paid) in enumerate(sets)
                         if self._fits(load, colours) and paid > 60 * self.charges[load]), None)
        slacks = {}
        for group, orders in self.groups(path).items():
            base = sum(order.steps for order in orders)
            own = frozenset(order.colour for order in orders)
            slacks[group] = min(60 * self.charges[base + load] - paid
                                for load, colours, paid in sets
                                if self._fits(base + load, own | colours))
        return Pricing(overpaid, slacks, sum(slacks.values()) + sum(prices))

    def _fits(self, load: int, colours: frozenset[int]) -> bool:
        """Whether a load of these colours is legal."""
        return load <= self.top and len(colours) <= self.problem.limit


def _sets(orders: Sequence[Order], prices: Sequence[int]) -> list[tuple[int, frozenset[int], int]]:
    """Load, colours and prices of each set of the orders; set m holds order i where bit i is 1."""
    sets: list[tuple[int, frozenset[int], int]] = [(0, frozenset(), 0)]
    for order, price in zip(orders, prices, strict=True):
        sets += [(load + order.steps, colours | {order.colour}, paid + price)
                 for load, colours, paid in sets]
    return sets


class LogTree:
    """The records of a log as a tree, and what is wrong with it."""

    def __init__(self, problem: Problem, log: Sequence[Record], loss: int) -> None:
        self.ranking = Ranking(problem)
        self.loss = loss
        self.records = {record.path: record for record in log}
        self.reached = self._reach()
        self.missing = sorted(self.reached - self.records.keys())

    def _reach(self) -> set[Path]:
        """The empty path, and the children of split ones among those that are reached."""
        reached: set[Path] = {()}
        waiting: list[Path] = [()]
        while waiting:
            path = waiting.pop()
            record = self.records.get(path)
            if record is not None and record.kind is RecordKind.SPLIT:
                children = self.ranking.children(path)
                reached.update(children)
                waiting += children
        return reached

    def is_sound(self, record: Record) -> bool | None:
        """Whether a record is sound for the loss; None where too many orders are open to tell."""
        ranking, depth = self.ranking, len(record.path)
        if record.kind is RecordKind.SPLIT:
            return depth < len(ranking.orders)
        if record.kind is RecordKind.LEAF:
            return (depth == len(ranking.orders)
                    and sum(ranking.losses(record.path)) >= self.loss)
        if record.kind is RecordKind.DOMINATED:
            return self._is_dominated(record)
        if len(ranking.orders) - depth > MOST_OPEN:
            return None
        priced = ranking.pricing(record.path, record.rest)
        return priced.overpaid is None and priced.worth > 60 * (self.loss - 1)

    def _is_dominated(self, record: Record) -> bool:
        """Whether the other path is at least as good, and is closed by itself."""
        ranking, other = self.ranking, self.records.get(record.rest)
        return (ranking.starts_class(len(record.path)) and ranking.is_in_tree(record.rest)
                and ranking.live_key(record.rest) == ranking.live_key(record.path)
                and ranking.dead_loss(record.rest) <= ranking.dead_loss(record.path)
                and other is not None and other.kind is not RecordKind.DOMINATED)

    def fault_of(self, path: Path) -> Fault | None:
        """What is wrong with a path, if anything."""
        record = self.records.get(path)
        if record is None:
            return Fault.MISSING if path in self.reached else None
        if path not in self.reached:
            return Fault.STRAY
        return Fault.UNSOUND if self.is_sound(record) is False else None

    def first_wrong(self) -> tuple[Fault, Path] | None:
        """The first wrong path in rising order; None where nothing is wrong."""
        for path in sorted(self.reached | self.records.keys()):
            fault = self.fault_of(path)
            if fault is not None:
                return fault, path
        return None

    def verify_line(self) -> str:
        """The line that `verify` is expected to write for a legal plan that loses its loss."""
        wrong = self.first_wrong()
        if wrong is None:
            return f'verified loss {self.loss}'
        fault, path = wrong
        groups = ''.join(f' {group}' for group in path)
        return f'rejected {fault.value} {len(path)}{groups}'
