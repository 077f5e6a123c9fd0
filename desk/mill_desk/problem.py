"""Orders, sizes and colours, and the instance text that stands for them.

The program takes whole numbers. The **step** is the greatest number of which all weights and sizes
are whole multiples, so nothing is rounded; with `--round-up` weights are rounded up to a step and
sizes down, which the page tells.
"""

import re
from collections.abc import Sequence
from dataclasses import dataclass, field
from fractions import Fraction
from unicodedata import decimal

from mill_desk.columns import Column
from mill_desk.numbers import plural, show

MOST_ORDERS = 1024
MOST_SIZES = 1024
MOST_STEPS = 20_000


@dataclass(frozen=True)
class Order:
    """An order. `weight` is in the unit of the table; `place` is the cell of the weight."""

    id: str
    weight: Fraction
    colour: int
    place: str
    row: int
    steps: int


@dataclass(frozen=True)
class Source:
    """A value that the run rests on, in words, and where it comes from."""

    name: str
    value: str
    origin: str


@dataclass(frozen=True)
class Problem:
    """An instance with the names that people use. Sizes rise; `limit` is colours per slab."""

    name: str
    orders: tuple[Order, ...]
    colours: dict[int, str]
    sizes: tuple[Fraction, ...]
    limit: int
    step: Fraction = Fraction(1)
    unit: str = ''
    rounded: bool = False
    headers: dict[Column, str] = field(default_factory=dict)
    notes: tuple[str, ...] = ()
    sources: tuple[Source, ...] = ()

    @property
    def size_steps(self) -> tuple[int, ...]:
        """The sizes in steps, rising and each once; rounded down where the problem is rounded."""
        return tuple(sorted({int(size // self.step) for size in self.sizes} - {0}))

    @property
    def weight(self) -> Fraction:
        """The weight of all orders."""
        return sum((order.weight for order in self.orders), Fraction(0))

    def size_for(self, load: Fraction) -> Fraction | None:
        """The least size that holds the load; None where none does."""
        return next((size for size in self.sizes if size >= load), None)

    def charge(self, steps: int) -> int | None:
        """What a slab of this load loses, in steps; 0 for no load, None where no size holds it."""
        if steps == 0:
            return 0
        return next((size - steps for size in self.size_steps if size >= steps), None)

    def amount(self, value: Fraction | int) -> str:
        """A weight or size with its unit, for people."""
        return f'{show(value)} {self.unit}'.rstrip()

    def amount_of_steps(self, steps: int) -> str:
        """So many steps, as a weight with its unit."""
        return self.amount(steps * self.step)

    def instance_text(self) -> str:
        """The instance in the canonical text of the program."""
        sizes = self.size_steps
        lines = [' '.join(map(str, (len(sizes), *sizes))), str(len(self.colours)),
                 str(len(self.orders))]
        lines += [f'{order.steps} {order.colour}' for order in self.orders]
        return '\n'.join(lines) + '\n'

    def heavy_orders(self) -> list[Order]:
        """The orders that no slab can carry."""
        top = self.size_steps[-1]
        return [order for order in self.orders if order.steps > top]


def natural_key(text: str) -> tuple[tuple[tuple[int, int, str], ...], str]:
    """A key that puts R2 before R10. Of two numbers without leading zeros the longer is greater."""
    key = []
    for part in re.split(r'(\d+)', text.casefold()):
        digits = ''.join(str(decimal(sign)) for sign in part) if part.isdecimal() else ''
        bare = digits.lstrip('0')
        if part:
            key.append((0, len(bare), bare) if digits else (1, 0, part))
    return tuple(key), text


def number_colours(names: Sequence[str]) -> dict[str, int]:
    """The numbers of colours, from 1 in the natural order of their names."""
    return {name: number for number, name in enumerate(sorted(set(names), key=natural_key), 1)}


def what_was_read(problem: Problem) -> str:
    """The line that guards against silent misreading."""
    orders = problem.orders
    light = min(orders, key=lambda order: order.weight)
    heavy = max(orders, key=lambda order: order.weight)
    sizes = [problem.amount(size) for size in problem.sizes]
    listed = f'{sizes[0]}' if len(sizes) == 1 else f'from {show(problem.sizes[0])} to {sizes[-1]}'
    parts = [
        f'{plural(len(orders), "order")} of {plural(len(problem.colours), "colour")}, together '
        f'{problem.amount(problem.weight)}',
        f'the lightest weighs {problem.amount(light.weight)} ({light.place}), the heaviest '
        f'{problem.amount(heavy.weight)} ({heavy.place})',
        f'{plural(len(sizes), "size")}, {listed}',
        f'at most {plural(problem.limit, "colour")} a slab',
        f'one step is {problem.amount(problem.step)}'
        + (', weights rounded up and sizes down to it' if problem.rounded else '')]
    return '; '.join(parts)


def problem_of_instance(text: str, name: str, limit: int) -> Problem:
    """The problem of an instance text that the program took. Orders are named by their number."""
    numbers = iter(int(token.lstrip('0') or '0') for token in text.split())
    sizes = [next(numbers) for _ in range(next(numbers))]
    next(numbers)
    orders = []
    for number in range(1, next(numbers) + 1):
        weight, colour = next(numbers), next(numbers)
        orders.append(Order(str(number), Fraction(weight), colour, f'order {number}', number,
                            weight))
    colours = {colour: str(colour) for colour in sorted({order.colour for order in orders})}
    return Problem(name, tuple(orders), colours, tuple(Fraction(s) for s in sorted(set(sizes))),
                   limit)
