"""Plans: slabs with their orders, and the loss counted anew from the table's own numbers."""

from collections.abc import Sequence
from dataclasses import dataclass
from fractions import Fraction
from os.path import commonprefix

from mill_desk.answer import Answer, Kind
from mill_desk.problem import Order, Problem


@dataclass(frozen=True)
class Slab:
    """A slab of a plan: the least size that holds its load, in the unit of the table.

    `size` is None where no size holds the load; the slab then loses nothing that can be told.
    """

    number: int
    name: str
    orders: tuple[Order, ...]
    load: Fraction
    size: Fraction | None
    colours: tuple[int, ...]
    limit: int

    @property
    def loss(self) -> Fraction:
        """What is left of the steel."""
        return self.size - self.load if self.size is not None else Fraction(0)

    @property
    def is_heavy(self) -> bool:
        """Whether no size holds the load."""
        return self.size is None

    @property
    def is_colourful(self) -> bool:
        """Whether it has more colours than may share a slab."""
        return len(self.colours) > self.limit

    @property
    def is_legal(self) -> bool:
        """Whether the slab may be cast."""
        return not self.is_heavy and not self.is_colourful


def slabs_of(problem: Problem, plan: Sequence[int],
             names: dict[int, str] | None = None) -> list[Slab]:
    """The slabs of a plan by rising number, orders of one colour side by side, the heaviest first.

    `names` are the slabs' own names where they have any.
    """
    found: dict[int, list[Order]] = {}
    for order, slab in zip(problem.orders, plan, strict=True):
        found.setdefault(slab, []).append(order)
    slabs = []
    for number in sorted(found):
        orders = sorted(found[number], key=lambda order: (order.colour, -order.weight))
        load = sum((order.weight for order in orders), Fraction(0))
        colours = tuple(sorted({order.colour for order in orders}))
        name = (names or {}).get(number, str(number))
        slabs.append(Slab(number, name, tuple(orders), load, problem.size_for(load), colours,
                          problem.limit))
    return slabs


def loss_in_steps(problem: Problem, plan: Sequence[int]) -> int | None:
    """The loss of a plan in the numbers that the program was given; None where a slab is heavy."""
    loads: dict[int, int] = {}
    for order, slab in zip(problem.orders, plan, strict=True):
        loads[slab] = loads.get(slab, 0) + order.steps
    charges = [problem.charge(load) for load in loads.values()]
    return None if None in charges else sum(charge for charge in charges if charge is not None)


def check_line(problem: Problem, answer: Answer) -> str:
    """The line that `check` is expected to write of an answer, counted anew."""
    if answer.kind is Kind.INFEASIBLE:
        heavy = problem.heavy_orders()
        first = problem.orders.index(heavy[0]) + 1 if heavy else 0
        return (f'confirmed infeasible order {first}' if first == answer.order else
                f'rejected order stated {answer.order} found {first}')
    loads: dict[int, int] = {}
    colours: dict[int, set[int]] = {}
    for order, slab in zip(problem.orders, answer.plan, strict=True):
        loads[slab] = loads.get(slab, 0) + order.steps
        colours.setdefault(slab, set()).add(order.colour)
    loss = 0
    for slab, load in sorted(loads.items()):
        charge = problem.charge(load)
        if charge is None:
            return f'rejected heavy slab {slab} load {load}'
        if len(colours[slab]) > problem.limit:
            return f'rejected colourful slab {slab} colours {len(colours[slab])}'
        loss += charge
    return (f'legal loss {loss}' if loss == answer.loss else
            f'rejected loss stated {answer.loss} found {loss}')


def is_heavy_in_steps(problem: Problem, slab: Slab) -> bool:
    """Whether no size holds the load in the numbers that the program was given."""
    return problem.charge(sum(order.steps for order in slab.orders)) is None


@dataclass(frozen=True)
class Totals:
    """The sums of a plan, in the unit of the table."""

    steel: Fraction
    load: Fraction
    loss: Fraction
    slabs: int
    losing: int


def totals_of(slabs: Sequence[Slab]) -> Totals:
    """The sums over the slabs that a size holds."""
    cast = [slab for slab in slabs if slab.size is not None]
    steel = sum((slab.size for slab in cast if slab.size is not None), Fraction(0))
    load = sum((slab.load for slab in cast), Fraction(0))
    return Totals(steel, load, steel - load, len(slabs), sum(slab.loss > 0 for slab in cast))


def short_names(ids: Sequence[str]) -> dict[str, str]:
    """Each id without what all ids begin with, cut behind a mark that is no letter or digit."""
    lead = commonprefix(list(ids)) if len(ids) > 1 else ''
    cut = max((i + 1 for i, sign in enumerate(lead) if not sign.isalnum()), default=0)
    if len(lead) - cut >= 2 and all(name[len(lead):len(lead) + 1].isalnum() for name in ids):
        cut = len(lead)
    return {name: name[cut:] or name for name in ids}
