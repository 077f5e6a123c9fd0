"""Reads a plan from a table: which order goes on which slab. Slab names are any text."""

from collections.abc import Sequence
from dataclasses import dataclass, replace
from pathlib import Path

from mill_desk.columns import Column, find_columns
from mill_desk.orders import first_sheet, text_faults
from mill_desk.problem import Problem
from mill_desk.settings import FILE_NAME, Settings
from mill_desk.tables import Cell, Table, read_table
from mill_desk.trouble import Fault, TableTrouble


@dataclass(frozen=True)
class PlanTable:
    """A plan: the slab number of each order, the slabs' names, and the row of each order."""

    name: str
    plan: tuple[int, ...]
    slab_names: dict[int, str]
    rows: tuple[int, ...]


def read_plan(path: Path, problem: Problem, settings: Settings) -> PlanTable:
    """The plan of a table. Slabs are numbered by their first order in the problem."""
    table = read_table(path, first_sheet(path))
    columns = find_columns(table, {Column.ID: if_there(table, settings.id),
                                   Column.SLAB: slab_header(table, settings)})
    known = {order.id for order in problem.orders}
    found: dict[str, tuple[str, int]] = {}
    faults: list[Fault] = list(table.ragged)
    for row in table.rows:
        order, slab = row.at(columns[Column.ID]), row.at(columns[Column.SLAB])
        if not order.text and not slab.text:
            continue
        wrong = row_faults(order, slab, known, found)
        if not wrong:
            found[order.text] = slab.text, row.number
        faults += wrong
    faults += missing_faults(problem, found, faults)
    if faults:
        raise TableTrouble(table.name, faults)
    numbers: dict[str, int] = {}
    plan = tuple(numbers.setdefault(found[order.id][0], len(numbers) + 1)
                 for order in problem.orders)
    return PlanTable(path.name, plan, {number: name for name, number in numbers.items()},
                     tuple(found[order.id][1] for order in problem.orders))


def if_there(table: Table, header: str | None) -> str | None:
    """The header asked for, where this table has it: orders and plan may be headed differently."""
    return header if any(cell.text == header for cell in table.header) else None


def slab_header(table: Table, settings: Settings) -> str | None:
    """The header of the slabs that is asked for. One of desk.toml may be that of other tables."""
    by_option = settings.sources.get('slab', FILE_NAME) != FILE_NAME
    return settings.slab if by_option else if_there(table, settings.slab)


def own_settings(plans: Sequence[Path], settings: Settings) -> list[Settings]:
    """The settings for each plan: a header of slabs that one of them has is no matter of others."""
    if settings.slab is None:
        return [settings] * len(plans)
    headers = [{cell.text for cell in read_table(path, first_sheet(path)).header}
               for path in plans]
    if not any(settings.slab in names for names in headers):
        return [settings] * len(plans)
    return [settings if settings.slab in names else replace(settings, slab=None, sources={})
            for names in headers]


def row_faults(order: Cell, slab: Cell, known: set[str],
               found: dict[str, tuple[str, int]]) -> list[Fault]:
    """What is wrong with a row of the plan."""
    faults = text_faults(order, 'order id')
    if not faults and order.text not in known:
        faults.append(Fault(order.place, f'"{order.text}" is none of the orders'))
    elif not faults and order.text in found:
        faults.append(Fault(order.place, f'the order id "{order.text}" stands in row '
                            f'{found[order.text][1]} too', 'an order goes on one slab'))
    return faults + text_faults(slab, f'slab of order "{order.text}"')


def missing_faults(problem: Problem, found: dict[str, tuple[str, int]],
                   faults: list[Fault]) -> list[Fault]:
    """The orders that the plan doesn't have, where its rows have no other fault."""
    missing = [order.id for order in problem.orders if order.id not in found]
    if not missing or faults:
        return []
    listed = ', '.join(f'"{name}"' for name in missing[:8])
    more = f' and {len(missing) - 8} more' if len(missing) > 8 else ''
    return [Fault('', f'no row has order {listed}{more}', 'each order goes on one slab')]
