"""Writes plans as tables: plan.csv for machines, plan.xlsx for people."""

import csv
from collections.abc import Sequence
from decimal import Decimal
from fractions import Fraction
from pathlib import Path
from typing import Any

from mill_desk import workbook
from mill_desk.numbers import decimal_places, show_plain
from mill_desk.palette import shades
from mill_desk.plan import Slab
from mill_desk.problem import Problem
from mill_desk.tables import visible

Value = str | int | Fraction


def plan_rows(problem: Problem, slabs: Sequence[Slab]) -> list[list[Value]]:
    """A row for each order: order, weight, colour, slab, the slab's size and loss."""
    unit = f' ({problem.unit})' if problem.unit else ''
    where = {order.id: slab for slab in slabs for order in slab.orders}
    rows: list[list[Value]] = [['order', f'weight{unit}', 'colour', 'slab', f'slab size{unit}',
                                f'slab loss{unit}']]
    for order in problem.orders:
        slab = where[order.id]
        rows.append([order.id, order.weight, problem.colours[order.colour], slab.name,
                     '' if slab.size is None else slab.size, slab.loss])
    return rows


def slab_rows(problem: Problem, slabs: Sequence[Slab]) -> list[list[Value]]:
    """A row for each slab."""
    unit = f' ({problem.unit})' if problem.unit else ''
    rows: list[list[Value]] = [['slab', f'size{unit}', f'load{unit}', f'loss{unit}', 'colours',
                                'orders']]
    for slab in slabs:
        rows.append([slab.name, '' if slab.size is None else slab.size, slab.load, slab.loss,
                     ', '.join(problem.colours[colour] for colour in slab.colours),
                     ', '.join(order.id for order in slab.orders)])
    return rows


def write_csv(path: Path, rows: Sequence[Sequence[Value]]) -> None:
    """Writes a CSV: comma, decimal point, UTF-8 with BOM, so that spreadsheets know it."""
    with path.open('w', newline='', encoding='utf-8-sig') as stream:
        writer = csv.writer(stream, lineterminator='\r\n')
        for row in rows:
            writer.writerow([show_plain(value) if isinstance(value, Fraction) else value
                             for value in row])


def write_workbook(path: Path, problem: Problem, slabs: Sequence[Slab],
                   statement: Sequence[tuple[str, str]]) -> None:
    """Writes the workbook: the plan, the slabs, and what is claimed of them."""
    package = workbook.openpyxl()
    book = package.Workbook()
    book.remove(book.active)
    sheet = add_sheet(book, 'plan', plan_rows(problem, slabs))
    fills = {colour: package.styles.PatternFill('solid', fgColor=shade.lstrip('#'))
             for colour, shade in shades(problem).items()}
    for row, order in enumerate(problem.orders, 2):
        sheet.cell(row, 3).fill = fills[order.colour]
    add_sheet(book, 'slabs', slab_rows(problem, slabs))
    add_sheet(book, 'statement', [['what', 'said'], *([name, text] for name, text in statement)])
    book.save(path)


def add_sheet(book: Any, title: str, rows: Sequence[Sequence[Value]]) -> Any:
    """A sheet with a bold header that stays in view. Texts stay texts, also those with a `=`."""
    sheet = book.create_sheet(title)
    for number, row in enumerate(rows, 1):
        for column, value in enumerate(row, 1):
            put(sheet.cell(number, column), value)
    fonts = workbook.openpyxl().styles
    for cell in sheet[1]:
        cell.font = fonts.Font(bold=True)
    sheet.freeze_panes = 'A2'
    sheet.auto_filter.ref = sheet.dimensions
    for column in range(1, len(rows[0]) + 1):
        longest = max(len(text_of(row[column - 1])) for row in rows)
        letters = sheet.cell(1, column).column_letter
        sheet.column_dimensions[letters].width = min(max(8, longest + 3), 60)
    return sheet


def put(cell: Any, value: Value) -> None:
    """Sets a cell. A fraction that no decimal writes is kept as text, odd characters as words."""
    if isinstance(value, str):
        cell.value = visible(value)
        cell.data_type = 's'
    elif isinstance(value, int):
        cell.value = value
    elif decimal_places(value) is None:
        cell.value = show_plain(value)
    else:
        cell.value = Decimal(show_plain(value))


def text_of(value: Value) -> str:
    """The text that a column must have room for."""
    return show_plain(value) if isinstance(value, Fraction) else str(value)
