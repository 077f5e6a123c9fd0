"""Reads a table of orders: all faults at once, each with its cell and what to do."""

import unicodedata
from dataclasses import dataclass, replace
from fractions import Fraction
from pathlib import Path

from mill_desk import workbook
from mill_desk.columns import (Column, find_columns, header_cell, plain_words, read_header,
                               unit_fault)
from mill_desk.numbers import (Mark, decide_mark, decimal_places, greatest_step, read_number, show,
                               show_plain, why_no_number)
from mill_desk.problem import (MOST_ORDERS, MOST_SIZES, MOST_STEPS, Order, Problem, Source,
                               number_colours)
from mill_desk.settings import Settings, step_words
from mill_desk.sizes import SIZES_SHEET, Size, read_sizes
from mill_desk.tables import Cell, Table, odd_sign, read_bytes, read_table
from mill_desk.trouble import Fault, TableTrouble

TOTALS = {'total', 'totals', 'grand total', 'subtotal', 'sum', 'summe', 'gesamt', 'gesamtsumme',
          'zwischensumme', 'somme', 'sous total', 'total general'}


@dataclass(frozen=True)
class Line:
    """The three cells of a row that is taken for an order."""

    id: Cell
    weight: Cell
    colour: Cell


@dataclass(frozen=True)
class Read:
    """An order as its row says it; `colour` is the text."""

    id: str
    weight: Fraction
    colour: str
    cell: Cell


def read_problem(path: Path, settings: Settings, added: tuple[Fraction, ...] = ()) -> Problem:
    """The problem that a table of orders stands for, with sizes that are added to its own."""
    sheet = settings.sheet or first_sheet(path)
    table = read_table(path, sheet)
    columns = find_columns(table, {Column.ID: settings.id, Column.WEIGHT: settings.weight,
                                   Column.COLOUR: settings.colour})
    found = read_sizes(path, settings)
    sizes = found.values + [Size(value, f'--add-size {show_plain(value)}') for value in added]
    lines, notes = order_lines(table, columns)
    reads, faults = read_lines(lines, settings.decimal)
    two_units = unit_fault(header_cell(table, columns[Column.WEIGHT]), found.header, SIZES_SHEET)
    faults = table.ragged + two_units + found.faults + faults
    if sizes and not found.faults and not two_units:
        faults += too_heavy(reads, sizes)
    if len(lines) > MOST_ORDERS:
        faults.append(Fault('', f'{len(lines):,} orders', 'the program takes at most 1,024'))
    if not lines:
        faults.append(Fault('', 'there is no order below the header'))
    if faults:
        raise TableTrouble(table.name, faults)
    unit = find_unit(table, columns, settings)
    headers = {what: header_cell(table, column).text for what, column in columns.items()}
    problem = Problem(
        settings.title or path.stem, (), {}, tuple(sorted({size.value for size in sizes})),
        settings.colours_per_slab, unit=unit[0], rounded=settings.round_up, headers=headers,
        notes=tuple(table.notes + notes + colour_notes(reads)),
        sources=sources_of(table, headers, settings, found.origin, unit, sizes))
    return scaled(problem, table.name, reads, sizes, settings)


def first_sheet(path: Path) -> str | None:
    """The first sheet that isn't the one of the sizes; None for a file that has no sheets."""
    raw = read_bytes(path)
    if not raw.startswith(b'PK'):
        return None
    names = workbook.sheet_names(path, raw)
    return next((name for name in names if plain_words(name) != SIZES_SHEET), names[0])


def order_lines(table: Table, columns: dict[Column, int]) -> tuple[list[Line], list[str]]:
    """The rows that are orders, and a note on each other row that holds something."""
    lines, notes = [], []
    for row in table.rows:
        line = Line(*(row.at(columns[what])
                      for what in (Column.ID, Column.WEIGHT, Column.COLOUR)))
        cells = (line.id, line.weight, line.colour)
        name = line.id.text or line.colour.text
        if not any(cell.text or cell.trouble for cell in cells):
            notes.append(f'row {row.number} has no id, weight and colour and is left out')
        elif plain_words(name) in TOTALS:
            notes.append(f'row {row.number} is named "{name}" and is left out as a total')
        elif line.weight.text and not any(cell.text or cell.trouble
                                          for cell in (line.id, line.colour)):
            notes.append(f'row {row.number} has a weight ({line.weight.text}) and neither id nor '
                         'colour and is left out as a total')
        else:
            lines.append(line)
    return lines, notes


def read_lines(lines: list[Line], asked: Mark | None) -> tuple[list[Read], list[Fault]]:
    """The orders of the rows, and the faults of those that aren't orders."""
    texts = [(line.weight.text, line.weight.place) for line in lines
             if line.weight.number is None and line.weight.text]
    decided = asked or decide_mark(texts, 'weight')
    faults = [decided] if isinstance(decided, Fault) else []
    mark = decided if isinstance(decided, Mark) else None
    seen: dict[str, Cell] = {}
    reads = []
    for line in lines:
        wrong = id_faults(line.id, seen) + text_faults(line.colour, 'colour')
        weight = read_weight(line.weight, mark)
        if isinstance(weight, Fault):
            wrong.append(weight)
        elif not wrong:
            reads.append(Read(line.id.text, weight, line.colour.text, line.weight))
        faults += wrong
    return reads, faults


def text_faults(cell: Cell, what: str) -> list[Fault]:
    """What is wrong with an id or a colour."""
    if cell.trouble:
        return [Fault(cell.place, *cell.trouble)]
    if not cell.text:
        return [Fault(cell.place, f'no {what} is given')]
    sign = odd_sign(cell.text)
    if sign:
        return [Fault(cell.place, f'the {what} holds a character that can\'t be seen ({sign})',
                      'type it again')]
    return []


def id_faults(cell: Cell, seen: dict[str, Cell]) -> list[Fault]:
    """What is wrong with an id; `seen` are the ids of the rows before."""
    faults = text_faults(cell, 'order id')
    if not faults and cell.text in seen:
        return [Fault(cell.place, f'the order id "{cell.text}" stands in {seen[cell.text].place} '
                      'too', 'give each order an id of its own')]
    if not faults:
        seen[cell.text] = cell
    return faults


def read_weight(cell: Cell, mark: Mark | None) -> Fraction | Fault:
    """The weight in a cell, which is above 0; under either mark where the column's isn't known."""
    if cell.trouble:
        return Fault(cell.place, *cell.trouble)
    marks = [mark] if mark else list(Mark)
    values = [read_number(cell.text, one) for one in marks]
    value = cell.number
    if value is None:
        value = next((found for found in values if found is not None), None)
    if value is None:
        if mark and read_number(cell.text, mark.other) is not None:
            return Fault(cell.place, f'the weight "{cell.text}" is no number with a decimal '
                         f'{mark.value}', 'write the whole column with one mark')
        return Fault(cell.place, *why_no_number(cell.text, 'weight'))
    if value <= 0:
        return Fault(cell.place, f'the weight is {cell.text}', 'it must be above 0')
    return value


def too_heavy(reads: list[Read], sizes: list[Size]) -> list[Fault]:
    """A fault for each order that is heavier than the largest size."""
    top = max(size.value for size in sizes)
    heavy = [read for read in reads if read.weight > top]
    mend = 'no slab can carry it'
    if reads and len(heavy) == len(reads):
        mend = 'so is every order: are the weights in kg and the sizes in t?'
    return [Fault(read.cell.place, f'order "{read.id}" weighs {show(read.weight)}, more than the '
                  f'largest size {show(top)}', mend) for read in heavy]


def colour_notes(reads: list[Read]) -> list[str]:
    """A note on each colour that differs from another in case or spaces alone."""
    known: dict[str, str] = {}
    notes = []
    for read in reads:
        alike = ''.join(unicodedata.normalize('NFKC', read.colour).casefold().split())
        first = known.setdefault(alike, read.colour)
        note = f'the colours "{first}" and "{read.colour}" are taken for two'
        if first != read.colour and note not in notes:
            notes.append(note)
    return notes


def find_unit(table: Table, columns: dict[Column, int], settings: Settings) -> tuple[str, str]:
    """The unit and where it comes from: an option, the file, or the header of the weights."""
    if settings.unit is not None:
        return settings.unit, settings.source('unit')
    cell = header_cell(table, columns[Column.WEIGHT])
    return read_header(cell.text).unit, f'the header in {cell.place}'


def sources_of(table: Table, headers: dict[Column, str], settings: Settings, origin: str,
               unit: tuple[str, str], sizes: list[Size]) -> tuple[Source, ...]:
    """What the run rests on, and where each value comes from."""
    names = ', '.join(f'{what.value} "{header}"' for what, header in headers.items())
    listed = '; '.join(show(value) for value in sorted({size.value for size in sizes}))
    found = [Source('orders', table.name, f'columns: {names}'),
             Source('sizes', listed, origin),
             Source('colours per slab', str(settings.colours_per_slab),
                    settings.source('colours_per_slab'))]
    if unit[0]:
        found.append(Source('unit', *unit))
    if settings.decimal:
        found.append(Source('decimal mark', settings.decimal.value, settings.source('decimal')))
    if settings.step is not None:
        found.append(Source('step', show_plain(settings.step), settings.source('step')))
    return tuple(found)


def scaled(problem: Problem, name: str, reads: list[Read], sizes: list[Size],
           settings: Settings) -> Problem:
    """The problem with its step and its orders."""
    values = [read.weight for read in reads] + [size.value for size in sizes]
    step = settings.step or greatest_step(values)
    cells = [(read.cell.place, 'weight', read.weight) for read in reads]
    cells += [(size.place, 'size', size.value) for size in sizes]
    top = max(size.value for size in sizes)
    if top // step > MOST_STEPS:
        raise TableTrouble(name, [too_fine(cells, top, step)])
    if not settings.round_up:
        faults = [Fault(place, f'the {what} {show(value)} is no whole number of steps of '
                        f'{show(step)}', 'leave out --step, or add --round-up')
                  for place, what, value in cells if (value / step).denominator != 1]
        if faults:
            raise TableTrouble(name, faults)
    numbers = number_colours([read.colour for read in reads])
    orders = tuple(Order(read.id, read.weight, numbers[read.colour], read.cell.place,
                         read.cell.row, -int(-read.weight // step)) for read in reads)
    made = replace(problem, orders=orders, step=step,
                   colours={number: colour for colour, number in numbers.items()})
    check_rounded(made, name, sizes)
    return made


def check_rounded(problem: Problem, name: str, sizes: list[Size]) -> None:
    """Refuses what rounding broke: a size of no step, an order that then fits on no size."""
    faults = [Fault(size.place, f'the size {show(size.value)} is less than one step of '
                    f'{show(problem.step)}', 'take a finer --step')
              for size in sizes if size.value < problem.step]
    if not faults:
        top = problem.size_steps[-1]
        faults = [Fault(order.place, f'order "{order.id}" weighs {show(order.weight)}, rounded up '
                        f'{show(order.steps * problem.step)}; the largest size is rounded down to '
                        f'{show(top * problem.step)}', 'take a finer --step')
                  for order in problem.heavy_orders()]
    if len(problem.size_steps) > MOST_SIZES:
        faults.append(Fault('', f'{len(problem.size_steps):,} sizes',
                            'the program takes at most 1,024'))
    if faults:
        raise TableTrouble(name, faults)


def fineness(value: Fraction) -> int:
    """The place of the last digit: 2 for 0.25, 0 for 7, -2 for 300."""
    places = decimal_places(value)
    if places is None or places > 0:
        return places or 99
    digits = str(value.numerator)
    return len(digits.rstrip('0')) - len(digits)


def coarse_step(top: Fraction) -> Fraction:
    """The least of 1, 2 or 5 times a power of ten in which `top` has few enough steps."""
    step = Fraction(1, 10 ** 12)
    while True:
        for times in (1, 2, 5):
            if top // (step * times) <= MOST_STEPS:
                return step * times
        step *= 10


def too_fine(cells: list[tuple[str, str, Fraction]], top: Fraction, step: Fraction) -> Fault:
    """The refusal of a step that is too fine, with the cells that have the finest digits."""
    finest = max(fineness(value) for _, _, value in cells)
    named = [f'{place} ({show(value)})' for place, _, value in cells if fineness(value) == finest]
    listed = ', '.join(named[:3]) + (f' and {len(named) - 3} more' if len(named) > 3 else '')
    return Fault('', f'in steps of {show(step)} the largest size {show(top)} has '
                 f'{show(top // step)} steps, and the program takes at most {show(MOST_STEPS)}',
                 f'the finest digits stand in {listed}; --round-up {step_words(coarse_step(top))} '
                 'rounds weights up and sizes down')
