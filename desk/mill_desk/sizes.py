"""Reads the slab sizes: an option, desk.toml, or a sheet named `sizes`."""

import re
from dataclasses import dataclass
from fractions import Fraction
from pathlib import Path

from mill_desk import workbook
from mill_desk.columns import Column, find_column, plain_words
from mill_desk.numbers import Mark, decide_mark, read_number, why_no_number
from mill_desk.problem import MOST_SIZES
from mill_desk.settings import FILE_NAME, Settings
from mill_desk.tables import Cell, Table, read_bytes
from mill_desk.trouble import Fault, WordsTrouble

SIZES_SHEET = 'sizes'


@dataclass(frozen=True)
class Size:
    """A slab size in the unit of the table, and the place that a person finds it by."""

    value: Fraction
    place: str


@dataclass(frozen=True)
class _Text:
    """A text that is to be a size."""

    text: str
    place: str
    number: Fraction | None = None
    trouble: tuple[str, str] | None = None


@dataclass(frozen=True)
class Sizes:
    """The sizes, their faults, where they come from, and the header of a sheet that has one."""

    values: list[Size]
    faults: list[Fault]
    origin: str
    header: Cell | None = None


def read_sizes(path: Path, settings: Settings) -> Sizes:
    """The sizes of an option or of desk.toml, else of the sheet."""
    header = None
    if settings.sizes is not None:
        origin = settings.source('sizes')
        texts = split_sizes(settings.sizes, origin)
    else:
        table = sizes_table(path)
        origin = f'the sheet {SIZES_SHEET}'
        header, texts = sheet_sizes(table)
    sizes, faults = values_of(texts, settings.decimal)
    if not texts:
        faults.append(Fault(origin, 'there is no size'))
    if len({size.value for size in sizes}) > MOST_SIZES:
        faults.append(Fault(origin, f'{len(sizes):,} sizes', 'the program takes at most 1,024'))
    return Sizes(sizes, faults, origin, header)


def split_sizes(text: str, origin: str) -> list[_Text]:
    """The texts of a list of sizes, which stand with semicolons or spaces between."""
    if ';' in text:
        parts = text.split(';')
    elif re.search(r',\s', text):
        parts = re.split(r',\s+', text)
    elif ',' in text and not re.search(r'\s', text.strip()):
        raise WordsTrouble(f'{origin}: "{text}" may be one size or several: write the sizes with '
                           'semicolons between, as in "12; 14.5; 17"')
    else:
        parts = text.split()
    place = 'sizes of desk.toml' if origin == FILE_NAME else origin
    return [_Text(part.strip(), f'{place}, size {number}')
            for number, part in enumerate(parts, 1) if part.strip()]


def sizes_table(path: Path) -> Table:
    """The table of the sheet named sizes."""
    raw = read_bytes(path)
    if raw.startswith(b'PK'):
        for name in workbook.sheet_names(path, raw):
            if plain_words(name) == SIZES_SHEET:
                return workbook.read_sheet(path, raw, name)
    raise WordsTrouble('no sizes are given: say --sizes "12; 14.5; 17", or write '
                       'sizes = "12; 14.5; 17" in a file desk.toml beside the orders, or make a '
                       'sheet named sizes')


def sheet_sizes(table: Table) -> tuple[Cell | None, list[_Text]]:
    """The header of the sizes, or of the one column that the sheet has, and the cells below."""
    column = find_column(table, Column.SIZE)
    rows = table.rows
    if isinstance(column, Fault):
        filled = {cell.column for row in rows for cell in row.cells if cell.text}
        filled |= {cell.column for cell in table.header if cell.text}
        if len(filled) != 1:
            raise WordsTrouble(f'{table.name}: {column}')
        column = filled.pop()
        first = table.header[column - 1]
        if first.number is not None or any(read_number(first.text, mark) for mark in Mark):
            return None, [as_text(first)] + [as_text(row.at(column)) for row in rows]
    cells = [row.at(column) for row in rows]
    return table.header[column - 1], [as_text(cell) for cell in cells if cell.text or cell.trouble]


def as_text(cell: Cell) -> _Text:
    """A cell as a size to be read."""
    return _Text(cell.text, f'sheet {SIZES_SHEET}, {cell.place}', cell.number, cell.trouble)


def values_of(texts: list[_Text], asked: Mark | None) -> tuple[list[Size], list[Fault]]:
    """The sizes that the texts are; the mark asked for settles only what is doubtful."""
    open_texts = [(entry.text, entry.place) for entry in texts if entry.number is None]
    decided = decide_mark(open_texts, 'size')
    if isinstance(decided, Fault) and (asked is None or 'may be' not in decided.what):
        return [], [decided]
    mark = decided if isinstance(decided, Mark) else asked or Mark.POINT
    sizes, faults = [], []
    for entry in texts:
        value = entry.number if entry.number is not None else read_number(entry.text, mark)
        if entry.trouble:
            faults.append(Fault(entry.place, *entry.trouble))
        elif value is None:
            faults.append(Fault(entry.place, *why_no_number(entry.text, 'size')))
        elif value <= 0:
            faults.append(Fault(entry.place, f'the size is {entry.text}', 'it must be above 0'))
        else:
            sizes.append(Size(value, entry.place))
    return sizes, faults
