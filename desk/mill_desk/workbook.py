"""Reads .xlsx files: stored values, floats as the 15 digits that the spreadsheet shows.

Only this module and `sheets` load openpyxl, so CSV works without it.
"""

import datetime
import io
import warnings
import zipfile
from decimal import Decimal
from fractions import Fraction
from pathlib import Path
from typing import Any

from mill_desk.tables import Cell, Row, Table, refused
from mill_desk.trouble import Exit, Trouble, WordsTrouble

MOST_UNPACKED = 512 * 1024 * 1024
MOST_COLUMNS = 1024
NEEDED = ('python3-openpyxl is needed for .xlsx: '
          'sudo apt-get install -y python3-openpyxl python3-defusedxml')


def openpyxl() -> Any:
    """The package, which Debian calls python3-openpyxl."""
    try:
        import openpyxl as package
    except ImportError:
        raise Trouble(Exit.NO_PROGRAM, NEEDED) from None
    return package


def is_installed() -> bool:
    """Whether .xlsx can be read and written here."""
    try:
        openpyxl()
    except Trouble:
        return False
    return True


def load(path: Path, raw: bytes, stored: bool = True) -> Any:
    """The workbook with its stored values, or with its formulas."""
    package = openpyxl()
    look_inside(path, raw)
    try:
        with warnings.catch_warnings():
            warnings.simplefilter('ignore')
            book = package.load_workbook(io.BytesIO(raw), data_only=stored)
    except Exception as error:
        raise refused(path.name, f'can\'t be read as .xlsx ({type(error).__name__})',
                      'open it in the spreadsheet program and save it again') from error
    if not book.worksheets:
        raise refused(path.name, 'has no sheet that can be read',
                      'open it in the spreadsheet program and save it again')
    return book


def look_inside(path: Path, raw: bytes) -> None:
    """Refuses a file that is cut short, is another kind of document, or unpacks too large."""
    try:
        with zipfile.ZipFile(io.BytesIO(raw)) as packed:
            names = packed.namelist()
            total = sum(entry.file_size for entry in packed.infolist())
    except zipfile.BadZipFile:
        raise refused(path.name, 'is cut short or damaged',
                      'open it in the spreadsheet program and save it again') from None
    if 'mimetype' in names and 'content.xml' in names:
        raise refused(path.name, 'is an OpenDocument file (.ods)')
    if 'xl/workbook.bin' in names:
        raise refused(path.name, 'is a binary workbook (.xlsb)')
    if 'xl/workbook.xml' not in names:
        raise refused(path.name, 'is neither .xlsx nor CSV')
    if total > MOST_UNPACKED:
        raise refused(path.name, 'unpacks to more than 512 MB',
                      'take out what is no table of orders')


def sheet_names(path: Path, raw: bytes) -> list[str]:
    """The names of the sheets, in their order."""
    return [sheet.title for sheet in load(path, raw).worksheets]


def read_sheet(path: Path, raw: bytes, name: str | None = None) -> Table:
    """The table of a sheet: of the first one where none is named."""
    book = load(path, raw)
    titles = [sheet.title for sheet in book.worksheets]
    if name is None:
        sheet = book.worksheets[0]
    elif name in titles:
        sheet = book[name]
    else:
        raise WordsTrouble(f'{path.name} has no sheet "{name}"; its sheets are: '
                           + ', '.join(titles))
    where = f'{path.name}, sheet {sheet.title}'
    rows = all_rows(sheet)
    if any(not cell.text for row in rows for cell in row.cells):
        rows = mark_formulas(rows, load(path, raw, stored=False)[sheet.title])
        rows = mark_merged(rows, sheet)
    rows = [row for row in rows if any(cell.text or cell.trouble for cell in row.cells)]
    if not rows:
        raise refused(where, 'has nothing in it', 'it needs a header and a row for each order')
    return Table(where, rows[0].cells, rows[1:], hidden_note(sheet, rows))


def all_rows(sheet: Any) -> list[Row]:
    """The rows of the sheet that have cells, blank ones too, each to its last cell.

    Openpyxl keeps the cells of a file in a table by place. Walking that table, and not the
    rectangle round it, keeps a lone cell at the far end of a sheet from costing minutes.
    """
    found: dict[int, dict[int, Cell]] = {}
    for (row, column), cell in sheet._cells.items():
        if column <= MOST_COLUMNS:
            found.setdefault(row, {})[column] = read_cell(cell, row, column)
    return [Row(number, [filled.get(c) or Cell('', number, c)
                         for c in range(1, max(filled) + 1)])
            for number, filled in sorted(found.items())]


def read_cell(cell: Any, row: int, column: int) -> Cell:
    """The stored value of a cell as text, and as a number where it is one."""
    value = cell.value
    if value is None:
        return Cell('', row, column)
    if isinstance(value, bool):
        return Cell(str(value).upper(), row, column)
    if isinstance(value, (int, float)):
        text = fifteen_digits(value)
        if '%' in (cell.number_format or ''):
            shown = format(Decimal(text) * 100, 'f')
            return Cell(f'{shown}%', row, column)
        return Cell(text, row, column, number=Fraction(text))
    if isinstance(value, (datetime.datetime, datetime.date)):
        return Cell(f'{value:%Y-%m-%d}', row, column)
    return Cell(str(value).strip(), row, column)


def fifteen_digits(value: int | float) -> str:
    """A stored number as the spreadsheet shows it, without an exponent."""
    if isinstance(value, int):
        return str(value)
    shown = format(Decimal(format(value, '.15g')), 'f')
    return shown.rstrip('0').rstrip('.') if '.' in shown else shown


def mark_formulas(rows: list[Row], formulas: Any) -> list[Row]:
    """The rows with a trouble at each cell whose formula has no stored value."""
    mend = 'open the file in the spreadsheet program, save it, and try again'
    return [Row(row.number, [mark(cell, 'holds a formula without a stored value', mend)
                             if not cell.text and is_formula(formulas, cell) else cell
                             for cell in row.cells]) for row in rows]


def is_formula(formulas: Any, cell: Cell) -> bool:
    """Whether the sheet that was read with its formulas has one there."""
    found = formulas._cells.get((cell.row, cell.column))
    return found is not None and found.data_type == 'f'


def mark_merged(rows: list[Row], sheet: Any) -> list[Row]:
    """The rows with a trouble at each empty cell that is merged with another."""
    merged = {(row, column): block.coord for block in sheet.merged_cells.ranges
              for row, column in block_cells(block)}
    mend = 'give each row a value of its own'
    return [Row(row.number, [mark(cell, f'is merged ({merged[cell.row, cell.column]})', mend)
                             if not cell.text and (cell.row, cell.column) in merged else cell
                             for cell in row.cells]) for row in rows]


def block_cells(block: Any) -> list[tuple[int, int]]:
    """The places of a merged block, the first rows of a large one."""
    last = min(block.max_row, block.min_row + 2000)
    return [(row, column) for row in range(block.min_row, last + 1)
            for column in range(block.min_col, min(block.max_col, MOST_COLUMNS) + 1)]


def mark(cell: Cell, what: str, mend: str) -> Cell:
    """The cell with its trouble."""
    return Cell(cell.text, cell.row, cell.column, cell.number, (what, mend))


def hidden_note(sheet: Any, rows: list[Row]) -> list[str]:
    """A note on the rows that a filter or a person has hidden, which are taken all the same."""
    filled = {row.number for row in rows}
    hidden = sorted(number for number, row in sheet.row_dimensions.items()
                    if row.hidden and number in filled)
    if not hidden:
        return []
    rows_of = '1 hidden row is' if len(hidden) == 1 else f'{len(hidden)} hidden rows are'
    return [f'{rows_of} taken too (the first is row {hidden[0]})']

