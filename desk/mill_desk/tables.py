"""Tables from files: cells with the places that a person finds them by.

A CSV file is read here; an .xlsx file by `workbook`, which alone needs openpyxl.
"""

import csv
import io
import unicodedata
from dataclasses import dataclass, field
from fractions import Fraction
from pathlib import Path

from mill_desk.trouble import Fault, TableTrouble, WordsTrouble

SEPARATORS = {',': 'comma', ';': 'semicolon', '\t': 'tab'}
SAVE_AS = 'save it as .xlsx or CSV'
MOST_BYTES = 64 * 1024 * 1024


@dataclass(frozen=True)
class Cell:
    """One cell: its text, trimmed, and its place (row and column are counted from 1).

    `number` is set where the spreadsheet stored a number. `trouble` is what keeps a cell from
    being read at all, such as a formula without a stored value, and its mend.
    """

    text: str
    row: int
    column: int
    number: Fraction | None = None
    trouble: tuple[str, str] | None = None

    @property
    def place(self) -> str:
        """The cell as spreadsheets name it."""
        return f'cell {column_letters(self.column)}{self.row}'


@dataclass
class Row:
    """The cells of a row of the table; those past the last are empty."""

    number: int
    cells: list[Cell]

    def at(self, column: int) -> Cell:
        """The cell of a column, counted from 1."""
        if column <= len(self.cells):
            return self.cells[column - 1]
        return Cell('', self.number, column)


@dataclass
class Table:
    """A header and the rows below it that hold anything."""

    name: str
    header: list[Cell]
    rows: list[Row]
    notes: list[str] = field(default_factory=list)
    ragged: list[Fault] = field(default_factory=list)


def column_letters(column: int) -> str:
    """The letters of a column that is counted from 1: A, B, .., Z, AA, .."""
    letters = ''
    while column:
        column, rest = divmod(column - 1, 26)
        letters = chr(65 + rest) + letters
    return letters


def refused(name: str, what: str, mend: str = SAVE_AS) -> TableTrouble:
    """The refusal of a whole file."""
    return TableTrouble(name, [Fault('', f'the file {what}', mend)])


def read_bytes(path: Path) -> bytes:
    """The bytes of a file that the user named."""
    try:
        if path.stat().st_size > MOST_BYTES:
            raise refused(path.name, 'has more than 64 MB', 'take out what is no table of orders')
        return path.read_bytes()
    except OSError as error:
        raise WordsTrouble(f'{path}: {error.strerror}') from error


def read_table(path: Path, sheet: str | None = None) -> Table:
    """The table in a file: CSV, or the sheet of an .xlsx file (its first where none is named)."""
    raw = read_bytes(path)
    if raw.startswith(b'PK'):
        from mill_desk import workbook
        return workbook.read_sheet(path, raw, sheet)
    if raw.startswith(b'\xd0\xcf\x11\xe0'):
        raise refused(path.name, 'is an old .xls file, or is locked with a password')
    if sheet is not None:
        raise WordsTrouble(f'{path.name} is no .xlsx file, so it has no sheet "{sheet}"')
    return read_csv(path.name, raw)


def decode(name: str, raw: bytes) -> tuple[str, list[str]]:
    """The text of a CSV file, and notes on how it was read."""
    notes: list[str] = []
    try:
        if raw.startswith((b'\xff\xfe', b'\xfe\xff')):
            text = raw.decode('utf-16')
        else:
            text = raw.decode('utf-8-sig')
    except UnicodeDecodeError:
        try:
            text = raw.decode('cp1252')
        except UnicodeDecodeError:
            raise refused(name, 'is no text', 'save it as CSV in UTF-8, or as .xlsx') from None
        notes.append(f'{name} is not in UTF-8; it was read as Windows-1252')
    if '\0' in text:
        raise refused(name, 'holds NUL bytes, so it is no CSV',
                      'save it as CSV in UTF-8, or as .xlsx')
    return text, notes


def find_separator(name: str, text: str) -> str:
    """The separator that the header has most often outside quotes."""
    count = dict.fromkeys(SEPARATORS, 0)
    quoted = False
    for sign in text.lstrip('\r\n'):
        if sign == '"':
            quoted = not quoted
        elif not quoted and sign in '\r\n':
            break
        elif not quoted and sign in count:
            count[sign] += 1
    most = max(count.values())
    best = [sign for sign in count if count[sign] == most]
    if most and len(best) > 1:
        names = ' and '.join(SEPARATORS[sign] for sign in best)
        raise refused(name, f'has {names} equally often in its header', 'use one separator')
    return best[0]


def split_records(name: str, text: str) -> tuple[list[list[str]], str]:
    """The records of a CSV text, blank ones included, and the separator."""
    first = text.split('\n', 1)[0].strip()
    if first.lower().startswith('sep=') and len(first) == 5:
        separator, text = first[4], text.split('\n', 1)[-1]
    else:
        separator = find_separator(name, text)
    reader = csv.reader(io.StringIO(text, newline=''), delimiter=separator, strict=True)
    records: list[list[str]] = []
    try:
        for record in reader:
            records.append(record)
    except csv.Error as error:
        raise TableTrouble(name, [Fault(f'row {len(records) + 1}',
                                        f'the quotes are wrong ({error})',
                                        'write a quote inside quotes twice')]) from None
    return records, separator


def read_csv(name: str, raw: bytes) -> Table:
    """The table of a CSV file. A row that is longer than the header is a fault of the table."""
    text, notes = decode(name, raw)
    records, separator = split_records(name, text)
    rows = []
    for number, record in enumerate(records, 1):
        cells = [Cell(value.strip(), number, i) for i, value in enumerate(record, 1)]
        while cells and not cells[-1].text:
            cells.pop()
        if cells:
            rows.append(Row(number, cells))
    if not rows:
        raise refused(name, 'is empty', 'it needs a header and a row for each order')
    header = rows[0].cells
    ragged = [too_long(row, len(header), separator) for row in rows[1:]
              if len(row.cells) > len(header)]
    return Table(name, header, rows[1:], notes, ragged)


def too_long(row: Row, columns: int, separator: str) -> Fault:
    """The fault of a row with more cells than the header: a mark was taken for a separator."""
    mend = 'give the column a header, or empty the cells'
    if separator == ',':
        mend = 'a decimal comma or a comma in a text may have been taken for a separator; ' + \
            'save it with semicolons, or as .xlsx'
    return Fault(f'row {row.number}', f'has {len(row.cells)} cells, and the header {columns}',
                 mend)


def is_odd(sign: str) -> bool:
    """Whether a character can't be seen, or can't stand in an .xlsx file."""
    return unicodedata.category(sign) in ('Cc', 'Cf', 'Cs', 'Zl', 'Zp') or sign in '\ufffe\uffff'


def odd_sign(text: str) -> str | None:
    """The first odd character of a text, as U+0007; None where there is none."""
    return next((f'U+{ord(sign):04X}' for sign in text if is_odd(sign)), None)


def visible(text: str) -> str:
    """The text with its odd characters in words."""
    return ''.join(f'U+{ord(sign):04X}' if is_odd(sign) else sign for sign in text)
