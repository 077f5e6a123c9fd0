"""Finds the columns of a table by their headers, so that weight and colour can't be swapped."""

import re
import unicodedata
from dataclasses import dataclass
from enum import Enum

from mill_desk.tables import Cell, Table
from mill_desk.trouble import Fault, TableTrouble


class Column(Enum):
    """What a column holds."""

    ID = 'id'
    WEIGHT = 'weight'
    COLOUR = 'colour'
    SLAB = 'slab'
    SIZE = 'size'


# Headers in English, German and French, without accents, units and marks.
NAMES = {
    Column.ID: {
        'order', 'id', 'order id', 'order no', 'order nr', 'order number', 'no', 'nr', 'job',
        'job no', 'item', 'position', 'auftrag', 'auftragsnr', 'auftragsnummer', 'auftrags nr',
        'auftrag nr', 'bestellung', 'kundenauftrag', 'commande', 'no commande', 'numero',
        'n commande', 'numero de commande', 'ordre', 'reference'},
    Column.WEIGHT: {
        'weight', 'order weight', 'tonnage', 'tons', 'tonnes', 'mass', 't', 'kg', 'gewicht',
        'auftragsgewicht', 'masse', 'tonnen', 'poids', 'poids commande'},
    Column.COLOUR: {
        'colour', 'color', 'route', 'grade', 'steel grade', 'group', 'farbe', 'gute', 'stahlsorte',
        'sorte', 'werkstoff', 'gruppe', 'couleur', 'nuance', 'gamme', 'groupe'},
    Column.SLAB: {
        'slab', 'slab no', 'slab nr', 'slab number', 'slab id', 'bramme', 'brammen nr',
        'brammennr', 'brammennummer', 'brame', 'no brame', 'plan'},
    Column.SIZE: {
        'size', 'sizes', 'slab size', 'slab sizes', 'grosse', 'grossen', 'brammengrosse',
        'brammengrossen', 'taille', 'tailles', 'format', 'formats'},
}
# Each unit as headers write it, and the one that it is.
UNITS = {'t': 't', 'to': 't', 'tons': 't', 'tonnes': 't', 'tonnen': 't', 'mt': 't', 'kg': 'kg',
         'g': 'g', 'lb': 'lb', 'lbs': 'lb'}
_UNIT_AT_END = re.compile(r'^(.*?\S)\s+(?:in\s+|en\s+)?(' + '|'.join(UNITS) + r')$')


@dataclass(frozen=True)
class Header:
    """A header in plain words, and the unit that it names ('' for none)."""

    words: str
    unit: str


def plain_words(text: str) -> str:
    """The text in small letters without accents, its marks as single spaces."""
    bare = ''.join(sign for sign in unicodedata.normalize('NFKD', text.casefold())
                   if not unicodedata.combining(sign))
    return ' '.join(re.sub(r'[^a-z0-9]+', ' ', bare).split())


def read_header(text: str) -> Header:
    """The header without its unit, which may stand in brackets or at the end."""
    without = re.sub(r'\(.*?\)|\[.*?\]', ' ', text)
    inside = [plain_words(part) for part in re.findall(r'\((.*?)\)|\[(.*?)\]', text)
              for part in part]
    unit = next((part for part in inside if part in UNITS), '')
    words = plain_words(without)
    found = _UNIT_AT_END.match(words)
    if found and not unit:
        words, unit = found[1], found[2]
    if words in UNITS and not unit:
        unit = words
    return Header(words, unit)


def find_column(table: Table, what: Column, asked: str | None = None) -> int | Fault:
    """The number of the column, from 1, or the fault that none or several could be it."""
    headers = [cell for cell in table.header if cell.text]
    listed = 'the headers are: ' + ', '.join(f'"{cell.text}"' for cell in headers)
    name = 'order id' if what is Column.ID else what.value
    if asked is not None:
        found = [cell for cell in headers if cell.text == asked.strip()]
        missing = f'no column is headed "{asked}"'
    else:
        found = [cell for cell in headers if read_header(cell.text).words in NAMES[what]]
        missing = f'no column is headed as the {name}'
    if len(found) == 1:
        return found[0].column
    if not found:
        return Fault(f'row {table.header[0].row}', missing,
                     f'name it by --{what.value} "HEADER"; {listed}')
    places = ' and '.join(f'"{cell.text}" ({cell.place})' for cell in found)
    return Fault(f'row {found[0].row}', f'{places} may each be the {name}',
                 f'name it by --{what.value} "HEADER"' if asked is None else
                 'give them different headers')


def find_columns(table: Table, wanted: dict[Column, str | None]) -> dict[Column, int]:
    """The columns wanted, each with the header asked for; refuses where one isn't clear."""
    found = {what: find_column(table, what, asked) for what, asked in wanted.items()}
    faults = [fault for fault in found.values() if isinstance(fault, Fault)]
    if faults:
        raise TableTrouble(table.name, faults)
    columns = {what: column for what, column in found.items() if isinstance(column, int)}
    if len(set(columns.values())) < len(columns):
        raise TableTrouble(table.name, [Fault('', 'one column is named twice',
                                              'name a column of its own for each')])
    return columns


def unit_fault(weights: Cell, sizes: Cell | None, sheet: str) -> list[Fault]:
    """The fault that the headers of weights and sizes name two units; none where one names none."""
    ours, theirs = read_header(weights.text).unit, read_header(sizes.text).unit if sizes else ''
    if sizes is None or not ours or not theirs or UNITS[ours] == UNITS[theirs]:
        return []
    return [Fault(weights.place, f'the weights are in {ours} ("{weights.text}"), and the sizes in '
                  f'{theirs} (sheet {sheet}, {sizes.place}, "{sizes.text}")',
                  'give both in one unit')]


def header_cell(table: Table, column: int) -> Cell:
    """The header of a column."""
    return table.header[column - 1]
