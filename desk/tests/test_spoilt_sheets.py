"""Spoilt sheets, as planners would write them: each is refused with exactly this message."""

import datetime
import io
import zipfile
from collections.abc import Callable
from dataclasses import dataclass
from typing import Any

from mill_desk.settings import whole
from tests.support import InFolder, desk, each, needs, spread

HEAD = 'Order,Weight,Colour\n'
SIZES = ('--sizes', '12; 14.5; 17')
SAVE = 'save it as .xlsx or CSV'
AGAIN = 'open it in the spreadsheet program and save it again'
HEADERS = 'the headers are: '


@dataclass(frozen=True)
class Spoilt:
    """A spoilt CSV: its bytes, the options, and the lines behind `.. is to be mended:`."""

    content: str | bytes
    lines: tuple[str, ...]
    options: tuple[str, ...] = SIZES
    name: str = 'sheet.csv'


def csv(rows: str, *lines: str, options: tuple[str, ...] = SIZES) -> Spoilt:
    """A CSV with the usual header."""
    return Spoilt(HEAD + rows, lines, options)


CSV: dict[str, Spoilt] = {
    'an empty file': Spoilt('', (
        'the file is empty; it needs a header and a row for each order',)),
    'a header alone': csv('', 'there is no order below the header'),
    'no separator': Spoilt('Order Weight Colour\nA 7 red\n', (
        f'row 1: no column is headed as the order id; name it by --id "HEADER"; {HEADERS}'
        '"Order Weight Colour"',
        f'row 1: no column is headed as the weight; name it by --weight "HEADER"; {HEADERS}'
        '"Order Weight Colour"',
        f'row 1: no column is headed as the colour; name it by --colour "HEADER"; {HEADERS}'
        '"Order Weight Colour"')),
    'two separators': Spoilt('Order;Weight,t;Colour,x\nA;7,red\n', (
        'the file has comma and semicolon equally often in its header; use one separator',)),
    'no header': Spoilt('A,7,red\nB,8,blue\n', (
        f'row 1: no column is headed as the order id; name it by --id "HEADER"; {HEADERS}'
        '"A", "7", "red"',
        f'row 1: no column is headed as the weight; name it by --weight "HEADER"; {HEADERS}'
        '"A", "7", "red"',
        f'row 1: no column is headed as the colour; name it by --colour "HEADER"; {HEADERS}'
        '"A", "7", "red"')),
    'two weights': Spoilt('Order,Weight,Weight kg,Colour\nA,7,7000,red\n', (
        'row 1: "Weight" (cell B1) and "Weight kg" (cell C1) may each be the weight; name it by '
        '--weight "HEADER"',)),
    'a header asked for that isn\'t there': csv('A,7,red\n',
        f'row 1: no column is headed "Tons"; name it by --weight "HEADER"; {HEADERS}'
        '"Order", "Weight", "Colour"', options=(*SIZES, '--weight', 'Tons')),
    'a column named twice': csv('A,7,red\n',
        'one column is named twice; name a column of its own for each',
        options=(*SIZES, '--colour', 'Order')),
    'a decimal comma between commas': csv('A,7,5,red\nB,8,blue\n',
        'row 2: has 4 cells, and the header 3; a decimal comma or a comma in a text may have been '
        'taken for a separator; save it with semicolons, or as .xlsx'),
    'cells without a header between semicolons': Spoilt('Order;Weight;Colour\nA;7;red;x\n', (
        'row 2: has 4 cells, and the header 3; give the column a header, or empty the cells',)),
    'an open quote': csv('"A,7,red\nB,8,blue\n',
        'row 2: the quotes are wrong (unexpected end of data); write a quote inside quotes twice'),
    'a weight that may be two numbers': csv('A,1.200,red\nB,7,red\n',
        'cell B2: the weight "1.200" may be 1.2 or 1200; say which: --decimal point or --decimal '
        'comma'),
    'both marks in a column': Spoilt('Order;Weight;Colour\nA;10,5;red\nB;7.5;red\n', (
        'cell B3: the weight "7.5" has a decimal point and "10,5" (cell B2) a decimal comma; '
        'write the whole column with one mark',)),
    'a point where a comma is asked for': Spoilt('Order;Weight;Colour\nA;10.5;red\n', (
        'cell B2: the weight "10.5" is no number with a decimal comma; write the whole column '
        'with one mark',), (*SIZES, '--decimal', 'comma')),
    'a unit in the cell': csv('A,7 t,red\n',
        'cell B2: the weight "7 t" has a unit in it; the unit belongs into the header'),
    'a percentage': csv('A,7%,red\n',
        'cell B2: the weight "7%" has a unit in it; the unit belongs into the header'),
    'a date': csv('A,03.04.2026,red\n',
        'cell B2: the weight "03.04.2026" is a date; a spreadsheet makes one of 3-4; format the '
        'column as a number and type it again'),
    'a date in words': csv('A,3. Apr,red\n',
        'cell B2: the weight "3. Apr" is a date; a spreadsheet makes one of 3-4; format the '
        'column as a number and type it again'),
    'an exponent': csv('A,1E+01,red\n',
        'cell B2: the weight "1E+01" is written with an exponent; format the column as a number '
        'with all its digits'),
    'a formula error': csv('A,#REF!,red\n',
        'cell B2: the weight is the error #REF!; mend the formula in the spreadsheet'),
    'a word for a weight': csv('A,heavy,red\n', 'cell B2: the weight "heavy" is no number'),
    'a dash for a weight': csv('A,-,red\n', 'cell B2: the weight "-" is no number'),
    'no weight': csv('A,,red\n', 'cell B2: no weight is given'),
    'no colour': csv('A,7,\n', 'cell C2: no colour is given'),
    'no id': csv(',7,red\n', 'cell A2: no order id is given'),
    'a weight of nothing': csv('A,0,red\n', 'cell B2: the weight is 0; it must be above 0'),
    'a negative weight': csv('A,-7,red\n', 'cell B2: the weight is -7; it must be above 0'),
    'an id twice': csv('A,7,red\nB,8,red\nA,9,blue\n',
        'cell A4: the order id "A" stands in cell A2 too; give each order an id of its own'),
    'a control character in an id': csv('A\x07,7,red\n',
        'cell A2: the order id holds a character that can\'t be seen (U+0007); type it again'),
    'a line end in a colour': csv('A,7,"red\nblue"\n',
        'cell C2: the colour holds a character that can\'t be seen (U+000A); type it again'),
    'a space of no width in a colour': csv('A,7,re\u200bd\n',
        'cell C2: the colour holds a character that can\'t be seen (U+200B); type it again'),
    'an order that is too heavy': csv('A,7,red\nB,17.5,red\n',
        'cell B3: order "B" weighs 17.5, more than the largest size 17; no slab can carry it'),
    'kilograms against tonnes': csv('A,7000,red\nB,12500,blue\n',
        'cell B2: order "A" weighs 7000, more than the largest size 17; so is every order: are '
        'the weights in kg and the sizes in t?',
        'cell B3: order "B" weighs 12 500, more than the largest size 17; so is every order: are '
        'the weights in kg and the sizes in t?'),
    '1,025 orders': csv(''.join(f'A{i},7,red\n' for i in range(1025)),
        '1,025 orders; the program takes at most 1,024'),
    'too fine a step': csv('A,7.0001,red\nB,8,red\n',
        'in steps of 0.0001 the largest size 17 has 170 000 steps, and the program takes at most '
        '20 000; the finest digits stand in cell B2 (7.0001); --round-up --step 0.001 rounds '
        'weights up and sizes down'),
    'no whole number of steps': csv('A,7.3,red\nB,8,red\n',
        'cell B2: the weight 7.3 is no whole number of steps of 0.5; leave out --step, or add '
        '--round-up', options=(*SIZES, '--step', '0.5')),
    'rounded up past the largest size': csv('A,16.9,red\n',
        'cell B2: order "A" weighs 16.9, rounded up 18; the largest size is rounded down to 16; '
        'take a finer --step', options=(*SIZES, '--step', '2', '--round-up')),
    'a size of less than a step': csv('A,7,red\n',
        '--sizes, size 1: the size 3 is less than one step of 5; take a finer --step',
        options=('--sizes', '3; 20', '--step', '5', '--round-up')),
    'a size that is a word': csv('A,7,red\n', '--sizes, size 2: the size "x" is no number',
        options=('--sizes', '12; x; 17')),
    'a size of nothing': csv('A,7,red\n', '--sizes, size 1: the size is 0; it must be above 0',
        options=('--sizes', '0; 17')),
    'a size that may be two numbers': csv('A,7,red\n',
        '--sizes, size 1: the size "1.200" may be 1.2 or 1200; say which: --decimal point or '
        '--decimal comma', options=('--sizes', '1.200; 17')),
    'many faults at once': csv(''.join(f'A{i},x,red\n' for i in range(15)), *(
        f'cell B{i}: the weight "x" is no number' for i in range(2, 14)), 'and 3 more'),
    'faults of many kinds at once': csv('A,7 t,red\nA,8,\n,,blue\nD,99,red\n',
        'cell B2: the weight "7 t" has a unit in it; the unit belongs into the header',
        'cell A3: the order id "A" stands in cell A2 too; give each order an id of its own',
        'cell C3: no colour is given',
        'cell A4: no order id is given',
        'cell B4: no weight is given',
        'cell B5: order "D" weighs 99, more than the largest size 17; so is every order: are the '
        'weights in kg and the sizes in t?'),
    'UTF-16 without a mark': Spoilt((HEAD + 'A,7,red\n').encode('utf-16-le'), (
        'the file holds NUL bytes, so it is no CSV; save it as CSV in UTF-8, or as .xlsx',)),
    'bytes that are no text': Spoilt(HEAD.encode() + b'A\x81,7,red\n', (
        'the file is no text; save it as CSV in UTF-8, or as .xlsx',)),
    'an old .xls file': Spoilt(b'\xd0\xcf\x11\xe0\xa1\xb1\x1a\xe1' + bytes(100), (
        f'the file is an old .xls file, or is locked with a password; {SAVE}',), name='sheet.xls'),
}


def zipped(*names: str) -> bytes:
    """A zip with these files in it."""
    made = io.BytesIO()
    with zipfile.ZipFile(made, 'w') as packed:
        for name in names:
            packed.writestr(name, 'x')
    return made.getvalue()


ZIPS: dict[str, Spoilt] = {
    'a cut .xlsx': Spoilt(zipped('xl/workbook.xml')[:60], (
        f'the file is cut short or damaged; {AGAIN}',), name='sheet.xlsx'),
    'an .ods file': Spoilt(zipped('mimetype', 'content.xml'), (
        f'the file is an OpenDocument file (.ods); {SAVE}',), name='sheet.ods'),
    'an .xlsb file': Spoilt(zipped('xl/workbook.bin'), (
        f'the file is a binary workbook (.xlsb); {SAVE}',), name='sheet.xlsb'),
    'a zip of something else': Spoilt(zipped('word/document.xml'), (
        f'the file is neither .xlsx nor CSV; {SAVE}',), name='sheet.xlsx'),
    'no workbook inside': Spoilt(zipped('xl/workbook.xml'), (
        f'the file can\'t be read as .xlsx (KeyError); {AGAIN}',), name='sheet.xlsx'),
}


def put(sheet: Any, rows: list[list[object]]) -> None:
    """Fills a sheet."""
    for row in rows:
        sheet.append(row)


def book_of(change: Callable[[Any], None]) -> bytes:
    """A workbook with two good orders, changed."""
    import openpyxl
    book = openpyxl.Workbook()
    sheet = book.active
    sheet.title = 'Week'
    put(sheet, [['Order', 'Weight t', 'Colour'], ['A', 7, 'red'], ['B', 8.5, 'blue']])
    change(sheet)
    made = io.BytesIO()
    book.save(made)
    return made.getvalue()


def cell(place: str, value: object) -> Callable[[Any], None]:
    """Sets one cell."""
    def change(sheet: Any) -> None:
        sheet[place] = value
    return change


def percentage(sheet: Any) -> None:
    """Shows a weight as a percentage."""
    sheet['B2'].number_format = '0.00%'
    sheet['B2'] = 0.07


def merged(sheet: Any) -> None:
    """Merges two colours."""
    sheet.merge_cells('C2:C3')


WORKBOOKS: dict[str, tuple[Callable[[Any], None], tuple[str, ...]]] = {
    'a date': (cell('B2', datetime.date(2026, 4, 3)), (
        'cell B2: the weight "2026-04-03" is a date; a spreadsheet makes one of 3-4; format the '
        'column as a number and type it again',)),
    'a formula without a stored value': (cell('B3', '=B2+1.5'), (
        'cell B3: holds a formula without a stored value; open the file in the spreadsheet '
        'program, save it, and try again',)),
    'a formula for a colour, in the last column': (cell('C3', '=C2'), (
        'cell C3: holds a formula without a stored value; open the file in the spreadsheet '
        'program, save it, and try again',)),
    'a text with a unit': (cell('B2', '7 t'), (
        'cell B2: the weight "7 t" has a unit in it; the unit belongs into the header',)),
    'a percentage': (percentage, (
        'cell B2: the weight "7.00%" has a unit in it; the unit belongs into the header',)),
    'a logical value': (cell('B2', True), ('cell B2: the weight "TRUE" is no number',)),
    'merged colours': (merged, (
        'cell C3: is merged (C2:C3); give each row a value of its own',)),
    'an id far away, alone': (cell('A1048576', 'x'), (
        'cell C1048576: no colour is given', 'cell B1048576: no weight is given')),
    'an id twice, once as a number': (lambda sheet: put(sheet, [[7, 3, 'red'], ['7', 3, 'red']]), (
        'cell A5: the order id "7" stands in cell A4 too; give each order an id of its own',)),
}


@spread
class SpoiltSheets(InFolder):
    """Each is refused with status 3, nothing is written, and all faults are told."""

    def refuse(self, spoilt: Spoilt, where: str) -> None:
        path = self.write(spoilt.name, spoilt.content)
        outcome = desk('plan', path, *spoilt.options, '--out', self.folder / 'plan')
        lines = ''.join(f'  {line}\n' for line in spoilt.lines)
        told = f'desk: {where} is to be mended:\n{lines}'
        self.assertEqual((outcome.err, outcome.status, outcome.out), (told, 3, ''))
        self.assertEqual([entry.name for entry in self.folder.iterdir()], [spoilt.name])

    @each(CSV)
    def test_csv(self, row: Spoilt) -> None:
        self.refuse(row, row.name)

    @needs('openpyxl')
    @each(ZIPS)
    def test_zip(self, row: Spoilt) -> None:
        self.refuse(row, row.name)

    @needs('openpyxl')
    @each(WORKBOOKS)
    def test_xlsx(self, row: tuple[Callable[[Any], None], tuple[str, ...]]) -> None:
        change, lines = row
        spoilt = Spoilt(book_of(change), lines, name='sheet.xlsx')
        self.refuse(spoilt, 'sheet.xlsx, sheet Week')


WORDS: dict[str, tuple[tuple[str, ...], str]] = {
    'no sizes': ((), 'no sizes are given: say --sizes "12; 14.5; 17", or write sizes = "12; 14.5; '
                     '17" in a file desk.toml beside the orders, or make a sheet named sizes'),
    'sizes with commas alone': (('--sizes', '12,14'), '--sizes: "12,14" may be one size or '
                                'several: write the sizes with semicolons between, as in "12; '
                                '14.5; 17"'),
    'nodes that are no number': (('--nodes', 'many'), '--nodes: "many" must be a whole number '
                                 'from 0 to 1,000,000,000'),
    'nodes with a decimal comma': (('--nodes', '1,5'), '--nodes: "1,5" must be a whole number '
                                   'from 0 to 1,000,000,000'),
    'nodes in two groupings': (('--nodes', '1,000 000'), '--nodes: "1,000 000" must be a whole '
                               'number from 0 to 1,000,000,000'),
    'nodes with a group of four': (('--nodes', '1,0000'), '--nodes: "1,0000" must be a whole '
                                   'number from 0 to 1,000,000,000'),
    'nine colours': (('--colours-per-slab', '9'), '--colours-per-slab: "9" must be a whole number '
                     'from 1 to 8'),
    'two budgets': (('--nodes', '5', '--minutes', '1'), '--nodes and --minutes are two budgets: '
                    'give one of them'),
    'rounding without a step': (('--round-up',), '--round-up needs --step: which step are weights '
                                'rounded up to?'),
    'a mark that is none': (('--decimal', 'dot'), '--decimal: "dot" must be point or comma'),
    'a sheet of a CSV': ((*SIZES, '--sheet', 'Week'), 'sheet.csv is no .xlsx file, so it has no '
                         'sheet "Week"'),
}


@spread
@needs('openpyxl')
class Units(InFolder):
    """The headers of weights and sizes, where each names a unit."""

    def plan(self, weights: str, sizes: str) -> tuple[int, str]:
        """Plans a workbook with these two headers."""
        import openpyxl
        book = openpyxl.Workbook()
        book.active.title = 'Week'
        for row in (['Order', weights, 'Colour'], ['A', 7, 'red']):
            book.active.append(row)
        other = book.create_sheet('sizes')
        for cell in (sizes, 12, 15):
            other.append([cell])
        book.save(self.folder / 'sheet.xlsx')
        outcome = desk('plan', self.folder / 'sheet.xlsx', '--out', self.folder / 'plan')
        return outcome.status, outcome.err

    @each({'in brackets': ('Weight (t)', 'Size (kg)', 't', 'kg'),
           'at the end': ('Weight kg', 'Sizes in tonnes', 'kg', 'tonnes'),
           'a header of any words': ('Weight [t]', 'What we cast (lb)', 't', 'lb')})
    def test_two_units_are_refused(self, row: tuple[str, str, str, str]) -> None:
        weights, sizes, ours, theirs = row
        self.assertEqual(self.plan(weights, sizes), (
            3, f'desk: sheet.xlsx, sheet Week is to be mended:\n  cell B1: the weights are in '
            f'{ours} ("{weights}"), and the sizes in {theirs} (sheet sizes, cell A1, "{sizes}"); '
            'give both in one unit\n'))

    @each({'one unit': ('Weight (t)', 'Size (tonnes)'), 'none of sizes': ('Weight (t)', 'Size'),
           'none of weights': ('Weight', 'Size (kg)')})
    def test_others_are_taken(self, row: tuple[str, str]) -> None:
        self.assertEqual(self.plan(*row), (0, ''))


@spread
class WrongWords(InFolder):
    """Wrong words end with status 2."""

    @each(WORDS)
    def test_words(self, row: tuple[tuple[str, ...], str]) -> None:
        options, message = row
        path = self.write('sheet.csv', HEAD + 'A,7,red\n')
        outcome = desk('plan', path, *options)
        self.assertEqual((outcome.err, outcome.status), (f'desk: {message}\n', 2))

    def test_whole_numbers_in_groups_of_three(self) -> None:
        read = whole(0, 1_000_000_000)
        for text in ('1000000', '1,000,000', '1 000 000', '1_000_000', '1\u202f000\u202f000'):
            self.assertEqual(read(text), 1_000_000)

    def test_a_file_that_is_not_there(self) -> None:
        path = self.folder / 'none.csv'
        outcome = desk('plan', path, *SIZES)
        self.assertEqual((outcome.err, outcome.status),
                         (f'desk: {path}: No such file or directory\n', 2))
