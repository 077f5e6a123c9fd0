"""Good tables are read as they are meant, with a note where something was decided."""

import datetime
import io
from fractions import Fraction
from pathlib import Path
from typing import Any

from mill_desk.columns import read_header
from mill_desk.orders import read_problem
from mill_desk.problem import Problem, number_colours, what_was_read
from mill_desk.settings import Settings
from mill_desk.sizes import read_sizes
from tests.support import EXAMPLES, InFolder, desk, each, needs, spread

ROWS = 'A,7,red\nB,8.5,blue\n'
INSTANCE = '2 24 34\n2\n2\n14 2\n17 1\n'
LIKE: dict[str, str | bytes] = {
    'commas': 'Order,Weight,Colour\nA,7,red\nB,8.5,blue\n',
    'semicolons and a decimal comma': 'Order;Weight;Colour\nA;7;red\nB;8,5;blue\n',
    'tabs': 'Order\tWeight\tColour\nA\t7\tred\nB\t8.5\tblue\n',
    'a line that names the separator': 'sep=;\nOrder;Weight;Colour\nA;7;red\nB;8.5;blue\n',
    'Windows line ends': 'Order,Weight,Colour\r\nA,7,red\r\nB,8.5,blue\r\n',
    'old Mac line ends': 'Order,Weight,Colour\rA,7,red\rB,8.5,blue\r',
    'no last line end': 'Order,Weight,Colour\nA,7,red\nB,8.5,blue',
    'quotes': '"Order","Weight","Colour"\n"A","7","red"\n"B","8.5","blue"\n',
    'a byte order mark': b'\xef\xbb\xbfOrder,Weight,Colour\nA,7,red\nB,8.5,blue\n',
    'UTF-16': 'Order,Weight,Colour\nA,7,red\nB,8.5,blue\n'.encode('utf-16'),
    'columns in another order': 'Colour,Order,Weight\nred,A,7\nblue,B,8.5\n',
    'other columns between': 'Order,Customer,Weight,Due,Colour\nA,x,7,1,red\nB,y,8.5,2,blue\n',
    'German headers': 'Auftrag;Gewicht [t];Stahlsorte\nA;7;red\nB;8,5;blue\n',
    'French headers': 'N° commande;Poids (t);Nuance\nA;7;red\nB;8,5;blue\n',
    'spaces round the cells': 'Order , Weight , Colour\n A , 7 , red\n B , 8.5 , blue \n',
    'blank lines': '\n\nOrder,Weight,Colour\n\nA,7,red\n\nB,8.5,blue\n\n',
}


def read(path: Path, **values: Any) -> Problem:
    """The problem of a table."""
    settings = Settings(**{'sizes': '12; 17', **values})
    settings.sources['sizes'] = '--sizes'
    return read_problem(path, settings)


@spread
class Alike(InFolder):
    """The same orders in other clothes give the same instance."""

    @each(LIKE)
    def test_csv(self, row: str | bytes) -> None:
        self.assertEqual(read(self.write('sheet.csv', row)).instance_text(), INSTANCE)

    def test_windows_1252_with_a_note(self) -> None:
        path = self.write('sheet.csv', 'Order,Weight,Colour\nA,7,Größe\n'.encode('cp1252'))
        problem = read(path)
        self.assertEqual(problem.colours, {1: 'Größe'})
        self.assertEqual(problem.notes,
                         ('sheet.csv is not in UTF-8; it was read as Windows-1252',))

    def test_headers_by_name(self) -> None:
        path = self.write('sheet.csv', 'a,b,c,Weight\nA,7,red,1\nB,8.5,blue,1\n')
        problem = read(path, id='a', weight='b', colour='c')
        self.assertEqual(problem.instance_text(), INSTANCE)


HEADERS = {
    'Weight t': ('weight', 't'), 'Weight (kg)': ('weight', 'kg'), 'Gewicht [t]': ('gewicht', 't'),
    'Weight in t': ('weight', 't'), 'Größe': ('grosse', ''), 'kg': ('kg', 'kg'),
    'Order-No.': ('order no', ''), 'Steel_grade': ('steel grade', ''),
    'Weight (net)': ('weight', ''),
}


@spread
class Meaning(InFolder):
    """What is read into a table."""

    @each({text: (text, *found) for text, found in HEADERS.items()})
    def test_headers_in_plain_words(self, row: tuple[str, str, str]) -> None:
        text, words, unit = row
        found = read_header(text)
        self.assertEqual((found.words, found.unit), (words, unit))

    def test_colours_are_numbered_by_name_and_not_by_row(self) -> None:
        self.assertEqual(number_colours(['R10', 'R2', 'b', 'A', 'R2']),
                         {'A': 1, 'b': 2, 'R2': 3, 'R10': 4})

    def test_colours_that_differ_in_case_are_two_with_a_note(self) -> None:
        problem = read(self.write('sheet.csv', 'Order,Weight,Colour\nA,7,Red\nB,7,red\n'))
        self.assertEqual(problem.colours, {1: 'Red', 2: 'red'})
        self.assertEqual(problem.notes, ('the colours "Red" and "red" are taken for two',))

    def test_totals_are_left_out_with_a_note(self) -> None:
        path = self.write('sheet.csv', f'Order,Weight,Colour\n{ROWS},15.5,\nTotal,15.5,\n'
                          'Summe,15.5,all\n')
        problem = read(path)
        self.assertEqual(problem.instance_text(), INSTANCE)
        self.assertEqual(problem.notes, (
            'row 4 has a weight (15.5) and neither id nor colour and is left out as a total',
            'row 5 is named "Total" and is left out as a total',
            'row 6 is named "Summe" and is left out as a total'))

    def test_a_row_with_other_cells_alone_is_left_out_with_a_note(self) -> None:
        path = self.write('sheet.csv', 'Order,Weight,Colour,Note\nA,7,red,\n,,,checked\n')
        self.assertEqual(read(path).notes, ('row 3 has no id, weight and colour and is left out',))

    def test_ids_keep_their_zeros(self) -> None:
        problem = read(self.write('sheet.csv', 'Order,Weight,Colour\n007,7,red\n7,8,red\n'))
        self.assertEqual([order.id for order in problem.orders], ['007', '7'])

    def test_the_step_is_the_greatest_and_nothing_is_rounded(self) -> None:
        path = self.write('sheet.csv', 'Order,Weight,Colour\nA,12.5,red\nB,7.5,red\n')
        problem = read(path, sizes='25')
        self.assertEqual((problem.step, problem.instance_text()),
                         (Fraction(5, 2), '1 10\n1\n2\n5 1\n3 1\n'))

    def test_rounding_is_up_for_weights_and_down_for_sizes(self) -> None:
        path = self.write('sheet.csv', 'Order,Weight,Colour\nA,12.4,red\nB,7,red\n')
        problem = read(path, sizes='13.9; 25', step=Fraction(1), round_up=True)
        self.assertEqual(problem.instance_text(), '2 13 25\n1\n2\n13 1\n7 1\n')

    def test_what_was_read_names_the_lightest_and_heaviest(self) -> None:
        problem = read(self.write('sheet.csv', f'Order,Weight t,Colour\n{ROWS}'))
        self.assertEqual(what_was_read(problem), (
            '2 orders of 2 colours, together 15.5 t; the lightest weighs 7 t (cell B2), the '
            'heaviest 8.5 t (cell B3); 2 sizes, from 12 to 17 t; at most 2 colours a slab; one '
            'step is 0.5 t'))


class Sizes(InFolder):
    """Where sizes come from, and how a list of them is read."""

    def sizes(self, text: str) -> list[Fraction]:
        """The sizes of a list."""
        sizes = read_sizes(Path('none.csv'), Settings(sizes=text))
        found, faults = sizes.values, sizes.faults
        self.assertEqual(faults, [])
        return [size.value for size in found]

    def test_lists(self) -> None:
        wanted = [Fraction(12), Fraction(29, 2), Fraction(17)]
        for text in ('12; 14.5; 17', '12;14,5;17;', '12 14.5 17', '12, 14.5, 17'):
            self.assertEqual(self.sizes(text), wanted, text)

    def test_an_option_wins_over_the_file(self) -> None:
        self.write('desk.toml', 'sizes = [12, 14.5]\ncolours-per-slab = 3\nunit = "t"\n')
        path = self.write('orders.csv', f'Order,Weight,Colour\n{ROWS}')
        outcome = desk('plan', path, '--sizes', '17', '--out', self.folder / 'plan')
        self.assertIn('1 size, 17 t; at most 3 colours a slab', outcome.out)

    def test_the_file_alone(self) -> None:
        self.write('desk.toml', 'sizes = [12, 14.5]\n')
        path = self.write('orders.csv', f'Order,Weight,Colour\n{ROWS}')
        outcome = desk('plan', path, '--out', self.folder / 'plan')
        self.assertIn('2 sizes, from 12 to 14.5;', outcome.out)

    def test_a_file_that_is_wrong_is_refused(self) -> None:
        path = self.write('orders.csv', f'Order,Weight,Colour\n{ROWS}')
        for text, message in (
                ('size = 3', '"size" is no setting; the settings are: sizes, colours-per-slab'),
                ('nodes = -1', 'nodes: "-1" must be a whole number from 0 to 1,000,000,000'),
                ('sizes = [', 'can\'t be read: ')):
            self.write('desk.toml', text)
            outcome = desk('plan', path)
            self.assertEqual(outcome.status, 3)
            self.assertIn(message, outcome.err)


@needs('openpyxl')
class Workbooks(InFolder):
    """Stored values of an .xlsx."""

    def book(self, rows: list[list[object]], title: str = 'Week') -> tuple[Any, Any]:
        """A workbook with one sheet."""
        import openpyxl
        book = openpyxl.Workbook()
        book.active.title = title
        for row in rows:
            book.active.append(row)
        return book, book.active

    def save(self, book: Any) -> Path:
        """Saves it in the folder."""
        made = io.BytesIO()
        book.save(made)
        return self.write('sheet.xlsx', made.getvalue())

    ROWS = [['Order', 'Weight t', 'Colour', 'Due'],
            ['A', 7, 'red', datetime.date(2026, 4, 3)], ['B', 8.5, 'blue', None]]

    def test_numbers_are_the_digits_that_are_shown(self) -> None:
        book, _ = self.book([['Order', 'Weight', 'Colour'], ['A', 0.1 + 0.2, 'red'],
                             [4711.0, 2.675, 'red']])
        problem = read(self.save(book))
        self.assertEqual([(order.id, order.weight) for order in problem.orders],
                         [('A', Fraction(3, 10)), ('4711', Fraction(107, 40))])

    def test_a_sheet_named_sizes(self) -> None:
        for rows in ([['Size t'], [17], [12]], [[17], [12]]):
            book, _ = self.book(self.ROWS)
            sheet = book.create_sheet('Sizes', 0)
            for row in rows:
                sheet.append(row)
            problem = read_problem(self.save(book), Settings())
            self.assertEqual(problem.instance_text(), INSTANCE)
            self.assertIn('sheet Week', problem.sources[0].value)

    def test_hidden_rows_are_taken_with_a_note(self) -> None:
        book, sheet = self.book(self.ROWS)
        sheet.row_dimensions[3].hidden = True
        problem = read(self.save(book))
        self.assertEqual(problem.instance_text(), INSTANCE)
        self.assertEqual(problem.notes, ('1 hidden row is taken too (the first is row 3)',))

    def test_a_cell_far_away_costs_nothing(self) -> None:
        book, sheet = self.book(self.ROWS)
        sheet['XFD1048576'] = 'x'
        sheet['AZ5000'] = 'x'
        problem = read(self.save(book))
        self.assertEqual(problem.instance_text(), INSTANCE)
        self.assertEqual(problem.notes, ('row 5000 has no id, weight and colour and is left out',))

    def test_text_numbers_beside_stored_numbers(self) -> None:
        book, _ = self.book([['Order', 'Weight', 'Colour'], ['A', 7, 'red'], ['B', '8,5', 'blue']])
        self.assertEqual(read(self.save(book)).instance_text(), INSTANCE)

    def test_the_example_is_read_alike_as_xlsx_and_csv(self) -> None:
        texts = [read_problem(EXAMPLES / name, Settings(sizes='12; 36.5')).instance_text()
                 for name in ('orders.csv', 'orders.xlsx')]
        self.assertEqual(texts[0], texts[1])
        self.assertEqual(texts[0].split()[:5], ['2', '24', '73', '12', '60'])


