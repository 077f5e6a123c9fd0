"""Plans from a table: the files, what is said of them, and what is refused."""

import csv
import io
import os
import subprocess
from fractions import Fraction
from html import unescape
from pathlib import Path

from mill_desk import rendering, what_if, workbook
from mill_desk.answer import Answer, Kind
from mill_desk.columns import Column
from mill_desk.compare import Side, verdict_of
from mill_desk.planning import Result
from mill_desk.problem import Problem
from mill_desk.program import Program, hashed
from mill_desk.settings import Settings
from mill_desk.wording import Case, Mood, Verdict, verdict
from tests.support import (EXAMPLES, STAND_IN, InFolder, desk, each, needs, spread,
                           working_in)

SHEET = 'Order,Weight t,Colour\nA,7,red\nB,8,blue\nC,5,red\n'
CHECKED = 'Order;Slab\nA;{}\nB;{}\nC;{}\n'
NO_CLAIM = ('That program wasn\'t built by ./mill_slab, so nothing is claimed for it. The desk has '
            'counted loads, colours and loss anew from the table.')
OTHER = f'{STAND_IN} said so. {NO_CLAIM}'


class Plans(InFolder):
    """`desk plan`."""

    def plan(self, *words: object) -> str:
        """Plans the small sheet; answers with what is said."""
        path = self.write('orders.csv', SHEET)
        outcome = desk('plan', path, '--sizes', '12; 13', '--out', self.folder / 'plan', *words)
        self.assertEqual((outcome.status, outcome.err), (0, ''))
        return outcome.out

    def test_the_files(self) -> None:
        self.plan()
        names = {entry.name for entry in (self.folder / 'plan').iterdir()}
        wanted = {'instance.txt', 'answer.txt', 'plan.csv'}
        wanted |= {'plan.xlsx'} if workbook.is_installed() else set()
        wanted |= {'plan.html', 'plan.svg'} if rendering.is_installed() else set()
        self.assertEqual(names - {'plan.png'}, wanted)
        self.assertEqual((self.folder / 'plan' / 'instance.txt').read_text(),
                         '2 12 13\n2\n3\n7 2\n8 1\n5 2\n')
        self.assertEqual((self.folder / 'plan' / 'answer.txt').read_text(),
                         'optimal\nloss 4\nplan 1 2 1\nend\n')

    def test_the_csv_has_what_the_plan_says(self) -> None:
        self.plan()
        raw = (self.folder / 'plan' / 'plan.csv').read_bytes()
        self.assertEqual(raw.decode('utf-8-sig'), (
            'order,weight (t),colour,slab,slab size (t),slab loss (t)\r\n'
            'A,7,red,1,12,0\r\nB,8,blue,2,12,4\r\nC,5,red,1,12,0\r\n'))

    def test_what_is_said(self) -> None:
        said = self.plan()
        self.assertTrue(said.startswith('Read 3 orders of 2 colours, together 20 t; the lightest'))
        self.assertIn(f'{STAND_IN} says that no legal plan loses less than 4 t.', said)
        self.assertIn('2 slabs, 1 of them loses something; 24 t of steel, about 16.67% of it '
                      'lost.', said)
        self.assertIn('Written to ', said)
        for name in ('plan.html', 'plan.svg') if rendering.is_installed() else ():
            self.assertIn('about 16.67%', (self.folder / 'plan' / name).read_text('utf-8'))

    def test_proved_is_verified(self) -> None:
        said = self.plan('--prove')
        self.assertIn('It says too that its checker read the proof,', said)
        self.assertIn('log 1 ', (self.folder / 'plan' / 'answer.txt').read_text())

    def test_a_budget_that_ends_before_the_proof(self) -> None:
        path = self.write('orders.csv', SHEET)
        outcome = desk('plan', path, '--sizes', '12; 13', '--out', self.folder / 'plan', '--prove',
                       '--nodes', '3')
        self.assertEqual((outcome.status, outcome.err), (4, ''))
        self.assertIn('Note: there is no proof to verify, since the budget ended first.',
                      outcome.out)
        self.assertNotIn('checker', outcome.out)

    def test_rounding_shows_the_true_loss_beside(self) -> None:
        path = self.write('orders.csv', 'Order,Weight,Colour\nA,6.4,red\nB,5.3,red\n')
        outcome = desk('plan', path, '--sizes', '13.9', '--step', '1', '--round-up', '--out',
                       self.folder / 'plan')
        self.assertIn('In the rounded numbers: the plan loses nothing, so none is better.',
                      outcome.out)
        self.assertIn('Weights were rounded up and sizes down to steps of 1. Every claim but the '
                      'plan\'s legality is about the rounded numbers; in the true ones the plan '
                      'loses 2.2.', outcome.out)

    def test_the_default_folder_is_named_after_the_orders(self) -> None:
        self.write('orders.csv', SHEET)
        with working_in(self.folder):
            outcome = desk('plan', 'orders.csv', '--sizes', '13')
        self.assertIn('Written to orders-plan:', outcome.out)
        self.assertTrue((self.folder / 'orders-plan' / 'plan.csv').exists())

    def test_a_file_whose_name_is_no_text(self) -> None:
        path = Path(os.fsdecode(os.fsencode(self.folder) + b'/w\xff.csv'))
        path.write_text(SHEET)
        with working_in(self.folder):
            outcome = desk('plan', path, '--sizes', '13')
        self.assertEqual((outcome.status, outcome.err), (0, ''))

    def test_a_folder_of_others_is_refused(self) -> None:
        target = self.folder / 'mine'
        target.mkdir()
        (target / 'thesis.txt').write_text('x')
        path = self.write('orders.csv', SHEET)
        outcome = desk('plan', path, '--sizes', '13', '--out', target)
        self.assertEqual((outcome.status, outcome.err), (
            2, f'desk: --out {target}: the folder holds other files (thesis.txt); name another '
            '--out\n'))
        self.assertEqual([entry.name for entry in target.iterdir()], ['thesis.txt'])

    def test_a_second_run_takes_the_place_of_the_first(self) -> None:
        self.plan('--prove')
        (self.folder / 'plan' / 'plan.png').write_text('of an earlier run')
        self.plan()
        self.assertNotEqual(self.held('plan').get('plan.png'), b'of an earlier run')
        self.assertNotIn('log', (self.folder / 'plan' / 'answer.txt').read_text())
        self.assertEqual(sorted(entry.name for entry in self.folder.iterdir()),
                         ['orders.csv', 'plan'])

    @needs('openpyxl')
    def test_text_that_begins_with_an_equals_sign_is_text_in_the_workbook(self) -> None:
        import openpyxl
        path = self.write('orders.csv', 'Order,Weight,Colour\n=1+1,7,=A1\n+2,5,#N/A\n007,5,1e5\n')
        outcome = desk('plan', path, '--sizes', '13', '--colours-per-slab', '3', '--out',
                       self.folder / 'plan')
        self.assertEqual((outcome.status, outcome.err), (0, ''))
        sheet = openpyxl.load_workbook(self.folder / 'plan' / 'plan.xlsx')['plan']
        cells = [(cell.value, cell.data_type) for row in sheet['A2:C4'] for cell in row
                 if cell.column != 2]
        self.assertEqual(cells, [('=1+1', 's'), ('=A1', 's'), ('+2', 's'), ('#N/A', 's'),
                                 ('007', 's'), ('1e5', 's')])


    @needs('openpyxl')
    def test_odd_characters_beside_the_orders_are_words_in_the_workbook(self) -> None:
        import openpyxl
        path = self.write('orders.csv', 'Or\x07der,Weight,Col\uffffour\nA,7,x\nTotal\x1b,7,\n')
        outcome = desk('plan', path, '--sizes', '13', '--id', 'Or\x07der', '--colour',
                       'Col\uffffour', '--unit', 't\x02', '--out', self.folder / 'plan')
        self.assertEqual((outcome.status, outcome.err), (0, ''))
        book = openpyxl.load_workbook(self.folder / 'plan' / 'plan.xlsx')
        said = ' '.join(str(cell) for row in book['statement'].values for cell in row)
        self.assertIn('id "OrU+0007der", weight "Weight", colour "ColU+FFFFour"', said)
        self.assertIn('row 3 is named "TotalU+001B"', said)
        self.assertEqual(book['plan']['B1'].value, 'weight (tU+0002)')

    def test_a_colour_of_5000_digits(self) -> None:
        long = '9' * 5000
        path = self.write('orders.csv', f'Order,Weight,Colour\nA,7,{long}\nB,5,R10\nC,4,R9\n')
        outcome = desk('plan', path, '--sizes', '13', '--out', self.folder / 'plan')
        self.assertEqual((outcome.status, outcome.err), (0, ''))
        self.assertEqual((self.folder / 'plan' / 'instance.txt').read_text(),
                         '1 13\n3\n3\n7 1\n5 3\n4 2\n')


FAULTS: dict[str, tuple[str, str]] = {
    'an order twice': (CHECKED.format(1, 1, 1) + 'A;2\n', 'cell A5: the order id "A" stands in '
                       'row 2 too; an order goes on one slab'),
    'an order of others': (CHECKED.format(1, 1, 1) + 'Z;2\n',
                           'cell A5: "Z" is none of the orders'),
    'an order missing': ('Order;Slab\nA;1\n', 'no row has order "B", "C"; each order goes on one '
                         'slab'),
    'no slab': (CHECKED.format(1, '', 1), 'cell B3: no slab of order "B" is given'),
    'no column of slabs': ('Order;Where\nA;1\n', 'row 1: no column is headed as the slab; name it '
                           'by --slab "HEADER"; the headers are: "Order", "Where"'),
}


@spread
class Inputs(InFolder):
    """Whatever a command reads stays as it is, also where it is named as a file of the desk."""

    @each({
        'plan': ('plan', 'plan.csv'),
        'check, the orders': ('check', 'plan.csv', 'other/two.csv'),
        'check, the plan': ('check', 'other/orders.csv', 'two.csv'),
        'compare': ('compare', 'other/orders.csv', 'plan.csv', 'other/two.csv'),
        'what-if': ('what-if', 'what-if.csv'),
        'show': ('show', 'instance.txt', 'answer.txt'),
        'show, the answer alone': ('show', 'other/instance.txt', 'answer.txt'),
        'a link': ('plan', 'other/link.csv'),
    })
    def test_a_target_that_holds_an_input_is_refused(self, words: tuple[str, ...]) -> None:
        self.assert_target_is_refused(*words)

    @needs('jinja2')
    def test_so_is_that_of_a_tree(self) -> None:
        self.assert_target_is_refused('tree', 'instance.txt', 'answer.txt')

    def assert_target_is_refused(self, command: str, *inputs: str) -> None:
        """Runs a command whose target is the folder that holds an input."""
        texts = {'instance.txt': '1 4\n3\n3\n1 1\n1 2\n2 3\n',
                 'answer.txt': 'optimal\nloss 4\nplan 3 1 3\nlog 1 1\nS 0\nend\n',
                 'two.csv': CHECKED.format(1, 2, 1)}
        (self.folder / 'other').mkdir()
        for name in inputs:
            if name == 'other/link.csv':
                self.write('plan.csv', SHEET)
                (self.folder / name).symlink_to(self.folder / 'plan.csv')
            else:
                self.write(name, texts.get(name.removeprefix('other/'), SHEET))
        sizes = () if command in ('show', 'tree') else ('--sizes', '12; 13')
        self.assert_refused('which this command reads', command, *inputs, *sizes)

    def test_a_file_of_another_command_is_refused_too(self) -> None:
        orders = self.write('plan.csv', SHEET)
        (self.folder / 'other').mkdir()
        self.write('other/compare.html', 'mine')
        outcome = desk('plan', orders, '--sizes', '13', '--out', self.folder / 'other')
        self.assertEqual((outcome.status, self.held('other')), (2, {'compare.html': b'mine'}))
        self.assertIn('the folder holds other files (compare.html)', outcome.err)

    @needs('openpyxl')
    def test_the_user_s_workbook_is_never_written_to(self) -> None:
        (self.folder / 'plan.xlsx').write_bytes((EXAMPLES / 'orders.xlsx').read_bytes())
        self.assert_refused('which this command reads', 'plan', 'plan.xlsx', '--sizes', '36')

    def assert_refused(self, message: str, *words: str) -> None:
        """Runs a command whose target is this folder: it is refused, and nothing is changed."""
        before = self.held('.')
        with working_in(self.folder):
            outcome = desk(*words, '--out', '.')
        self.assertIn(message, outcome.err)
        self.assertEqual((outcome.status, self.held('.')), (2, before))


@spread
class Checks(InFolder):
    """`desk check`."""

    def check(self, plan: str, *words: object) -> tuple[int, str]:
        """Judges a plan of the small sheet."""
        orders, path = self.write('orders.csv', SHEET), self.write('mine.csv', plan)
        outcome = desk('check', orders, path, '--sizes', '12; 13', '--out', self.folder / 'check',
                       *words)
        return outcome.status, outcome.out + outcome.err

    def test_a_legal_plan(self) -> None:
        status, said = self.check(CHECKED.format('left', 'right', 'left'))
        self.assertEqual(status, 0)
        self.assertIn(f'{STAND_IN} says that the plan is legal and loses 4 t.', said)

    def test_a_heavy_slab_with_its_rows(self) -> None:
        status, said = self.check(CHECKED.format('S1', 'S1', 'S2'))
        self.assertEqual(status, 8)
        self.assertIn('Slab S1 weighs 15 t, more than 13 t. So the plan isn\'t legal. Its orders: '
                      f'row 2, A: 7 t, red; row 3, B: 8 t, blue. {OTHER}', said)

    def test_a_colourful_slab_with_the_colour_of_each(self) -> None:
        status, said = self.check(CHECKED.format('S2', 'S1', 'S1'), '--colours-per-slab', '1')
        self.assertEqual(status, 8)
        self.assertIn('Slab S1 has 2 colours; at most 1 colour may share a slab. So the plan '
                      'isn\'t legal. Its orders: row 3, B: 8 t, blue; row 4, C: 5 t, red. '
                      f'{OTHER}', said)

    def test_further_slabs_are_told_as_the_desk_s_own_count(self) -> None:
        orders = self.write('orders.csv', 'Order,Weight,Colour\nA,7,x\nB,7,x\nC,7,x\nD,7,x\n')
        plan = self.write('mine.csv', 'Order,Slab\nA,1\nB,1\nC,2\nD,2\n')
        outcome = desk('check', orders, plan, '--sizes', '12', '--out', self.folder / 'check')
        self.assertIn('The desk\'s own count finds 2 slabs that aren\'t legal: 1 (weighs 14), 2 '
                      '(weighs 14).', outcome.out)

    @each(FAULTS)
    def test_a_plan_to_mend(self, row: tuple[str, str]) -> None:
        plan, message = row
        status, said = self.check(plan)
        self.assertEqual(status, 3)
        self.assertTrue(said.endswith(f'desk: mine.csv is to be mended:\n  {message}\n'), said)
        self.assertFalse((self.folder / 'check').exists())

    def test_a_header_of_slabs_that_is_asked_for_and_is_not_there(self) -> None:
        plan = 'Order;Slab;Where\nA;1;1\nB;2;1\nC;1;2\n'
        status, said = self.check(plan, '--slab', 'Nonsense')
        self.assertEqual(status, 3)
        self.assertIn('row 1: no column is headed "Nonsense"; name it by --slab "HEADER"; the '
                      'headers are: "Order", "Slab", "Where"', said)
        self.assertEqual(self.check(plan, '--slab', 'Where')[0], 8)
        self.write('desk.toml', 'slab = "Nonsense"\n')
        self.assertEqual(self.check(plan)[0], 0)

    def test_a_slab_that_is_heavy_in_rounded_numbers_alone(self) -> None:
        status, said = self.check(CHECKED.format(1, 2, 1), '--step', '5', '--round-up')
        self.assertEqual(status, 8)
        self.assertIn('In the rounded numbers: slab 1 weighs 15 t, more than 10 t. So the plan '
                      'isn\'t legal in the rounded numbers (weights up, sizes down, in steps of '
                      '5 t); in the table\'s own numbers every slab is legal. Its orders: ', said)
        self.assertNotIn('Every claim but', said)

    def test_a_slab_that_is_heavy_in_both_numbers(self) -> None:
        status, said = self.check(CHECKED.format(1, 1, 1), '--step', '5', '--round-up')
        self.assertEqual(status, 8)
        self.assertIn('in the table\'s own numbers 1 slab isn\'t legal either. Its orders', said)

    def test_a_tenth_that_rounding_makes_too_heavy(self) -> None:
        orders = self.write('orders.csv', 'Order,Weight t,Colour\nA,5.6,red\nB,6.1,red\n')
        plan = self.write('mine.csv', 'Order,Slab\nA,1\nB,1\n')
        words = ('--sizes', '12', '--step', '1', '--round-up')
        for command in (('check', orders, plan), ('compare', orders, plan, plan)):
            outcome = desk(*command, *words, '--out', self.folder / command[0])
            self.assertEqual((outcome.status, outcome.err), (8, ''))
            self.assertIn('weighs 13 t, more than 12 t. So the plan isn\'t legal in the rounded '
                          'numbers (weights up, sizes down, in steps of 1 t); in the table\'s own '
                          'numbers every slab is legal.', outcome.out)
            self.assertNotIn('the plan\'s legality', outcome.out)
            if command[0] == 'check':
                self.assertIn('In the table\'s own numbers: 1 slab, 1 of them loses something; 12 '
                              't of steel, 2.5% of it lost.', outcome.out)

    def test_the_example_with_a_fault(self) -> None:
        outcome = desk('check', EXAMPLES / 'orders.csv', EXAMPLES / 'plan-with-a-fault.csv',
                       '--out', self.folder / 'check')
        self.assertEqual(outcome.status, 8)
        self.assertIn('Slab B10 has 3 colours; at most 2 colours may share a slab.', outcome.out)
        self.assertIn('SO-48212/20: 3 t, P265GH', outcome.out)


@needs('jinja2')
class Compares(InFolder):
    """`desk compare`."""

    def compare(self, first: str, second: str) -> tuple[int, str]:
        """Compares two plans of the small sheet."""
        orders = self.write('orders.csv', SHEET)
        plans = [self.write('one.csv', first), self.write('two.csv', second)]
        outcome = desk('compare', orders, *plans, '--sizes', '12; 13', '--out',
                       self.folder / 'compare')
        self.assertEqual(outcome.err, '')
        return outcome.status, outcome.out

    def test_which_loses_less(self) -> None:
        status, said = self.compare(CHECKED.format(1, 2, 3), CHECKED.format('a', 'b', 'a'))
        self.assertEqual(status, 0)
        self.assertIn('two.csv loses 12 t less. one.csv: 16 t on 3 slabs. two.csv: 4 t on 2 '
                      f'slabs. {STAND_IN} says that both plans are legal. {NO_CLAIM}', said)
        page = (self.folder / 'compare' / 'compare.html').read_text()
        self.assertIn('1 slab the same in both, 2 orders on slabs that differ', page)

    def test_its_page_ends_as_every_page(self) -> None:
        self.compare(CHECKED.format(1, 2, 3), CHECKED.format('a', 'b', 'a'))
        page = (self.folder / 'compare' / 'compare.html').read_text()
        self.assertIn('class="verdict open"', page)
        self.assertIn('so nothing is claimed for it', page.partition('<h2>')[0])
        files = self.held('compare')
        self.assertEqual(files['answer-2.txt'], b'feasible\nloss 4\nplan 1 2 1\nspent 0\nend\n')
        for name in ('instance.txt', 'answer-1.txt', 'answer-2.txt'):
            self.assertIn(f'<dt>SHA-256 of {name}</dt><dd><code>{hashed(files[name])}</code>', page)
        for part in (f'<dt>program</dt><dd>{STAND_IN} (nothing is claimed for it)',
                     '<dt>SHA-256 of the program</dt>', '<dt>check one.csv again</dt>',
                     f'$DIR/answer-2.txt&#34; | {STAND_IN} check --colours 2</code>'):
            self.assertIn(part, page)

    def test_with_the_program_of_the_repository(self) -> None:
        problem = Problem('x', (), {}, (Fraction(4),), 2, headers={Column.ID: 'a'})
        ours = verdict_of(Program(STAND_IN, STAND_IN, is_ours=True), problem, *(
            Side(name, Result(problem, Answer(Kind.FEASIBLE, ''), [], verdict(Case.NO_LOSS), []))
            for name in ('one', 'two')))
        self.assertEqual(ours, Verdict(
            Case.COMPARED, Mood.OPEN, 'Both lose the same.', 'one: 0 on 0 slabs. two: 0 on 0 '
            'slabs. Both plans were judged legal by check. It says nothing of other plans: a '
            'better one may exist.'))

    def test_a_header_that_one_plan_has(self) -> None:
        plan = 'Order;Slab;Where\nA;1;1\nB;2;1\nC;1;2\n'
        orders = self.write('orders.csv', SHEET)
        plans = [self.write('one.csv', plan), self.write('two.csv', CHECKED.format(1, 2, 1))]
        outcome = desk('compare', orders, *plans, '--sizes', '15', '--slab', 'Where', '--out',
                       self.folder / 'compare')
        self.assertEqual((outcome.status, outcome.err), (0, ''))
        self.assertIn('one.csv: 10 t on 2 slabs. two.csv: '
                      '10 t on 2 slabs.', outcome.out)
        outcome = desk('compare', orders, *plans, '--sizes', '15', '--slab', 'Nonsense')
        self.assertEqual(outcome.status, 3)
        self.assertIn('one.csv is to be mended:\n  row 1: no column is headed "Nonsense"',
                      outcome.err)

    def test_the_same(self) -> None:
        _, said = self.compare(CHECKED.format(1, 2, 1), CHECKED.format('a', 'b', 'a'))
        self.assertIn('Both lose the same.', said)

    def test_one_that_is_not_legal(self) -> None:
        status, said = self.compare(CHECKED.format(1, 1, 2), CHECKED.format('a', 'b', 'a'))
        self.assertEqual(status, 8)
        self.assertIn('one.csv: Slab 1 weighs 15 t, more than 13 t.', said)
        self.assertFalse((self.folder / 'compare').exists())


# Plan and loss, or the order of an infeasible answer; what the program says of it; its status.
LIES: dict[str, tuple[str, str, int]] = {
    'a heavy slab is legal': ('loss 7\nplan 1 1 1 1 1', 'legal loss 7', 0),
    'a colourful slab is legal': ('loss 1\nplan 1 2 2 3 4', 'legal loss 1', 0),
    'another loss than stated': ('loss 7\nplan 1 2 3 4 5', 'legal loss 14', 0),
    'another loss than counted': ('loss 7\nplan 1 2 3 4 5', 'legal loss 7', 0),
    'an order that isn\'t heavy': ('order 2', 'confirmed infeasible order 2', 0),
    'an unknown line that accepts': ('loss 7\nplan 1 1 1 1 1', 'fine', 0),
    'a rejection that accepts': ('loss 7\nplan 1 1 1 1 1', 'rejected heavy slab 1 load 14', 0),
    'another load': ('loss 7\nplan 1 1 1 1 1', 'rejected heavy slab 1 load 15', 8),
    'a legal slab is heavy': ('loss 21\nplan 1 2 3 4 5', 'rejected heavy slab 1 load 9', 8),
    'a log that isn\'t there': ('loss 21\nplan 1 2 3 4 5', 'verified loss 21', 0),
    'a stated loss that is right': ('loss 21\nplan 1 2 3 4 5', 'rejected loss stated 21 found 20',
                                    8),
}


@spread
@needs('jinja2')
class Lies(InFolder):
    """`desk show` and `desk tree` with a program that lies of a plan: five orders, size 7."""

    @each(LIES)
    def test_show(self, row: tuple[str, str, int]) -> None:
        self.assert_fault('show', '', *row)

    @each({key: row for key, row in LIES.items()
           if row[0].startswith('loss') and not row[1].startswith('verified')})
    def test_tree(self, row: tuple[str, str, int]) -> None:
        plan, line, status = row
        self.assert_fault('tree', 'log 1 1\nL 5 1 1 1 1 1\n', plan,
                          line.replace('legal', 'verified'), status)

    def assert_fault(self, command: str, log: str, plan: str, line: str, status: int) -> None:
        """Runs the command; it ends as a fault, and nothing is written."""
        head = 'infeasible' if plan.startswith('order') else 'optimal'
        instance = self.write('five.txt', '1 7\n5\n5\n3 1\n3 2\n3 3\n3 4\n2 5\n')
        answer = self.write('answer.txt', f'{head}\n{plan}\n{log}end\n')
        other = self.script('other', f'import sys\nsys.stdin.read()\nprint({line!r})\n'
                            f'sys.exit({status})\n')
        outcome = desk(command, instance, answer, '--colours-per-slab', '1', '--out',
                       self.folder / 'out', program_path=other)
        self.assertEqual(outcome.status, 70, outcome)
        self.assertIn(f'and said: {line}', outcome.err)
        self.assertFalse((self.folder / 'out').exists())


class Others(InFolder):
    """`desk show`, `desk what-if` and `desk table`."""

    @needs('jinja2')
    def test_show(self) -> None:
        instance = self.write('three.txt', '1 4\n3\n3\n1 1\n1 2\n2 3\n')
        answer = self.write('answer.txt', 'optimal\nloss 4\nplan 3 1 3\nend\n')
        outcome = desk('show', instance, answer, '--out', self.folder / 'shown')
        self.assertEqual((outcome.status, outcome.err), (0, ''))
        self.assertIn('says that the plan is legal and loses 4. That program wasn\'t built by '
                      './mill_slab, so nothing is claimed for it. The desk has counted loads, '
                      'colours and loss anew. Written', outcome.out)
        names = sorted(entry.name for entry in (self.folder / 'shown').iterdir())
        self.assertEqual(names, ['plan.html', 'plan.svg'])

    @needs('jinja2')
    def test_the_command_that_judges_the_texts_again(self) -> None:
        for end in ('\n', ''):
            self.write('three.txt', f'1 4\n3\n3\n1 1\n1 2\n2 3{end}')
            self.write('an answer.txt', 'optimal\nloss 4\nplan 3 1 3\nend\n')
            with working_in(self.folder):
                outcome = desk('show', 'three.txt', 'an answer.txt', '--out', 'shown')
            self.assertEqual((outcome.status, outcome.err), (0, ''))
            page = (self.folder / 'shown' / 'plan.html').read_text()
            command = unescape(page.partition('<dt>check it again</dt><dd><code>')[2]
                               .partition('</code>')[0])
            done = subprocess.run(['/bin/sh', '-c', command], capture_output=True, text=True,
                                  cwd='/', check=False)
            self.assertEqual((done.stdout, done.stderr), ('legal loss 4\n', ''))

    @needs('jinja2')
    def test_show_of_an_infeasible_answer_names_every_heavy_order(self) -> None:
        instance = self.write('three.txt', '1 4\n1\n3\n5 1\n1 1\n9 1\n')
        answer = self.write('answer.txt', 'infeasible\norder 1\nend\n')
        outcome = desk('show', instance, answer, '--out', self.folder / 'shown')
        self.assertEqual(outcome.status, 0)
        self.assertIn('Order 1 weighs 5, more than the largest size 4. So there is no legal plan. '
                      'Heavier than the largest size: 1 5; 3 9.', outcome.out)
        self.assertIn('The desk has compared each weight with the largest size itself.',
                      outcome.out)

    def test_what_if(self) -> None:
        path = self.write('orders.csv', SHEET)
        outcome = desk('what-if', path, '--sizes', '12; 13', '--colours-per-slab', '1-2',
                       '--add-size', '8', '--out', self.folder / 'what-if')
        self.assertEqual((outcome.status, outcome.err), (0, ''))
        text = (self.folder / 'what-if' / 'what-if.csv').read_text('utf-8-sig')
        rows = [row[:6] for row in csv.reader(text.splitlines())]
        self.assertEqual(rows, [
            ['sizes', 'colours a slab', 'loss', 'of the steel', 'slabs', 'what is proved'],
            ['as given', '1', '4', 'about 16.67%', '2', 'the program says optimal'],
            ['as given', '2', '4', 'about 16.67%', '2', 'the program says optimal'],
            ['8 added', '1', '0', '0%', '2', 'the program says optimal'],
            ['8 added', '2', '0', '0%', '2', 'the program says optimal']])

    def test_what_if_in_rounded_numbers_has_both_losses(self) -> None:
        path = self.write('orders.csv', 'Order,Weight,Colour\nA,6.4,red\nB,5.3,red\n')
        outcome = desk('what-if', path, '--sizes', '13', '--step', '1', '--round-up', '--out',
                       self.folder / 'what-if')
        self.assertEqual((outcome.status, outcome.err), (0, ''))
        text = (self.folder / 'what-if' / 'what-if.csv').read_text('utf-8-sig')
        header, row = csv.reader(text.splitlines())
        self.assertEqual(header[2:4] + header[6:7], ['loss', 'rounded loss', 'what is proved'])
        self.assertEqual(row[2:4] + row[6:7], ['1.3', '0', 'in the rounded numbers: the program '
                                               'says optimal'])
        ours = Program(STAND_IN, STAND_IN, is_ours=True)
        settings = Settings(sizes='13', step=Fraction(1), round_up=True)
        row = what_if.row_of(ours, path, settings, what_if.Variant((), 2), prove=False)
        self.assertEqual(row[2:4] + row[6:7], ('1.3', '0', 'in the rounded numbers: loses nothing, '
                                               'so none is better'))

    def test_what_if_with_wrong_words(self) -> None:
        path = self.write('orders.csv', SHEET)
        for words, message in ((('--colours-per-slab', '3-2'), '"3-2" must be as 2, 1-4 or 1,3'),
                               (('--add-size', 'x'), '"x" must be a number above 0')):
            outcome = desk('what-if', path, '--sizes', '13', *words)
            self.assertEqual(outcome.status, 2)
            self.assertIn(message, outcome.err)

    def test_table(self) -> None:
        paths = [self.write('three.txt', '1 4\n3\n3\n1 1\n1 2\n2 3\n'),
                 self.write('heavy.txt', '1 4\n1\n1\n5 1\n'), self.write('bad.txt', '1 x\n')]
        outcome = desk('table', *paths)
        self.assertEqual((outcome.status, outcome.err), (0, ''))
        rows = list(csv.reader(io.StringIO(outcome.text)))
        self.assertEqual(rows[0][:8], ['instance', 'n', 'sizes', 'p', 'status', 'loss', 'spent',
                                       'seconds'])
        self.assertEqual([row[1:7] for row in rows[1:]], [
            ['3', '1', '2', '0', '4', ''], ['1', '1', '2', '1', '', ''],
            ['', '', '2', '3', '', '']])
        self.assertEqual([row[8:9] + row[10:11] + row[12:] for row in rows[1:]], [
            ['8', 'verified loss 4', ''], ['', '', 'infeasible order 1 end'],
            ['', '', 'refused instance byte 2']])
