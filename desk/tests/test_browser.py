"""The pages in a headless Chromium: scale, sorting, search, colours, steps, print, hostile ids."""

import shutil
import tempfile
import unittest
from pathlib import Path

from mill_desk.palette import hue
from tests.browser import Browser, rectangles_of, sheets_of
from tests.support import EXAMPLES, desk, needs
from tests.test_tree import FIVE, five, tree_of

HOSTILE = ('Order,Weight,Colour\n<img src=x onerror=alert(1)>,7,"""><script>alert(2)</script>"\n'
           '</script><b>x,5,\'onmouseover=alert(3)\n=1+1,5,&amp;lt;\n{{7*7}},3,{% x %}\n')
PAPER_HEIGHT = 711.0
BAR_IN_PRINT = 16.0


@needs('jinja2', 'selenium', 'chromium', 'chromedriver')
class Pages(unittest.TestCase):
    """All in one browser, since it is dear to start."""

    folder: Path
    browser: Browser

    @classmethod
    def setUpClass(cls) -> None:
        cls.folder = Path(tempfile.mkdtemp(prefix='desk-test-'))
        cls.addClassCleanup(shutil.rmtree, cls.folder, ignore_errors=True)
        cls.browser = Browser()
        cls.addClassCleanup(cls.browser.close)

    def plan(self, orders: Path, *words: object) -> Path:
        """The page of a plan."""
        target = self.folder / 'plan'
        outcome = desk('plan', orders, '--nodes', '400', '--out', target, *words)
        self.assertIn(outcome.status, (0, 4), outcome.err)
        return target / 'plan.html'

    def example(self) -> Path:
        """The page of the example."""
        return self.plan(EXAMPLES / 'orders.csv')

    def tree(self, answer: str) -> Path:
        """The page of a log of the five orders."""
        judge = self.folder / 'judge'
        line = tree_of(FIVE, answer).verify_line()
        judge.write_text(f'#!/bin/sh\ncat > /dev/null\necho "{line}"\n')
        judge.chmod(0o755)
        instance, path = self.folder / 'five.txt', self.folder / 'answer.txt'
        instance.write_text(FIVE)
        path.write_text(answer)
        outcome = desk('tree', instance, path, '--out', self.folder / 'tree', program_path=judge)
        self.assertEqual(outcome.err, '')
        return self.folder / 'tree' / 'tree.html'

    def assert_silent(self, path: Path) -> None:
        """No console message, and nothing asked for but the page."""
        self.assertEqual(self.browser.messages(), [])
        asked = [url for url in self.browser.requests() if not url.startswith('data:')]
        self.assertEqual([url for url in asked if url != path.as_uri()], [])

    def test_bars_are_to_scale_within_a_pixel(self) -> None:
        path = self.example()
        self.browser.open(path)
        pieces = self.browser.run(
            '[...document.querySelectorAll("#slabs .piece")].map(e => [e.dataset.id, '
            'e.getBoundingClientRect().width, e.parentNode.getBoundingClientRect().width])')
        weights = dict(line.split(',')[:2] for line in
                       (EXAMPLES / 'orders.csv').read_text().splitlines()[1:])
        self.assertEqual(len(pieces), 60)
        for name, wide, whole in pieces:
            self.assertAlmostEqual(wide, whole * float(weights[name]) / 36.5, delta=1.0)
        self.assert_silent(path)

    def test_sorting_search_and_colours(self) -> None:
        path = self.example()
        self.browser.open(path)
        for key, rising in (('loss', False), ('size', False), ('number', True)):
            self.browser.click(f'[data-sort={key}]')
            values = [float(value) for value in self.browser.run(
                '[...document.querySelectorAll("#slabs .row")].map(e => e.dataset[arguments[0]])',
                key)]
            self.assertEqual(values, sorted(values, reverse=not rising))
        self.browser.type('#find', '48216/3')
        self.assertEqual(self.visible('#slabs .row'), 1)
        self.assertEqual(self.visible('.orders tbody tr'), 1)
        self.browser.run('(document.getElementById("find").value = "", '
                         'document.getElementById("find").oninput())')
        self.assertEqual(self.visible('.orders tbody tr'), 60)
        self.browser.click('.legend button:nth-of-type(3)')
        shown = self.browser.run(
            '[...document.querySelectorAll("#slabs .row")].filter(e => e.offsetParent)'
            '.map(e => !!e.querySelector("[data-colour=\'3\']"))')
        self.assertTrue(shown and all(shown))
        self.assertLess(len(shown), len(self.browser.texts('#slabs .row')))
        self.browser.click('.legend button:nth-of-type(3)')
        self.assertEqual(self.visible('#slabs .row'), len(self.browser.texts('#slabs .row')))
        self.assert_silent(path)

    def visible(self, select: str) -> int:
        """How many of the elements can be seen."""
        return int(self.browser.run('[...document.querySelectorAll(arguments[0])].filter(e => '
                                    'e.offsetParent).length', select))

    def test_tables_are_sorted_by_their_headers(self) -> None:
        self.browser.open(self.example())
        for column, number in ((1, False), (2, True), (4, True)):
            head = f'.orders th:nth-of-type({column})'
            for turn in ('ascending', 'descending'):
                self.browser.click(f'{head} button')
                self.assertEqual(self.browser.run(
                    'document.querySelector(arguments[0]).getAttribute("aria-sort")', head), turn)
                cells = self.browser.texts(f'.orders td:nth-of-type({column})')
                values: list[object] = [float(cell) if number else cell for cell in cells]
                self.assertEqual(values, sorted(values, reverse=turn == 'descending'))

    def test_controls_are_reached_by_keyboard(self) -> None:
        self.browser.open(self.example())
        self.assertEqual(self.browser.run(
            '[...document.querySelectorAll("[onclick], [tabindex], .tools *, .legend *, th *")]'
            '.filter(e => e.onclick && !["BUTTON", "INPUT"].includes(e.tagName)).length'), 0)

    def test_it_reads_without_script(self) -> None:
        path = self.example()
        plain = self.folder / 'plain.html'
        text = path.read_text('utf-8')
        plain.write_text(text[:text.index('<script>')] + '</body></html>', 'utf-8')
        self.browser.open(plain)
        self.assertEqual(self.visible('.tools'), 0)
        self.assertEqual(self.visible('.orders tbody tr'), 60)
        self.assertEqual(self.visible('#slabs .row'), len(self.browser.texts('#slabs .row')))
        self.assertGreater(len([text for text in self.browser.texts('.piece') if text]), 40)

    def test_no_sideways_scrolling_on_a_phone(self) -> None:
        for path in (self.example(), self.tree(five()), self.compare()):
            self.browser.open(path, 420, 900)
            wide = self.browser.run('document.documentElement.scrollWidth')
            self.assertLessEqual(wide, 420, path)

    def compare(self) -> Path:
        """The page that compares two plans."""
        plan = EXAMPLES / 'plan-of-thursday.csv'
        self.example()
        outcome = desk('compare', EXAMPLES / 'orders.csv', plan, self.folder / 'plan' / 'plan.csv',
                       '--out', self.folder / 'compare')
        self.assertEqual((outcome.status, outcome.err), (0, ''))
        return self.folder / 'compare' / 'compare.html'

    def test_the_comparison_is_silent(self) -> None:
        path = self.compare()
        self.browser.open(path)
        self.assertGreater(self.visible('.two .row'), 5)
        self.assert_silent(path)

    def test_hostile_ids_make_no_element(self) -> None:
        orders = self.folder / 'hostile.csv'
        orders.write_text(HOSTILE)
        path = self.plan(orders, '--sizes', '13; 20', '--colours-per-slab', '4')
        for page in (path, path.with_suffix('.svg')):
            self.browser.open(page)
            self.assertEqual(self.browser.run(
                'document.querySelectorAll("img, b > b, script script, [onerror], '
                '[onmouseover]").length'), 0)
            self.assert_silent(page)
        self.browser.open(path)
        self.assertEqual(self.browser.run('document.querySelectorAll("script").length'), 1)
        self.assertEqual(self.browser.texts('.orders td:first-child'), [
            '<img src=x onerror=alert(1)>', '</script><b>x', '=1+1', '{{7*7}}'])
        self.assertEqual(self.browser.run('[...document.querySelectorAll(".piece")].map(e => '
                                          'e.dataset.id).sort()'),
                         sorted(['<img src=x onerror=alert(1)>', '</script><b>x', '=1+1',
                                 '{{7*7}}']))

    def test_no_bar_is_cut_in_print(self) -> None:
        orders = self.folder / 'many.csv'
        orders.write_text('Order,Weight,Colour\n' + ''.join(
            f'O{i},{5 + i % 7},R{i % 5}\n' for i in range(140)))
        path = self.plan(orders, '--sizes', '13; 17')
        self.browser.open(path)
        sheets = sheets_of(self.browser.printed())
        self.assertGreater(len(sheets), 3)
        shades = {hue(place, 5) for place in range(5)}
        bars = [box for sheet in sheets for box in rectangles_of(sheet, PAPER_HEIGHT)
                if box.colour in shades and box.height > 12]
        self.assertEqual(len(bars), 140)
        for bar in bars:
            self.assertAlmostEqual(bar.height, BAR_IN_PRINT, delta=0.6)
            self.assertGreaterEqual(bar.top + 0.6, bar.page[0])
            self.assertLessEqual(bar.top + bar.height - 0.6, bar.page[1])
        self.assertGreater(len({bar.page for bar in bars}), 1)

    def test_the_tree_steps(self) -> None:
        path = self.tree(five())
        self.browser.open(path)
        self.assertEqual(self.browser.texts('#say'), ['Step through the proof, or click a box.'])
        self.browser.click('#next')
        self.assertTrue(self.browser.texts('#say')[0].startswith('Record 1 of 9. Path (empty).'))
        for _ in range(4):
            self.browser.type('body', '\ue014')
        self.assertTrue(self.browser.texts('#say')[0].startswith(
            'Record 5 of 9. Path 1 1 2 2. Priced, in sixtieths of a unit of loss: order 4 180.'))
        self.assertEqual(self.browser.run('document.querySelectorAll(".cell.later").length'), 4)
        self.browser.type('body', '\ue012')
        self.assertTrue(self.browser.texts('#say')[0].startswith('Record 4 of 9.'))
        self.browser.click('.node[data-record="8"] .box')
        self.assertTrue(self.browser.texts('#say')[0].startswith('Record 9 of 9.'))
        self.browser.click('#whole')
        self.assertEqual(self.browser.run('document.querySelectorAll(".later").length'), 0)
        self.assert_silent(path)

    def test_subtrees_open_at_a_click(self) -> None:
        path = self.tree(five())
        self.browser.open(path)
        self.assertEqual(self.visible('.node .box'), 9)
        self.browser.click('.node[data-record="2"] > .cell > .fold')
        self.assertEqual(self.visible('.node .box'), 6)
        self.browser.click('.node[data-record="2"] > .cell > .fold')
        self.assertEqual(self.visible('.node .box'), 9)
