"""The pages and the picture as texts: what stands in them, and what doesn't."""

import re
import subprocess
import unittest
from fractions import Fraction
from html import unescape
from html.parser import HTMLParser

from mill_desk.palette import hue
from mill_desk.plan import slabs_of
from mill_desk.problem import Order, Problem
from mill_desk.wording import Case, verdict
from tests.support import DESK, EXAMPLES, InFolder, desk, needs

HOSTILE = '</script><script>alert(1)</script><img src=x onerror=alert(2)>\'"&{{ 7 }}'


class Tags(HTMLParser):
    """Collects the elements and the attributes of a page."""

    def __init__(self, text: str) -> None:
        super().__init__()
        self.tags: list[str] = []
        self.attributes: list[tuple[str, str | None]] = []
        self.feed(text)

    def handle_starttag(self, tag: str, attrs: list[tuple[str, str | None]]) -> None:
        """An element begins."""
        self.tags.append(tag)
        self.attributes += attrs


def problem_of(ids: list[str], weight: Fraction, size: Fraction) -> Problem:
    """Orders of one weight and of a colour each."""
    orders = tuple(Order(name, weight, 1 + i % 30, f'cell B{i + 2}', i + 2, int(weight))
                   for i, name in enumerate(ids))
    colours = {colour: f'R{colour}' for colour in sorted({order.colour for order in orders})}
    return Problem('many', orders, colours, (size,), 2)


@needs('jinja2')
class Pages(InFolder):
    """A page needs nothing beside it, and holds what it is to hold."""

    def page(self, name: str = 'plan.html') -> str:
        """A file of the example's plan."""
        outcome = desk('plan', EXAMPLES / 'orders.csv', '--nodes', '100', '--out',
                       self.folder / 'plan')
        self.assertEqual((outcome.status, outcome.err), (4, ''))
        return (self.folder / 'plan' / name).read_text('utf-8')

    def test_it_asks_for_nothing(self) -> None:
        tags = Tags(self.page())
        self.assertIn(('content', 'default-src \'none\'; style-src \'unsafe-inline\'; script-src '
                       '\'unsafe-inline\'; base-uri \'none\'; form-action \'none\''),
                      tags.attributes)
        self.assertEqual([name for name, _ in tags.attributes if name in ('src', 'href')], [])
        self.assertNotIn('link', tags.tags)
        self.assertNotRegex(self.page(), r'https?://(?!www\.w3\.org/2000/svg)')

    def test_it_ends_with_commands_and_digests(self) -> None:
        page = self.page()
        folder = '&#34;$DIR/{}.txt&#34;'.format
        for part in ('set DIR to the folder of this page (it was written to ',
                     f'solve --colours 2 --nodes 100 &lt; {folder("instance")} &gt; '
                     + folder('answer'), 'check --colours 2',
                     'SHA-256 of the program', 'SHA-256 of instance.txt',
                     'SHA-256 of answer.txt', '(desk.toml)', 'colours per slab',
                     'nothing was rounded'):
            self.assertIn(part, page)
        self.assertEqual(len(re.findall(r'<code>[0-9a-f]{64}</code>', page)), 3)

    def test_its_commands_run_where_the_program_and_the_folder_are(self) -> None:
        page = self.page()
        commands = [unescape(text) for text in re.findall(r'<code>([^<]* --[^<]*)</code>', page)]
        self.assertEqual(len(commands), 2)
        before = self.held('plan')
        for command, status in zip(commands, (4, 0), strict=True):
            done = subprocess.run(['/bin/sh', '-c', command], capture_output=True, text=True,
                                  env={'DIR': str(self.folder / 'plan'), 'PATH': '/usr/bin:/bin'},
                                  cwd='/', check=False)
            self.assertEqual((done.returncode, done.stderr), (status, ''))
        self.assertEqual(done.stdout, 'legal loss 43\n')
        self.assertEqual(self.held('plan'), before)

    def test_hostile_ids_and_colours_and_titles_are_text(self) -> None:
        quoted = HOSTILE.replace('"', '""')
        orders = self.write('orders.csv', f'Order,Weight,Colour\n"{quoted}",7,"{quoted}"\nB,5,x\n')
        outcome = desk('plan', orders, '--sizes', '13', '--title', HOSTILE, '--out',
                       self.folder / 'plan')
        self.assertEqual((outcome.status, outcome.err), (0, ''))
        tags = Tags((self.folder / 'plan' / 'plan.html').read_text('utf-8'))
        self.assertEqual((tags.tags.count('script'), tags.tags.count('img')), (1, 0))
        self.assertIn(('data-id', HOSTILE), tags.attributes)
        picture = Tags((self.folder / 'plan' / 'plan.svg').read_text('utf-8'))
        self.assertEqual((picture.tags.count('script'), picture.tags.count('img')), (0, 0))

    def test_every_order_and_every_slab_is_on_the_page(self) -> None:
        page = self.page()
        self.assertEqual(len(re.findall(r'class="piece', page)), 60)
        rows = re.findall(r'<tr><td>(SO-[^<]+)</td>', page)
        self.assertEqual(len(set(rows)), 60)


    def test_amounts_in_tables_have_their_unit(self) -> None:
        page = self.page()
        heads = [re.findall(r'<button type="button">([^<]*)</button>', head)
                 for head in re.findall(r'<thead>(.*?)</thead>', page, re.DOTALL)]
        self.assertEqual(heads, [
            ['size (t)', 'slabs', 'steel (t)', 'lost (t)'],
            ['Order', 'Weight t', 'Route', 'slab', 'slab size (t)', 'slab loss (t)']])


class Sources(unittest.TestCase):
    """The files that the desk is made of."""

    def test_their_lines_have_at_most_a_hundred_characters(self) -> None:
        files = [DESK / 'README.md', *DESK.glob('templates/*'), *DESK.glob('mill_desk/*.py'),
                 *DESK.glob('tests/*.py')]
        long = [f'{path.name}:{number}' for path in files
                for number, line in enumerate(path.read_text('utf-8').split('\n'), 1)
                if len(line) > 100]
        self.assertEqual(long, [])


class Slabs(unittest.TestCase):
    """Plans as slabs."""

    def test_orders_of_one_colour_stand_side_by_side_the_heaviest_first(self) -> None:
        weights = ((3, 2), (5, 1), (4, 2), (2, 1))
        orders = tuple(Order(f'O{i}', Fraction(weight), colour, '', i, weight)
                       for i, (weight, colour) in enumerate(weights))
        problem = Problem('x', orders, {1: 'a', 2: 'b'}, (Fraction(20),), 2)
        slab, = slabs_of(problem, [1, 1, 1, 1])
        self.assertEqual([order.id for order in slab.orders], ['O1', 'O3', 'O2', 'O0'])
        self.assertEqual((slab.load, slab.size, slab.loss), (14, 20, 6))


@needs('jinja2')
class Pictures(unittest.TestCase):
    """The picture for a slide."""

    def picture(self, count: int) -> str:
        """The picture of so many slabs; the last ones lose most."""
        from mill_desk.picture import slide
        problem = problem_of([f'O{i}' for i in range(count)], Fraction(7), Fraction(9))
        slabs = slabs_of(problem, list(range(1, count + 1)))
        return slide(problem, slabs, verdict(Case.NO_LOSS))

    def test_up_to_sixty_slabs_are_drawn(self) -> None:
        text = self.picture(60)
        self.assertEqual(text.count('<title>O'), 60)
        self.assertNotIn('that lose less', text)

    def test_past_sixty_the_rest_is_told_by_size_and_count(self) -> None:
        text = self.picture(100)
        self.assertEqual(text.count('<title>O'), 60)
        self.assertIn('and 40 slabs that lose less', text)
        self.assertIn('>40 of 9</text>', text)

    def test_sizes_that_are_just_too_near_have_one_text(self) -> None:
        from mill_desk.picture import HEAD, Frame, lines_of
        for top, size in ((677, 529), (677, 514), (500, 400)):
            sizes = (Fraction(size - 18), Fraction(size), Fraction(top))
            frame = Frame(Problem('x', (), {}, sizes, 2), 900 - HEAD - top, 30, 3)
            self.assertEqual(frame.height(sizes[0]) + 18, frame.height(sizes[1]))
            self.assertEqual([line.text for line in lines_of(frame)], [str(top), str(size), ''])

    def test_nothing_runs_out_of_the_picture(self) -> None:
        text = self.picture(100)
        for x, wide in re.findall(r'<rect x="([\d.]+)" y="[\d.]+" width="([\d.]+)"', text):
            self.assertLessEqual(float(x) + float(wide), 1600)
        for y, high in re.findall(r' y="([\d.]+)" width="[\d.]+" height="([\d.]+)"', text):
            self.assertLessEqual(float(y) + float(high), 900)


class Shades(unittest.TestCase):
    """The colours of the pages."""

    def test_dark_ink_reads_on_each(self) -> None:
        for count in (1, 2, 5, 12, 24, 60):
            for place in range(count):
                shade = hue(place, count)
                self.assertRegex(shade, '^#[0-9a-f]{6}$')
                self.assertGreater(contrast(shade, '#14171a'), 5.0, (place, count, shade))

    def test_up_to_24_are_different(self) -> None:
        for count in range(1, 25):
            self.assertEqual(len({hue(place, count) for place in range(count)}), count)


def contrast(one: str, other: str) -> float:
    """The contrast of two colours, as the rules for accessible pages count it."""
    values = sorted((lightness(one), lightness(other)))
    return (values[1] + 0.05) / (values[0] + 0.05)


def lightness(shade: str) -> float:
    """The relative lightness of a colour."""
    parts = [int(shade[i:i + 2], 16) / 255 for i in (1, 3, 5)]
    red, green, blue = (part / 12.92 if part <= 0.03928 else ((part + 0.055) / 1.055) ** 2.4
                        for part in parts)
    return 0.2126 * red + 0.7152 * green + 0.0722 * blue
