"""Numbers of tables are read exactly, and written exactly."""

import unittest
from fractions import Fraction

from mill_desk.numbers import (Mark, decide_mark, greatest_step, percent, plural, read_number,
                               show, show_plain)
from mill_desk.trouble import Fault
from tests.support import each, needs, spread

POINT, COMMA = Mark.POINT, Mark.COMMA
READ = {
    '7': (Fraction(7), Fraction(7)),
    '10,5': (None, Fraction(21, 2)),
    '10.5': (Fraction(21, 2), None),
    '1.200': (Fraction(6, 5), Fraction(1200)),
    '1,200': (Fraction(1200), Fraction(6, 5)),
    '1,234,567': (Fraction(1234567), None),
    '1.234,5': (None, Fraction(2469, 2)),
    '1 234.5': (Fraction(2469, 2), None),
    "1'234": (Fraction(1234), Fraction(1234)),
    '1\u202f234,25': (None, Fraction(4937, 4)),
    '0.500': (Fraction(1, 2), None),
    '007': (Fraction(7), Fraction(7)),
    '.5': (Fraction(1, 2), None),
    '-3': (Fraction(-3), Fraction(-3)),
    '+3': (Fraction(3), Fraction(3)),
    '12,34,5': (None, None),
    '1e3': (None, None),
    '5.': (None, None),
    '': (None, None),
    'x': (None, None),
    '٣': (None, None),
    '0.1': (Fraction(1, 10), None),
    '7' * 5000: (None, None),
}
COLUMNS = {
    'whole numbers alone': (['7', '12'], POINT),
    'a decimal point settles it': (['10.5', '1.200'], POINT),
    'a decimal comma settles it': (['10,5', '1.200'], COMMA),
    'no number has no say': (['x', '10,5'], COMMA),
    'a grouped number with a tail settles it': (['1,200', '1.234,5'], COMMA),
}


@spread
class Reading(unittest.TestCase):
    """A text under a mark."""

    @each({text or '(nothing)': (text, values) for text, values in READ.items()})
    def test_a_text_is_its_number_or_none(
            self, row: tuple[str, tuple[Fraction | None, Fraction | None]]) -> None:
        text, values = row
        self.assertEqual((read_number(text, POINT), read_number(text, COMMA)), values)

    @each(COLUMNS)
    def test_the_mark_is_decided_for_a_column(self, row: tuple[list[str], Mark]) -> None:
        texts, mark = row
        self.assertEqual(decide_mark([(text, 'cell B2') for text in texts], 'weight'), mark)

    def test_a_doubtful_column_is_refused(self) -> None:
        for text, ways in (('1.200', '1.2 or 1200'), ('1,200', '1200 or 1.2')):
            fault = decide_mark([('7', 'cell B2'), (text, 'cell B3')], 'weight')
            self.assertIsInstance(fault, Fault)
            self.assertEqual(str(fault), f'cell B3: the weight "{text}" may be {ways}; say which: '
                             '--decimal point or --decimal comma')

    def test_a_column_with_both_marks_is_refused(self) -> None:
        fault = decide_mark([('10,5', 'cell B2'), ('7.5', 'cell B3')], 'weight')
        self.assertEqual(str(fault), 'cell B3: the weight "7.5" has a decimal point and "10,5" '
                         '(cell B2) a decimal comma; write the whole column with one mark')


class Writing(unittest.TestCase):
    """A number for people, and for machines."""

    def test_exact_decimals(self) -> None:
        self.assertEqual(show_plain(Fraction(25, 2)), '12.5')
        self.assertEqual(show_plain(Fraction(1, 8)), '0.125')
        self.assertEqual(show_plain(Fraction(-1, 20)), '-0.05')
        self.assertEqual(show_plain(Fraction(1, 3)), '1/3')
        self.assertEqual(show_plain(Fraction(3), 2), '3.00')
        self.assertEqual(show_plain(10 ** 20), '1' + 20 * '0')

    def test_narrow_spaces_from_five_digits_on(self) -> None:
        self.assertEqual(show(9999), '9999')
        self.assertEqual(show(Fraction(2469135, 2)), '1\u202f234\u202f567.5')
        self.assertEqual(show(-20000), '-20\u202f000')

    def test_shares_and_counts(self) -> None:
        for part, whole, text in ((39, 935, 'about 4.17%'), (0, 0, '0%'), (0, 7, '0%'),
                                  (81, 1000, '8.1%'), (1, 8, '12.5%'),
                                  (81001, 1000000, 'about 8.10%'), (1, 20000, 'less than 0.01%'),
                                  (1, 10000, '0.01%'), (1, 15000, 'about 0.01%')):
            self.assertEqual(percent(Fraction(part), Fraction(whole)), text)
        self.assertEqual((plural(1, 'slab'), plural(2, 'slab')), ('1 slab', '2 slabs'))


class Steps(unittest.TestCase):
    """The greatest number of which all are whole multiples."""

    def test_by_hand(self) -> None:
        self.assertEqual(greatest_step([Fraction(25, 2), Fraction(15, 2), Fraction(25)]),
                         Fraction(5, 2))
        self.assertEqual(greatest_step([Fraction(1, 3), Fraction(1, 2)]), Fraction(1, 6))
        self.assertEqual(greatest_step([Fraction(12000), Fraction(7500)]), Fraction(1500))
        self.assertEqual(greatest_step([]), Fraction(1))

    @needs('hypothesis')
    def test_all_are_whole_multiples_and_no_greater_number_divides(self) -> None:
        from hypothesis import given, settings
        from hypothesis import strategies as some

        fractions = some.fractions(min_value=Fraction(1, 1000), max_value=1000,
                                   max_denominator=1000)

        @settings(deadline=None, database=None)
        @given(some.lists(fractions, min_size=1, max_size=6))
        def holds(values: list[Fraction]) -> None:
            step = greatest_step(values)
            shares = [value / step for value in values]
            self.assertTrue(all(share.denominator == 1 for share in shares))
            self.assertEqual(greatest_step(shares), 1)

        holds()
