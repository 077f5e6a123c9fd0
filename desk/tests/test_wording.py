"""Every line and status of docs/formats.md has a sentence, and none says more than the program."""

import re
import unittest
from pathlib import Path

from mill_desk.wording import (LINES, OF_OTHERS, STATUSES, VERDICTS, Case, Speaker,
                               line_sentence, pattern_of, read_line, status_sentence, verdict)
from tests.support import TOP, each, spread

PAGE = TOP / 'docs' / 'formats.md'
# Tables of lines that other commands write; they name the command in their text before.
FOREIGN = re.compile(r'^(drill|schedule|part|paused|bounded|fewest)\b|^log 2\b')

EXAMPLES = {
    'legal loss 4': ('legal loss L', {'L': '4'}),
    'verified loss 0': ('verified loss L', {'L': '0'}),
    'confirmed infeasible order 2': ('confirmed infeasible order I', {'I': '2'}),
    'rejected heavy slab 3 load 40': ('rejected heavy slab S load W', {'S': '3', 'W': '40'}),
    'rejected colourful slab 1 colours 3': ('rejected colourful slab S colours C',
                                            {'S': '1', 'C': '3'}),
    'rejected loss stated 1 found 2': ('rejected loss stated A found B', {'A': '1', 'B': '2'}),
    'rejected order stated 1 found 0': ('rejected order stated I found J', {'I': '1', 'J': '0'}),
    'rejected missing 0': ('rejected missing k g1 .. gk', {'k': '(empty)'}),
    'rejected stray 2 1 3': ('rejected stray k g1 .. gk', {'k': '1 3'}),
    'rejected unsound 3 1 2 1': ('rejected unsound k g1 .. gk', {'k': '1 2 1'}),
    'refused instance range weight token 7': ('refused instance range NAME token T',
                                              {'NAME': 'weight', 'T': '7'}),
    'refused answer line 3': ('refused answer line N', {'N': '3'}),
    'refused answer line 5 not rising': ('refused answer line N not rising', {'N': '5'}),
    'plan 1 2 1': ('plan s1 .. sn', {'n': '3', 's': '2'}),
    'plan': ('plan s1 .. sn', {'n': '0', 's': '0'}),
    'P 1 1 60 -120': ('P k g1 .. gk y1 .. ym', {'k': '1'}),
    'D 2 1 2 1 1': ('D k g1 .. gk h1 .. hk', {'k': '1 2'}),
    'log 1 8': ('log 1 R', {'R': '8'}),
    'order 1': ('order I', {'I': '1'}),
}


def tables_of(page: Path) -> list[list[list[str]]]:
    """The tables of a page, as rows of cells."""
    tables: list[list[list[str]]] = [[]]
    for line in page.read_text('utf-8').split('\n'):
        if line.startswith('|'):
            cells = [cell.strip() for cell in line.strip('|').split('|')]
            if not set(''.join(cells)) <= set('-: '):
                tables[-1].append(cells)
        elif tables[-1]:
            tables.append([])
    return [table for table in tables if table]


def lines_of(page: Path) -> list[str]:
    """Every form of a line that the page has in a table."""
    forms: list[str] = []
    for header, *rows in tables_of(page):
        if header[0] == 'line' or header[0].startswith('line of status'):
            forms += [form for row in rows for form in re.findall(r'`([^`]+)`', row[0])]
        if header[0] == 'answer':
            forms += [form for row in rows for form in re.findall(r'`([^`]+)`', row[1])]
    return [form for form in dict.fromkeys(forms) if not FOREIGN.match(form)]


@spread
class Sentences(unittest.TestCase):
    """The table of lines."""

    def test_the_page_has_the_lines_that_are_expected(self) -> None:
        self.assertGreaterEqual(len(lines_of(PAGE)), 31)

    @each({form: form for form in lines_of(PAGE)})
    def test_a_line_of_the_page_has_a_sentence(self, form: str) -> None:
        self.assertIn(form, LINES)

    def test_each_status_of_the_page_has_a_sentence(self) -> None:
        table = next(rows for rows in tables_of(PAGE) if rows[0][0] == 'status')
        self.assertEqual({int(row[0]) for row in table[1:]} - STATUSES.keys(), set())

    @each({line: (line, *said) for line, said in EXAMPLES.items()})
    def test_a_line_is_read_in_its_form(self, row: tuple[str, str, dict[str, str]]) -> None:
        line, form, values = row
        said = read_line(line)
        self.assertIsNotNone(said)
        assert said is not None
        self.assertEqual((said.form, said.values), (form, values))
        self.assertEqual([other for other in LINES if pattern_of(other).fullmatch(line)], [form])
        self.assertNotIn('{', said.sentence)

    def test_any_other_line_is_shown_as_it_is(self) -> None:
        for line in ('legal loss', 'legal loss -1', 'hello', '', 'verified loss 1 ', 'S'):
            self.assertEqual(line_sentence(line), f'The program says: {line}')

    def test_any_other_status_is_shown_as_it_is(self) -> None:
        self.assertEqual(status_sentence(42), 'The program ended with status 42.')
        self.assertEqual(status_sentence(-9), 'The program was ended by signal 9 (the machine may '
                         'have too little memory).')
        self.assertIn('too little memory', status_sentence(7))


VALUES = {'loss': '4 t', 'spent': '7 nodes', 'records': '8 records', 'first': 'Order A',
          'where': '', 'weight': '9 t', 'top': '8 t', 'all': 'A 9 t', 'slab': 'B', 'rows': 'row 2',
          'colours': '3', 'limit': '2 colours', 'stated': '3 t', 'sentence': 'It says x.',
          'line': 'x', 'better': 'A loses less.', 'losses': 'A: 1. B: 2.'}
CLAIMS = ('theorem', 'proved')


@spread
class Verdicts(unittest.TestCase):
    """What a page says of an answer."""

    @each({case.value: case for case in Case})
    def test_nothing_is_claimed_for_another_program(self, case: Case) -> None:
        said = verdict(case, Speaker('/x/other'), **VALUES)
        for claim in CLAIMS:
            self.assertNotIn(claim, said.headline + said.text)
        self.assertIn('/x/other', said.headline + said.text
                      if case is not Case.NO_LOSS else '/x/other')
        self.assertIn('nothing is claimed for it', said.text)

    def test_optimal_and_verified_of_our_program(self) -> None:
        said = verdict(Case.OPTIMAL, **VALUES)
        self.assertEqual(said.headline, 'No legal plan loses less than 4 t.')
        said = verdict(Case.VERIFIED, **VALUES)
        self.assertIn('The proof, 8 records, was read by the separate checker and accepted.',
                      said.text)

    def test_feasible_claims_no_more_than_legality_and_loss(self) -> None:
        said = verdict(Case.FEASIBLE, **VALUES)
        self.assertEqual(said.headline, 'A legal plan that loses 4 t; a better one may exist.')
        self.assertIn('The budget of 7 nodes was spent.', said.text)
        self.assertIn('that no plan is better isn\'t claimed', said.text)

    def test_verified_is_said_in_one_case_alone(self) -> None:
        for case, (_, headline, text) in VERDICTS.items():
            told = (headline + text + ''.join(OF_OTHERS.get(case, ()))).casefold()
            self.assertEqual('checker' in told, case is Case.VERIFIED, case)
