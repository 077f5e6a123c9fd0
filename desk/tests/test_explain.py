"""`desk explain` names the line, the word, and what stands there."""

from dataclasses import dataclass

from tests.support import InFolder, desk, each, needs, program, spread

GOOD = '1 4\n3\n3\n1 1\n1 2\n2 3\n'
ANSWER = 'optimal\nloss 4\nplan 1 2 1\nend\n'


@dataclass(frozen=True)
class Told:
    """An instance (and an answer), the program's line, and what the desk adds."""

    instance: str | bytes
    line: str
    text: str
    answer: str | None = None


INSTANCES: dict[str, Told] = {
    'nothing': Told('', 'refused instance short token 1',
        'The text ends after 0 numbers; the next is to be the count of sizes.'),
    'a decimal point': Told('1 4\n3\n3\n1 1\n1.5 2\n2 3\n', 'refused instance byte 13',
        'Line 5, word 1 ("1.5") is to be the weight of order 2, and "." is no digit; numbers are '
        'whole; `desk plan` reads decimals from a table.'),
    'a decimal comma': Told('1 4\n3\n3\n1 1\n10,5 2\n2 3\n', 'refused instance byte 14',
        'Line 5, word 1 ("10,5") is to be the weight of order 2, and "," is no digit; numbers are '
        'whole; `desk plan` reads decimals from a table.'),
    'a word for a colour': Told('1 4\n3\n3\n1 red\n1 2\n2 3\n', 'refused instance byte 10',
        'Line 4, word 2 ("red") is to be the colour of order 1, and "r" is no digit.'),
    'a CSV': Told('Order;Weight;Colour\nA;1;2\n', 'refused instance byte 0',
        'Line 1, word 1 ("Order;Weight;Colour") is to be the count of sizes, and "O" is no '
        'digit.'),
    'a minus': Told('1 4\n3\n3\n-1 1\n1 2\n2 3\n', 'refused instance byte 8',
        'Line 4, word 1 ("-1") is to be the weight of order 1, and "-" is no digit; numbers have '
        'no sign.'),
    'a byte order mark': Told(b'\xef\xbb\xbf1 4\n3\n0\n', 'refused instance byte 0',
        'Line 1, word 1 ("\ufeff1") is to be the count of sizes, and "\\xef" is no digit; the '
        'file begins with a byte order mark: save it as plain text without one.'),
    'a space that doesn\'t break': Told(b'1 4\n3\n3\n1\xc2\xa01\n', 'refused instance byte 9',
        'Line 4, word 1 ("1\u00a01") is to be the weight of order 1, and "\\xc2" is no digit; '
        'there is a space that doesn\'t break a line: type an ordinary one.'),
    'an order too few': Told('1 4\n3\n4\n1 1\n1 2\n2 3\n', 'refused instance short token 11',
        'The text ends after 10 numbers; the next is to be the weight of order 4. Line 1 says 1 '
        'size and line 3 says 4 orders. Is a count too large, or was a number left out?'),
    'a colour left out': Told('1 4\n3\n3\n1 1\n1 2\n2\n', 'refused instance short token 10',
        'The text ends after 9 numbers; the next is to be the colour of order 3. Line 1 says 1 '
        'size and line 3 says 3 orders. Is a count too large, or was a number left out?'),
    'no size': Told('0\n3\n0\n', 'refused instance range sizecount token 1',
        'Line 1, word 1 ("0") is the count of sizes, and must be 1 to 1,024.'),
    'kilograms': Told('2 25000 30000\n1\n0\n', 'refused instance range size token 2',
        'Line 1, word 2 ("25000") is size 1 of 2, and must be 1 to 20,000.'),
    'too many colours stated': Told('1 4\n4097\n0\n', 'refused instance range colourcount token 3',
        'Line 2, word 1 ("4097") is the stated count of colours, and must be 0 to 4,096.'),
    'too many orders': Told('1 4\n3\n1025\n', 'refused instance range orders token 4',
        'Line 3, word 1 ("1025") is the count of orders, and must be 0 to 1,024.'),
    'a weight of nothing': Told('1 4\n3\n1\n0 1\n', 'refused instance range weight token 5',
        'Line 4, word 1 ("0") is the weight of order 1, and must be 1 to 1,000,000.'),
    'a colour of nothing': Told('1 4\n3\n1\n1 0\n', 'refused instance range colour token 6',
        'Line 4, word 2 ("0") is the colour of order 1, and must be 1 to 4,096.'),
    'an order too many': Told('1 4\n3\n2\n1 1\n1 2\n2 3\n', 'refused rest byte 16',
        'Line 6, word 1 ("2") stands behind the instance. Line 1 says 1 size and line 3 says 2 '
        'orders. Is a count too small, or is there a column too many, such as an id?'),
}
LINE = 'Line {} of the answer isn\'t as it must be, or is missing.'
ANSWERS: dict[str, Told] = {
    'no answer': Told(GOOD, 'refused answer line 1', f'{LINE.format(1)} The answer ends before '
        'it; it is to be `optimal`, `feasible` or `infeasible`.', ''),
    'Windows line ends': Told(GOOD, 'refused answer line 1', f'{LINE.format(1)} There stands '
        '"optimal\\r"; it is to be `optimal`, `feasible` or `infeasible`. It ends with a carriage '
        'return: take these out (tr -d \'\\r\').', ANSWER.replace('\n', '\r\n')),
    'a slab number too few': Told(GOOD, 'refused answer line 3', f'{LINE.format(3)} There stands '
        '"plan 1 2"; it is to be `plan` and 3 slab numbers from 1 to 3, one for each order. It '
        'has 2 numbers for 3 orders.', 'optimal\nloss 4\nplan 1 2\nend\n'),
    'a slab number too large': Told(GOOD, 'refused answer line 3', f'{LINE.format(3)} There '
        'stands "plan 1 2 7"; it is to be `plan` and 3 slab numbers from 1 to 3, one for each '
        'order. Slab 7 isn\'t from 1 to 3.', 'optimal\nloss 4\nplan 1 2 7\nend\n'),
}
REAL_ANSWERS: dict[str, Told] = {
    'a loss that is no number': Told(GOOD, 'refused answer line 2', f'{LINE.format(2)} There '
        'stands "loss x"; it is to be `loss L`.', 'optimal\nloss x\nplan 1 2 1\nend\n'),
    'a blank at the end': Told(GOOD, 'refused answer line 3', f'{LINE.format(3)} There stands '
        '"plan 1 2 1 "; it is to be `plan` and 3 slab numbers from 1 to 3, one for each order. '
        'Words stand one space apart, with none at either end.',
        'optimal\nloss 4\nplan 1 2 1 \nend\n'),
    'no end': Told(GOOD, 'refused answer line 4', f'{LINE.format(4)} The answer ends before it; '
        'it is to be `end`, or `log 1 R`.', 'optimal\nloss 4\nplan 1 2 1\n'),
    'feasible without spent': Told(GOOD, 'refused answer line 4', f'{LINE.format(4)} There stands '
        '"end"; it is to be `spent N`.', 'feasible\nloss 4\nplan 1 2 1\nend\n'),
    'a record that doesn\'t rise': Told(GOOD, 'refused answer line 6 not rising',
        'Line 6 of the answer is a record whose path doesn\'t come after the one before. There '
        'stands "S 0"; it is to be a record, whose path comes after the one before, or `end`. The '
        'line is a record; its path doesn\'t come after the one before.',
        'optimal\nloss 4\nplan 1 2 1\nlog 1 2\nS 0\nS 0\nend\n'),
    'a wrong count': Told(GOOD, 'refused answer count stated 3 found 1',
        'The log states 3 records and has 1.',
        'optimal\nloss 4\nplan 1 2 1\nlog 1 3\nS 0\nend\n'),
    'something behind the end': Told(GOOD, 'refused answer line 6', f'{LINE.format(6)} There '
        'stands "x"; it is to be white space only, behind `end`.', f'{ANSWER}\nx\n'),
}


@spread
class Refusals(InFolder):
    """Each refusal of an instance and of an answer."""

    def tell(self, told: Told) -> None:
        words = ['explain', self.write('instance.txt', told.instance)]
        command = 'solve'
        if told.answer is not None:
            words.append(self.write('answer.txt', told.answer))
            command = 'verify' if 'log' in told.answer else 'check'
        outcome = desk(*words, program_path=program())
        self.assertEqual(outcome.err, f'mill_slab {command}: {told.line}\n{told.text}\n')
        self.assertEqual((outcome.status, outcome.out), (3, ''))

    @each(INSTANCES)
    def test_instance(self, row: Told) -> None:
        self.tell(row)

    @each(ANSWERS)
    def test_answer(self, row: Told) -> None:
        self.tell(row)

    @needs('program')
    @each(REAL_ANSWERS)
    def test_answer_of_the_whole_grammar(self, row: Told) -> None:
        self.tell(row)


class Accepted(InFolder):
    """Texts that are right are told line by line."""

    def test_an_instance_is_told_back(self) -> None:
        outcome = desk('explain', self.write('instance.txt', GOOD), program_path=program())
        self.assertEqual((outcome.status, outcome.err), (0, ''))
        self.assertEqual(outcome.out, (
            'The instance is right: 3 orders of 3 colours, together 4; the lightest weighs 1 '
            '(order 1), the heaviest 2 (order 3); 1 size, 4; at most 2 colours a slab; one step '
            'is 1.'))

    def test_numbers_of_any_length(self) -> None:
        long = '0' * 9000
        outcome = desk('explain', self.write('instance.txt', f'{long}1 {long}4\n3\n1\n1 1\n'),
                       program_path=program())
        self.assertEqual((outcome.status, outcome.err), (0, ''))
        path = self.write('instance.txt', f'{long}1 4\n3\n1\n1{long} 1\n')
        outcome = desk('explain', path, program_path=program())
        self.assertEqual(outcome.status, 3)
        self.assertIn('refused instance range weight token 5', outcome.err)

    def test_each_heavy_order_is_named(self) -> None:
        outcome = desk('explain', self.write('instance.txt', '1 4\n1\n3\n5 1\n1 1\n9 1\n'),
                       program_path=program())
        self.assertIn('Order 1 weighs 5, more than the largest size 4: there is no legal plan. '
                      'Order 3 weighs 9,', outcome.out)

    def test_each_line_of_an_answer_is_told(self) -> None:
        outcome = desk('explain', self.write('instance.txt', GOOD),
                       self.write('answer.txt', ANSWER), program_path=program())
        self.assertEqual(outcome.status, 0)
        for part in ('line 1: optimal It claims a legal plan, and that no legal plan loses less.',
                     'line 2: loss 4 The plan is to lose 4.',
                     'line 3: plan 1 2 1 The slab of each order, in the order of the instance: 3 '
                     'orders on 2 slabs.', 'line 4: end The answer ends here.',
                     'check says: legal loss 4 Each slab is legal'):
            self.assertIn(part, outcome.out)

    def test_a_wrong_loss_is_told_with_status_8(self) -> None:
        outcome = desk('explain', self.write('instance.txt', GOOD),
                       self.write('answer.txt', ANSWER.replace('loss 4', 'loss 3')),
                       program_path=program())
        self.assertEqual(outcome.status, 8)
        self.assertIn('The plan is legal, but it states a loss of 3 and loses 4.', outcome.out)

    def test_an_instance_without_a_last_line_end(self) -> None:
        outcome = desk('explain', self.write('instance.txt', GOOD.rstrip()),
                       self.write('answer.txt', ANSWER), program_path=program())
        self.assertEqual(outcome.status, 0)
