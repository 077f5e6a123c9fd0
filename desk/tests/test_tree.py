"""What the tree says of a log: by hand on small ones, and as `verify` says on a grid of logs."""

import random
from dataclasses import dataclass
from itertools import product
from pathlib import Path

from mill_desk.answer import Answer, Record, RecordKind, read_answer
from mill_desk.log_tree import LogTree, Ranking
from mill_desk.problem import Problem, problem_of_instance
from mill_desk.program import Program
from mill_desk.record_words import words_of
from tests.support import EXAMPLES, InFolder, desk, each, needs, program, spread

FIVE = '2 5 7\n3\n5\n4 1\n3 2\n3 2\n2 3\n2 1\n'
FIVE_LOG = ('S 0', 'S 1 1', 'S 2 1 1', 'S 3 1 1 2', 'P 4 1 1 2 2 180', 'P 4 1 1 2 3 0', 'S 2 1 2',
            'P 3 1 2 2 0 0', 'P 3 1 2 3 0 0')
THREE = '1 4\n3\n3\n1 1\n1 2\n2 3\n'
THREE_LOG = ('S 0', 'S 1 1', 'S 2 1 1', 'L 3 1 1 2', 'S 2 1 2', 'L 3 1 2 1', 'L 3 1 2 2',
             'L 3 1 2 3')
# Weights 3 and 1, 1: after the two equal small orders share the first slab or not.
PAIRS = '2 3 4\n1\n4\n3 1\n3 1\n1 1\n1 1\n'


def text_of(loss: int, plan: str, log: tuple[str, ...]) -> str:
    """An answer with a log."""
    return f'optimal\nloss {loss}\nplan {plan}\nlog 1 {len(log)}\n' + '\n'.join(log) + '\nend\n'


def tree_of(instance: str, answer: str, limit: int = 2) -> LogTree:
    """The tree of an answer."""
    problem = problem_of_instance(instance, 'x', limit)
    read = read_answer(answer, len(problem.orders))
    assert read is not None and read.log is not None, answer
    return LogTree(problem, read.log, read.loss)


def five(*changes: tuple[str, str]) -> str:
    """The answer to the five orders, with lines of its log changed; '' takes one out or in."""
    log = list(FIVE_LOG)
    for old, new in changes:
        if old:
            at = log.index(old)
            log[at:at + 1] = [new] if new else []
        else:
            log = sorted([*log, new], key=path_of)
    return text_of(1, '1 2 3 2 3', tuple(log))


def path_of(line: str) -> tuple[int, ...]:
    """The path of a record."""
    words = line.split()
    return tuple(map(int, words[2:2 + int(words[1])]))


BY_HAND: dict[str, tuple[str, str]] = {
    'as it is': (five(), 'verified loss 1'),
    'a record less': (five(('P 4 1 1 2 3 0', '')), 'rejected missing 4 1 1 2 3'),
    'the empty path less': (five(('S 0', '')), 'rejected missing 0'),
    'a path that is no child': (five(('', 'P 3 1 1 3 0 0')), 'rejected stray 3 1 1 3'),
    'a path under a closed one': (five(('', 'P 4 1 2 2 1 0')), 'rejected stray 4 1 2 2 1'),
    'prices worth no more than the bound': (five(('P 4 1 1 2 3 0', 'P 4 1 1 2 3 60')),
                                            'rejected unsound 4 1 1 2 3'),
    'prices that aren\'t valid': (five(('P 4 1 1 2 2 180', 'P 4 1 1 2 2 181')),
                                  'rejected unsound 4 1 1 2 2'),
    'a leaf too early': (five(('P 3 1 2 2 0 0', 'L 3 1 2 2')), 'rejected unsound 3 1 2 2'),
    'dominated by itself': (five(('P 3 1 2 2 0 0', 'D 3 1 2 2 1 2 2')),
                            'rejected unsound 3 1 2 2'),
    'dominated by another live key': (five(('P 3 1 2 2 0 0', 'D 3 1 2 2 1 2 3')),
                                      'rejected unsound 3 1 2 2'),
    'the first of two wrong paths': (five(('P 4 1 1 2 3 0', ''), ('P 3 1 2 3 0 0', '')),
                                     'rejected missing 4 1 1 2 3'),
}
# One colour a slab: three orders of colour 1, then one of colour 2, which joins none of them. So no
# group is live at depth 3, and the paths differ in their dead loss: 3, 3, 1 and 6.
DEAD = '2 5 7\n2\n4\n4 1\n3 1\n2 1\n1 2\n'
DEAD_FRONT = ('S 0', 'S 1 1', 'S 2 1 1')
DEAD_TAIL = ('S 3 1 2 3', 'L 4 1 2 3 4')
DEAD_LOSS: dict[str, tuple[str, str]] = {
    'a path that has lost less': (text_of(5, '1 2 2 3', (
        *DEAD_FRONT, 'D 3 1 1 2 1 2 2', 'S 2 1 2', 'D 3 1 2 1 1 2 2', 'S 3 1 2 2', 'L 4 1 2 2 3',
        *DEAD_TAIL)), 'verified loss 5'),
    'a path that has lost more': (text_of(5, '1 2 2 3', (
        *DEAD_FRONT, 'S 3 1 1 2', 'L 4 1 1 2 3', 'S 2 1 2', 'D 3 1 2 1 1 1 2', 'D 3 1 2 2 1 1 2',
        *DEAD_TAIL)), 'rejected unsound 3 1 2 2'),
    'a path that is dominated itself': (text_of(5, '1 2 2 3', (
        *DEAD_FRONT, 'D 3 1 1 2 1 2 1', 'S 2 1 2', 'D 3 1 2 1 1 2 2', 'S 3 1 2 2', 'L 4 1 2 2 3',
        *DEAD_TAIL)), 'rejected unsound 3 1 1 2'),
}
WORDS: dict[tuple[int, ...], tuple[str, str]] = {
    (): ('split', 'Split: order 1 goes on each begun slab that stays legal, or on a new one: 1 '
                  'case.'),
    (1, 1): ('split', 'Split: order 3 goes on each begun slab that stays legal, or on a new one: '
                      '1 case. Not possible: slab 1 would weigh 10, more than 7.'),
    (1, 2): ('split', 'Split: order 3 goes on each begun slab that stays legal, or on a new one: '
                      '2 cases. Not possible: slab 1 comes before slab 2 of the equal order 2, '
                      'and equal orders come in rising groups.'),
    (1, 1, 2, 2): ('≥ 3', 'Priced, in sixtieths of a unit of loss: order 4 180. No legal slab '
                          'of open orders alone is paid more than it loses. The least that begun '
                          'slabs lose beyond the prices of what joins them: slab 1 0, slab 2 0. '
                          'Prices and least slacks together, the worth, are 180, which is more '
                          'than 60 (1 - 1) = 0: every plan under this path loses at least 3.'),
}


@spread
class ByHand(InFolder):
    """Logs that were judged by hand."""

    @each(BY_HAND)
    def test_the_line_is_the_one_that_verify_writes(self, row: tuple[str, str]) -> None:
        answer, line = row
        self.assertEqual(tree_of(FIVE, answer).verify_line(), line)

    @needs('program')
    @each(BY_HAND)
    def test_verify_says_so_too(self, row: tuple[str, str]) -> None:
        answer, line = row
        run = Program(program(), program(), False).run(['verify'], (FIVE + answer).encode())
        self.assertEqual(run.line, line)

    @each(DEAD_LOSS)
    def test_the_dead_loss_decides(self, row: tuple[str, str]) -> None:
        answer, line = row
        self.assertEqual(tree_of(DEAD, answer, 1).verify_line(), line)

    @needs('program')
    @each(DEAD_LOSS)
    def test_verify_says_so_of_the_dead_loss(self, row: tuple[str, str]) -> None:
        answer, line = row
        run = Program(program(), program(), False).run(['verify', '--colours', '1'],
                                                       (DEAD + answer).encode())
        self.assertEqual(run.line, line)

    @each({str(path): (path, *words) for path, words in WORDS.items()})
    def test_a_record_in_words(self, row: tuple[tuple[int, ...], str, str]) -> None:
        path, label, text = row
        words = words_of(tree_of(FIVE, five()), path)
        self.assertEqual((words.label, words.text), (label, text))

    def test_a_leaf_in_words(self) -> None:
        tree = tree_of(THREE, text_of(4, '1 2 1', THREE_LOG))
        words = words_of(tree, (1, 2, 2))
        self.assertEqual(words.label, 'loses 4 = best')
        self.assertEqual(words.text, 'Leaf: every order has its slab. The plan loses 2 (slab 1) + '
                         '2 (slab 2) = 4, which is not less than 4.')

    def test_an_unsound_leaf_in_words(self) -> None:
        tree = tree_of(THREE, text_of(5, '1 2 1', THREE_LOG))
        words = words_of(tree, (1, 1, 2))
        self.assertEqual(words.label, 'unsound')
        self.assertIn('which is less than 5. So this record is unsound.', words.text)

    def test_a_dominated_record_in_words(self) -> None:
        tree = tree_of(PAIRS, text_of(0, '1 2 1 2', (
            'S 0', 'S 1 1', 'S 2 1 2', 'S 3 1 2 1', 'L 4 1 2 1 2', 'L 4 1 2 1 3',
            'D 3 1 2 2 1 2 1', 'L 3 1 2 3')))
        words = words_of(tree, (1, 2, 2))
        self.assertEqual(words.label, 'unsound')
        self.assertIn('But the path ends between two equal orders.', words.text)

    def test_live_keys_and_dead_loss(self) -> None:
        ranking = Ranking(problem_of_instance(FIVE, 'x', 2))
        self.assertEqual([order.id for order in ranking.orders], ['1', '2', '3', '5', '4'])
        self.assertEqual(ranking.live_key((1, 1)), {})
        self.assertEqual(ranking.dead_loss((1, 1)), 0)
        self.assertEqual(ranking.live_key((1, 2)), {(4, 1, (False, True, False)): 1,
                                                    (3, 1, (True, False, False)): 1})
        self.assertTrue(ranking.starts_class(2) is False and ranking.starts_class(3))


@dataclass(frozen=True)
class Case:
    """An instance, its answer with a log, and how many colours a slab may have."""

    instance: str
    problem: Problem
    answer: Answer
    limit: int


def small_instances() -> list[tuple[str, int]]:
    """A grid of small instances."""
    found = []
    sizes = ('1 4', '2 3 5', '2 5 7')
    orders = ([(3, 1), (3, 1), (1, 1), (1, 1)], [(1, 1), (1, 2), (2, 3)], [(2, 1), (2, 1), (1, 2)],
              [(3, 1), (2, 2), (2, 2), (1, 3)], [(3, 2), (2, 1), (2, 3), (1, 1), (1, 1)], [],
              [(3, 1)])
    for size, row, limit in product(sizes, orders, (1, 2)):
        lines = [size, '3', str(len(row)), *(f'{weight} {colour}' for weight, colour in row)]
        found.append(('\n'.join(lines) + '\n', limit))
    return found


def spoil(case: Case, draw: random.Random) -> tuple[tuple[Record, ...], int]:
    """A log that was changed in some way, and the loss that it is to refute."""
    log, loss = list(case.answer.log or ()), case.answer.loss
    n = len(case.problem.orders)
    for _ in range(draw.choice((1, 1, 2))):
        at = draw.randrange(len(log)) if log else 0
        way = draw.choice(('drop', 'leaf', 'split', 'stray', 'price', 'price', 'dominate', 'fold'))
        if not log:
            break
        path = log[at].path
        if way == 'drop':
            del log[at]
        elif way in ('leaf', 'split'):
            kind = RecordKind.LEAF if way == 'leaf' else RecordKind.SPLIT
            log[at] = Record(kind, path, (), 0)
        elif way == 'stray' and n:
            other = tuple(draw.randint(1, min(3, n)) for _ in range(draw.randint(1, n)))
            if all(record.path != other for record in log):
                log.append(Record(RecordKind.SPLIT, other, (), 0))
        elif way == 'price':
            prices = tuple(60 * draw.randint(-1, 3) + draw.choice((0, 0, 0, 1))
                           for _ in range(n - len(path)))
            log = [record for record in log if record.path[:len(path)] != path]
            log.append(Record(RecordKind.PRICED, path, prices, 0))
        elif way == 'dominate':
            others = [record.path for record in log if len(record.path) == len(path)]
            log = [record for record in log if record.path[:len(path)] != path]
            log.append(Record(RecordKind.DOMINATED, path, draw.choice(others), 0))
        log.sort(key=lambda record: record.path)
    return tuple(log), loss


def written(case: Case, log: tuple[Record, ...], loss: int) -> str:
    """An answer with that log."""
    plan = ''.join(f' {slab}' for slab in case.answer.plan)
    lines = [f'optimal\nloss {loss}\nplan{plan}\nlog 1 {len(log)}']
    for record in log:
        numbers = ''.join(f' {number}' for number in (*record.path, *record.rest))
        lines.append(f'{record.kind.value} {len(record.path)}{numbers}')
    return '\n'.join(lines) + '\nend\n'


@needs('program')
class AsVerify(InFolder):
    """The desk and `verify` agree."""

    SPOILT_OF_EACH = 5

    def cases(self) -> list[Case]:
        """The grid, with what `prove` answers."""
        found = []
        for instance, limit in small_instances():
            run = self.judge('prove', instance, limit)
            problem = problem_of_instance(instance, 'x', limit)
            answer = read_answer(run, len(problem.orders))
            assert answer is not None and answer.log is not None, run
            found.append(Case(instance, problem, answer, limit))
        return found

    def judge(self, command: str, data: str, limit: int) -> str:
        """What the program says."""
        judges = Program(program(), program(), is_ours=False)
        return judges.run([command, '--colours', str(limit)], data.encode()).output

    def test_on_each_log_of_a_grid_and_on_spoilt_ones(self) -> None:
        draw = random.Random(18)
        seen: dict[str, int] = {}
        for case in self.cases():
            logs = [(case.answer.log or (), case.answer.loss)]
            logs += [spoil(case, draw) for _ in range(self.SPOILT_OF_EACH)]
            for log, loss in logs:
                text = written(case, log, loss)
                said = self.judge('verify', case.instance + text, case.limit).strip()
                found = LogTree(case.problem, log, loss).verify_line()
                self.assertEqual(found, said, case.instance + text)
                seen[' '.join(said.split()[:2])] = seen.get(' '.join(said.split()[:2]), 0) + 1
        for line in ('verified loss', 'rejected missing', 'rejected stray', 'rejected unsound'):
            self.assertGreater(seen.get(line, 0), 3, seen)


@needs('jinja2')
class Pages(InFolder):
    """`desk tree`."""

    def page(self, instance: str, answer: str, status: int = 0) -> str:
        """The page, as text."""
        outcome = desk('tree', self.write('instance.txt', instance),
                       self.write('answer.txt', answer), '--out', self.folder / 'tree',
                       program_path=self.believing(answer, status))
        self.assertEqual((outcome.status, outcome.err), (status, ''))
        return (self.folder / 'tree' / 'tree.html').read_text('utf-8')

    def believing(self, answer: str, status: int) -> Path:
        """A verify that says what the desk counts."""
        line = tree_of(FIVE if 'loss 1\n' in answer else THREE, answer).verify_line()
        return self.script('believing', 'import sys\nsys.stdin.buffer.read()\n'
                           f'print({line!r})\nsys.exit({status})\n')

    def test_the_records_are_drawn_and_told(self) -> None:
        page = self.page(FIVE, five())
        self.assertEqual(page.count('class="node"'), 9)
        self.assertIn('Path 1 1 2 2. Priced, in sixtieths', page)
        self.assertNotIn('box wrong"', page)

    def test_an_unsound_record_is_red_and_a_missing_one_is_drawn(self) -> None:
        page = self.page(FIVE, five(('P 4 1 1 2 3 0', 'P 4 1 1 2 3 60')), 8)
        self.assertIn('box wrong"', page)
        self.assertIn('So this record is unsound.', page)
        page = self.page(FIVE, five(('P 4 1 1 2 3 0', '')), 8)
        self.assertIn('Missing: this case of a split has no record.', page)

    def test_a_doubt_ends_with_a_fault_of_the_desk(self) -> None:
        liar = self.script('liar', 'import sys\nsys.stdin.buffer.read()\n'
                           'print("verified loss 1")\n')
        outcome = desk('tree', self.write('instance.txt', FIVE),
                       self.write('answer.txt', five(('P 4 1 1 2 3 0', ''))), '--out',
                       self.folder / 'tree', program_path=liar)
        self.assertEqual(outcome.status, 70)
        self.assertFalse((self.folder / 'tree').exists())

    def test_an_answer_without_a_log(self) -> None:
        outcome = desk('tree', self.write('instance.txt', THREE),
                       self.write('answer.txt', 'optimal\nloss 4\nplan 1 2 1\nend\n'))
        self.assertEqual((outcome.status, outcome.err), (
            3, 'desk: answer.txt has no log; ask for one by prove\n'))

    def test_past_200_records_subtrees_are_folded(self) -> None:
        orders = ''.join(f'{weight} {colour}\n' for weight, colour in (
            (6, 1), (5, 2), (4, 3), (3, 1), (2, 2), (1, 3), (2, 1)))
        instance = self.write('instance.txt', f"2 9 12\n3\n7\n{orders}")
        answer = self.write('answer.txt', run_stand_in(instance))
        outcome = desk('tree', instance, answer, '--out', self.folder / 'tree')
        self.assertEqual((outcome.status, outcome.err), (0, ''))
        page = (self.folder / 'tree' / 'tree.html').read_text('utf-8')
        self.assertGreater(page.count('class="node"'), 200)
        self.assertIn('aria-expanded="false"', page)
        self.assertIn('class="kids" hidden', page)

    def test_the_class_exercise_is_the_example_by_hand(self) -> None:
        self.assertEqual((EXAMPLES / 'class-exercise.txt').read_text(), FIVE)


def run_stand_in(instance: Path) -> str:
    """What the stand-in proves of an instance."""
    from tests.support import STAND_IN
    return Program(STAND_IN, STAND_IN, False).run(['prove'], instance.read_bytes()).output
