"""`desk explain`: for texts written by hand, the line, the word and what stands there."""

import re
from dataclasses import dataclass
from itertools import islice
from pathlib import Path

from mill_desk.answer import read_record
from mill_desk.console import complain, say
from mill_desk.numbers import plural, show
from mill_desk.problem import problem_of_instance, what_was_read
from mill_desk.program import Program, Run, RunStopped
from mill_desk.search import failed
from mill_desk.settings import Settings
from mill_desk.tables import read_bytes
from mill_desk.trouble import Exit, Trouble
from mill_desk.wording import FIELDS, line_sentence, read_line

WHITE = b' \t\n\r'
MOST_LINES = 200
RANGES = {'count of sizes': 'sizecount', 'size': 'size', 'stated count of colours': 'colourcount',
          'count of orders': 'orders', 'weight': 'weight', 'colour': 'colour'}
HINTS = (
    (b'\xef\xbb\xbf', 'the file begins with a byte order mark: save it as plain text without one'),
    (b'\xff\xfe', 'the file is in UTF-16: save it as plain text'),
    (b'\xc2\xa0', 'there is a space that doesn\'t break a line: type an ordinary one'),
    (b'\0', 'the file is in UTF-16: save it as plain text'),
    (b';', 'is this a CSV? Then `desk plan` reads it'),
    (b',', 'numbers are whole; `desk plan` reads decimals from a table'),
    (b'.', 'numbers are whole; `desk plan` reads decimals from a table'),
    (b'-', 'numbers have no sign'),
    (b'+', 'numbers have no sign'),
)


@dataclass(frozen=True)
class Texts:
    """An instance and an answer as bytes, and their names."""

    name: str
    instance_name: str
    answer_name: str
    instance: bytes
    answer: bytes

    @property
    def joined(self) -> bytes:
        """Both, with a line feed between where the instance doesn't end with white space."""
        ends = self.instance[-1:] in (b'', *(bytes([byte]) for byte in WHITE))
        return self.instance + (b'' if ends else b'\n') + self.answer

    @property
    def answer_text(self) -> str:
        """The answer from its first byte that isn't white space."""
        return self.answer.lstrip(WHITE).decode('ascii', 'backslashreplace')

    @property
    def command(self) -> str:
        """`verify` for an answer with a log, else `check`."""
        lines = self.answer_text.split('\n')
        return 'verify' if len(lines) > 3 and lines[3].startswith('log') else 'check'


@dataclass(frozen=True)
class Word:
    """A word of an instance: its bytes, its place in lines, and its number; all from 1."""

    text: bytes
    start: int
    line: int
    place: int
    number: int

    @property
    def value(self) -> int:
        """The number that the word is; the program found it in its range."""
        return int(self.text.lstrip(b'0') or b'0')

    @property
    def shown(self) -> str:
        """The word as far as it can be shown."""
        text = self.text.decode('utf-8', 'backslashreplace')
        return text if len(text) <= 40 else text[:37] + '..'


def read_texts(instance: Path, answer: Path | None) -> Texts:
    """The two files."""
    return Texts(instance.stem, str(instance), str(answer or ''), read_bytes(instance),
                 read_bytes(answer) if answer else b'')


def words_of(text: bytes) -> list[Word]:
    """The words of a text."""
    words: list[Word] = []
    line, line_start, place = 1, 0, 0
    for found in re.finditer(rb'[^ \t\n\r]+', text):
        passed = text[line_start:found.start()]
        if b'\n' in passed:
            line += passed.count(b'\n')
            line_start += passed.rindex(b'\n') + 1
            place = 0
        place += 1
        words.append(Word(found[0], found.start(), line, place, len(words) + 1))
    return words


def role_of(number: int, words: list[Word]) -> tuple[str, str]:
    """What word `number`, from 1, of an instance is, as its kind and in full."""
    if number == 1:
        return 'count of sizes', 'the count of sizes'
    sizes = words[0].value
    if number <= sizes + 1:
        return 'size', f'size {number - 1} of {sizes}'
    if number == sizes + 2:
        return 'stated count of colours', 'the stated count of colours'
    if number == sizes + 3:
        return 'count of orders', 'the count of orders'
    order, is_colour = divmod(number - sizes - 4, 2)
    kind = 'colour' if is_colour else 'weight'
    return kind, f'the {kind} of order {order + 1}'


def explain(program: Program, instance: Path, answer: Path | None, settings: Settings) -> int:
    """Runs the program on the texts and explains what it says."""
    texts = read_texts(instance, answer)
    words = [texts.command if answer else 'solve', '--colours', str(settings.colours_per_slab)]
    words += [] if answer else ['--nodes', '0']
    try:
        run = program.run(words, texts.joined)
    except RunStopped:
        raise Trouble(Exit.STOPPED, 'Stopped.') from None
    if run.status == 3:
        complain(complain_of(texts, run))
        return run.status
    if run.status not in (0, 1, 4, 8):
        raise failed(run)
    problem = problem_of_instance(texts.instance.decode('ascii'), texts.name,
                                  settings.colours_per_slab)
    if problem.orders:
        say(f'The instance is right: {what_was_read(problem)}.')
    else:
        say('The instance is right, and has no orders.')
    if not answer:
        for order in problem.heavy_orders():
            say(f'Order {order.id} weighs {show(order.weight)}, more than the largest size '
                f'{show(problem.sizes[-1])}: there is no legal plan.')
        return run.status if run.status == 1 else Exit.DONE
    explain_answer(texts)
    say(f'{program.name} {texts.command} says: {run.line}')
    say(line_sentence(run.line))
    if not program.is_ours:
        say('That program wasn\'t built by ./mill_slab, so nothing is claimed for it.')
    return run.status


def explain_answer(texts: Texts) -> None:
    """Each line of an answer, with what it says."""
    lines = texts.answer_text.split('\n')
    while lines and not lines[-1].strip():
        lines.pop()
    for number, line in enumerate(islice(lines, MOST_LINES), 1):
        shown = line if len(line) <= 60 else line[:57] + '..'
        say(f'line {number}: {shown}\n    {line_sentence(line.rstrip())}')
    if len(lines) > MOST_LINES:
        say(f'and {len(lines) - MOST_LINES} more lines; `desk tree` shows the records')


def complain_of(texts: Texts, run: Run) -> str:
    """A refusal with the line, the word, and what stands there."""
    said = read_line(run.line)
    head = f'mill_slab {run.words[0]}: {run.line}'
    if said is None:
        return head
    words = words_of(texts.instance)
    if said.form == 'refused instance byte A':
        told = of_byte(texts, words, said.number('A'))
    elif said.form == 'refused instance short token T':
        told = of_short(words, said.number('T'))
    elif said.form == 'refused instance range NAME token T':
        told = of_range(words, said.number('T'))
    elif said.form == 'refused rest byte A':
        told = of_rest(words, said.number('A'))
    elif said.form.startswith('refused answer line N'):
        told = of_line(texts, words, said.number('N'), said.sentence)
    else:
        told = said.sentence
    return f'{head}\n{told}'


def at(word: Word) -> str:
    """A word by its place."""
    return f'Line {word.line}, word {word.place} ("{word.shown}")'


def of_byte(texts: Texts, words: list[Word], byte: int) -> str:
    """A byte that is no digit."""
    word = next(word for word in words if word.start <= byte < word.start + len(word.text))
    _, role = role_of(word.number, words)
    found = texts.instance[byte:byte + 1].decode('ascii', 'backslashreplace')
    hint = next((hint for sign, hint in HINTS if texts.instance[byte:].startswith(sign)), '')
    return (f'{at(word)} is to be {role}, and "{found}" is no digit'
            + (f'; {hint}.' if hint else '.'))


def of_short(words: list[Word], number: int) -> str:
    """A word that is missing."""
    _, role = role_of(number, words)
    told = f'The text ends after {plural(len(words), "number")}; the next is to be {role}.'
    if number > 1:
        told += f' {counts_of(words)} Is a count too large, or was a number left out?'
    return told


def counts_of(words: list[Word]) -> str:
    """The counts that were read so far."""
    sizes = words[0].value
    told = [f'line {words[0].line} says {plural(sizes, "size")}']
    if len(words) >= sizes + 3:
        orders = words[sizes + 2]
        told.append(f'line {orders.line} says {plural(orders.value, "order")}')
    text = ' and '.join(told)
    return f'{text[0].upper()}{text[1:]}.'


def of_range(words: list[Word], number: int) -> str:
    """A number that is out of its range."""
    kind, role = role_of(number, words)
    limits = FIELDS[RANGES[kind]].partition(', which is ')[2]
    return f'{at(words[number - 1])} is {role}, and must be {limits}.'


def of_rest(words: list[Word], byte: int) -> str:
    """Something behind the instance."""
    word = next(word for word in words if word.start + len(word.text) > byte)
    return (f'{at(word)} stands behind the instance. {counts_of(words)} Is a count too small, or '
            'is there a column too many, such as an id?')


def of_line(texts: Texts, words: list[Word], number: int, sentence: str) -> str:
    """A line of an answer."""
    lines = texts.answer_text.split('\n')
    orders = words[words[0].value + 2].value
    if number > len(lines) or (number == len(lines) and not lines[-1]):
        return (f'{sentence} The answer ends before it; it is to be '
                f'{expected(lines, number, orders)}.')
    line = lines[number - 1]
    shown = line if len(line) <= 60 else line[:57] + '..'
    why = slip_of(line, number, orders)
    return (f'{sentence} There stands "{shown}"; it is to be {expected(lines, number, orders)}.'
            + (f' {why}' if why else ''))


def expected(lines: list[str], number: int, orders: int) -> str:
    """What a line of an answer is to be."""
    first = lines[0] if lines else ''
    if number == 1:
        return '`optimal`, `feasible` or `infeasible`'
    if first == 'infeasible':
        return f'`order I`, with I from 1 to {orders}' if number == 2 else '`end`'
    if number == 2:
        return '`loss L`'
    if number == 3:
        return f'`plan` and {plural(orders, "slab number")} from 1 to {orders}, one for each order'
    if first == 'feasible':
        return '`spent N`' if number == 4 else '`end`, with only white space behind it'
    if number == 4:
        return '`end`, or `log 1 R`'
    if len(lines) > 3 and lines[3].startswith('log'):
        return 'a record, whose path comes after the one before, or `end`'
    return 'white space only, behind `end`'


def slip_of(line: str, number: int, orders: int) -> str:
    """The slip in a line, where it is a common one."""
    if '\r' in line:
        return 'It ends with a carriage return: take these out (tr -d \'\\r\').'
    if line != line.strip() or '  ' in line or '\t' in line:
        return 'Words stand one space apart, with none at either end.'
    if re.search(r'(?:^| )-?0[0-9]', line):
        return 'Numbers have no leading zero.'
    if number == 3 and re.fullmatch(r'plan(?: [0-9]+)*', line):
        slabs = [int(word) for word in line.split()[1:]]
        if len(slabs) != orders:
            return f'It has {plural(len(slabs), "number")} for {plural(orders, "order")}.'
        wrong = [slab for slab in slabs if not 1 <= slab <= orders]
        if wrong:
            return f'Slab {wrong[0]} isn\'t from 1 to {orders}.'
    if number > 4 and read_record(line, number, orders) is not None:
        return 'The line is a record; its path doesn\'t come after the one before.'
    return ''
