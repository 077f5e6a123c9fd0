"""Every line and status of the program as a sentence, in one table.

The forms are those of docs/formats.md, to the letter; a test reads them out of that page, so a new
line without a sentence fails. `VERDICTS` puts the same claims in the words of a table of orders:
never more than the program said, and no theorem where another program spoke.
"""

import re
from dataclasses import dataclass
from enum import Enum
from functools import cache

# Lines of `check` and `verify`, of status 3, of answers and of logs.
LINES: dict[str, str] = {
    'legal loss L': 'Each slab is legal, and the plan loses {L}, as it states. This says nothing '
                    'of other plans.',
    'verified loss L': 'The plan is legal, it loses {L}, and its log refutes every plan that '
                       'loses less: none does.',
    'confirmed infeasible order I': 'Order {I} is the first that is heavier than the largest '
                                    'size, so there is no legal plan.',
    'rejected heavy slab S load W': 'Slab {S} weighs {W}, more than the largest size. It is the '
                                    'lowest slab that isn\'t legal.',
    'rejected colourful slab S colours C': 'Slab {S} has {C} colours, more than a slab may carry. '
                                           'It is the lowest slab that isn\'t legal.',
    'rejected loss stated A found B': 'The plan is legal, but it states a loss of {A} and loses '
                                      '{B}.',
    'rejected order stated I found J': 'The answer names order {I} as the first that is too '
                                       'heavy; it is order {J} (0: none is).',
    'rejected missing k g1 .. gk': 'The log has no record of the path {k}, and needs one. The '
                                   'path is the first that is wrong.',
    'rejected stray k g1 .. gk': 'The log has a record of the path {k}, which is neither the '
                                 'empty path nor a child of a split one. It is the first that is '
                                 'wrong.',
    'rejected unsound k g1 .. gk': 'The log\'s record of the path {k} doesn\'t hold up. It is the '
                                   'first that is wrong.',
    'refused long L': 'The input has more than {L} bytes, the most that the command reads.',
    'refused instance byte A': 'Byte {A} of the instance, counted from 0, is no digit.',
    'refused instance short token T': 'The instance ends before its number {T}: a count is too '
                                      'large, or a number was left out.',
    'refused instance range NAME token T': 'Number {T} of the instance, {NAME}, is out of its '
                                           'range.',
    'refused rest byte A': 'Something stands behind the instance, at byte {A}, counted from 0: a '
                           'count is too small, or there is a number too many.',
    'refused schedule token T': 'Number {T} of the schedule isn\'t the number of a worker; number '
                                '0 is the word schedule, which is to come first.',
    'refused answer line N': 'Line {N} of the answer isn\'t as it must be, or is missing.',
    'refused answer line N not rising': 'Line {N} of the answer is a record whose path doesn\'t '
                                        'come after the one before.',
    'refused answer count stated A found B': 'The log states {A} records and has {B}.',
    'refused answer kind': 'There is nothing to verify: the answer is feasible, or optimal '
                           'without a log.',
    'optimal': 'It claims a legal plan, and that no legal plan loses less.',
    'feasible': 'It claims a legal plan; the budget ended first, so a better one may exist.',
    'infeasible': 'It claims that there is no legal plan: an order is heavier than the largest '
                  'size.',
    'loss L': 'The plan is to lose {L}.',
    'plan s1 .. sn': 'The slab of each order, in the order of the instance: {n} orders on {s} '
                     'slabs.',
    'spent N': 'The search closed {N} paths, which is its budget.',
    'order I': 'Order {I} is the first that is heavier than the largest size.',
    'log 1 R': 'A log of version 1 with {R} records follows; together they refute every cheaper '
               'plan.',
    'end': 'The answer ends here.',
    'S k g1 .. gk': 'Split: at the path {k} the next order goes on each group that stays legal, '
                    'or on a new one, and each of these cases has a record.',
    'L k g1 .. gk': 'Leaf: the path {k} places every order, and its plan loses at least as much '
                    'as the answer\'s.',
    'P k g1 .. gk y1 .. ym': 'Priced: prices of the open orders show that no plan under this path '
                             'loses less than the answer\'s.',
    'D k g1 .. gk h1 .. hk': 'Dominated: another path of the same length is at least as good.',
}

STATUSES: dict[int, str] = {
    0: 'The search closed every case, or the answer was accepted.',
    1: 'There is no legal plan: an order is heavier than the largest size.',
    2: 'The program doesn\'t know these words. It may be of another release.',
    3: 'The program refused its input.',
    4: 'The budget ended before every case was closed.',
    5: 'Reading failed.',
    6: 'Writing failed: the disk may be full.',
    7: 'The machine has too little memory for this.',
    8: 'The answer was rejected.',
    9: 'The system didn\'t give the program its words.',
}

FIELDS: dict[str, str] = {
    'sizecount': 'the count of sizes, which is 1 to 1,024',
    'size': 'a size, which is 1 to 20,000',
    'colourcount': 'the stated count of colours, which is 0 to 4,096',
    'orders': 'the count of orders, which is 0 to 1,024',
    'weight': 'a weight, which is 1 to 1,000,000',
    'colour': 'a colour, which is 1 to 4,096',
}


class Case(Enum):
    """What a page has to say."""

    OPTIMAL = 'optimal'
    VERIFIED = 'verified'
    FEASIBLE = 'feasible'
    NO_LOSS = 'no loss'
    INFEASIBLE = 'infeasible'
    LEGAL = 'legal'
    COMPARED = 'compared'
    HEAVY = 'heavy'
    COLOURFUL = 'colourful'
    LOSS = 'loss'
    OTHER = 'other'


class Mood(Enum):
    """How a verdict is shown: as settled, as open, or as a fault."""

    SETTLED = 'settled'
    OPEN = 'open'
    FAULT = 'fault'


# Mood, headline and text of each case, where `./mill_slab` built the program.
VERDICTS: dict[Case, tuple[Mood, str, str]] = {
    Case.OPTIMAL: (
        Mood.SETTLED, 'No legal plan loses less than {loss}.',
        'The program says optimal. That it says so only where it is true is a theorem about the '
        'program, proved before it was built.'),
    Case.VERIFIED: (
        Mood.SETTLED, 'No legal plan loses less than {loss}.',
        'The proof, {records}, was read by the separate checker and accepted. That the checker '
        'accepts only where it is true is a theorem about the program, proved before it was '
        'built.'),
    Case.FEASIBLE: (
        Mood.OPEN, 'A legal plan that loses {loss}; a better one may exist.',
        'The budget of {spent} was spent. That the plan is legal and loses exactly this is a '
        'theorem about the program; that no plan is better isn\'t claimed.'),
    Case.NO_LOSS: (
        Mood.SETTLED, 'The plan loses nothing, so none is better.',
        'That it is legal and loses exactly nothing is a theorem about the program, proved before '
        'it was built.'),
    Case.INFEASIBLE: (
        Mood.FAULT, '{first} weighs {weight}, more than the largest size {top}.',
        'So there is no legal plan. Heavier than the largest size: {all}.'),
    Case.LEGAL: (
        Mood.OPEN, 'The plan is legal. It loses {loss}.',
        'This was judged by check. It says nothing of other plans: a better one may exist.'),
    Case.COMPARED: (
        Mood.OPEN, '{better}',
        '{losses} Both plans were judged legal by check. It says nothing of other plans: a better '
        'one may exist.'),
    Case.HEAVY: (
        Mood.FAULT, 'Slab {slab} weighs {weight}, more than {top}.',
        'So the plan isn\'t legal{where}. Its orders: {rows}.'),
    Case.COLOURFUL: (
        Mood.FAULT, 'Slab {slab} has {colours} colours; at most {limit} may share a slab.',
        'So the plan isn\'t legal. Its orders: {rows}.'),
    Case.LOSS: (
        Mood.FAULT, 'You state a loss of {stated}; the plan loses {loss}.',
        'The plan is legal; only the stated loss is wrong.'),
    Case.OTHER: (Mood.FAULT, '{sentence}', 'The program\'s line: {line}'),
}

# The same where another program spoke: it is named, and nothing is claimed for it.
OF_OTHERS: dict[Case, tuple[str, str]] = {
    Case.OPTIMAL: ('{program} says that no legal plan loses less than {loss}.', ''),
    Case.VERIFIED: ('{program} says that no legal plan loses less than {loss}.',
                    'It says too that its checker read the proof, {records}, and accepted it.'),
    Case.FEASIBLE: ('A plan that loses {loss}; a better one may exist.',
                    '{program} says that its budget of {spent} was spent.'),
    Case.NO_LOSS: ('The plan loses nothing, so none is better.', ''),
    Case.LEGAL: ('{program} says that the plan is legal and loses {loss}.', ''),
    Case.COMPARED: ('{better}', '{losses} {program} says that both plans are legal.'),
}
NO_CLAIM = 'That program wasn\'t built by ./mill_slab, so nothing is claimed for it.'
COUNTED = 'The desk has counted loads, colours and loss anew{source}.'
COMPARED = 'The desk has compared each weight with the largest size itself.'
IN_ROUNDED = 'In the rounded numbers: '
# Where a slab is too heavy in the rounded numbers: what the desk counts in the table's own.
HEAVY_IN_ROUNDED = (' in the rounded numbers (weights up, sizes down, in steps of {step}); in the '
                    'table\'s own numbers {counted}')
ROUNDED = ('Weights were rounded up and sizes down to steps of {step}. Every claim but the plan\''
           's legality is about the rounded numbers; in the true ones the plan loses {true}.')


@dataclass(frozen=True)
class Verdict:
    """What a page or the terminal says first."""

    case: Case
    mood: Mood
    headline: str
    text: str


@dataclass(frozen=True)
class Speaker:
    """Another program than the one that `./mill_slab` built; nothing is claimed for it.

    `source` is what the desk counted its plan from, such as ` from the table`.
    """

    name: str
    source: str = ''


def verdict(case: Case, speaker: Speaker | None = None, rounded: bool = False,
            **values: str) -> Verdict:
    """The words of a case; `speaker` is None for the program that `./mill_slab` built.

    Where weights were rounded the headline is about the rounded numbers.
    """
    mood, headline, text = VERDICTS[case]
    values['program'] = speaker.name if speaker else ''
    if speaker is not None:
        counted = COMPARED if case is Case.INFEASIBLE else COUNTED.format(source=speaker.source)
        said = '' if case in OF_OTHERS else '{program} said so. '
        headline, text = OF_OTHERS.get(case, (headline, text))
        text = f'{text} {said}{NO_CLAIM} {counted}'.strip()
    if rounded:
        headline = IN_ROUNDED + headline[0].lower() + headline[1:]
    return Verdict(case, mood, headline.format(**values), text.format(**values))


@dataclass(frozen=True)
class Said:
    """A line in its form of the table, with its numbers by their names in the form."""

    form: str
    values: dict[str, str]

    def number(self, name: str) -> int:
        """A number of the line."""
        return int(self.values[name])

    @property
    def sentence(self) -> str:
        """The line as a sentence."""
        shown = {name: f'{int(value):,}' if value.isdigit() else value
                 for name, value in self.values.items()}
        if 'NAME' in shown:
            shown['NAME'] = FIELDS.get(shown['NAME'], shown['NAME'])
        return LINES[self.form].format(**shown)


@cache
def pattern_of(form: str) -> re.Pattern[str]:
    """The lines of a form: a capital is a number, and a list is as many numbers as there are."""
    head, path, _ = form.partition(' k g1')
    if path:
        return re.compile(words_of(head) + r' (?P<k>\d+(?: -?\d+)*)', re.ASCII)
    head, plan, _ = form.partition(' s1')
    return re.compile(words_of(head) + (r'(?P<s>(?: \d+)*)' if plan else ''), re.ASCII)


def words_of(text: str) -> str:
    """The pattern of the words of a form without a list; the first word stands for itself."""
    first, *others = text.split(' ')
    parts = [re.escape(first)]
    for word in others:
        if word == 'NAME':
            parts.append(r'(?P<NAME>[a-z]+)')
        elif len(word) == 1 and word.isupper():
            parts.append(rf'(?P<{word}>\d{{1,20}})')
        else:
            parts.append(re.escape(word))
    return ' '.join(parts)


def read_line(line: str) -> Said | None:
    """What a line says; None where it is in no form of the table, and is shown as it is."""
    for form in LINES:
        found = pattern_of(form).fullmatch(line)
        if found:
            return Said(form, values_of(found))
    return None


def values_of(found: re.Match[str]) -> dict[str, str]:
    """The numbers of a line by name; a plan's are told by their counts, a path by its groups."""
    values = {name: value for name, value in found.groupdict().items() if value is not None}
    if 's' in values:
        slabs = values['s'].split()
        values.update(n=str(len(slabs)), s=str(len(set(slabs))))
    if 'k' in values:
        length, *groups = values['k'].split()
        values['k'] = ' '.join(groups[:int(length)]) or '(empty)'
    return values


def status_sentence(status: int) -> str:
    """What a status says; a signal ends a program with a status below 0."""
    if status < 0:
        return f'The program was ended by signal {-status}' + (
            ' (the machine may have too little memory).' if status == -9 else '.')
    return STATUSES.get(status, f'The program ended with status {status}.')


def line_sentence(line: str) -> str:
    """A line as a sentence, or as it is where it isn't in the table."""
    said = read_line(line)
    return said.sentence if said else f'The program says: {line}'
