"""Exact numbers: a text of a table read as a fraction, and a fraction written as a decimal.

No sum and no comparison of amounts is made with floats, nor of the lengths that stand for them in a
picture. A text such as `1.200` is 1.2 or 1200 according to the decimal mark, so the mark is decided
once for a whole column.
"""

import math
import re
from collections.abc import Iterable, Sequence
from enum import Enum
from fractions import Fraction

from mill_desk.trouble import Fault

NARROW_SPACE = '\u202f'
MOST_DIGITS = 100
_SPACES = " '\u2019\u00a0\u2009\u202f"


class Mark(Enum):
    """The decimal mark of a column."""

    POINT = 'point'
    COMMA = 'comma'

    @property
    def sign(self) -> str:
        """The character itself."""
        return '.' if self is Mark.POINT else ','

    @property
    def other(self) -> 'Mark':
        """The mark that then groups thousands."""
        return Mark.COMMA if self is Mark.POINT else Mark.POINT


def _pattern(mark: Mark) -> re.Pattern[str]:
    """The texts that are numbers under a mark: sign, whole part (grouped or not), tail."""
    sign, group = re.escape(mark.sign), re.escape(mark.other.sign)
    whole = rf'[1-9]\d{{0,2}}(?:{group}\d{{3}})+|[1-9]\d{{0,2}}(?:[{_SPACES}]\d{{3}})+|\d+'
    return re.compile(rf'([+-]?)(?:({whole})(?:{sign}(\d+))?|{sign}(\d+))', re.ASCII)


_PATTERNS = {mark: _pattern(mark) for mark in Mark}


def read_number(text: str, mark: Mark) -> Fraction | None:
    """The number that the text is under this decimal mark; None where it is none."""
    found = _PATTERNS[mark].fullmatch(text.strip())
    if not found or len(text) > MOST_DIGITS:
        return None
    sign, whole, tail, bare_tail = found.groups()
    digits = re.sub(r'\D', '', whole or '0')
    places = tail or bare_tail or ''
    value = Fraction(int(digits + places), 10 ** len(places))
    return -value if sign == '-' else value


def decide_mark(cells: Sequence[tuple[str, str]], what: str) -> Mark | Fault:
    """The decimal mark of a column of (text, place), or the fault that leaves it open.

    Cells that are no number under either mark have no say.
    """
    only: dict[Mark, tuple[str, str]] = {}
    doubtful: tuple[str, str] | None = None
    for text, place in cells:
        values = {mark: read_number(text, mark) for mark in Mark}
        for mark in Mark:
            if values[mark] is not None and values[mark.other] is None:
                only.setdefault(mark, (text, place))
        if None not in values.values() and values[Mark.POINT] != values[Mark.COMMA]:
            doubtful = doubtful or (text, place)
    if len(only) == 2:
        (comma, at), (point, there) = only[Mark.COMMA], only[Mark.POINT]
        return Fault(there, f'the {what} "{point}" has a decimal point and "{comma}" ({at}) a '
                     'decimal comma', 'write the whole column with one mark')
    if only:
        return next(iter(only))
    if doubtful:
        text, place = doubtful
        ways = ' or '.join(show_plain(read_number(text, mark) or Fraction(0)) for mark in Mark)
        return Fault(place, f'the {what} "{text}" may be {ways}',
                     'say which: --decimal point or --decimal comma')
    return Mark.POINT


_MONTHS = ('jan|feb|mar|mär|mrz|apr|may|mai|jun|jul|aug|sep|oct|okt|nov|dec|dez|'
           'janv|févr|fév|mars|avr|juin|juil|août|sept|déc')
_DATE = re.compile(rf'\d{{1,4}}[-/.]\d{{1,2}}[-/.](\d{{1,4}})?|\d{{1,2}}[-/]\d{{1,2}}'
                   rf'|\d{{1,2}}[-. ]*({_MONTHS})\w*[-. ]*\d*|({_MONTHS})\w*[-. ]+\d+',
                   re.IGNORECASE)
_UNIT = re.compile(rf'([+-]?[\d.,{_SPACES}]*\d)\s*([^\W\d_]+\.?|%|‰)|[€$£]\s*[\d.,]+')
_EXPONENT = re.compile(r'[+-]?[\d.,]+e[+-]?\d+', re.IGNORECASE)
_ERROR = re.compile(r'#[A-Z0-9/]+[!?]?')


def why_no_number(text: str, what: str) -> tuple[str, str]:
    """What is wrong with a text that is no number, and the mend."""
    if not text:
        return f'no {what} is given', ''
    if _ERROR.fullmatch(text):
        return f'the {what} is the error {text}', 'mend the formula in the spreadsheet'
    if _EXPONENT.fullmatch(text):
        return (f'the {what} "{text}" is written with an exponent',
                'format the column as a number with all its digits')
    if _DATE.fullmatch(text):
        return (f'the {what} "{text}" is a date',
                'a spreadsheet makes one of 3-4; format the column as a number and type it again')
    found = _UNIT.fullmatch(text)
    if found:
        return f'the {what} "{text}" has a unit in it', 'the unit belongs into the header'
    return f'the {what} "{text}" is no number', ''


def greatest_step(values: Iterable[Fraction]) -> Fraction:
    """The greatest number of which all values, each above 0, are whole multiples; 1 for none."""
    top, bottom = 0, 1
    for value in values:
        top = math.gcd(top * value.denominator, value.numerator * bottom)
        bottom *= value.denominator
        common = math.gcd(top, bottom)
        top, bottom = top // common, bottom // common
    return Fraction(top, bottom) if top else Fraction(1)


def decimal_places(value: Fraction) -> int | None:
    """How many decimals write the value exactly; None where no number of them does."""
    rest, twos, fives = value.denominator, 0, 0
    while rest % 2 == 0:
        rest, twos = rest // 2, twos + 1
    while rest % 5 == 0:
        rest, fives = rest // 5, fives + 1
    return max(twos, fives) if rest == 1 else None


def show_plain(value: Fraction | int, places: int | None = None) -> str:
    """The value written exactly, as a decimal without grouping, or as a fraction.

    With `places` it is padded with zeros to so many decimals.
    """
    value = Fraction(value)
    needed = decimal_places(value)
    if needed is None:
        return f'{value.numerator}/{value.denominator}'
    places = max(needed, places or 0)
    digits = str(abs(value.numerator) * 10 ** places // value.denominator).rjust(places + 1, '0')
    sign = '-' if value < 0 else ''
    return sign + (f'{digits[:-places]}.{digits[-places:]}' if places else digits)


def show(value: Fraction | int) -> str:
    """The value written exactly for people, with narrow spaces from five digits on."""
    whole, point, tail = show_plain(value).partition('.')
    sign, digits = ('-', whole[1:]) if whole.startswith('-') else ('', whole)
    if digits.isdigit() and len(digits) > 4:
        first = len(digits) % 3
        groups = [digits[:first]] if first else []
        groups += [digits[i:i + 3] for i in range(first, len(digits), 3)]
        digits = NARROW_SPACE.join(groups)
    return sign + digits + point + tail


def percent(part: Fraction, whole: Fraction) -> str:
    """The share of the part in percent: exact, or rounded to hundredths with a word."""
    share = 100 * part / whole if whole else Fraction(0)
    rounded = round(share, 2)
    if rounded == share:
        return f'{show(share)}%'
    return f'about {show_plain(rounded, 2)}%' if rounded else 'less than 0.01%'


def plural(count: int, one: str, many: str = '') -> str:
    """The count with its noun."""
    return f'{show(count)} {one if count == 1 else many or one + "s"}'
