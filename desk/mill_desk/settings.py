"""Options, alike on the command line and in `desk.toml` beside the orders.

An option wins over the file, the file over the sheet, the sheet over the default; the source of
each value is kept, since the page tells it.
"""

import re
import tomllib
from argparse import Namespace
from collections.abc import Callable
from dataclasses import dataclass, field, fields
from decimal import Decimal
from fractions import Fraction
from pathlib import Path
from typing import Any

from mill_desk.numbers import Mark, read_number, show_plain
from mill_desk.trouble import Exit, Trouble, WordsTrouble

FILE_NAME = 'desk.toml'
# A whole number, plain or in groups of three with one mark between them.
WHOLE = re.compile(r'[0-9]+|[1-9][0-9]{0,2}([ ,_\u202f])[0-9]{3}(?:\1[0-9]{3})*')


class WrongValue(ValueError):
    """A value is out of its range; the text says what it may be."""


@dataclass
class Settings:
    """The values of the options. Weights, sizes and the step are in the unit of the table."""

    sizes: str | None = None
    colours_per_slab: int = 2
    nodes: int | None = None
    minutes: Fraction | None = None
    workers: int | None = None
    moves: int | None = None
    id: str | None = None
    weight: str | None = None
    colour: str | None = None
    slab: str | None = None
    sheet: str | None = None
    unit: str | None = None
    decimal: Mark | None = None
    step: Fraction | None = None
    round_up: bool = False
    title: str | None = None
    out: Path | None = None
    sources: dict[str, str] = field(default_factory=dict)

    def source(self, name: str) -> str:
        """Where the value comes from, in words."""
        return self.sources.get(name, 'the default')


def whole(least: int, most: int) -> Callable[[str], int]:
    """Reads a whole number within a range."""
    def read(text: str) -> int:
        """The number."""
        digits = re.sub(r'[ ,_\u202f]', '', text)
        if (not WHOLE.fullmatch(text.strip()) or len(digits) > 12
                or not least <= int(digits) <= most):
            raise WrongValue(f'must be a whole number from {least} to {most:,}')
        return int(digits)
    return read


def positive(text: str) -> Fraction:
    """Reads a decimal above 0."""
    values = [read_number(text, mark) for mark in Mark]
    found = [value for value in values if value is not None and value > 0]
    if not found or len(set(found)) > 1:
        raise WrongValue('must be a number above 0, such as 0.5')
    return found[0]


def mark_of(text: str) -> Mark:
    """Reads `point` or `comma`."""
    try:
        return Mark(text)
    except ValueError:
        raise WrongValue('must be point or comma') from None


def yes(text: str) -> bool:
    """Reads `true` or `false`."""
    if text not in ('true', 'false'):
        raise WrongValue('must be true or false')
    return text == 'true'


def some_text(text: str) -> str:
    """Reads a text that holds something."""
    if not text.strip():
        raise WrongValue('must hold something')
    return text.strip()


READERS: dict[str, Callable[[str], Any]] = {
    'sizes': some_text, 'colours_per_slab': whole(1, 8), 'nodes': whole(0, 1_000_000_000),
    'minutes': positive, 'workers': whole(1, 64), 'moves': whole(0, 1_000_000),
    'id': some_text, 'weight': some_text, 'colour': some_text, 'slab': some_text,
    'sheet': some_text, 'unit': some_text, 'decimal': mark_of, 'step': positive,
    'round_up': yes, 'title': some_text, 'out': Path,
}


def option_of(name: str) -> str:
    """The word of an option."""
    return '--' + name.replace('_', '-')


def take(settings: Settings, name: str, text: str, place: str, source: str) -> None:
    """Sets one value from its text."""
    try:
        setattr(settings, name, READERS[name](text))
    except WrongValue as wrong:
        raise Trouble(Exit.TABLE if source == FILE_NAME else Exit.WORDS,
                      f'{place}: "{text}" {wrong}') from None
    settings.sources[name] = source


def toml_text(value: Any) -> str:
    """A value of desk.toml as the text that the command line would have."""
    if isinstance(value, bool):
        return str(value).lower()
    if isinstance(value, Decimal):
        return format(value, 'f')
    if isinstance(value, list):
        return '; '.join(toml_text(entry) for entry in value)
    return str(value)


def read_file(settings: Settings, path: Path) -> None:
    """Takes the values of a desk.toml, where there is one."""
    if not path.exists():
        return
    try:
        with path.open('rb') as stream:
            content = tomllib.load(stream, parse_float=Decimal)
    except (OSError, ValueError) as error:
        raise Trouble(Exit.TABLE, f'{path} can\'t be read: {error}') from None
    for key, value in content.items():
        name = key.replace('-', '_')
        if name not in READERS or isinstance(value, dict):
            known = ', '.join(known.replace('_', '-') for known in READERS)
            raise Trouble(Exit.TABLE, f'{path}: "{key}" is no setting; the settings are: {known}')
        take(settings, name, toml_text(value), f'{path}, {key}', FILE_NAME)
    if 'out' in settings.sources and settings.out and not settings.out.is_absolute():
        settings.out = path.parent / settings.out


def read_settings(words: Namespace, beside: Path | None) -> Settings:
    """The settings of a command: the options, over those of a desk.toml beside the orders."""
    settings = Settings()
    if beside is not None:
        read_file(settings, beside.parent / FILE_NAME)
    given = {entry.name: getattr(words, entry.name, None) for entry in fields(Settings)}
    for name, value in given.items():
        if name in READERS and value is not None and value is not False:
            text = 'true' if value is True else str(value)
            take(settings, name, text, option_of(name), option_of(name))
    if 'nodes' in settings.sources and 'minutes' in settings.sources:
        settle_budget(settings)
    if settings.round_up and settings.step is None:
        raise WordsTrouble('--round-up needs --step: which step are weights rounded up to?')
    return settings


def settle_budget(settings: Settings) -> None:
    """Keeps one of nodes and minutes: an option wins over the file; two options are wrong."""
    by_option = [name for name in ('nodes', 'minutes')
                 if settings.sources[name] != FILE_NAME]
    if len(by_option) != 1:
        raise WordsTrouble('--nodes and --minutes are two budgets: give one of them')
    other = 'minutes' if by_option == ['nodes'] else 'nodes'
    setattr(settings, other, None)
    del settings.sources[other]


def step_words(step: Fraction) -> str:
    """The option that asks for this step."""
    return f'--step {show_plain(step)}'
