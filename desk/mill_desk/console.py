"""What the desk says on a terminal: plain lines, wrapped, in any encoding."""

import sys
import textwrap
import unicodedata
from typing import TextIO

from mill_desk.numbers import NARROW_SPACE

WIDTH = 100


def plain(text: str) -> str:
    """The text with ordinary spaces in its numbers, and with control characters in words."""
    text = text.replace(NARROW_SPACE, ' ')
    return ''.join(sign if sign == '\n' or unicodedata.category(sign) != 'Cc'
                   else sign.encode('unicode_escape').decode() for sign in text)


def wrapped(text: str) -> str:
    """The text in lines of at most a hundred characters; its own line ends are kept."""
    lines = []
    for line in text.split('\n'):
        indent = line[:len(line) - len(line.lstrip())]
        lines += textwrap.wrap(line, WIDTH, subsequent_indent=indent, break_long_words=False,
                               break_on_hyphens=False) or ['']
    return '\n'.join(lines)


def say(text: str, stream: TextIO | None = None) -> None:
    """Writes a text for a person."""
    print(wrapped(plain(text)), file=stream or sys.stdout, flush=True)


def complain(text: str) -> None:
    """Writes what went wrong. Long lines stay whole, so that a cell is found by searching."""
    print(plain(text), file=sys.stderr, flush=True)


def soften_streams() -> None:
    """Lets a terminal that has not every letter show the rest."""
    for stream in (sys.stdout, sys.stderr):
        if hasattr(stream, 'reconfigure'):
            stream.reconfigure(errors='replace')
