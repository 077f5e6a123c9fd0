"""What goes wrong, told to a person: the place, what is wrong there, and what to do about it."""

from dataclasses import dataclass
from enum import IntEnum

MOST_TOLD = 12


class Exit(IntEnum):
    """The statuses that the desk adds to those of the program."""

    DONE = 0
    WORDS = 2
    TABLE = 3
    WRITING = 6
    REJECTED = 8
    DESK_FAULT = 70
    NOT_BUILT = 126
    NO_PROGRAM = 127
    STOPPED = 130


@dataclass(frozen=True)
class Fault:
    """One fault of a table: its place (a cell, a row, an option), what is wrong, and the mend."""

    place: str
    what: str
    mend: str = ''

    def __str__(self) -> str:
        told = f'{self.place}: {self.what}' if self.place else self.what
        return f'{told}; {self.mend}' if self.mend else told


class Trouble(Exception):
    """Ends a command with a message for a person and a status."""

    def __init__(self, status: int, message: str) -> None:
        super().__init__(message)
        self.status = int(status)


class WordsTrouble(Trouble):
    """The words given to the desk are wrong."""

    def __init__(self, message: str) -> None:
        super().__init__(Exit.WORDS, message)


class DeskFault(Trouble):
    """The desk and the program disagree: the desk has a fault, and nothing is left behind."""

    def __init__(self, message: str) -> None:
        super().__init__(Exit.DESK_FAULT, f'The desk has a fault, and wrote nothing: {message}')


class TableTrouble(Trouble):
    """A table is to be mended. All its faults are told at once, the first twelve in words."""

    def __init__(self, name: str, faults: list[Fault]) -> None:
        self.faults = tuple(faults)
        lines = [f'{name} is to be mended:']
        lines += [f'  {fault}' for fault in faults[:MOST_TOLD]]
        more = len(faults) - MOST_TOLD
        if more > 0:
            lines.append(f'  and {more} more')
        super().__init__(Exit.TABLE, '\n'.join(lines))
