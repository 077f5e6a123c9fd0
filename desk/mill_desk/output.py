"""Writes the files of a run as one: all of them, or none.

They are made in a folder beside the one that is asked for, and renamed when all are right. Each
command has names of its own, and touches no other name. A folder that holds any other file, or one
of the files that the command reads, is refused before the program runs.
"""

import os
import shutil
import signal
import tempfile
from collections.abc import Iterator, Sequence
from contextlib import contextmanager
from dataclasses import dataclass
from pathlib import Path

from mill_desk.trouble import WordsTrouble

ENDING = {signal.SIGINT, signal.SIGTERM, signal.SIGHUP}


@dataclass(frozen=True)
class Folder:
    """The folder that is asked for, and the names that the command may write and remove there."""

    target: Path
    names: frozenset[str]


class Output:
    """The files of a run while they are made."""

    def __init__(self, folder: Folder, made: Path) -> None:
        self.folder = folder
        self.made = made

    def path(self, name: str) -> Path:
        """Where to write a file; the name is one of the command's own."""
        if name not in self.folder.names:
            raise ValueError(f'{name} is no file of this command')
        return self.made / name

    def publish(self) -> list[Path]:
        """Puts the files in their place, and takes away those of an earlier run of the command."""
        target = self.folder.target
        names = sorted(entry.name for entry in self.made.iterdir())
        held = signal.pthread_sigmask(signal.SIG_BLOCK, ENDING)
        try:
            target.mkdir(parents=True, exist_ok=True)
            for name in names:
                os.replace(self.made / name, target / name)
            for name in self.folder.names.difference(names):
                (target / name).unlink(missing_ok=True)
        finally:
            signal.pthread_sigmask(signal.SIG_SETMASK, held)
        return [target / name for name in names]


def choose_folder(target: Path, names: frozenset[str], inputs: Sequence[Path]) -> Folder:
    """The folder of a command that reads these inputs; refuses one that holds others' files."""
    if target.exists():
        refuse_inputs(target, inputs)
        refuse_others(target, names)
    return Folder(target, names)


@contextmanager
def output_folder(folder: Folder) -> Iterator[Output]:
    """A place to make the files in; nothing of it is left behind."""
    target = folder.target
    if target.exists():
        refuse_others(target, folder.names)
    near = target.absolute().parent
    try:
        near.mkdir(parents=True, exist_ok=True)
        made = Path(tempfile.mkdtemp(prefix=f'.{target.name}.', dir=near))
    except OSError as error:
        raise WordsTrouble(f'--out {target}: {error.strerror}') from None
    try:
        yield Output(folder, made)
    finally:
        shutil.rmtree(made, ignore_errors=True)


def refuse_inputs(target: Path, inputs: Sequence[Path]) -> None:
    """Refuses a folder that holds an input, by its name or as what a link leads to."""
    place = target.resolve()
    for path in inputs:
        if place in (path.absolute().parent.resolve(), path.resolve().parent):
            raise WordsTrouble(f'--out {target}: the folder holds {path.name}, which this command '
                               'reads; name another --out')


def refuse_others(target: Path, names: frozenset[str]) -> None:
    """Refuses a folder that holds files that aren't of this command."""
    if not target.is_dir():
        raise WordsTrouble(f'--out {target}: there is a file of that name')
    others = sorted(entry.name for entry in target.iterdir() if entry.name not in names)
    if others:
        raise WordsTrouble(f'--out {target}: the folder holds other files ({others[0]}'
                           + (', ..' if len(others) > 1 else '') + '); name another --out')
