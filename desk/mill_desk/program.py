"""Finds and runs the program. No child outlives the desk, and the desk starts no proof.

The program takes an instance (and an answer behind it) on standard input and answers with lines
and a status. `--program FILE` names another program; what it says is then only what it says.
"""

import ctypes
import hashlib
import os
import signal
import subprocess
import sys
import tempfile
import time
from dataclasses import dataclass
from pathlib import Path
from typing import BinaryIO

from mill_desk.trouble import Exit, Trouble, WordsTrouble

TOP = Path(__file__).resolve().parents[2]
PARENT_DEATH_SIGNAL = 1
SOURCE_NAMES = ('crates.txt', 'HANDLES')
SOURCE_ENDS = ('.rt', '.antt')
# What the desk would call and the program doesn't serve yet, with what it would be used for.
NOT_SERVED = {
    'pause and resume': 'a run that goes on where it stopped',
    'bound': 'how much less any plan can lose',
}


@dataclass(frozen=True)
class Run:
    """What one run of the program gave. `seconds` is for people alone."""

    words: tuple[str, ...]
    status: int
    output: str
    seconds: float
    files: tuple[str, str] = ('', '')

    @property
    def line(self) -> str:
        """The output of a run that writes one line."""
        return self.output.removesuffix('\n')


class RunStopped(Exception):
    """A run was stopped before its end, by Ctrl-C or because its time was up."""

    def __init__(self, by_user: bool) -> None:
        super().__init__('stopped')
        self.by_user = by_user


@dataclass(frozen=True)
class Program:
    """A program that serves the words of `mill_slab`.

    `is_ours` says that `./mill_slab` of this repository proved and built it.
    """

    command: Path
    binary: Path
    is_ours: bool

    @property
    def name(self) -> str:
        """The program as a person starts it."""
        return './mill_slab' if self.is_ours else str(self.command)

    def sha256(self) -> str:
        """The digest of the program's file."""
        return hashlib.sha256(self.binary.read_bytes()).hexdigest()

    def run(self, words: list[str], data: bytes, seconds: float | None = None) -> Run:
        """Runs the program on the bytes; stops it when the seconds are over."""
        with tempfile.TemporaryDirectory(prefix='desk-') as folder:
            given, taken = Path(folder, 'input.txt'), Path(folder, 'output.txt')
            given.write_bytes(data)
            begin = time.monotonic()
            with given.open('rb') as source, taken.open('wb') as sink:
                child = start(self.command, words, source, sink)
                try:
                    status = wait(child, words[0], begin, seconds)
                finally:
                    end(child)
            passed = time.monotonic() - begin
            output = taken.read_bytes().decode('ascii', 'backslashreplace')
            return Run(tuple(words), status, output, passed, (str(given), str(taken)))

    def serves(self, words: list[str]) -> bool:
        """Whether the program knows the words: with others it reads nothing and says 2."""
        return self.run(words, b'').status != 2


def start(command: Path, words: list[str], source: BinaryIO,
          sink: BinaryIO) -> 'subprocess.Popen[bytes]':
    """Starts the program; the system ends it where the desk is ended in whatever way."""
    libc = ctypes.CDLL(None, use_errno=True)
    prctl = getattr(libc, 'prctl', None)

    def die_with_the_desk() -> None:
        """Asks the system to end the program with the desk."""
        if prctl is not None:
            prctl(PARENT_DEATH_SIGNAL, signal.SIGKILL)

    try:
        return subprocess.Popen([str(command), *words], stdin=source, stdout=sink,
                                preexec_fn=die_with_the_desk)
    except OSError as error:
        raise Trouble(Exit.NOT_BUILT, f'{command} can\'t be run: {error.strerror}') from None


def wait(child: 'subprocess.Popen[bytes]', word: str, begin: float, most: float | None) -> int:
    """Waits for the child, with the seconds that pass shown on a terminal alone."""
    shown = False
    try:
        while True:
            passed = time.monotonic() - begin
            if most is not None and passed >= most:
                raise RunStopped(by_user=False)
            try:
                return child.wait(timeout=pause_for(passed, most))
            except subprocess.TimeoutExpired:
                shown = show_seconds(word, time.monotonic() - begin)
    except KeyboardInterrupt:
        raise RunStopped(by_user=True) from None
    finally:
        if shown:
            print('\r' + ' ' * 60 + '\r', end='', file=sys.stderr, flush=True)


def pause_for(passed: float, most: float | None) -> float:
    """How long to wait until the next look."""
    step = 0.05 if passed < 1 else 0.25
    return step if most is None else max(0.001, min(step, most - passed))


def show_seconds(word: str, passed: float) -> bool:
    """Shows the seconds; says whether it did."""
    if not sys.stderr.isatty() or passed < 0.5:
        return False
    print(f'\r{word}: {passed:5.1f} s (Ctrl-C stops it) ', end='', file=sys.stderr, flush=True)
    return True


def end(child: 'subprocess.Popen[bytes]') -> None:
    """Ends the child where it still runs."""
    if child.poll() is None:
        child.kill()
        child.wait()


def find_program(asked: str | None, top: Path = TOP) -> Program:
    """The program that is asked for, or the one that `./mill_slab` built."""
    if asked is not None:
        path = Path(asked)
        if not path.is_file() or not os.access(path, os.X_OK):
            raise WordsTrouble(f'--program {asked}: there is no program')
        return Program(path.resolve(), path.resolve(), is_ours=False)
    wrapper, binary = top / 'mill_slab', top / 'crates' / 'mill_slab' / 'out' / 'mill_slab'
    if not wrapper.is_file():
        raise Trouble(Exit.NO_PROGRAM, f'{wrapper} is missing; name a program by --program FILE')
    why = needs_building(top, binary)
    if why:
        raise Trouble(Exit.NOT_BUILT, not_built(wrapper, why))
    return Program(wrapper, binary, is_ours=True)


def not_built(wrapper: Path, why: str) -> str:
    """What to do where the program isn't built."""
    return (f'The program {why}. The desk starts no proof by itself: run\n  {wrapper} solve '
            f'< {wrapper.parent}/examples/three-orders.txt\nonce. It proves and builds the '
            'program (some 15 to 30 minutes, all processors; it needs the kit). Or name a program '
            'by --program FILE.')


def needs_building(top: Path, binary: Path) -> str | None:
    """Why `./mill_slab` would prove and build first; None where it surely would not.

    Where that script left a list of checksums beside the program, the sources must have these; else
    no source may be newer than the program.
    """
    if not os.access(binary, os.X_OK):
        return 'isn\'t built yet'
    listed = binary.with_name(binary.name + '.sources')
    if listed.exists():
        return changed_source(top, listed.read_text().splitlines())
    built = binary.stat().st_mtime_ns
    for source in sources(top):
        if source.stat().st_mtime_ns > built:
            return f'is older than {source.relative_to(top)}'
    return None


def changed_source(top: Path, listed: list[str]) -> str | None:
    """The first source that isn't as in a list of lines of `cksum`, in words."""
    names = [str(source.relative_to(top)) for source in sources(top)]
    now = subprocess.run(['cksum', *names], cwd=top, capture_output=True, text=True, check=False)
    changed = set(listed).symmetric_difference(now.stdout.splitlines())
    if not changed:
        return None
    name = min(line.split(' ', 2)[-1] for line in changed)
    return f'was built before {name} was changed'


def sources(top: Path) -> list[Path]:
    """The files that `./mill_slab` counts as what the program is built from."""
    found = [top / name for name in SOURCE_NAMES if (top / name).exists()]
    for folder, inside, files in os.walk(top / 'crates'):
        inside[:] = [name for name in inside if name != 'out']
        found += [Path(folder) / name for name in files
                  if name in SOURCE_NAMES or name.endswith(SOURCE_ENDS)]
    return found


def hashed(text: str | bytes) -> str:
    """The SHA-256 of a text."""
    data = text if isinstance(text, bytes) else text.encode()
    return hashlib.sha256(data).hexdigest()


def stop_on_signals() -> None:
    """Lets the signals that end the desk clear up first, as Ctrl-C does."""
    def stop(number: int, _frame: object) -> None:
        """Ends as Ctrl-C does."""
        raise KeyboardInterrupt(number)

    for number in (signal.SIGTERM, signal.SIGHUP):
        signal.signal(number, stop)
