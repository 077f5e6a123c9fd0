"""What the tests share: cases in tables, needs, places, and runs of the desk."""

import contextlib
import importlib.util
import io
import os
import shutil
import subprocess
import sys
import tempfile
import unittest
from collections.abc import Callable, Iterator, Mapping
from dataclasses import dataclass
from pathlib import Path
from typing import Any

from mill_desk.cli import main

TESTS = Path(__file__).resolve().parent
DESK = TESTS.parent
TOP = DESK.parent
EXAMPLES = DESK / 'examples'
STAND_IN = TESTS / 'stand_in.py'
BUILT = TOP / 'crates' / 'mill_slab' / 'out' / 'mill_slab'
SIZES = '12; 14.5; 17; 19.5; 22; 25; 28; 32; 36.5'

# What a test may need: the Debian package, and how to see that it is there.
PACKAGES: dict[str, tuple[str, Callable[[], bool]]] = {
    'openpyxl': ('python3-openpyxl', lambda: bool(importlib.util.find_spec('openpyxl'))),
    'jinja2': ('python3-jinja2', lambda: bool(importlib.util.find_spec('jinja2'))),
    'hypothesis': ('python3-hypothesis', lambda: bool(importlib.util.find_spec('hypothesis'))),
    'selenium': ('python3-selenium', lambda: bool(importlib.util.find_spec('selenium'))),
    'chromium': ('chromium', lambda: Path('/usr/bin/chromium').exists()),
    'chromedriver': ('chromium-driver', lambda: Path('/usr/bin/chromedriver').exists()),
    'soffice': ('libreoffice-calc-nogui', lambda: shutil.which('soffice') is not None),
    'program': ('the program of ./mill_slab, which isn\'t built',
                lambda: real_program() is not None),
    'terminal': ('a terminal of the system (/dev/pts)', lambda: can_open_terminal()),
}


def can_open_terminal() -> bool:
    """Whether a terminal can be opened here."""
    try:
        for end in os.openpty():
            os.close(end)
    except OSError:
        return False
    return True


def real_program() -> Path | None:
    """The program to test with: MILL_SLAB_PROGRAM, or the one that is built."""
    asked = os.environ.get('MILL_SLAB_PROGRAM')
    path = Path(asked) if asked else BUILT
    return path if os.access(path, os.X_OK) and path.is_file() else None


def program() -> Path:
    """The real program where there is one, else the stand-in."""
    return real_program() or STAND_IN


def needs(*names: str) -> Callable[[Any], Any]:
    """Leaves out a test, or a class of tests, where something that it needs is missing."""
    missing = [PACKAGES[name][0] for name in names if not PACKAGES[name][1]()]
    return unittest.skipIf(bool(missing), f'missing: {", ".join(missing)}')


def each(rows: Mapping[str, Any]) -> Callable[[Callable[..., None]], Callable[..., None]]:
    """Marks a test that is made once for each row of a table."""
    def mark(method: Callable[..., None]) -> Callable[..., None]:
        method.rows = rows  # type: ignore[attr-defined]
        return method
    return mark


def spread(tests: type) -> type:
    """Makes a test of each row of the marked tests of a class."""
    for name, method in list(vars(tests).items()):
        rows = getattr(method, 'rows', None)
        if rows is None:
            continue
        delattr(tests, name)
        for number, (key, row) in enumerate(rows.items(), 1):
            slug = ''.join(sign if sign.isalnum() else '_' for sign in key)

            def made(self: unittest.TestCase, row: Any = row,
                     method: Callable[..., None] = method) -> None:
                method(self, row)

            made.__name__, made.__doc__ = f'{name}_{number:02}_{slug[:60]}', key[:60]
            made.__dict__.update({key: value for key, value in vars(method).items()
                                  if key.startswith('__unittest')})
            setattr(tests, made.__name__, made)
    return tests


@dataclass(frozen=True)
class Outcome:
    """What a run of the desk gave."""

    status: int
    text: str
    err: str

    @property
    def out(self) -> str:
        """The output without its line breaks."""
        return ' '.join(self.text.split())


def desk(*words: object, program_path: Path | None = None) -> Outcome:
    """Runs the desk in this process, with the stand-in where no program is named."""
    arguments = [str(word) for word in words]
    arguments += ['--program', str(program_path or STAND_IN)]
    out, err = io.StringIO(), io.StringIO()
    with contextlib.redirect_stdout(out), contextlib.redirect_stderr(err):
        try:
            status = main(arguments)
        except SystemExit as ended:
            status = int(ended.code or 0)
    return Outcome(int(status), out.getvalue(), err.getvalue())


def launched(*words: object, **more: Any) -> 'subprocess.CompletedProcess[str]':
    """Runs the launcher, as a person does."""
    return subprocess.run([str(DESK / 'desk'), *map(str, words)], capture_output=True, text=True,
                          check=False, **more)


class InFolder(unittest.TestCase):
    """Tests that work in a folder of their own."""

    def setUp(self) -> None:
        self.folder = Path(tempfile.mkdtemp(prefix='desk-test-'))
        self.addCleanup(shutil.rmtree, self.folder, ignore_errors=True)

    def write(self, name: str, content: str | bytes) -> Path:
        """Writes a file into the folder."""
        path = self.folder / name
        path.write_bytes(content if isinstance(content, bytes) else content.encode())
        return path

    def held(self, name: str) -> dict[str, bytes]:
        """The files of a folder inside, by their names."""
        return {path.name: path.read_bytes() for path in (self.folder / name).iterdir()
                if path.is_file()}

    def script(self, name: str, body: str) -> Path:
        """Writes a program into the folder, in Python."""
        path = self.write(name, f'#!{sys.executable}\n{body}')
        path.chmod(0o755)
        return path


@contextlib.contextmanager
def working_in(folder: Path) -> Iterator[None]:
    """Works in another folder for a while."""
    before = Path.cwd()
    os.chdir(folder)
    try:
        yield
    finally:
        os.chdir(before)
