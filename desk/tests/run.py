"""Runs the tests of the desk, and tells what was left out.

The last line is `N passed, N failed`. With `--all` a test that is left out counts as failed.
"""

import argparse
import os
import signal
import sys
import unittest
from collections import Counter
from pathlib import Path

HERE = Path(__file__).resolve().parent
sys.path.insert(0, str(HERE.parent))


class Tally(unittest.TextTestResult):
    """Counts what passed, failed and was left out."""

    def __init__(self, *more: object) -> None:
        super().__init__(*more)  # type: ignore[arg-type]
        self.passed = 0
        self.left_out: Counter[tuple[str, str]] = Counter()

    def addSuccess(self, test: unittest.TestCase) -> None:
        """A test passed."""
        super().addSuccess(test)
        self.passed += 1

    def addSkip(self, test: unittest.TestCase, reason: str) -> None:
        """A test was left out."""
        super().addSkip(test, reason)
        self.left_out[type(test).__module__.rpartition('.')[2], reason] += 1

    @property
    def failed(self) -> int:
        """How many tests failed, or could not be run."""
        return len(self.failures) + len(self.errors) + len(self.unexpectedSuccesses)


def main(arguments: list[str]) -> int:
    """Runs them; answers 1 where one failed."""
    parser = argparse.ArgumentParser(prog='desk/test', description=__doc__)
    parser.add_argument('--all', action='store_true', help='fail where a test is left out')
    parser.add_argument('--program', metavar='FILE', help='the program to test with')
    parser.add_argument('-v', '--verbose', action='store_true', help='name each test')
    parser.add_argument('names', nargs='*', help='test modules, such as test_numbers')
    words = parser.parse_args(arguments)
    # A shell starts what it runs in the background with SIGINT ignored, and the programs that the
    # tests interrupt would inherit that.
    signal.signal(signal.SIGINT, signal.default_int_handler)
    if words.program:
        os.environ['MILL_SLAB_PROGRAM'] = str(Path(words.program).resolve())
    loader = unittest.TestLoader()
    names = words.names or sorted(path.stem for path in HERE.glob('test_*.py'))
    suite = loader.loadTestsFromNames([f'tests.{name}' for name in names])
    runner = unittest.TextTestRunner(sys.stdout, verbosity=2 if words.verbose else 0,
                                     resultclass=Tally)
    result = runner.run(suite)
    assert isinstance(result, Tally)
    for (module, reason), count in sorted(result.left_out.items()):
        print(f'left out: {count} of {module} ({reason})')
    failed = result.failed + (sum(result.left_out.values()) if words.all else 0)
    print(f'{result.passed} passed, {failed} failed')
    return 1 if failed else 0


if __name__ == '__main__':
    sys.exit(main(sys.argv[1:]))
