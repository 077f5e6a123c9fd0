"""Running the program: what isn't built, what fails, budgets, and no child left behind."""

import os
import pty
import re
import signal
import subprocess
import sys
import time
from pathlib import Path
from unittest import mock

from mill_desk.program import find_program
from mill_desk.trouble import Exit, Trouble
from tests.support import DESK, STAND_IN, TOP, InFolder, desk, each, launched, needs, spread

SHEET = 'Order,Weight,Colour\nA,7,red\nB,8,blue\nC,5,red\n'
SLEEPER = '''import os, sys, time
open(os.path.join({folder!r}, 'pid'), 'w').write(str(os.getpid()))
time.sleep(60)
'''


def saying(text: str, status: int) -> str:
    """A program that reads all and says this."""
    return (f'import sys\nsys.stdin.buffer.read()\nsys.stdout.write({text!r})\n'
            f'sys.exit({status})\n')


FAILING: dict[str, tuple[str, int, int, str]] = {
    'reading failed': ('', 5, 5, 'Reading failed. It read '),
    'writing failed': ('', 6, 6, 'Writing failed: the disk may be full. It wrote '),
    'too little memory': ('', 7, 7, 'The machine has too little memory for this.'),
    'no words': ('', 9, 9, 'The system didn\'t give the program its words.'),
    'another status': ('what is this\n', 42, 42, 'The program ended with status 42. (mill_slab '
                       'solve, status 42)\nwhat is this'),
    'no answer though the status is 0': ('done\n', 0, 70, '\ndone'),
    'infeasible where no order is heavy': (
        'infeasible\norder 1\nend\n', 1, 70, 'it finds no order that is too heavy, and the program '
        'says infeasible'),
    'control characters': ('\x1b[2Jboo\n', 42, 42, '\\x1b[2Jboo'),
    'an answer for other orders': ('optimal\nloss 0\nplan 1\nend\n', 0, 70, 'plan 1'),
    'the instance is refused': ('refused instance byte 0\n', 3, 70, 'The desk has a fault, and '
                                'wrote nothing: the program refused the instance that it wrote. '
                                'Byte 0 of the instance, counted from 0, is no digit.'),
    'a plan that isn\'t legal': ('optimal\nloss 0\nplan 1 1 1\nend\n', 0, 70, 'its own count of '
                                 'the plan differs from the program\'s: it finds 1 slab not '
                                 'legal'),
    'another loss': ('optimal\nloss 3\nplan 1 2 1\nend\n', 0, 70, 'its own count of the plan '
                     'differs from the program\'s: it finds 0 slabs not legal and a loss of 4 '
                     'steps, the program says 3'),
}


@spread
class Failing(InFolder):
    """A program that fails, or that lies: the desk says so, and nothing is left behind."""

    @each(FAILING)
    def test_failing(self, row: tuple[str, int, int, str]) -> None:
        text, ends, status, message = row
        path = self.write('orders.csv', SHEET)
        other = self.script('other', saying(text, ends))
        outcome = desk('plan', path, '--sizes', '13; 12', '--out', self.folder / 'plan',
                       program_path=other)
        self.assertIn(message, outcome.err)
        self.assertEqual(outcome.status, status)
        self.assertEqual(sorted(entry.name for entry in self.folder.iterdir()),
                         ['orders.csv', 'other'])

    def test_a_check_that_differs_leaves_nothing(self) -> None:
        path = self.write('orders.csv', SHEET)
        other = self.script('other', f'''import subprocess, sys
if sys.argv[1] == 'check':
    print('legal loss 6')
else:
    sys.exit(subprocess.run([{str(STAND_IN)!r}] + sys.argv[1:]).returncode)
''')
        outcome = desk('plan', path, '--sizes', '13; 12', '--out', self.folder / 'plan',
                       program_path=other)
        self.assertEqual(outcome.status, 70)
        self.assertIn('plan.csv was read back, and check said: legal loss 6', outcome.err)
        self.assertFalse((self.folder / 'plan').exists())

    def test_a_proof_that_is_rejected_ends_with_status_8(self) -> None:
        path = self.write('orders.csv', SHEET)
        other = self.script('other', f'''import subprocess, sys
if sys.argv[1] == 'verify':
    print('rejected missing 1 1'); sys.exit(8)
sys.exit(subprocess.run([{str(STAND_IN)!r}] + sys.argv[1:]).returncode)
''')
        outcome = desk('plan', path, '--sizes', '13; 12', '--prove', program_path=other)
        self.assertEqual(outcome.status, 8)
        self.assertIn('verify rejected what prove gave; nothing was written. The log has no '
                      'record of the path 1', outcome.err)

    def test_words_that_are_not_served_are_named(self) -> None:
        path = self.write('orders.csv', SHEET)
        outcome = desk('plan', path, '--sizes', '13', '--workers', '2', '--nodes', '5')
        self.assertEqual(outcome.status, 2)
        self.assertIn('doesn\'t serve --workers 2 yet; leave it out.', outcome.err)


@spread
class Finding(InFolder):
    """Which program is run, and that the desk starts no proof."""

    def repository(self) -> Path:
        """A folder that looks like the repository."""
        for name in ('crates/mill_slab/src/main.rt', 'crates.txt', 'HANDLES'):
            path = self.folder / name
            path.parent.mkdir(parents=True, exist_ok=True)
            path.write_text('x')
            os.utime(path, (1000, 1000))
        wrapper = self.script('mill_slab', 'raise SystemExit("a proof was started")\n')
        os.utime(wrapper, (1000, 1000))
        return self.folder

    def build(self, when: int) -> Path:
        """A built program of that time."""
        binary = self.folder / 'crates' / 'mill_slab' / 'out' / 'mill_slab'
        binary.parent.mkdir(parents=True, exist_ok=True)
        binary.write_text('#!/bin/sh\n')
        binary.chmod(0o755)
        os.utime(binary, (when, when))
        return binary

    def test_a_program_that_is_not_built(self) -> None:
        with self.assertRaises(Trouble) as caught:
            find_program(None, self.repository())
        self.assertEqual(caught.exception.status, 126)
        told = str(caught.exception)
        self.assertIn('The program isn\'t built yet. The desk starts no proof by itself: run',
                      told)
        self.assertIn('15 to 30 minutes', told)

    def test_a_program_that_is_older_than_a_source(self) -> None:
        top = self.repository()
        self.build(500)
        with self.assertRaises(Trouble) as caught:
            find_program(None, top)
        self.assertEqual(caught.exception.status, 126)
        self.assertIn('The program is older than ', str(caught.exception))

    @each({name: name for name in ('must-fail/one.edit', 'proof_notes.md', 'src/old.rt.orig')})
    def test_a_later_file_that_is_no_source_does_not_matter(self, name: str) -> None:
        top = self.repository()
        self.build(2000)
        path = top / 'crates' / 'mill_slab' / name
        path.parent.mkdir(exist_ok=True)
        path.write_text('x')
        self.assertTrue(find_program(None, top).is_ours)
        self.assertEqual(self.why_build(top), '')

    @each({name: name for name in ('crates/mill_slab/src/main.rt', 'crates.txt', 'HANDLES',
                                   'crates/new/proofs/a.antt')})
    def test_a_later_source_is_named_as_the_wrapper_names_it(self, name: str) -> None:
        top = self.repository()
        self.build(2000)
        path = top / name
        path.parent.mkdir(parents=True, exist_ok=True)
        path.write_text('x')
        with self.assertRaises(Trouble) as caught:
            find_program(None, top)
        self.assertIn(f'The program is older than {name}.', str(caught.exception))
        self.assertEqual(self.why_build(top), f'{name} is newer than the program\n')

    def why_build(self, top: Path) -> str:
        """What the repository's own ./mill_slab says of that folder; '' where it builds nothing."""
        script = (TOP / 'mill_slab').read_text()
        functions = script[:script.index('\nreason=')].replace('$(CDPATH=', f'{top} #$(CDPATH=')
        done = subprocess.run(['/bin/sh', '-c', functions + '\nwhy_build'], text=True,
                              capture_output=True, check=False)
        self.assertEqual(done.stderr, '')
        return done.stdout

    def test_a_program_that_is_built_is_run_through_the_wrapper(self) -> None:
        top = self.repository()
        binary = self.build(2000)
        (top / 'crates' / 'mill_slab' / 'out' / 'later').write_text('x')
        found = find_program(None, top)
        self.assertEqual((found.command, found.binary, found.is_ours, found.name),
                         (top / 'mill_slab', binary, True, './mill_slab'))

    def test_a_list_of_checksums_decides_where_there_is_one(self) -> None:
        top = self.repository()
        binary = self.build(500)
        names = ['HANDLES', 'crates.txt', 'crates/mill_slab/src/main.rt']
        lines = subprocess.run(['cksum', *names], cwd=top, capture_output=True, text=True,
                               check=True).stdout
        binary.with_name('mill_slab.sources').write_text(lines)
        self.assertTrue(find_program(None, top).is_ours)
        (top / 'crates' / 'mill_slab' / 'src' / 'main.rt').write_text('y')
        with self.assertRaises(Trouble) as caught:
            find_program(None, top)
        self.assertIn('The program was built before crates/mill_slab/src/main.rt was changed.',
                      str(caught.exception))

    def test_no_wrapper(self) -> None:
        with self.assertRaises(Trouble) as caught:
            find_program(None, self.folder)
        self.assertEqual(caught.exception.status, 127)

    def test_another_program_is_never_ours(self) -> None:
        self.assertFalse(find_program(str(STAND_IN)).is_ours)
        path = self.write('orders.csv', SHEET)
        outcome = desk('plan', path, '--sizes', '13', program_path=self.folder / 'none')
        self.assertEqual((outcome.status, outcome.err), (
            2, f'desk: --program {self.folder / "none"}: there is no program\n'))

    def test_the_wrapper_s_own_messages_are_passed_on(self) -> None:
        path = self.write('orders.csv', SHEET)
        other = self.script('other', 'import sys\nprint("no kit", file=sys.stderr)\n'
                            'sys.exit(127)\n')
        done = launched('plan', path, '--sizes', '13', '--program', other)
        self.assertEqual(done.returncode, 127)
        self.assertTrue(done.stderr.startswith('no kit\n'), done.stderr)


class Budgets(InFolder):
    """`--minutes`: budgets grow, and the best finished answer is kept."""

    GROWING = '''import sys, time
words = sys.argv
sys.stdin.buffer.read()
if words[1] == 'check':
    print('legal loss ' + open({folder!r} + '/loss').read()); sys.exit(0)
nodes = int(words[words.index('--nodes') + 1])
plans = {{20000: ('1 2 3', 19), 80000: ('1 2 1', 6)}}
if nodes not in plans:
    open({folder!r} + '/pid', 'w').write(__import__('os').getpid().__str__())
    time.sleep(60)
plan, loss = plans[nodes]
open({folder!r} + '/loss', 'w').write(str(loss))
print(f'feasible\\nloss {{loss}}\\nplan {{plan}}\\nspent {{nodes}}\\nend')
sys.exit(4)
'''

    def test_the_last_one_is_stopped_when_the_time_is_up(self) -> None:
        path = self.write('orders.csv', SHEET)
        other = self.script('other', self.GROWING.format(folder=str(self.folder)))
        outcome = desk('plan', path, '--sizes', '13', '--minutes', '0.06', '--out',
                       self.folder / 'plan', program_path=other)
        self.assertEqual((outcome.status, outcome.err), (4, ''))
        self.assertIn('20 000 nodes: loses 19,', outcome.out)
        self.assertIn('80 000 nodes: loses 6,', outcome.out)
        self.assertIn('320 000 nodes: the time is up; the best finished answer is kept',
                      outcome.out)
        self.assertIn('spent 80000', (self.folder / 'plan' / 'answer.txt').read_text())
        self.assertFalse(is_alive(self.folder / 'pid'))

    def test_a_later_budget_that_is_worse_is_not_kept(self) -> None:
        path = self.write('orders.csv', SHEET)
        body = self.GROWING.replace("('1 2 3', 19)", "('1 2 1', 6)").replace(
            "80000: ('1 2 1', 6)", "80000: ('1 2 3', 19)").replace(
            "'/loss', 'w').write(str(loss))", "'/loss', 'w').write('6')")
        other = self.script('other', body.format(folder=str(self.folder)))
        outcome = desk('plan', path, '--sizes', '13', '--minutes', '0.06', '--out',
                       self.folder / 'plan', program_path=other)
        self.assertEqual((outcome.status, outcome.err), (4, ''))
        self.assertIn('spent 20000', (self.folder / 'plan' / 'answer.txt').read_text())

    def test_no_time_for_the_first_one(self) -> None:
        path = self.write('orders.csv', SHEET)
        other = self.script('other', SLEEPER.format(folder=str(self.folder)))
        outcome = desk('plan', path, '--sizes', '13', '--minutes', '0.02', program_path=other)
        self.assertEqual(outcome.status, 130)
        self.assertIn('The time is up before the first budget of 20 000 nodes ended', outcome.err)
        self.assertFalse(is_alive(self.folder / 'pid'))

    @needs('terminal')
    def test_ctrl_c_in_a_terminal_keeps_the_best(self) -> None:
        path = self.write('orders.csv', SHEET)
        other = self.script('other', self.GROWING.format(folder=str(self.folder)))
        status, shown = self.interrupted(['plan', path, '--sizes', '13', '--minutes', '2'], other)
        self.assertEqual(status, 4, shown)
        self.assertIn('320 000 nodes: stopped by Ctrl-C; the best finished answer is kept', shown)
        self.assertTrue((self.folder / 'orders-plan' / 'plan.csv').exists())

    @needs('terminal')
    def test_ctrl_c_in_a_terminal_leaves_no_process_and_no_file(self) -> None:
        path = self.write('orders.csv', SHEET)
        other = self.script('other', SLEEPER.format(folder=str(self.folder)))
        status, shown = self.interrupted(['plan', path, '--sizes', '13'], other)
        self.assertEqual(status, 130, shown)
        self.assertIn('s (Ctrl-C stops it)', shown)
        self.assertIn('Stopped; nothing was written.', shown)
        self.assertEqual(sorted(entry.name for entry in self.folder.iterdir()),
                         ['orders.csv', 'other', 'pid'])

    def interrupted(self, words: list[object], other: Path) -> tuple[int, str]:
        """Runs the desk in a terminal, and types Ctrl-C once its program runs."""
        child, terminal = pty.fork()
        if child == 0:
            os.chdir(self.folder)
            os.execv(DESK / 'desk', ['desk', *map(str, words), '--program', str(other)])
        wait_for(self.folder / 'pid')
        time.sleep(0.9)
        os.write(terminal, b'\x03')
        shown = read_all(terminal)
        _, status = os.waitpid(child, 0)
        self.assertFalse(is_alive(self.folder / 'pid'))
        return os.waitstatus_to_exitcode(status), ' '.join(shown.split())

    def test_no_child_outlives_the_desk(self) -> None:
        path = self.write('orders.csv', SHEET)
        other = self.script('other', SLEEPER.format(folder=str(self.folder)))
        for number in (signal.SIGTERM, signal.SIGKILL, signal.SIGHUP):
            (self.folder / 'pid').unlink(missing_ok=True)
            process = subprocess.Popen([str(DESK / 'desk'), 'plan', str(path), '--sizes', '13',
                                        '--program', str(other)], stderr=subprocess.DEVNULL,
                                       stdout=subprocess.DEVNULL)
            wait_for(self.folder / 'pid')
            process.send_signal(number)
            process.wait(timeout=10)
            self.assertFalse(is_alive(self.folder / 'pid'), number)


def wait_for(path: Path) -> None:
    """Waits until a file holds something."""
    for _ in range(400):
        if path.exists() and path.read_text():
            return
        time.sleep(0.025)
    raise TimeoutError(path)


def is_alive(path: Path) -> bool:
    """Whether the process whose number is in the file still runs, after a short while."""
    number = int(path.read_text()) if path.exists() else 0
    for _ in range(80 if number else 0):
        try:
            os.kill(number, 0)
            state = Path(f'/proc/{number}/stat').read_text().rpartition(')')[2].split()[0]
        except OSError:
            return False
        if state == 'Z':
            return False
        time.sleep(0.025)
    return number > 0


def read_all(terminal: int) -> str:
    """What a terminal shows until its program ends."""
    shown = b''
    while True:
        try:
            piece = os.read(terminal, 4096)
        except OSError:
            return shown.decode('utf-8', 'replace')
        if not piece:
            return shown.decode('utf-8', 'replace')
        shown += piece


@spread
class Writing(InFolder):
    """Where the system refuses to write."""

    def test_a_folder_that_is_not_there_and_can_not_be_made(self) -> None:
        path = self.write('orders.csv', SHEET)
        outcome = desk('plan', path, '--sizes', '13', '--out', '/proc/none/plan')
        self.assertEqual((outcome.status, outcome.err), (
            2, 'desk: --out /proc/none/plan: No such file or directory\n'))

    def test_a_full_disk_names_the_file(self) -> None:
        path = self.write('orders.csv', SHEET)
        with mock.patch('mill_desk.sheets.write_csv',
                        side_effect=OSError(28, 'No space left on device', 'plan.csv')):
            outcome = desk('plan', path, '--sizes', '13', '--out', self.folder / 'plan')
        self.assertEqual((outcome.status, outcome.err), (
            6, 'desk: plan.csv: No space left on device\n'))
        self.assertEqual([entry.name for entry in self.folder.iterdir()], ['orders.csv'])

    @each({number.name: number for number in (signal.SIGINT, signal.SIGTERM, signal.SIGHUP)})
    def test_a_signal_while_files_are_put_in_place_waits(self, number: signal.Signals) -> None:
        path, put = self.write('orders.csv', SHEET), os.replace

        def ended(source: Path, target: Path) -> None:
            """Sends the signal before each file."""
            os.kill(os.getpid(), number)
            put(source, target)

        with mock.patch('os.replace', side_effect=ended):
            outcome = desk('plan', path, '--sizes', '13', '--out', self.folder / 'plan')
        self.assertEqual((outcome.status, outcome.err), (130, 'desk: stopped\n'))
        self.assertLessEqual({'plan.csv', 'instance.txt', 'answer.txt'}, self.held('plan').keys())
        self.assertEqual({entry.name for entry in self.folder.iterdir()}, {'orders.csv', 'plan'})

    def test_any_other_fault_of_the_desk(self) -> None:
        path = self.write('orders.csv', SHEET)
        with mock.patch('mill_desk.sheets.write_csv', side_effect=ValueError('x')):
            outcome = desk('plan', path, '--sizes', '13', '--out', self.folder / 'plan')
        self.assertEqual(outcome.status, 70)
        self.assertTrue(outcome.err.startswith('desk: The desk has a fault.\nTraceback'))
        self.assertEqual([entry.name for entry in self.folder.iterdir()], ['orders.csv'])


class Launching(InFolder):
    """The launcher, as a person starts it."""

    def test_it_says_what_it_can_do(self) -> None:
        done = launched('--help')
        self.assertEqual(done.returncode, 0)
        for command in ('plan', 'check', 'compare', 'show', 'explain', 'tree', 'what-if', 'table'):
            self.assertIn(command, done.stdout)

    def test_its_own_statuses_are_told(self) -> None:
        said = launched('plan', '--help').stdout.partition('\nStatus: ')[2]
        page = (DESK / 'README.md').read_text().partition('The status is the program\'s: ')[2]
        own = set(Exit) - {Exit.DONE, Exit.WRITING, Exit.REJECTED}
        for text in (said, page):
            self.assertLessEqual({str(int(status)) for status in own},
                                 set(re.findall(r'\d+', text.partition('\n\n')[0])))
        self.assertEqual(launched().returncode, 2)

    def test_it_works_from_anywhere_and_through_a_link(self) -> None:
        path = self.write('orders.csv', SHEET)
        link = self.folder / 'link'
        link.symlink_to(DESK / 'desk')
        done = subprocess.run([link, 'plan', path.name, '--sizes', '13', '--program', STAND_IN],
                              cwd=self.folder, capture_output=True, text=True, check=False)
        self.assertEqual((done.returncode, done.stderr), (0, ''))
        self.assertTrue((self.folder / 'orders-plan' / 'plan.csv').exists())

    def test_a_terminal_without_every_letter(self) -> None:
        path = self.write('orders.csv', SHEET.replace('red', 'röt'))
        done = launched('plan', path, '--sizes', '13000; 20000.5', '--out', self.folder / 'plan',
                        '--program', STAND_IN, env={'LC_ALL': 'C', 'PYTHONCOERCECLOCALE': '0',
                                                    'PYTHONUTF8': '0', 'PATH': os.environ['PATH']})
        self.assertEqual(done.returncode, 3, done.stderr)
        self.assertIn('20 000', done.stderr)

    def test_output_that_nobody_reads(self) -> None:
        path = self.write('one.txt', '1 4\n1\n1\n1 1\n')
        line = f'{DESK / "desk"} table {path} {path} {path} --program {STAND_IN} | head -n 1'
        done = subprocess.run(['/bin/bash', '-c', f'set -o pipefail; {line}'], text=True,
                              capture_output=True, check=False)
        self.assertEqual((done.returncode, done.stderr), (0, ''), sys.executable)
