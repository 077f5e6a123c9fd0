#!/usr/bin/python3
"""Times the planner's desk on 1,024 orders, against the program alone on the same instance.

Prints the seconds of the program, those of `desk plan` beside it, the kilobytes of its page, and,
where selenium and chromium are installed, the seconds that a headless Chromium takes to open the
page, to sort the slabs, and to sort the orders. Each time is the least of three runs. What is
wanted: all files within 3 s beside the program, a page below 1,000 KB, open below 2 s, sort below
1 s.

Words: the program, by default the built one (then through ./mill_slab).
"""

import importlib.util
import random
import subprocess
import sys
import tempfile
import time
from pathlib import Path

TOP = Path(__file__).resolve().parents[1]
RUNS = 3


def orders() -> str:
    """A table of 1,024 orders, always the same."""
    draw = random.Random(1024)
    rows = [f'SO-{50000 + i // 3}/{10 * (i % 3 + 1)},{draw.randint(5, 44) / 2},'
            f'R{draw.randint(1, 40)}' for i in range(1024)]
    return 'Order,Weight t,Route\n' + '\n'.join(rows) + '\n'


def least(run: object, *words: object) -> float:
    """The least seconds of some runs."""
    times = []
    for _ in range(RUNS):
        begin = time.monotonic()
        run(*words)  # type: ignore[operator]
        times.append(time.monotonic() - begin)
    return min(times)


def plan(folder: Path, program: list[str]) -> None:
    """Runs the desk."""
    done = subprocess.run([TOP / 'desk' / 'desk', 'plan', folder / 'orders.csv', '--sizes',
                           '24; 28; 30; 33; 36.5', '--out', folder / 'plan', *program],
                          capture_output=True, check=False)
    if done.returncode not in (0, 4):
        raise SystemExit(done.stderr.decode())


def solve(folder: Path, program: str) -> None:
    """Runs the program alone on the instance that the desk wrote."""
    with (folder / 'plan' / 'instance.txt').open() as instance:
        subprocess.run([program, 'solve', '--colours', '2'], stdin=instance, capture_output=True,
                       check=False)


def page_times(page: Path) -> list[tuple[str, float]]:
    """The seconds that a browser takes."""
    sys.path.insert(0, str(TOP / 'desk'))
    from tests.browser import Browser
    browser = Browser()
    try:
        opened = least(browser.open, page)
        slabs = least(browser.click, '[data-sort=size]')
        rows = least(browser.click, '.orders th:nth-of-type(2) button')
    finally:
        browser.close()
    return [('open', opened), ('sort slabs', slabs), ('sort orders', rows)]


def main(words: list[str]) -> None:
    """Prints the figures."""
    asked = ['--program', words[0]] if words else []
    binary = words[0] if words else str(TOP / 'crates' / 'mill_slab' / 'out' / 'mill_slab')
    with tempfile.TemporaryDirectory() as name:
        folder = Path(name)
        (folder / 'orders.csv').write_text(orders())
        whole = least(plan, folder, asked)
        alone = least(solve, folder, binary)
        page = folder / 'plan' / 'plan.html'
        print(f'program {alone:.2f} s, desk beside it {whole - alone:.2f} s, '
              f'page {page.stat().st_size / 1000:.0f} KB')
        if importlib.util.find_spec('selenium') and Path('/usr/bin/chromedriver').exists():
            print(', '.join(f'{what} {seconds:.2f} s' for what, seconds in page_times(page)))


if __name__ == '__main__':
    main(sys.argv[1:])
