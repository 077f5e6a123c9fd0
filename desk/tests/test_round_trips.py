"""Round trips: any orders in any clothes give one instance, and any legal plan reads back."""

import csv
import io
from dataclasses import dataclass
from fractions import Fraction
from pathlib import Path

from mill_desk import sheets, workbook
from mill_desk.numbers import show_plain
from mill_desk.orders import read_problem
from mill_desk.plan import loss_in_steps, slabs_of
from mill_desk.plan_table import read_plan
from mill_desk.planning import slab_sets
from mill_desk.problem import Problem
from mill_desk.program import Program
from mill_desk.search import judge
from mill_desk.settings import Settings
from mill_desk.answer import plan_answer
from tests.support import InFolder, needs, program

try:
    from hypothesis import HealthCheck, given, settings
    from hypothesis import strategies as some
    QUICK = settings(max_examples=25, deadline=None, database=None,
                     suppress_health_check=list(HealthCheck))
except ImportError:
    QUICK = None  # type: ignore[assignment]

SIZES = 'sizes'


@dataclass(frozen=True)
class Sheet:
    """Orders as rows of a table, and sizes."""

    rows: list[tuple[str, Fraction, str]]
    sizes: list[Fraction]


def sheets_of_orders() -> 'some.SearchStrategy[Sheet]':
    """Any orders: ids and colours are any text that can be seen, weights have two decimals."""
    seen = some.characters(blacklist_categories=('C', 'Z'))
    text = some.text(seen, min_size=1, max_size=8).filter(
        lambda text: text.casefold() not in ('total', 'totals', 'sum', 'summe', 'gesamt', 'somme',
                                             'subtotal', 'zwischensumme', 'gesamtsumme'))
    weight = some.integers(1, 2000).map(lambda cents: Fraction(cents, 100))
    rows = some.lists(some.tuples(text, weight, text), min_size=1, max_size=7,
                      unique_by=lambda row: row[0])
    sizes = some.lists(some.integers(2000, 4000).map(lambda cents: Fraction(cents, 100)),
                       min_size=1, max_size=3)
    return some.builds(Sheet, rows, sizes)


def as_csv(sheet: Sheet, separator: str, mark: str, encoding: str, end: str) -> bytes:
    """The table as a CSV."""
    made = io.StringIO()
    writer = csv.writer(made, delimiter=separator, lineterminator=end)
    writer.writerow(['Order', 'Weight', 'Colour'])
    for name, weight, colour in sheet.rows:
        writer.writerow([name, show_plain(weight).replace('.', mark), colour])
    return made.getvalue().encode(encoding)


def as_book(sheet: Sheet, path: Path) -> None:
    """The table as a workbook; ids and colours are text."""
    book = workbook.openpyxl().Workbook()
    book.remove(book.active)
    rows: list[list[str | int | Fraction]] = [['Order', 'Weight', 'Colour'], *(
        [name, weight, colour] for name, weight, colour in sheet.rows)]
    sheets.add_sheet(book, 'orders', rows)
    book.save(path)


def settings_of(sheet: Sheet, decimal: str | None = None) -> Settings:
    """The sizes of a sheet."""
    from mill_desk.numbers import Mark
    return Settings(sizes='; '.join(show_plain(size) for size in sheet.sizes),
                    decimal=Mark(decimal) if decimal else None)


@needs('hypothesis')
class RoundTrips(InFolder):
    """Properties over any orders and any plans."""

    def problem(self, sheet: Sheet) -> Problem:
        """The problem of a sheet, read from a CSV in UTF-8."""
        path = self.write('sheet.csv', as_csv(sheet, ',', '.', 'utf-8', '\n'))
        return read_problem(path, settings_of(sheet, 'point'))

    def test_a_csv_in_any_clothes_gives_one_instance(self) -> None:
        @QUICK
        @given(sheets_of_orders(), some.sampled_from(',;\t'), some.sampled_from('.,'),
               some.sampled_from(['utf-8', 'utf-8-sig', 'utf-16']),
               some.sampled_from(['\n', '\r\n']))
        def holds(sheet: Sheet, separator: str, mark: str, encoding: str, end: str) -> None:
            wanted = self.problem(sheet)
            path = self.write('other.csv', as_csv(sheet, separator, mark, encoding, end))
            found = read_problem(path, settings_of(sheet, 'point' if mark == '.' else 'comma'))
            self.assertEqual(found.instance_text(), wanted.instance_text())
            self.assertEqual(found.colours, wanted.colours)
            self.assertEqual([order.id for order in found.orders],
                             [name for name, _, _ in sheet.rows])

        holds()

    @needs('openpyxl')
    def test_a_workbook_gives_the_same_instance(self) -> None:
        @QUICK
        @given(sheets_of_orders())
        def holds(sheet: Sheet) -> None:
            wanted = self.problem(sheet)
            path = self.folder / 'book.xlsx'
            as_book(sheet, path)
            found = read_problem(path, settings_of(sheet))
            self.assertEqual(found.instance_text(), wanted.instance_text())
            self.assertEqual(found.colours, wanted.colours)

        holds()

    def test_any_legal_plan_reads_back_and_loses_what_is_counted(self) -> None:
        judges = Program(program(), program(), is_ours=False)

        @settings(QUICK, max_examples=12)
        @given(sheets_of_orders(), some.data())
        def holds(sheet: Sheet, data: 'some.DataObject') -> None:
            problem = self.problem(sheet)
            plan = legal_plan(problem, data)
            slabs = slabs_of(problem, plan)
            loss = loss_in_steps(problem, plan)
            self.assertEqual(sum(slab.loss for slab in slabs), (loss or 0) * problem.step)
            written = [self.folder / 'plan.csv']
            sheets.write_csv(written[0], sheets.plan_rows(problem, slabs))
            if workbook.is_installed():
                written.append(self.folder / 'plan.xlsx')
                sheets.write_workbook(written[1], problem, slabs, [('verdict', '=1+1')])
            for path in written:
                again = read_plan(path, problem, Settings())
                self.assertEqual(slab_sets(again.plan), slab_sets(plan))
            run = judge(judges, problem, 'check', plan_answer(loss or 0, list(plan)))
            self.assertEqual((run.line, run.status), (f'legal loss {loss}', 0))

        holds()


def legal_plan(problem: Problem, data: 'some.DataObject') -> list[int]:
    """Any legal plan: each order joins a slab that stays legal, or a new one."""
    plan: list[int] = []
    for place, order in enumerate(problem.orders):
        rooms = [place + 1]
        for slab in sorted(set(plan)):
            joined = [other for other, where in zip(problem.orders, plan) if where == slab]
            joined.append(order)
            if (sum(other.steps for other in joined) <= problem.size_steps[-1]
                    and len({other.colour for other in joined}) <= problem.limit):
                rooms.append(slab)
        plan.append(data.draw(some.sampled_from(rooms)))
    return plan
