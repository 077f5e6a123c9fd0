"""LibreOffice opens plan.xlsx; what it writes, as CSV and as .xlsx, is read alike."""

import csv
import shutil
import subprocess
from pathlib import Path

from mill_desk.orders import read_problem
from mill_desk.plan_table import read_plan
from mill_desk.planning import slab_sets
from mill_desk.settings import Settings
from tests.support import EXAMPLES, InFolder, desk, needs

SHEET = ('Order,Weight t,Colour\n=1+1,7.5,red\n007,8.25,=A1\n3-4,5,red\n1E5,2.5,grün\n'
         '"a,""b""",4.75,red\n')
SIZES = '10; 13.5'


@needs('openpyxl', 'soffice')
class Conversions(InFolder):
    """One conversion is some seconds, so there are few."""

    def converted(self, path: Path, kind: str) -> Path:
        """The file as LibreOffice writes it again."""
        target = self.folder / 'converted'
        soffice = shutil.which('soffice')
        assert soffice is not None
        subprocess.run([soffice, f'-env:UserInstallation=file://{self.folder}/profile',
                        '--headless', '--convert-to', kind, '--outdir', str(target), str(path)],
                       check=True, capture_output=True, timeout=120)
        return target / f'{path.stem}.{kind.split(":")[0]}'

    def test_a_plan_s_workbook(self) -> None:
        orders = self.write('orders.csv', SHEET)
        outcome = desk('plan', orders, '--sizes', SIZES, '--out', self.folder / 'plan')
        self.assertEqual((outcome.status, outcome.err), (0, ''))
        book = self.folder / 'plan' / 'plan.xlsx'
        problem = read_problem(orders, Settings(sizes=SIZES))
        wanted = slab_sets(read_plan(book, problem, Settings()).plan)
        text = self.converted(book, 'csv:Text - txt - csv (StarCalc):44,34,76')
        with text.open(encoding='utf-8', newline='') as stream:
            rows = list(csv.reader(stream))
        self.assertEqual([row[:3] for row in rows[1:]], [
            ['=1+1', '7.5', 'red'], ['007', '8.25', '=A1'], ['3-4', '5', 'red'],
            ['1E5', '2.5', 'grün'], ['a,"b"', '4.75', 'red']])
        self.assertEqual(slab_sets(read_plan(text, problem, Settings()).plan), wanted)
        again = self.converted(book, 'xlsx')
        self.assertEqual(slab_sets(read_plan(again, problem, Settings()).plan), wanted)
        settings = Settings(sizes=SIZES, sheet='plan')
        self.assertEqual(read_problem(again, settings).instance_text(), problem.instance_text())

    def test_orders_that_it_wrote(self) -> None:
        settings = Settings(sizes='12; 36.5')
        wanted = read_problem(EXAMPLES / 'orders.xlsx', settings).instance_text()
        again = self.converted(EXAMPLES / 'orders.xlsx', 'xlsx')
        self.assertEqual(read_problem(again, settings).instance_text(), wanted)
