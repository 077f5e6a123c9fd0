"""A headless Chromium for the tests, and what it says and asks for."""

import base64
import json
import re
import zlib
from dataclasses import dataclass
from pathlib import Path
from typing import Any


class Browser:
    """One headless Chromium. Pages are opened from files."""

    def __init__(self) -> None:
        from selenium import webdriver
        from selenium.webdriver.chrome.options import Options
        from selenium.webdriver.chrome.service import Service
        options = Options()
        options.binary_location = '/usr/bin/chromium'
        for word in ('--headless=new', '--no-sandbox', '--disable-gpu', '--hide-scrollbars',
                     '--window-size=1280,900', '--disable-dev-shm-usage'):
            options.add_argument(word)
        options.set_capability('goog:loggingPrefs', {'browser': 'ALL', 'performance': 'ALL'})
        self.driver: Any = webdriver.Chrome(service=Service('/usr/bin/chromedriver'),
                                            options=options)

    def close(self) -> None:
        """Ends it."""
        self.driver.quit()

    def open(self, path: Path, width: int = 1280, height: int = 900) -> None:
        """Opens a file at this width and height."""
        self.driver.execute_cdp_cmd('Emulation.setDeviceMetricsOverride', {
            'width': width, 'height': height, 'deviceScaleFactor': 1, 'mobile': False})
        self.driver.get_log('performance')
        self.driver.get_log('browser')
        self.driver.get(path.as_uri())

    def run(self, script: str, *values: Any) -> Any:
        """The value of a script."""
        return self.driver.execute_script(f'return {script}', *values)

    def click(self, select: str) -> None:
        """Clicks the first element that is selected."""
        self.driver.execute_script('document.querySelector(arguments[0]).click()', select)

    def type(self, select: str, text: str) -> None:
        """Types into an element, key by key."""
        from selenium.webdriver.common.by import By
        self.driver.find_element(By.CSS_SELECTOR, select).send_keys(text)

    def texts(self, select: str) -> list[str]:
        """The texts of the elements that are selected."""
        return list(self.run('[...document.querySelectorAll(arguments[0])]'
                             '.map(e => e.textContent)', select))

    def messages(self) -> list[str]:
        """What the console was told."""
        return [entry['message'] for entry in self.driver.get_log('browser')]

    def requests(self) -> list[str]:
        """What was asked for since the page was opened."""
        asked = []
        for entry in self.driver.get_log('performance'):
            message = json.loads(entry['message'])['message']
            if message['method'] == 'Network.requestWillBeSent':
                asked.append(message['params']['request']['url'])
        return asked

    def picture(self, path: Path) -> None:
        """Writes what is seen as a PNG."""
        self.driver.save_screenshot(str(path))

    def printed(self) -> bytes:
        """The page as it is printed, a PDF."""
        made = self.driver.execute_cdp_cmd('Page.printToPDF', {'preferCSSPageSize': True,
                                                               'printBackground': True})
        return base64.b64decode(made['data'])


@dataclass(frozen=True)
class Rectangle:
    """A filled rectangle of a printed page, in pixels of the document, and the page's range."""

    colour: str
    top: float
    height: float
    page: tuple[float, float]


def sheets_of(pdf: bytes) -> list[bytes]:
    """The drawing of each page of a PDF that Chromium made."""
    found = []
    for stream in re.finditer(rb'stream\r?\n(.*?)endstream', pdf, re.DOTALL):
        try:
            text = zlib.decompress(stream[1].rstrip(b'\r\n'))
        except zlib.error:
            continue
        if re.match(rb'\.2399\d* 0 0 -\.2399\d* ', text):
            found.append(text)
    return found


def rectangles_of(sheet: bytes, page_height: float) -> list[Rectangle]:
    """The filled rectangles of a page."""
    shift = re.search(rb'W\* n\nq\n3\.125 0 0 3\.125 \S+ (\S+) cm', sheet)
    begin = (131.25 - float(shift[1])) / 3.125 if shift else 0.0
    found, colour = [], ''
    for part in re.finditer(rb'(\S+) (\S+) (\S+) rg|(\S+) (\S+) (\S+) (\S+) re\nf', sheet):
        if part[1] is not None:
            colour = '#' + ''.join(f'{round(255 * float(part[i])):02x}' for i in (1, 2, 3))
        else:
            found.append(Rectangle(colour, float(part[5]), float(part[7]),
                                   (begin, begin + page_height)))
    return found
