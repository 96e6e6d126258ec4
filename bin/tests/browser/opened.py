"""A page opened in Debian's chromium without a window, for the tests of bin/check-page: what a user does and sees.

Positions are metres in the plan's own coordinates.
"""
from __future__ import annotations

import base64
import importlib
import os
import subprocess
import sys
import tempfile
import time
import unittest
from collections.abc import Callable
from typing import Any

TOP = os.path.dirname(os.path.dirname(os.path.dirname(os.path.dirname(os.path.realpath(__file__)))))
SHOTS = os.environ.get('SHOTS', '')  # A folder for pictures of what is seen, where it is named.
WIDE, NARROW = (1280, 800), (360, 740)
BROWSER, DRIVER = '/usr/bin/chromium', '/usr/bin/chromedriver'

WHERE = """const [x, y] = arguments; const {left, top} = byId('map').getBoundingClientRect();
const at = map.latLngToContainerPoint([y * 1000 - plan.origin[1], x * 1000 - plan.origin[0]]);
return [at.x + left, at.y + top];"""
COLOUR = """const [x, y] = arguments; let found = [];
document.querySelectorAll('.leaflet-layer:first-child canvas').forEach((it) => { const box = it.getBoundingClientRect();
  const [across, down] = [x - box.left, y - box.top].map((value) => Math.floor(value * it.width / box.width));
  if (across >= 0 && down >= 0 && across < it.width && down < it.height) {
    found = [...it.getContext('2d').getImageData(across, down, 1, 1).data].slice(0, 3); } });
return found;"""
# Whether the map is at rest: no tile waits, nothing moves.
AT_REST = """return !waiting.size && !map._animatingZoom && !(map._panAnim && map._panAnim._inProgress)
  && performance.getEntriesByName('drawn').length > 0;"""
FRAMES = """window.gaps = []; let last = performance.now(); window.watched = true;
requestAnimationFrame(function next(now) { gaps.push(now - last); last = now;
  if (watched) requestAnimationFrame(next); });"""


def run(*words: str, given: bytes = b'') -> bytes:
    """What a command of bin/ writes."""
    return subprocess.run([os.path.join(TOP, 'bin', words[0]), *words[1:]], input=given, stdout=subprocess.PIPE,
                          check=True, env={**os.environ, 'UNPROVED_OK': '1'}).stdout


def started(size: tuple[int, int]) -> Any:
    """A browser with a window of this size. It keeps what its console is told."""
    webdriver = importlib.import_module('selenium.webdriver')
    options = webdriver.ChromeOptions()
    options.binary_location = BROWSER
    for word in ('--headless=new', '--no-sandbox', '--disable-dev-shm-usage', '--disable-gpu', '--hide-scrollbars',
                 '--force-device-scale-factor=1', f'--window-size={size[0]},{size[1]}'):
        options.add_argument(word)
    options.set_capability('goog:loggingPrefs', {'browser': 'ALL'})
    service = importlib.import_module('selenium.webdriver.chrome.service').Service(DRIVER)
    driver = webdriver.Chrome(service=service, options=options)
    driver.execute_cdp_cmd('Emulation.setDeviceMetricsOverride',
                           {'width': size[0], 'height': size[1], 'deviceScaleFactor': 1, 'mobile': False})
    return driver


class Opened(unittest.TestCase):
    """A case with a browser of the class's size, in which `open` opens a page."""
    SIZE = WIDE
    driver: Any
    folder: str

    @classmethod
    def setUpClass(cls) -> None:
        holder = tempfile.TemporaryDirectory(prefix='check-page-')
        cls.addClassCleanup(holder.cleanup)
        cls.folder = holder.name
        cls.driver = started(cls.SIZE)
        cls.addClassCleanup(cls.driver.quit)

    def open(self, *words: str, given: bytes = b'', after: str = '') -> None:
        """Makes a page with these words of bin/cadpage and opens it, with this after its address."""
        path = os.path.join(self.folder, 'map.html')
        page = run('cadpage', *words, given=given)
        with open(path, 'wb') as file:
            file.write(page)
        self.load(path, after)

    def load(self, path: str, after: str = '') -> None:
        """Opens a file."""
        self.driver.get('about:blank')
        self.driver.get(f'file://{path}{after}')
        self.rest()

    def tearDown(self) -> None:
        """The console was told nothing but that the test looks at colours, and nothing was asked for."""
        told = [it['message'] for it in self.driver.get_log('browser')]
        self.assertEqual([it for it in told if 'willReadFrequently' not in it], [])
        self.assertEqual(self.js("return performance.getEntriesByType('resource').map((it) => it.name)"), [])

    def js(self, script: str, *given: object) -> Any:
        return self.driver.execute_script(script, *given)

    def wait(self, is_so: Callable[[], object]) -> None:
        """Waits until this is so."""
        end = time.monotonic() + 10
        while not is_so():
            self.assertLess(time.monotonic(), end, 'waited for in vain')
            time.sleep(0.02)

    def rest(self) -> None:
        """Waits until the map is at rest."""
        self.wait(lambda: self.js(AT_REST))
        time.sleep(0.05)

    def shot(self, name: str) -> None:
        """Keeps a picture of what is seen, where pictures are wanted."""
        if SHOTS:
            self.driver.save_screenshot(os.path.join(SHOTS, f'{name}.png'))

    # ---- What a user does

    def mouse(self, kind: str, x: float, y: float, **more: object) -> None:
        """Moves or presses the mouse at these pixels."""
        self.driver.execute_cdp_cmd('Input.dispatchMouseEvent', {'type': kind, 'x': x, 'y': y, **more})

    def click(self, x: float, y: float, aside: tuple[float, float] = (0, 0)) -> None:
        """Clicks at a position of the map, or so many pixels beside it."""
        across, down = self.where(x, y)
        for kind in ('mouseMoved', 'mousePressed', 'mouseReleased'):
            self.mouse(kind, across + aside[0], down + aside[1], button='left', clickCount=1)
        self.rest()

    def type(self, *keys: str) -> None:
        """Presses keys, whatever has the focus."""
        actions = importlib.import_module('selenium.webdriver').ActionChains(self.driver)
        actions.send_keys(*keys).perform()
        self.rest()

    def find(self, query: str) -> list[str]:
        """What the search lists for a query."""
        box = self.by('query')
        box.clear()
        box.send_keys(query)
        return [it.text for it in self.all('#results .link')]

    def press(self, css: str, text: str = '') -> None:
        """Clicks the control that has this text."""
        found = [it for it in self.all(css) if text in it.text]
        self.driver.execute_script('arguments[0].scrollIntoView({block: "center"})', found[0])
        found[0].click()
        self.rest()

    # ---- What a user sees

    def by(self, name: str) -> Any:
        return self.driver.find_element('id', name)

    def all(self, css: str) -> list[Any]:
        return list(self.driver.find_elements('css selector', css))

    def text(self, name: str) -> str:
        """The text that is seen of an element."""
        return str(self.by(name).text)

    def title(self) -> str:
        """Of the panel; nothing where it is closed."""
        return self.text('panel-title')

    def details(self) -> dict[str, str]:
        """What the panel says, by its names."""
        names, texts = self.all('#details dt'), self.all('#details dd')
        return {name.text: text.text for name, text in zip(names, texts)}

    def corners(self) -> list[list[str]]:
        """The rows of the panel's tables."""
        return [[cell.text for cell in row.find_elements('css selector', 'th, td')]
                for row in self.all('#details tbody tr')]

    def where(self, x: float, y: float) -> tuple[float, float]:
        """The pixel of the window at which a position lies."""
        across, down = self.js(WHERE, x, y)
        return float(across), float(down)

    def colour(self, x: float, y: float, aside: tuple[float, float] = (0, 0)) -> tuple[int, int, int]:
        """The colour of the map at a position, or so many pixels beside it."""
        across, down = self.where(x, y)
        red, green, blue = self.js(COLOUR, across + aside[0], down + aside[1])
        return red, green, blue

    def around(self, x: float, y: float) -> list[tuple[int, int, int]]:
        """The colours of the nine pixels around a position."""
        return [self.colour(x, y, aside=(across, down)) for across in (-1, 0, 1) for down in (-1, 0, 1)]

    def sheet(self) -> bytes:
        """What is printed, as PDF."""
        return base64.b64decode(self.driver.print_page())

    def gaps(self, moves: Callable[[], None]) -> list[float]:
        """The times between frames, in milliseconds, while something is done."""
        self.js(FRAMES)
        moves()
        found: list[float] = self.js('watched = false; return gaps;')
        return found


if __name__ == '__main__':
    sys.exit('bin/check-page runs the tests')
