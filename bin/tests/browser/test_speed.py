"""How long a page of 90,000 parcels takes: to open, for a frame while the map is moved, and to search.

Of three tries the fastest counts, since whatever else a machine does disturbs single ones.
"""
from __future__ import annotations

import os
import time
import unittest

from opened import Opened, run

OPENS, FRAME, SEARCH = 4000, 100, 200  # Milliseconds at most.
TRIES = 3
OPENED = """return performance.getEntriesByName('drawn')[0].startTime"""
SEARCHED = """const began = performance.now(); byId('query').value = arguments[0];
byId('query').dispatchEvent(new Event('input')); document.body.offsetHeight; return performance.now() - began;"""


class Grid(Opened):
    """300 by 300 lots of 10 m."""

    @classmethod
    def setUpClass(cls) -> None:
        super().setUpClass()
        cls.path = os.path.join(cls.folder, 'grid.html')
        began = time.monotonic()
        page = run('cadpage', '-', '--title', 'Grid 300', given=run('bench', '--write', 'grid', '300'))
        seconds = time.monotonic() - began
        print(f'a page of 90,000 parcels: made in {seconds:.1f} s, {len(page) / 1e6:.1f} MB', flush=True)
        with open(cls.path, 'wb') as file:
            file.write(page)

    path: str

    def least(self, name: str, found: list[float], most: float) -> None:
        print(f'{name}: {" ".join(f"{it:.0f}" for it in found)} ms', flush=True)
        self.assertLessEqual(min(found), most, name)

    def test_it_opens(self) -> None:
        found = []
        for _ in range(TRIES):
            self.load(self.path)
            found.append(float(self.js(OPENED)))
        self.shot('grid')
        self.least('opened', found, OPENS)

    def drag(self) -> None:
        """Drags the map by 400 pixels to and fro in a second or so."""
        x, y = 900.0, 420.0
        self.mouse('mousePressed', x, y, button='left', clickCount=1)
        for step in range(80):
            x += -20 if step < 40 else 20
            self.mouse('mouseMoved', x, y + step % 7, button='left', buttons=1)
        self.mouse('mouseReleased', x, y, button='left', clickCount=1)

    def test_frames_of_a_pan(self) -> None:
        self.load(self.path)
        for zoom in (0, 1, 2, 4, 6):
            self.js(f'map.setView(latLngs(extent).getCenter(), {zoom}, {{animate: false}})')
            self.rest()
            found = []
            for _ in range(TRIES):
                found.append(max(self.gaps(self.drag)))
                self.rest()
            self.shot(f'grid-{zoom}')
            self.least(f'longest frame of a pan at zoom {zoom}', found, FRAME)

    def test_searches(self) -> None:
        self.load(self.path)
        for query in ('45000', 'lot 12/', '7', 'survey', 'nowhere'):
            self.least(f'search for {query}', [float(self.js(SEARCHED, query)) for _ in range(TRIES)], SEARCH)


if __name__ == '__main__':
    unittest.main()
