"""Pages of texts that try to be more than texts, and of maps at the limits of what a plan may have."""
from __future__ import annotations

import unittest

from opened import Opened, run

LABELS = ['</script><script>window.broken = 1</script>', '"><img src=x onerror="window.broken = 2">',
          "'); broken(); ('", '<!--<script>', '{{data}} ${broken()} &lt;', '\x01\x1b[31m\x7f bell',
          '\u202eright to left', 'Тополь 水 🏠 Élan']
SHOWN = [*LABELS[:5], '\u2401\u241b[31m\u2421 bell', '\ufffdright to left', LABELS[7]]


def quoted(text: str) -> str:
    return '"' + text.replace('"', '""') + '"'


def row_of_lots(labels: list[str], source: str) -> bytes:
    """Lots of 10 m side by side, from 0 0 on, with the numbers 1, 2 and so on."""
    count = len(labels)
    records = ['plan,2,,,,,', f'source,1,{quoted(source)},,,,']
    for place in range(count + 1):
        records += [f'point,{2 * place + 1},{place * 10000},0,1,,',
                    f'point,{2 * place + 2},{place * 10000},10000,1,,']
    records += [f'parcel,{place},{quoted(label)},1,,,' for place, label in enumerate(labels, 1)]
    for place in range(count + 1):
        low = 2 * place + 1
        left, right = place, place + 1 if place < count else 0
        records.append(f'string,{low},{low},{low + 1},{left},{right},1')
        if place < count:
            records += [f'string,{low + 1},{low},{low + 2},{right},0,1',
                        f'string,{1000 + low},{low + 3},{low + 1},{right},0,1']
    return '\n'.join([*records, 'open,,,,,,', '']).encode()


class Hostile(Opened):
    def test_labels_are_texts(self) -> None:
        self.open('-', '--title', LABELS[0], given=row_of_lots(LABELS, LABELS[1]))
        self.assertEqual(self.js('return document.title'), LABELS[0])
        self.assertEqual(self.js("return document.querySelector('h1').textContent"), LABELS[0])
        for place, label in enumerate(SHOWN):
            self.click(place * 10 + 5, 2)
            self.assertEqual(self.title(), f'Parcel {place + 1}')
            self.assertEqual(self.js("return document.querySelector('#details .label').textContent"), label)
            self.assertEqual(self.js("return document.querySelector('#details dd li').textContent"), f'1 {LABELS[1]}')
        self.assertEqual(self.js('return [typeof window.broken, document.images.length, document.scripts.length]'),
                         ['undefined', 0, 3])
        self.assertEqual(self.find('IMG SRC')[0], f'Parcel 2 {LABELS[1]}')
        self.assertEqual(self.find('тополь'), [f'Parcel 8 {LABELS[7]}'])
        self.assertEqual(self.find('elan'), [f'Parcel 8 {LABELS[7]}'])
        self.shot('hostile')

    def test_a_plan_without_rows(self) -> None:
        self.open('-', given=b'plan,2,,,,,\nopen,,,,,,\n')
        self.assertEqual(self.text('counts'), '0 parcels, 0 boundaries, 0 points')
        self.assertEqual(self.find('1'), [])


class Far(Opened):
    """A lot of 10 m at each of two opposite ends of what coordinates can be, and a strip of 20,000 km between them."""

    def plan(self) -> bytes:
        end = 10 ** 10
        corners = [[(-end, -end), (10000 - end, -end), (10000 - end, 10000 - end), (-end, 10000 - end)],
                   [(end - 10000, end - 10000), (end, end - 10000), (end, end), (end - 10000, end)],
                   [(-end, -5), (end, -5), (end, 5), (-end, 5)]]
        points = [f'point,{4 * lot + place},{x},{y},,,' for lot, ring in enumerate(corners)
                  for place, (x, y) in enumerate(ring, 1)]
        strings = [f'string,{4 * lot + place},{4 * lot + place},{4 * lot + place % 4 + 1},{lot + 1},0,'
                   for lot in range(3) for place in range(1, 5)]
        parcels = [f'parcel,{lot},Lot,,,,' for lot in (1, 2, 3)]
        return '\n'.join(['plan,2,,,,,', *points, *parcels, *strings, 'open,,,,,,', '']).encode()

    def test_a_millimetre_at_the_far_end(self) -> None:
        self.open('-', given=self.plan())
        self.find('2')
        self.press('#results .link', 'Parcel 2')
        west, east = '9999990.000', '10000000.000'  # And south and north.
        self.assertEqual([row[1:3] for row in self.corners()],
                         [[west, west], [east, west], [east, east], [west, east]])
        self.shot('far')
        (left, low), (right, high) = self.where(9999990, 9999990), self.where(10000000, 10000000)
        self.assertAlmostEqual(right - left, low - high, delta=1)
        self.assertGreater(right - left, 60)
        self.click(9999995, 9999992)
        self.assertEqual(self.title(), 'Parcel 2')
        self.assertEqual(self.colour(9999995, 9999991), (255, 253, 246))
        for x in (9999989, 10000001):
            self.assertEqual(self.colour(x, 9999995), (230, 228, 221))

    def test_a_strip_of_ten_millimetres(self) -> None:
        self.open('-', given=self.plan())
        self.js('map.setView([10000000000, 10000000000], map.getMaxZoom(), {animate: false})')
        self.rest()
        self.shot('strip')
        self.assertEqual(self.colour(0.08, 0), (255, 253, 246))
        for y in (-0.007, 0.007):
            self.assertEqual(self.colour(0.08, y), (230, 228, 221))


class Town(Opened):
    """A town of four blocks of 64 lots, and one parcel of streets round all of them."""

    def test_streets_have_holes(self) -> None:
        self.open('-', '--title', 'Town', given=run('bench', '--write', 'town', '2'))
        self.assertEqual(self.text('counts').split(',')[0], '257 parcels')
        self.find('streets')
        self.press('#results .link', 'Parcel 257')
        self.assertEqual([it.text.split(',')[0] for it in self.all('#details caption')],
                         ['Outline', 'Hole 1', 'Hole 2', 'Hole 3', 'Hole 4'])
        self.shot('town')
        position = self.js("""const box = boxOf(plan, 'parcel', 20);
            return [(box.west + box.east) / 2 + plan.origin[0], (box.south + box.north) / 2 + plan.origin[1]]""")
        self.click(position[0] / 1000, position[1] / 1000)
        self.assertEqual(self.title(), 'Parcel 21')


if __name__ == '__main__':
    unittest.main()
