"""The page of examples/block.csv: the panel, the search, layers, keys, and what changed in the afternoon.

What is expected is worked by hand from the plan's records: two lots of 30 m by 40 m, from 512340 5403120 on.
"""
from __future__ import annotations

import importlib
import os
import re
import unittest
from typing import Any

from opened import NARROW, TOP, Opened, run

BLOCK = os.path.join(TOP, 'examples', 'block.csv')
EAST, NORTH = 512340, 5403120
GROUND, OUTSIDE = (255, 253, 246), (230, 228, 221)
PLAN_1987 = '1 Cadastral plan 1987/12'
SEES_FOCUS = """return getComputedStyle(document.activeElement).outlineStyle !== 'none'
  || document.activeElement === byId('map') && getComputedStyle(byId('frame')).display !== 'none'"""
CONTROLS = 'button, input, summary, a, select, textarea, [tabindex="0"]'


def keys() -> Any:
    return importlib.import_module('selenium.webdriver.common.keys').Keys


def is_red(colour: tuple[int, int, int]) -> bool:
    """Whether a colour is near to that of what was removed."""
    return colour[0] > 150 and colour[1] < 130 and colour[2] < 130


class Morning(Opened):
    """The block before the afternoon's job."""

    def setUp(self) -> None:
        self.open(BLOCK)

    def test_a_parcel_is_clicked(self) -> None:
        self.click(EAST + 15, NORTH + 20, aside=(0, 40))
        self.assertEqual(self.title(), 'Parcel 101')
        self.assertEqual(self.all('#details .label')[0].text, 'Mill Lane 2')
        self.assertEqual(self.details(), {
            'Area': '1200.00 m²', 'Sources': PLAN_1987,
            'Neighbours': 'the outside along boundaries 11, 15, 16\nParcel 102 along boundary 17'})
        self.assertEqual([it.text for it in self.all('#details caption')], ['Outline, 4 corners'])
        self.assertEqual(self.corners(), [
            ['1', '512340.000', '5403120.000', '1'], ['2', '512370.000', '5403120.000', '1'],
            ['5', '512370.000', '5403160.000', '1'], ['6', '512340.000', '5403160.000', '1']])
        self.assertEqual(self.by('chosen').get_attribute('textContent'),
                         'Parcel 101, Mill Lane 2, 1200.00 square metres')
        self.assertEqual(self.js('return location.hash'), '#parcel-101')
        self.shot('block')

    def test_a_point_and_a_boundary_are_clicked(self) -> None:
        self.click(EAST + 30, NORTH + 40, aside=(2, 2))
        self.assertEqual((self.title(), self.details()), ('Point 5', {
            'East': '512370.000 m', 'North': '5403160.000 m', 'Boundaries': '14, 15, 17', 'Sources': PLAN_1987}))
        self.click(EAST + 30, NORTH + 20, aside=(1, 0))
        self.assertEqual((self.title(), self.details()), ('Boundary 17', {
            'From': 'Point 2', 'To': 'Point 5', 'On its left': 'Parcel 101', 'On its right': 'Parcel 102',
            'Sources': PLAN_1987}))
        self.press('#details .link', 'Parcel 102')
        self.assertEqual(self.title(), 'Parcel 102')
        self.click(EAST + 30, NORTH + 40, aside=(0, -20))
        self.assertFalse(self.by('panel').is_displayed())

    def test_search(self) -> None:
        self.assertEqual(self.find('102'), ['Parcel 102 Mill Lane 4'])
        self.assertEqual(self.find('1')[0], 'Parcel 101 Mill Lane 2')
        self.assertEqual(self.find('mill LANE 2'), ['Parcel 101 Mill Lane 2'])
        self.assertEqual(self.find('pages 14'), ['Source 2 Field book 2026/3, pages 14 to 16'])
        self.assertEqual(self.find('none of it'), [])
        self.assertEqual(self.text('found'), 'Nothing found')
        self.assertEqual(self.find('cadastral'), ['Source 1 Cadastral plan 1987/12'])
        self.press('#results .link')
        self.assertEqual(self.details(), {'Parcels (2)': '101, 102', 'Boundaries (1)': '17',
                                          'Points (6)': '1, 2, 3, 4, 5, 6'})
        self.shot('search')

    def test_what_is_found_is_shown(self) -> None:
        for _ in range(4):
            self.press('#zoom-in')
        self.click(EAST + 30, NORTH + 20)
        self.find('6')
        self.press('#results .link', 'Point 6')
        at = self.where(EAST, NORTH + 40)
        self.assertTrue(self.js("return document.elementFromPoint(...arguments)?.closest('#map') !== null", *at))

    def test_layers(self) -> None:
        corner, side, inside = (EAST, NORTH + 40), (EAST + 15, NORTH), (EAST + 5, NORTH + 5)
        self.assertEqual(self.colour(*inside), GROUND)
        self.assertIn((255, 255, 255), self.around(*corner))  # A ring, white inside.
        self.assertTrue(any(max(it) < 150 for it in self.around(*side)))
        self.press('#show-points')
        self.assertNotIn((255, 255, 255), self.around(*corner))
        self.assertTrue(any(max(it) < 150 for it in self.around(*corner)))
        self.press('#show-strings')
        self.assertEqual({*self.around(*side)} - {GROUND, OUTSIDE}, set())
        self.press('#show-parcels')
        self.assertEqual({*self.around(*corner), *self.around(*side), *self.around(*inside)}, {OUTSIDE})
        self.click(*inside)
        self.assertFalse(self.by('panel').is_displayed())

    def test_an_address_names_a_parcel(self) -> None:
        self.open(BLOCK, after='#parcel-102')
        self.assertEqual(self.title(), 'Parcel 102')
        self.open(BLOCK, after='#parcel-7')
        self.assertEqual((self.title(), self.text('details')), ('Parcel 7', 'The plan has none of this number.'))

    def test_the_scale_bar(self) -> None:
        for _ in range(2):
            said = self.text('bar-length')
            self.assertRegex(said, r'^[125]0* m$')
            bar = self.by('bar').rect['width']
            west, east = self.where(EAST, NORTH)[0], self.where(EAST + int(said[:-2]), NORTH)[0]
            self.assertAlmostEqual(bar, east - west, delta=1)
            self.press('#zoom-in')

    def test_print(self) -> None:
        pdf = self.sheet()
        self.assertEqual(self.by('paper-scale').get_attribute('textContent'), '1 : 500')
        bar = self.js("return parseFloat(byId('paper-bar').style.width)")
        self.assertAlmostEqual(bar, 40 * 96 / 25.4, places=3)  # 20 m at 1 : 500, 96 pixels an inch.
        self.assertEqual(len(re.findall(rb'/Type\s*/Page\b', pdf)), 1)
        if os.environ.get('SHOTS'):
            with open(os.path.join(os.environ['SHOTS'], 'sheet.pdf'), 'wb') as file:
                file.write(pdf)


class Keys(Opened):
    """Everything by the keyboard alone."""

    def setUp(self) -> None:
        self.open(BLOCK)

    def focused(self) -> str:
        """The id of what has the focus, or its text."""
        active = self.driver.switch_to.active_element
        return str(active.get_attribute('id') or active.text)

    def tab_to(self, name: str) -> None:
        for _ in range(40):
            if self.focused() == name:
                return
            self.type(keys().TAB)
        self.fail(f'{name} is not reached: {self.focused()}')

    def test_all_controls_are_reached_and_have_names(self) -> None:
        self.js("chooseByAddress(location.hash = '#parcel-101')")
        self.type(keys().TAB)
        reached = []
        while not self.js('return document.activeElement === document.body'):
            reached.append(self.focused())
            self.assertTrue(self.js(SEES_FOCUS), self.focused())
            self.type(keys().TAB)
        self.assertEqual(reached[:7], ['query', 'map', 'zoom-in', 'zoom-out', 'whole', 'print', 'close'])
        self.assertEqual(reached[-5:], ['show-parcels', 'show-strings', 'show-points', 'Keys', 'About this page'])
        shown = [it for it in self.all(CONTROLS) if it.is_displayed()]
        self.assertEqual(len(reached), len(shown))
        self.assertEqual([it.get_attribute('outerHTML') for it in shown if not it.accessible_name], [])

    def test_the_map(self) -> None:
        self.tab_to('map')
        self.assertTrue(self.by('frame').is_displayed())
        self.type(keys().ENTER)  # The block is a little west of the middle, where the buttons leave room.
        self.assertEqual(self.title(), 'Parcel 102')
        self.type(keys().ARROW_LEFT)
        self.type(keys().ENTER)
        self.assertEqual(self.title(), 'Parcel 101')
        before = self.text('bar-length')
        self.type('+')
        self.wait(lambda: self.text('bar-length') != before)
        self.shot('keys')
        self.type(keys().ESCAPE)
        self.assertFalse(self.by('panel').is_displayed())

    def test_the_search_and_the_panel(self) -> None:
        self.tab_to('query')
        self.type('mill')
        self.type(keys().ENTER)
        self.assertEqual((self.title(), self.focused()), ('Parcel 101', 'query'))
        self.type(keys().ARROW_DOWN, keys().ARROW_DOWN)
        self.type(keys().ENTER)
        self.assertEqual(self.title(), 'Parcel 102')
        self.type(keys().ARROW_UP, keys().ARROW_UP)
        self.assertEqual(self.focused(), 'query')
        self.tab_to('Parcel 101')
        self.type(keys().ENTER)
        self.assertEqual((self.title(), self.focused()), ('Parcel 101', 'panel-title'))
        self.type(keys().TAB)
        self.assertEqual(self.focused(), 'close')
        self.type(keys().ENTER)
        self.assertEqual((self.by('panel').is_displayed(), self.focused()), (False, 'map'))

    def test_layers(self) -> None:
        self.tab_to('show-parcels')
        self.type(' ')
        self.assertEqual(self.colour(EAST + 5, NORTH + 5), OUTSIDE)


class Evening(Opened):
    """The block after the afternoon's job, beside the morning's. docs/page.png is made here."""
    SIZE = (1280, 960)

    def setUp(self) -> None:
        evening = os.path.join(self.folder, 'evening.csv')
        with open(evening, 'wb') as file:
            file.write(run('cadedit', BLOCK))
        self.open(evening, '--since', BLOCK, '--title', 'Mill Lane')

    def test_what_changed(self) -> None:
        self.assertEqual(self.text('changes-title'), 'Changes since block')
        lines = [it.text for it in self.all('#change-list .link')]
        for line in ('Parcel 101 Mill Lane 2 and 4a changed', 'Parcel 102 Mill Lane 4 changed',
                     'Parcel 104 Transformer station added', 'Parcel 103 removed', 'Boundary 13 removed',
                     'Boundary 17 removed', 'Boundary 31 added', 'Point 11 added',
                     'Source 3 Division 2026/118 added'):
            self.assertIn(line, lines)
        self.assertFalse([it for it in lines if it.startswith(('Boundary 11 ', 'Point 1 ', 'Source 1 '))])

    def test_a_parcel_that_changed(self) -> None:
        self.press('#change-list .link', 'Parcel 101')
        self.assertEqual(self.title(), 'Parcel 101')
        details = self.details()
        self.assertEqual(details['Area'], '1751.00 m²')
        self.assertEqual(details['Sources'], f'{PLAN_1987}\n3 Division 2026/118')
        self.assertTrue(details['Was'].startswith('1200.00 m2 at '), details['Was'])
        self.assertTrue(details['Is'].endswith(' by 1 3: Mill Lane 2 and 4a'), details['Is'])
        self.assertEqual([it.text for it in self.all('#details caption')],
                         ['Outline, 10 corners', 'Hole 1, 4 corners'])
        self.shot('evening')

    def test_an_island(self) -> None:
        self.click(EAST + 12, NORTH + 31.5, aside=(0, -9))
        self.assertEqual((self.title(), self.details()['Area']), ('Parcel 104', '12.00 m²'))
        self.assertEqual(self.details()['Neighbours'], 'Parcel 101 along boundaries 41, 42, 43, 44')
        self.shot('page')

    def test_the_old_boundary_is_drawn_in_its_place(self) -> None:
        """Boundary 17 ran straight north from point 2; at 11 m it now is half a metre beside that."""
        def reds() -> int:
            return sum(is_red(self.colour(EAST + 30, NORTH + 11, aside=(across, down)))
                       for across in (-1, 0, 1) for down in range(-9, 10))

        self.assertGreater(reds(), 5)
        self.press('#show-changes')
        self.assertEqual(reds(), 0)

    def test_what_is_removed_is_found(self) -> None:
        self.assertIn('Boundary 17 removed', self.find('17'))
        self.press('#results .link', 'Boundary 17')
        self.assertEqual((self.title(), self.details()), ('Boundary 17', {'Was': '2 5 by 1'}))
        self.assertIn('Parcel 103 removed', self.find('103'))
        self.press('#results .link', 'Parcel 103')
        self.assertEqual((self.title(), self.details()), ('Parcel 103', {'Is': 'retired: a merger ended it'}))


class Moved(Opened):
    """The morning's block, and after it point 5 two metres further east."""

    def setUp(self) -> None:
        with open(BLOCK, 'rb') as file:
            plan = file.read().split(b'areas,')[0]
        moved = run('cadedit', given=plan + b'move,5,512372000,5403160000,,,\nprint,,,,,,\n')
        self.open('-', '--since', BLOCK, given=moved)

    def test_a_moved_boundary(self) -> None:
        lines = [it.text for it in self.all('#change-list .link')]
        self.assertEqual(lines, ['Parcel 101 Mill Lane 2 changed', 'Parcel 102 Mill Lane 4 changed', 'Point 5 changed'])
        self.shot('moved')
        red = [self.colour(EAST + 30, NORTH + 40, aside=(it, it)) for it in (-3, -2, 2, 3)]
        self.assertTrue(all(map(is_red, red)), red)  # The cross where point 5 was.
        self.assertIn((138, 82, 0), self.around(EAST + 32, NORTH + 40))  # The diamond where it is.
        self.press('#change-list .link', 'Parcel 101')
        self.assertEqual(self.details()['Area'], '1240.00 m²')  # 40 m2 more: a triangle of 2 m by 40 m.
        self.press('#details .link', '17')
        self.assertIn('changed: its ends moved', self.text('details'))


class Narrow(Opened):
    """A window as wide as a telephone."""
    SIZE = NARROW

    def test_it_has_room(self) -> None:
        self.open(BLOCK)
        self.shot('narrow')
        self.assertEqual(self.js('return document.documentElement.scrollWidth'), NARROW[0])
        self.assertGreaterEqual(self.by('map').rect['height'], 240)
        tools, foot = self.by('tools').rect, self.by('foot').rect
        self.assertTrue(foot['x'] + foot['width'] <= tools['x'] or tools['y'] + tools['height'] <= foot['y'])
        self.click(EAST + 15, NORTH + 20, aside=(0, 30))
        self.assertEqual((self.title(), self.details()['Area']), ('Parcel 101', '1200.00 m²'))
        panel, frame = self.by('panel-title').rect, self.js('return scrollY')
        self.assertLess(panel['y'] - frame, NARROW[1])
        self.shot('narrow-panel')
        self.assertEqual(self.js('return document.documentElement.scrollWidth'), NARROW[0])

    def test_changes_have_room(self) -> None:
        evening = os.path.join(self.folder, 'evening.csv')
        with open(evening, 'wb') as file:
            file.write(run('cadedit', BLOCK))
        self.open(evening, '--since', BLOCK)
        self.press('#change-list .link', 'Parcel 104')
        self.shot('narrow-evening')
        self.assertEqual(self.js('return document.documentElement.scrollWidth'), NARROW[0])


if __name__ == '__main__':
    unittest.main()
