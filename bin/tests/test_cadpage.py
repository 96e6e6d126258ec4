"""bin/cadpage: the data of a page, the file that is put together, what the command says. tests/browser opens it."""
from __future__ import annotations

import base64
import hashlib
import json
import os
import re
import shutil
import subprocess
import tempfile
import unittest
import unittest.mock
from html.parser import HTMLParser
from typing import Any

from checked import PATH, TOP, TWO_LOTS, needs_viewer

from lib.boxes import Missing
from lib.page import command, data, sheet
from lib.page.data import ADDED, CHANGED, REMOVED, Places, Tables
from lib.views import NotShown, shown

COMMAND = os.path.join(TOP, 'bin', 'cadpage')
LIBRARY = ('var L = {};', '.leaflet-map { left: 0 }', 'Files: * <nobody>')
needs_leaflet = unittest.skipUnless(os.path.isdir(sheet.LEAFLET), 'libjs-leaflet is not installed')

# A square of 10 m with a hole, whose corners are 1 mm beside whole metres, and an island in it.
PARCELS = [['7', 'Lake', '99.00', '198000000', '2 1', 'POLYGON((-5.000 0.000,5.000 0.000,5.000 10.000,-5.000 10.000,'
            '-5.000 0.000),(0.001 1.000,1.001 2.000,1.001 1.000,0.001 1.000))'],
           ['9', 'Island', '0.50', '1000000', '', 'POLYGON((0.001 1.000,1.001 1.000,1.001 2.000,0.001 1.000))']]
POINTS = [['4', '1', 'POINT(-5.000 0.000)'], ['1', '', 'POINT(5.000 0.000)'], ['2', '1', 'POINT(5.000 10.000)'],
          ['3', '', 'POINT(-5.000 10.000)'], ['11', '', 'POINT(0.001 1.000)'], ['12', '', 'POINT(1.001 1.000)'],
          ['13', '', 'POINT(1.001 2.000)']]
STRINGS = [['21', '4', '1', '7', '0', '1', 'LINESTRING(-5.000 0.000,5.000 0.000)'],
           ['31', '11', '12', '9', '7', '', 'LINESTRING(0.001 1.000,1.001 1.000)']]
TABLES = Tables({'parcels': PARCELS, 'points': POINTS, 'strings': STRINGS, 'sources': [['1', 'A'], ['2', 'B']],
                 'retired': []})


def summed(steps: list[int]) -> list[int]:
    """The numbers of which these are the steps."""
    return [sum(steps[:place + 1]) for place in range(len(steps))]


class Numbers(unittest.TestCase):
    def test_steps(self) -> None:
        self.assertEqual(data.steps([]), [])
        self.assertEqual(data.steps([7, 8, 3, 3]), [7, 1, -5, 0])

    def test_positions_are_millimetres(self) -> None:
        self.assertEqual(data.position_of('-0.005 512340.000'), (-5, 512340000))
        self.assertEqual(data.position_of('10000000.000 -10000000.000'), (10 ** 10, -10 ** 10))

    def test_rings(self) -> None:
        self.assertEqual(data.rings_of('POLYGON((0.000 0.000,1.000 0.000,0.000 1.000,0.000 0.000))'),
                         [['0.000 0.000', '1.000 0.000', '0.000 1.000']])
        self.assertEqual([len(it) for it in data.rings_of(PARCELS[0][-1])], [4, 3])


class Rows(unittest.TestCase):
    """The origin is 5 m west of 0, so that point 4 lies at 0, 0."""

    def setUp(self) -> None:
        places = Places(TABLES.places('sources'))
        self.told: dict[str, Any] = data.geometry_told(TABLES, data.origin_of(TABLES), places)
        self.lists = places.lists_told()

    def test_points(self) -> None:
        points = self.told['points']
        self.assertEqual(summed(points['number']), [4, 1, 2, 3, 11, 12, 13])
        self.assertEqual(summed(points['x']), [0, 10000, 10000, 0, 5001, 6001, 6001])
        self.assertEqual(summed(points['y']), [0, 0, 10000, 10000, 1000, 1000, 2000])
        self.assertEqual([self.lists[it] for it in summed(points['sources'])], [[0], [], [0], [], [], [], []])

    def test_strings(self) -> None:
        strings = self.told['strings']
        for name, wanted in (('first', [0, 4]), ('second', [1, 5]), ('left', [0, 1]), ('right', [-1, 0])):
            self.assertEqual(summed(strings[name]), wanted, name)

    def test_parcels(self) -> None:
        parcels = self.told['parcels']
        self.assertEqual((parcels['label'], parcels['area']), (['Lake', 'Island'], ['99.00', '0.50']))
        self.assertEqual((parcels['rings'], parcels['sizes']), ([2, 1], [4, 3, 3]))
        self.assertEqual(summed(parcels['corners']), [0, 1, 2, 3, 4, 6, 5, 4, 5, 6])
        self.assertEqual([self.lists[it] for it in summed(parcels['sources'])], [[1, 0], []])

    def test_a_plan_without_rows(self) -> None:
        empty = Tables({layer: [] for layer in TABLES.rows})
        self.assertEqual(data.origin_of(empty), (0, 0))
        columns = ('number', 'label', 'area', 'sources', 'rings', 'sizes', 'corners')
        self.assertEqual(data.geometry_told(empty, (0, 0), Places({}))['parcels'], {it: [] for it in columns})


class Differences(unittest.TestCase):
    def test_words(self) -> None:
        for kind, was, now, word in (('point', '', '0.000 0.000', ADDED), ('point', '0.000 0.000', '', REMOVED),
                                     ('source', 'A', 'retired', CHANGED), ('source', '', 'retired', ADDED),
                                     ('parcel', '1.00 m2: x', 'retired', REMOVED), ('parcel', '', 'retired', REMOVED),
                                     ('parcel', 'retired', '1.00 m2: x', ADDED), ('parcel', 'retired', '', REMOVED),
                                     ('parcel', '1.00 m2: x', '1.00 m2: retired', CHANGED)):
            self.assertEqual(data.word_of(kind, was, now), word, (kind, was, now))

    def left(self, new: dict[str, list[list[str]]], differing: list[list[str]]) -> dict[str, list[str]]:
        found = data.left_over(TABLES, Tables({**TABLES.rows, **new}), differing)
        return {layer: [row[0] for row in rows] for layer, rows in found.rows.items()}

    def test_nothing_is_left(self) -> None:
        turned = [['21', '1', '4', '0', '7', '1', 'LINESTRING(5.000 0.000,-5.000 0.000)'], STRINGS[1]]
        for new in (TABLES.rows, {'strings': turned}):
            self.assertEqual(self.left(new, []), {'points': [], 'strings': [], 'parcels': []})

    def test_what_moved_is_left_with_its_points(self) -> None:
        points = [*POINTS[:6], ['13', '', 'POINT(1.001 2.001)']]
        strings = [STRINGS[0], [*STRINGS[1][:6], 'LINESTRING(0.001 1.000,1.001 1.001)']]
        self.assertEqual(self.left({'points': points, 'strings': strings}, [['parcel', '9', '0.50 m2: Island', '']]),
                         {'points': ['11', '12', '13'], 'strings': ['31'], 'parcels': ['9']})

    def test_what_went_is_left(self) -> None:
        self.assertEqual(self.left({'strings': STRINGS[:1], 'points': POINTS[1:]}, []),
                         {'points': ['4', '11', '12'], 'strings': ['31'], 'parcels': []})


class Reader(HTMLParser):
    """The texts of scripts and styles, the policy, and what the attributes ask for."""

    def __init__(self, text: str) -> None:
        super().__init__()
        self.texts: list[tuple[str, str]] = []
        self.policy = self.inside = ''
        self.asked: list[str] = []
        self.feed(text)

    def handle_starttag(self, tag: str, attrs: list[tuple[str, str | None]]) -> None:
        values = dict(attrs)
        self.inside = values.get('type') or tag
        self.asked += [value or '' for name, value in attrs
                       if name in ('src', 'href', 'style') or name.startswith('on')]
        if values.get('http-equiv') == 'Content-Security-Policy':
            self.policy = values['content'] or ''

    def handle_data(self, data: str) -> None:
        if self.inside in ('script', 'style', 'application/json', 'title'):
            self.texts.append((self.inside, data))

    def handle_endtag(self, tag: str) -> None:
        self.inside = ''

    def of(self, kind: str) -> list[str]:
        return [text for name, text in self.texts if name == kind]


class Sheets(unittest.TestCase):
    HOSTILE = ['</script><script>alert(1)</script>', '<!--', '"\'&\\', '\0\x1b\u202e\u2028\U0001f3e0', '{{data}}']

    def setUp(self) -> None:
        with unittest.mock.patch.object(sheet, 'leaflet', return_value=LIBRARY):
            self.text = sheet.page(''.join(self.HOSTILE), {'label': self.HOSTILE})
        self.read = Reader(self.text)

    def test_the_data_is_told_whole_and_ends_nothing(self) -> None:
        self.assertEqual([json.loads(it) for it in self.read.of('application/json')], [{'label': self.HOSTILE}])
        self.assertTrue(self.read.of('application/json')[0].isascii())
        self.assertEqual(self.text.count('</script'), 3)

    def test_the_title(self) -> None:
        self.assertEqual(''.join(self.read.of('title')), ''.join(self.HOSTILE))

    def test_the_policy_allows_what_is_there(self) -> None:
        for kind in ('script', 'style'):
            sums = ["'sha256-" + base64.b64encode(hashlib.sha256(text.encode()).digest()).decode() + "'"
                    for text in self.read.of(kind)]
            self.assertEqual(len(sums), 2)
            self.assertIn(f'{kind}-src {" ".join(sums)};', self.read.policy + ';')
        self.assertTrue(self.read.policy.startswith("default-src 'none'; "))

    def test_nothing_is_asked_for(self) -> None:
        self.assertEqual(self.read.asked, [])
        self.assertIsNone(re.search(r'url\(|@import|sourceMappingURL', self.text))

    @needs_leaflet
    def test_leaflet_and_its_licence(self) -> None:
        script, style, licence = sheet.leaflet()
        self.assertIn('GridLayer', script)
        self.assertIn('.leaflet-tile-pane', style)
        self.assertIn('Vladimir Agafonkin', licence)
        self.assertIn('Redistribution and use in source and binary forms', licence)
        self.assertIsNone(re.search(r'url\(|@import', style))
        self.assertNotIn('sourceMappingURL', script + style)
        self.assertEqual(style.count('{'), style.count('}'))

    def test_without_leaflet(self) -> None:
        with self.assertRaises(Missing):
            sheet.leaflet('/nowhere')


class Command(unittest.TestCase):
    """The command in a process of its own, with a folder for plans."""

    def setUp(self) -> None:
        self.folder = tempfile.mkdtemp(prefix='cadpage-')
        self.addCleanup(shutil.rmtree, self.folder)
        self.write('lots.csv', TWO_LOTS)

    def write(self, name: str, text: str) -> None:
        with open(os.path.join(self.folder, name), 'w', encoding='utf-8') as file:
            file.write(text)

    def run_it(self, *words: str, given: str = '') -> tuple[int, str, str]:
        """The status, the page, and what is said on standard error."""
        done = subprocess.run([COMMAND, *words], cwd=self.folder, input=given.encode(), capture_output=True,
                              env={**os.environ, 'PATH': PATH, 'UNPROVED_OK': '1', 'TMPDIR': self.folder})
        return done.returncode, done.stdout.decode(), done.stderr.decode()

    def data_of(self, *words: str, given: str = '') -> dict[str, Any]:
        """The data of the page, which is made without a word."""
        status, out, err = self.run_it(*words, given=given)
        self.assertEqual((status, err), (0, ''))
        self.assertEqual([it for it in os.listdir(self.folder) if not it.endswith('.csv')], [])
        told: dict[str, Any] = json.loads(Reader(out).of('application/json')[0])
        return told

    def test_wrong_words(self) -> None:
        for line in ('', 'a b', 'lots.csv --sinc x', '- --since -'):
            status, out, err = self.run_it(*line.split())
            self.assertEqual((status, out, err.count('\n')), (64, '', 1), line)
            self.assertTrue(err.startswith('cadpage: '), err)

    def test_without_leaflet(self) -> None:
        with unittest.mock.patch.object(command, 'leaflet', side_effect=Missing('libjs-leaflet')), \
                unittest.mock.patch('sys.stderr') as err:
            self.assertEqual(command.main(['lots.csv']), 1)
        self.assertEqual(err.write.call_args_list[0].args[0],
                         "cadpage: Debian's package libjs-leaflet is missing: apt-get install libjs-leaflet")

    def test_without_a_program(self) -> None:
        with self.assertRaises(NotShown) as raised:
            shown(os.path.join(self.folder, 'none'), ['table'], [])
        self.assertEqual(raised.exception.status, 70)

    @needs_leaflet
    @needs_viewer
    def test_a_page(self) -> None:
        told = self.data_of('lots.csv')
        self.assertEqual((told['title'], told['origin']), ('lots', [0, 0]))
        self.assertEqual(told['parcels']['area'], ['100.00', '100.00'])
        self.assertNotIn('since', told)
        self.assertEqual(summed(told['parcels']['corners']), [0, 1, 4, 5, 1, 2, 3, 4])

    @needs_leaflet
    @needs_viewer
    def test_where_a_plan_may_come_from(self) -> None:
        answers = 'ok,,,,,,\n' + TWO_LOTS.replace('Mill', 'Old') + 'ok,,,,,,\n' + TWO_LOTS
        self.write('answers.csv', answers)
        for words, given in ((['-'], TWO_LOTS), (['-', '--title', 'x'], answers), (['answers.csv'], ''),
                             (['/dev/stdin'], TWO_LOTS)):
            told = self.data_of(*words, given=given)
            self.assertEqual(told['parcels']['label'], ['Mill Lane 2', 'Mill Lane 4'])
            self.assertEqual(told['sources']['text'], ['Survey 7'])
        self.assertEqual(self.data_of('-', given=TWO_LOTS)['title'], 'Standard input')
        self.assertEqual(self.data_of('lots.csv', '--title', '</title>')['title'], '</title>')

    @needs_leaflet
    @needs_viewer
    def test_since(self) -> None:
        self.write('new.csv', TWO_LOTS.replace('point,5,10000,', 'point,5,11000,').replace('Lane 4', 'Lane 4a'))
        told = self.data_of('new.csv', '--since', 'lots.csv')['since']
        self.assertEqual(told['name'], 'lots')
        self.assertEqual([it[:3] for it in told['changes']], [['point', 5, CHANGED], ['parcel', 101, CHANGED],
                                                              ['parcel', 102, CHANGED]])
        self.assertEqual(summed(told['strings']['number']), [14, 15, 17])  # Those that end at point 5.
        self.assertEqual(summed(told['points']['x'])[4], 10000)

    @needs_leaflet
    @needs_viewer
    def test_faults_are_told_as_cadview_tells_them(self) -> None:
        self.write('cross.csv', TWO_LOTS.replace('point,5,10000,10000', 'point,5,10000,-10000'))
        self.write('short.csv', TWO_LOTS.replace('open,,,,,,\n', ''))
        for words, given in ((['cross.csv'], ''), (['lots.csv', '--since', 'cross.csv'], ''), (['short.csv'], ''),
                             (['none.csv'], ''), (['lots.csv', '--since', 'none.csv'], ''), (['-'], 'plan,3,,,,,\n'),
                             (['/'], '')):
            seen = subprocess.run([os.path.join(TOP, 'bin', 'cadview'), 'svg', *words], input=given.encode(),
                                  cwd=self.folder, capture_output=True,
                                  env={**os.environ, 'PATH': PATH, 'UNPROVED_OK': '1'})
            self.assertIn(seen.returncode, (2, 3))
            self.assertEqual(self.run_it(*words, given=given), (seen.returncode, '', seen.stderr.decode()), words)

    @needs_leaflet
    @needs_viewer
    def test_a_parcel_of_very_many_corners(self) -> None:
        count = 9000
        all_of_it = range(1, count + 1)
        rows = [*(f'point,{it},{it * 10},{it * it},,,' for it in all_of_it), 'parcel,1,Bowl,,,,',
                *(f'string,{it},{it},{it % count + 1},1,0,' for it in all_of_it)]
        self.write('bowl.csv', '\n'.join(['plan,2,,,,,', *rows, 'open,,,,,,', '']))
        self.assertEqual(self.data_of('bowl.csv')['parcels']['sizes'], [count])

    @needs_leaflet
    @needs_viewer
    def test_what_cannot_be_written(self) -> None:
        with open('/dev/full', 'wb') as full:
            done = subprocess.run([COMMAND, 'lots.csv'], cwd=self.folder, stdout=full, stderr=subprocess.PIPE,
                                  env={**os.environ, 'PATH': PATH, 'UNPROVED_OK': '1'})
        self.assertEqual((done.returncode, done.stderr),
                         (3, b"cadpage: the page can't be written: No space left on device\n"))


if __name__ == '__main__':
    unittest.main()
