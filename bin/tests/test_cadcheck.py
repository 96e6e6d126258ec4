"""bin/cadcheck: what it tells of plans at fault, of refused edits and of files that can't be read. The places and
the words are worked out by hand on the map of checked.py."""
from __future__ import annotations

import os
import unittest

from checked import TWO_LOTS, Checked, needs_program, needs_shapely


def job(*script: str) -> str:
    """A job of the two lots. Its script's first record is record 19, on line 19."""
    return TWO_LOTS + ''.join(f'{it}\n' for it in script)


def slip(old: str, new: str) -> str:
    """The plan with one text exchanged."""
    assert TWO_LOTS.count(old) == 1, old
    return TWO_LOTS.replace(old, new)


@needs_shapely
@needs_program
class Plans(Checked):
    """Plans at fault."""

    def test_a_wrong_coordinate(self) -> None:
        # Point 5 is put 30 m to the east of point 4: strings 14 and 15 both run west from it.
        status, lines = self.check(slip('point,5,10000,', 'point,5,50000,'))
        self.assertEqual(status, 1)
        self.assertEqual(self.heads(lines), [
            'job.csv:7: record 7: plan fault 9 corner point 5: strings 14 and 15 leave point 5 in one direction'])
        self.assertEqual(self.places(lines), [
            'strings 14 and 15 leave point 5 in one direction: POINT(50.000 10.000)',
            'strings 13 and 17 cross: POINT(20.000 2.500)',
            'strings 14 and 15 overlap: LINESTRING(20.000 10.000,50.000 10.000)',
            'point 4 lies on string 15: POINT(20.000 10.000)'])
        likely, = self.likely(lines)
        self.assertTrue(likely.startswith('point 5 (record 7, line 7): all 3 places are at it or at its strings; '
                                          'with x 10000 '
                                          'in the place of 50000 it would fit'), likely)
        self.assertIn('  record: point,5,50000,10000,1,,', lines)
        self.assertEqual(lines[-1], '1 plan fault explained')

    def test_faces_exchanged(self) -> None:
        status, lines = self.check(slip('string,15,5,6,101,0', 'string,15,5,6,0,101'))
        self.assertEqual(status, 1)
        head, = self.heads(lines)
        self.assertEqual(head, 'job.csv:15: record 15: plan fault 10 labels string 15: '
                         'going from point 6 to point 5 string 15 has parcel 101 to its left, and string 14, the '
                         'next one '
                         'round that face, has the outside; '
                         'going from point 5 to point 6 string 15 has the outside to its left, and string 16, the '
                         'next one '
                         'round that face, has parcel 101')
        self.assertEqual(self.likely(lines), ['string 15: with its left and right faces exchanged all would fit'])
        self.assertEqual(len(self.places(lines)), 4)
        self.assertIn('round point 6, between strings 16 and 15, string 16 has parcel 101 and string 15 has the '
                      'outside: '
                      'POINT(0.000 10.000)', self.places(lines))

    def test_one_wrong_face(self) -> None:
        _, lines = self.check(slip('string,12,2,3,102,0', 'string,12,2,3,101,0'))
        self.assertEqual(self.likely(lines), ['string 12: with 102 in the place of 101 to its left all would fit'])

    def test_a_string_that_is_missing(self) -> None:
        _, lines = self.check(slip('string,17,2,5,101,102,1\n', ''))
        self.assertEqual(self.likely(lines), [
            'a string from point 2 to point 5, 101 to its left and 102 to its right, may be missing'])
        _, lines = self.check(slip('string,14,4,5,102,0,\n', ''))
        self.assertEqual(self.heads(lines), [
            'job.csv:13: record 13: plan fault 8 dangling string 13: no string but 13 is at point 4'])
        self.assertEqual(self.likely(lines), [
            'a string from point 4 to point 5, 102 to its left and 0 to its right, may be missing'])

    def test_all_broken_pairs(self) -> None:
        # Point 7 is in the middle of string 11, point 8 at point 3, point 9 on string 17 a third up.
        points = 'point,7,5000,0,,,\npoint,8,20000,0,,,\npoint,9,10000,3333,,,\n'
        _, lines = self.check(slip('parcel,101', f'{points}parcel,101'))
        self.assertEqual(self.heads(lines), [
            'job.csv:10: record 10: plan fault 11 breaks V3: points 3 and 8 are at one place'])
        self.assertEqual(self.places(lines), [
            'points 3 and 8 are at one place: POINT(20.000 0.000)',
            'point 7 lies on string 11: POINT(5.000 0.000)', 'point 9 lies on string 17: POINT(10.000 3.333)'])

    def test_parcels_that_overlap(self) -> None:
        # Two squares of 10 m, of which the second begins in the middle of the first.
        def square(first: int, at: int, parcel: int) -> list[str]:
            corners = [(at, at), (at + 10000, at), (at + 10000, at + 10000), (at, at + 10000)]
            points = [f'point,{first + i},{x},{y},,,' for i, (x, y) in enumerate(corners)]
            return [f'parcel,{parcel},Lot,,,,', *points] + [
                f'string,{first + i},{first + i},{first + (i + 1) % 4},{parcel},0,' for i in range(4)]

        records = ['plan,2,,,,,', *square(1, 0, 101), *square(11, 5000, 102), 'open,,,,,,']
        _, lines = self.check('\n'.join(records))
        self.assertIn('plan fault 11 breaks V4: strings 2 and 11 cross', lines[0])
        self.assertEqual(self.places(lines), ['strings 2 and 11 cross: POINT(10.000 5.000)',
                                              'strings 3 and 14 cross: POINT(5.000 10.000)'])

    def test_rings(self) -> None:
        _, lines = self.check(slip('string,11', 'parcel,103,Nowhere,,,,\nstring,11'))
        self.assertEqual(self.heads(lines), ['job.csv:11: record 11: plan fault 11 breaks V7: parcel 103 has no '
                                             'boundary: no '
                                             'string has it on either hand'])
        island = ('point,7,2000,2000,,,\npoint,8,4000,2000,,,\npoint,9,4000,4000,,,\nparcel,103,Kiosk,,,,\n'
                  'string,21,7,8,103,0,\nstring,22,8,9,103,0,\nstring,23,9,7,103,0,\n')
        _, lines = self.check(slip('string,11', f'{island}string,11'))
        self.assertEqual(self.places(lines), ['hole (7 9 8) of the outside lies in its hole (1 6 5 4 3 2): it is '
                                              'in parcel 101: '
                                              'POLYGON((2.000 2.000,4.000 4.000,4.000 2.000,2.000 2.000))'])
        head = 'job.csv:17: record 17: plan fault 11 breaks V8: hole (7 9 8) of the outside'
        self.assertEqual(lines[0][:len(head)], head)

    def test_a_record_of_no_right_form_and_all_others(self) -> None:
        # A blank line, and a text over two lines: record 3 stands on line 5.
        text = slip('point,1,0,0', '\npoint,1,0,O').replace('Survey 7', '"Survey\n7"')
        text = text.replace('string,13,3,', 'sting,13,03,')
        status, lines = self.check(text)
        self.assertEqual(status, 1)
        self.assertEqual(self.heads(lines), [
            'job.csv:5: record 3: plan fault 3 syntax record 3: y (field 4): `O` has the letter O where a digit is '
            'wanted',
            'job.csv:15: record 13: further: sting: no such record of a plan; string?'])
        self.assertEqual(lines[-1], '1 plan fault explained, 1 further finding')

    def test_numbers_and_names(self) -> None:
        for old, new, told in (
                ('point,6,', 'point,5,', 'job.csv:8: record 8: plan fault 5 taken point 5: point 5 stands in '
                                         'record 7, line 7 '
                                         'already'),
                ('open', 'retired,102,,,,,\nopen', 'job.csv:18: record 18: plan fault 5 taken parcel 102: parcel '
                                                   '102 is a row '
                                                   'of the plan, in record 10, line 10, and retired'),
                ('string,16,6,1', 'string,16,6,7', 'job.csv:16: record 16: plan fault 6 unknown point 7: string 16 '
                                                   'names point '
                                                   '7, and there is none'),
                ('string,15,5,6', 'string,15,6,6', 'job.csv:15: record 15: plan fault 8 dangling string 15: both '
                                                   'points of '
                                                   'string 15 are point 6'),
                ('point,3,20000', 'point,3,10000000001', 'job.csv:5: record 5: plan fault 4 range record 5: x is '
                 '10,000,000,001 mm, and 10,000,000,000 mm either way is the limit of version 2'),
                ('plan,2', 'plan,3', 'job.csv:1: record 1: plan fault 2 version: the version is `3`; there are 1 '
                                     'and 2'),
                ('open,,,,,,\n', '', 'job.csv:17: plan fault 12 no-open: the last record is record 17, line 17'),
                ('point,2,10000,0,1', 'point,2,10000,0,' + ' '.join(map(str, range(1, 18))),
                 'job.csv:4: record 4: plan fault 7 full: it has 17 sources, and 16 are the most')):
            _, lines = self.check(slip(old, new))
            self.assertEqual(self.heads(lines)[0], told)

    def test_answers_in_the_place_of_a_plan(self) -> None:
        _, lines = self.check('ok,,,,,,\n' + TWO_LOTS)
        self.assertEqual(self.heads(lines), ['job.csv:1: record 1: plan fault 2 version: ok: no such beginning of '
                                             'a plan; a '
                                             'plan begins at record 2, line 2'])


@needs_shapely
@needs_program
class Scripts(Checked):
    """Edits that are refused, and records that are none of a script."""

    def first(self, *script: str) -> str:
        """The first line of the only finding, without its file, line and record."""
        status, lines = self.check(job(*script))
        self.assertEqual(status, 1)
        self.assertEqual(lines[-1], '1 refusal explained')
        return lines[0].split(': ', 2)[2]

    def test_records_and_lines(self) -> None:
        # Two blank lines and a byte order mark: records 19 and 21 stand on lines 21 and 24.
        text = '\ufeff' + job('\n\ndrop-point,1,,,,,', 'add-source,2,"Two\nlines",,,,', 'divid,101,1 4,18,103,x,1')
        status, lines = self.check(text)
        self.assertEqual(status, 1)
        self.assertEqual(self.heads(lines), [
            'job.csv:21: record 19: refused 7 not-free point 1: point 1 is on strings 11 and 16',
            'job.csv:24: record 21: syntax: divid: no such edit; divide?'])
        self.assertEqual(self.places(lines), ['point 1: POINT(0.000 0.000)'])
        self.assertEqual(lines[-1], '1 refusal and 1 syntax explained')

    def test_nothing_to_explain(self) -> None:
        self.assertEqual(self.check(job('areas,,,,,,', 'print,,,,,,', 'outline,101,,,,,')), (0, ['nothing to '
                                                                                                 'explain']))

    def test_notes_change_no_status(self) -> None:
        sources = ['add-source,2,B,,,,', 'add-source,3,C,,,,']
        status, lines = self.check(job('undo,,,,,,', *sources, 'undo,,,,,,', 'undo,,,,,,'),
                                   '--depth', '1')
        self.assertEqual(status, 0)
        self.assertEqual(self.heads(lines), [
            'job.csv:19: record 19: note: nothing to undo: no edit was made before it',
            'job.csv:23: record 23: note: nothing to undo: the last edit is undone, and no older one can be '
            '(--depth)'])
        self.assertEqual(lines[-1], 'nothing to explain, 2 notes')

    def test_numbers(self) -> None:
        self.assertEqual(self.first('add-point,20,0,-10000000001,,,'),
                         'refused 1 range: y is -10,000,000,001 mm, and 10,000,000,000 mm either way is the limit')
        self.assertEqual(self.first('add-point,4,5,5,,,'),
                         'refused 3 taken point 4: point 4 is in use since record 6 (line 6); point 7 is free')
        self.assertEqual(self.first('merge,101,0,,,,'), 'refused 5 outside: the second of the two is the outside, 0')
        self.assertEqual(self.first('rename,101,Mill Lane 2,,,,'),
                         'refused 6 no-change: parcel 101 is called `Mill Lane 2` already')
        self.assertEqual(self.first('join,2,18,,,,'),
                         'refused 8 not-degree-two point 2: point 2 is on strings 11, 12 and 17')
        self.assertEqual(self.first('merge,101,101,,,,'), 'refused 12 same-parcel: both are parcel 101')
        self.assertEqual(self.first('attach,parcel,101,1,,,'), 'refused 15 already-attached: parcel 101 has source '
                                                               '1')
        self.assertEqual(self.first('detach,string,11,1,,,'), 'refused 16 not-attached: string 11 has no source')

    def test_what_went_before(self) -> None:
        _, lines = self.check(job('add-point,8,10000,0,,,', 'drop-point,8,,,,,', 'merge,101,102,,,,',
                                  'rename,102,x,,,,', 'divide,101,2 5,17,102,x,1'))
        self.assertEqual(self.heads(lines), [
            'job.csv:19: record 19: refused 18 breaks V3: points 2 and 8 would be at one place',
            'job.csv:20: record 20: refused 2 unknown point 8: there is no point 8 here: record 19 (line 19), '
            'which would have '
            'given it, was refused: 18 breaks V3',
            'job.csv:22: record 22: refused 2 unknown parcel 102: there is no parcel 102 here: record 21 (line 21) '
            'ended it',
            'job.csv:23: record 23: refused 4 retired parcel 102: parcel 102 was ended by record 21 (line 21); '
            'parcel 103 is '
            'free'])

    def test_chains(self) -> None:
        self.assertEqual(self.first('divide,101,1 5,18 19,103,x,1'),
                         'refused 9 bad-chain: 2 points and 2 strings, where 1 string is wanted')
        self.assertEqual(self.first('enclose,101,20,21,103,x,1', ).split(':')[0], 'refused 2 unknown point 20')
        self.assertEqual(self.first('divide,101,1 4,18,103,x,1'), 'refused 10 not-in-parcel point 4: the line from '
                                                                  'point 4 to '
                         'point 1 leads into parcel 102, not into parcel 101')
        self.assertEqual(self.first('divide,101,1 2,18,103,x,1'),
                         'refused 10 not-in-parcel point 1: the line from point 1 to point 2 runs along string 11')
        self.assertEqual(self.first('add-point,7,15000,5000,,,', 'divide,101,7 5,18,103,x,1'),
                         'refused 10 not-in-parcel point 7: point 7 is on no string, in parcel 102; a line begins '
                         'and ends at '
                         'points of the boundary of parcel 101')
        self.assertEqual(self.first('divide,101,5 5,18,103,x,1'), 'refused 9 bad-chain: point 5 stands twice')

    def test_places_of_a_move(self) -> None:
        # Point 5 goes 30 m to the east, across string 13; string 15 then runs over string 14 and point 4.
        status, lines = self.check(job('move,5,50000,10000,,,'))
        self.assertEqual(status, 1)
        self.assertIn('refused 18 breaks V4: strings 13 and 17 would cross', lines[0])
        self.assertEqual(self.places(lines), [
            'strings 13 and 17 would cross: POINT(20.000 2.500)',
            'strings 14 and 15 would overlap: LINESTRING(20.000 10.000,50.000 10.000)',
            'point 4 would lie on string 15: POINT(20.000 10.000)'])

    def test_places_of_the_map_before_the_record(self) -> None:
        # String 17 is bent to (12, 5) by then, and undone again before the second point.
        _, lines = self.check(job('split,17,7,12000,5000,21,22', 'add-point,8,11000,2500,,,', 'undo,,,,,,',
                                  'add-point,8,10000,2500,,,'))
        self.assertEqual(self.places(lines), ['point 8 would lie on string 21: POINT(11.000 2.500)',
                                              'point 8 would lie on string 17: POINT(10.000 2.500)'])

    def test_a_point_across_a_line(self) -> None:
        # Parcel 102 has a strip along 2 7 4 and a wedge along 2 4; point 7 goes across the wedge's line.
        _, lines = self.check(job('add-point,7,12000,8000,,,', 'divide,102,2 7 4,21 22,103,x,1', 'divide,102,2 '
                                                                                                 '4,23,104,x,1',
                                  'move,7,18000,2000,,,'))
        self.assertIn('refused 18 breaks V6', lines[0])
        self.assertEqual(self.places(lines), [
            'round point 2, counterclockwise, strings 11 12 23 21 17 would stand in the order 11 12 21 23 17: '
            'POINT(10.000 0.000)',
            'round point 4, counterclockwise, strings 13 14 22 23 would stand in the order 13 14 23 22: '
            'POINT(20.000 10.000)'])

    def test_islands(self) -> None:
        points = ['add-point,7,12000,3000,,,', 'add-point,8,15000,3000,,,', 'add-point,9,15000,6000,,,']
        _, lines = self.check(job(*points, 'enclose,102,7 9 8,21 22 23,103,Kiosk,1', 'enclose,101,7 8 9,21 22 '
                                                                                     '23,103,Kiosk,1',
                                  'enclose,102,7 8 9,21 22 23,103,Kiosk,1', 'merge,101,103,,,,', 'divide,102,3 '
                                                                                                 '8,24,104,x,1'))
        self.assertEqual([it.split(': ', 2)[2] for it in self.heads(lines)], [
            'refused 18 breaks V7: parcel 103 would be inside out: ring (7 9 8) runs clockwise',
            'refused 18 breaks V8: points 7, 8 and 9 lie in parcel 102, not in parcel 101',
            'refused 13 not-neighbours: parcel 102 borders on both',
            'refused 11 chain-joins-rings: point 3 is on the outer ring (2 3 4 5), point 8 is on the ring (7 9 8)'])
        self.assertIn('ring (7 9 8) of parcel 102: POLYGON((12.000 3.000,15.000 6.000,15.000 3.000,12.000 3.000))',
                      self.places(lines))

    def test_two_stretches(self) -> None:
        _, lines = self.check(job('split,17,7,10000,3000,21,22', 'split,22,8,10000,6000,23,24',
                                  'add-point,9,7000,4500,,,',
                                  'divide,101,8 9 7,31 32,103,Pond,1', 'merge,101,102,,,,'))
        self.assertEqual(lines[0].split(': ', 2)[2], 'refused 14 not-one-chain: they have 2 stretches in common: '
                                                     'string 21 | '
                         'string 24; parcel 103 borders on both')
        self.assertEqual(self.places(lines), ['string 21: LINESTRING(10.000 0.000,10.000 3.000)',
                                              'string 24: LINESTRING(10.000 6.000,10.000 10.000)'])

    def test_full(self) -> None:
        numbers = range(2, 18)
        script = [f'add-source,{it},S,,,,' for it in numbers] + [f'attach,point,5,{it},,,' for it in numbers]
        self.assertEqual(self.first(*script),
                         'refused 17 full: point 5 has 16 sources, and 16 is the most')

    def test_very_many_refusals(self) -> None:
        _, lines = self.check(job(*['drop-point,1,,,,,'] * 250))
        self.assertEqual(len(self.heads(lines)), 200)
        self.assertEqual(lines[-1], '200 of 250 refusals explained')


@needs_shapely
@needs_program
class Files(Checked):
    """What can't be read, and arguments."""

    def test_no_such_file(self) -> None:
        self.assertEqual(self.run_it('no.csv'), (2, '', 'cadcheck: no.csv: No such file or directory\n'))
        self.assertEqual(self.run_it('.'), (2, '', 'cadcheck: .: Is a directory\n'))

    def test_arguments(self) -> None:
        wrong: list[list[str]] = [[], ['--depth', '0', 'job.csv'], ['--depth', '1001', 'job.csv'],
                                  ['--srs', 'EPSG:25832', 'job.csv'], ['one.csv', 'two.csv']]
        for words in wrong:
            status, out, err = self.run_it(*words)
            self.assertEqual((status, out), (2, ''))
            self.assertIn('cadcheck: error: ', err)

    def test_standard_input(self) -> None:
        status, out, _ = self.run_it('-', given=job('drop-point,1,,,,,').encode())
        self.assertEqual(status, 1)
        self.assertTrue(out.startswith('-:19: record 19: refused 7 not-free point 1'))

    def test_records_of_another_length(self) -> None:
        status, lines = self.check(job('drop-point,1,,,,,', '', 'move,2', 'move,3,5', 'drop-point,2,,,,,'))
        self.assertEqual(status, 1)
        self.assertEqual(self.heads(lines), [
            'job.csv:19: record 19: refused 7 not-free point 1: point 1 is on strings 11 and 16',
            'job.csv:21: record 20 has 2 fields, 7 wanted', 'job.csv:22: record 21: further: it has 3 fields, 7 '
                                                            'wanted'])
        self.assertEqual(lines[-1], '1 read fault and 1 refusal explained, 1 further finding')
        _, lines = self.check(slip('string,13,3,4,102,0,\n', 'string,13\n'))
        self.assertEqual(self.heads(lines), ['job.csv:13: record 13 has 2 fields, 7 wanted'])

    def test_a_quote_that_is_never_closed(self) -> None:
        _, lines = self.check(job('add-source,2,"Survey,,,,', 'undo,,,,,,'))
        self.assertEqual(self.heads(lines), ['job.csv:19: record 19 has 3 fields, 7 wanted; a quote that is opened '
                                             'in it is '
                                             'never closed'])

    def test_other_separators_and_letters(self) -> None:
        _, lines = self.check('plan;2;;;;;\n')
        self.assertEqual(self.heads(lines), ['job.csv:1: record 1: plan fault 3 syntax record 1: it has 1 field, 7 '
                                             'wanted; '
                                             'fields are parted by commas, not by `;`'])
        _, lines = self.check(job('rename,101,Gärtnerei,,,,').encode('latin-1'))
        self.assertEqual(self.heads(lines), ["job.csv:19: record 19: syntax: label (field 3): `G\\xe4rtnerei` "
                                             "isn't UTF-8 at "
                                             'byte 2; as Latin-1 it reads `Gärtnerei`'])
        _, lines = self.check('')
        self.assertEqual(self.heads(lines), ['job.csv:1: plan fault 12 no-open: the input has no record'])

    def test_no_program(self) -> None:
        path = os.path.join(self.folder, 'none')
        self.check(TWO_LOTS)
        status, out, err = self.run_it('--program', path, 'job.csv')
        self.assertEqual((status, out, err), (70, '', f'cadcheck: {path}: No such file or directory\n'))
        status, out, err = self.run_it('--program', '/bin/false', 'job.csv')
        self.assertEqual((status, out), (70, ''))
        self.assertEqual(err, 'cadcheck: /bin/false ended with status 1\n')


@needs_shapely
@needs_program
class Warnings(Checked):
    """What is valid and odd."""

    def test_small_things(self) -> None:
        # String 17 is split 6 mm above point 2, and point 9 lies 8 mm from point 8.
        status, lines = self.check(job('split,17,7,10000,6,21,22', 'add-point,8,5000,5000,,,',
                                       'add-point,9,5000,5008,,,', 'add-point,12,3000,3000,,,'))
        self.assertEqual(status, 0)
        self.assertEqual(self.heads(lines), [
            'job.csv:19: record 19: warning short string: string 21 is 0.006 m long',
            'job.csv:21: record 21: warning near points: points 8 and 9 are 0.008 m from each other'])
        self.assertEqual(self.places(lines)[0], 'string 21 is 0.006 m long: LINESTRING(10.000 0.000,10.000 0.006)')
        self.assertEqual(lines[-1], 'nothing to explain, 2 warnings')

    def test_a_narrow_parcel(self) -> None:
        # A wedge from point 2 to 30 mm beside point 5: 150 m2 by 20 m is 15 mm; of 10 mm it is 5 mm.
        for wide, warned in ((30, 0), (10, 1)):
            status, lines = self.check(job(f'split,14,7,{10000 + wide},10000,21,22', 'divide,102,2 '
                                                                                     '7,31,103,Sliver,1'))
            self.assertEqual(status, 0)
            told = [it for it in lines if 'warning narrow parcel: parcel 103 is 0.005 m wide on the average' in it]
            self.assertEqual(len(told), warned, lines)

    def test_a_negative_area(self) -> None:
        # A hole whose least point is a point of the outer ring, which lies in the hole.
        at = [(0, 0), (40000, -30000), (60000, 0), (40000, 30000), (20000, -5000), (20000, 5000)]
        records = ['plan,2,,,,,', 'parcel,1,Inside and outside,,,,', 'parcel,2,Between,,,,']
        records += [f'point,{number},{x},{y},,,' for number, (x, y) in enumerate(at, 1)]
        outer = ((1, 2), (2, 3), (3, 4), (4, 1))
        records += [f'string,{number},{a},{b},2,1,' for number, (a, b) in enumerate(outer, 1)]
        records += [f'string,{number},{a},{b},1,2,' for number, (a, b) in enumerate(((1, 5), (5, 6), (6, 1)), 5)]
        status, lines = self.check('\n'.join([*records, 'open,,,,,,\n']))
        self.assertEqual(status, 0)
        # 60 m by 60 m halved is 1800 m2, and 20 m by 10 m halved 100 m2: twice 100 less twice 1800.
        self.assertEqual(self.heads(lines), [
            'job.csv:2: record 2: warning area: parcel 1 has a negative area: twice the area is -3,400,000,000 mm2'])


if __name__ == '__main__':
    unittest.main()
