"""bin/lib/records.py, bin/lib/forms.py: records with their lines, rows, and what is wrong with a record's form."""
from __future__ import annotations

import os
import unittest

from checked import TOP, TWO_LOTS

from lib.forms import PLAN_FORMS, SCRIPT_FORMS, why_no_beginning, why_no_record
from lib.records import BYTE_ORDER_MARK, PointRow, StringRow, plan_of, plan_text, record_text, records_of


class Reading(unittest.TestCase):
    def read(self, data: bytes) -> list[tuple[int, int, tuple[bytes, ...]]]:
        return [(it.number, it.line, it.fields) for it in records_of(data)]

    def test_blank_lines_count_as_lines_alone(self) -> None:
        self.assertEqual(self.read(b'\n\na,1\n\n\nb,2\n'), [(1, 3, (b'a', b'1')), (2, 6, (b'b', b'2'))])

    def test_line_ends(self) -> None:
        self.assertEqual(self.read(b'a,1\r\n\r\nb,2\rc,3'),
                         [(1, 1, (b'a', b'1')), (2, 3, (b'b', b'2')), (3, 4, (b'c', b'3'))])

    def test_byte_order_mark(self) -> None:
        self.assertEqual(self.read(BYTE_ORDER_MARK + b'a,1\n'), [(1, 1, (b'a', b'1'))])

    def test_quoted_text_over_lines(self) -> None:
        self.assertEqual(self.read(b'a,"one\ntwo, ""three""\r\nfour",x\nb,\n'),
                         [(1, 1, (b'a', b'one\ntwo, "three"\r\nfour', b'x')), (2, 4, (b'b', b''))])

    def test_quote_that_opens_nothing(self) -> None:
        self.assertEqual(self.read(b'a,b"c"d,"e"f"g\n'), [(1, 1, (b'a', b'b"c"d', b'ef"g'))])

    def test_quote_that_is_never_closed(self) -> None:
        first, last = records_of(b'a,1\nb,"one\nc,2\nd,3\n')
        self.assertFalse(first.is_open)
        self.assertEqual((last.number, last.line, last.fields), (2, 2, (b'b', b'one\nc,2\nd,3\n')))
        self.assertTrue(last.is_open)

    def test_fields_at_the_end_of_the_input(self) -> None:
        self.assertEqual(self.read(b'a,,'), [(1, 1, (b'a', b'', b''))])
        self.assertEqual(self.read(b'\n\r\n'), [])

    def test_the_record_on_one_line(self) -> None:
        record, = records_of(b'a,"x\ny\xff"\n')
        self.assertEqual(record.text(), 'a,"x\\ny\\xff"')


class Rows(unittest.TestCase):
    def test_rows(self) -> None:
        plan = plan_of(list(records_of(TWO_LOTS.encode()))[1:-1])
        self.assertEqual(plan.wrong, [])
        self.assertEqual(plan.position(5), (10000, 10000))
        string = plan.strings[17]
        self.assertEqual((string.first, string.second, string.left, string.right), (2, 5, 101, 102))
        self.assertEqual(string.sources, (1,))
        self.assertEqual((string.record.number, string.record.line), (17, 17))
        self.assertEqual(plan.parcels[102].label, b'Mill Lane 4')

    def test_the_first_of_a_number_counts(self) -> None:
        plan = plan_of(records_of(b'point,1,5,6,,,\npoint,1,7,8,,,\nstring,1,1,2,0,3,\n'))
        self.assertEqual(plan.position(1), (5, 6))
        self.assertEqual([(type(it), it.number, it.record.number) for it in plan.doubles], [(PointRow, 1, 2)])
        self.assertIsInstance(plan.strings[1], StringRow)

    def test_what_has_no_right_form_is_no_row(self) -> None:
        plan = plan_of(records_of(b'point,01,5,6,,,\npoint,1,5,6,1 '
                                  b'1,,\npoint,1,5,6,,,x\npoint,1,5\nmove,1,5,6,,,\n'))
        self.assertEqual([it.number for it in plan.wrong], [1, 2, 3, 4, 5])

    def test_written_as_it_was_read(self) -> None:
        with open(os.path.join(TOP, 'examples', 'block.csv'), 'rb') as file:
            data = file.read()
        data = data[:data.index(b'open,,,,,,\n') + 11]
        self.assertEqual(plan_text(plan_of(list(records_of(data))[1:-1])), data)
        self.assertEqual(record_text(['rename', 7, b'a,"b"']), b'rename,7,"a,""b""",,,,\n')


class Forms(unittest.TestCase):
    def of_script(self, text: str | bytes) -> str:
        record, = records_of(text if isinstance(text, bytes) else text.encode())
        return '; '.join(why_no_record(record.fields, SCRIPT_FORMS))

    def of_plan(self, text: str) -> str:
        record, = records_of(text.encode())
        return '; '.join(why_no_record(record.fields, PLAN_FORMS))

    def test_right_forms(self) -> None:
        for text in ('move,1,-5,0,,,', 'divide,0,1 2,7,3,x,1', 'undo,,,,,,', 'attach,point,4,1,,,',
                     'enclose,1,,,2,x,1'):
            self.assertEqual(self.of_script(text), '')
        for text in ('point,1,5,6,1 2,,', 'string,1,2,3,0,4,', 'open,,,,,,', 'retired,999999999,,,,,'):
            self.assertEqual(self.of_plan(text), '')

    def test_words(self) -> None:
        self.assertEqual(self.of_script('divid,1,2 3,4,5,x,1'), 'divid: no such edit; divide?')
        self.assertEqual(self.of_script('frob,,,,,,'), 'frob: no such edit')
        self.assertEqual(self.of_script('Move,1,2,3,,,'), '`Move`: the word is `move`, in small letters')
        self.assertEqual(self.of_script(' move,1,2,3,,,'), '` move`: the word is `move`, without a space')
        self.assertEqual(self.of_script('point,1,2,3,,,'), 'point: a record of a plan; in a script it is add-point')
        self.assertEqual(self.of_script('open,,,,,,'), 'open: a record of a plan, and a job has one plan')
        self.assertEqual(self.of_script('# note,,,,,,'), '# note: a job has no comments')
        self.assertEqual(self.of_script(',,,,,,'), 'the first field, which tells the kind of record, is empty')
        self.assertEqual(self.of_plan('pont,1,2,3,,,'), 'pont: no such record of a plan; point?')
        self.assertEqual(self.of_plan('move,1,2,3,,,'), 'move: a record of a script, which comes after `open`')

    def test_numbers(self) -> None:
        for field, why in (('', 'is empty'), ('007', '`007` has a leading zero'), ('1 2', '`1 2` is a list'), (
                '0', '`0` is no number of a row'), ('1234567890', 'more than nine digits'), ('1O', 'the letter O'),
                (' 7', 'a space at its beginning'), ('7 ', 'a space at its end'), ('-7', 'is negative'),
                ('+7', 'a plus sign'), ('x', "`x` isn't a number")):
            self.assertIn(why, self.of_script(f'drop-point,{field},,,,,'))

    def test_coordinates(self) -> None:
        for field, why in (('512.5', 'if it is in metres, `512500` is meant'), ('-0', 'is to be written 0'),
                           ('1' * 19, 'more than 18 digits'), ("5'000", 'something between its digits'),
                           ('012', 'a leading zero'), ('', 'is empty')):
            self.assertEqual(self.of_script(f'move,1,{field},7,,,').count('x (field 3)'), 1)
            self.assertIn(why, self.of_script(f'move,1,{field},7,,,'))

    def test_lists(self) -> None:
        for field, why in (('1  2', 'two spaces together'), ('1;2', 'one space between them'),
                           ('1 02', 'a leading zero'), (' 1 2', 'a space at its beginning')):
            self.assertIn(why, self.of_script(f'divide,1,{field},7,3,x,1'))
        self.assertIn('`1` stands twice', self.of_plan('point,1,5,6,1 2 1,,'))

    def test_texts(self) -> None:
        self.assertEqual(self.of_script('rename,1,' + 'ä' * 41 + ',,,,'),
                         f'label (field 3): `{"ä" * 40}..` has 82 bytes (41 characters), and 80 is the most')
        self.assertEqual(self.of_script(b'rename,1,G\xe4rtnerei,,,,'),
                         "label (field 3): `G\\xe4rtnerei` isn't UTF-8 at byte 2; as Latin-1 it reads `Gärtnerei`")
        self.assertEqual(self.of_script('rename,1,,,,,'), 'label (field 3) is empty')

    def test_fields_too_many_and_too_few(self) -> None:
        self.assertEqual(self.of_script('undo,1,,,,,'), 'undo has no field after its first; field 2 is `1`')
        self.assertEqual(self.of_script('drop-point,1,2,,,,'), 'drop-point has 1 field after its first; field 3 is '
                                                               '`2`')
        self.assertEqual(self.of_script('move,1,,,,,'), 'x (field 3) is empty; y (field 4) is empty')
        self.assertEqual(self.of_script('attach,points,1,2,,,'), "kind (field 2): `points` isn't point, string or "
                                                                 "parcel; "
                         'point?')

    def test_beginnings(self) -> None:
        def why(text: bytes) -> str:
            return why_no_beginning(next(records_of(text)).fields)
        self.assertEqual(why(b'plan,3,,,,,'), 'the version is `3`; there are 1 and 2')
        self.assertEqual(why(b'plan,,,,,,'), 'the version is missing: 1 or 2')
        self.assertEqual(why('plan,2,,,,,'.encode('utf-16')), 'the file is UTF-16; save it as UTF-8')


if __name__ == '__main__':
    unittest.main()
