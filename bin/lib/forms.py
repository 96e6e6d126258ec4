"""The forms of fields and records, as docs/FORMATS.md has them, and in words what is wrong with one that has no
right form.

A function that reads a field raises WrongForm; `why_not` tells the reason. No form says anything of ranges or of a
map.
"""
from __future__ import annotations

import difflib
import re
from typing import NamedTuple

NUMBER, FACE, COORDINATE, LIST = 'number', 'face', 'coordinate', 'list'
SOURCES, TEXT, ITEM = 'sources', 'text', 'item'
FIELDS = 7
MOST_BYTES = 80  # of a text.
MOST_SOURCES = 16
ITEMS = (b'point', b'string', b'parcel')


class Wanted(NamedTuple):
    """A field that a record has: what it is, and its form."""
    name: str
    form: str


class WrongForm(ValueError):
    """A field hasn't the form that is wanted."""


def fields_wanted(text: str) -> tuple[Wanted, ...]:
    """`point number, x coordinate` as the fields that are wanted: the last word of each is its form."""
    return tuple(Wanted(*it.strip().rsplit(' ', 1)) for it in text.split(',')) if text else ()


NEW_PARCEL = 'face face, points list, strings list, new parcel number, label text, source number'
PLAN_FORMS = {kind: fields_wanted(text) for kind, text in {
    b'source': 'source number, text text', b'point': 'point number, x coordinate, y coordinate, sources sources',
    b'parcel': 'parcel number, label text, sources sources',
    b'string': 'string number, first point number, second point number, left face face, right face face, '
               'sources sources',
    b'retired': 'parcel number', b'open': ''}.items()}
SCRIPT_FORMS = {kind: fields_wanted(text) for kind, text in {
    b'add-source': 'source number, text text', b'add-point': 'point number, x coordinate, y coordinate',
    b'drop-point': 'point number',
    b'split': 'string number, new point number, x coordinate, y coordinate, first string number, '
              'second string number',
    b'join': 'point number, new string number', b'divide': NEW_PARCEL, b'enclose': NEW_PARCEL,
    b'merge': 'kept parcel face, ended parcel face', b'move': 'point number, x coordinate, y coordinate',
    b'attach': 'kind item, number number, source number', b'detach': 'kind item, number number, source number',
    b'rename': 'parcel number, label text', b'undo': '', b'redo': '', b'areas': '', b'print': '',
    b'outline': 'face face'}.items()}
IN_A_SCRIPT = {b'point': 'add-point', b'source': 'add-source', b'string': 'split, divide or enclose',
               b'parcel': 'divide or enclose', b'retired': 'merge'}

is_number = re.compile(rb'[1-9][0-9]{0,8}').fullmatch
is_coordinate = re.compile(rb'0|-?[1-9][0-9]{0,17}').fullmatch


# ---- Reading

def number_of(text: bytes) -> int:
    """The number of a row."""
    if text.isdigit() and len(text) < 10 and not text.startswith(b'0'):
        return int(text)
    raise WrongForm


def face_of(text: bytes) -> int:
    """A parcel's number, or 0 for the outside."""
    return 0 if text == b'0' else number_of(text)


def coordinate_of(text: bytes) -> int:
    """Whole millimetres, which may be out of range."""
    if is_coordinate(text):
        return int(text)
    raise WrongForm


def list_of(text: bytes) -> tuple[int, ...]:
    """Numbers with one space between them, or none."""
    return tuple(map(number_of, text.split(b' '))) if text else ()


def sources_of(text: bytes) -> tuple[int, ...]:
    """Numbers none of which stands twice."""
    if not text:
        return ()
    numbers = list_of(text)
    if len(set(numbers)) != len(numbers):
        raise WrongForm
    return numbers


def text_of(text: bytes) -> bytes:
    """A text of UTF-8 and 1 to 80 bytes."""
    if not 1 <= len(text) <= MOST_BYTES or not is_utf8(text):
        raise WrongForm
    return text


def is_utf8(text: bytes) -> bool:
    try:
        text.decode()
    except UnicodeDecodeError:
        return False
    return True


# ---- What is wrong with a field

def quote(text: bytes, most: int = 40) -> str:
    """A field as it is told: between backquotes, and not too long."""
    said = text[:4 * most].decode('utf-8', 'backslashreplace')
    said = ''.join(it if it.isprintable() else ascii(it)[1:-1] for it in said)
    return f'`{said}`' if len(said) <= most else f'`{said[:most]}..`'


def why_not(form: str, text: bytes) -> str:
    """In words why the text hasn't this form, or nothing where it has it."""
    if form == TEXT:
        return why_no_text(text)
    if form in (LIST, SOURCES):
        return why_no_list(text, form == SOURCES)
    if form == ITEM:
        return '' if text in ITEMS else f'{quote(text)} isn\'t point, string or parcel{nearest(text, ITEMS)}'
    if form == COORDINATE:
        return '' if is_coordinate(text) else why_no_coordinate(text)
    return '' if is_number(text) or (form == FACE and text == b'0') else why_no_number(text)


def why_no_number(text: bytes) -> str:
    """In words why this isn't the number of a row."""
    said, bare = quote(text), text.strip()
    if text == b'0':
        return '`0` is no number of a row: they begin with 1'
    if re.fullmatch(rb'[1-9][0-9 ]*', bare) and b' ' in bare:
        return f'{said} is a list where one number is wanted'
    if re.fullmatch(rb'[0-9]{10,}', bare.lstrip(b'0')):
        return f'{said} has more than nine digits'
    if re.fullmatch(rb'-[0-9]+', bare):
        return f'{said} is negative'
    return why_no_digits(text) or f"{said} isn't a number"


def why_no_digits(text: bytes) -> str:
    """What can be wrong with a number and with a coordinate, or nothing."""
    said, bare = quote(text), text.strip()
    if not bare:
        return f'{said} is blank' if text else 'is empty'
    if bare != text and re.fullmatch(rb'-?[0-9]+', bare):
        return f'{said} has a space at its {"end" if text.startswith(bare) else "beginning"}'
    if re.fullmatch(rb'\+[0-9]+', bare):
        return f'{said} has a plus sign'
    if re.fullmatch(rb'-?0[0-9]+', bare):
        return f'{said} has a leading zero'
    if re.fullmatch(rb'-?[0-9OoIl]+', bare):
        letter = next(it for it in bare.decode() if it.isalpha())
        return f'{said} has the letter {letter} where a digit is wanted'
    return ''


def why_no_coordinate(text: bytes) -> str:
    """In words why this isn't a coordinate."""
    said, bare = quote(text), text.strip()
    if bare == b'-0':
        return f'{said} is to be written 0'
    if found := re.fullmatch(rb'(-?[0-9]+)[.,]([0-9]*)', bare):
        metres = found.group(1).lstrip(b'0') + found.group(2)[:3].ljust(3, b'0')
        return f'{said} is no whole number of millimetres; if it is in metres, {quote(metres)} is meant'
    if re.fullmatch(rb'-?[0-9]{19,}', bare):
        return f'{said} has more than 18 digits'
    if re.fullmatch(rb"-?[0-9]+([ '_][0-9]+)+", bare):
        return f'{said} has something between its digits'
    return why_no_digits(text) or f"{said} isn't a whole number of millimetres"


def why_no_list(text: bytes, is_distinct: bool) -> str:
    """In words why this isn't a list of numbers, or nothing."""
    if not text:
        return ''
    said, parts = quote(text), text.split(b' ')
    if re.fullmatch(rb'[0-9]+([ ]*[;,/][ ]*[0-9]+)+', text):
        return f'{said}: numbers of a list have one space between them, and nothing else'
    if text != text.strip(b' '):
        return f'{said} has a space at its {"end" if text.startswith(text.strip(b" ")) else "beginning"}'
    if b'' in parts:
        return f'{said} has two spaces together'
    for part in parts:
        if why := '' if is_number(part) else why_no_number(part):
            return f'in {said} {why}' if len(parts) > 1 else why
    twice = [it for it in parts if parts.count(it) > 1][:1] if is_distinct else []
    return f'in {said} {quote(twice[0])} stands twice' if twice else ''


def why_no_text(text: bytes) -> str:
    """In words why this isn't a text, or nothing."""
    try:
        letters = len(text.decode())
    except UnicodeDecodeError as error:
        latin = text.decode('latin-1')
        meant = f'; as Latin-1 it reads {quote(latin.encode())}' if latin.isprintable() else ''
        return f"{quote(text)} isn't UTF-8 at byte {error.start + 1}{meant}"
    if len(text) > MOST_BYTES:
        counted = f' ({letters} characters)' if letters != len(text) else ''
        return f'{quote(text)} has {len(text)} bytes{counted}, and {MOST_BYTES} is the most'
    return '' if text else 'is empty'


# ---- What is wrong with a record

def nearest(word: bytes, known: tuple[bytes, ...]) -> str:
    """`; divide?` where a known word is near to this one, else nothing."""
    names = [it.decode() for it in known]
    near = difflib.get_close_matches(word.decode('utf-8', 'replace').strip().lower(), names, 1, 0.6)
    return f'; {near[0]}?' if near else ''


def why_no_kind(kind: bytes, known: tuple[bytes, ...], what: str, of: str) -> str:
    """In words why the first field is no kind of record: `divid: no such edit; divide?`."""
    bare = kind.strip().lower()
    said = quote(kind)[1:-1]
    if not kind:
        return 'the first field, which tells the kind of record, is empty'
    if bare in known:
        return f'{quote(kind)}: the word is `{bare.decode()}`, ' \
            f'{"in small letters" if kind.strip() != bare else "without a space"}'
    if kind.startswith((b'#', b'//', b'--')):
        return f'{said}: a job has no comments'
    if what == 'script' and kind in IN_A_SCRIPT:
        return f'{said}: a record of a plan; in a script it is {IN_A_SCRIPT[kind]}'
    if what == 'script' and kind in (b'plan', b'open'):
        return f'{said}: a record of a plan, and a job has one plan'
    if what == 'plan' and kind == b'plan' and kind not in known:
        return f'{said}: a plan begins once, with its first record'
    if what == 'plan' and kind in SCRIPT_FORMS:
        return f'{said}: a record of a script, which comes after `open`'
    return f'{said}: no such {of}{nearest(kind, known)}'


def why_no_record(fields: tuple[bytes, ...], forms: dict[bytes, tuple[Wanted, ...]]) -> list[str]:
    """In words all that is wrong with the form of a record of these kinds; nothing where it is one of them."""
    what, of = ('plan', 'record of a plan') if forms is PLAN_FORMS else ('script', 'edit')
    wanted = forms.get(fields[0])
    if wanted is None:
        return [why_no_kind(fields[0], tuple(forms), what, of)]
    said = [f'{it.name} (field {place}){" " if why.startswith("is ") else ": "}{why}'
            for place, (it, text) in enumerate(zip(wanted, fields[1:]), 2) if (why := why_not(it.form, text))]
    filled = [place for place, text in enumerate(fields[1:], 2) if text and place > len(wanted) + 1]
    if filled:
        kind = fields[0].decode()
        count = f'{len(wanted)} field{"s" if len(wanted) != 1 else ""}' if wanted else 'no field'
        said.append(f'{kind} has {count} after its first; field {filled[0]} is {quote(fields[filled[0] - 1])}')
    return said


def why_no_beginning(fields: tuple[bytes, ...]) -> str:
    """In words why a record of seven fields begins no plan."""
    kind, version = fields[0], fields[1]
    if kind.startswith((b'\xff\xfe', b'\xfe\xff')) or b'\x00' in kind:
        return 'the file is UTF-16; save it as UTF-8'
    if kind != b'plan':
        return why_no_kind(kind, (b'plan',), 'plan', 'beginning of a plan')
    if version not in (b'1', b'2'):
        return f'the version is {quote(version)}; there are 1 and 2' if version else 'the version is missing: 1 or 2'
    return f'fields after the version are to be empty: {quote(b",".join(fields[2:]))}'
