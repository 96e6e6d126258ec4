"""A map that is open."""
from __future__ import annotations

import ctypes
import operator
import os
import secrets
import threading
from collections.abc import Iterable, Mapping
from pathlib import Path
from types import MappingProxyType
from typing import SupportsIndex

from cadedit._answers import Area, Position, Ring, areas_of, fault_of, positions_of, rings_of
from cadedit._faults import PlanFault, SyntaxFault, ThreadFault
from cadedit._geometry import Feature, FeatureCollection, Polygon, polygon_in
from cadedit._library import CLOSED, DEPTH, DONE, MEMORY, NOT_ONE, PLAN, Handle, library
from cadedit._records import listed, number, record, text

ROOM = 4096  # Bytes of an answer that are told at once.
DEPTHS, NUMBERS = 1 << 64, 1 << 32  # What there is room for in C.
NONE = 0  # A depth, and the number of a point and of a parcel, that there aren't.


class Map:
    """A map with its history. It is closed when it is left as a context, by `close`, or when it is let go.

    Each method that edits answers nothing, and raises Refused where the edit is refused: then nothing has changed. It
    raises SyntaxFault where a number or a text has no right form, and MemoryError where memory ran out; its text says
    whether the edit was done. Each method raises ValueError once the map is closed, and ThreadFault on another thread
    than the one that opened it. Positions are whole millimetres, x to the east and y to the north; a face is a
    parcel's number, or 0 for the outside.
    """
    __slots__ = ('_at', '_handle', '_length', '_length_at', '_library', '_positions', '_room', '_thread')

    def __init__(self, plan: bytes | bytearray | memoryview, depth: SupportsIndex = 100) -> None:
        """Opens the bytes of a plan; `depth`, from 1 to 1000, is how many edits can be undone. Raises PlanFault,
        ValueError of another depth, MemoryError and NoLibrary."""
        self._thread = threading.get_ident()
        self._handle, self._length = Handle(), ctypes.c_uint64()
        self._at, self._length_at = ctypes.byref(self._handle), ctypes.byref(self._length)
        self._room = ctypes.create_string_buffer(ROOM)
        self._positions: Mapping[int, Position] | None = None
        self._library = library()
        edits = operator.index(depth)
        given = plan if isinstance(plan, bytes) else bytes(memoryview(plan))
        status = self._library.open(self._at, given, len(given), edits if 0 < edits < DEPTHS else NONE,
                                    secrets.randbits(64), self._room, ROOM, self._length_at)
        if status == DEPTH:
            raise ValueError('the depth is from 1 to 1000')
        if status == PLAN and self._length.value:
            raise PlanFault(self._answer().decode())
        if status != DONE:
            raise MemoryError('memory ran out; the map is not open')

    @classmethod
    def open(cls, path: str | os.PathLike[str], depth: SupportsIndex = 100) -> Map:
        """Opens the plan in a file. Raises OSError and what Map raises."""
        return cls(Path(path).read_bytes(), depth)

    @property
    def closed(self) -> bool:
        """Whether the map is closed."""
        return not self._handle.opened

    def close(self) -> None:
        """Closes the map and gives its memory back. A closed one stays closed."""
        self._check_thread()
        self._library.close(self._at)
        self._positions = None

    def __enter__(self) -> Map:
        return self

    def __exit__(self, *_: object) -> None:
        self.close()

    def __del__(self) -> None:
        # On another thread it isn't closed: it mustn't leave its own. One that was never made has no library.
        if getattr(self, '_library', None) and self._thread == threading.get_ident():
            self._library.close(self._at)

    def __repr__(self) -> str:
        return f'<{"closed" if self.closed else "open"} cadedit.Map at {id(self):#x}>'

    def __reduce__(self) -> str:
        raise TypeError('a map cannot be copied or pickled: open its plan() again')

    def _check_thread(self) -> None:
        if self._thread != threading.get_ident():
            raise ThreadFault('the map belongs to the thread that opened it')

    # ---- Records

    def submit(self, record: bytes) -> bytes:
        """Does one record of a script, with or without its line end, and returns its answer, as `cadedit` writes it.
        What is refused, or the form of no record, is answered so, and raises nothing. Raises SyntaxFault where the
        bytes aren't one record."""
        self._check_thread()
        status = self._library.submit(self._at, record, len(record), self._room, ROOM, self._length_at)
        if status == DONE:
            answer = self._answer()
            if answer.startswith(b'ok,'):
                self._positions = None
            return answer
        if status == CLOSED:
            raise ValueError('the map is closed')
        if status == NOT_ONE:
            raise SyntaxFault('these bytes are not one record')
        if status == MEMORY:
            raise MemoryError('memory ran out; nothing has changed')
        self._positions = None
        raise MemoryError('memory ran out once the record was done: its answer is not told')

    def _answer(self) -> bytes:
        """The text that was told, whole."""
        length = self._length.value
        if length <= ROOM:
            return ctypes.string_at(self._room, length)
        room = ctypes.create_string_buffer(length)
        self._library.answer(self._at, 0, room, length, self._length_at)
        return room.raw

    def _do(self, *fields: str) -> bool:
        """Does an edit, and answers whether there was one to do."""
        its_record = record(*fields)
        answer = self.submit(its_record)
        if answer.startswith(b'ok,'):
            return True
        if answer.startswith(b'nothing,'):
            return False
        raise fault_of(answer, its_record)

    def _ask(self, *fields: str) -> bytes:
        """The answer to a question."""
        its_record = record(*fields)
        answer = self.submit(its_record)
        if answer.startswith((b'refused,', b'syntax,')):
            raise fault_of(answer, its_record)
        return answer

    # ---- Edits

    def add_source(self, source: SupportsIndex, label: str) -> None:
        """Adds a source, the paper that something is known by; its text has 1 to 80 bytes of UTF-8."""
        self._do('add-source', number(source), text(label))

    def add_point(self, point: SupportsIndex, x: SupportsIndex, y: SupportsIndex) -> None:
        """Adds a point at a place in millimetres."""
        self._do('add-point', number(point), number(x), number(y))

    def drop_point(self, point: SupportsIndex) -> None:
        """Drops a point to which no string leads."""
        self._do('drop-point', number(point))

    def split(self, string: SupportsIndex, point: SupportsIndex, x: SupportsIndex, y: SupportsIndex,
              first: SupportsIndex, second: SupportsIndex) -> None:
        """Splits a string at a new point, which lies at a place in millimetres, on the old line or off it. The strings
        `first` and `second` lead from the old first point to the new one and on to the old second one."""
        self._do('split', number(string), number(point), number(x), number(y), number(first), number(second))

    def join(self, point: SupportsIndex, string: SupportsIndex) -> None:
        """Joins the two strings at a point to a new one; the point is dropped."""
        self._do('join', number(point), number(string))

    def move(self, point: SupportsIndex, x: SupportsIndex, y: SupportsIndex) -> None:
        """Moves a point to a place in millimetres."""
        self._do('move', number(point), number(x), number(y))

    def divide(self, face: SupportsIndex, points: Iterable[SupportsIndex], strings: Iterable[SupportsIndex],
               parcel: SupportsIndex, label: str, source: SupportsIndex) -> None:
        """Divides a face along a chain of points, with a new string for each two neighbours, in their order. What lies
        left of the chain is the new parcel; the source is that of the strings and the parcel."""
        self._do('divide', number(face), listed(points), listed(strings), number(parcel), text(label), number(source))

    def enclose(self, face: SupportsIndex, points: Iterable[SupportsIndex], strings: Iterable[SupportsIndex],
                parcel: SupportsIndex, label: str, source: SupportsIndex) -> None:
        """Makes the ring of these points, which runs counterclockwise, an island of the face, as a new parcel; the
        last of the new strings leads back to the first point."""
        self._do('enclose', number(face), listed(points), listed(strings), number(parcel), text(label), number(source))

    def merge(self, kept: SupportsIndex, ended: SupportsIndex) -> None:
        """Merges two parcels along what they have in common; the number of the second one is retired."""
        self._do('merge', number(kept), number(ended))

    def attach(self, kind: str, its_number: SupportsIndex, source: SupportsIndex) -> None:
        """Attaches a source to a `point`, a `string` or a `parcel`."""
        self._do('attach', text(kind), number(its_number), number(source))

    def detach(self, kind: str, its_number: SupportsIndex, source: SupportsIndex) -> None:
        """Detaches a source from a `point`, a `string` or a `parcel`."""
        self._do('detach', text(kind), number(its_number), number(source))

    def rename(self, parcel: SupportsIndex, label: str) -> None:
        """Gives a parcel another label, of 1 to 80 bytes of UTF-8."""
        self._do('rename', number(parcel), text(label))

    def undo(self) -> bool:
        """Goes back one edit. Answers whether there was one."""
        return self._do('undo')

    def redo(self) -> bool:
        """Makes the edit again that was undone last. Answers whether there was one."""
        return self._do('redo')

    # ---- Questions

    def areas(self) -> list[Area]:
        """The parcels and their areas, in order of entry."""
        return areas_of(self._ask('areas'))

    def outline(self, face: SupportsIndex) -> list[Ring]:
        """The rings of a face, of a parcel its outline first. Raises Refused where there is no such parcel."""
        return rings_of(self._ask('outline', number(face)))

    def plan(self) -> bytes:
        """The map's plan as it is now, to be kept or opened again."""
        return self._ask('print')

    # ---- Geometry

    def position(self, point: SupportsIndex) -> Position:
        """Where a point is, in millimetres. Raises KeyError where there is no such point."""
        self._check_thread()
        its_number = operator.index(point)
        x, y = ctypes.c_int64(), ctypes.c_int64()
        status = self._library.point(self._at, its_number if 0 < its_number < NUMBERS else NONE, x, y)
        if status == CLOSED:
            raise ValueError('the map is closed')
        if status != DONE:
            raise KeyError(its_number)
        return Position(x.value, y.value)

    def positions(self) -> Mapping[int, Position]:
        """Where each point is, by its number, in millimetres. They are read from the whole plan, and kept until the
        map changes."""
        self._check_thread()
        if self._positions is None:
            self._positions = MappingProxyType(positions_of(self.plan()))
        return self._positions

    def geometry(self, parcel: SupportsIndex) -> Polygon:
        """A parcel as GeoJSON has a polygon, in metres; each number is the one next to its thousandths. Raises Refused
        where there is no such parcel, and ValueError of the outside."""
        return polygon_in(self.wkt(parcel))

    def wkt(self, parcel: SupportsIndex) -> str:
        """The same as well-known text, in metres with three decimals: the millimetres, exactly."""
        self._check_thread()
        its_number = operator.index(parcel)
        status = self._library.shape(self._at, its_number if 0 < its_number < NUMBERS else NONE, self._room, ROOM,
                                     self._length_at)
        if status == DONE:
            return self._answer().decode()
        if status == MEMORY:
            raise MemoryError('memory ran out; nothing has changed')
        self.outline(parcel)  # It raises what there is to raise of a closed map, and of a parcel that isn't there.
        raise ValueError('the outside has no polygon')

    @property
    def __geo_interface__(self) -> FeatureCollection:
        """All parcels, as shapely, geopandas and other packages read them, in metres."""
        return {'type': 'FeatureCollection', 'features': list(map(self._feature, self.areas()))}

    def _feature(self, area: Area) -> Feature:
        """A parcel with its number, label and area."""
        return {'type': 'Feature', 'id': area.number, 'geometry': self.geometry(area.number),
                'properties': {'number': area.number, 'label': area.label, 'area': area.area}}
