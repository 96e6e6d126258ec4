"""What is read of a layer: rows with their polygons, and what is told of them."""
from __future__ import annotations

from dataclasses import dataclass, field

from lib.exact import Position

Ring = list[tuple[float, float]]  # Millimetres; not closed by its first vertex again.
Part = list[Ring]  # The outer ring and then holes.


@dataclass(frozen=True)
class Wanted:
    """Which layer is read, and how: words of the command."""
    file: str
    layer: str | None = None
    where: str | None = None
    number: str | None = None
    label: str | None = None
    source: str | None = None
    unit: str | None = None
    chord: float | None = None  # Millimetres.
    points: str | None = None
    point_number: str | None = None


@dataclass
class Row:
    """A row of the layer: its own id there, its key there, and what it has in the plan."""
    number: int
    label: str
    row: int
    key: str
    source: str = ''
    parts: list[Part] = field(default_factory=list)

    def place(self) -> Position | None:
        """A vertex of the row, or None."""
        for part in self.parts:
            for ring in part:
                for x, y in ring[:1]:
                    return round(x), round(y)
        return None


@dataclass
class Finding:
    """Something that somebody has to look at: its kind, the numbers of what has to do with it, the parcel's first,
    where, twice its area in square millimetres, how wide it is in millimetres on the average, and in words."""
    kind: str
    numbers: list[int]
    place: Position | None
    text: str
    doubled: float = 0
    width: float = 0

    @property
    def area(self) -> float:
        """Square millimetres."""
        return self.doubled / 2


@dataclass
class Note:
    """Something that was done and is told, and asks for nothing: of a row, or of the layer."""
    text: str
    row: Row | None = None


@dataclass
class Layer:
    """The rows of a layer, the text of the source that it is to the plan, and what was told while it was read."""
    text: str
    rows: list[Row]
    notes: list[Note]
    findings: list[Finding] = field(default_factory=list)
