"""Polygons as GeoJSON has them, in metres."""
from __future__ import annotations

from typing import Literal, TypedDict


class Polygon(TypedDict):
    """A polygon as GeoJSON has it: rings of x and y in metres, the outline first, each closed by its first place."""
    type: Literal['Polygon']
    coordinates: list[list[tuple[float, float]]]


class Properties(TypedDict):
    """What is told of a parcel beside its geometry: its area in square metres, as text."""
    number: int
    label: str
    area: str


class Feature(TypedDict):
    """A parcel."""
    type: Literal['Feature']
    id: int
    geometry: Polygon
    properties: Properties


class FeatureCollection(TypedDict):
    """The parcels of a map."""
    type: Literal['FeatureCollection']
    features: list[Feature]


def polygon_in(text: str) -> Polygon:
    """The polygon that well-known text tells."""
    rings = text[len('POLYGON(('):-len('))')].split('),(')
    return {'type': 'Polygon', 'coordinates': [list(map(place_in, ring.split(','))) for ring in rings]}


def place_in(text: str) -> tuple[float, float]:
    """A place of well-known text."""
    x, y = text.split()
    return float(x), float(y)
