"""Arcs as chords. An arc is led through the same points whichever way and from whichever row it is read."""
from __future__ import annotations

import math

Place = tuple[float, float]  # In the units of the layer.


def centre_of(a: Place, m: Place, b: Place) -> Place | None:
    """The centre of the circle through a, m and b, or None where they lie on a line. Where a is b, m is opposite."""
    if a == b:
        return (a[0] + m[0]) / 2, (a[1] + m[1]) / 2
    mx, my, bx, by = m[0] - a[0], m[1] - a[1], b[0] - a[0], b[1] - a[1]
    turn = 2 * (mx * by - my * bx)
    if turn == 0:
        return None
    of_m, of_b = mx * mx + my * my, bx * bx + by * by
    x, y = (of_m * by - of_b * my) / turn, (mx * of_b - bx * of_m) / turn
    return a[0] + x, a[1] + y


def sweep_of(centre: Place, a: Place, m: Place, b: Place) -> float:
    """The angle from a over m to b, counterclockwise positive, in radians."""
    angles = [math.atan2(it[1] - centre[1], it[0] - centre[0]) for it in (a, m, b)]
    if a == b:
        return 2 * math.pi
    to_m, to_b = (angles[1] - angles[0]) % (2 * math.pi), (angles[2] - angles[0]) % (2 * math.pi)
    return to_b if to_m <= to_b else to_b - 2 * math.pi


def chords_of(a: Place, m: Place, b: Place, most: float) -> list[Place]:
    """Points of the arc from a over m to b, without a and with b, whose chords stay within `most` of the arc."""
    if b < a:
        return chords_of(b, m, a, most)[-2::-1] + [b]
    centre = centre_of(a, m, b)
    if centre is None:
        return [m, b]
    radius = math.dist(centre, a)
    step = min(math.pi / 2, max(1e-6, 2 * math.acos(max(0.0, 1 - most / radius))))
    sweep = sweep_of(centre, a, m, b)
    count = max(1, math.ceil(abs(sweep) / step - 1e-9))
    start = math.atan2(a[1] - centre[1], a[0] - centre[0])
    turns = [start + sweep * i / count for i in range(1, count)]
    return [(centre[0] + radius * math.cos(t), centre[1] + radius * math.sin(t)) for t in turns] + [b]


def arc_ring(points: list[Place], most: float) -> list[Place]:
    """The points of a string of arcs, three of which make an arc that ends where the next begins, as chords."""
    ring = points[:1]
    for i in range(0, len(points) - 2, 2):
        ring += chords_of(points[i], points[i + 1], points[i + 2], most)
    return ring
