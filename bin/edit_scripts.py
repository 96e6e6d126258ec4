#!/usr/bin/env python3
"""Makes edit scripts on a grid of parcels, for bin/bench --edits, and in faces of many rings or at a point of many
strings, for bin/bench --faces.

    bin/edit_scripts.py KIND SIZE [RECORDS]     writes such a script, of 100,000 records if not given

The grid is that of `bin/bench --write grid SIZE`; a job is that plan and the script. Kinds, over and over, each time at
another parcel, string or point:

    divide-undo   a parcel divided across, and undo
    divide-merge  a parcel divided across, and merged again; 100,000 mergers at most, as retired numbers have a limit
    chain         two points added, a parcel divided along a chain through them, three undo
    split-join    a string split near its middle, and joined again
    move          a point, to another place near it
    points        a point added, and dropped
    enclose       three points added and made an island, four undo
    attach        a source attached to a string and detached, a parcel renamed
    divide-all    each parcel divided across once, 10,000 at most
    undo-walk     1,000 divisions and moves, then all of them undone and redone, again and again
    mixed         all of these but joins and islands, undo and redo at any moment, and now and then an outline, or an
                  edit that is refused

On a town of `bin/bench --write town SIZE` or `--write streets SIZE`:

    edge          a point of two lots at the edge of a block, to another place near it

On a town of `bin/bench --write town SIZE`:

    kerb          the south side of a lot at the edge of a block, split near its middle, and joined again

On a field of `bin/bench --write holes SIZE`:

    island        the tip of an island, to another place near it
    piece         a point added beside an island, a piece of the field there divided off, two undo

On a star of `bin/bench --write star SIZE`:

    centre        the star's centre, to another place near it
    rim           a side of the rim split at its middle, its triangle divided there and merged again, three undo

On a comb of `bin/bench --write comb SIZE` or `--write combholes SIZE`:

    tip           a corner at the tip of a tooth, to another place near it
    tooth         a tooth divided off, and merged again; 100,000 mergers at most

On strips of `bin/bench --write long SIZE`:

    strip         a boundary between two strips, split somewhere, and undo
    end           the eastern end of a boundary, to another place near it

On petals of `bin/bench --write petals SIZE`:

    common        the point that all petals have in common, to another place near it

The same call gives the same script. Outside `mixed` nothing is refused, where 1,000 edits can be undone.
"""
import itertools
import math
import sys

SIDE = 10_000
NEW_POINT, NEW_STRING, NEW_PARCEL = 200_001, 400_001, 200_001


class Grid:
    """The numbers and positions of a grid's points, parcels and strings."""

    def __init__(self, size):
        self.size = size

    def point(self, column, row):
        return row * (self.size + 1) + column + 1

    def parcel(self, column, row):
        """The parcel to the north-east of a point; 0, the outside, where there is none."""
        return row * self.size + column + 1 if 0 <= column < self.size and 0 <= row < self.size else 0

    def eastward(self, column, row):
        """The string from a point to the next one in the east."""
        return row * self.size + column + 1

    def northward(self, column, row):
        """The string from a point to the next one in the north."""
        return self.size * (self.size + 1) + row * (self.size + 1) + column + 1

    def position(self, column, row):
        """A place a little off the lattice, so that few points lie on one line."""
        return column * SIDE + (column * 7 + row * 13) % 41, row * SIDE + (column * 11 + row * 5) % 37

    def across(self, column, row, *inner):
        """A chain through a parcel, from its south-west to its north-east, as a list of points."""
        chain = (self.point(column, row), *inner, self.point(column + 1, row + 1))
        return ' '.join(str(point) for point in chain)


class Town:
    """The numbers and positions of a town's lots: so many blocks across and up, each of 8 by 8 irregular lots."""

    LOTS, WIDTH, DEPTH, STREET = 8, 18_000, 24_000, 12_000

    def __init__(self, size):
        self.size = size
        self.pitch = self.LOTS * self.WIDTH + self.STREET, self.LOTS * self.DEPTH + self.STREET

    def blocks(self):
        return self.size ** 2

    def point(self, block, column, row):
        """The point at a corner of lots of a block."""
        return (block * (self.LOTS + 1) + row) * (self.LOTS + 1) + column + 1

    def lot(self, block, column, row):
        """The lot to the north-east of such a point."""
        return (block * self.LOTS + row) * self.LOTS + column + 1

    def south_side(self, block, column):
        """The string along the south of a lot at the southern edge of a block, behind the four round the town."""
        return 4 + 2 * block * self.LOTS * (self.LOTS + 1) + column + 1

    def corner(self, column, row):
        """The crossing of two streets."""
        return column * self.pitch[0], row * self.pitch[1]

    def position(self, block, column, row):
        """A place up to three metres off the lattice, at the edge of a block up to two."""
        up, across = divmod(block, self.size)
        reach = 2000 if column in (0, self.LOTS) or row in (0, self.LOTS) else 3000
        turn = block * 31 + column * 7919 + row * 104_729
        west, south = self.corner(across, up)
        return (west + self.STREET // 2 + column * self.WIDTH + turn % (2 * reach) - reach,
                south + self.STREET // 2 + row * self.DEPTH + turn * 37 % (2 * reach) - reach)

    def edge(self, block):
        """The points round a block, counterclockwise."""
        last = self.LOTS
        places = ([(column, 0) for column in range(last)] + [(last, row) for row in range(last)]
                  + [(column, last) for column in range(last, 0, -1)] + [(0, row) for row in range(last, 0, -1)])
        return [self.point(block, *place) for place in places]


class Islands:
    """The numbers and positions of a field's islands, each a triangle in a square metre of its own."""

    def __init__(self, size):
        self.size, self.columns = size, math.isqrt(size - 1) + 1

    def position(self, island):
        return 500 + island % self.columns * 1000, 500 + island // self.columns * 1000

    def tip(self, island):
        """The last of its three points, behind the four of the field."""
        return 4 + 3 * (island + 1)


class Star:
    """The numbers and positions of a star's points: those of its rim, and behind them the one that all its spokes have."""

    RADIUS = 10_000_000

    def __init__(self, size):
        self.size, self.centre = size, size + 1

    def position(self, place):
        """A place of the rim, counterclockwise from the east."""
        turn = 2 * math.pi * (place % self.size) / self.size
        return round(self.RADIUS * math.cos(turn)), round(self.RADIUS * math.sin(turn))

    def rim(self, place):
        """The string from a place of the rim to the next, behind the spokes."""
        return self.size + place + 1


class Comb:
    """The numbers and positions of a comb's teeth, from the east to the west."""

    HEIGHT, GAP, BASE = 10_000_000, 200, 1_000_000

    def __init__(self, size):
        self.teeth = (size - 2) // 4

    def foot(self, tooth):
        """The first of a tooth's four points, at the foot of its eastern side, behind the two of the comb's back."""
        return 3 + 4 * tooth

    def tip(self, tooth):
        """The position of its third point, the western one at its tip."""
        from_west = self.teeth - 1 - tooth
        return (2 * from_west + 1) * self.GAP, self.BASE + self.HEIGHT + from_west % 5


class Strips:
    """The numbers and positions of long strips' boundaries, from the south to the north."""

    LENGTH, BREADTH = 1_000_000_000, 100

    def __init__(self, size):
        self.size = size

    def position(self, boundary, x):
        """The place of a boundary so far in the east."""
        rise = boundary * boundary % 13
        return x, boundary * self.BREADTH + x * rise // self.LENGTH

    def end(self, boundary):
        """The point at its eastern end."""
        return 2 * boundary + 2


class Petals:
    """The number of the point that all petals have in common."""

    COMMON = 1

    def __init__(self, size):
        self.size = size


class Draws:
    """Numbers below a bound, the same ones in each run."""

    def __init__(self, seed):
        self.state = seed

    def below(self, bound):
        self.state = (self.state * 6364136223846793005 + 1442695040888963407) % 2 ** 64
        return (self.state >> 33) % bound

    def square(self, grid):
        """Column and row of any parcel."""
        return self.below(grid.size), self.below(grid.size)

    def near(self, place, reach):
        """A place at most so far from that one in each direction."""
        return tuple(value + self.below(2 * reach + 1) - reach for value in place)


def divided(grid, square, string, parcel):
    return f'divide,{grid.parcel(*square)},{grid.across(*square)},{string},{parcel},New,1'


def divided_by_chain(grid, square, *places):
    """Adds two points and divides a parcel along a chain through them."""
    for point, (east, north) in enumerate(places, NEW_POINT):
        yield f'add-point,{point},{east},{north}'
    strings = ' '.join(str(NEW_STRING + number) for number in range(3))
    chain = grid.across(*square, NEW_POINT, NEW_POINT + 1)
    yield f'divide,{grid.parcel(*square)},{chain},{strings},{NEW_PARCEL},New,1'


def divide_undo(grid, draws):
    while True:
        yield divided(grid, draws.square(grid), NEW_STRING, NEW_PARCEL)
        yield 'undo'


def divide_merge(grid, draws):
    for parcel in range(NEW_PARCEL, NEW_PARCEL + 100_000):
        square = draws.square(grid)
        yield divided(grid, square, NEW_STRING, parcel)
        yield f'merge,{grid.parcel(*square)},{parcel}'


def divide_all(grid, draws):
    count = grid.size ** 2
    for turn in range(min(count, 10_000)):
        row, column = divmod(turn * 7919 % count, grid.size)
        yield divided(grid, (column, row), NEW_STRING + turn, NEW_PARCEL + turn)


def chain(grid, draws):
    while True:
        square = draws.square(grid)
        x, y = grid.position(*square)
        yield from divided_by_chain(grid, square, (x + SIDE // 3, y + SIDE // 2), (x + SIDE // 2, y + SIDE // 3 * 2))
        yield from ['undo'] * 3


def split_and_join(sides, draws):
    """Each of these sides, a place with its string and the positions of its ends, split near its middle and joined
    again."""
    numbers, new = {}, NEW_STRING
    for place, string, (x, y), (far_x, far_y) in sides:
        middle = (x + far_x) // 2, (y + far_y) // 2 + draws.below(200) - 100
        yield f'split,{numbers.get(place, string)},{NEW_POINT},{middle[0]},{middle[1]},{new},{new + 1}'
        yield f'join,{NEW_POINT},{new + 2}'
        numbers[place], new = new + 2, new + 3


def split_join(grid, draws):
    def sides():
        while True:
            column, row = draws.below(grid.size), 1 + draws.below(grid.size - 1)
            yield ((column, row), grid.eastward(column, row), grid.position(column, row),
                   grid.position(column + 1, row))

    yield from split_and_join(sides(), draws)


def move(grid, draws):
    while True:
        place = 1 + draws.below(grid.size - 1), 1 + draws.below(grid.size - 1)
        x, y = draws.near(grid.position(*place), 1000)
        yield f'move,{grid.point(*place)},{x},{y}'


def points(grid, draws):
    while True:
        x, y = grid.position(*draws.square(grid))
        yield f'add-point,{NEW_POINT},{x + 100 + draws.below(SIDE - 200)},{y + 100 + draws.below(SIDE - 200)}'
        yield f'drop-point,{NEW_POINT}'


def enclose(grid, draws):
    corners = (2000, 2000), (5000, 2500), (3000, 6000)
    numbers = ','.join(f'{first} {first + 1} {first + 2}' for first in (NEW_POINT, NEW_STRING))
    while True:
        square = draws.square(grid)
        x, y = grid.position(*square)
        for point, (east, north) in enumerate(corners, NEW_POINT):
            yield f'add-point,{point},{x + east},{y + north}'
        yield f'enclose,{grid.parcel(*square)},{numbers},{NEW_PARCEL},Isle,1'
        yield from ['undo'] * 4


def attach(grid, draws):
    yield 'add-source,2,Survey 2'
    for turn in itertools.count():
        square = draws.square(grid)
        yield f'attach,string,{grid.eastward(*square)},2'
        yield f'detach,string,{grid.eastward(*square)},2'
        yield f'rename,{grid.parcel(*square)},Name {turn}'


def undo_walk(grid, draws):
    for turn in range(1000):
        column, row = (max(place, 1) for place in draws.square(grid))
        # Each second one divides a parcel that isn't divided yet, as long as there is one.
        if turn % 2 == 0 and turn < grid.size ** 2:
            row, column = divmod(turn * 7919 % grid.size ** 2, grid.size)
            yield divided(grid, (column, row), NEW_STRING + turn, NEW_PARCEL + turn)
        else:
            x, y = draws.near(grid.position(column, row), 400)
            yield f'move,{grid.point(column, row)},{x},{y}'
    while True:
        yield from ['undo'] * 1000
        yield from ['redo'] * 1000


def divide_and_merge(grid, draws, turn):
    square = draws.square(grid)
    # The first numbers are those of the other steps.
    string, parcel = NEW_STRING + 3 + turn, NEW_PARCEL + 1 + turn
    yield divided(grid, square, string, parcel)
    yield f'merge,{grid.parcel(*square)},{parcel}'


def move_near(grid, draws, turn):
    place = [max(each, 1) for each in draws.square(grid)]
    x, y = draws.near(grid.position(*place), 1000)
    yield f'move,{grid.point(*place)},{x},{y}'


def undo_and_redo(grid, draws, turn):
    back = 1 + draws.below(5)
    yield from ['undo'] * back
    yield from ['redo'] * back


def divide_by_chain(grid, draws, turn):
    square = draws.square(grid)
    x, y = grid.position(*square)
    yield from divided_by_chain(grid, square, (x + 3000, y + 7000), (x + 4000 + draws.below(900), y + 8000))
    yield from ['undo'] * 3


def split(grid, draws, turn):
    column, row = draws.below(grid.size), 1 + draws.below(grid.size - 1)
    x, y = grid.position(column, row)
    string, halves = grid.eastward(column, row), f'{NEW_STRING},{NEW_STRING + 1}'
    yield f'split,{string},{NEW_POINT},{x + SIDE // 2},{y + 20},{halves}'
    yield 'undo'


def attach_and_detach(grid, draws, turn):
    string = grid.northward(*draws.square(grid))
    yield f'attach,string,{string},2'
    yield f'detach,string,{string},2'


def move_across(grid, draws, turn):
    """Refused: it takes strings across others."""
    place = draws.square(grid)
    x, y = grid.position(*place)
    yield f'move,{grid.point(*place)},{x + 3 * SIDE},{y}'


def divide_nowhere(grid, draws, turn):
    """Refused: the chain ends where it begins."""
    square = draws.square(grid)
    corner = grid.point(*square)
    yield f'divide,{grid.parcel(*square)},{corner} {corner},{NEW_STRING},{NEW_PARCEL},New,1'


def rename(grid, draws, turn):
    yield f'rename,{grid.parcel(*draws.square(grid))},Name {turn}'


# Of a hundred steps so many are of each kind.
MIXED = [(25, divide_and_merge), (25, move_near), (20, undo_and_redo), (10, divide_by_chain), (8, split),
         (4, attach_and_detach), (3, move_across), (2, divide_nowhere), (3, rename)]


def mixed(grid, draws):
    steps = [step for share, step in MIXED for _ in range(share)]
    yield 'add-source,2,Survey 2'
    for turn in itertools.count():
        yield from steps[draws.below(100)](grid, draws, turn)
        if turn % 500 == 499:
            yield f'outline,{grid.parcel(*draws.square(grid))}'


def edge(town, draws):
    while True:
        block, place = draws.below(town.blocks()), 1 + draws.below(town.LOTS - 1)
        column, row = [(place, 0), (place, town.LOTS), (0, place), (town.LOTS, place)][draws.below(4)]
        x, y = draws.near(town.position(block, column, row), 1000)
        yield f'move,{town.point(block, column, row)},{x},{y}'


def kerb(town, draws):
    def sides():
        while True:
            block, column = draws.below(town.blocks()), draws.below(town.LOTS)
            yield ((block, column), town.south_side(block, column), town.position(block, column, 0),
                   town.position(block, column + 1, 0))

    yield from split_and_join(sides(), draws)


def island(islands, draws):
    while True:
        place = draws.below(islands.size)
        x, y = islands.position(place)
        east, north = draws.near((x + 250, y + 450), 50)
        yield f'move,{islands.tip(place)},{east},{north}'


def piece(islands, draws):
    while True:
        place = draws.below(islands.size)
        x, y = islands.position(place)
        tip = islands.tip(place)
        yield f'add-point,{NEW_POINT},{x + 450},{y + 300 + draws.below(50)}'
        yield f'divide,1,{tip - 1} {NEW_POINT} {tip},{NEW_STRING} {NEW_STRING + 1},{NEW_PARCEL},Piece,1'
        yield from ['undo'] * 2


def centre(star, draws):
    while True:
        east, north = draws.near((0, 0), 1000)
        yield f'move,{star.centre},{east},{north}'


def rim(star, draws):
    while True:
        place = draws.below(star.size)
        (x, y), (far_x, far_y) = star.position(place), star.position(place + 1)
        halves = f'{NEW_STRING},{NEW_STRING + 1}'
        yield f'split,{star.rim(place)},{NEW_POINT},{(x + far_x) // 2},{(y + far_y) // 2},{halves}'
        yield f'divide,{place + 1},{star.centre} {NEW_POINT},{NEW_STRING + 2},{NEW_PARCEL},Half,1'
        yield f'merge,{place + 1},{NEW_PARCEL}'
        yield from ['undo'] * 3


def tip(comb, draws):
    while True:
        tooth = draws.below(comb.teeth)
        x, y = comb.tip(tooth)
        yield f'move,{comb.foot(tooth) + 2},{x},{y + 5 + draws.below(30)}'


def tooth(comb, draws):
    for parcel in range(NEW_PARCEL, NEW_PARCEL + 100_000):
        foot = comb.foot(draws.below(comb.teeth))
        yield f'divide,1,{foot} {foot + 3},{NEW_STRING + parcel - NEW_PARCEL},{parcel},Tooth,1'
        yield f'merge,1,{parcel}'


def strip(strips, draws):
    while True:
        boundary = 1 + draws.below(strips.size - 1)
        x, y = strips.position(boundary, 1000 + draws.below(strips.LENGTH - 2000))
        yield f'split,{boundary + 1},{NEW_POINT},{x},{y},{NEW_POINT},{NEW_POINT + 1}'
        yield 'undo'


def end(strips, draws):
    while True:
        boundary = 1 + draws.below(strips.size - 1)
        x, y = strips.position(boundary, strips.LENGTH)
        yield f'move,{strips.end(boundary)},{x - 1 - draws.below(1000)},{y}'


def common(petals, draws):
    while True:
        east, north = draws.near((0, 0), 50)
        yield f'move,{petals.COMMON},{east},{north}'


KINDS = {'divide-undo': divide_undo, 'divide-merge': divide_merge, 'chain': chain, 'split-join': split_join,
         'move': move, 'points': points, 'enclose': enclose, 'attach': attach,
         'divide-all': divide_all, 'undo-walk': undo_walk, 'mixed': mixed}
FACE_KINDS = {'edge': (Town, edge), 'kerb': (Town, kerb), 'island': (Islands, island), 'piece': (Islands, piece),
              'centre': (Star, centre), 'rim': (Star, rim), 'tip': (Comb, tip), 'tooth': (Comb, tooth),
              'strip': (Strips, strip), 'end': (Strips, end), 'common': (Petals, common)}


def script(kind, size, records):
    """The lines of a script of so many records, each of seven fields."""
    places, steps = FACE_KINDS[kind] if kind in FACE_KINDS else (Grid, KINDS[kind])
    for record in itertools.islice(steps(places(size), Draws(12345)), records):
        yield record + ',' * (6 - record.count(',')) + '\n'


def main():
    words = sys.argv[1:]
    if len(words) not in (2, 3) or words[0] not in {**KINDS, **FACE_KINDS}:
        sys.exit(__doc__)
    sys.stdout.writelines(script(words[0], int(words[1]), int(words[2]) if len(words) == 3 else 100_000))


if __name__ == '__main__':
    main()
