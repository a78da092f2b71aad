"""Tiles of polygons that are dear to mend, for tests/hostile: each a function of a size that returns a tile, which fills it, and how
many vertices are in it. Where rings fall apart, which takes more bytes, they have spikes, which go: a mended tile is as long at
most, so that it can be checked."""
import math
from typing import NamedTuple

from inputs import CLOSE_PATH, DELIMITED, LINE_TO, MOVE_TO, NAMED, POLYGON, Dice, command, feature, field, one_payload, packed, parameters, ring, varint
from shapes import REACH, REST, ZERO, drawn, filled, nested, there_and_back, zigzag_ring

# of a square in which edges take two bytes a number
SIDE = 4096
# squares in a row of a checkerboard
ROW = 1000


class Tangle(NamedTuple):
    tile: bytes
    vertices: int


def steps_through(positions, x, y):
    """The steps to these positions, one after another, from (x, y) on."""
    steps = []
    for to_x, to_y in positions:
        steps.append((to_x - x, to_y - y))
        x, y = to_x, to_y
    return steps


def features_of(steps, size):
    """As many features of one ring of these steps as fit."""
    one = field(2, DELIMITED, feature(POLYGON, packed(ring(*steps))))
    tile = one_payload(NAMED, one, size)
    return Tangle(tile, len(tile) // len(one) * len(steps))


def ring_of(steps, size, *last):
    """One ring from (0, 0) that takes these steps again and again, as often as they fit, and then the last ones."""
    one = packed(parameters(steps))
    copies = (size - REST) // len(one)
    count = copies * len(steps) + len(last)
    begin = packed([command(MOVE_TO, 1), 0, 0, command(LINE_TO, count)])
    return Tangle(filled(begin + one * copies + packed([*parameters(last), command(CLOSE_PATH, 1)])), count + 1)


def numbers_of(rings):
    """The numbers of rings, each given by its steps, of which the first one begins it."""
    return packed(it for steps in rings for it in ring(*steps))


def rings_of(first, rings, size):
    """One feature of these first rings, and then of others again and again, as often as they fit."""
    begin, one = numbers_of(first), numbers_of(rings)
    copies = (size - REST - len(begin)) // len(one)
    return Tangle(filled(begin + one * copies), sum(map(len, first)) + copies * sum(map(len, rings)))


SPIKE = [(0, 1), (0, -1)]
# its first edge and its third cross
BOW = [(0, 0), (2, 2), (0, -2), (-2, 2), *SPIKE, *SPIKE]


def bows(size):
    """Features of one small ring that crosses itself."""
    return features_of(BOW, size)


def bow_before_zigzag(size):
    """One of these, at which `check` ends, and after it a right ring that takes long to judge."""
    features = [feature(POLYGON, numbers_of([BOW])), feature(POLYGON, zigzag_ring(size - REST, -1))]
    tile = field(3, DELIMITED, NAMED + b"".join(field(2, DELIMITED, it) for it in features))
    # (a vertex of the zigzag takes two bytes)
    return Tangle(tile, len(BOW) + len(features[1]) // 2)


def joined_bows(size):
    """The same in one feature, each a polygon."""
    return rings_of([], [[(1, -3), (0, 1), (3, -1), (0, 3), *SPIKE, *SPIKE]], size)


def random_positions(count):
    dice = Dice(4)
    return [(dice.between(0, SIDE - 1), dice.between(0, SIDE - 1)) for _ in range(count)]


def random_features(size):
    """Features of one ring of a thousand random edges, which cross some hundred thousand times."""
    return features_of(steps_through(random_positions(1000), 0, 0), size)


def random_edges(size):
    """One ring of random edges: each thousand of them lies a little beside the thousand before."""
    (x, y), *positions = random_positions(1000)
    return ring_of(steps_through([*positions, (x + 5, y + 3)], x, y), size)


def crossed_star(size):
    """A star of an odd number of vertices, each joined to those nearly opposite: all edges cross near the middle."""
    # (a vertex takes ten bytes at most)
    count = (size - REST) // 20 * 2 - 1
    turn = 2 * math.pi * (count // 2) / count
    ring = [(round(REACH * math.cos(turn * at)), round(REACH * math.sin(turn * at))) for at in range(count)]
    return Tangle(filled(packed(drawn([ring]))), count)


def fan(size):
    """Thin triangles that all have one vertex in common, as one ring."""
    there, back = there_and_back(REACH)
    moves, left = [], size - REST
    while left > 0:
        # (the triangles are one unit high, and one unit apart)
        y, back_y = varint(4 * len(moves)), varint(4 * len(moves) + 1)
        moves.append(there + y + ZERO + varint(2) + back + back_y)
        left -= len(moves[-1])
    count = 3 * len(moves)
    # (it comes back to where it began by itself)
    moves[-1] = moves[-1][: -len(back + back_y)]
    begin = packed([command(MOVE_TO, 1), 0, 0, command(LINE_TO, count - 1)])
    return Tangle(filled(begin + b"".join(moves) + packed([command(CLOSE_PATH, 1)])), count)


def diagonals(size):
    """Parallel diagonals that all lie in the bounds of each other. The ring goes back along the ends of them."""
    far = size // 4
    return ring_of([(far, far), (-2, 0), (-far, -far), (-2, 0)], size)


def slanted_teeth(size):
    """Long thin teeth that all lie in the bounds of each other. The ring goes back along the line from which they rise."""
    far = size // 3
    return ring_of([(far, far), (-3 - far, -far)], size)


def crossed_teeth(size):
    """Long teeth, each of which crosses some dozens of others."""
    dice = Dice(5)
    tips = [dice.between(-60, 60) for _ in range(1000)]
    return ring_of([it for tip in tips for it in ((tip, SIDE), (-3 - tip, -SIDE))], size)


def long_edges(size):
    """A ring that goes from side to side on its way up and down a square, again and again, each time one to the right."""
    dice = Dice(6)
    rows = [*range(4000), *range(4000, 0, -1)]
    (x, y), *positions = [(dice.between(0, 15) + 4000 * (at % 2), row) for at, row in enumerate(rows)]
    return ring_of(steps_through([*positions, (x + 1, y)], x, y), size)


def spikes(size):
    """A ring that goes down and up again before each step."""
    return ring_of([(0, -9), (0, 9), (1, 0)], size, (0, 9))


def stairs(size):
    """Squares of one unit, each of which touches the next in a corner, as one ring that goes up along them and back."""
    up, down = (packed(parameters(it)) for it in ([(1, 0), (0, 1), *SPIKE], [(-1, 0), (0, -1)]))
    count = (size - REST) // (len(up) + len(down))
    begin = packed([command(MOVE_TO, 1), 0, 0, command(LINE_TO, 6 * count - 1)])
    # (it comes back to where it began by itself)
    end = packed([*parameters([(-1, 0)]), command(CLOSE_PATH, 1)])
    return Tangle(filled(begin + up * count + down * (count - 1) + end), 6 * count)


def board(steps, forth, turn, back, turn_back):
    """Two rows of a checkerboard, one to the right and one back: rings of these steps, each with the one of the others before it."""
    return [[it, *steps] for it in (*[forth] * (ROW - 1), turn, *[back] * (ROW - 1), turn_back)]


def square_board(size):
    """Squares of one unit on a checkerboard, each a polygon."""
    return rings_of([], board([(1, 0), (0, 1), (-1, 0)], (2, -1), (1, 0), (-2, -1), (-1, 0)), size)


def hole_board(size):
    """A square with the same squares as holes."""
    # (two rows take eleven bytes a square)
    height = size // (10 * ROW) + 20
    exterior = [(-9, -9), (3 * ROW, 0), (0, height), (-3 * ROW, 0)]
    hole = [(0, 1), (1, 0), (0, -1)]
    return rings_of([exterior, [(9, 9 - height), *hole]], board(hole, (1, 0), (0, 1), (-3, 0), (-2, 1)), size)


# a triangle that goes round clockwise, and ends at (0, 0)
BACKWARDS = [(0, 1), (1, -1), (-1, 0)]


def nested_backwards(size):
    """Triangles, each inside all before it, and before them a small one in their middle that goes round backwards."""
    first = numbers_of([BACKWARDS])
    rings = nested(size - len(first), False)
    return Tangle(filled(first + b"".join(rings)), 3 + 3 * len(rings))


def crossed_backwards(size):
    """Squares in and over each other, the first of which goes round backwards."""
    dice = Dice(7)
    rings, last = [], 0
    for _ in range(1000):
        side = dice.between(1, SIDE)
        rings.append([(dice.between(-9, 9), dice.between(-9, 9) - last), (side, 0), (0, side), (-side, 0)])
        last = side
    return rings_of([BACKWARDS], rings, size)


SIZED = {
    it.__name__: it
    for it in (
        *(bows, joined_bows, random_features, random_edges, crossed_star, fan, diagonals, slanted_teeth, crossed_teeth, long_edges, spikes, stairs),
        *(square_board, hole_board, nested_backwards, crossed_backwards, bow_before_zigzag),
    )
}
