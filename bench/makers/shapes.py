#!/usr/bin/env python3
"""Writes polygons of many vertices as tiles of one feature into a folder, all or those named: shapes.py FOLDER [NAME..].

A name is a shape and its number of vertices, as comb_1000, or its size, as triangle_holes_64_mib. Each run writes the same bytes.
"""
import math
import sys

from inputs import CLOSE_PATH, DELIMITED, LINE_TO, MOVE_TO, NAMED, POLYGON, Dice, command, feature, field, packed, parameters, ring, varint, write_inputs

# coordinates lie from -2^30 to 2^30
REACH = 1 << 29
COUNTS = (1_000, 10_000, 100_000, 1_000_000)
# of a ring among many
SMALL = 10


def drawn(rings):
    """The numbers of rings."""
    numbers, x, y = [], 0, 0
    for corners in rings:
        moves = []
        for to_x, to_y in corners:
            moves.append((to_x - x, to_y - y))
            x, y = to_x, to_y
        numbers += [command(MOVE_TO, 1), *parameters(moves[:1]), command(LINE_TO, len(corners) - 1), *parameters(moves[1:]), command(CLOSE_PATH, 1)]
    return numbers


def filled(numbers):
    """A tile of one feature of rings, whose numbers are packed already."""
    return field(3, DELIMITED, NAMED + field(2, DELIMITED, feature(POLYGON, numbers)))


def tile(rings):
    return filled(packed(drawn(rings)))


def comb(vertices):
    """A bar with teeth upwards and downwards, which end at one height, so that each x inside has two vertical edges."""
    teeth = (vertices - 4) // 8
    lower = []
    for i in range(teeth + 1):
        lower += [(4 * i, -20), (4 * i + 2, -20)]
        if i < teeth:
            lower += [(4 * i + 2, -10), (4 * i + 4, -10)]
    upper = []
    for i in range(teeth, -1, -1):
        upper += [(4 * i + 2, 20), (4 * i, 20)]
        if i > 0:
            upper += [(4 * i, 10), (4 * i - 2, 10)]
    return [lower + upper]


def lying_comb(vertices):
    """The same with x and y exchanged: all teeth lie beside each other along the sweep."""
    return [[(y, x) for x, y in reversed(ring)] for ring in comb(vertices)]


def late_meeting(vertices):
    """A comb whose last tooth crosses the one before it."""
    ring = comb(vertices)[0]
    last = max(range(len(ring)), key=lambda it: ring[it])
    ring[last] = (ring[last][0] - 5, ring[last][1] - 4)
    return [ring]


def around(vertices, radius):
    """A ring round the middle, of this distance at each vertex."""
    turns = (2 * math.pi * i / vertices for i in range(vertices))
    return [[(round(radius(i) * math.cos(turn)), round(radius(i) * math.sin(turn))) for i, turn in enumerate(turns)]]


def star(vertices):
    return around(vertices, lambda i: REACH // (1 + i % 2))


def coast(vertices):
    """A ring whose distance from the middle is rough at each scale."""
    dice = Dice(1)
    heights, step = [0.75, 0.75], 0.2
    while len(heights) <= vertices:
        between = [(one + other) / 2 + step * (dice.between(-1000, 1000) / 1000) for one, other in zip(heights, heights[1:])]
        heights = [it for pair in zip(heights, between) for it in pair] + heights[-1:]
        step *= 0.6
    return around(vertices, lambda i: REACH * min(max(heights[i], 0.25), 1.5))


def small_ring(x, y, is_hole):
    """A ring of SMALL vertices that fits in a square of 20."""
    ring = [(x, y), (x + 6, y + 1), (x + 12, y), (x + 18, y + 5), (x + 17, y + 10), (x + 18, y + 15), (x + 12, y + 18), (x + 6, y + 16), (x, y + 18), (x + 2, y + 9)]
    return ring[::-1] if is_hole else ring


def scattered(rings, is_hole):
    """So many small rings in rows, one beside another."""
    side = math.isqrt(rings - 1) + 1
    return [small_ring(20 * (i % side), 20 * (i // side), is_hole) for i in range(rings)]


def small_polygons(vertices):
    return scattered(vertices // SMALL, False)


def holes(vertices):
    """One exterior with small holes."""
    side = 20 * (math.isqrt(vertices // SMALL) + 1)
    return [[(-1, -1), (side, -1), (side, side), (-1, side)]] + scattered(vertices // SMALL, True)


def scaled(ring, times, x, y):
    """A small ring so many times as large, around this middle. Greater ones go round lesser ones."""
    return [(x + times * (to_x - 9), y + times * (to_y - 9)) for to_x, to_y in ring]


LAND, WATER = small_ring(0, 0, False), small_ring(0, 0, True)


def islands(vertices):
    """Polygons in rows, each with a hole, and an island in it."""
    cells = vertices // (3 * SMALL)
    side = math.isqrt(cells - 1) + 1
    rings = []
    for i in range(cells):
        x, y = 60 * (i % side), 60 * (i // side)
        rings += [scaled(LAND, 3, x, y), scaled(WATER, 2, x, y), scaled(LAND, 1, x, y)]
    return rings


def islands_in_holes(vertices):
    """One exterior with holes in rows, and an island in each."""
    cells = vertices // (2 * SMALL)
    side = math.isqrt(cells - 1) + 1
    middles = [(40 * (i % side), 40 * (i // side)) for i in range(cells)]
    far = 40 * side
    ground = [(-40, -40), (far, -40), (far, far), (-40, far)]
    return [ground, *(scaled(WATER, 2, x, y) for x, y in middles), *(scaled(LAND, 1, x, y) for x, y in middles)]


def late_pair(vertices):
    """Small polygons in rows, the last of which crosses the one before it."""
    *rings, last = small_polygons(vertices)
    return [*rings, [(x - 9, y + 1) for x, y in last]]


def middle_pair(vertices):
    """The same with the pair in the middle, so that no polygon of the one half may be inside one of the other half."""
    rings = small_polygons(vertices)
    side = math.isqrt(len(rings) - 1) + 1
    middle = side * (side // 2) + side // 2
    rings[middle] = [(x - 9, y + 1) for x, y in rings[middle]]
    return rings


def slivers(vertices):
    """Long thin triangles beside each other, whose bounds all overlap. The one in the middle crosses the one before it."""
    count = vertices // 3
    far, middle = 4 * count, 4 * (count // 2)
    rings = [[(x, 0), (x + 1, 0), (x + far, far)] for x in range(0, far, 4)]
    rings[middle // 4][2] = (middle + far - 6, far)
    return rings


def coasts(vertices):
    """Four coasts beside each other."""
    ring = [(x // 4, y // 4) for x, y in coast(vertices // 4)[0]]
    return [[(x + far_x, y + far_y) for x, y in ring] for far_x in (-REACH // 2, REACH // 2) for far_y in (-REACH // 2, REACH // 2)]


def nested_holes(vertices):
    """An exterior, and holes each of which is inside all before it, so that all but the first are in the wrong place."""
    rings = []
    for i in range(vertices // 4):
        far = vertices - i
        ring = [(i, i), (far, i), (far, far), (i, far)]
        rings.append(ring if i == 0 else ring[::-1])
    return rings


# the bytes of the messages around the rings of one feature, and those of its first and last numbers, at most
REST = 128


def triangle(first, *moves):
    """A ring that begins so far from where the one before it ended, and goes on by two moves."""
    return packed([command(MOVE_TO, 1), *parameters([first]), command(LINE_TO, 2), *parameters(moves), command(CLOSE_PATH, 1)])


ZERO = varint(0)


def there_and_back(length):
    """A step along an axis, and the same the other way."""
    return varint(2 * length), varint(2 * length - 1)


def triangle_hole(x, y):
    """The smallest hole."""
    return triangle((x, y), (0, 1), (1, -1))


def triangle_holes(size):
    """One exterior with as many of the smallest holes as fit, in rows to the right and back."""
    row = math.isqrt(size // len(triangle_hole(0, 0)))
    side = 3 * row + 3
    rows = [triangle_hole(2, 0) * (row - 1) + triangle_hole(-1, 3), triangle_hole(-4, 0) * (row - 1) + triangle_hole(-1, 3)]
    geometry = [packed(drawn([[(0, 0), (side, 0), (side, side), (0, side)]])), triangle_hole(1, 1 - side)]
    left = size - 64 - sum(map(len, geometry))
    for i in range(row):
        if len(rows[i % 2]) > left:
            break
        geometry.append(rows[i % 2])
        left -= len(rows[i % 2])
    return filled(b"".join(geometry))


def nested_triangles(size):
    """One exterior with triangles as holes, each inside all before it, as many as fit. Triangle i, counted from the innermost,
    has the vertices (-i, -i), (-i, 2i) and (2i, -i), and begins at the vertex near which the one around it ends."""
    begins = [packed([command(MOVE_TO, 1), *parameters([it]), command(LINE_TO, 2)]) for it in ((1, 1), (1, -2), (-2, 1))]
    close = packed([command(CLOSE_PATH, 1)])
    holes, left, i = [], size - REST, 0
    while True:
        i += 1
        there, back = there_and_back(3 * i)
        # down, across and back again: two of these moves, by where it begins
        down, across, along = ZERO + there, there + back, back + ZERO
        hole = begins[i % 3] + (down + across, across + along, along + down)[i % 3] + close
        left -= len(hole)
        if left < 0:
            break
        holes.append(hole)
    corners = [(-i, -i), (2 * i, -i), (-i, 2 * i)]
    # (the first hole begins near the last vertex of the exterior)
    begin = (1, 0, 2)[len(holes) % 3]
    return filled(packed(drawn([corners[begin:] + corners[:begin]])) + b"".join(reversed(holes)))


def nested(size, is_turned):
    """The numbers of triangles, ring by ring, each inside all before it, as many as fit: exteriors or, where they are turned, an
    exterior and a hole in turn. Triangle i, counted from the innermost, has the vertices A, B, C at (-i, -i), (2i, -i), (-i, 2i);
    it begins at the vertex near which the one around it ends."""
    line = [command(MOVE_TO, 1), *parameters([(1, 1)]), command(LINE_TO, 2)]
    begin_a, begin_b, begin_c = (packed([*line[:1], *parameters([it]), line[3]]) for it in ((1, 1), (-2, 1), (1, -2)))
    close = packed([command(CLOSE_PATH, 1)])
    rings, left, i = [], size - REST, 0
    while True:
        i += 1
        there, back = there_and_back(3 * i)
        if is_turned:
            # A, B, C; or, as a hole, C, B, A
            ring = begin_a + there + ZERO + back + there if i % 2 else begin_c + there + back + back + ZERO
        else:
            # A, B, C; C, A, B; B, C, A
            ring = (begin_a + there + ZERO + back + there, begin_b + back + there + ZERO + back, begin_c + ZERO + back + there + ZERO)[i % 3]
        left -= len(ring) + len(close)
        if left < 0:
            break
        rings.append(ring + close)
    # (the first one begins at A)
    while is_turned and len(rings) % 2 == 0 or not is_turned and len(rings) % 3:
        rings.pop()
    i = len(rings)
    rings[-1] = packed(drawn([[(-i, -i), (2 * i, -i), (-i, 2 * i)]]))
    return rings[::-1]


def nested_polygons(size):
    """Polygons, each inside all before it."""
    return filled(b"".join(nested(size, False)))


def nested_islands(size):
    """Polygons with a hole, each in the hole of the one before it."""
    return filled(b"".join(nested(size, True)))


def triangles_in_hole(size):
    """As many of the smallest polygons as fit in rows, in the hole of one around them all."""
    far = 4 * math.isqrt(size)
    ground = drawn([[(-9, -9), (far, -9), (far, far), (-9, far)], [(-8, -8), (-8, far - 1), (far - 1, far - 1), (far - 1, -8)]])
    return filled(packed(ground) + triangle((1 - far, 8), (1, 0), (-1, 1)) + rows_of_triangles(size - 2 * REST))


def triangles(size):
    """As many of the smallest polygons as fit, in rows."""
    return filled(rows_of_triangles(size - REST))


def rows_of_triangles(left):
    """Triangles in rows to the right and back, which take so many bytes at most. Each begins where the one before it ended, one
    to the left of it."""
    forth, back, up = (triangle(it, (1, 0), (-1, 1)) for it in ((2, -1), (-2, -1), (0, 2)))
    row = math.isqrt(left // len(forth))
    rows, at = [], 0
    while len(up) + (row - 1) * len(forth) <= left:
        rows.append(up + (back if at % 2 else forth) * (row - 1))
        left -= len(rows[-1])
        at += 1
    return b"".join(rows)


def sliver(height):
    """A long thin triangle that begins one above where the one before it ended: from (0, y) it goes to (1, y + height), and ends
    at (0, y + 1). So those of one height stand in each other's bounds, and don't meet."""
    return triangle((0, 1), (1, height), (-1, 1 - height))


def slivers_in(size):
    """A height, and how many slivers of it fit: their bounds all overlap, and one vertical line meets all of them."""
    # (a sliver has at least 13 bytes, and begins 2 above the one before it)
    height = 2 * (size // 13)
    return height, (size - REST) // len(sliver(height))


def slivers_met_halfway(size):
    """Slivers, of which the one in the middle crosses the one before it."""
    height, count = slivers_in(size)
    half = count // 2
    return filled(sliver(height) * half + sliver(height - 3) + sliver(height) * (count - half - 1))


# two squares that cross, to the right of where the ring before them ended, so that the sweep comes to them late
PAIR = packed([*ring((99, 0), (4, 0), (0, 4), (-4, 0)), *ring((2, -2), (4, 0), (0, 4), (-4, 0))])


def slivers_met_late(size):
    """Slivers, and after them a pair: where the first polygons are swept over by halves, most sweeps go over most slivers."""
    height, count = slivers_in(size)
    return filled(sliver(height) * count + PAIR)


def equal_polygons(size):
    """As many of the smallest polygons as fit, all at one position but for the last one."""
    one = triangle((0, -1), (1, 0), (-1, 1))
    return filled(one * ((size - REST) // len(one)) + triangle((9, 9), (1, 0), (-1, 1)))


def equal_holes(size):
    """One exterior with as many of the smallest holes as fit, all at one position but for the last one."""
    exterior = packed(drawn([[(0, 0), (9, 0), (9, 9), (0, 9)]]))
    one = triangle_hole(-1, 0)
    return filled(exterior + triangle_hole(3, -6) + one * ((size - REST) // len(one)) + triangle_hole(3, 0))


def up_a_column(count, steps, rise, *last):
    """A ring that begins at (0, 0), and goes up by these steps of (0, y) so many times, each time by a rise, and then to the
    last vertices."""
    up = packed(parameters([(0, it) for it in steps]))
    beside = [(x, y - count * rise) for x, y in last]
    begin = packed([command(MOVE_TO, 1), 0, 0, command(LINE_TO, count * len(steps) + len(last))])
    return filled(begin + up * count + packed([*parameters(beside), command(CLOSE_PATH, 1)]))


def column(size):
    """All vertices have one x, so the ring has no area."""
    return up_a_column((size - REST) // 2, [1], 1)


def column_with_side(size):
    """A valid ring all of whose vertices have one x but the last."""
    count = (size - REST) // 2
    return up_a_column(count, [1], 1, (-1, count // 2))


def overlapping_column(size):
    """The same with steps up and down the column, so that edges lie on each other."""
    count = (size - REST) // 4
    return up_a_column(count, [2, -1], 1, (-1, count // 2))


def spiral(size):
    """A ring that winds inwards and back beside itself, of turns with a length 4 less than that of the turn around."""
    there, back, left, length = [], [], size - REST, 0
    outer = there_and_back(2)
    while True:
        length += 4
        (inner, inner_back), (side, side_back), outer = outer, there_and_back(length), there_and_back(length + 2)
        # in: (0, -outer), (outer, 0), (0, side), (-side, 0); and out: (inner, 0), (0, -inner), (-side, 0), (0, side)
        inwards = ZERO + outer[1] + outer[0] + ZERO + ZERO + side + side_back + ZERO
        outwards = inner + ZERO + ZERO + inner_back + side_back + ZERO + ZERO + side
        left -= len(inwards) + len(outwards)
        if left < 0:
            break
        there.append(inwards)
        back.append(outwards)
    begin = [command(MOVE_TO, 1), 0, 0, command(LINE_TO, 8 * len(there) + 7), *parameters([(length, 0), (0, length), (-length, 0)])]
    # the end of the way in, and the innermost turn of the way out, whose first step is one longer
    turn = packed(parameters([(0, -1), (3, 0)])) + back[0][2:]
    last = [*parameters([(length - 2, 0), (0, 2 - length), (1 - length, 0)]), command(CLOSE_PATH, 1)]
    return filled(packed(begin) + b"".join(reversed(there)) + turn + b"".join(back[1:]) + packed(last))


def zigzag(size):
    """A ring of two bytes a vertex that goes from side to side on its way up: one line meets nearly all of its edges."""
    return filled(zigzag_ring(size, -1))


def zigzag_ring(size, left):
    """The numbers of such a ring, which goes back along its left side and ends there, at y = -1."""
    dice = Dice(2)
    turns = [x for _ in range(4096) for x in (dice.between(0, 15), dice.between(40, 55))]
    steps = packed(parameters([(to - x, 1) for x, to in zip(turns, turns[1:] + turns[:1])]))
    blocks = (size - 128) // len(steps)
    height = blocks * len(turns)
    begin = packed([command(MOVE_TO, 1), *parameters([(turns[0], 0)]), command(LINE_TO, height + 2)])
    end = packed([*parameters([(left - turns[0], 1), (0, -2 - height)]), command(CLOSE_PATH, 1)])
    return begin + steps * blocks + end


def triangles_in_zigzag(size):
    """How many triangles go into a zigzag that is met late."""
    return size // 1000


def zigzag_met_late(size):
    """A zigzag with a column of small triangles in it, and after them a pair: each sweep by halves goes over the whole zigzag."""
    column = triangle((1, 1), (1, 0), (-1, 1)) + triangle((0, 1), (1, 0), (-1, 1)) * (triangles_in_zigzag(size) - 1)
    return filled(zigzag_ring(size - len(column) - len(PAIR), -9) + column + PAIR)


SHAPES = {it.__name__: it for it in (comb, lying_comb, star, coast, small_polygons, holes, nested_holes, late_meeting, islands, islands_in_holes, late_pair, middle_pair, slivers, coasts)}
INPUTS = {f"{name}_{count}": lambda shape=shape, count=count: tile(shape(count)) for name, shape in SHAPES.items() for count in COUNTS}
# by their names, what fills a size
SIZED = {
    it.__name__: it
    for it in (
        *(zigzag, triangle_holes, triangles, triangles_in_hole, nested_polygons, nested_islands, nested_triangles, equal_polygons),
        *(equal_holes, column, column_with_side, overlapping_column, spiral, slivers_met_halfway, slivers_met_late, zigzag_met_late),
    )
}
INPUTS |= {f"{name}_64_mib": lambda write=write: write(64 << 20) for name, write in SIZED.items()}

if __name__ == "__main__":
    write_inputs(INPUTS, sys.argv[1], sys.argv[2:])
