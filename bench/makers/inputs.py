#!/usr/bin/env python3
"""Writes the inputs of bench/run, bench/polygons, bench/confirm and bench/dump into a folder, all or those named:
inputs.py FOLDER [NAME..].

Each run writes the same bytes.
"""
import functools
import itertools
import os
import random
import sys

MIB = 1 << 20
# wire types (Protocol Buffers encoding, "Message Structure")
VARINT, FIXED64, DELIMITED, FIXED32 = 0, 1, 2, 5
# geometry types and commands (Mapbox Vector Tile Specification 2.1, sections 4.3.4 and 4.3.1)
UNKNOWN, POINT, LINESTRING, POLYGON = 0, 1, 2, 3
MOVE_TO, LINE_TO, CLOSE_PATH = 1, 2, 7


@functools.lru_cache(maxsize=1 << 16)
def varint(number):
    spelled = bytearray()
    while number > 127:
        spelled.append(number & 127 | 128)
        number >>= 7
    spelled.append(number)
    return bytes(spelled)


def packed(numbers):
    return b"".join(map(varint, numbers))


def field(number, wire_type, payload):
    """A field; the payload is a number for a varint, else the bytes."""
    key = varint(number << 3 | wire_type)
    if wire_type == VARINT:
        return key + varint(payload)
    return key + (varint(len(payload)) if wire_type == DELIMITED else b"") + payload


def zigzag(number):
    return 2 * number if number >= 0 else -2 * number - 1


def command(identifier, count):
    return count << 3 | identifier


def parameters(moves):
    return [zigzag(it) for move in moves for it in move]


class Dice:
    """Whole numbers from a fixed seed, by the one method whose sequence Python promises to keep."""

    def __init__(self, seed):
        self.random = random.Random(seed).random

    def between(self, least, greatest):
        return least + int(self.random() * (greatest - least + 1))

    def one(self, choices):
        return choices[self.between(0, len(choices) - 1)]


def layer(name, features, keys=(), values=(), extent=4096):
    """A layer with its fields in the order in which usual writers put them."""
    parts = [field(1, DELIMITED, name.encode())]
    parts += [field(2, DELIMITED, it) for it in features]
    parts += [field(3, DELIMITED, it.encode()) for it in keys]
    parts += [field(4, DELIMITED, it) for it in values]
    parts += [field(5, VARINT, extent), field(15, VARINT, 2)]
    return field(3, DELIMITED, b"".join(parts))


def feature(kind, geometry, identifier=None, tags=b""):
    """A feature with its fields in the same way; tags and geometry are packed already."""
    parts = [field(1, VARINT, identifier)] if identifier is not None else []
    parts += [field(2, DELIMITED, tags)] if tags else []
    return b"".join(parts) + field(3, VARINT, kind) + field(4, DELIMITED, geometry)


# Many features with tags

LAYERS = ["water", "roads", "buildings", "places", "landuse", "boundaries", "transit", "addresses"]
KEYS = "name class subclass name:en ref rank layer height admin_level surface is_tunnel osm_id oneway operator".split()
WORDS = "residential service North Königstraße bridge Avenue primary Москва track asphalt 東京 County park school".split()
VALUES = 4000


def value(dice, at):
    """Of ten values seven are strings; the other kinds take turns."""
    if at % 10 < 7:
        return field(1, DELIMITED, f"{dice.one(WORDS)} {dice.between(1, 999)}".encode())
    number = at // 10
    return [
        field(2, FIXED32, number.to_bytes(4, "little")),
        field(3, FIXED64, number.to_bytes(8, "little")),
        field(4, VARINT, number),
        field(5, VARINT, number),
        field(6, VARINT, number),
        field(7, VARINT, number & 1),
    ][at % 6]


def steps(dice, count, greatest):
    """Steps between neighbouring positions, none of them (0, 0)."""
    return [(dice.between(1, greatest), dice.between(-greatest, greatest)) for _ in range(count)]


def tagged_feature(dice, at):
    # each key once, in order, as from the columns of a table
    count = dice.between(8, 10)
    first = dice.between(0, len(KEYS) - count)
    tags = packed(it for key in range(first, first + count) for it in (key, dice.between(0, VALUES - 1)))
    start = [command(MOVE_TO, 1), *parameters([(dice.between(0, 4095), dice.between(0, 4095))])]
    if at % 2:
        return feature(POINT, packed(start), at, tags)
    line = steps(dice, dice.between(1, 6), 60)
    return feature(LINESTRING, packed([*start, command(LINE_TO, len(line)), *parameters(line)]), at, tags)


def many_features(size):
    dice, layers = Dice(1), []
    for name in LAYERS:
        values = [value(dice, at) for at in range(VALUES)]
        features, left = [], size // len(LAYERS) - sum(map(len, values))
        while left > 0:
            features.append(tagged_feature(dice, len(features)))
            # (with the key and the length before it)
            left -= len(features[-1]) + 2
        layers.append(layer(name, features, KEYS, values))
    return b"".join(layers)


# the bytes of the features that a plain tile repeats
BLOCK = 1 << 16


def plain_features(size):
    """One layer of such features, which fills the size."""
    dice, features = Dice(1), b""
    begin = NAMED + b"".join(field(3, DELIMITED, it.encode()) for it in KEYS)
    begin += b"".join(field(4, DELIMITED, value(dice, at)) for at in range(VALUES))
    for at in itertools.count():
        features += field(2, DELIMITED, tagged_feature(dice, at))
        if len(features) > BLOCK:
            return one_payload(begin, features, size)


# Long lines, and polygons

CHAIN = 40_000
BAND = 1000


def chain(dice, count):
    """Steps to the right, most of them of one byte a number, that keep within a band and end at its middle."""
    found, y = [], 0
    for _ in range(count - 1):
        # (what takes one byte is below 64)
        [(across, up)] = steps(dice, 1, 60 if dice.between(1, 4) < 4 else 200)
        up = up if abs(y + up) <= BAND else -up
        found.append((across, up))
        y += up
    return [*found, (1, -y)]


def long_lines(size):
    """Eight lines of one length."""
    right = packed(parameters(chain(Dice(2), CHAIN)))
    repeats = size // 8 // len(right)
    line = packed([command(MOVE_TO, 1), 0, 0, command(LINE_TO, repeats * CHAIN)]) + right * repeats
    return layer("coastlines", [feature(LINESTRING, line)] * 8)


def banded_ring(dice, vertices):
    """The numbers of a ring that goes right in one band and comes back in another, and so no two of its edges meet."""
    there = chain(dice, vertices // 2 - 1)
    moves = [*there, (0, 4 * BAND), *((-across, up) for across, up in there)]
    return [command(MOVE_TO, 1), 0, 0, command(LINE_TO, len(moves)), *parameters(moves), command(CLOSE_PATH, 1)]


def polygons(size, vertices):
    """As many polygons of one ring, a feature each."""
    dice, features = Dice(3), []
    while size > 0:
        features.append(feature(POLYGON, packed(banded_ring(dice, vertices))))
        size -= len(features[-1])
    return layer("land", features)


def plain_polygons(size):
    """One layer of such features of a hundred vertices each, which fills the size."""
    dice, features = Dice(3), b""
    while len(features) < BLOCK:
        features += field(2, DELIMITED, feature(POLYGON, packed(banded_ring(dice, 100))))
    return one_payload(NAMED, features, size)


def plain_ring(size):
    """A polygon of one such ring, which fills the size."""
    there = chain(Dice(3), CHAIN)
    right, left = (packed(parameters(it)) for it in (there, [(-across, up) for across, up in there]))
    repeats = (size - 128) // (len(right) + len(left))
    begin = packed([command(MOVE_TO, 1), 0, 0, command(LINE_TO, 2 * repeats * CHAIN + 1)])
    line = begin + right * repeats + packed(parameters([(0, 4 * BAND)])) + left * repeats
    return layer("land", [feature(POLYGON, line + packed([command(CLOSE_PATH, 1)]))])


# The same small field again and again


def repeated(one, size):
    """As many copies of one field as fit in the size."""
    return one * (size // len(one))


def one_payload(begin, one, size):
    """A field of a layer's number that fills the size: a length of four bytes, a beginning, and copies of one part."""
    return field(3, DELIMITED, begin + repeated(one, size - 5 - len(begin)))


SHORT = field(1, VARINT, 5)
# no protobuf message begins with this byte
NO_MESSAGE = b"\x07"
VERSION = field(15, VARINT, 2)
# a version, and a name of one letter
NAMED = VERSION + field(1, DELIMITED, b"a")
# The smallest messages that keep the rules: a feature with a type and an empty geometry, one that draws a point, and a
# value with a bool. A key may be the empty text.
SMALLEST_FEATURE = field(2, DELIMITED, feature(UNKNOWN, b""))
SMALLEST_POINT = field(2, DELIMITED, feature(POINT, packed([command(MOVE_TO, 1), 0, 0])))
SMALLEST_VALUE = field(4, DELIMITED, field(7, VARINT, 1))
# a point with a tag of the greatest key that there is
GREATEST_KEY = field(2, DELIMITED, feature(POINT, packed([command(MOVE_TO, 1), 0, 0]), tags=packed([(1 << 32) - 1, 0])))
SMALLEST_KEY = field(3, DELIMITED, b"")

# One geometry that takes all bytes

# the line of fewest numbers: from where the cursor is to the position below
SMALLEST_LINE = [command(MOVE_TO, 1), 0, 0, command(LINE_TO, 1), 0, zigzag(1)]
# and back, so that no number of lines leaves the range of coordinates
LINE_BACK = [*SMALLEST_LINE[:-1], zigzag(-1)]


def one_line_string(fields):
    """One layer with one feature, whose geometry is these fields."""
    begin = field(3, VARINT, LINESTRING)
    return field(3, DELIMITED, NAMED + field(2, DELIMITED, begin + fields))


def smallest_lines(size):
    """As many lines as fit, in one packed field."""
    # (some bytes go to the messages around them)
    lines = repeated(packed(SMALLEST_LINE + LINE_BACK), size - 64)
    return one_line_string(field(4, DELIMITED, lines))


def parted_lines(size):
    """The same with each number in a field of its own, by turns packed and not."""
    numbers = SMALLEST_LINE + LINE_BACK
    fields = [field(4, DELIMITED, varint(it)) if at % 2 else field(4, VARINT, it) for at, it in enumerate(numbers)]
    return one_line_string(repeated(b"".join(fields), size - 64))


# As many layers or tags as the bytes can hold

ASCII = 128
# a prime above every count of names or keys
STEP = 2_654_435_761


def scattered(count):
    """The numbers below the count, each once, in an order that is far from sorted."""
    return (at * STEP % count for at in range(count))


def smallest_layers(size):
    """As many layers of different names as fit: the names of ASCII characters, the shorter ones first."""
    layers, left = [], size
    for length in itertools.count():
        # (all but the name itself, which comes last)
        begin = field(3, DELIMITED, VERSION + field(1, DELIMITED, bytes(length)))[:6]
        each = len(begin) + length
        count = min(ASCII**length, left // each)
        names = itertools.islice(itertools.product(range(ASCII), repeat=length), count)
        layers += [begin + bytes(it) for it in names]
        left -= count * each
        if count < ASCII**length:
            return layers


def named_layers(size):
    """The same layers in an order that is far from sorted."""
    layers = smallest_layers(size)
    return b"".join(layers[at] for at in scattered(len(layers)))


def named_layer(name):
    return field(3, DELIMITED, VERSION + field(1, DELIMITED, name))


# of the names that differ in their last bytes alone
PREFIX = b"n" * 100
DIGITS = 7


def prefixed_count(size):
    return size // len(named_layer(PREFIX + b"0" * DIGITS))


def prefixed_layers(size):
    """As many layers as fit, whose names differ in the digits after a prefix, in an order that is far from sorted."""
    return [named_layer(PREFIX + b"%0*d" % (DIGITS, at)) for at in scattered(prefixed_count(size))]


def repeated_name(size):
    """The same layers, the last of which has the first one's name."""
    layers = prefixed_layers(size)
    return b"".join([*layers[:-1], layers[0]])


LONGEST = 10


def longest(number):
    """A number's varint of as many bytes as one may have."""
    groups = [number >> 7 * at & 127 | 128 for at in range(LONGEST - 1)]
    return bytes([*groups, number >> 7 * (LONGEST - 1)])


def longest_points(size):
    """One feature of points, all at one position, whose numbers have ten bytes each."""
    # (some bytes go to the messages around them)
    points = (size - 128) // (2 * LONGEST)
    one = feature(POINT, longest(command(MOVE_TO, points)) + longest(0) * (2 * points))
    return field(3, DELIMITED, NAMED + field(2, DELIMITED, one))


def many_tags(size):
    """One layer with as many keys as fit, and one feature with a tag of each key, all with one value."""
    # (some bytes go to the messages around the keys and the tags)
    keys, left = 0, size - 64
    for length in itertools.count(1):
        # (a tag is the index of its key, of this length, and that of its value)
        each = len(SMALLEST_KEY) + length + 1
        count = min(ASCII**length - keys, left // each)
        keys, left = keys + count, left - count * each
        if keys < ASCII**length:
            break
    tags = b"".join(varint(key) + varint(0) for key in scattered(keys))
    tagged = field(2, DELIMITED, feature(UNKNOWN, b"", tags=tags))
    return field(3, DELIMITED, NAMED + tagged + SMALLEST_KEY * keys + SMALLEST_VALUE)


def tagged_features(size, keys):
    """One layer with this many keys, and as many features as fit, each with four tags of different keys from the upper
    half of them."""
    half = keys // 2
    features = []
    for at in range(1024):
        chosen = [half + (4 * at + tag) * STEP % half for tag in range(4)]
        tags = packed(it for key in chosen for it in (key, 0))
        features.append(field(2, DELIMITED, feature(UNKNOWN, b"", tags=tags)))
    return one_payload(NAMED + SMALLEST_KEY * keys + SMALLEST_VALUE, b"".join(features), size)


# One fault at the end of many bytes

# a ring of positive area, from the cursor and back to it
SQUARE = [command(MOVE_TO, 1), *parameters([(0, -2)]), command(LINE_TO, 3), *parameters([(2, 0), (0, 2), (-2, 0)]), command(CLOSE_PATH, 1)]
TRIANGLE = packed(SQUARE[:3] + [command(LINE_TO, 2), *parameters([(2, 0), (-2, 2)]), command(CLOSE_PATH, 1)])


def ring(first, *steps):
    """The numbers of a ring whose first vertex is a step from the cursor."""
    return [command(MOVE_TO, 1), *parameters([first]), command(LINE_TO, len(steps)), *parameters(steps), command(CLOSE_PATH, 1)]


def rings_with(last, size):
    """One feature of as many squares as fit, each a polygon, with these numbers after them."""
    drawn = repeated(packed(SQUARE), size - 128)
    one = feature(POLYGON, drawn + packed(last))
    return field(3, DELIMITED, NAMED + field(2, DELIMITED, one))


def features_with(last, size, rest=b""):
    """One layer of as many small features as fit, with this feature after them, and then these bytes."""
    small = field(2, DELIMITED, feature(POLYGON, TRIANGLE))
    own = SMALLEST_KEY + SMALLEST_VALUE
    return field(3, DELIMITED, NAMED + own + repeated(small, size - 128) + field(2, DELIMITED, last)) + rest


GOOD = feature(POINT, packed([command(MOVE_TO, 1), 0, 0]))
# By the kind of the fault: (the square's hole of negative area is beside it, or within another)
SHIFTED = [(0, -100), (100, 0), (0, 100), (-100, 0)]
FAULTY = {
    "wire": lambda size: features_with(field(3, VARINT, POINT) + field(4, DELIMITED, b"\x09\x00\x80"), size),
    "version": lambda size: features_with(GOOD, size, field(3, DELIMITED, field(15, VARINT, 1) + field(1, DELIMITED, b"b"))),
    "name": lambda size: features_with(GOOD, size, field(3, DELIMITED, NAMED)),
    "tag": lambda size: features_with(feature(UNKNOWN, b"", tags=packed([0, 0, 0, 0])), size),
    "command": lambda size: rings_with([command(MOVE_TO, 1), 0, 4294967295], size),
    "ring": lambda size: rings_with(ring((0, -2), (2, 0), (2, 0)), size),
    "meeting": lambda size: rings_with(ring((0, 8), (10, -8), (0, 10), (-10, -10)), size),
    "outside": lambda size: rings_with(ring((20, 0), (0, 10), (10, 0), (0, -10)), size),
    "hole_in_hole": lambda size: rings_with(
        ring(*SHIFTED) + ring((10, -90), (0, 80), (80, 0), (0, -80)) + ring((-70, 10), (0, 10), (10, 0), (0, -10)), size
    ),
}

# by their names, what fills a size
SIZED = {
    "short_fields": lambda size: repeated(SHORT, size),
    "smallest_layers": lambda size: b"".join(smallest_layers(size)),
    "smallest_features": lambda size: one_payload(NAMED, SMALLEST_FEATURE, size),
    "smallest_points": lambda size: one_payload(NAMED, SMALLEST_POINT, size),
    "smallest_lines": smallest_lines,
    "parted_lines": parted_lines,
    "smallest_keys": lambda size: one_payload(NAMED, SMALLEST_KEY, size),
    "smallest_values": lambda size: one_payload(NAMED, SMALLEST_VALUE, size),
    "named_layers": named_layers,
    "many_tags": many_tags,
    "tagged_features": lambda size: tagged_features(size, 128),
    "many_keys": lambda size: tagged_features(size, size // 8),
}
# those that tests/hostile takes beside them
HOSTILE = {
    "prefixed_layers": lambda size: b"".join(prefixed_layers(size)),
    "repeated_name": repeated_name,
    "one_name": lambda size: repeated(named_layer(PREFIX), size),
    "longest_fields": lambda size: repeated(longest(1 << 3 | VARINT) + longest((1 << 64) - 1), size),
    "longest_points": longest_points,
    "greatest_keys": lambda size: one_payload(NAMED, GREATEST_KEY, size),
}

INPUTS = {
    "one_payload_64_mib": lambda: one_payload(b"", NO_MESSAGE, 64 * MIB),
    "small_layers_8_mib": lambda: b"".join(smallest_layers(8 * MIB)),
    "many_features_20_mb": lambda: many_features(20_000_000),
    "long_lines_20_mb": lambda: long_lines(20_000_000),
}
for vertices in (10, 100, 1000):
    INPUTS[f"polygons_of_{vertices}"] = lambda count=vertices: polygons(MIB, count)
# (64 MiB are the greatest input that the program takes)
for mib in (16, 32, 64):
    INPUTS |= {f"{name}_{mib}_mib": lambda write=write, size=mib * MIB: write(size) for name, write in SIZED.items()}
for kind, write in FAULTY.items():
    INPUTS[f"{kind}_fault_64_mib"] = lambda write=write: write(64 * MIB)


def write_inputs(inputs, folder, names):
    """Writes those of these inputs that are named, or all, each into a file of its name."""
    os.makedirs(folder, exist_ok=True)
    for name in names or inputs:
        with open(f"{folder}/{name}", "wb") as it:
            it.write(inputs[name]())


if __name__ == "__main__":
    write_inputs(INPUTS, sys.argv[1], sys.argv[2:])
