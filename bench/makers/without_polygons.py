#!/usr/bin/env python3
"""Writes the tiles of a folder, NAME.mvt, without their features of type POLYGON: without_polygons.py FOLDER INTO.

All other bytes stay as they are, but for the lengths of layers: names, keys and values, and layers that have no feature
left. A tile that isn't whole messages is left out.
"""
import pathlib
import sys

VARINT, FIXED64, DELIMITED, FIXED32 = 0, 1, 2, 5
LAYERS, FEATURES, TYPE = 3, 2, 3
POLYGON = 3


class NotWhole(Exception):
    """The bytes are no message."""


def varint(part, at):
    """The number of a varint, and where it ends."""
    number = 0
    for shift in range(0, 70, 7):
        if at >= len(part):
            break
        byte = part[at]
        number |= (byte & 127) << shift
        at += 1
        if byte < 128:
            return number, at
    raise NotWhole


def spelled(number):
    groups = []
    while number > 127:
        groups.append(number & 127 | 128)
        number >>= 7
    return bytes([*groups, number])


def fields(part):
    """The number, the payload and all bytes of each field; the payload of a varint is its number."""
    at = 0
    while at < len(part):
        begin = at
        key, at = varint(part, at)
        number, kind = key >> 3, key & 7
        if kind == VARINT:
            payload, at = varint(part, at)
        else:
            if kind == DELIMITED:
                size, at = varint(part, at)
            else:
                size = {FIXED64: 8, FIXED32: 4}.get(kind, len(part) + 1)
            payload, at = part[at : at + size], at + size
            if at > len(part):
                raise NotWhole
        yield number, payload, part[begin:at]


def is_polygon(feature):
    return any(number == TYPE and payload == POLYGON for number, payload, _ in fields(feature))


def without_polygons(tile):
    written = bytearray()
    for number, payload, whole in fields(tile):
        if number == LAYERS and isinstance(payload, bytes):
            kept = [it for its, inner, it in fields(payload) if its != FEATURES or not is_polygon(inner)]
            layer = b"".join(kept)
            whole = spelled(LAYERS << 3 | DELIMITED) + spelled(len(layer)) + layer
        written += whole
    return bytes(written)


def main():
    folder, into = map(pathlib.Path, sys.argv[1:])
    into.mkdir(parents=True, exist_ok=True)
    for left in into.glob("*.mvt"):
        left.unlink()
    for tile in sorted(folder.glob("*.mvt")):
        try:
            (into / tile.name).write_bytes(without_polygons(tile.read_bytes()))
        except (NotWhole, TypeError):
            print(f"without_polygons.py: {tile.name} isn't whole messages, and is left out", file=sys.stderr)


if __name__ == "__main__":
    main()
