"""What files of tiles have in common."""

# the bytes of a tile, as the program `mvtgate` has it; for a compressed file both its own and those that come out of it
LIMIT = 67_108_864
ENDINGS = (".mvt", ".pbf", ".mvt.gz", ".pbf.gz", ".mvt.zst", ".pbf.zst")
ARCHIVES = (".mbtiles", ".pmtiles")


def is_named_as_tiles(path: str) -> bool:
    """Whether a name is that of a tile or an archive, which nothing else is to be written over."""
    return path.endswith((*ENDINGS, *ARCHIVES))
