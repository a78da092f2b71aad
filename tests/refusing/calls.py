"""The calls that tests/memory makes by memory_runs, with their answers."""
from call import NOTHING_WRITTEN, Call, mended, tile
from features import mending_beside_others, mendings, report_on


def triangle_of(vertices):
    """The numbers of a triangle with so many vertices, all but one of them along its upper side."""
    along = vertices - 2
    return f"9 0 0 {8 * (along + 1) + 2} {'2 0 ' * along}{2 * along - 1} 40 15"


def ring_fault(edges, x, y, w, polygon=0):
    """A meeting in a polygon of the first feature, as Rust's Debug writes it."""
    (first_ring, first_edge), (second_ring, second_edge) = edges
    return (
        f"Meeting {{ layer: 0, feature: 0, polygon: {polygon}, first: RingEdge {{ ring: {first_ring}, edge: {first_edge} }}, "
        f"second: RingEdge {{ ring: {second_ring}, edge: {second_edge} }}, x: {x}, y: {y}, w: {w} }}"
    )


def meeting(edges, x, y, w):
    """A meeting of two edges among the rings of one call."""
    (first_ring, first_edge), (second_ring, second_edge) = edges
    return (
        f"Meeting {{ first_ring: {first_ring}, first_edge: {first_edge}, second_ring: {second_ring}, "
        f"second_edge: {second_edge}, point: Hpoint {{ x: {x}, y: {y}, w: {w} }} }}"
    )


# The polygons of the Mapbox Vector Tile Specification 2.1, sections 4.3.5.5 and 4.3.5.6.
TRIANGLE = "9 6 12 18 10 12 24 44 15"
TWO_POLYGONS = "9 0 0 26 20 0 0 20 19 0 15 9 22 2 26 18 0 0 18 17 0 15 9 4 13 26 0 8 8 0 0 7 15"
# The second of these two polygons alone, which has a hole; and a square with a hole beside it.
WITH_HOLE = "9 22 2 26 18 0 0 18 17 0 15 9 4 13 26 0 8 8 0 0 7 15"
HOLE_OUTSIDE = "9 0 0 26 20 0 0 20 19 0 15 9 40 19 26 0 20 20 0 0 19 15"
# A square of 100, in it a hole from (10,10) to (90,90), and in that one a hole from (20,20).
HOLE_IN_HOLE = "9 0 0 26 200 0 0 200 199 0 15 9 20 179 26 0 160 160 0 0 159 15 9 139 20 26 0 20 20 0 0 19 15"
# The ring (0,8), (10,0), (10,10), (0,0). The line from (0,8) to (10,0) meets the diagonal where y = x = 8 - 0.8 * x.
CROSSING = "9 0 16 26 20 15 0 20 19 19 15"
CROSSED = (((0, 0), (0, 2)), 800, 800, 180)
CROSSED_LINE = (
    '{"code":504,"feature":0,"first":{"edge":0,"ring":0},"layer":0,"polygon":0,'
    '"second":{"edge":2,"ring":0},"w":"180","x":"800","y":"800"}'
)
WRITERS_DUMP = (
    '{"layers":[{"extent":4096,"features":[{"geometry":[9,50,34],"id":7,"tags":[0,0],"type":1}],"keys":["k"],'
    '"name":"a","values":[{"string":"v"}],"version":2}]}'
)
# Two layers of different names.
TWO_LAYERS = bytes.fromhex("1a 05 78 02 0a 01 61 1a 05 78 02 0a 01 62")
# A layer of 257 keys, with a point that has the last of them twice. (The marks of the first 256 take no memory.)
KEY_257_TWICE = bytes.fromhex(
    "1a 9d 06 78 02 0a 01 61 12 0f 12 06 80 02 00 80 02 00 18 01 22 03 09 32 22" + " 1a 01 6b" * 257 + " 22 02 38 01"
)
KEY_TWICE = "Some(Tag { code: Repeated, layer: 0, feature: 0, index: 2 })"
# A layer with no feature and two equal keys.
EQUAL_KEYS = bytes.fromhex("1a 0b 78 02 0a 01 61 1a 01 6b 1a 01 6b")
ADVICE = "[NoFeature { layer: 0 }, EqualKey { layer: 0, first: 0, second: 1 }]"
ADVICE_LINE = '{"advice":[{"kind":"no_feature","layer":0},{"first":0,"kind":"equal_key","layer":0,"second":1}]}'
CUT = '{"at":0,"code":105,"field":3,"scope":"tile"}'
# A bar from (0,10) to (30,20), and one from (10,0) to (20,30): horizontal edges of the first meet vertical ones of the other.
BARS_MEET = tuple(
    f"No({ring_fault(((0, edge), (1, other)), x * 900, y * 900, 900, polygon=1)})"
    for edge, y in ((0, 10), (2, 20))
    for other, x in ((1, 20), (3, 10))
)
IN_POLYGON = "InPolygon { layer: 0, feature: 0, polygon: 0, vertex: 2, other: 1 }"
IN_POLYGON_LINE = '{"code":507,"feature":0,"layer":0,"other":1,"polygon":0,"vertex":2}'
# A square from (0,0) to (10,10) and one from (5,5) to (15,15), after one that is far from both.
FAR_AND_OVERLAPPING = bytes.fromhex(
    "1a 30 78 02 0a 01 61 12 29 18 03 22 25 09 c8 01 c8 01 1a 14 00 00 14 13 00 0f 09 c7 01 db 01 1a 14 00 00 14 13 00 0f "
    "09 0a 09 1a 14 00 00 14 13 00 0f"
)
# Squares in each other: ground with a hole, an island in it, and a stone on the island.
STONE_ON_ISLAND = bytes.fromhex(
    "1a 3d 78 02 0a 01 61 12 36 18 03 22 32 09 00 00 1a c8 01 00 00 c8 01 c7 01 00 0f 09 14 13 1a a0 01 00 00 9f 01 9f 01 00 0f "
    "09 14 14 1a 78 00 00 78 77 00 0f 09 14 63 1a 14 00 00 14 13 00 0f"
)
# Two layers of one name, each with a point whose command is none.
LAYERS_AND_COMMANDS = bytes.fromhex("1a 0e 78 02 0a 01 61 12 07 18 01 22 03 0a 32 22" * 2)
LAYER_AND_COMMAND_FAULTS = (
    "[Name { first: 0, second: 1 }, Command { code: OtherCommand, layer: 0, feature: 0, index: 0 }, "
    "Command { code: OtherCommand, layer: 1, feature: 0, index: 0 }]"
)
LAYER_AND_COMMAND_LINES = (
    '{"code":202,"first":0,"second":1}',
    '{"code":401,"feature":0,"index":0,"layer":0}',
    '{"code":401,"feature":0,"index":0,"layer":1}',
)
# A square that is wound backwards, so that its first ring is a hole, and the same turned from its first position; and MoveTo
# with a count of 0, which draws no ring.
BACKWARDS = bytes.fromhex("1a 16 78 02 0a 01 61 12 0f 18 03 22 0b 09 00 00 1a 00 14 14 00 00 13 0f")
TURNED = bytes.fromhex("1a 16 78 02 0a 01 61 12 0f 18 03 22 0b 09 00 00 1a 14 00 00 14 13 00 0f")
NO_RING = bytes.fromhex("1a 0e 78 02 0a 01 61 12 07 18 03 22 03 01 32 22")
NO_FEATURE = bytes.fromhex("1a 05 78 02 0a 01 61")
SQUARE_TURNED = (
    "Mended(MendedFeature { before: Measures { doubled_area: -200, polygons: 0, vertices: 4 }, "
    "after: Measures { doubled_area: 200, polygons: 1, vertices: 4 }, crossings: 0, cuts: 0 })"
)
DROPPED_REPORT = '{"changed":[{"feature":0,"layer":0,"what":"dropped"}],"ok":true}'
TURNED_REPORT = (
    '{"changed":[{"area":["-200","200"],"crossings":0,"cuts":0,"feature":0,"layer":0,"polygons":[0,1],"vertices":[4,4],'
    '"what":"mended"}],"ok":true}'
)
# The two triangles of tiles/crossing_edges.mvt: (0,0), (4,4), (0,8) and (4,4), (10,0), (10,10).
PARTED = bytes.fromhex("1a 1d 78 02 0a 01 61 12 16 18 03 22 12 09 00 00 12 08 08 07 08 0f 09 08 07 12 0c 07 00 14 0f")
PARTED_REPORT = (
    '{"changed":[{"area":["20","92"],"crossings":1,"cuts":0,"feature":0,"layer":0,"polygons":[1,2],"vertices":[4,6],'
    '"what":"mended"}],"ok":true}'
)
HOLE_FAULT = "HoleInHole { layer: 0, feature: 0, polygon: 0, ring: 2, vertex: 0, other: 1 }"
POINT_TILE = (
    'Tile { layers: [Layer { version: 2, name: "a", features: [Feature { id: None, tags: [], kind: Point, '
    "geometry: [9, 50, 34] }], keys: [], values: [], extent: 4096 }] }"
)


def points(*positions):
    return "[" + ", ".join(f"Point {{ x: {x}, y: {y} }}" for x, y in positions) + "]"


def numbers_of(text):
    return "[" + ", ".join(text.split()) + "]"


def calls_on_tiles():
    return [
        Call("judge", tile("point"), "Yes", asks=False),
        Call("judge", TWO_LAYERS, "Yes"),
        Call("judge", tile("polygon_with_hole"), "Yes"),
        Call("judge", tile("hole_in_hole"), f"No({HOLE_FAULT})"),
        Call("judge", tile("double_comb"), "Yes"),
        Call("judge", tile("crossing_edges"), f"No({ring_fault(*CROSSED)})"),
        Call("judge_with_feature", tile("island_in_hole"), "Yes"),
        Call("judge_with_feature", tile("polygons_that_overlap"), f"No({IN_POLYGON})"),
        Call("judge_with_feature", tile("polygons_that_cross"), BARS_MEET[0], others=BARS_MEET[1:]),
        Call("judge_with_feature", FAR_AND_OVERLAPPING, "No(InPolygon { layer: 0, feature: 0, polygon: 1, vertex: 2, other: 2 })"),
        Call("judge_with_feature", STONE_ON_ISLAND, "No(InPolygon { layer: 0, feature: 0, polygon: 2, vertex: 0, other: 1 })"),
        Call("judge_quickly", tile("island_in_hole"), "Yes"),
        Call("judge_quickly", tile("polygons_that_cross"), BARS_MEET[0], others=BARS_MEET[1:]),
        Call("judge_quickly", STONE_ON_ISLAND, "No(InPolygon { layer: 0, feature: 0, polygon: 2, vertex: 0, other: 1 })"),
        Call("faults_with", tile("island_in_hole"), "[]"),
        Call("faults_with", tile("polygons_that_overlap"), f"[{IN_POLYGON}]"),
        Call("faults_with", LAYERS_AND_COMMANDS, LAYER_AND_COMMAND_FAULTS),
        Call("faults_quickly", LAYERS_AND_COMMANDS, LAYER_AND_COMMAND_FAULTS),
        Call("fault_lines", LAYERS_AND_COMMANDS, "".join(LAYER_AND_COMMAND_LINES)),
        Call("mend_with", tile("polygon_with_hole"), "Valid"),
        Call("mend_with", BACKWARDS, mended(TURNED, SQUARE_TURNED)),
        Call("mend_with", NO_RING, "Refused(Command { code: OtherCount, layer: 0, feature: 0, index: 0 })"),
        Call("mend_with", tile("truncated"), "Refused(Wire { code: PastEnd, scope: Tile, at: 0, field: 3 })"),
        Call("mend_with_drop", BACKWARDS, mended(TURNED, SQUARE_TURNED)),
        Call("mend_with_drop", NO_RING, mended(NO_FEATURE, "Dropped")),
        Call("mend_with_drop", LAYERS_AND_COMMANDS, "Refused(Name { first: 0, second: 1 })"),
        *(it.call() for it in mendings()),
        mending_beside_others(),
        Call("report_text", BACKWARDS, TURNED_REPORT),
        Call("report_text", NO_RING, DROPPED_REPORT),
        *(report_on(*it) for it in ((1, 1), (3, 10), (4, 10), (11, 1000))),
        Call("judge", tile("truncated"), "No(Wire { code: PastEnd, scope: Tile, at: 0, field: 3 })", asks=False),
        Call("read_tile", tile("point"), POINT_TILE),
        Call("read_tile", tile("truncated"), "Wire { code: PastEnd, scope: Tile, at: 0, field: 3 }", asks=False),
        Call("check_layers", tile("two_layers_of_one_name"), "Some(Name { first: 0, second: 1 })"),
        Call("check_tags", tile("key_twice"), KEY_TWICE, asks=False),
        Call("check_tags", KEY_257_TWICE, KEY_TWICE),
        Call("advise", EQUAL_KEYS, ADVICE),
        Call("advice_text", EQUAL_KEYS, ADVICE_LINE),
        Call("dump_text", tile("writers_order"), WRITERS_DUMP),
        Call("fault_text", tile("truncated"), CUT),
        Call("fault_from_text", CROSSED_LINE.encode(), f"Ok({ring_fault(*CROSSED)})"),
        Call("fault_from_text", b'{"ok":true}', "Err(Shape)"),
        Call("fault_from_text", b"{", "Err(Json)"),
        Call("fault_from_text", CUT.replace("3", "4294967296").encode(), "Err(Range)"),
    ]


def calls_on_numbers():
    rows = [
        ("draw point", "9 50 34", f"Points({points((25, 17))})"),
        ("draw line", "9 4 4 18 0 16 16 0", f"Lines([{points((2, 2), (2, 10), (10, 10))}])"),
        ("draw polygon", TRIANGLE, f"Rings([{points((3, 6), (8, 12), (20, 34))}])"),
        ("spell point", "17 10 14 3 9", "[17, 10, 14, 3, 9]"),
        ("spell polygon", TWO_POLYGONS, numbers_of(TWO_POLYGONS)),
        ("spell_far point", "", "Unspellable"),
        ("groups", TWO_POLYGONS, "[(0, 1), (1, 3)]"),
        ("check_polygon", triangle_of(41), "None"),
        ("check_polygon", WITH_HOLE, "None"),
        ("check_polygon", HOLE_OUTSIDE, "Some(Nesting(Outside { ring: 1, vertex: 0 }))"),
        ("check_polygon", HOLE_IN_HOLE, "Some(Nesting(InHole { ring: 2, vertex: 0, other: 1 }))"),
    ]
    # (one ring of at most 40 vertices takes no memory)
    small = [
        ("check_polygon", TRIANGLE, "None"),
        ("check_polygon", triangle_of(40), "None"),
        ("check_polygon", CROSSING, f"Some(Meeting({meeting(*CROSSED)}))"),
    ]
    for call in ("find_meeting", "find_meeting_in_tree", "find_meeting_in_vector"):
        rows += [
            (call, TRIANGLE, "None"),
            (call, TWO_POLYGONS, "None"),
            (call, CROSSING, f"Some({meeting(*CROSSED)})"),
        ]
    faults = [
        ("draw point", "10 50 34", "OtherCommand", 0),
        ("draw point", "1", "OtherCount", 0),
        ("draw point", "9 50", "Unfinished", 2),
        ("draw point", "9 50 34 9 50 34", "OtherCommand", 3),
    ]
    return (
        [Call(words, given.encode(), answer) for words, given, answer in rows]
        + [Call(words, given.encode(), answer, asks=False) for words, given, answer in small]
        + [
            Call(words, given.encode(), f"Command {{ code: {code}, index: {index} }}", asks=False)
            for words, given, code, index in faults
        ]
    )


def written(outcome, *lines):
    """What memory_runs prints where an engine writes a line or two, each of which ends with one LF."""
    count = sum(len(line) + 1 for line in lines)
    return f"{outcome}, {count} bytes written: {' and '.join(lines)}"


def engines():
    layers, point = tile("two_layers_of_one_name"), tile("point")
    listed = '{"fields":[{"at":0,"length":14,"number":3,"type":2}]}'
    confirm = f"confirm_streams {CROSSED_LINE}"
    rows = [
        ("fields_stream", point, written("Yes", listed)),
        ("check_stream", layers, written("No", '{"code":202,"first":0,"second":1}')),
        ("check_stream", tile("polygon_with_hole"), written("Yes", '{"ok":true}')),
        ("advise_stream", EQUAL_KEYS, written("Yes", '{"ok":true}', ADVICE_LINE)),
        ("check_stream_by", EQUAL_KEYS, written("Yes", '{"ok":true}', ADVICE_LINE)),
        ("check_stream_unwritten", layers, "Err(Write), 3 bytes written"),
        ("dump_stream", tile("writers_order"), written("Yes", WRITERS_DUMP)),
        (confirm, tile("crossing_edges"), written("Yes", '{"confirmed":true}')),
        (confirm, tile("polygon"), written("No", '{"confirmed":false}')),
    ]
    return [Call(words, given, answer, (NOTHING_WRITTEN,)) for words, given, answer in rows] + [
        Call("check_stream_unread", layers, "Err(Read), 0 bytes written", asks=False)
    ]
