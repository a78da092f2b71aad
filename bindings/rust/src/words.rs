//! The words for each fault, each advice and each other format. In a sentence and a place names in braces stand for members of
//! the fault.
//!
//! Written by bindings/rust/make_words from bindings/faults.json: edit that file, and run this one.

use crate::format::{Format, Rule};

/// What a code, or a kind of advice, means.
pub(crate) struct Words {
    pub title: &'static str,
    pub sentence: &'static str,
    pub place: &'static str,
    pub meaning: &'static str,
    pub cause: &'static str,
    pub remedy: &'static str,
}

// The message that a wire fault is in.
pub(crate) const IN_TILE: &str = "the tile";
pub(crate) const IN_LAYER: &str = "layer {layer}";
pub(crate) const IN_VALUE: &str = "value {value} of layer {layer}";
pub(crate) const IN_FEATURE: &str = "feature {feature} of layer {layer}";

// The field that a wire fault is about.
pub(crate) const KEY_FIELD: &str = "a field key";
pub(crate) const KNOWN_FIELD: &str = "field {number} ({name})";
pub(crate) const UNKNOWN_FIELD: &str = "field {number}";

/// The words for a code, of which there is one for each fault.
pub(crate) fn of_code(code: u16) -> &'static Words {
    match code {
        101 => &Words {
            title: "Varint ends too early",
            sentence: "In {scope}, the varint of {field} that is due at byte {at} ends too early.",
            place: "byte {at}, in {scope}",
            meaning: "A varint ends too early: the message, or the packed list, ends before it or in the middle of it.",
            cause: "bytes that were cut while they were written or fetched; a length that is too small.",
            remedy: "write the tile whole, or compute the length from the bytes that were written.",
        },
        102 => &Words {
            title: "Varint too long",
            sentence: "In {scope}, the varint of {field} at byte {at} is too long.",
            place: "byte {at}, in {scope}",
            meaning: "A varint is too long: more than ten bytes, or more than 64 bits.",
            cause: "bytes that are no tile; a bug in an encoder of numbers.",
            remedy: "check that the input is an uncompressed tile; otherwise fix the encoder.",
        },
        103 => &Words {
            title: "Field key out of range",
            sentence: "In {scope}, the field key at byte {at} is out of range, or its field number is 0.",
            place: "byte {at}, in {scope}",
            meaning: "A field key is out of range, or its field number is 0.",
            cause: "bytes that are no tile, such as padding with zeros.",
            remedy: "check that the input is a tile, with nothing after its last byte.",
        },
        104 => &Words {
            title: "Wire type that no tile uses",
            sentence: "In {scope}, {field} at byte {at} has a wire type that no tile uses.",
            place: "byte {at}, in {scope}",
            meaning: "A wire type that no tile uses: a group (3 or 4), or one that doesn't exist (6 or 7).",
            cause: "compressed tiles: bytes of gzip begin with `1f 8b` and get this code at offset 0 for field 3; other files that are no tile.",
            remedy: "hand over the uncompressed bytes (`gunzip`).",
        },
        105 => &Words {
            title: "Payload past the end of its message",
            sentence: "In {scope}, the payload of {field} at byte {at} runs past the end of its message.",
            place: "byte {at}, in {scope}",
            meaning: "A payload runs past the end of its message.",
            cause: "a tile that was cut; a length that is too great.",
            remedy: "write the tile whole; compute lengths from the bytes.",
        },
        106 => &Words {
            title: "Field with another wire type",
            sentence: "In {scope}, {field} at byte {at} has another wire type than its own.",
            place: "byte {at}, in {scope}",
            meaning: "A known field has another wire type than its own.",
            cause: "another schema than that of the specification, or an extension under a number that is taken.",
            remedy: "keep to the specification's numbers and types; give extensions field numbers of their own.",
        },
        107 => &Words {
            title: "Field that occurs twice",
            sentence: "In {scope}, {field} occurs again at byte {at}, and may occur once.",
            place: "byte {at}, in {scope}",
            meaning: "A field that may occur once occurs twice. Protocol Buffers allow it, and the last one counts; this gate refuses it, since readers differ.",
            cause: "messages that were merged by concatenating their bytes.",
            remedy: "read the messages and write one.",
        },
        108 => &Words {
            title: "Required field missing",
            sentence: "In {scope}, which ends at byte {at}, {field} is missing.",
            place: "byte {at}, in {scope}",
            meaning: "A required field is missing: a layer's name or version, or a feature's type or geometry.",
            cause: "a field left out because it has its default, as some libraries do with 0.",
            remedy: "always write these fields.",
        },
        109 => &Words {
            title: "Value of no kind, or of several",
            sentence: "In {scope}, which ends at byte {at}, there is none of the seven kinds of a value, or several.",
            place: "byte {at}, in {scope}",
            meaning: "A value has none of its seven kinds, or several.",
            cause: "a null among the properties, written as a value with nothing in it.",
            remedy: "leave the tag out.",
        },
        110 => &Words {
            title: "Text that isn't UTF-8",
            sentence: "In {scope}, the text of {field} at byte {at} isn't UTF-8.",
            place: "byte {at}, in {scope}",
            meaning: "A text isn't UTF-8.",
            cause: "texts of a database or a shapefile in another encoding.",
            remedy: "convert texts to UTF-8.",
        },
        111 => &Words {
            title: "Number out of range",
            sentence: "In {scope}, the number of {field} at byte {at} is out of range.",
            place: "byte {at}, in {scope}",
            meaning: "A number of 32 bits (a version, an extent, or a number of tags or geometry) is above 4,294,967,295, or a geometry type above 3.",
            cause: "negative numbers written as 64 bits; types of another schema.",
            remedy: "write numbers of 32 bits without a sign.",
        },
        201 => &Words {
            title: "Layer version other than 2",
            sentence: "The version of layer {layer} isn't 2.",
            place: "layer {layer}",
            meaning: "A layer's version isn't 2.",
            cause: "writers of the specification's first version.",
            remedy: "write version 2, and keep its rules.",
        },
        202 => &Words {
            title: "Two layers of one name",
            sentence: "Layers {first} and {second} have one name.",
            place: "layers {first} and {second}",
            meaning: "Two layers have one name.",
            cause: "tiles of several sources that were concatenated.",
            remedy: "merge the layers, or give them different names.",
        },
        301 => &Words {
            title: "Odd number of tags",
            sentence: "In feature {feature} of layer {layer}, the list of tags has the odd length {index}, so its last key has no value.",
            place: "layer {layer}, feature {feature}, end of its {index} tag numbers",
            meaning: "The list of tags is odd, so a key has no value.",
            cause: "a bug in an encoder.",
            remedy: "write tags in pairs.",
        },
        302 => &Words {
            title: "Tag without a key",
            sentence: "In feature {feature} of layer {layer}, number {index} of the tags names a key that the layer doesn't have.",
            place: "layer {layer}, feature {feature}, number {index} of its tags",
            meaning: "A tag has a key that the layer doesn't have.",
            cause: "keys or features left out, or moved between layers, after tags were written.",
            remedy: "number keys by the layer that is written.",
        },
        303 => &Words {
            title: "Tag without a value",
            sentence: "In feature {feature} of layer {layer}, number {index} of the tags names a value that the layer doesn't have.",
            place: "layer {layer}, feature {feature}, number {index} of its tags",
            meaning: "A tag has a value that the layer doesn't have.",
            cause: "values or features left out, or moved between layers, after tags were written.",
            remedy: "number values by the layer that is written.",
        },
        304 => &Words {
            title: "Two tags of one key",
            sentence: "In feature {feature} of layer {layer}, number {index} of the tags names the key of an earlier tag again.",
            place: "layer {layer}, feature {feature}, number {index} of its tags",
            meaning: "A feature has two tags of one key.",
            cause: "properties of two sources joined without looking for equal names.",
            remedy: "keep one of them.",
        },
        401 => &Words {
            title: "Wrong command, or a number too many",
            sentence: "In feature {feature} of layer {layer}, number {index} of the geometry isn't the command that is due, or nothing is due there.",
            place: "layer {layer}, feature {feature}, number {index} of its geometry",
            meaning: "A command is due, and the number has another id; or nothing is due, and there is a further number.",
            cause: "a figure written for another geometry type; a bug in an encoder.",
            remedy: "write points as one MoveTo, lines as MoveTo and LineTo, rings with a ClosePath.",
        },
        402 => &Words {
            title: "Command count not allowed",
            sentence: "In feature {feature} of layer {layer}, number {index} of the geometry is a command whose count isn't allowed there.",
            place: "layer {layer}, feature {feature}, number {index} of its geometry",
            meaning: "A command's count isn't allowed. A ring needs three vertices and a line two; MoveTo has count 1 in lines and rings, and at least 1 in points; ClosePath has count 1.",
            cause: "a line or ring that shrank when it was rounded to the grid.",
            remedy: "of polygons, mend the tile with `mvtgate mend`; at the source, leave out figures that have become too small.",
        },
        403 => &Words {
            title: "Geometry ends too early",
            sentence: "In feature {feature} of layer {layer}, the geometry ends after {index} numbers, where more is due.",
            place: "layer {layer}, feature {feature}, end of its {index} geometry numbers",
            meaning: "The geometry ends too early.",
            cause: "a geometry with no numbers; a count that is too great.",
            remedy: "leave out features with no geometry.",
        },
        404 => &Words {
            title: "Parameter out of range",
            sentence: "In feature {feature} of layer {layer}, number {index} of the geometry is the parameter 4294967295, which would be -2^31.",
            place: "layer {layer}, feature {feature}, number {index} of its geometry",
            meaning: "A parameter is 4294967295, which would be -2^31.",
            cause: "a step between far positions that wrapped around.",
            remedy: "clip geometry to the tile.",
        },
        405 => &Words {
            title: "Position out of range",
            sentence: "In feature {feature} of layer {layer}, number {index} of the geometry leads to a position beyond 2^30 in a coordinate.",
            place: "layer {layer}, feature {feature}, number {index} of its geometry",
            meaning: "A position is beyond 2^30 in a coordinate. That bound is this project's own.",
            cause: "geometry that wasn't clipped.",
            remedy: "clip geometry to the tile and its buffer.",
        },
        406 => &Words {
            title: "Step of no length",
            sentence: "In feature {feature} of layer {layer}, number {index} of the geometry ends a LineTo step of (0, 0).",
            place: "layer {layer}, feature {feature}, number {index} of its geometry",
            meaning: "A LineTo step of a line or ring is (0, 0).",
            cause: "neighbouring vertices that became one when they were rounded to the grid.",
            remedy: "of polygons, mend the tile with `mvtgate mend`; at the source, leave out a vertex that has the position of the one before it.",
        },
        501 => &Words {
            title: "Ring that ends where it began",
            sentence: "Ring {ring} of feature {feature} of layer {layer} has its first position as its last one too.",
            place: "layer {layer}, feature {feature}, ring {ring}",
            meaning: "A ring's last position is its first one, to which ClosePath leads anyway.",
            cause: "rings of sources that repeat the first vertex, such as GeoJSON, copied as they are.",
            remedy: "mend the tile with `mvtgate mend`; at the source, leave out the last vertex.",
        },
        502 => &Words {
            title: "Ring without area",
            sentence: "Ring {ring} of feature {feature} of layer {layer} has no area.",
            place: "layer {layer}, feature {feature}, ring {ring}",
            meaning: "A ring has no area.",
            cause: "rings that collapsed on the grid to a line or a spike.",
            remedy: "mend the tile with `mvtgate mend`; at the source, leave out rings without area.",
        },
        503 => &Words {
            title: "Feature that begins with a hole",
            sentence: "Ring {ring} of feature {feature} of layer {layer}, the first one, is a hole by its winding.",
            place: "layer {layer}, feature {feature}, ring {ring}",
            meaning: "The first ring of a feature is a hole, by its winding.",
            cause: "an exterior wound backwards. GDAL 3.6 does so where a spike collapsed on the grid: 22 of 100 of its tiles in a sample.",
            remedy: "mend the tile with `mvtgate mend`; at the source, orient rings after rounding, by the area on the grid.",
        },
        504 => &Words {
            title: "Edges that meet",
            sentence: "In feature {feature} of layer {layer}, edge {first.edge} of ring {first.ring} meets edge {second.edge} of ring {second.ring}, of polygon {polygon}, at ({x/w}, {y/w}).",
            place: "layer {layer}, feature {feature}, polygon {polygon}, at ({x/w}, {y/w})",
            meaning: "Two edges of a polygon have a point in common other than the vertex that neighbours share: rings cross or touch, each other or themselves. By the profile `feature` the two may also be of different polygons of a feature; the fault is then told for the later one, of which the second edge is.",
            cause: "rings that touch in a vertex, as PostGIS makes them (30 of 100 of its tiles in a sample). The Open Geospatial Consortium's rules allow them, and this gate refuses them on purpose. Also rings that really cross after rounding to the grid (2 of 100 of tilemaker's).",
            remedy: "mend the tile with `mvtgate mend`; at the source, make polygons valid after rounding; where rings touch, split them into polygons (by the profile `feature`, into features), or move a vertex by one unit.",
        },
        505 => &Words {
            title: "Hole outside its exterior",
            sentence: "In feature {feature} of layer {layer}, vertex {vertex} of ring {ring}, a hole of polygon {polygon}, isn't inside the exterior.",
            place: "layer {layer}, feature {feature}, polygon {polygon}, ring {ring}, vertex {vertex}",
            meaning: "A vertex of a hole isn't inside its exterior.",
            cause: "holes written after another polygon's exterior; an exterior that is wound like a hole.",
            remedy: "mend the tile with `mvtgate mend`; at the source, write each exterior with its own holes after it; orient rings.",
        },
        506 => &Words {
            title: "Hole in another hole",
            sentence: "In feature {feature} of layer {layer}, vertex {vertex} of ring {ring}, a hole of polygon {polygon}, is inside another hole, ring {other}.",
            place: "layer {layer}, feature {feature}, polygon {polygon}, ring {ring}, vertex {vertex}",
            meaning: "A vertex of a hole is inside another hole.",
            cause: "an island in a lake written as a hole; holes that overlap after rounding.",
            remedy: "mend the tile with `mvtgate mend`; at the source, write an island as a polygon of its own; merge holes that overlap.",
        },
        507 => &Words {
            title: "Polygon in another polygon",
            sentence: "In feature {feature} of layer {layer}, vertex {vertex} of the exterior of polygon {polygon} is inside polygon {other}.",
            place: "layer {layer}, feature {feature}, polygon {polygon}, vertex {vertex} of its exterior",
            meaning: "By the profile `feature` alone: a vertex of a polygon's exterior is inside another polygon of the same feature, so inside its exterior and inside none of its holes. Some vertices that lie on the other's ring count as inside, and so the code may also be of polygons that only touch.",
            cause: "polygons that overlap, equal ones, one on another; and islands that touch in a point.",
            remedy: "mend the tile with `mvtgate mend`; at the source, unite the polygons of a feature after rounding, or write those that touch as features of their own; cut a hole where an island lies in a polygon.",
        },
        _ => unreachable!("no fault has the code {}", code),
    }
}

/// The words for a kind of advice.
pub(crate) fn of_advice(kind: &str) -> &'static Words {
    match kind {
        "no_layer" => &Words {
            title: "Tile without layers",
            sentence: "The tile has no layer.",
            place: "the tile",
            meaning: "The tile has no layer.",
            cause: "nothing to draw there. tilemaker writes such tiles, 17 of 107.",
            remedy: "a server may answer 204 or 404 in place of an empty tile, as its clients expect.",
        },
        "no_feature" => &Words {
            title: "Layer without features",
            sentence: "Layer {layer} has no feature.",
            place: "layer {layer}",
            meaning: "A layer has no feature. Its keys and values serve nothing then.",
            cause: "all features were clipped away or left out after the layer was begun.",
            remedy: "write a layer only where it has a feature.",
        },
        "equal_key" => &Words {
            title: "Key that stands twice",
            sentence: "In layer {layer}, key {second} is the same as key {first}.",
            place: "layer {layer}, key {second}",
            meaning: "A key stands twice in a layer's list; `first` is the earliest place with it. A reader that looks for the key by its text finds either.",
            cause: "keys collected without a look at those that are there.",
            remedy: "write each key once, and refer to it.",
        },
        "equal_id" => &Words {
            title: "Two features of one id",
            sentence: "In layer {layer}, feature {second} has the same id as feature {first}.",
            place: "layer {layer}, feature {second}",
            meaning: "Two features of a layer have one id; `first` is the earliest feature with it. Renderers that keep a feature's state by its id mix them up. Features without an id aren't meant.",
            cause: "ids of several sources in one layer; a feature that was split, each part with the id.",
            remedy: "give each feature an id of its own, or none.",
        },
        _ => unreachable!("no advice has the kind {}", kind),
    }
}

/// The name of a field that a message knows, by the message and the field's number.
pub(crate) fn field_name(field: (&str, u32)) -> Option<&'static str> {
    match field {
        ("tile", 3) => Some("layers"),
        ("layer", 1) => Some("name"),
        ("layer", 2) => Some("features"),
        ("layer", 3) => Some("keys"),
        ("layer", 4) => Some("values"),
        ("layer", 5) => Some("extent"),
        ("layer", 15) => Some("version"),
        ("value", 1) => Some("string"),
        ("value", 2) => Some("float"),
        ("value", 3) => Some("double"),
        ("value", 4) => Some("int"),
        ("value", 5) => Some("uint"),
        ("value", 6) => Some("sint"),
        ("value", 7) => Some("bool"),
        ("feature", 1) => Some("id"),
        ("feature", 2) => Some("tags"),
        ("feature", 3) => Some("type"),
        ("feature", 4) => Some("geometry"),
        _ => None,
    }
}

/// Other formats that are taken for tiles.
pub(crate) static FORMATS: &[Rule] = &[
    Rule {
        format: Format {
            name: "gzip",
            title: "Packed by gzip",
            sentence: "The bytes begin as gzip's do: this is a packed file, and no tile yet.",
            remedy: "unpack it first (`gunzip -c FILE`; `mvtgate-check` does so itself). What is still gzip after it was unpacked was packed twice.",
        },
        begins: &[b"\x1f\x8b"],
        after: &[],
    },
    Rule {
        format: Format {
            name: "zlib",
            title: "Packed by zlib",
            sentence: "The bytes begin as zlib's do: this is a packed file, and no tile yet.",
            remedy: "unpack it first (`pigz -dc <FILE`, or `zlib.decompress` of Python; `mvtgate-check` does so itself). What is still zlib after it was unpacked was packed twice.",
        },
        begins: &[b"\x78\x01", b"\x78\x5e", b"\x78\x9c", b"\x78\xda"],
        after: &[],
    },
    Rule {
        format: Format {
            name: "zstd",
            title: "Packed by Zstandard",
            sentence: "The bytes begin as Zstandard's do: this is a packed file, and no tile yet.",
            remedy: "unpack it first (`zstd -dc FILE`; `mvtgate-check` does so itself where Python's `zstandard` is installed).",
        },
        begins: &[b"\x28\xb5\x2f\xfd"],
        after: &[],
    },
    Rule {
        format: Format {
            name: "sqlite",
            title: "Database of SQLite",
            sentence: "The bytes begin as a database of SQLite does, such as an MBTiles file: this is no tile, but may hold many.",
            remedy: "judge the tiles in it: `mvtgate-check FILE`, or `mvtgate-planet FILE` for a report of very many.",
        },
        begins: &[b"\x53\x51\x4c\x69\x74\x65\x20\x66\x6f\x72\x6d\x61\x74\x20\x33\x00"],
        after: &[],
    },
    Rule {
        format: Format {
            name: "pmtiles",
            title: "PMTiles archive",
            sentence: "The bytes begin as a PMTiles archive does: this is no tile, but holds many.",
            remedy: "judge the whole archive: `mvtgate-check FILE`, or `mvtgate-planet FILE` for a large one.",
        },
        begins: &[b"\x50\x4d\x54\x69\x6c\x65\x73"],
        after: &[],
    },
    Rule {
        format: Format {
            name: "png",
            title: "PNG picture",
            sentence: "The bytes begin as a PNG picture does: this is a raster tile, and no vector tile.",
            remedy: "hand over vector tiles. The metadata of an MBTiles file with vector tiles says that their format is `pbf`.",
        },
        begins: &[b"\x89\x50\x4e\x47\x0d\x0a\x1a\x0a"],
        after: &[],
    },
    Rule {
        format: Format {
            name: "json",
            title: "JSON text",
            sentence: "The bytes begin as JSON does: this is GeoJSON, TileJSON or a server's message, and no tile.",
            remedy: "read the text (`head -c 300 FILE`). Where a server sent it in place of a tile, look at the answer's status too.",
        },
        begins: &[b"\x7b", b"\x5b"],
        after: &[b"\xef\xbb\xbf", b"\x09", b"\x0a", b"\x0d", b"\x20"],
    },
];

/// The keys of each code's text beside `code`, with what each has.
#[cfg(test)]
#[rustfmt::skip]
pub(crate) static KEYS: &[(u16, &[(&str, &str)])] = &[
    (101, &[("at", "number"), ("field", "field"), ("scope", "scope")]),
    (102, &[("at", "number"), ("field", "field"), ("scope", "scope")]),
    (103, &[("at", "number"), ("field", "field"), ("scope", "scope")]),
    (104, &[("at", "number"), ("field", "field"), ("scope", "scope")]),
    (105, &[("at", "number"), ("field", "field"), ("scope", "scope")]),
    (106, &[("at", "number"), ("field", "field"), ("scope", "scope")]),
    (107, &[("at", "number"), ("field", "field"), ("scope", "scope")]),
    (108, &[("at", "number"), ("field", "field"), ("scope", "scope")]),
    (109, &[("at", "number"), ("field", "field"), ("scope", "scope")]),
    (110, &[("at", "number"), ("field", "field"), ("scope", "scope")]),
    (111, &[("at", "number"), ("field", "field"), ("scope", "scope")]),
    (201, &[("layer", "number")]),
    (202, &[("first", "number"), ("second", "number")]),
    (301, &[("feature", "number"), ("index", "number"), ("layer", "number")]),
    (302, &[("feature", "number"), ("index", "number"), ("layer", "number")]),
    (303, &[("feature", "number"), ("index", "number"), ("layer", "number")]),
    (304, &[("feature", "number"), ("index", "number"), ("layer", "number")]),
    (401, &[("feature", "number"), ("index", "number"), ("layer", "number")]),
    (402, &[("feature", "number"), ("index", "number"), ("layer", "number")]),
    (403, &[("feature", "number"), ("index", "number"), ("layer", "number")]),
    (404, &[("feature", "number"), ("index", "number"), ("layer", "number")]),
    (405, &[("feature", "number"), ("index", "number"), ("layer", "number")]),
    (406, &[("feature", "number"), ("index", "number"), ("layer", "number")]),
    (501, &[("feature", "number"), ("layer", "number"), ("ring", "number")]),
    (502, &[("feature", "number"), ("layer", "number"), ("ring", "number")]),
    (503, &[("feature", "number"), ("layer", "number"), ("ring", "number")]),
    (504, &[("feature", "number"), ("first", "edge"), ("layer", "number"), ("polygon", "number"), ("second", "edge"), ("w", "digits"), ("x", "digits"), ("y", "digits")]),
    (505, &[("feature", "number"), ("layer", "number"), ("polygon", "number"), ("ring", "number"), ("vertex", "number")]),
    (506, &[("feature", "number"), ("layer", "number"), ("other", "number"), ("polygon", "number"), ("ring", "number"), ("vertex", "number")]),
    (507, &[("feature", "number"), ("layer", "number"), ("other", "number"), ("polygon", "number"), ("vertex", "number")]),
];

/// The scopes of wire faults, with the keys that name the message.
#[cfg(test)]
#[rustfmt::skip]
pub(crate) static SCOPES: &[(&str, &[&str])] = &[
    ("tile", &[]),
    ("layer", &["layer"]),
    ("value", &["value", "layer"]),
    ("feature", &["feature", "layer"]),
];
