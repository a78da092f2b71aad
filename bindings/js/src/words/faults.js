// The words for faults, advice and other formats. (Node 18 and browsers import no JSON.)
//
// Written by bindings/js/make_words from bindings/faults.json: edit that file, and run this one.

export default {
  "counting": "Everything counts from 0: layers, features, polygons, rings, edges, vertices, bytes and the numbers of a list.",
  "profiles": {"polygon": 0, "feature": 1},
  "scopes": {
    "tile": "the tile",
    "layer": "layer {layer}",
    "value": "value {value} of layer {layer}",
    "feature": "feature {feature} of layer {layer}"
  },
  "fields": {
    "key": "a field key",
    "known": "field {number} ({name})",
    "unknown": "field {number}",
    "names": {
      "tile": {"3": "layers"},
      "layer": {"1": "name", "2": "features", "3": "keys", "4": "values", "5": "extent", "15": "version"},
      "value": {"1": "string", "2": "float", "3": "double", "4": "int", "5": "uint", "6": "sint", "7": "bool"},
      "feature": {"1": "id", "2": "tags", "3": "type", "4": "geometry"}
    }
  },
  "faults": {
    "101": {
      "name": "WireCode::Ends",
      "keys": {"at": "number", "field": "field", "scope": "scope"},
      "title": "Varint ends too early",
      "sentence": "In {scope}, the varint of {field} that is due at byte {at} ends too early.",
      "place": "byte {at}, in {scope}",
      "meaning": "A varint ends too early: the message, or the packed list, ends before it or in the middle of it.",
      "cause": "bytes that were cut while they were written or fetched; a length that is too small.",
      "remedy": "write the tile whole, or compute the length from the bytes that were written.",
      "sample": "cut_geometry"
    },
    "102": {
      "name": "WireCode::TooLong",
      "keys": {"at": "number", "field": "field", "scope": "scope"},
      "title": "Varint too long",
      "sentence": "In {scope}, the varint of {field} at byte {at} is too long.",
      "place": "byte {at}, in {scope}",
      "meaning": "A varint is too long: more than ten bytes, or more than 64 bits.",
      "cause": "bytes that are no tile; a bug in an encoder of numbers.",
      "remedy": "check that the input is an uncompressed tile; otherwise fix the encoder.",
      "sample": "long_key"
    },
    "103": {
      "name": "WireCode::BadNumber",
      "keys": {"at": "number", "field": "field", "scope": "scope"},
      "title": "Field key out of range",
      "sentence": "In {scope}, the field key at byte {at} is out of range, or its field number is 0.",
      "place": "byte {at}, in {scope}",
      "meaning": "A field key is out of range, or its field number is 0.",
      "cause": "bytes that are no tile, such as padding with zeros.",
      "remedy": "check that the input is a tile, with nothing after its last byte.",
      "sample": "number_zero"
    },
    "104": {
      "name": "WireCode::BadWireType",
      "keys": {"at": "number", "field": "field", "scope": "scope"},
      "title": "Wire type that no tile uses",
      "sentence": "In {scope}, {field} at byte {at} has a wire type that no tile uses.",
      "place": "byte {at}, in {scope}",
      "meaning": "A wire type that no tile uses: a group (3 or 4), or one that doesn't exist (6 or 7).",
      "cause": "compressed tiles: bytes of gzip begin with `1f 8b` and get this code at offset 0 for field 3; other files that are no tile.",
      "remedy": "hand over the uncompressed bytes (`gunzip`).",
      "sample": "group"
    },
    "105": {
      "name": "WireCode::PastEnd",
      "keys": {"at": "number", "field": "field", "scope": "scope"},
      "title": "Payload past the end of its message",
      "sentence": "In {scope}, the payload of {field} at byte {at} runs past the end of its message.",
      "place": "byte {at}, in {scope}",
      "meaning": "A payload runs past the end of its message.",
      "cause": "a tile that was cut; a length that is too great.",
      "remedy": "write the tile whole; compute lengths from the bytes.",
      "sample": "truncated"
    },
    "106": {
      "name": "WireCode::OtherType",
      "keys": {"at": "number", "field": "field", "scope": "scope"},
      "title": "Field with another wire type",
      "sentence": "In {scope}, {field} at byte {at} has another wire type than its own.",
      "place": "byte {at}, in {scope}",
      "meaning": "A known field has another wire type than its own.",
      "cause": "another schema than that of the specification, or an extension under a number that is taken.",
      "remedy": "keep to the specification's numbers and types; give extensions field numbers of their own.",
      "sample": "version_with_length"
    },
    "107": {
      "name": "WireCode::Again",
      "keys": {"at": "number", "field": "field", "scope": "scope"},
      "title": "Field that occurs twice",
      "sentence": "In {scope}, {field} occurs again at byte {at}, and may occur once.",
      "place": "byte {at}, in {scope}",
      "meaning": "A field that may occur once occurs twice. Protocol Buffers allow it, and the last one counts; this gate refuses it, since readers differ.",
      "cause": "messages that were merged by concatenating their bytes.",
      "remedy": "read the messages and write one.",
      "sample": "version_twice"
    },
    "108": {
      "name": "WireCode::Missing",
      "keys": {"at": "number", "field": "field", "scope": "scope"},
      "title": "Required field missing",
      "sentence": "In {scope}, which ends at byte {at}, {field} is missing.",
      "place": "byte {at}, in {scope}",
      "meaning": "A required field is missing: a layer's name or version, or a feature's type or geometry.",
      "cause": "a field left out because it has its default, as some libraries do with 0.",
      "remedy": "always write these fields.",
      "sample": "empty_layer"
    },
    "109": {
      "name": "WireCode::OneField",
      "keys": {"at": "number", "field": "field", "scope": "scope"},
      "title": "Value of no kind, or of several",
      "sentence": "In {scope}, which ends at byte {at}, there is none of the seven kinds of a value, or several.",
      "place": "byte {at}, in {scope}",
      "meaning": "A value has none of its seven kinds, or several.",
      "cause": "a null among the properties, written as a value with nothing in it.",
      "remedy": "leave the tag out.",
      "sample": "empty_value"
    },
    "110": {
      "name": "WireCode::NotUtf8",
      "keys": {"at": "number", "field": "field", "scope": "scope"},
      "title": "Text that isn't UTF-8",
      "sentence": "In {scope}, the text of {field} at byte {at} isn't UTF-8.",
      "place": "byte {at}, in {scope}",
      "meaning": "A text isn't UTF-8.",
      "cause": "texts of a database or a shapefile in another encoding.",
      "remedy": "convert texts to UTF-8.",
      "sample": "name_not_utf8"
    },
    "111": {
      "name": "WireCode::OutOfRange",
      "keys": {"at": "number", "field": "field", "scope": "scope"},
      "title": "Number out of range",
      "sentence": "In {scope}, the number of {field} at byte {at} is out of range.",
      "place": "byte {at}, in {scope}",
      "meaning": "A number of 32 bits (a version, an extent, or a number of tags or geometry) is above 4,294,967,295, or a geometry type above 3.",
      "cause": "negative numbers written as 64 bits; types of another schema.",
      "remedy": "write numbers of 32 bits without a sign.",
      "sample": "type_out_of_range"
    },
    "201": {
      "name": "Fault::Version",
      "keys": {"layer": "number"},
      "title": "Layer version other than 2",
      "sentence": "The version of layer {layer} isn't 2.",
      "place": "layer {layer}",
      "meaning": "A layer's version isn't 2.",
      "cause": "writers of the specification's first version.",
      "remedy": "write version 2, and keep its rules.",
      "sample": "version_one"
    },
    "202": {
      "name": "Fault::Name",
      "keys": {"first": "number", "second": "number"},
      "title": "Two layers of one name",
      "sentence": "Layers {first} and {second} have one name.",
      "place": "layers {first} and {second}",
      "meaning": "Two layers have one name.",
      "cause": "tiles of several sources that were concatenated.",
      "remedy": "merge the layers, or give them different names.",
      "sample": "three_layers_of_one_name"
    },
    "301": {
      "name": "TagCode::OddLength",
      "keys": {"feature": "number", "index": "number", "layer": "number"},
      "title": "Odd number of tags",
      "sentence": "In feature {feature} of layer {layer}, the list of tags has the odd length {index}, so its last key has no value.",
      "place": "layer {layer}, feature {feature}, end of its {index} tag numbers",
      "meaning": "The list of tags is odd, so a key has no value.",
      "cause": "a bug in an encoder.",
      "remedy": "write tags in pairs.",
      "sample": "odd_tags"
    },
    "302": {
      "name": "TagCode::NoKey",
      "keys": {"feature": "number", "index": "number", "layer": "number"},
      "title": "Tag without a key",
      "sentence": "In feature {feature} of layer {layer}, number {index} of the tags names a key that the layer doesn't have.",
      "place": "layer {layer}, feature {feature}, number {index} of its tags",
      "meaning": "A tag has a key that the layer doesn't have.",
      "cause": "keys or features left out, or moved between layers, after tags were written.",
      "remedy": "number keys by the layer that is written.",
      "sample": "no_such_key"
    },
    "303": {
      "name": "TagCode::NoValue",
      "keys": {"feature": "number", "index": "number", "layer": "number"},
      "title": "Tag without a value",
      "sentence": "In feature {feature} of layer {layer}, number {index} of the tags names a value that the layer doesn't have.",
      "place": "layer {layer}, feature {feature}, number {index} of its tags",
      "meaning": "A tag has a value that the layer doesn't have.",
      "cause": "values or features left out, or moved between layers, after tags were written.",
      "remedy": "number values by the layer that is written.",
      "sample": "no_such_value"
    },
    "304": {
      "name": "TagCode::Repeated",
      "keys": {"feature": "number", "index": "number", "layer": "number"},
      "title": "Two tags of one key",
      "sentence": "In feature {feature} of layer {layer}, number {index} of the tags names the key of an earlier tag again.",
      "place": "layer {layer}, feature {feature}, number {index} of its tags",
      "meaning": "A feature has two tags of one key.",
      "cause": "properties of two sources joined without looking for equal names.",
      "remedy": "keep one of them.",
      "sample": "key_twice"
    },
    "401": {
      "name": "CommandCode::OtherCommand",
      "keys": {"feature": "number", "index": "number", "layer": "number"},
      "title": "Wrong command, or a number too many",
      "sentence": "In feature {feature} of layer {layer}, number {index} of the geometry isn't the command that is due, or nothing is due there.",
      "place": "layer {layer}, feature {feature}, number {index} of its geometry",
      "meaning": "A command is due, and the number has another id; or nothing is due, and there is a further number.",
      "cause": "a figure written for another geometry type; a bug in an encoder.",
      "remedy": "write points as one MoveTo, lines as MoveTo and LineTo, rings with a ClosePath.",
      "sample": "no_such_command"
    },
    "402": {
      "name": "CommandCode::OtherCount",
      "keys": {"feature": "number", "index": "number", "layer": "number"},
      "title": "Command count not allowed",
      "sentence": "In feature {feature} of layer {layer}, number {index} of the geometry is a command whose count isn't allowed there.",
      "place": "layer {layer}, feature {feature}, number {index} of its geometry",
      "meaning": "A command's count isn't allowed. A ring needs three vertices and a line two; MoveTo has count 1 in lines and rings, and at least 1 in points; ClosePath has count 1.",
      "cause": "a line or ring that shrank when it was rounded to the grid.",
      "remedy": "of polygons, mend the tile with `mvtgate mend`; at the source, leave out figures that have become too small.",
      "sample": "ring_of_two"
    },
    "403": {
      "name": "CommandCode::Unfinished",
      "keys": {"feature": "number", "index": "number", "layer": "number"},
      "title": "Geometry ends too early",
      "sentence": "In feature {feature} of layer {layer}, the geometry ends after {index} numbers, where more is due.",
      "place": "layer {layer}, feature {feature}, end of its {index} geometry numbers",
      "meaning": "The geometry ends too early.",
      "cause": "a geometry with no numbers; a count that is too great.",
      "remedy": "leave out features with no geometry.",
      "sample": "half_a_point"
    },
    "404": {
      "name": "CommandCode::GreatestParameter",
      "keys": {"feature": "number", "index": "number", "layer": "number"},
      "title": "Parameter out of range",
      "sentence": "In feature {feature} of layer {layer}, number {index} of the geometry is the parameter 4294967295, which would be -2^31.",
      "place": "layer {layer}, feature {feature}, number {index} of its geometry",
      "meaning": "A parameter is 4294967295, which would be -2^31.",
      "cause": "a step between far positions that wrapped around.",
      "remedy": "clip geometry to the tile.",
      "sample": "greatest_parameter"
    },
    "405": {
      "name": "CommandCode::OutOfBounds",
      "keys": {"feature": "number", "index": "number", "layer": "number"},
      "title": "Position out of range",
      "sentence": "In feature {feature} of layer {layer}, number {index} of the geometry leads to a position beyond 2^30 in a coordinate.",
      "place": "layer {layer}, feature {feature}, number {index} of its geometry",
      "meaning": "A position is beyond 2^30 in a coordinate. That bound is this project's own.",
      "cause": "geometry that wasn't clipped.",
      "remedy": "clip geometry to the tile and its buffer.",
      "sample": "above_greatest_coordinate"
    },
    "406": {
      "name": "CommandCode::NoStep",
      "keys": {"feature": "number", "index": "number", "layer": "number"},
      "title": "Step of no length",
      "sentence": "In feature {feature} of layer {layer}, number {index} of the geometry ends a LineTo step of (0, 0).",
      "place": "layer {layer}, feature {feature}, number {index} of its geometry",
      "meaning": "A LineTo step of a line or ring is (0, 0).",
      "cause": "neighbouring vertices that became one when they were rounded to the grid.",
      "remedy": "of polygons, mend the tile with `mvtgate mend`; at the source, leave out a vertex that has the position of the one before it.",
      "sample": "no_step"
    },
    "501": {
      "name": "RingCode::EndsAtItsBeginning",
      "keys": {"feature": "number", "layer": "number", "ring": "number"},
      "title": "Ring that ends where it began",
      "sentence": "Ring {ring} of feature {feature} of layer {layer} has its first position as its last one too.",
      "place": "layer {layer}, feature {feature}, ring {ring}",
      "meaning": "A ring's last position is its first one, to which ClosePath leads anyway.",
      "cause": "rings of sources that repeat the first vertex, such as GeoJSON, copied as they are.",
      "remedy": "mend the tile with `mvtgate mend`; at the source, leave out the last vertex.",
      "sample": "closed_by_hand"
    },
    "502": {
      "name": "RingCode::NoArea",
      "keys": {"feature": "number", "layer": "number", "ring": "number"},
      "title": "Ring without area",
      "sentence": "Ring {ring} of feature {feature} of layer {layer} has no area.",
      "place": "layer {layer}, feature {feature}, ring {ring}",
      "meaning": "A ring has no area.",
      "cause": "rings that collapsed on the grid to a line or a spike.",
      "remedy": "mend the tile with `mvtgate mend`; at the source, leave out rings without area.",
      "sample": "ring_without_area"
    },
    "503": {
      "name": "RingCode::BeginsWithHole",
      "keys": {"feature": "number", "layer": "number", "ring": "number"},
      "title": "Feature that begins with a hole",
      "sentence": "Ring {ring} of feature {feature} of layer {layer}, the first one, is a hole by its winding.",
      "place": "layer {layer}, feature {feature}, ring {ring}",
      "meaning": "The first ring of a feature is a hole, by its winding.",
      "cause": "an exterior wound backwards. GDAL 3.6 does so where a spike collapsed on the grid: 22 of 100 of its tiles in a sample.",
      "remedy": "mend the tile with `mvtgate mend`; at the source, orient rings after rounding, by the area on the grid.",
      "sample": "begins_with_hole"
    },
    "504": {
      "name": "Fault::Meeting",
      "keys": {"feature": "number", "first": "edge", "layer": "number", "polygon": "number", "second": "edge", "w": "digits", "x": "digits", "y": "digits"},
      "title": "Edges that meet",
      "sentence": "In feature {feature} of layer {layer}, edge {first.edge} of ring {first.ring} meets edge {second.edge} of ring {second.ring}, of polygon {polygon}, at ({x/w}, {y/w}).",
      "place": "layer {layer}, feature {feature}, polygon {polygon}, at ({x/w}, {y/w})",
      "meaning": "Two edges of a polygon have a point in common other than the vertex that neighbours share: rings cross or touch, each other or themselves. By the profile `feature` the two may also be of different polygons of a feature; the fault is then told for the later one, of which the second edge is.",
      "cause": "rings that touch in a vertex, as PostGIS makes them (30 of 100 of its tiles in a sample). The Open Geospatial Consortium's rules allow them, and this gate refuses them on purpose. Also rings that really cross after rounding to the grid (2 of 100 of tilemaker's).",
      "remedy": "mend the tile with `mvtgate mend`; at the source, make polygons valid after rounding; where rings touch, split them into polygons (by the profile `feature`, into features), or move a vertex by one unit.",
      "sample": "crossing_edges"
    },
    "505": {
      "name": "Fault::Outside",
      "keys": {"feature": "number", "layer": "number", "polygon": "number", "ring": "number", "vertex": "number"},
      "title": "Hole outside its exterior",
      "sentence": "In feature {feature} of layer {layer}, vertex {vertex} of ring {ring}, a hole of polygon {polygon}, isn't inside the exterior.",
      "place": "layer {layer}, feature {feature}, polygon {polygon}, ring {ring}, vertex {vertex}",
      "meaning": "A vertex of a hole isn't inside its exterior.",
      "cause": "holes written after another polygon's exterior; an exterior that is wound like a hole.",
      "remedy": "mend the tile with `mvtgate mend`; at the source, write each exterior with its own holes after it; orient rings.",
      "sample": "hole_outside"
    },
    "506": {
      "name": "Fault::HoleInHole",
      "keys": {"feature": "number", "layer": "number", "other": "number", "polygon": "number", "ring": "number", "vertex": "number"},
      "title": "Hole in another hole",
      "sentence": "In feature {feature} of layer {layer}, vertex {vertex} of ring {ring}, a hole of polygon {polygon}, is inside another hole, ring {other}.",
      "place": "layer {layer}, feature {feature}, polygon {polygon}, ring {ring}, vertex {vertex}",
      "meaning": "A vertex of a hole is inside another hole.",
      "cause": "an island in a lake written as a hole; holes that overlap after rounding.",
      "remedy": "mend the tile with `mvtgate mend`; at the source, write an island as a polygon of its own; merge holes that overlap.",
      "sample": "hole_in_hole"
    },
    "507": {
      "name": "Fault::InPolygon",
      "keys": {"feature": "number", "layer": "number", "other": "number", "polygon": "number", "vertex": "number"},
      "title": "Polygon in another polygon",
      "sentence": "In feature {feature} of layer {layer}, vertex {vertex} of the exterior of polygon {polygon} is inside polygon {other}.",
      "place": "layer {layer}, feature {feature}, polygon {polygon}, vertex {vertex} of its exterior",
      "meaning": "By the profile `feature` alone: a vertex of a polygon's exterior is inside another polygon of the same feature, so inside its exterior and inside none of its holes. Some vertices that lie on the other's ring count as inside, and so the code may also be of polygons that only touch.",
      "cause": "polygons that overlap, equal ones, one on another; and islands that touch in a point.",
      "remedy": "mend the tile with `mvtgate mend`; at the source, unite the polygons of a feature after rounding, or write those that touch as features of their own; cut a hole where an island lies in a polygon.",
      "sample": "polygons_that_overlap",
      "profile": "feature"
    }
  },
  "advice": {
    "no_layer": {
      "title": "Tile without layers",
      "sentence": "The tile has no layer.",
      "place": "the tile",
      "meaning": "The tile has no layer.",
      "cause": "nothing to draw there. tilemaker writes such tiles, 17 of 107.",
      "remedy": "a server may answer 204 or 404 in place of an empty tile, as its clients expect.",
      "example": "{\"advice\":[{\"kind\":\"no_layer\"}]}",
      "where": "for `tiles/empty.mvt`"
    },
    "no_feature": {
      "title": "Layer without features",
      "sentence": "Layer {layer} has no feature.",
      "place": "layer {layer}",
      "meaning": "A layer has no feature. Its keys and values serve nothing then.",
      "cause": "all features were clipped away or left out after the layer was begun.",
      "remedy": "write a layer only where it has a feature.",
      "example": "{\"advice\":[{\"kind\":\"no_feature\",\"layer\":0}]}",
      "where": "for `tiles/bare_layer.mvt`"
    },
    "equal_key": {
      "title": "Key that stands twice",
      "sentence": "In layer {layer}, key {second} is the same as key {first}.",
      "place": "layer {layer}, key {second}",
      "meaning": "A key stands twice in a layer's list; `first` is the earliest place with it. A reader that looks for the key by its text finds either.",
      "cause": "keys collected without a look at those that are there.",
      "remedy": "write each key once, and refer to it.",
      "example": "{\"advice\":[{\"first\":0,\"kind\":\"equal_key\",\"layer\":0,\"second\":1}]}",
      "where": "where keys 0 and 1 are the same"
    },
    "equal_id": {
      "title": "Two features of one id",
      "sentence": "In layer {layer}, feature {second} has the same id as feature {first}.",
      "place": "layer {layer}, feature {second}",
      "meaning": "Two features of a layer have one id; `first` is the earliest feature with it. Renderers that keep a feature's state by its id mix them up. Features without an id aren't meant.",
      "cause": "ids of several sources in one layer; a feature that was split, each part with the id.",
      "remedy": "give each feature an id of its own, or none.",
      "example": "{\"advice\":[{\"first\":0,\"kind\":\"equal_id\",\"layer\":0,\"second\":1}]}",
      "where": "where features 0 and 1 have one id"
    }
  },
  "formats": {
    "gzip": {
      "begins": ["1f8b"],
      "title": "Packed by gzip",
      "sentence": "The bytes begin as gzip's do: this is a packed file, and no tile yet.",
      "remedy": "unpack it first (`gunzip -c FILE`; `mvtgate-check` does so itself). What is still gzip after it was unpacked was packed twice."
    },
    "zlib": {
      "begins": ["7801", "785e", "789c", "78da"],
      "title": "Packed by zlib",
      "sentence": "The bytes begin as zlib's do: this is a packed file, and no tile yet.",
      "remedy": "unpack it first (`pigz -dc <FILE`, or `zlib.decompress` of Python; `mvtgate-check` does so itself). What is still zlib after it was unpacked was packed twice."
    },
    "zstd": {
      "begins": ["28b52ffd"],
      "title": "Packed by Zstandard",
      "sentence": "The bytes begin as Zstandard's do: this is a packed file, and no tile yet.",
      "remedy": "unpack it first (`zstd -dc FILE`; `mvtgate-check` does so itself where Python's `zstandard` is installed)."
    },
    "sqlite": {
      "begins": ["53514c69746520666f726d6174203300"],
      "title": "Database of SQLite",
      "sentence": "The bytes begin as a database of SQLite does, such as an MBTiles file: this is no tile, but may hold many.",
      "remedy": "judge the tiles in it: `mvtgate-check FILE`, or `mvtgate-planet FILE` for a report of very many."
    },
    "pmtiles": {
      "begins": ["504d54696c6573"],
      "title": "PMTiles archive",
      "sentence": "The bytes begin as a PMTiles archive does: this is no tile, but holds many.",
      "remedy": "judge the whole archive: `mvtgate-check FILE`, or `mvtgate-planet FILE` for a large one."
    },
    "png": {
      "begins": ["89504e470d0a1a0a"],
      "title": "PNG picture",
      "sentence": "The bytes begin as a PNG picture does: this is a raster tile, and no vector tile.",
      "remedy": "hand over vector tiles. The metadata of an MBTiles file with vector tiles says that their format is `pbf`."
    },
    "json": {
      "begins": ["7b", "5b"],
      "after": ["efbbbf", "09", "0a", "0d", "20"],
      "title": "JSON text",
      "sentence": "The bytes begin as JSON does: this is GeoJSON, TileJSON or a server's message, and no tile.",
      "remedy": "read the text (`head -c 300 FILE`). Where a server sent it in place of a tile, look at the answer's status too."
    }
  }
};
