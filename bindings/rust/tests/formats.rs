//! Other formats that are taken for tiles, by the first bytes that their specifications give.

use mvtgate::{check, confirm, Fault, Format, Profile};

const FORMATS: [(&str, &[u8]); 13] = [
    ("gzip", b"\x1f\x8b\x08\x00"),
    ("zlib", b"\x78\x01"),
    ("zlib", b"\x78\x5e"),
    ("zlib", b"\x78\x9c"),
    ("zlib", b"\x78\xda"),
    ("zstd", b"\x28\xb5\x2f\xfd"),
    ("sqlite", b"SQLite format 3\0"),
    ("pmtiles", b"PMTiles\x03"),
    ("png", b"\x89PNG\r\n\x1a\n"),
    ("json", b"{}"),
    ("json", b"[]"),
    ("json", b" \t\r\n{\"type\":\"FeatureCollection\"}"),
    ("json", b"\xef\xbb\xbf\n["),
];
const OTHERS: [&[u8]; 8] = [b"", b"\x1f", b"\x78\x02", b"\x78\xbb", b"SQLite format 3", b"PMTile", b"<html>", b"  "];

fn wire_fault() -> Fault {
    r#"{"at":0,"code":104,"field":3,"scope":"tile"}"#.parse().unwrap()
}

fn name(fault: &Fault, tile: &[u8]) -> Option<&'static str> {
    Format::of(fault, tile).map(|it| it.name)
}

#[test]
fn each_format_is_known_by_its_first_bytes() {
    for (wanted, tile) in FORMATS {
        assert_eq!(name(&wire_fault(), tile), Some(wanted), "{:?}", tile);
    }
    for tile in OTHERS {
        assert_eq!(name(&wire_fault(), tile), None, "{:?}", tile);
    }
}

#[test]
fn a_thousand_bytes_and_some_are_looked_at() {
    let spaces = |count: usize| [vec![b' '; count], b"{}".to_vec()].concat();
    assert_eq!(name(&wire_fault(), &spaces(1023)), Some("json"));
    assert_eq!(name(&wire_fault(), &spaces(1024)), None);
}

#[test]
fn a_format_is_named_beside_a_fault_of_the_bytes_alone() {
    let packed = b"\x1f\x8b\x08\x00";
    let fault = check(packed, Profile::Polygon).unwrap().expect("gzip is no tile");
    assert_eq!(confirm(packed, &fault, Profile::Polygon), Ok(true));
    let format = Format::of(&fault, packed).unwrap();
    assert_eq!((format.title, format.remedy.contains("gunzip")), ("Packed by gzip", true));
    assert_eq!(name(&Fault::Version { layer: 0 }, packed), None);
}
