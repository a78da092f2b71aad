//! All faults of a tile: on the sample tiles, on tiles that are put together of them, and on one that is made by hand.

mod sample;

use mvtgate::{check, check_quickly, confirm, faults, faults_quickly, Fault, OutOfMemory, Profile};
use sample::{samples, Sample, PROFILES, VALID};

/// What a fault is about, of which each has one fault, in the order of faults.
fn subject(fault: &Fault) -> (u8, u64, u64) {
    match *fault {
        Fault::Wire { .. } => (0, 0, 0),
        Fault::Version { layer } => (1, layer, 0),
        Fault::Name { second, .. } => (1, second, 0),
        Fault::Tag { layer, feature, .. }
        | Fault::Command { layer, feature, .. }
        | Fault::Ring { layer, feature, .. }
        | Fault::Meeting { layer, feature, .. }
        | Fault::Outside { layer, feature, .. }
        | Fault::HoleInHole { layer, feature, .. }
        | Fault::InPolygon { layer, feature, .. } => (2, layer, feature),
    }
}

fn are_ordered(faults: &[Fault]) -> bool {
    faults.windows(2).all(|pair| subject(&pair[0]) < subject(&pair[1]))
}

fn are_true(tile: &[u8], faults: &[Fault], profile: Profile) -> bool {
    faults.iter().all(|it| confirm(tile, it, profile) == Ok(true))
}

#[test]
fn a_list_begins_with_the_fault_of_check_and_has_one_true_fault_of_each_layer_and_feature() {
    for profile in PROFILES {
        for Sample { name, tile, expected } in samples(profile) {
            let exact = (check(&tile, profile).unwrap(), faults(&tile, profile).unwrap());
            let quick = (check_quickly(&tile, profile).unwrap(), faults_quickly(&tile, profile).unwrap());
            for (first, listed) in [exact, quick] {
                assert_eq!(listed.first().copied(), first, "{}, {:?}", name, profile);
                assert_eq!(listed.is_empty(), expected == [VALID], "{}, {:?}", name, profile);
                assert!(are_ordered(&listed) && are_true(&tile, &listed, profile), "{}, {:?}", name, profile);
            }
        }
    }
}

#[test]
fn a_quick_fault_is_about_what_the_expected_one_is_about() {
    for profile in PROFILES {
        for Sample { name, tile, expected } in samples(profile) {
            if let Some(fault) = check_quickly(&tile, profile).unwrap() {
                let first: Fault = expected[0].parse().unwrap();
                assert_eq!(subject(&fault), subject(&first), "{}", name);
                assert!(profile == Profile::Feature || expected.contains(&fault.text()), "{}", name);
            }
        }
    }
}

/// The same fault so many layers later.
fn moved(fault: Fault, by: u64) -> Fault {
    let mut moved = fault;
    match &mut moved {
        Fault::Wire { .. } => panic!("no fault of bytes is moved"),
        Fault::Name { first, second } => {
            *first += by;
            *second += by;
        }
        Fault::Version { layer }
        | Fault::Tag { layer, .. }
        | Fault::Command { layer, .. }
        | Fault::Ring { layer, .. }
        | Fault::Meeting { layer, .. }
        | Fault::Outside { layer, .. }
        | Fault::HoleInHole { layer, .. }
        | Fault::InPolygon { layer, .. } => *layer += by,
    }
    moved
}

fn block(key: u8, payload: &[u8]) -> Vec<u8> {
    assert!(payload.len() < 128);
    [&[key, payload.len() as u8], payload].concat()
}

fn feature(kind: u8, numbers: &[u8]) -> Vec<u8> {
    block(0x12, &[&[0x18, kind][..], &block(0x22, numbers)].concat())
}

fn layer(version: u8, name: &[u8], features: &[Vec<u8>]) -> Vec<u8> {
    block(0x1a, &[&[0x78, version][..], &block(0x0a, name), &features.concat()].concat())
}

#[test]
fn a_tile_behind_other_layers_has_the_same_faults_in_later_layers() {
    // (no sample has a layer with such a name)
    let before = [b"\x01", b"\x02", b"\x03"].map(|name| layer(2, name, &[])).concat();
    for profile in PROFILES {
        for Sample { name, tile, expected } in samples(profile) {
            let own = faults(&tile, profile).unwrap();
            if matches!(own.first(), Some(Fault::Wire { .. })) {
                continue;
            }
            let tile = [&before[..], &tile].concat();
            let listed = faults(&tile, profile).unwrap();
            assert_eq!(listed, own.into_iter().map(|it| moved(it, 3)).collect::<Vec<_>>(), "{}", name);
            assert!(are_true(&tile, &listed, profile), "{}", name);
            // (the first one is known from outside)
            let known: Vec<Fault> = expected.iter().filter_map(|it| Some(moved(it.parse().ok()?, 3))).collect();
            assert!(listed.first().map_or(expected == [VALID], |it| known.contains(it)), "{}", name);
        }
    }
}

const POINT: [u8; 3] = [9, 50, 34];
// MoveTo with a count of 0
const NO_POINT: [u8; 3] = [1, 50, 34];
// two squares with the corners (0, 0) and (10, 10), and (5, 5) and (15, 15)
const SQUARES: [u8; 22] = [9, 0, 0, 26, 20, 0, 0, 20, 19, 0, 15, 9, 10, 9, 26, 20, 0, 0, 20, 19, 0, 15];

/// Three layers of one name, with a wrong version, and features with and without faults.
fn by_hand() -> Vec<u8> {
    let (point, no_point, squares) = (feature(1, &POINT), feature(1, &NO_POINT), feature(3, &SQUARES));
    [
        layer(2, b"a", &[no_point.clone(), point.clone(), squares]),
        layer(1, b"a", &[point, no_point]),
        layer(2, b"a", &[]),
    ]
    .concat()
}

const OF_LAYERS: [&str; 3] = [
    r#"{"code":201,"layer":1}"#,
    r#"{"code":202,"first":0,"second":2}"#,
    r#"{"code":402,"feature":0,"index":0,"layer":0}"#,
];
const IN_SQUARE: &str = r#"{"code":507,"feature":2,"layer":0,"other":1,"polygon":0,"vertex":2}"#;
const AFTER_SQUARES: &str = r#"{"code":402,"feature":1,"index":0,"layer":1}"#;

fn texts(faults: Result<Vec<Fault>, OutOfMemory>) -> Vec<String> {
    faults.unwrap().iter().map(Fault::text).collect()
}

#[test]
fn a_tile_that_is_made_by_hand_has_these_faults() {
    let by_polygon = [&OF_LAYERS[..], &[AFTER_SQUARES]].concat();
    assert_eq!(texts(faults(&by_hand(), Profile::Polygon)), by_polygon);
    assert_eq!(texts(faults_quickly(&by_hand(), Profile::Polygon)), by_polygon);
    let by_feature = [&OF_LAYERS[..], &[IN_SQUARE, AFTER_SQUARES]].concat();
    assert_eq!(texts(faults(&by_hand(), Profile::Feature)), by_feature);
}

#[test]
fn a_quick_search_names_a_meeting_where_edges_meet() {
    let listed = faults_quickly(&by_hand(), Profile::Feature).unwrap();
    assert_eq!(listed.len(), 5);
    // (the edges meet at two points, and either may be named)
    match listed[3] {
        Fault::Meeting { layer: 0, feature: 2, polygon: 1, first, second, x, y, w } => {
            let meeting = (first.ring, first.edge, second.ring, second.edge, x / w, y / w);
            assert!(meeting == (0, 1, 1, 0, 10, 5) || meeting == (0, 2, 1, 3, 5, 10), "{:?}", meeting);
        }
        other => panic!("{:?}", other),
    }
}

#[test]
fn a_list_that_is_longer_than_the_room_at_first_is_whole() {
    // 3,000 layers of version 1, the line of each of which has some twenty bytes and more
    let tile = layer(1, b"", &[]).repeat(3000);
    let wanted: Vec<Fault> = (0..3000).map(|layer| Fault::Version { layer }).collect();
    assert!(wanted.iter().map(|it| it.text().len()).sum::<usize>() > 65_536);
    assert!(faults(&tile, Profile::Polygon) == Ok(wanted.clone()));
    assert!(faults_quickly(&tile, Profile::Feature) == Ok(wanted));
}
