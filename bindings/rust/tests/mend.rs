//! Tiles that are mended: some that are made by hand, and the sample tiles.

mod sample;

use mvtgate::{
    check, confirm, faults, mend, mend_or_drop, Change, Fault, Measures, MendError, Mended, MendedFeature, Profile,
    WhatChanged,
};
use sample::{samples, Sample, PROFILES, VALID};
use std::borrow::Cow;

// a layer with one feature of type polygon, and the numbers of its geometry: a square of 10 by 10 units that is wound as a
// hole is, the same turned from its first position, and MoveTo with a count of 0, which draws nothing
const BACKWARDS: &[u8] = b"\x1a\x16\x78\x02\x0a\x01a\x12\x0f\x18\x03\x22\x0b\x09\0\0\x1a\0\x14\x14\0\0\x13\x0f";
const TURNED: &[u8] = b"\x1a\x16\x78\x02\x0a\x01a\x12\x0f\x18\x03\x22\x0b\x09\0\0\x1a\x14\0\0\x14\x13\0\x0f";
const NO_RING: &[u8] = b"\x1a\x0e\x78\x02\x0a\x01a\x12\x07\x18\x03\x22\x03\x01\x32\x22";
const NO_FEATURE: &[u8] = b"\x1a\x05\x78\x02\x0a\x01a";

#[test]
fn a_valid_tile_is_borrowed() {
    for profile in PROFILES {
        for tile in [b"", TURNED, NO_FEATURE] {
            for mended in [mend(tile, profile).unwrap(), mend_or_drop(tile, profile).unwrap()] {
                assert!(mended.changes.is_empty());
                assert!(
                    matches!(mended.tile, Cow::Borrowed(it) if it.as_ptr() == tile.as_ptr() && it.len() == tile.len())
                );
            }
        }
    }
}

#[test]
fn a_square_that_is_wound_backwards_is_turned() {
    let what = WhatChanged::Mended(MendedFeature {
        before: Measures { doubled_area: -200, polygons: 0, vertices: 4 },
        after: Measures { doubled_area: 200, polygons: 1, vertices: 4 },
        crossings: 0,
        cuts: 0,
    });
    let wanted = Mended { tile: TURNED.into(), changes: vec![Change { layer: 0, feature: 0, what }] };
    for profile in PROFILES {
        assert_eq!(mend(BACKWARDS, profile), Ok(wanted.clone()));
        assert_eq!(mend_or_drop(BACKWARDS, profile), Ok(wanted.clone()));
    }
}

#[test]
fn a_feature_that_cannot_be_mended_is_refused_or_left_out() {
    let dropped = Change { layer: 0, feature: 0, what: WhatChanged::Dropped };
    let fault: Fault = r#"{"code":402,"feature":0,"index":0,"layer":0}"#.parse().unwrap();
    for profile in PROFILES {
        assert_eq!(mend(NO_RING, profile), Err(MendError::Refused(fault)));
        let wanted = Mended { tile: NO_FEATURE.into(), changes: vec![dropped] };
        assert_eq!(mend_or_drop(NO_RING, profile), Ok(wanted));
    }
}

#[test]
fn bytes_that_are_no_tile_are_refused() {
    for profile in PROFILES {
        for answer in [mend(b"\x1a\x05", profile), mend_or_drop(b"\x1a\x05", profile)] {
            match answer {
                Err(error @ MendError::Refused(fault)) => {
                    assert_eq!(fault.code(), 105);
                    assert_eq!(error.to_string(), fault.to_string());
                }
                other => panic!("{:?}", other),
            }
        }
    }
}

/// Whether mending is for this fault of a feature of polygons.
fn is_of_polygons(fault: &Fault) -> bool {
    matches!(fault.code(), 501..=507)
}

#[test]
fn each_sample_comes_out_valid_or_is_refused_for_a_fault_of_it() {
    for profile in PROFILES {
        for Sample { name, tile, expected } in samples(profile) {
            for (drops, answer) in [(false, mend(&tile, profile)), (true, mend_or_drop(&tile, profile))] {
                match answer {
                    Ok(mended) => {
                        assert_eq!(check(&mended.tile, profile), Ok(None), "{}", name);
                        assert_eq!(mended.changes.is_empty(), expected == [VALID], "{}", name);
                        let is_dropped = |it: &Change| it.what == WhatChanged::Dropped;
                        assert!(drops || !mended.changes.iter().any(is_dropped), "{}", name);
                    }
                    Err(MendError::Refused(fault)) => {
                        assert_eq!(confirm(&tile, &fault, profile), Ok(true), "{}", name);
                        assert!(!drops || !is_of_polygons(&fault), "{}: {}", name, fault);
                    }
                    Err(MendError::OutOfMemory) => panic!("{}", name),
                }
            }
        }
    }
}

#[test]
fn a_report_that_is_longer_than_its_room_at_first_is_whole() {
    // 300 layers, each with the square; each change has some hundred bytes in the report
    let count: u64 = 300;
    let tile = (0..count).flat_map(named_layer).collect::<Vec<u8>>();
    assert_eq!(faults(&tile, Profile::Polygon).unwrap().len(), 300);
    let Mended { tile, changes } = mend(&tile, Profile::Polygon).unwrap();
    assert_eq!(check(&tile, Profile::Polygon), Ok(None));
    assert!(changes.iter().map(|it| (it.layer, it.feature)).eq((0..count).map(|layer| (layer, 0))));
}

/// The layer with the square that is wound backwards, with a name of two letters.
fn named_layer(number: u64) -> Vec<u8> {
    let letter = |it: u64| b'a' + (it % 26) as u8;
    let name = [letter(number / 26), letter(number)];
    [&[0x1a, 0x17, 0x78, 0x02, 0x0a, 0x02][..], &name, &BACKWARDS[7..]].concat()
}
