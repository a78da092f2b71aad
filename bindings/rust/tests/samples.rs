//! Gives the repository's sample tiles to the library, and compares with the lines that are expected of the program.

mod sample;

use mvtgate::{
    advise, check, check_not_empty, confirm, confirm_text, dump, version, Advice, CheckError, DumpError, Fault, Profile,
};
use sample::{samples, PROFILES, VALID};
use std::thread;

fn line(answer: Option<Fault>) -> String {
    answer.map_or(VALID.to_string(), |fault| fault.text())
}

#[test]
fn each_sample_has_an_expected_answer_by_both_profiles() {
    for profile in PROFILES {
        for sample in samples(profile) {
            let said = line(check(&sample.tile, profile).unwrap());
            assert!(sample.expected.contains(&said), "{}, {:?}: {}", sample.name, profile, said);
        }
    }
}

#[test]
fn a_tile_that_has_to_have_bytes_has_the_same_answer_unless_it_has_none() {
    for profile in PROFILES {
        assert_eq!(check_not_empty(b"", profile), Err(CheckError::Empty));
        for sample in samples(profile).iter().filter(|it| !it.tile.is_empty()) {
            let answer = check(&sample.tile, profile).map_err(CheckError::from);
            assert_eq!(check_not_empty(&sample.tile, profile), answer, "{}, {:?}", sample.name, profile);
        }
    }
}

#[test]
fn each_expected_fault_is_confirmed_on_its_tile_alone() {
    for profile in PROFILES {
        for sample in samples(profile) {
            for text in sample.expected.iter().filter(|it| *it != VALID) {
                let fault: Fault = text.parse().unwrap();
                assert_eq!(confirm(&sample.tile, &fault, profile), Ok(true), "{}, {:?}", sample.name, profile);
                assert_eq!(confirm_text(&sample.tile, text, profile), Ok(true), "{}, {:?}", sample.name, profile);
                assert_eq!(confirm(b"", &fault, profile), Ok(false), "{}, {:?}", sample.name, profile);
            }
        }
    }
}

#[test]
fn each_expected_fault_reads_and_writes_the_same_text_and_has_words() {
    for profile in PROFILES {
        for sample in samples(profile) {
            for text in sample.expected.iter().filter(|it| *it != VALID) {
                let fault: Fault = text.parse().unwrap();
                assert_eq!(&fault.text(), text);
                assert!(text.contains(&format!("\"code\":{}", fault.code())), "{}", text);
                let sentence = fault.to_string();
                assert!(!sentence.is_empty() && !sentence.contains(&['{', '}'][..]), "{}: {}", text, sentence);
                for words in [fault.title(), fault.cause(), fault.remedy()] {
                    assert!(!words.is_empty(), "{}", text);
                }
            }
        }
    }
}

/// The copies of a tile that are cut at each byte, and those with one bit of a byte turned.
fn broken_copies(tile: &[u8]) -> impl Iterator<Item = Vec<u8>> + '_ {
    let turned = move |at: usize| {
        let mut copy = tile.to_vec();
        copy[at] ^= 1 << (at % 8);
        copy
    };
    (0..tile.len()).flat_map(move |at| [tile[..at].to_vec(), turned(at)])
}

#[test]
fn each_fault_of_a_broken_tile_is_read_and_confirmed() {
    for sample in samples(Profile::Feature) {
        for tile in broken_copies(&sample.tile) {
            if let Some(fault) = check(&tile, Profile::Feature).unwrap() {
                assert_eq!(fault.text().parse(), Ok(fault));
                assert_eq!(confirm(&tile, &fault, Profile::Feature), Ok(true), "{}: {}", sample.name, fault.text());
            }
        }
    }
}

#[test]
fn dump_and_advice_ask_only_that_the_bytes_are_a_tile() {
    for sample in samples(Profile::Polygon) {
        match check(&sample.tile, Profile::Polygon).unwrap() {
            Some(fault @ Fault::Wire { .. }) => {
                assert_eq!(dump(&sample.tile), Err(DumpError::Fault(fault)), "{}", sample.name);
                assert_eq!(advise(&sample.tile), Err(DumpError::Fault(fault)), "{}", sample.name);
            }
            _ => {
                assert!(dump(&sample.tile).unwrap().starts_with(r#"{"layers":["#), "{}", sample.name);
                assert!(advise(&sample.tile).is_ok(), "{}", sample.name);
            }
        }
    }
}

#[test]
fn a_text_that_is_longer_than_the_room_at_first_is_whole() {
    // layers of version 2 with the empty name: six bytes each, and much more text
    let tile = b"\x1a\x04\x78\x02\x0a\x00".repeat(1000);
    let layer = r#"{"extent":4096,"features":[],"keys":[],"name":"","values":[],"version":2}"#;
    let layers = vec![layer; 1000].join(",");
    // (the texts are too long to be printed)
    assert!(dump(&tile) == Ok(format!(r#"{{"layers":[{}]}}"#, layers)));
    let advice: Vec<Advice> = (0..1000).map(|layer| Advice::NoFeature { layer }).collect();
    assert!(advise(&tile) == Ok(advice));
}

#[test]
fn several_threads_get_the_same_answers() {
    let samples = samples(Profile::Feature);
    thread::scope(|scope| {
        for thread in 0..4 {
            let samples = &samples;
            scope.spawn(move || {
                for round in 0..25 {
                    for at in 0..samples.len() {
                        let sample = &samples[(at * 7 + thread * 31 + round) % samples.len()];
                        let said = line(check(&sample.tile, Profile::Feature).unwrap());
                        assert!(sample.expected.contains(&said), "{}: {}", sample.name, said);
                    }
                }
            });
        }
    });
}

#[test]
fn faults_cross_threads_and_are_errors() {
    fn is_error<T: std::error::Error + Send + Sync + 'static>() {}
    is_error::<Fault>();
    is_error::<CheckError>();
    is_error::<DumpError>();
}

#[test]
fn the_library_has_this_version() {
    assert_eq!(version().to_string(), env!("CARGO_PKG_VERSION"));
}
