//! Reads texts that are no fault, or are spelled otherwise than the library spells them, as the program reads them.

use mvtgate::{confirm_text, ConfirmError, Fault, Profile, RingEdge, Scope, WireCode};

/// Expects the error of a text that is read, and of one that is to be confirmed.
fn expect_refused(text: &str, wanted: ConfirmError) {
    assert_eq!(text.parse::<Fault>(), Err(wanted), "{}", text);
    assert_eq!(confirm_text(b"", text, Profile::Polygon), Err(wanted), "{}", text);
}

#[test]
fn only_the_text_of_a_fault_is_read() {
    for text in [
        "{}",
        "null",
        r#"{"ok":true}"#,
        r#"{"code":201,"layer":-1}"#,
        r#"{"code":201,"layer":-0}"#,
        r#"{"code":201,"layer":1.0}"#,
        r#"{"code":201,"layer":18446744073709551616}"#,
        r#"{"code":201,"layer":3,"layer":null}"#,
        r#"{"code":200,"layer":0}"#,
        r#"{"code":305,"feature":0,"index":0,"layer":0}"#,
        r#"{"at":0,"code":112,"field":0,"scope":"tile"}"#,
        r#"{"at":0,"code":101,"field":0,"layer":0,"scope":"tile"}"#,
        r#"{"at":0,"code":101,"field":0,"scope":"layer"}"#,
        r#"{"at":0,"code":101,"feature":0,"field":0,"scope":"feature"}"#,
        r#"{"at":0,"code":101,"feature":0,"field":0,"layer":0,"scope":"value","value":0}"#,
        r#"{"code":505,"feature":0,"layer":0,"other":0,"polygon":0,"ring":1,"vertex":0}"#,
        r#"{"code":506,"feature":0,"layer":0,"polygon":0,"ring":1,"vertex":0}"#,
        r#"{"code":507,"feature":0,"layer":0,"other":0,"polygon":0,"ring":1,"vertex":0}"#,
        r#"{"code":504,"feature":0,"first":{"edge":0,"ring":0},"layer":0,"polygon":0,"second":{"edge":2,"ring":0},"w":1,"x":"8","y":"8"}"#,
    ] {
        expect_refused(text, ConfirmError::NoFault);
    }
}

#[test]
fn what_is_no_json_is_told() {
    let deep = "[".repeat(200) + &"]".repeat(200);
    for text in [
        "",
        "{",
        r#"{"code":201,"layer":00}"#,
        r#"{"code":201,"layer":0"#,
        r#"{"code":201,"layer":0}x"#,
        "\u{feff}{}",
        r#""\ud800""#,
        r#"{"code":201,"layer":1e999,"layer":0}"#,
        &deep,
    ] {
        expect_refused(text, ConfirmError::NotJson);
    }
}

#[test]
fn a_number_that_is_out_of_range_is_told() {
    expect_refused(r#"{"at":0,"code":101,"field":4294967296,"scope":"tile"}"#, ConfirmError::OutOfRange);
    let meeting = r#"{"code":504,"feature":0,"first":{"edge":0,"ring":0},"layer":0,"polygon":0,"second":{"edge":2,"ring":0},"w":"1","x":"8","y":"Y"}"#;
    expect_refused(&meeting.replace('Y', "170141183460469231731687303715884105728"), ConfirmError::OutOfRange);
}

// (RFC 8259 leaves open which of equal keys counts; it is the last one, as for the program.)
#[test]
fn a_text_may_be_spelled_otherwise() {
    let version = Fault::Version { layer: 3 };
    for text in [
        r#"{"code":201,"layer":3} "#,
        "{ \"layer\" : 3 ,\n\t\"code\":201}",
        r#"{"code":200,"layer":9,"code":201,"layer":3}"#,
        r#"{"\u0063ode":201,"l\u0061yer":3}"#,
        r#"{"layer":{"code":[1,"]}"]},"layer":3,"code":201}"#,
    ] {
        assert_eq!(text.parse(), Ok(version), "{}", text);
    }
    let cut = Fault::Wire { code: WireCode::PastEnd, scope: Scope::Layer { layer: 2 }, at: 7, field: 3 };
    assert_eq!(r#"{"scope":"l\u0061yer","layer":2,"field":3,"code":105,"at":7}"#.parse(), Ok(cut));
    let edges = r#"{"code":504,"feature":0,"first":7,"first":{"ring":2,"edge":0,"edge":1},"layer":0,"polygon":0,"second":{"edge":2,"ring":0},"x":"\u002d8","y":"8","w":"1"}"#;
    match edges.parse() {
        Ok(Fault::Meeting { first, x, .. }) => assert_eq!((first, x), (RingEdge { ring: 2, edge: 1 }, -8)),
        other => panic!("{:?}", other),
    }
}

#[test]
fn the_greatest_numbers_are_read() {
    let most = u64::MAX;
    let text = format!(
        r#"{{"code":504,"feature":{0},"first":{{"edge":{0},"ring":{0}}},"layer":{0},"polygon":{0},"second":{{"edge":{0},"ring":{0}}},"w":"{1}","x":"{2}","y":"{1}"}}"#,
        most,
        i128::MAX,
        i128::MIN
    );
    assert!(text.len() <= 384);
    assert_eq!(text.parse::<Fault>().unwrap().text(), text);
}

#[test]
fn a_text_that_is_no_fault_is_told_from_a_fault_that_is_not_true() {
    let tile = b"\x1a\x05";
    let of = |text: &str| confirm_text(tile, text, Profile::Polygon);
    assert_eq!(of(r#"{"at":0,"code":105,"field":3,"scope":"tile"}"#), Ok(true));
    assert_eq!(of(r#"{"at":1,"code":105,"field":3,"scope":"tile"}"#), Ok(false));
    assert_eq!(of(""), Err(ConfirmError::NotJson));
    assert_eq!(of(r#"{"code":999}"#), Err(ConfirmError::NoFault));
    assert_eq!(of("{}"), Err(ConfirmError::NoFault));
    assert_eq!(of(r#"{"at":0,"code":101,"field":4294967296,"scope":"tile"}"#), Err(ConfirmError::OutOfRange));
}
