//! The JSON text of a fault: written from its members, and read back.

use crate::code::{CommandCode, RingCode, TagCode, WireCode};
use crate::fault::{Fault, RingEdge, Scope};
use crate::reader::Reader;
use crate::{confirm_text, json, unknown_text, ConfirmError, Profile};
use std::str::FromStr;

impl Fault {
    /// The fault as JSON, to the byte as `mvtgate check` writes it, without the line's end. It has at most 384 bytes.
    ///
    /// ```
    /// let fault = mvtgate::check(b"\x1a\x05", mvtgate::Profile::Polygon)?.expect("the layer is cut");
    /// assert_eq!(fault.text(), r#"{"at":0,"code":105,"field":3,"scope":"tile"}"#);
    /// assert_eq!(fault.text().parse(), Ok(fault));
    /// # Ok::<(), mvtgate::OutOfMemory>(())
    /// ```
    pub fn text(&self) -> String {
        match *self {
            Fault::Wire { code, scope, at, field } => wire_text(code.code(), scope, at, field),
            Fault::Version { layer } => format!(r#"{{"code":201,"layer":{}}}"#, layer),
            Fault::Name { first, second } => format!(r#"{{"code":202,"first":{},"second":{}}}"#, first, second),
            Fault::Tag { code, layer, feature, index } => index_text(code.code(), layer, feature, index),
            Fault::Command { code, layer, feature, index } => index_text(code.code(), layer, feature, index),
            Fault::Ring { code, layer, feature, ring } => {
                format!(r#"{{"code":{},"feature":{},"layer":{},"ring":{}}}"#, code.code(), feature, layer, ring)
            }
            Fault::Meeting { layer, feature, polygon, first, second, x, y, w } => format!(
                r#"{{"code":504,"feature":{},"first":{},"layer":{},"polygon":{},"second":{},"w":"{}","x":"{}","y":"{}"}}"#,
                feature,
                edge_text(first),
                layer,
                polygon,
                edge_text(second),
                w,
                x,
                y
            ),
            Fault::Outside { layer, feature, polygon, ring, vertex } => format!(
                r#"{{"code":505,"feature":{},"layer":{},"polygon":{},"ring":{},"vertex":{}}}"#,
                feature, layer, polygon, ring, vertex
            ),
            Fault::HoleInHole { layer, feature, polygon, ring, vertex, other } => format!(
                r#"{{"code":506,"feature":{},"layer":{},"other":{},"polygon":{},"ring":{},"vertex":{}}}"#,
                feature, layer, other, polygon, ring, vertex
            ),
            Fault::InPolygon { layer, feature, polygon, vertex, other } => format!(
                r#"{{"code":507,"feature":{},"layer":{},"other":{},"polygon":{},"vertex":{}}}"#,
                feature, layer, other, polygon, vertex
            ),
        }
    }
}

fn wire_text(code: u16, scope: Scope, at: u64, field: u32) -> String {
    match scope {
        Scope::Tile => format!(r#"{{"at":{},"code":{},"field":{},"scope":"tile"}}"#, at, code, field),
        Scope::Layer { layer } => {
            format!(r#"{{"at":{},"code":{},"field":{},"layer":{},"scope":"layer"}}"#, at, code, field, layer)
        }
        Scope::Value { layer, value } => format!(
            r#"{{"at":{},"code":{},"field":{},"layer":{},"scope":"value","value":{}}}"#,
            at, code, field, layer, value
        ),
        Scope::Feature { layer, feature } => format!(
            r#"{{"at":{},"code":{},"feature":{},"field":{},"layer":{},"scope":"feature"}}"#,
            at, code, feature, field, layer
        ),
    }
}

fn index_text(code: u16, layer: u64, feature: u64, index: u64) -> String {
    format!(r#"{{"code":{},"feature":{},"index":{},"layer":{}}}"#, code, feature, index, layer)
}

fn edge_text(edge: RingEdge) -> String {
    format!(r#"{{"edge":{},"ring":{}}}"#, edge.edge, edge.ring)
}

/// Reads what [`Fault::text`] gives, and any other spelling of the same JSON: spaces, the order of keys and the spelling of strings
/// don't matter, and of equal keys the last one counts. The library reads it first, as [`confirm_text`] has it read.
///
/// ```
/// # use mvtgate::{ConfirmError, Fault};
/// assert_eq!(r#"{"layer": 3, "code": 201}"#.parse(), Ok(Fault::Version { layer: 3 }));
/// assert_eq!("{}".parse::<Fault>(), Err(ConfirmError::NoFault));
/// ```
///
/// # Panics
///
/// Where the library that is linked takes a text for a fault that this crate doesn't know: it is of another version.
impl FromStr for Fault {
    type Err = ConfirmError;

    fn from_str(text: &str) -> Result<Self, ConfirmError> {
        if let Some(fault) = read_spelled(text) {
            return Ok(fault);
        }
        confirm_text(b"", text, Profile::Polygon)?;
        Ok(json::respelled(text).and_then(|it| read_spelled(&it)).unwrap_or_else(|| unknown_text(text)))
    }
}

/// The fault of a text that is to the byte as the library spells it.
fn read_spelled(text: &str) -> Option<Fault> {
    let reader = Reader::new(text);
    if text.starts_with(r#"{"at":"#) {
        read_wire(reader)
    } else {
        read_rule(reader)
    }
}

fn read_wire(mut text: Reader) -> Option<Fault> {
    let at = text.first_number("at")?;
    let code = WireCode::of(text.number("code")?)?;
    let feature = text.number("feature");
    let field = u32::try_from(text.number("field")?).ok()?;
    let layer = text.number("layer");
    text.key(",", "scope")?;
    let scope = match (layer, feature) {
        (None, None) if text.takes(r#""tile""#) => Scope::Tile,
        (Some(layer), None) if text.takes(r#""layer""#) => Scope::Layer { layer },
        (Some(layer), None) => {
            text.take(r#""value""#)?;
            let value = text.number("value")?;
            Scope::Value { layer, value }
        }
        (Some(layer), Some(feature)) => {
            text.take(r#""feature""#)?;
            Scope::Feature { layer, feature }
        }
        _ => return None,
    };
    text.take("}")?;
    text.end()?;
    Some(Fault::Wire { code, scope, at, field })
}

fn read_rule(mut text: Reader) -> Option<Fault> {
    let code = text.first_number("code")?;
    let fault = match code {
        201 => Fault::Version { layer: text.number("layer")? },
        202 => Fault::Name { first: text.number("first")?, second: text.number("second")? },
        _ => read_in_feature(code, &mut text)?,
    };
    text.take("}")?;
    text.end()?;
    Some(fault)
}

/// The members of a fault of a feature after its code.
fn read_in_feature(number: u64, text: &mut Reader) -> Option<Fault> {
    let feature = text.number("feature")?;
    if let Some(code) = TagCode::of(number) {
        let (index, layer) = (text.number("index")?, text.number("layer")?);
        return Some(Fault::Tag { code, layer, feature, index });
    }
    if let Some(code) = CommandCode::of(number) {
        let (index, layer) = (text.number("index")?, text.number("layer")?);
        return Some(Fault::Command { code, layer, feature, index });
    }
    if number == 504 {
        return read_meeting(feature, text);
    }
    let layer = text.number("layer")?;
    if let Some(code) = RingCode::of(number) {
        let ring = text.number("ring")?;
        return Some(Fault::Ring { code, layer, feature, ring });
    }
    read_nesting(number, layer, feature, text)
}

fn read_meeting(feature: u64, text: &mut Reader) -> Option<Fault> {
    text.key(",", "first")?;
    let first = read_edge(text)?;
    let (layer, polygon) = (text.number("layer")?, text.number("polygon")?);
    text.key(",", "second")?;
    let second = read_edge(text)?;
    let w = text.wide_number("w")?;
    let (x, y) = (text.wide_number("x")?, text.wide_number("y")?);
    Some(Fault::Meeting { layer, feature, polygon, first, second, x, y, w })
}

fn read_edge(text: &mut Reader) -> Option<RingEdge> {
    let (edge, ring) = (text.first_number("edge")?, text.number("ring")?);
    text.take("}")?;
    Some(RingEdge { ring, edge })
}

fn read_nesting(code: u64, layer: u64, feature: u64, text: &mut Reader) -> Option<Fault> {
    let other = text.number("other");
    let polygon = text.number("polygon")?;
    let ring = text.number("ring");
    let vertex = text.number("vertex")?;
    match (code, other, ring) {
        (505, None, Some(ring)) => Some(Fault::Outside { layer, feature, polygon, ring, vertex }),
        (506, Some(other), Some(ring)) => Some(Fault::HoleInHole { layer, feature, polygon, ring, vertex, other }),
        (507, Some(other), None) => Some(Fault::InPolygon { layer, feature, polygon, vertex, other }),
        _ => None,
    }
}

#[cfg(test)]
mod tests {
    use crate::words::{KEYS, SCOPES};
    use crate::Fault;

    /// The text of a code with these keys, each with the kind of what it has. No two numbers in it are the same.
    fn text_with(code: u16, keys: &[(&str, &str)], scope: &str) -> String {
        let mut keys: Vec<_> = keys.iter().chain(&[("code", "code")]).collect();
        keys.sort();
        let members = keys.iter().enumerate().map(|(at, &&(key, kind))| match kind {
            "code" => format!(r#""code":{}"#, code),
            "scope" => format!(r#""scope":"{}""#, scope),
            "edge" => format!(r#""{}":{{"edge":{},"ring":{}}}"#, key, at, 100 + at),
            "digits" => format!(r#""{}":"-{}""#, key, at + 1),
            _ => format!(r#""{}":{}"#, key, at),
        });
        format!("{{{}}}", members.collect::<Vec<_>>().join(","))
    }

    /// The texts of a code by the words: of a wire fault one for each scope.
    fn texts_of(code: u16, keys: &[(&str, &str)]) -> Vec<String> {
        if !keys.contains(&("scope", "scope")) {
            return vec![text_with(code, keys, "")];
        }
        let more = |of: &[&'static str]| of.iter().map(|&it| (it, "number")).collect::<Vec<_>>();
        SCOPES.iter().map(|&(scope, of)| text_with(code, &[keys, &more(of)].concat(), scope)).collect()
    }

    #[test]
    fn each_code_has_the_keys_of_its_words() {
        for &(code, keys) in KEYS {
            for text in texts_of(code, keys) {
                let fault: Fault = text.parse().unwrap_or_else(|_| panic!("{} isn't read", text));
                assert_eq!((fault.code(), fault.text()), (code, text));
            }
        }
    }

    #[test]
    fn no_other_code_is_read() {
        for code in (0..1000).filter(|it| KEYS.iter().all(|&(code, _)| code != *it)) {
            for text in KEYS.iter().flat_map(|&(_, keys)| texts_of(code, keys)) {
                assert!(text.parse::<Fault>().is_err(), "{} is read", text);
            }
        }
    }
}
