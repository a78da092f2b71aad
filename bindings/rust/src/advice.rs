//! What no rule forbids in a tile and may still be a mistake.

use crate::reader::Reader;
use crate::OutOfMemory;

/// One thing that a tile had better not have. It changes no verdict. All ordinals count from 0.
#[derive(Clone, Copy, Debug, PartialEq, Eq, Hash)]
pub enum Advice {
    /// The tile has no layer.
    NoLayer,
    /// A layer has no feature.
    NoFeature {
        /// The layer.
        layer: u64,
    },
    /// A key stands twice in a layer's list of keys.
    EqualKey {
        /// The layer.
        layer: u64,
        /// The first place of the key.
        first: u64,
        /// The later one.
        second: u64,
    },
    /// Two features of a layer have one id.
    EqualId {
        /// The layer.
        layer: u64,
        /// The first feature with the id.
        first: u64,
        /// The later one.
        second: u64,
    },
}

/// The advice of the line `{"advice":[..]}`, or None where the text is another one.
pub(crate) fn read(text: &str) -> Result<Option<Vec<Advice>>, OutOfMemory> {
    let mut all = Vec::new();
    all.try_reserve_exact(text.matches("\"kind\":").count()).map_err(|_| OutOfMemory)?;
    Ok(read_all(text, &mut all).map(|()| all))
}

fn read_all(text: &str, all: &mut Vec<Advice>) -> Option<()> {
    let mut text = Reader::new(text);
    text.key("{", "advice")?;
    text.take("[")?;
    while !text.takes("]") {
        if !all.is_empty() {
            text.take(",")?;
        }
        all.push(read_one(&mut text)?);
    }
    text.take("}")?;
    text.end()
}

fn read_one(text: &mut Reader) -> Option<Advice> {
    let advice = if text.takes(r#"{"kind":"no_layer""#) {
        Advice::NoLayer
    } else if text.takes(r#"{"kind":"no_feature""#) {
        Advice::NoFeature { layer: text.number("layer")? }
    } else {
        let first = text.first_number("first")?;
        text.key(",", "kind")?;
        let is_key = text.takes(r#""equal_key""#);
        if !is_key {
            text.take(r#""equal_id""#)?;
        }
        let (layer, second) = (text.number("layer")?, text.number("second")?);
        if is_key {
            Advice::EqualKey { layer, first, second }
        } else {
            Advice::EqualId { layer, first, second }
        }
    };
    text.take("}")?;
    Some(advice)
}

#[cfg(test)]
mod tests {
    use super::{read, Advice};

    #[test]
    fn reads_each_kind() {
        assert_eq!(read(r#"{"advice":[]}"#), Ok(Some(vec![])));
        assert_eq!(read(r#"{"advice":[{"kind":"no_layer"}]}"#), Ok(Some(vec![Advice::NoLayer])));
        assert_eq!(
            read(
                r#"{"advice":[{"kind":"no_feature","layer":3},{"first":0,"kind":"equal_key","layer":4,"second":2},{"first":5,"kind":"equal_id","layer":4,"second":7}]}"#
            ),
            Ok(Some(vec![
                Advice::NoFeature { layer: 3 },
                Advice::EqualKey { layer: 4, first: 0, second: 2 },
                Advice::EqualId { layer: 4, first: 5, second: 7 },
            ]))
        );
    }

    #[test]
    fn refuses_what_is_no_advice() {
        for text in [
            "",
            "{}",
            r#"{"advice":[}"#,
            r#"{"advice":[,]}"#,
            r#"{"advice":[]}x"#,
            r#"{"advice":[{"kind":"no_layer"},]}"#,
            r#"{"advice":[{"kind":"other"}]}"#,
        ] {
            assert_eq!(read(text), Ok(None), "{}", text);
        }
    }
}
