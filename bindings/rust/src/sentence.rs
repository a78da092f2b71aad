//! The words of faults and advice, with their places.

use crate::words::{self, Words};
use crate::{Advice, Fault, RingEdge, Scope};
use std::error::Error;
use std::fmt;

/// Names and what stands for them.
type Members = Vec<(&'static str, String)>;

/// An array of members by the names of variables.
macro_rules! members {
    ($($member:ident),*) => { [$((stringify!($member), $member.to_string())),*] };
}

impl Fault {
    /// What is wrong, in a few words: the same for all faults of a code.
    pub fn title(&self) -> &'static str {
        self.words().title
    }

    /// Where it is wrong.
    pub fn place(&self) -> String {
        fill(self.words().place, &self.members())
    }

    /// What the code means.
    pub fn meaning(&self) -> &'static str {
        self.words().meaning
    }

    /// What causes faults of the code in practice.
    pub fn cause(&self) -> &'static str {
        self.words().cause
    }

    /// What a writer of tiles can do about them.
    pub fn remedy(&self) -> &'static str {
        self.words().remedy
    }

    fn words(&self) -> &'static Words {
        words::of_code(self.code())
    }

    fn members(&self) -> Members {
        match *self {
            Fault::Wire { scope, at, field, .. } => {
                let (scope, field) = (scope_words(scope), field_words(scope, field));
                members![scope, at, field].into()
            }
            Fault::Version { layer } => members![layer].into(),
            Fault::Name { first, second } => members![first, second].into(),
            Fault::Tag { layer, feature, index, .. } | Fault::Command { layer, feature, index, .. } => {
                members![layer, feature, index].into()
            }
            Fault::Ring { layer, feature, ring, .. } => members![layer, feature, ring].into(),
            Fault::Meeting { layer, feature, polygon, first, second, x, y, w } => {
                let mut all = Members::from(members![layer, feature, polygon]);
                all.extend(edge_members("first.ring", "first.edge", first));
                all.extend(edge_members("second.ring", "second.edge", second));
                all.extend([("x/w", quotient(x, w)), ("y/w", quotient(y, w))]);
                all
            }
            Fault::Outside { layer, feature, polygon, ring, vertex } => {
                members![layer, feature, polygon, ring, vertex].into()
            }
            Fault::HoleInHole { layer, feature, polygon, ring, vertex, other } => {
                members![layer, feature, polygon, ring, vertex, other].into()
            }
            Fault::InPolygon { layer, feature, polygon, vertex, other } => {
                members![layer, feature, polygon, vertex, other].into()
            }
        }
    }
}

/// One sentence with the place, in plain words.
impl fmt::Display for Fault {
    fn fmt(&self, out: &mut fmt::Formatter<'_>) -> fmt::Result {
        out.write_str(&fill(self.words().sentence, &self.members()))
    }
}

impl Error for Fault {}

impl Advice {
    /// The kind, as `mvtgate check --advice` names it.
    pub fn kind(&self) -> &'static str {
        match self {
            Advice::NoLayer => "no_layer",
            Advice::NoFeature { .. } => "no_feature",
            Advice::EqualKey { .. } => "equal_key",
            Advice::EqualId { .. } => "equal_id",
        }
    }

    /// What a writer of tiles can do about it.
    pub fn remedy(&self) -> &'static str {
        words::of_advice(self.kind()).remedy
    }

    fn members(&self) -> Members {
        match *self {
            Advice::NoLayer => vec![],
            Advice::NoFeature { layer } => members![layer].into(),
            Advice::EqualKey { layer, first, second } | Advice::EqualId { layer, first, second } => {
                members![layer, first, second].into()
            }
        }
    }
}

/// One sentence with the place, in plain words.
impl fmt::Display for Advice {
    fn fmt(&self, out: &mut fmt::Formatter<'_>) -> fmt::Result {
        out.write_str(&fill(words::of_advice(self.kind()).sentence, &self.members()))
    }
}

/// A text in which each name in braces is replaced by what stands for it.
fn fill(text: &str, members: &[(&str, String)]) -> String {
    members.iter().fold(text.to_string(), |text, (name, it)| text.replace(&format!("{{{}}}", name), it))
}

fn scope_words(scope: Scope) -> String {
    match scope {
        Scope::Tile => words::IN_TILE.to_string(),
        Scope::Layer { layer } => fill(words::IN_LAYER, &members![layer]),
        Scope::Value { layer, value } => fill(words::IN_VALUE, &members![layer, value]),
        Scope::Feature { layer, feature } => fill(words::IN_FEATURE, &members![layer, feature]),
    }
}

fn field_words(scope: Scope, number: u32) -> String {
    let message = match scope {
        Scope::Tile => "tile",
        Scope::Layer { .. } => "layer",
        Scope::Value { .. } => "value",
        Scope::Feature { .. } => "feature",
    };
    match words::field_name((message, number)) {
        _ if number == 0 => words::KEY_FIELD.to_string(),
        Some(name) => fill(words::KNOWN_FIELD, &members![number, name]),
        None => fill(words::UNKNOWN_FIELD, &members![number]),
    }
}

fn edge_members(ring: &'static str, edge: &'static str, of: RingEdge) -> [(&'static str, String); 2] {
    [(ring, of.ring.to_string()), (edge, of.edge.to_string())]
}

/// The exact quotient: a whole number, or a fraction in lowest terms.
fn quotient(number: i128, by: i128) -> String {
    let (above, below) = (number.unsigned_abs(), by.unsigned_abs());
    if below == 0 {
        return format!("{}/0", number);
    }
    let divisor = greatest_common_divisor(above, below);
    let sign = if above != 0 && (number < 0) != (by < 0) { "-" } else { "" };
    match (above / divisor, below / divisor) {
        (above, 1) => format!("{}{}", sign, above),
        (above, below) => format!("{}{}/{}", sign, above, below),
    }
}

fn greatest_common_divisor(mut greater: u128, mut lesser: u128) -> u128 {
    while lesser != 0 {
        let left = greater % lesser;
        greater = lesser;
        lesser = left;
    }
    greater
}

#[cfg(test)]
mod tests {
    use super::quotient;
    use crate::{Advice, Fault};

    #[test]
    fn a_quotient_is_in_lowest_terms() {
        assert_eq!(quotient(800, 180), "40/9");
        assert_eq!(quotient(-2500, 200), "-25/2");
        assert_eq!(quotient(5, -10), "-1/2");
        assert_eq!(quotient(0, 400), "0");
        assert_eq!(quotient(8000, 400), "20");
        assert_eq!(quotient(i128::MIN, 1), i128::MIN.to_string());
        assert_eq!(quotient(i128::MIN, i128::MIN), "1");
        assert_eq!(quotient(7, 0), "7/0");
    }

    #[test]
    fn a_sentence_has_the_places() {
        let said = |text: &str| text.parse::<Fault>().unwrap().to_string();
        assert_eq!(
            said(r#"{"at":15,"code":101,"feature":0,"field":4,"layer":2,"scope":"feature"}"#),
            "In feature 0 of layer 2, the varint of field 4 (geometry) that is due at byte 15 ends too early."
        );
        assert_eq!(
            said(
                r#"{"code":504,"feature":3,"first":{"edge":1,"ring":5},"layer":0,"polygon":4,"second":{"edge":2,"ring":6},"w":"180","x":"800","y":"-360"}"#
            ),
            "In feature 3 of layer 0, edge 1 of ring 5 meets edge 2 of ring 6, of polygon 4, at (40/9, -2)."
        );
        assert_eq!(Advice::NoFeature { layer: 3 }.to_string(), "Layer 3 has no feature.");
    }
}
