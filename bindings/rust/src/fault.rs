//! What is wrong with a tile, and where.

use crate::code::{CommandCode, RingCode, TagCode, WireCode};

/// The message of a tile that a wire fault is in. All ordinals count from 0, in the order of the bytes.
#[derive(Clone, Copy, Debug, PartialEq, Eq, Hash)]
pub enum Scope {
    /// The tile itself.
    Tile,
    /// A layer.
    Layer {
        /// Its ordinal among the tile's layers.
        layer: u64,
    },
    /// A value of a layer.
    Value {
        /// The layer's ordinal.
        layer: u64,
        /// The value's ordinal among the layer's values.
        value: u64,
    },
    /// A feature of a layer.
    Feature {
        /// The layer's ordinal.
        layer: u64,
        /// The feature's ordinal among the layer's features.
        feature: u64,
    },
}

/// An edge of a ring. Edge `i` goes from vertex `i` to the next one, the last edge back to vertex 0.
#[derive(Clone, Copy, Debug, PartialEq, Eq, Hash)]
pub struct RingEdge {
    /// The ordinal of the ring among all rings of the feature.
    pub ring: u64,
    /// The ordinal of the edge in its ring.
    pub edge: u64,
}

/// What is wrong with a tile. All ordinals count from 0: layers in the tile, features in their layer, polygons and rings
/// in their feature, edges and vertices in their ring.
///
/// `Display` gives a sentence for a log. [`Fault::text`] gives the JSON text, which keeps all of the fault: store that
/// one where the fault is to be confirmed later.
///
/// Any value may be built: it says nothing of a tile's bytes until [`confirm`](crate::confirm) says so.
#[derive(Clone, Copy, Debug, PartialEq, Eq, Hash)]
pub enum Fault {
    /// 101 to 111: the bytes are no tile.
    Wire {
        /// The cause.
        code: WireCode,
        /// The message that the fault is in.
        scope: Scope,
        /// The offset in bytes, from 0 at the tile's first byte.
        at: u64,
        /// The number of the field, or 0 where the fault is about no field with a number.
        field: u32,
    },
    /// 201: a layer's version isn't 2.
    Version {
        /// The layer.
        layer: u64,
    },
    /// 202: two layers have one name.
    Name {
        /// The layer that comes first.
        first: u64,
        /// The other one.
        second: u64,
    },
    /// 301 to 304: the tags of a feature are wrong.
    Tag {
        /// The cause.
        code: TagCode,
        /// The feature's layer.
        layer: u64,
        /// The feature.
        feature: u64,
        /// The place in the list of tags, from 0; the list's length where that is odd.
        index: u64,
    },
    /// 401 to 406: the geometry of a feature draws no figure of its type.
    Command {
        /// The cause.
        code: CommandCode,
        /// The feature's layer.
        layer: u64,
        /// The feature.
        feature: u64,
        /// The place in the list of geometry numbers, from 0; the list's length where it ends too early.
        index: u64,
    },
    /// 501 to 503: a ring can't be a polygon's.
    Ring {
        /// The cause.
        code: RingCode,
        /// The feature's layer.
        layer: u64,
        /// The feature.
        feature: u64,
        /// The ring.
        ring: u64,
    },
    /// 504: two edges have a point in common, (x / w, y / w), that isn't the vertex between neighbours.
    Meeting {
        /// The feature's layer.
        layer: u64,
        /// The feature.
        feature: u64,
        /// The polygon of the second edge. The first is of the same one or, by the profile
        /// [`Feature`](crate::Profile::Feature), of one before it.
        polygon: u64,
        /// The edge that comes first.
        first: RingEdge,
        /// The other one.
        second: RingEdge,
        /// The point's x coordinate times `w`, from -2^93 to 2^93 in a fault of a tile.
        x: i128,
        /// The point's y coordinate times `w`, from -2^93 to 2^93 in a fault of a tile.
        y: i128,
        /// What both are to be divided by, from 1 to 2^63 in a fault of a tile.
        w: i128,
    },
    /// 505: a vertex of a hole isn't inside the exterior of its polygon.
    Outside {
        /// The feature's layer.
        layer: u64,
        /// The feature.
        feature: u64,
        /// The polygon.
        polygon: u64,
        /// The hole's ring.
        ring: u64,
        /// The vertex of the hole.
        vertex: u64,
    },
    /// 506: a vertex of a hole is inside another hole of its polygon.
    HoleInHole {
        /// The feature's layer.
        layer: u64,
        /// The feature.
        feature: u64,
        /// The polygon.
        polygon: u64,
        /// The hole's ring.
        ring: u64,
        /// The vertex of the hole.
        vertex: u64,
        /// The other hole's ring.
        other: u64,
    },
    /// 507, by the profile [`Feature`](crate::Profile::Feature) alone: a vertex of a polygon's exterior is inside another
    /// polygon of the feature.
    InPolygon {
        /// The feature's layer.
        layer: u64,
        /// The feature.
        feature: u64,
        /// The polygon.
        polygon: u64,
        /// The vertex of its exterior.
        vertex: u64,
        /// The other polygon.
        other: u64,
    },
}

impl Fault {
    /// The number of the cause, from 101 to 507. `docs/FAULTS.md` has a section for each.
    pub fn code(&self) -> u16 {
        match self {
            Fault::Wire { code, .. } => code.code(),
            Fault::Version { .. } => 201,
            Fault::Name { .. } => 202,
            Fault::Tag { code, .. } => code.code(),
            Fault::Command { code, .. } => code.code(),
            Fault::Ring { code, .. } => code.code(),
            Fault::Meeting { .. } => 504,
            Fault::Outside { .. } => 505,
            Fault::HoleInHole { .. } => 506,
            Fault::InPolygon { .. } => 507,
        }
    }

    /// The layer that the fault is in, if it is in one. Of two layers with one name it is the second.
    pub fn layer(&self) -> Option<u64> {
        match *self {
            Fault::Wire { scope, .. } => match scope {
                Scope::Tile => None,
                Scope::Layer { layer } | Scope::Value { layer, .. } | Scope::Feature { layer, .. } => Some(layer),
            },
            Fault::Name { second, .. } => Some(second),
            Fault::Version { layer }
            | Fault::Tag { layer, .. }
            | Fault::Command { layer, .. }
            | Fault::Ring { layer, .. }
            | Fault::Meeting { layer, .. }
            | Fault::Outside { layer, .. }
            | Fault::HoleInHole { layer, .. }
            | Fault::InPolygon { layer, .. } => Some(layer),
        }
    }

    /// The feature that the fault is in, if it is in one.
    pub fn feature(&self) -> Option<u64> {
        match *self {
            Fault::Wire { scope: Scope::Feature { feature, .. }, .. }
            | Fault::Tag { feature, .. }
            | Fault::Command { feature, .. }
            | Fault::Ring { feature, .. }
            | Fault::Meeting { feature, .. }
            | Fault::Outside { feature, .. }
            | Fault::HoleInHole { feature, .. }
            | Fault::InPolygon { feature, .. } => Some(feature),
            Fault::Wire { .. } | Fault::Version { .. } | Fault::Name { .. } => None,
        }
    }
}
