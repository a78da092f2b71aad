//! What mending made of a tile, and how the report on it is read.

use crate::reader::Reader;
use crate::OutOfMemory;
use std::borrow::Cow;

/// A valid tile, and what was changed for it.
#[derive(Clone, Debug, PartialEq, Eq)]
pub struct Mended<'a> {
    /// Its bytes. They are borrowed where the tile was valid as it was.
    pub tile: Cow<'a, [u8]>,
    /// What became of each feature that had a fault, in the order of the features: nothing where the tile was valid.
    pub changes: Vec<Change>,
}

/// What became of a feature that had a fault. All ordinals count from 0, in the tile as it was.
#[derive(Clone, Copy, Debug, PartialEq, Eq, Hash)]
pub struct Change {
    /// The ordinal of its layer among the tile's layers.
    pub layer: u64,
    /// Its own among the features of the layer.
    pub feature: u64,
    /// What became of it.
    pub what: WhatChanged,
}

/// Whether a feature was mended.
#[derive(Clone, Copy, Debug, PartialEq, Eq, Hash)]
pub enum WhatChanged {
    /// It has other rings.
    Mended(MendedFeature),
    /// It couldn't be mended, and was left out.
    Dropped,
}

/// What became of the rings of a feature.
#[derive(Clone, Copy, Debug, PartialEq, Eq, Hash)]
pub struct MendedFeature {
    /// What the old rings measure.
    pub before: Measures,
    /// What the new rings measure.
    pub after: Measures,
    /// How many crossings of edges were rounded to a position.
    pub crossings: u64,
    /// How many corners were cut.
    pub cuts: u64,
}

/// What the rings of a feature measure together.
#[derive(Clone, Copy, Debug, PartialEq, Eq, Hash)]
pub struct Measures {
    /// Twice the area, in square units of the tile's coordinates; that of a hole counts as negative.
    pub doubled_area: i128,
    /// How many polygons there are.
    pub polygons: u64,
    /// How many vertices there are.
    pub vertices: u64,
}

/// The changes of the report `{"changed":[..],"ok":true}`, or None where the text is another one.
pub(crate) fn read(text: &str) -> Result<Option<Vec<Change>>, OutOfMemory> {
    let mut changes = Vec::new();
    changes.try_reserve_exact(text.matches("\"what\":").count()).map_err(|_| OutOfMemory)?;
    Ok(read_all(text, &mut changes).map(|()| changes))
}

fn read_all(text: &str, changes: &mut Vec<Change>) -> Option<()> {
    let mut text = Reader::new(text);
    text.key("{", "changed")?;
    text.take("[")?;
    while !text.takes("]") {
        if !changes.is_empty() {
            text.take(",")?;
        }
        changes.push(read_one(&mut text)?);
    }
    text.key(",", "ok")?;
    text.take("true}")?;
    text.end()
}

fn read_one(text: &mut Reader) -> Option<Change> {
    if let Some(areas) = text.first_wide_numbers("area") {
        return read_mended(text, areas);
    }
    let (feature, layer) = (text.first_number("feature")?, text.number("layer")?);
    text.key(",", "what")?;
    text.take("\"dropped\"}")?;
    Some(Change { layer, feature, what: WhatChanged::Dropped })
}

fn read_mended(text: &mut Reader, areas: (i128, i128)) -> Option<Change> {
    let (crossings, cuts) = (text.number("crossings")?, text.number("cuts")?);
    let (feature, layer) = (text.number("feature")?, text.number("layer")?);
    let (polygons, vertices) = (text.numbers("polygons")?, text.numbers("vertices")?);
    text.key(",", "what")?;
    text.take("\"mended\"}")?;
    let before = Measures { doubled_area: areas.0, polygons: polygons.0, vertices: vertices.0 };
    let after = Measures { doubled_area: areas.1, polygons: polygons.1, vertices: vertices.1 };
    Some(Change { layer, feature, what: WhatChanged::Mended(MendedFeature { before, after, crossings, cuts }) })
}

#[cfg(test)]
mod tests {
    use super::{read, Change, Measures, MendedFeature, WhatChanged};

    const BOTH: &str = concat!(
        r#"{"changed":[{"area":["1734","-1733"],"crossings":1,"cuts":2,"feature":7,"layer":0,"#,
        r#""polygons":[1,2],"vertices":[120,123],"what":"mended"},{"feature":9,"layer":3,"what":"dropped"}],"ok":true}"#
    );

    #[test]
    fn reads_each_kind() {
        let mended = MendedFeature {
            before: Measures { doubled_area: 1734, polygons: 1, vertices: 120 },
            after: Measures { doubled_area: -1733, polygons: 2, vertices: 123 },
            crossings: 1,
            cuts: 2,
        };
        let changes = vec![
            Change { layer: 0, feature: 7, what: WhatChanged::Mended(mended) },
            Change { layer: 3, feature: 9, what: WhatChanged::Dropped },
        ];
        assert_eq!(read(BOTH), Ok(Some(changes)));
        assert_eq!(read(r#"{"changed":[],"ok":true}"#), Ok(Some(vec![])));
    }

    #[test]
    fn reads_no_other_text() {
        for length in 0..BOTH.len() {
            assert_eq!(read(&BOTH[..length]), Ok(None), "{}", &BOTH[..length]);
        }
        for text in [
            &format!("{} ", BOTH),
            "{\"changed\":[],\"ok\":false}",
            "{\"changed\":[{}],\"ok\":true}",
            "{\"advice\":[]}",
        ] {
            assert_eq!(read(text), Ok(None), "{}", text);
        }
    }
}
