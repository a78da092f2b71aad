//! Other formats that are taken for tiles, by how their bytes begin.

use crate::words::FORMATS;
use crate::Fault;

/// How many bytes are looked at, as bindings/README.md of the repository says.
const HEAD: usize = 1024;

/// A format of files that are often taken for tiles.
#[derive(Clone, Copy, Debug, PartialEq, Eq)]
pub struct Format {
    /// `gzip`, `zlib`, `zstd`, `sqlite`, `pmtiles`, `png` or `json`.
    pub name: &'static str,
    /// What it is, in a few words.
    pub title: &'static str,
    /// What the bytes are, in a sentence.
    pub sentence: &'static str,
    /// What to do about it.
    pub remedy: &'static str,
}

impl Format {
    /// The format that the bytes of a tile begin as, where its fault is one of the bytes (101 to 111); None for any other.
    ///
    /// ```
    /// # use mvtgate::{check, Format, Profile};
    /// let packed = b"\x1f\x8b\x08\x00";
    /// let fault = check(packed, Profile::Polygon)?.expect("gzip is no tile");
    /// let format = Format::of(&fault, packed).expect("it begins as gzip does");
    /// assert_eq!(format.name, "gzip");
    /// # Ok::<(), mvtgate::OutOfMemory>(())
    /// ```
    pub fn of(fault: &Fault, tile: &[u8]) -> Option<Format> {
        let head = &tile[..tile.len().min(HEAD)];
        match fault {
            Fault::Wire { .. } => FORMATS.iter().find(|rule| rule.holds(head)).map(|rule| rule.format),
            _ => None,
        }
    }
}

/// Bytes are of the format where they begin with one of `begins`, each of `after` in front of them passed over.
pub(crate) struct Rule {
    pub format: Format,
    pub begins: &'static [&'static [u8]],
    pub after: &'static [&'static [u8]],
}

impl Rule {
    fn holds(&self, head: &[u8]) -> bool {
        let mut rest = head;
        while let Some(left) = self.after.iter().find_map(|it| rest.strip_prefix(*it)) {
            rest = left;
        }
        self.begins.iter().any(|it| rest.starts_with(it))
    }
}
