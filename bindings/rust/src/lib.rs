//! Judges uncompressed Mapbox vector tiles in this process, by the library libmvtgate, whose verdicts are proved.
//!
//! ```
//! use mvtgate::{check, Profile};
//!
//! let tile = b"\x1a\x05"; // a layer of five bytes, none of which are there
//! match check(tile, Profile::Polygon)? {
//!     None => println!("publish it"),
//!     Some(fault) => eprintln!("keep it back: {} {}", fault, fault.text()),
//! }
//! # Ok::<(), mvtgate::OutOfMemory>(())
//! ```
//!
//! A tile is handed over uncompressed: bytes of gzip get the fault 104. No call keeps anything, so any number of threads
//! may call at once. Nothing can interrupt a call.
//!
//! Where memory is refused, a call says so, and nothing is known of the tile. The worst tiles that were tried take 31 times
//! their bytes to be judged, 46 times to be listed, 54 times for advice and 21 times for a dump. To be mended they take 144
//! bytes more for each vertex, of which there is one in two bytes at most: 103 times. The answer takes its own on top, a list
//! 112 bytes for each fault.
//!
//! # Linking
//!
//! `build.rs` links the library in the folder that the environment variable `MVTGATE_LIB_DIR` names by its absolute path.
//! Where that isn't set, it is the one in `bindings/c/out` of the repository, or else the one that pkg-config knows. In a
//! folder the static library comes before the shared one. The library is for x86-64 Linux.

mod advice;
mod code;
mod error;
mod fault;
mod ffi;
mod format;
mod json;
mod mended;
mod profile;
mod reader;
mod sentence;
mod text;
#[rustfmt::skip]
mod words;

pub use advice::Advice;
pub use code::{CommandCode, RingCode, TagCode, WireCode};
pub use error::{CheckError, ConfirmError, DumpError, MendError, OutOfMemory};
pub use fault::{Fault, RingEdge, Scope};
pub use format::Format;
pub use mended::{Change, Measures, Mended, MendedFeature, WhatChanged};
pub use profile::Profile;

use std::borrow::Cow;
use std::fmt;

/// In bytes: room for the lines of some hundred faults. A longer list has one of its own length.
const LIST_ROOM: usize = 65_536;

/// In bytes: room for what a mended tile may have beyond the bytes of the one that was refused, and for the report on it.
/// Where they are longer, there is one of their own length.
const MORE_ROOM: usize = 4_096;

/// In bytes: the longest room that a dump begins with. A longer text has one of its own length.
const DUMP_ROOM: usize = 16 << 20;

/// None where the bytes are a valid tile by the profile, else the first fault. Where several pairs of edges of one
/// polygon meet, any one of these is reported.
///
/// ```
/// # use mvtgate::{check, Profile};
/// assert_eq!(check(b"", Profile::Polygon), Ok(None)); // a tile without layers
/// let fault = check(b"\x1f\x8b\x08\x00", Profile::Polygon)?.expect("gzip is no tile");
/// assert_eq!(fault.code(), 104);
/// # Ok::<(), mvtgate::OutOfMemory>(())
/// ```
///
/// # Panics
///
/// Where the library that is linked reports a fault that this crate doesn't know: it is of another version.
pub fn check(tile: &[u8], profile: Profile) -> Result<Option<Fault>, OutOfMemory> {
    judge(tile, profile, "mvtgate_check", ffi::check)
}

/// The same in bounded time by both profiles, for whoever judges tiles of others.
///
/// By [`Profile::Feature`] the fault may be another one of the same feature, where edges of the feature's polygons meet: any
/// meeting. It is true all the same, the same tiles are valid, and no true fault is of an earlier
/// layer or feature. By [`Profile::Polygon`] the answer is that of [`check`].
///
/// ```
/// # use mvtgate::{check_quickly, Profile};
/// let fault = check_quickly(b"\x1a\x05", Profile::Feature)?.expect("the layer is cut");
/// assert_eq!(fault.code(), 105);
/// # Ok::<(), mvtgate::OutOfMemory>(())
/// ```
///
/// # Panics
///
/// As [`check`] does.
pub fn check_quickly(tile: &[u8], profile: Profile) -> Result<Option<Fault>, OutOfMemory> {
    judge(tile, profile, "mvtgate_check_quickly", ffi::check_quickly)
}

/// All that is to be mended in a tile, in the order of the faults: of each layer with a fault of its version or its name
/// the first one, and of each feature with any fault the first one. The first of the list is the fault of [`check`]; there
/// is none exactly where the tile is valid, and one alone where the bytes are no tile.
///
/// ```
/// # use mvtgate::{faults, Fault, Profile};
/// let tile = b"\x1a\x05\x78\x01\x0a\x01a".repeat(2); // two layers of version 1
/// assert_eq!(faults(&tile, Profile::Polygon)?, [Fault::Version { layer: 0 }, Fault::Version { layer: 1 }]);
/// # Ok::<(), mvtgate::OutOfMemory>(())
/// ```
///
/// # Panics
///
/// As [`check`] does.
pub fn faults(tile: &[u8], profile: Profile) -> Result<Vec<Fault>, OutOfMemory> {
    list(tile, profile, "mvtgate_faults", ffi::faults)
}

/// The same list with the fault of [`check_quickly`] for each feature, in the time of that call.
///
/// # Panics
///
/// As [`check`] does.
pub fn faults_quickly(tile: &[u8], profile: Profile) -> Result<Vec<Fault>, OutOfMemory> {
    list(tile, profile, "mvtgate_faults_quickly", ffi::faults_quickly)
}

/// [`check`] of a tile that has to have bytes. Zero bytes are a valid tile, and also what a failed read leaves: where that may
/// be, they are an error here.
///
/// ```
/// # use mvtgate::{check_not_empty, CheckError, Profile};
/// assert_eq!(check_not_empty(b"", Profile::Polygon), Err(CheckError::Empty));
/// let fault = check_not_empty(b"\x1a\x05", Profile::Polygon)?.expect("the layer is cut");
/// assert_eq!(fault.code(), 105);
/// # Ok::<(), CheckError>(())
/// ```
///
/// # Panics
///
/// As [`check`] does.
pub fn check_not_empty(tile: &[u8], profile: Profile) -> Result<Option<Fault>, CheckError> {
    if tile.is_empty() {
        return Err(CheckError::Empty);
    }
    Ok(check(tile, profile)?)
}

/// A valid tile in place of one whose polygons break the rules, with all else byte for byte as it was, and what was changed.
/// A valid tile is borrowed as it is.
///
/// What is mended are features of polygons with a fault of 501 to 507, or 402 or 406. Each vertex of a mended feature is
/// within 2 units of one of its old edges, along both axes. Where the tile has another fault, or a feature can't be mended, it
/// is refused.
///
/// By [`Profile::Feature`] this can take the square of the vertices, also after a quick check: bound the tile's length.
///
/// ```
/// # use mvtgate::{check, mend, MendError, Mended, Profile};
/// // a layer with one feature, a square that is wound as a hole is
/// let tile = b"\x1a\x16\x78\x02\x0a\x01a\x12\x0f\x18\x03\x22\x0b\x09\0\0\x1a\0\x14\x14\0\0\x13\x0f";
/// assert_eq!(check(tile, Profile::Polygon)?.map(|it| it.code()), Some(503));
/// let Mended { tile, changes } = mend(tile, Profile::Polygon)?;
/// assert_eq!(check(&tile, Profile::Polygon)?, None);
/// assert_eq!((changes[0].layer, changes[0].feature), (0, 0));
///
/// match mend(b"\x1a\x05", Profile::Polygon) {
///     Err(MendError::Refused(fault)) => assert_eq!(fault.code(), 105),
///     other => panic!("{:?}", other),
/// }
/// # Ok::<(), MendError>(())
/// ```
///
/// # Panics
///
/// As [`check`] does.
pub fn mend(tile: &[u8], profile: Profile) -> Result<Mended<'_>, MendError> {
    mend_with(tile, profile, false)
}

/// The same, but features that can't be mended are left out, and named among the changes. So a tile with no other faults
/// than those of polygons always comes out valid.
///
/// By [`Profile::Feature`] this can take the square of the vertices, also after a quick check: bound the tile's length.
///
/// ```
/// # use mvtgate::{mend_or_drop, Profile};
/// let mended = mend_or_drop(b"", Profile::Polygon)?;
/// assert!(mended.tile.is_empty() && mended.changes.is_empty());
/// # Ok::<(), mvtgate::MendError>(())
/// ```
///
/// # Panics
///
/// As [`check`] does.
pub fn mend_or_drop(tile: &[u8], profile: Profile) -> Result<Mended<'_>, MendError> {
    mend_with(tile, profile, true)
}

/// Whether the fault is true of the tile by the profile, by a checker that shares no search with [`check`]. It takes no
/// memory for the tile, so that a process may doubt another one's fault at little cost.
///
/// ```
/// # use mvtgate::{check, confirm, Profile};
/// let fault = check(b"\x1a\x05", Profile::Polygon)?.expect("the layer is cut");
/// assert_eq!(confirm(b"\x1a\x05", &fault, Profile::Polygon), Ok(true));
/// assert_eq!(confirm(b"", &fault, Profile::Polygon), Ok(false));
/// # Ok::<(), mvtgate::OutOfMemory>(())
/// ```
///
/// # Panics
///
/// Where the library that is linked takes the fault's text for none, or answers what this crate doesn't know: it is of another
/// version.
pub fn confirm(tile: &[u8], fault: &Fault, profile: Profile) -> Result<bool, OutOfMemory> {
    match confirm_text(tile, fault.text(), profile) {
        Ok(is_true) => Ok(is_true),
        Err(ConfirmError::OutOfMemory) => Err(OutOfMemory),
        Err(error) => panic!("libmvtgate is of another version: {}: {}", fault.text(), error),
    }
}

/// The same for the text of a fault, in any spelling of its JSON.
///
/// ```
/// # use mvtgate::{confirm_text, ConfirmError, Profile};
/// let text = r#"{"scope": "tile", "code": 105, "at": 0, "field": 3}"#;
/// assert_eq!(confirm_text(b"\x1a\x05", text, Profile::Polygon), Ok(true));
/// assert_eq!(confirm_text(b"\x1a\x05", "{", Profile::Polygon), Err(ConfirmError::NotJson));
/// assert_eq!(confirm_text(b"\x1a\x05", "{}", Profile::Polygon), Err(ConfirmError::NoFault));
/// ```
///
/// # Panics
///
/// Where the library that is linked answers what this crate doesn't know: it is of another version.
pub fn confirm_text(tile: &[u8], text: impl AsRef<[u8]>, profile: Profile) -> Result<bool, ConfirmError> {
    match ffi::confirm(profile, tile, text.as_ref()) {
        0 => Ok(true),
        1 => Ok(false),
        ffi::OUT_OF_MEMORY => Err(ConfirmError::OutOfMemory),
        5 => Err(ConfirmError::NotJson),
        6 => Err(ConfirmError::NoFault),
        7 => Err(ConfirmError::OutOfRange),
        status => other_version("mvtgate_confirm", status),
    }
}

/// What a tile holds, as JSON: the text of `mvtgate dump`. It asks only that the bytes are a tile, not that it is valid.
///
/// ```
/// # use mvtgate::{dump, DumpError};
/// assert_eq!(dump(b"").as_deref(), Ok(r#"{"layers":[]}"#));
/// match dump(b"\x1a\x05") {
///     Err(DumpError::Fault(fault)) => assert_eq!(fault.code(), 105),
///     other => panic!("{:?}", other),
/// }
/// ```
///
/// # Panics
///
/// As [`check`] does.
pub fn dump(tile: &[u8]) -> Result<String, DumpError> {
    // (a number of one byte becomes two or three characters; the names of members come on top)
    let guess = tile.len().saturating_mul(4).saturating_add(ffi::TEXT_ROOM).min(DUMP_ROOM);
    let mut text = describe(tile, guess, "mvtgate_dump", ffi::dump)?;
    text.shrink_to_fit();
    Ok(text)
}

/// What no rule forbids in a tile and may still be a mistake, in the order of the layers. Like [`dump`] it asks only that
/// the bytes are a tile.
///
/// ```
/// # use mvtgate::{advise, Advice};
/// assert_eq!(advise(b""), Ok(vec![Advice::NoLayer]));
/// ```
///
/// # Panics
///
/// As [`check`] does.
pub fn advise(tile: &[u8]) -> Result<Vec<Advice>, DumpError> {
    let text = describe(tile, ffi::TEXT_ROOM, "mvtgate_advise", ffi::advise)?;
    Ok(advice::read(&text)?.unwrap_or_else(|| unknown_text(&text)))
}

/// The version of the library, which needn't be that of this crate.
#[derive(Clone, Copy, Debug, PartialEq, Eq, PartialOrd, Ord)]
pub struct Version {
    /// The first number.
    pub major: u32,
    /// The second number.
    pub minor: u32,
    /// The third number.
    pub patch: u32,
}

impl fmt::Display for Version {
    fn fmt(&self, out: &mut fmt::Formatter<'_>) -> fmt::Result {
        write!(out, "{}.{}.{}", self.major, self.minor, self.patch)
    }
}

/// The version of the library that is linked.
pub fn version() -> Version {
    let number = ffi::version();
    Version { major: number / 10_000, minor: number / 100 % 100, patch: number % 100 }
}

fn judge(tile: &[u8], profile: Profile, name: &str, call: ffi::Judge) -> Result<Option<Fault>, OutOfMemory> {
    let mut room = [0; ffi::TEXT_ROOM];
    let (status, length) = call(profile, tile, &mut room);
    match status {
        0 => Ok(None),
        1 => Ok(Some(read_fault(&room[..length]))),
        ffi::OUT_OF_MEMORY => Err(OutOfMemory),
        _ => other_version(name, status),
    }
}

fn list(tile: &[u8], profile: Profile, name: &str, call: ffi::Judge) -> Result<Vec<Fault>, OutOfMemory> {
    match write(LIST_ROOM, name, |room| call(profile, tile, room))? {
        Written::Whole(_) => Ok(Vec::new()),
        Written::Fault(lines) => read_lines(&lines),
    }
}

fn mend_with(tile: &[u8], profile: Profile, is_dropping: bool) -> Result<Mended<'_>, MendError> {
    let (mut wanted, mut report_wanted) = (tile.len().saturating_add(MORE_ROOM), MORE_ROOM);
    loop {
        let (mut out, mut report) = (room_of(wanted)?, room_of(report_wanted)?);
        let (status, length, report_length) = ffi::mend(profile, is_dropping, tile, &mut out, &mut report);
        match status {
            0 => return Ok(Mended { tile: Cow::Borrowed(tile), changes: Vec::new() }),
            1 => return Err(MendError::Refused(read_fault(&report[..report_length]))),
            ffi::MENDED => {
                out.truncate(length);
                out.shrink_to_fit();
                let changes = read_changes(&report[..report_length])?;
                return Ok(Mended { tile: Cow::Owned(out), changes });
            }
            ffi::OUT_OF_MEMORY => return Err(MendError::OutOfMemory),
            ffi::ROOM_TOO_SMALL if length > wanted || report_length > report_wanted => {
                wanted = length;
                report_wanted = report_length;
            }
            _ => other_version("mvtgate_mend", status),
        }
    }
}

/// The text of a tile that is no fault of it.
fn describe(tile: &[u8], guess: usize, name: &str, call: ffi::Writer) -> Result<String, DumpError> {
    match write(guess, name, |room| call(tile, room))? {
        Written::Whole(text) => Ok(String::from_utf8(text).expect("a text of the library is UTF-8")),
        Written::Fault(text) => Err(DumpError::Fault(read_fault(&text))),
    }
}

/// What a call wrote.
enum Written {
    /// By the status 0.
    Whole(Vec<u8>),
    /// One fault or several, by the status 1.
    Fault(Vec<u8>),
}

/// What a call writes. It begins with a room of so many bytes, and calls again where that is too small.
fn write(guess: usize, name: &str, call: impl Fn(&mut [u8]) -> (i32, usize)) -> Result<Written, OutOfMemory> {
    let mut wanted = guess;
    loop {
        let mut room = room_of(wanted)?;
        let (status, length) = call(&mut room);
        match status {
            0 | 1 => {
                room.truncate(length);
                return Ok(if status == 0 { Written::Whole(room) } else { Written::Fault(room) });
            }
            ffi::OUT_OF_MEMORY => return Err(OutOfMemory),
            ffi::ROOM_TOO_SMALL if length > wanted => wanted = length,
            _ => other_version(name, status),
        }
    }
}

fn room_of(bytes: usize) -> Result<Vec<u8>, OutOfMemory> {
    let mut room = Vec::new();
    room.try_reserve_exact(bytes).map_err(|_| OutOfMemory)?;
    room.resize(bytes, 0);
    Ok(room)
}

/// The faults of lines, each of which has its end.
fn read_lines(text: &[u8]) -> Result<Vec<Fault>, OutOfMemory> {
    let mut faults = Vec::new();
    let lines = || text.split_inclusive(|it| *it == b'\n');
    faults.try_reserve_exact(lines().count()).map_err(|_| OutOfMemory)?;
    faults.extend(lines().map(|line| read_fault(&line[..line.len() - 1])));
    Ok(faults)
}

fn read_changes(report: &[u8]) -> Result<Vec<Change>, OutOfMemory> {
    let text = std::str::from_utf8(report).expect("a report is ASCII");
    Ok(mended::read(text)?.unwrap_or_else(|| unknown_text(text)))
}

fn read_fault(text: &[u8]) -> Fault {
    let text = std::str::from_utf8(text).expect("a fault's text is ASCII");
    text.parse().unwrap_or_else(|_| unknown_text(text))
}

fn unknown_text(text: &str) -> ! {
    panic!("libmvtgate {} is of another version than this crate: it says {}", version(), text)
}

fn other_version(call: &str, status: i32) -> ! {
    panic!("libmvtgate {} is of another version than this crate: {} gives {}", version(), call, status)
}
