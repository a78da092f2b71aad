//! What a call answers where it has no answer of its own.

use crate::Fault;
use std::error::Error;
use std::fmt;

/// Memory was refused. Nothing is known of the tile, so it must not be published.
#[derive(Clone, Copy, Debug, PartialEq, Eq)]
pub struct OutOfMemory;

impl fmt::Display for OutOfMemory {
    fn fmt(&self, out: &mut fmt::Formatter<'_>) -> fmt::Result {
        out.write_str("out of memory")
    }
}

impl Error for OutOfMemory {}

/// Why a tile that has to have bytes was not judged.
#[derive(Clone, Copy, Debug, PartialEq, Eq)]
pub enum CheckError {
    /// It has no bytes.
    Empty,
    /// Memory was refused.
    OutOfMemory,
}

impl fmt::Display for CheckError {
    fn fmt(&self, out: &mut fmt::Formatter<'_>) -> fmt::Result {
        match self {
            CheckError::Empty => out.write_str("the tile has no bytes"),
            CheckError::OutOfMemory => OutOfMemory.fmt(out),
        }
    }
}

impl Error for CheckError {}

impl From<OutOfMemory> for CheckError {
    fn from(_: OutOfMemory) -> Self {
        CheckError::OutOfMemory
    }
}

/// Why a text wasn't read as a fault, and so neither confirmed nor refused.
#[derive(Clone, Copy, Debug, PartialEq, Eq)]
pub enum ConfirmError {
    /// Memory was refused.
    OutOfMemory,
    /// The text isn't JSON.
    NotJson,
    /// The text is JSON, and not a fault.
    NoFault,
    /// The text has the shape of a fault, with a number out of range.
    OutOfRange,
}

impl fmt::Display for ConfirmError {
    fn fmt(&self, out: &mut fmt::Formatter<'_>) -> fmt::Result {
        out.write_str(match self {
            ConfirmError::OutOfMemory => "out of memory",
            ConfirmError::NotJson => "the text is not JSON",
            ConfirmError::NoFault => "the text holds no fault",
            ConfirmError::OutOfRange => "a number of the fault is out of range",
        })
    }
}

impl Error for ConfirmError {}

impl From<OutOfMemory> for ConfirmError {
    fn from(_: OutOfMemory) -> Self {
        ConfirmError::OutOfMemory
    }
}

/// Why there is no dump of a tile, and no advice.
#[derive(Clone, Copy, Debug, PartialEq, Eq)]
pub enum DumpError {
    /// The bytes are no tile: their first wire fault.
    Fault(Fault),
    /// Memory was refused.
    OutOfMemory,
}

impl fmt::Display for DumpError {
    fn fmt(&self, out: &mut fmt::Formatter<'_>) -> fmt::Result {
        match self {
            DumpError::Fault(fault) => fault.fmt(out),
            DumpError::OutOfMemory => OutOfMemory.fmt(out),
        }
    }
}

impl Error for DumpError {}

impl From<OutOfMemory> for DumpError {
    fn from(_: OutOfMemory) -> Self {
        DumpError::OutOfMemory
    }
}

/// Why a tile was not mended.
#[derive(Clone, Copy, Debug, PartialEq, Eq)]
pub enum MendError {
    /// It is refused for this fault, which is true of it: one that isn't of polygons, or that of a feature that couldn't be
    /// mended.
    Refused(Fault),
    /// Memory was refused.
    OutOfMemory,
}

impl fmt::Display for MendError {
    fn fmt(&self, out: &mut fmt::Formatter<'_>) -> fmt::Result {
        match self {
            MendError::Refused(fault) => fault.fmt(out),
            MendError::OutOfMemory => OutOfMemory.fmt(out),
        }
    }
}

impl Error for MendError {}

impl From<OutOfMemory> for MendError {
    fn from(_: OutOfMemory) -> Self {
        MendError::OutOfMemory
    }
}
