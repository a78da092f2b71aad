//! The C functions of libmvtgate, and all `unsafe` code of this crate.
//!
//! What the header asks of a caller holds of every call here: a slice's pointer is never null, that of an empty slice
//! neither; a shared slice and an exclusive one don't overlap; and a slice has less than 2^63 bytes.

use crate::Profile;
use std::os::raw::c_int;

/// No fault's text has more bytes.
pub(crate) const TEXT_ROOM: usize = 384;

/// What a function returns for every tile.
pub(crate) const OUT_OF_MEMORY: c_int = 2;
pub(crate) const ROOM_TOO_SMALL: c_int = 3;
pub(crate) const MENDED: c_int = 8;

mod c {
    use std::os::raw::c_int;

    extern "C" {
        pub fn mvtgate_check(
            profile: u32,
            tile: *const u8,
            tile_length: usize,
            text: *mut u8,
            text_room: usize,
            text_length: *mut usize,
        ) -> c_int;
        pub fn mvtgate_check_quickly(
            profile: u32,
            tile: *const u8,
            tile_length: usize,
            text: *mut u8,
            text_room: usize,
            text_length: *mut usize,
        ) -> c_int;
        pub fn mvtgate_faults(
            profile: u32,
            tile: *const u8,
            tile_length: usize,
            text: *mut u8,
            text_room: usize,
            text_length: *mut usize,
        ) -> c_int;
        pub fn mvtgate_faults_quickly(
            profile: u32,
            tile: *const u8,
            tile_length: usize,
            text: *mut u8,
            text_room: usize,
            text_length: *mut usize,
        ) -> c_int;
        pub fn mvtgate_mend(
            profile: u32,
            drop: u32,
            tile: *const u8,
            tile_length: usize,
            out: *mut u8,
            out_room: usize,
            out_length: *mut usize,
            report: *mut u8,
            report_room: usize,
            report_length: *mut usize,
        ) -> c_int;
        pub fn mvtgate_confirm(
            profile: u32,
            tile: *const u8,
            tile_length: usize,
            text: *const u8,
            text_length: usize,
        ) -> c_int;
        pub fn mvtgate_dump(
            tile: *const u8,
            tile_length: usize,
            text: *mut u8,
            text_room: usize,
            text_length: *mut usize,
        ) -> c_int;
        pub fn mvtgate_advise(
            tile: *const u8,
            tile_length: usize,
            text: *mut u8,
            text_room: usize,
            text_length: *mut usize,
        ) -> c_int;
        pub fn mvtgate_version() -> u32;
    }
}

/// A call that writes a text of a tile: its status, and how many bytes the text has. Where the status is that the room
/// is too small, these are more than the room has.
pub(crate) type Writer = fn(&[u8], &mut [u8]) -> (c_int, usize);

/// The same of a call by a profile.
pub(crate) type Judge = fn(Profile, &[u8], &mut [u8]) -> (c_int, usize);

pub(crate) fn check(profile: Profile, tile: &[u8], room: &mut [u8]) -> (c_int, usize) {
    let mut length = 0;
    // SAFETY: see the top of this module.
    let status = unsafe {
        c::mvtgate_check(profile as u32, tile.as_ptr(), tile.len(), room.as_mut_ptr(), room.len(), &mut length)
    };
    (status, length)
}

pub(crate) fn check_quickly(profile: Profile, tile: &[u8], room: &mut [u8]) -> (c_int, usize) {
    let mut length = 0;
    // SAFETY: see the top of this module.
    let status = unsafe {
        c::mvtgate_check_quickly(profile as u32, tile.as_ptr(), tile.len(), room.as_mut_ptr(), room.len(), &mut length)
    };
    (status, length)
}

pub(crate) fn faults(profile: Profile, tile: &[u8], room: &mut [u8]) -> (c_int, usize) {
    let mut length = 0;
    // SAFETY: see the top of this module.
    let status = unsafe {
        c::mvtgate_faults(profile as u32, tile.as_ptr(), tile.len(), room.as_mut_ptr(), room.len(), &mut length)
    };
    (status, length)
}

pub(crate) fn faults_quickly(profile: Profile, tile: &[u8], room: &mut [u8]) -> (c_int, usize) {
    let mut length = 0;
    // SAFETY: see the top of this module.
    let status = unsafe {
        c::mvtgate_faults_quickly(profile as u32, tile.as_ptr(), tile.len(), room.as_mut_ptr(), room.len(), &mut length)
    };
    (status, length)
}

/// The status of mending, and how many bytes the tile and the report have. Where the status is that a room is too small, one
/// of them has more than its room.
pub(crate) fn mend(
    profile: Profile,
    is_dropping: bool,
    tile: &[u8],
    out: &mut [u8],
    report: &mut [u8],
) -> (c_int, usize, usize) {
    let (mut length, mut report_length) = (0, 0);
    // SAFETY: see the top of this module.
    let status = unsafe {
        c::mvtgate_mend(
            profile as u32,
            is_dropping.into(),
            tile.as_ptr(),
            tile.len(),
            out.as_mut_ptr(),
            out.len(),
            &mut length,
            report.as_mut_ptr(),
            report.len(),
            &mut report_length,
        )
    };
    (status, length, report_length)
}

pub(crate) fn confirm(profile: Profile, tile: &[u8], text: &[u8]) -> c_int {
    // SAFETY: see the top of this module.
    unsafe { c::mvtgate_confirm(profile as u32, tile.as_ptr(), tile.len(), text.as_ptr(), text.len()) }
}

pub(crate) fn dump(tile: &[u8], room: &mut [u8]) -> (c_int, usize) {
    let mut length = 0;
    // SAFETY: see the top of this module.
    let status = unsafe { c::mvtgate_dump(tile.as_ptr(), tile.len(), room.as_mut_ptr(), room.len(), &mut length) };
    (status, length)
}

pub(crate) fn advise(tile: &[u8], room: &mut [u8]) -> (c_int, usize) {
    let mut length = 0;
    // SAFETY: see the top of this module.
    let status = unsafe { c::mvtgate_advise(tile.as_ptr(), tile.len(), room.as_mut_ptr(), room.len(), &mut length) };
    (status, length)
}

pub(crate) fn version() -> u32 {
    // SAFETY: the function takes nothing and reads no memory.
    unsafe { c::mvtgate_version() }
}
