//! Where memory is refused for what is read of a text, the call says so, and the process goes on. Answers keep no more than they
//! need.

use mvtgate::{advise, dump, faults, mend_or_drop, Advice, DumpError, Fault, Mended, OutOfMemory, Profile};
use std::alloc::{GlobalAlloc, Layout, System};
use std::borrow::Cow;
use std::cell::Cell;
use std::ptr::null_mut;
use std::thread::LocalKey;

thread_local! {
    /// In bytes: how long a list may be in this thread, and how long a text.
    static LONGEST_LIST: Cell<usize> = const { Cell::new(usize::MAX) };
    static LONGEST_TEXT: Cell<usize> = const { Cell::new(usize::MAX) };
}

struct Scarce;

impl Scarce {
    /// Whether a list or a text may not be so long. Unlike a text a list is aligned.
    fn refuses(size: usize, align: usize) -> bool {
        let longest = if align > 1 { &LONGEST_LIST } else { &LONGEST_TEXT };
        size > longest.with(Cell::get)
    }
}

// SAFETY: each call is passed on to the system's allocator, or refused.
unsafe impl GlobalAlloc for Scarce {
    unsafe fn alloc(&self, layout: Layout) -> *mut u8 {
        if Scarce::refuses(layout.size(), layout.align()) {
            return null_mut();
        }
        System.alloc(layout)
    }

    unsafe fn dealloc(&self, block: *mut u8, layout: Layout) {
        System.dealloc(block, layout)
    }

    unsafe fn realloc(&self, block: *mut u8, layout: Layout, size: usize) -> *mut u8 {
        if Scarce::refuses(size, layout.align()) {
            return null_mut();
        }
        System.realloc(block, layout, size)
    }
}

#[global_allocator]
static SCARCE: Scarce = Scarce;

const COUNT: u64 = 20_000;

/// What a call answers where nothing of a kind may have more bytes.
fn within<T>(longest: &'static LocalKey<Cell<usize>>, bytes: usize, call: impl Fn() -> T) -> T {
    longest.with(|it| it.set(bytes));
    let answer = call();
    longest.with(|it| it.set(usize::MAX));
    answer
}

#[test]
fn a_list_that_is_refused_is_out_of_memory() {
    // layers without a name and without features, of version 2, and of version 1
    let bare = b"\x1a\x04\x78\x02\x0a\x00".repeat(COUNT as usize);
    let faulty = b"\x1a\x04\x78\x01\x0a\x00".repeat(COUNT as usize);
    assert_eq!(within(&LONGEST_LIST, 100_000, || advise(&bare)), Err(DumpError::OutOfMemory));
    assert_eq!(within(&LONGEST_LIST, 100_000, || faults(&faulty, Profile::Polygon)), Err(OutOfMemory));
    let advice: Vec<_> = (0..COUNT).map(|layer| Advice::NoFeature { layer }).collect();
    assert!(advise(&bare) == Ok(advice));
    let listed: Vec<_> = (0..COUNT).map(|layer| Fault::Version { layer }).collect();
    assert!(faults(&faulty, Profile::Polygon) == Ok(listed));
}

/// A field of this key, with a length in front of its bytes.
fn field(key: &[u8], bytes: &[u8]) -> Vec<u8> {
    let mut field = key.to_vec();
    let mut length = bytes.len();
    while length > 127 {
        field.push(length as u8 | 128);
        length >>= 7;
    }
    field.push(length as u8);
    field.extend(bytes);
    field
}

/// A field with an unknown number, which a tile and a feature may have.
fn unknown_field(length: usize) -> Vec<u8> {
    field(b"\xa2\x01", &vec![0; length])
}

#[test]
fn a_dump_takes_no_room_by_the_length_of_the_tile() {
    let tile = unknown_field(32 << 20);
    let text = within(&LONGEST_TEXT, 16 << 20, || dump(&tile)).unwrap();
    assert_eq!(text, r#"{"layers":[]}"#);
    assert!(text.capacity() < 2 * text.len(), "{}", text.capacity());
}

#[test]
fn a_mended_tile_keeps_no_more_than_its_bytes() {
    // a layer with a feature of polygons that draws no ring, and so is left out
    let feature = [b"\x18\x03\x22\x03\x01\x32\x22", &unknown_field(1 << 20)[..]].concat();
    let tile = field(b"\x1a", &[b"\x78\x02\x0a\x01a", &field(b"\x12", &feature)[..]].concat());
    match mend_or_drop(&tile, Profile::Polygon) {
        Ok(Mended { tile: Cow::Owned(mended), .. }) => {
            assert_eq!(mended, b"\x1a\x05\x78\x02\x0a\x01a");
            assert!(mended.capacity() < 2 * mended.len(), "{}", mended.capacity());
        }
        other => panic!("{:?}", other),
    }
}
