//! Memory for the inputs of a call.

use std::alloc::{alloc_zeroed, Layout};

extern "C" {
    fn mprotect(place: *mut u8, length: usize, access: i32) -> i32;
}

pub const ROOM: usize = 1 << 18; // bytes that are there, of an input or an output of any length
const FENCE: usize = 1 << 18; // bytes after an input's room that cannot be read

/// Memory for an input: ROOM bytes, and then FENCE bytes that cannot be read.
pub struct Room(*mut u8);

impl Room {
    pub fn new() -> Room {
        let layout = Layout::from_size_align(ROOM + FENCE, 4096).expect("a layout");
        let room = unsafe { alloc_zeroed(layout) }; // to the end of the run
        assert!(!room.is_null(), "no memory");
        let done = unsafe { mprotect(room.add(ROOM), FENCE, 0) };
        assert_eq!(done, 0, "no fence");
        Room(room)
    }

    /// Puts the bytes there, so many before the fence.
    pub fn put(&self, bytes: &[u8], before: usize) -> *const u8 {
        let place = unsafe { self.0.add(ROOM - before - bytes.len()) };
        unsafe { place.copy_from(bytes.as_ptr(), bytes.len()) };
        place
    }
}

/// An input of `len` bytes, of which `bytes` are there: all, or the first, or none.
#[derive(Clone, Copy)]
pub struct Input<'a> {
    pub bytes: &'a [u8],
    pub len: usize,
}

pub fn whole(bytes: &[u8]) -> Input<'_> {
    let len = bytes.len();
    Input { bytes, len }
}
