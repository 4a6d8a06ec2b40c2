//! Memory that ends where nothing can be read or written, so that a step past the end of an input or of the output ends
//! the run.

use std::alloc::{alloc_zeroed, Layout};
use std::slice::{from_raw_parts, from_raw_parts_mut};

extern "C" {
    fn mprotect(place: *mut u8, length: usize, access: i32) -> i32;
}

const ROOM: usize = 1 << 17;
const FENCE: usize = 1 << 12; // a page

pub struct Fenced(*mut u8);

impl Fenced {
    pub fn new() -> Fenced {
        let layout = Layout::from_size_align(ROOM + FENCE, FENCE).expect("a layout");
        let room = unsafe { alloc_zeroed(layout) }; // to the end of the run
        assert!(!room.is_null(), "no memory");
        let done = unsafe { mprotect(room.add(ROOM), FENCE, 0) };
        assert_eq!(done, 0, "no fence");
        Fenced(room)
    }

    /// Puts the bytes up to the fence.
    pub fn put(&mut self, bytes: &[u8]) -> *mut u8 {
        self.last(bytes.len()).copy_from_slice(bytes);
        self.last(bytes.len()).as_mut_ptr()
    }

    /// So many bytes before the fence.
    pub fn last(&mut self, count: usize) -> &mut [u8] {
        assert!(count <= ROOM, "no such room");
        unsafe { from_raw_parts_mut(self.0.add(ROOM - count), count) }
    }

    pub fn is(&self, bytes: &[u8]) -> bool {
        assert!(bytes.len() <= ROOM, "no such room");
        bytes == unsafe { from_raw_parts(self.0.add(ROOM - bytes.len()), bytes.len()) }
    }
}
