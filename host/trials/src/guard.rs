//! Memory with a trap on either side: one byte too far ends the program. The library's archive is not instrumented by any
//! sanitizer, so this is what shows a read or a write outside of what a call was lent.

use std::ptr;
use std::slice;

/// Pages that may be used, between two that may not be touched.
pub struct Guarded {
    base: *mut u8,
    page: usize,
    room: usize,
}

/// The end of the room that what is lent lies at; the trap on that side is the very next byte.
#[derive(Clone, Copy, Debug, PartialEq, Eq)]
pub enum Side {
    Start,
    End,
}

impl Guarded {
    /// Room for `bytes` bytes at least.
    pub fn new(bytes: usize) -> Guarded {
        // SAFETY: an anonymous mapping of its own; both calls are checked, and nothing else knows the address.
        unsafe {
            let page = usize::try_from(libc::sysconf(libc::_SC_PAGESIZE)).expect("a page size");
            let room = bytes.div_ceil(page) * page + page;
            let flags = libc::MAP_PRIVATE | libc::MAP_ANONYMOUS;
            let base = libc::mmap(ptr::null_mut(), room + 2 * page, libc::PROT_NONE, flags, -1, 0);
            assert_ne!(base, libc::MAP_FAILED, "no memory");
            let inner = base.cast::<u8>().add(page);
            let opened = libc::mprotect(inner.cast(), room, libc::PROT_READ | libc::PROT_WRITE);
            assert_eq!(opened, 0, "the pages are opened");
            Guarded { base: base.cast(), page, room }
        }
    }

    /// A copy of the bytes, at the very start or the very end of the room.
    pub fn lend(&mut self, bytes: &[u8], side: Side) -> &mut [u8] {
        assert!(bytes.len() <= self.room);
        let from = match side {
            Side::Start => self.page,
            Side::End => self.page + self.room - bytes.len(),
        };
        // SAFETY: the part lies in the opened pages, and `&mut self` keeps it the only one.
        let part = unsafe { slice::from_raw_parts_mut(self.base.add(from), bytes.len()) };
        part.copy_from_slice(bytes);
        part
    }
}

impl Drop for Guarded {
    fn drop(&mut self) {
        // SAFETY: the mapping that `new` made, whole; no slice of it outlives `self`.
        unsafe { libc::munmap(self.base.cast(), self.room + 2 * self.page) };
    }
}
