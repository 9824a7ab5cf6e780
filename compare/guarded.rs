//! Slices that begin or end at a page that cannot be read, so that a stray read or write is a crash; others begin at an
//! odd address.

use std::ffi::c_void;
use std::ops::Range;
use std::ptr;
use std::slice;

// The values of Linux on x86-64 and Arm.
const PAGE_SIZE: i32 = 30;
const NO_ACCESS: i32 = 0;
const READ_AND_WRITE: i32 = 1 | 2;
const PRIVATE_ANONYMOUS: i32 = 0x02 | 0x20;

extern "C" {
    fn mmap(at: *mut c_void, length: usize, access: i32, flags: i32, file: i32, offset: i64) -> *mut c_void;
    fn mprotect(at: *mut c_void, length: usize, access: i32) -> i32;
    fn munmap(at: *mut c_void, length: usize) -> i32;
    fn sysconf(name: i32) -> i64;
}

/// How many bytes a page has: 4,096 on x86-64, and up to 65,536 on Arm.
fn page() -> usize {
    // SAFETY: it takes a number and gives one.
    let bytes = unsafe { sysconf(PAGE_SIZE) };
    usize::try_from(bytes).expect("a page has a size")
}

/// Where the unreadable page stands. Where it does not stand at the slice, some bytes beside the slice are watched.
#[derive(Clone, Copy, PartialEq, Debug)]
pub enum Guard {
    Before,
    After,
    /// Some bytes before the slice, which begins at an odd address.
    Odd,
}

impl Guard {
    pub const ALL: [Guard; 3] = [Guard::Before, Guard::After, Guard::Odd];

    /// Whether a slice of this length is lent as NULL.
    pub fn is_null(self, length: usize) -> bool {
        length == 0 && self == Guard::After
    }
}

/// How far behind the page an odd slice begins.
const ODD: usize = 3;
const WATCHED: usize = 64;
const WATCHED_BYTE: u8 = 0xA5;

/// Room between two unreadable pages, and the slice that is lent of it.
pub struct Guarded {
    first: *mut u8,
    room: usize,
    guard: Guard,
    length: usize,
}

// SAFETY: the room belongs to this value alone, and behind & it is only read.
unsafe impl Send for Guarded {}
unsafe impl Sync for Guarded {}

impl Guarded {
    pub fn with_room(bytes: usize) -> Guarded {
        let room = (bytes + ODD).next_multiple_of(page());
        // SAFETY: a new mapping; the pages between the first and the last are opened.
        let first = unsafe {
            let whole = mmap(ptr::null_mut(), room + 2 * page(), NO_ACCESS, PRIVATE_ANONYMOUS, -1, 0);
            // A mapping that fails gives the address -1, on no page's border.
            assert!((whole as usize).is_multiple_of(page()), "no memory for a slice of {bytes} bytes");
            let first = whole.cast::<u8>().add(page());
            assert!(mprotect(first.cast(), room, READ_AND_WRITE) == 0, "a page could not be opened");
            first
        };
        Guarded { first, room, guard: Guard::After, length: 0 }
    }

    pub fn holding(bytes: &[u8], guard: Guard) -> Guarded {
        let mut guarded = Guarded::with_room(bytes.len());
        guarded.lend(bytes.len(), guard);
        guarded.bytes_mut().copy_from_slice(bytes);
        guarded
    }

    /// Lends a slice of this length.
    pub fn lend(&mut self, length: usize, guard: Guard) {
        if length + ODD > self.room {
            *self = Guarded::with_room(length);
        }
        (self.length, self.guard) = (length, guard);
        for beside in self.beside() {
            // SAFETY: within the room, which is borrowed as a whole.
            unsafe { slice::from_raw_parts_mut(self.first.add(beside.start), beside.len()) }.fill(WATCHED_BYTE);
        }
    }

    fn from(&self) -> usize {
        match self.guard {
            Guard::Before => 0,
            Guard::After => self.room - self.length,
            Guard::Odd => ODD,
        }
    }

    /// The watched bytes before and after the slice.
    fn beside(&self) -> [Range<usize>; 2] {
        let (from, to) = (self.from(), self.from() + self.length);
        [from.saturating_sub(WATCHED)..from, to..self.room.min(to + WATCHED)]
    }

    /// An empty slice is NULL, or else stands where nothing can be read.
    pub fn pointer(&self) -> *mut u8 {
        if self.guard.is_null(self.length) {
            return ptr::null_mut();
        }
        let closed = if self.length == 0 { self.room } else { 0 };
        // SAFETY: within the room or the page after it.
        unsafe { self.first.add(closed + self.from()) }
    }

    pub fn length(&self) -> usize {
        self.length
    }

    pub fn bytes(&self) -> &[u8] {
        // SAFETY: within the room.
        unsafe { slice::from_raw_parts(self.first.add(self.from()), self.length) }
    }

    pub fn bytes_mut(&mut self) -> &mut [u8] {
        // SAFETY: within the room, which is borrowed as a whole.
        unsafe { slice::from_raw_parts_mut(self.first.add(self.from()), self.length) }
    }

    /// Whether the watched bytes are as when the slice was lent.
    pub fn is_kept_beside(&self) -> bool {
        self.beside().into_iter().all(|beside| {
            // SAFETY: within the room.
            let bytes = unsafe { slice::from_raw_parts(self.first.add(beside.start), beside.len()) };
            bytes.iter().all(|&byte| byte == WATCHED_BYTE)
        })
    }
}

impl Drop for Guarded {
    fn drop(&mut self) {
        // SAFETY: the whole mapping, to which nothing refers any more.
        let closed = unsafe { munmap(self.first.sub(page()).cast(), self.room + 2 * page()) };
        assert!(closed == 0, "a slice could not be given back");
    }
}
