//! Says in which call the library crashed, as by touching the unreadable page beside a slice.

use crate::ask::Ask;
use crate::which::Which;
use std::cell::Cell;
use std::ffi::c_void;
use std::io::{Cursor, Write};

/// Bad instruction, abort, bus, bad number and segment, as Linux numbers them.
const CRASHES: [i32; 5] = [4, 6, 7, 8, 11];
const STANDARD_OUTPUT: i32 = 1;
const LINE_MOST: usize = 400;

extern "C" {
    fn signal(number: i32, action: extern "C" fn(i32)) -> usize;
    fn write(file: i32, bytes: *const c_void, length: usize) -> isize;
    fn _exit(status: i32) -> !;
}

thread_local! {
    static CALLING: Cell<Option<(Which, Ask)>> = const { Cell::new(None) };
}

/// Makes a call of the library, noted while this thread is in it.
pub fn noted<T>(which: Which, ask: Ask, call: impl FnOnce() -> T) -> T {
    CALLING.set(Some((which, ask)));
    let given = call();
    CALLING.set(None);
    given
}

pub fn watch() {
    for number in CRASHES {
        // SAFETY: the action only writes and ends the program.
        unsafe { signal(number, crashed) };
    }
}

/// Without allocation, as a signal's action has to be.
extern "C" fn crashed(_: i32) {
    let mut line = Cursor::new([0u8; LINE_MOST]);
    let said = match CALLING.get() {
        Some((which, ask)) => writeln!(line, "DIFFERS {which}: {ask}: a crash, as by a byte outside its slices"),
        None => writeln!(line, "compare: a crash outside of all calls"),
    };
    let length = if said.is_ok() { line.position() as usize } else { 0 };
    // SAFETY: the bytes that were just put there.
    unsafe {
        write(STANDARD_OUTPUT, line.get_ref().as_ptr().cast(), length);
        _exit(1)
    }
}
