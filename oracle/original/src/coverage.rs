//! Which edges of the code a scenario goes over. The compiler counts them where it is told to, in two sections of the
//! program: a counter for each edge, and its place.

use std::fmt::Write as _;
use std::io::{self, Write};
use std::slice;

extern "C" {
    static mut __start___sancov_cntrs: u8;
    static mut __stop___sancov_cntrs: u8;
    static __start___sancov_pcs: [usize; 2];
    static __executable_start: u8;
}

// The compiler has these called before `main`; there is nothing to set up.
#[no_mangle]
extern "C" fn __sanitizer_cov_8bit_counters_init(_start: *mut u8, _stop: *mut u8) {}

#[no_mangle]
extern "C" fn __sanitizer_cov_pcs_init(_start: *const [usize; 2], _stop: *const [usize; 2]) {}

fn counters() -> &'static mut [u8] {
    let (start, stop) = (
        &raw mut __start___sancov_cntrs,
        &raw mut __stop___sancov_cntrs,
    );
    // SAFETY: the linker puts these at the ends of the section, nothing else refers to it, and one thread runs.
    unsafe { slice::from_raw_parts_mut(start, stop as usize - start as usize) }
}

/// Writes the places of the edges that were gone over since the last time to standard error, as offsets in the program.
pub fn tell() -> io::Result<()> {
    let counters = counters();
    // SAFETY: the compiler gave each counter a place.
    let places = unsafe { slice::from_raw_parts(&raw const __start___sancov_pcs, counters.len()) };
    let base = &raw const __executable_start as usize;
    let mut line = String::new();
    for (counter, [place, _]) in counters.iter_mut().zip(places) {
        // an edge that was dropped again has no place in the program
        if std::mem::take(counter) != 0 && *place >= base {
            write!(line, "{:x} ", place - base).expect("a string takes all");
        }
    }
    line.push('\n');
    io::stderr().write_all(line.as_bytes())
}

/// The places of all edges, in the same form.
pub fn tell_all() -> io::Result<()> {
    counters().fill(1);
    tell()
}
