//! Plays scenarios on the Rust original: reads them from standard input, one to a line, and writes what the original's
//! own text answers, in the form of docs/replay.md and oracle/README.md.

mod builtins;
mod common;
mod convert;
#[cfg(feature = "coverage")]
mod coverage;
mod driver;
mod function;
mod object;
mod outside;
mod protocol;
mod stdlib;
mod types;
mod vm;

// The names by which the original's text knows other crates and the rest of its own.
extern crate self as crossbeam_utils;
extern crate self as malachite_bigint;
extern crate self as num_traits;
extern crate self as result_like;
#[macro_use]
extern crate attributes;

#[allow(unused_imports)]
pub(crate) use {
    attributes::ResultLike,
    convert::TryFromObject,
    object::{AsObject, Py, PyObject, PyObjectRef, PyPayload, PyRef, PyWeakRef},
    outside::{atomic, BigInt, One, Signed, ToPrimitive},
    vm::{identifier, VirtualMachine},
};

type PyResult<T = PyObjectRef> = Result<T, builtins::PyBaseExceptionRef>;

use std::io::{self, BufWriter, Read, Write};

fn main() -> io::Result<()> {
    let mut input = vec![];
    io::stdin().read_to_end(&mut input)?;
    let mut out = BufWriter::new(io::stdout());
    let player = driver::Player::new();
    // first all edges, then those of each scenario
    #[cfg(feature = "coverage")]
    coverage::tell_all()?;
    for line in input.split(|byte| *byte == b'\n') {
        if !matches!(line, [] | [b'#', ..]) {
            out.write_all(player.play(line).as_bytes())?;
            #[cfg(feature = "coverage")]
            coverage::tell()?;
        }
    }
    out.flush()
}
