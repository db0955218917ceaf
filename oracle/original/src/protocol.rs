//! The original's protocol of iterators, and what the module asks of numbers.

#[allow(dead_code, unused_imports, mismatched_lifetime_syntaxes, clippy::all)]
mod iter {
    include!(env!("PROTOCOL_ITER"));
}

pub use iter::{PyIter, PyIterReturn};

use crate::builtins::PyInt;
use crate::object::PyObject;

pub struct PyNumber;

impl PyNumber {
    pub fn check(object: &PyObject) -> bool {
        object.payload::<PyInt>().is_some()
    }
}
