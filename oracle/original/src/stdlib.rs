//! The original's module.

#[allow(dead_code, unused_imports, unused_variables, clippy::all)]
pub mod itertools {
    include!(env!("ITERTOOLS"));
}

pub mod sys {
    pub const MAXSIZE: isize = isize::MAX;
}
