//! What the original takes from other crates.

use std::fmt;

/// crossbeam's cell, for one thread.
pub mod atomic {
    use std::cell::Cell;

    #[derive(Debug, Default)]
    pub struct AtomicCell<T: Copy>(Cell<T>);

    impl<T: Copy> AtomicCell<T> {
        pub fn new(value: T) -> Self {
            AtomicCell(Cell::new(value))
        }

        pub fn load(&self) -> T {
            self.0.get()
        }

        pub fn store(&self, value: T) {
            self.0.set(value);
        }
    }

    /// These wrap, as crossbeam's do.
    impl AtomicCell<usize> {
        pub fn fetch_add(&self, more: usize) -> usize {
            self.0.replace(self.0.get().wrapping_add(more))
        }

        pub fn fetch_sub(&self, less: usize) -> usize {
            self.0.replace(self.0.get().wrapping_sub(less))
        }
    }
}

/// A whole number. Those that scenarios can give have at most 64 bits.
#[derive(Clone, Copy, PartialEq, PartialOrd)]
pub struct BigInt(i128);

impl BigInt {
    pub fn value(&self) -> i128 {
        self.0
    }
}

impl From<i128> for BigInt {
    fn from(value: i128) -> BigInt {
        BigInt(value)
    }
}

impl fmt::Display for BigInt {
    fn fmt(&self, f: &mut fmt::Formatter<'_>) -> fmt::Result {
        self.0.fmt(f)
    }
}

pub trait One {
    fn one() -> Self;
}

impl One for BigInt {
    fn one() -> Self {
        BigInt(1)
    }
}

pub trait Signed {
    fn is_negative(&self) -> bool;
}

impl Signed for BigInt {
    fn is_negative(&self) -> bool {
        self.0 < 0
    }
}

pub trait ToPrimitive {
    fn to_usize(&self) -> Option<usize>;
}

impl ToPrimitive for BigInt {
    fn to_usize(&self) -> Option<usize> {
        self.0.try_into().ok()
    }
}

impl ToPrimitive for isize {
    fn to_usize(&self) -> Option<usize> {
        (*self).try_into().ok()
    }
}
