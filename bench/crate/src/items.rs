//! std's adapters and the crate's, over ranges and over lists.

use crate::{no_job, Tally};
use itertools::{EitherOrBoth, Itertools};
use std::{iter, ops, slice};

/// What gives iterators over the numbers from 0 to below a stop.
pub trait Origin {
    type Numbers: Iterator<Item = u64>;

    fn to(&self, stop: u64) -> Self::Numbers;
}

pub struct Ranges;

impl Origin for Ranges {
    type Numbers = ops::Range<u64>;

    fn to(&self, stop: u64) -> Self::Numbers {
        0..stop
    }
}

pub struct Lists<'a> {
    pub numbers: &'a [u64],
}

impl<'a> Origin for Lists<'a> {
    type Numbers = iter::Copied<slice::Iter<'a, u64>>;

    fn to(&self, stop: u64) -> Self::Numbers {
        self.numbers[..stop as usize].iter().copied()
    }
}

/// The items of an adapter over the first `n` numbers.
pub fn play<O: Origin>(origin: &O, adapter: &str, n: u64) -> Tally {
    match adapter {
        "alone" => total(origin.to(n)),
        "takewhile" => total(origin.to(n + 1).take_while(|item| *item < n)),
        "dropwhile" => total(origin.to(n).skip_while(|item| *item < n / 100)),
        "islice" => total(origin.to(3 * n).step_by(3)),
        "compress" => total(chosen(origin.to(n), origin.to(n))),
        "accumulate" => total(sums(origin.to(n))),
        "chain" => total(origin.to(n).chain(origin.to(n))),
        "zip_longest" => pairs(origin.to(n).zip_longest(origin.to(n / 2)).map(filled)),
        "pairwise" => pairs(origin.to(n).tuple_windows()),
        "six" => six(origin, n),
        _ => no_job(&[adapter]),
    }
}

fn six<O: Origin>(origin: &O, n: u64) -> Tally {
    let both = origin.to(n).chain(origin.to(n));
    let odd = chosen(both, origin.to(2 * n)).take(n as usize);
    let behind = odd.skip_while(|item| *item < n / 100);
    total(sums(behind.take_while(|item| *item < n)))
}

fn chosen(
    items: impl Iterator<Item = u64>,
    selectors: impl Iterator<Item = u64>,
) -> impl Iterator<Item = u64> {
    items.zip(selectors).filter(|(_, selector)| selector % 2 == 1).map(|(item, _)| item)
}

fn sums(items: impl Iterator<Item = u64>) -> impl Iterator<Item = u64> {
    items.scan(0u64, |sum, item| {
        *sum = sum.wrapping_add(item);
        Some(*sum)
    })
}

fn filled(sides: EitherOrBoth<u64, u64>) -> (u64, u64) {
    match sides {
        EitherOrBoth::Both(left, right) => (left, right),
        EitherOrBoth::Left(left) => (left, 0),
        EitherOrBoth::Right(right) => (0, right),
    }
}

/// By `for`, as the other peers' loops, and not by `sum`, for which std has ways of its own.
fn total(items: impl Iterator<Item = u64>) -> Tally {
    let mut tally = (0, 0u64);
    for item in items {
        tally.0 += 1;
        tally.1 = tally.1.wrapping_add(item);
    }
    tally
}

fn pairs(items: impl Iterator<Item = (u64, u64)>) -> Tally {
    total(items.map(|(left, right)| left ^ right))
}
