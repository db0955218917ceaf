//! The enumerators of the crate, which make a `Vec` for each row.

use crate::{no_job, Tally};
use itertools::Itertools;
use std::hint::black_box;

/// The first rows of an enumerator, each by its last element.
pub fn play(kind: &str, pool: u64, places: usize, most: usize) -> Tally {
    match kind {
        "product" => rows((0..places).map(|_| 0..pool).multi_cartesian_product().take(most)),
        "combinations" => rows((0..pool).combinations(places).take(most)),
        "replacement" => rows((0..pool).combinations_with_replacement(places).take(most)),
        "permutations" => rows((0..pool).permutations(places).take(most)),
        _ => no_job(&[kind]),
    }
}

/// Each row goes through `black_box`: else the compiler leaves out the `Vec` and all but its last
/// element.
fn rows(rows: impl Iterator<Item = Vec<u64>>) -> Tally {
    let mut tally = (0, 0u64);
    for row in rows {
        let row = black_box(row);
        tally.0 += 1;
        tally.1 = tally.1.wrapping_add(row.last().copied().unwrap_or(0));
    }
    tally
}
