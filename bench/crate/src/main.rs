//! Plays the jobs of bench/jobs.txt, read from standard input, on the crate itertools and, where
//! std has the adapter, on std's iterators. A line for each: the peer, the job, its units, its
//! checksum and the nanoseconds of the fastest round.

mod items;
mod rows;

use std::hint::black_box;
use std::io;
use std::time::Instant;

/// How many times each job is timed; the fastest counts.
const ROUNDS: usize = 5;

/// How many units a job made, rows or items, and the sum of what they showed.
type Tally = (u64, u64);

fn main() -> io::Result<()> {
    for line in io::stdin().lines() {
        let line = line?;
        if line.is_empty() || line.starts_with('#') {
            continue;
        }
        let words: Vec<&str> = line.split(' ').collect();
        let ((units, sum), nanos) = measure(&words);
        println!("crate\t{line}\t{units}\t{sum}\t{nanos}");
    }
    Ok(())
}

fn measure(words: &[&str]) -> (Tally, u128) {
    match words {
        [kind, pool, places, most] => {
            let (pool, places, most) = (number(pool), number(places), number(most));
            timed(|| rows::play(kind, black_box(pool), places as usize, most as usize))
        }
        ["range", adapter, count] => {
            let count = number(count);
            timed(|| items::play(&items::Ranges, adapter, black_box(count)))
        }
        ["list", adapter, count] => {
            let count = number(count);
            let numbers: Vec<u64> = (0..3 * count).collect();
            let lists = items::Lists { numbers: &numbers };
            timed(|| items::play(black_box(&lists), adapter, black_box(count)))
        }
        _ => no_job(words),
    }
}

fn timed(job: impl Fn() -> Tally) -> (Tally, u128) {
    let mut best = u128::MAX;
    let mut tally = (0, 0);
    for _ in 0..ROUNDS {
        let start = Instant::now();
        tally = black_box(job());
        best = best.min(start.elapsed().as_nanos());
    }
    (tally, best)
}

fn number(word: &str) -> u64 {
    word.parse().unwrap_or_else(|_| no_job(&[word]))
}

fn no_job(words: &[&str]) -> ! {
    eprintln!("no such job: {}", words.join(" "));
    std::process::exit(1)
}
