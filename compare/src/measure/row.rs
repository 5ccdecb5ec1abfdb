//! A row, and how it is measured.

use std::hint::black_box;
use std::ops::RangeInclusive;
use std::time::{Duration, Instant};

use super::{ALL, Who};
use crate::abi;

/// How many operations are measured together, of those that are all alike.
pub const ALIKE: RangeInclusive<usize> = 50..=20_000;

/// What a row measures: operations, of which as many are done as are asked for, and before them
/// what prepares them.
pub struct Row {
    pub name: String,
    /// How many operations are measured together.
    pub operations: RangeInclusive<usize>,
    /// Prepares, and does this many operations.
    pub work: Box<dyn FnMut(Who, usize)>,
}

impl Row {
    /// The time of preparing and of this many operations, in nanoseconds.
    fn time(&mut self, who: Who, operations: usize) -> f64 {
        let began = abi::thread_nanoseconds();
        (self.work)(black_box(who), black_box(operations));
        abi::thread_nanoseconds() - began
    }

    /// As many operations as are done in about 2 milliseconds.
    fn enough(&mut self, who: Who) -> usize {
        let (least, most) = (*self.operations.start(), *self.operations.end());
        if least == most {
            return most;
        }
        let mut best = [f64::INFINITY; 2];
        for _ in 0..5 {
            self.keep_best(&mut best, who, least);
        }
        let one = (best[1] - best[0]) / least as f64;
        ((2e6 / one.max(1.0)) as usize).clamp(least, most)
    }

    /// Measures once, and keeps what is better: the time of preparing alone, and that of all.
    fn keep_best(&mut self, best: &mut [f64; 2], who: Who, operations: usize) {
        for (best, operations) in best.iter_mut().zip([0, operations]) {
            *best = best.min(self.time(who, operations));
        }
    }

    /// The time of an operation for each, from the best of some rounds, in which each comes first
    /// in its turn: as many rounds as are asked for, but after the first nine only for a second.
    pub fn times(&mut self, rounds: usize) -> [f64; ALL.len()] {
        let operations = ALL.map(|who| self.enough(who));
        let mut best = [[f64::INFINITY; 2]; ALL.len()];
        let began = Instant::now();
        for round in 0..rounds {
            for place in (0..ALL.len()).map(|next| (next + round) % ALL.len()) {
                self.keep_best(&mut best[place], ALL[place], operations[place]);
            }
            if round >= 9 && began.elapsed() > Duration::from_secs(1) {
                break;
            }
        }
        std::array::from_fn(|place| {
            let [preparing, whole] = best[place];
            (whole - preparing) / operations[place] as f64
        })
    }
}
