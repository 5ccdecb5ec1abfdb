//! The check of the comparer: each alteration has to be noticed.

use crate::alter::{Alter, OF_A_LIFE, OF_A_SEQUENCE, OF_NO_LIFE, reorder};
use crate::check::{Both, numbered_life, numbered_sequence, run_both};
use crate::differ;
use crate::lives::Life;
use crate::random::Random;
use crate::sequences::{self, Sequence};

/// How often each alteration is tried.
const TRIES: u64 = 40;
/// How many lives or sequences are looked through, at most.
const LIVES: u64 = 20_000;
const REORDERED: &str = "witnesses in another order";

/// How often an alteration was tried, and taken as it has to be.
#[derive(Clone, Copy)]
struct Tried {
    name: &'static str,
    tries: u64,
    rightly: u64,
}

impl Tried {
    fn new(name: &'static str) -> Self {
        Tried { name, tries: 0, rightly: 0 }
    }

    fn add(&mut self, noticed: bool) {
        self.tries += 1;
        self.rightly += u64::from(noticed == (self.name != REORDERED));
    }
}

/// Tries each alteration; whether each made a difference, and another order of witnesses none.
pub fn check_comparer(seed: u64) -> bool {
    let mut all = altered_lives(seed);
    all.extend(altered_sequences(seed));
    let tries: u64 = all.iter().map(|tried| tried.tries).sum();
    let rightly: u64 = all.iter().map(|tried| tried.rightly).sum();
    println!("comparer: {rightly} of {tries} alterations of {} kinds taken rightly", all.len());
    println!("  (one kind, {REORDERED}, makes no difference; all others have to be noticed)");
    for tried in all.iter().filter(|tried| tried.rightly != TRIES) {
        println!("  NOT RIGHTLY: {}, {} of {} times", tried.name, tried.rightly, tried.tries);
    }
    all.iter().all(|tried| tried.rightly == TRIES)
}

fn altered_lives(seed: u64) -> Vec<Tried> {
    let names = OF_A_LIFE.iter().chain(&OF_NO_LIFE).map(|(name, _)| *name);
    let mut all: Vec<Tried> = names.chain([REORDERED]).map(Tried::new).collect();
    for number in 0..LIVES {
        let (life, mut random) = numbered_life(seed, number);
        alter_life(&life, &mut random, &mut all);
        if all.iter().all(|tried| tried.tries == TRIES) {
            break;
        }
    }
    all
}

/// Tries on a life what was not tried often enough.
fn alter_life(life: &Life, random: &mut Random, all: &mut [Tried]) {
    let Both { before, ours, twin } = run_both(life, random);
    let ran = ours.answer == 0;
    let (of_lives, of_none) = all.split_at_mut(OF_A_LIFE.len());
    let (of_none, reordered) = of_none.split_at_mut(OF_NO_LIFE.len());
    let list = if ran { OF_A_LIFE.iter().zip(of_lives) } else { OF_NO_LIFE.iter().zip(of_none) };
    let reordering = (REORDERED, reorder as Alter);
    let last = ran.then_some(&reordering).into_iter().zip(reordered);
    for ((_, alter), tried) in list.chain(last).filter(|(_, tried)| tried.tries < TRIES) {
        let mut altered = ours.clone();
        if alter(life, &mut altered, random) {
            tried.add(!differ::differences(life, &before, &altered, &twin).is_empty());
        }
    }
}

fn altered_sequences(seed: u64) -> Vec<Tried> {
    let mut random = Random::new(seed);
    let mut all = Vec::from(OF_A_SEQUENCE.map(|(name, _)| Tried::new(name)));
    for number in 0..LIVES {
        alter_sequence(&numbered_sequence(seed, number), &mut random, &mut all);
        if all.iter().all(|tried| tried.tries == TRIES) {
            break;
        }
    }
    all
}

/// Tries on a sequence what was not tried often enough.
fn alter_sequence(before: &Sequence, random: &mut Random, all: &mut [Tried]) {
    let (ours, twin) = (before.run_by_library(), before.run_by_twin());
    let list = OF_A_SEQUENCE.iter().zip(all).filter(|(_, tried)| tried.tries < TRIES);
    for ((_, alter), tried) in list {
        let mut altered = ours.clone();
        if alter(&mut altered, random) {
            tried.add(!sequences::differences(before, &altered, &twin).is_empty());
        }
    }
}
