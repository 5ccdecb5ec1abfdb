//! Runs the comparisons of lives and of registers.

use std::time::{Duration, Instant};

use crate::abi;
use crate::differ;
use crate::generate::{Size, life_of, mishand, plan, retrace};
use crate::lives::{Life, Ran};
use crate::random::Random;
use crate::sequences::{self, Sequence};
use crate::tally::Tally;
use crate::twin;
use crate::twin::record::PLACE;
use crate::twin::register::ByAny;

/// How many differences are printed in full.
const PRINTED: u64 = 5;

/// The life of a number: a random one; one in six is handed over wrongly.
pub fn numbered_life(seed: u64, number: u64) -> (Life, Random) {
    let mut random = Random::new(Random::new(seed ^ number.rotate_left(32)).any());
    let wrongly = number % 6 == 5;
    let size = if wrongly { Size::Calls(number as usize % 40) } else { Size::Any };
    let plan = plan(&mut random, size);
    let mut life = life_of(plan, random.clone());
    if wrongly {
        mishand(&mut life, &mut random);
        retrace(&mut life);
    } else if random.percent(25) {
        hold_before(&mut life, &mut random);
    }
    (life, random)
}

/// Puts on the tape, before the life, the statements that it enters, at other places.
fn hold_before(life: &mut Life, random: &mut Random) {
    let mut tape = life.run(&life.memory(random), twin::life::run_life::<ByAny>).tape;
    tape.truncate(life.tape.len());
    let places = tape.len() / PLACE;
    if places > 0 {
        let by = random.below(places as u64) as usize;
        tape[..places * PLACE].rotate_left(by * PLACE);
    }
    life.tape = tape;
}

/// A life run by the library and the twin: the memory before, and that after each.
pub struct Both {
    pub before: Ran,
    pub ours: Ran,
    pub twin: Ran,
}

pub fn run_both(life: &Life, random: &mut Random) -> Both {
    let before = life.memory(random);
    let ours = life.run(&before, abi::run_life);
    let twin = life.run(&before, twin::life::run_life::<ByAny>);
    Both { before, ours, twin }
}

/// Prints how far a part of the work is, about every second.
struct Progress {
    name: &'static str,
    whole: u64,
    told: Instant,
}

impl Progress {
    fn new(name: &'static str, whole: u64) -> Self {
        Progress { name, whole, told: Instant::now() }
    }

    fn tell(&mut self, done: u64) {
        if self.told.elapsed() >= Duration::from_secs(1) {
            self.told = Instant::now();
            println!("  {}: {done} of {}", self.name, self.whole);
        }
    }
}

fn report(tally: &mut Tally, what: &str, found: &[String]) {
    for difference in found {
        tally.differences += 1;
        if tally.differences <= PRINTED {
            println!("DIFFERENCE in {what}: {difference}");
        }
    }
}

/// Compares lives until so many calls were compared.
pub fn check_lives(seed: u64, calls: u64, tally: &mut Tally) {
    let mut progress = Progress::new("calls of lives", calls);
    let mut number = 0;
    while tally.calls < calls {
        check_life(seed, number, tally);
        progress.tell(tally.calls);
        number += 1;
    }
}

/// Compares one life.
pub fn check_life(seed: u64, number: u64, tally: &mut Tally) {
    let (life, mut random) = numbered_life(seed, number);
    let Both { before, ours, twin } = run_both(&life, &mut random);
    let found = differ::differences(&life, &before, &ours, &twin);
    report(tally, &format!("life {number} of seed {seed}"), &found);
    tally.add_life(&life, &twin);
}

/// Compares sequences of requests to registers until so many requests were compared.
pub fn check_registers(seed: u64, requests: u64, tally: &mut Tally) {
    let mut progress = Progress::new("requests to registers", requests);
    let mut number = 0;
    while tally.requests < requests {
        check_sequence(seed, number, tally);
        progress.tell(tally.requests);
        number += 1;
    }
}

/// Compares one sequence.
pub fn check_sequence(seed: u64, number: u64, tally: &mut Tally) {
    let before = numbered_sequence(seed, number);
    let (ours, twin) = (before.run_by_library(), before.run_by_twin());
    let found = sequences::differences(&before, &ours, &twin);
    report(tally, &format!("sequence {number} of seed {seed}"), &found);
    tally.add_sequence(&twin);
}

pub fn numbered_sequence(seed: u64, number: u64) -> Sequence {
    Sequence::new(&mut Random::new(Random::new(!seed ^ number.rotate_left(32)).any()))
}
