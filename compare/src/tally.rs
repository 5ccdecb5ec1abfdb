//! Counts of what was compared.

use std::collections::BTreeMap;

use crate::abi::{Call, REFUSED, YES};
use crate::generate::number;
use crate::lives::{Life, Ran};
use crate::sequences::{Over, Sequence};
use crate::twin::picks::top;
use crate::twin::requests;

pub const CALLS: usize = 17;
pub const GROUNDS: usize = 19;

#[derive(Default)]
pub struct Tally {
    pub lives: u64,
    pub calls: u64,
    pub witnesses: u64,
    pub tape_bytes: u64,
    /// How many lives had each answer.
    pub answers: BTreeMap<u8, u64>,
    /// By the number of the call, and the kind of the outcome.
    pub kinds: [[u64; 5]; CALLS],
    /// By the number of the call, and the ground.
    pub grounds: [[u64; GROUNDS]; CALLS],
    /// By the ground, and the place.
    pub places: [[u64; 16]; GROUNDS],
    /// By what a call that was not refused had to do with.
    pub reached: BTreeMap<&'static str, u64>,
    pub sequences: u64,
    pub requests: u64,
    /// By the register, the number of the request, its outcome, and its ground if it is refused.
    pub outcomes: BTreeMap<(Over, u8, u8, u8), u64>,
    pub memory_bytes: u64,
    pub differences: u64,
}

impl Tally {
    pub fn add_life(&mut self, life: &Life, ran: &Ran) {
        self.lives += 1;
        self.tape_bytes += life.tape.len() as u64;
        *self.answers.entry(ran.answer).or_default() += 1;
        if ran.answer != 0 {
            return;
        }
        self.calls += life.calls.len() as u64;
        for (call, outcome) in life.calls.iter().zip(&life.outcomes) {
            let number = call.number as usize;
            self.kinds[number][usize::from(outcome.kind)] += 1;
            if outcome.kind == REFUSED {
                self.grounds[number][usize::from(outcome.ground)] += 1;
                self.places[usize::from(outcome.ground)][(outcome.place as usize).min(15)] += 1;
            } else if outcome.kind == YES {
                self.witnesses += 2 * life.f + 1;
            }
            if outcome.kind != REFUSED {
                self.add_reached(life, call, outcome.kind == YES);
            }
        }
    }

    /// Notes what a call that was not refused had to do with.
    fn add_reached(&mut self, life: &Life, call: &Call, yes: bool) {
        let [_, b, c, d, e] = call.arguments;
        match call.number {
            number::START => {
                let picks = &life.records[b as usize..(b + c) as usize];
                let told = picks.iter().filter(|pick| pick.last == top(picks));
                self.note("start over the base of a view entered", top(picks) > 0);
                self.note("start over a base with no-ops", e != 0);
                self.note("start with no-ops of picks", told.fold(0, |word, p| word | p.word) != 0);
                self.note(
                    "start with a pick of an earlier last",
                    picks.iter().any(|p| p.last < top(picks)),
                );
            }
            number::ENTER => {
                self.note("enter with a line of some length", b > 0);
                self.note("enter with no-ops", c != 0);
                self.note("enter view 32 or later", d >= 32);
                self.note("enter view 63", d == 63);
            }
            number::ANSWER if yes => {
                self.note("answer certified in a view after 0", b > 0);
                self.note("answer certified past a no-op", d != 0);
                self.note("answer certified for slot 32 or later", c >= 32);
                self.note("answer certified for slot 63", c == 63);
            }
            number::NO_OP if yes => self.note("no-op certified in a view after 0", b > 0),
            _ => {}
        }
    }

    fn note(&mut self, what: &'static str, holds: bool) {
        *self.reached.entry(what).or_default() += u64::from(holds);
    }

    pub fn add_sequence(&mut self, ran: &Sequence) {
        self.sequences += 1;
        self.requests += ran.requests.len() as u64;
        self.memory_bytes += match ran.over {
            Over::Table => 8 * ran.table.words().len() as u64,
            Over::Tape => ran.tape.len() as u64,
            Over::Sheets => 0,
        };
        for request in &ran.requests {
            let number = if request.outcome == 0 { 0 } else { request.number };
            let ground = if request.outcome == requests::REFUSED { request.value } else { 0 };
            let key = (ran.over, number, request.outcome, ground);
            *self.outcomes.entry(key).or_default() += 1;
        }
    }
}
