//! A life with all that is handed over for it, and what a run of it leaves.

use crate::abi::{Call, Given, Kind, Memory, Outcome, Record, Status, Written};
use crate::random::Random;

/// What is handed over for a life, and what its generator saw come of its calls.
#[derive(Clone)]
pub struct Life {
    pub kind: Kind,
    pub f: u64,
    pub foreign: u64,
    /// The tape before the life.
    pub tape: Vec<u8>,
    pub calls: Vec<Call>,
    pub records: Vec<Record>,
    /// How many outcomes there is room for.
    pub room: usize,
    /// What came of each call, and how many places of the tape were used after it.
    pub outcomes: Vec<Outcome>,
    pub used: Vec<usize>,
}

/// Who runs a life: the library or the twin.
pub type Runner = fn(Given, Written) -> u8;

/// How many bytes lie after the tape that are not handed over.
pub const AFTER: usize = 32;

/// The memory that a life writes to, and its answer. After the tape, the outcomes and the status
/// there is memory that is not handed over.
#[derive(Clone)]
pub struct Ran {
    pub answer: u8,
    pub tape: Vec<u8>,
    pub outcomes: Memory<Outcome>,
    pub status: Memory<Status>,
}

impl Life {
    /// A life of an open alone.
    pub fn opened(kind: Kind, f: u64, foreign: u64, tape: Vec<u8>) -> Life {
        let (calls, records, outcomes, used) = Default::default();
        Life { kind, f, foreign, tape, calls, records, room: 0, outcomes, used }
    }

    pub fn given(&self) -> Given<'_> {
        Given {
            kind: self.kind,
            f: self.f,
            foreign: self.foreign,
            calls: &self.calls,
            records: &self.records,
        }
    }

    /// The memory for a run as it is before: random bytes.
    pub fn memory(&self, random: &mut Random) -> Ran {
        let after = (0..AFTER).map(|_| random.any() as u8);
        Ran {
            answer: 0,
            tape: self.tape.iter().copied().chain(after).collect(),
            outcomes: Memory::new(self.room + 1, || random.any()),
            status: Memory::new(2, || random.any()),
        }
    }

    /// Runs the life on a copy of this memory.
    pub fn run(&self, before: &Ran, runner: Runner) -> Ran {
        let mut ran = before.clone();
        ran.answer = self.run_in(&mut ran, runner);
        ran
    }

    /// Runs the life on this memory.
    pub fn run_in(&self, ran: &mut Ran, runner: Runner) -> u8 {
        let tape = &mut ran.tape[..self.tape.len()];
        let outcomes = &mut ran.outcomes.values_mut()[..self.room];
        let status = &mut ran.status.values_mut()[0];
        runner(self.given(), Written { tape, outcomes, status })
    }
}
