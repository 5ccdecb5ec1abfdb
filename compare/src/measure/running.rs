//! A life that is run by each, on the same memory again and again.

use std::hint::black_box;

use super::{ALL, Who};
use crate::abi::{self, Given, Written};
use crate::lives::{Life, Ran, Runner};
use crate::random::Random;
use crate::twin::life;
use crate::twin::register::{ByAny, ByContains};

pub struct Running {
    life: Life,
    memory: Ran,
}

fn runner(who: Who) -> Runner {
    match who {
        Who::Library => abi::run_life,
        Who::TwinByAny => life::run_life::<ByAny>,
        Who::TwinByContains => life::run_life::<ByContains>,
        Who::TwinHashed => life::run_life_in_hash_set,
    }
}

impl Running {
    pub fn new(life: Life) -> Self {
        let memory = life.memory(&mut Random::new(0));
        Running { life, memory }
    }

    /// Runs the life with its first calls only; the answer.
    pub fn run(&mut self, who: Who, calls: usize) -> u8 {
        let memory = black_box(&mut self.memory);
        let given = Given { calls: &self.life.calls[..calls], ..self.life.given() };
        let tape = &mut memory.tape[..self.life.tape.len()];
        let outcomes = &mut memory.outcomes.values_mut()[..calls];
        let status = &mut memory.status.values_mut()[0];
        black_box(runner(who)(given, Written { tape, outcomes, status }))
    }

    /// The kind, ground and place that came of each of the first calls.
    fn outcomes(&self, calls: usize) -> Vec<(u8, u8, u64)> {
        let outcomes = self.memory.outcomes.values()[..calls].iter();
        outcomes.map(|outcome| (outcome.kind, outcome.ground, outcome.place)).collect()
    }

    /// Ends with a message where the life with its first calls comes to something else by one than
    /// by another, or its last call not to this kind and ground.
    pub fn expect_last(&mut self, name: &str, calls: usize, comes_to: (u8, u8)) {
        let ran = ALL.map(|who| {
            self.memory = self.life.memory(&mut Random::new(0));
            assert_eq!(self.run(who, calls), 0, "{name}");
            self.outcomes(calls)
        });
        assert!(ran.iter().all(|outcomes| *outcomes == ran[0]), "{name}");
        let last = ran[0].last().map(|&(kind, ground, _)| (kind, ground));
        assert_eq!(last, Some(comes_to), "{name}");
    }
}
