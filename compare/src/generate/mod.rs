//! Random lives. A generator makes each call on a bench of the twin as it picks it, and so knows
//! what the replicas are ready for.

mod forging;
mod plans;
mod rounds;
mod views;
mod wrong;

pub use forging::{any_record, break_layout, operation};
pub use plans::{Plan, Size, mishand, plan};

use crate::abi::{Call, Kind, REFUSED, Record};
use crate::lives::Life;
use crate::random::Random;
use crate::twin::bench::Bench;
use crate::twin::calls;
use crate::twin::life;
use crate::twin::register::{ByAny, Tape};
use crate::twin::service::{Allotment, Rating, Service};

/// The numbers of the calls.
pub mod number {
    pub const STAMP: u64 = 1;
    pub const DELIVER: u64 = 2;
    pub const FIND: u64 = 3;
    pub const DROP: u64 = 4;
    pub const DECIDE: u64 = 5;
    pub const PREPARE: u64 = 6;
    pub const COMMIT: u64 = 7;
    pub const SETTLE: u64 = 8;
    pub const REPLY: u64 = 9;
    pub const LEAVE: u64 = 10;
    pub const FORGE: u64 = 11;
    pub const LEAD: u64 = 12;
    pub const START: u64 = 13;
    pub const ENTER: u64 = 14;
    pub const ANSWER: u64 = 15;
    pub const NO_OP: u64 = 16;
}

/// A life in the making.
struct Making<'a, S> {
    random: Random,
    bench: Bench<Tape<'a, ByAny>, S>,
    life: Life,
    plan: Plan,
}

/// A random life that follows a plan.
pub fn life_of(plan: Plan, random: Random) -> Life {
    match plan.kind {
        Kind::Rating => make_life::<Rating>(plan, random),
        Kind::Allotment => make_life::<Allotment>(plan, random),
    }
}

fn make_life<S: Service>(plan: Plan, mut random: Random) -> Life {
    let before: Vec<u8> = (0..plan.tape_length).map(|_| random.any() as u8).collect();
    let mut tape = before.clone();
    let bench = Bench::open(plan.f, plan.foreign, Tape::<ByAny>::new(&mut tape), S::default());
    let Ok(bench) = bench else { unreachable!("a plan has a granted open") };
    let life = Life::opened(plan.kind, plan.f, plan.foreign, before);
    let mut making = Making { random, bench, life, plan };
    making.make_rounds();
    let mut life = making.life;
    life.room = life.calls.len();
    life
}

/// Makes a life's calls on a bench again, after some were changed, and notes what came of them.
pub fn retrace(life: &mut Life) {
    match life.kind {
        Kind::Rating => retrace_with::<Rating>(life),
        Kind::Allotment => retrace_with::<Allotment>(life),
    }
}

fn retrace_with<S: Service>(life: &mut Life) {
    let mut tape = life.tape.clone();
    let bench = Bench::open(life.f, life.foreign, Tape::<ByAny>::new(&mut tape), S::default());
    let Ok(mut bench) = bench else { return };
    life.outcomes.clear();
    life.used.clear();
    for call in &life.calls {
        let Ok(call) = calls::read(call, &life.records) else {
            return;
        };
        life.outcomes.push(life::make(&mut bench, &call));
        life.used.push(bench.register.used());
    }
}

impl<S: Service> Making<'_, S> {
    fn make_rounds(&mut self) {
        if self.plan.early {
            self.stamp_all();
        }
        while !self.is_over() {
            let calls = self.life.calls.len();
            self.round();
            if self.life.calls.len() == calls {
                self.random_call();
            }
        }
    }

    fn is_over(&self) -> bool {
        self.life.calls.len() >= self.plan.calls
    }

    /// Makes a call; whether it was not refused.
    fn make(&mut self, number: u64, arguments: [u64; 5]) -> bool {
        if self.is_over() {
            return false;
        }
        let call = Call { number, arguments };
        let outcome = match calls::read(&call, &self.life.records) {
            Ok(read) => life::make(&mut self.bench, &read),
            Err(_) => return false,
        };
        self.life.calls.push(call);
        self.life.outcomes.push(outcome);
        self.life.used.push(self.bench.register.used());
        outcome.kind != REFUSED
    }

    /// Makes a call that fits, and now and then a wrong one before or after it.
    fn act(&mut self, number: u64, arguments: [u64; 5]) -> bool {
        if self.random.percent(self.plan.wrong) {
            self.wrong(number, arguments);
        }
        let granted = self.make(number, arguments);
        if self.random.percent(self.plan.wrong / 2) {
            self.wrong(number, arguments);
        } else if self.random.percent(self.plan.wrong / 4) {
            self.make(number, arguments);
        }
        granted
    }

    fn forge(&mut self, record: Record) -> bool {
        let place = self.life.records.len() as u64;
        self.life.records.push(record);
        self.make(number::FORGE, [place, 0, 0, 0, 0])
    }

    /// The numbers of all replicas in a random order, some left out.
    fn some_replicas(&mut self, percent: u64) -> Vec<u8> {
        let mut numbers: Vec<u8> = (0..self.bench.n).collect();
        self.random.shuffle(&mut numbers);
        numbers.retain(|_| self.random.percent(percent));
        numbers
    }

    fn stamped(&self) -> u8 {
        self.bench.operations.len() as u8
    }

    fn works_in(&self, replica: u8, view: u8) -> bool {
        let state = self.bench.replica(replica);
        !self.bench.is_foreign(replica) && state.at_work() && state.view == view
    }

    /// The view of an honest replica that is at work, if there is one.
    fn a_view(&mut self) -> Option<u8> {
        let numbers = self.some_replicas(100);
        let views = numbers.into_iter().map(|r| (r, self.bench.replica(r).view));
        views.into_iter().find(|&(r, view)| self.works_in(r, view)).map(|(_, view)| view)
    }

    /// A statement of this kind in the register, if there is one: now and then the last.
    fn a_statement(&mut self, kind: u8) -> Option<Record> {
        let statements = self.bench.register.statements();
        let found: Vec<Record> = statements.filter(|held| held.kind == kind).collect();
        if self.random.percent(25) {
            found.last().copied()
        } else {
            self.random.pick(&found).copied()
        }
    }
}
