//! Rows on lives.

use super::row::{ALIKE, Row};
use super::running::Running;
use super::{MANY_PLACES, SOME_PLACES};
use crate::abi::{Call, GRANTED, Kind, NO, REFUSED, Record, YES};
use crate::generate::{Plan, life_of, number, operation};
use crate::lives::Life;
use crate::random::Random;
use crate::twin::record::PLACE;

/// A life with only its open: the last replica is foreign, and the tape has this many places.
fn opened(f: u64, kind: Kind, places: usize) -> Life {
    Life::opened(kind, f, 1 << (3 * f), vec![0; places * PLACE])
}

impl Life {
    fn add(&mut self, number: u64, arguments: [u64; 5]) {
        self.calls.push(Call { number, arguments });
        self.room += 1;
    }

    fn stamp_all(&mut self) {
        let mut random = Random::new(0);
        for _ in 0..64 {
            let operation = operation(self.kind, &mut random);
            self.add(number::STAMP, [operation, 0, 0, 0, 0]);
        }
    }

    /// The foreign replica forges this many different statements.
    fn forge_some(&mut self, count: usize) {
        for result in 0..count as u64 {
            let place = self.records.len() as u64;
            self.records.push(Record::reply(63, 1, 0, result).by(3 * self.f as u8));
            self.add(number::FORGE, [place, 0, 0, 0, 0]);
        }
    }

    fn deliver(&mut self, replica: u64, slots: std::ops::Range<u64>) {
        for slot in slots {
            self.add(number::DELIVER, [replica, slot, 0, 0, 0]);
        }
    }
}

/// A row of the calls of a life, at least this many, after those that prepare them. By the least
/// the last comes to this kind and ground.
fn row(name: String, life: Life, prepared: usize, least: usize, comes_to: (u8, u8)) -> Row {
    let operations = least..=life.calls.len() - prepared;
    let mut running = Running::new(life);
    running.expect_last(&name, prepared + least, comes_to);
    let work = Box::new(move |who, operations| {
        running.run(who, prepared + operations);
    });
    Row { name, operations, work }
}

/// A row that repeats a call at the end of a life.
fn repeated(name: String, mut life: Life, call: (u64, [u64; 5]), comes_to: (u8, u8)) -> Row {
    let prepared = life.calls.len();
    for _ in 0..*ALIKE.end() {
        life.add(call.0, call.1);
    }
    row(name, life, prepared, *ALIKE.start(), comes_to)
}

/// Replica 0 delivered all slots but the last, and the tape is full.
fn deliver_refused(f: u64, kind: Kind, places: usize) -> Row {
    let mut life = opened(f, kind, places);
    life.stamp_all();
    life.deliver(0, 0..63);
    life.forge_some(places - 63);
    let call = (number::DELIVER, [0, 63, 0, 0, 0]);
    let name = format!("deliver, refused, {places} places, {kind:?}, f = {f}");
    repeated(name, life, call, (REFUSED, 18))
}

/// Every honest replica delivers every slot, and fills the tape with the last.
fn deliver_granted(f: u64) -> Row {
    let delivered = 64 * 3 * f as usize;
    let mut life = opened(f, Kind::Rating, SOME_PLACES);
    life.stamp_all();
    life.forge_some(SOME_PLACES - delivered);
    let prepared = life.calls.len();
    for replica in 0..3 * f {
        life.deliver(replica, 0..64);
    }
    let name = format!("deliver, granted, slots 0 to 63, f = {f}");
    row(name, life, prepared, delivered, (GRANTED, 0))
}

/// The answer that a quorum said in the last places of a full tape, or another.
fn certificate(f: u64, kind: u8) -> Row {
    let quorum = 2 * f as usize + 1;
    let mut life = opened(f, Kind::Allotment, SOME_PLACES);
    life.add(number::STAMP, [1 << 62 | 7 << 26, 0, 0, 0, 0]);
    life.forge_some(SOME_PLACES - quorum);
    for replica in 0..quorum as u64 {
        life.deliver(replica, 0..1);
    }
    let (name, result) = if kind == YES { ("yes", 7) } else { ("no", 8) };
    let call = (number::ANSWER, [16, 0, 0, 0, result]);
    repeated(format!("answer, {name}, full tape, f = {f}"), life, call, (kind, 0))
}

/// A random life of 10,000 calls.
fn whole_life(seed: u64, f: u64, kind: Kind, places: usize) -> Row {
    let calls = 10_000;
    let plan = Plan {
        kind,
        f,
        foreign: (1 << f) - 1,
        tape_length: places * PLACE,
        calls,
        stamped: 64,
        wrong: 15,
        fills: false,
        early: false,
        jump: 1,
    };
    let life = life_of(plan, Random::new(seed));
    let (last, statements) = (life.outcomes[calls - 1], life.used[calls - 1]);
    let name = format!("10,000 calls, {statements} statements, {kind:?}, f = {f}");
    row(name, life, 0, calls, (last.kind, last.ground))
}

pub fn rows(seed: u64) -> Vec<Row> {
    let mut rows = Vec::new();
    for f in [1, 5] {
        rows.extend([
            deliver_refused(f, Kind::Rating, 64),
            deliver_refused(f, Kind::Allotment, 64),
            deliver_refused(f, Kind::Rating, SOME_PLACES),
            deliver_refused(f, Kind::Allotment, SOME_PLACES),
            deliver_granted(f),
            certificate(f, YES),
            certificate(f, NO),
            whole_life(seed, f, Kind::Rating, SOME_PLACES),
            whole_life(seed, f, Kind::Allotment, SOME_PLACES),
            whole_life(seed, f, Kind::Rating, MANY_PLACES),
            whole_life(seed, f, Kind::Allotment, MANY_PLACES),
        ]);
    }
    rows
}
