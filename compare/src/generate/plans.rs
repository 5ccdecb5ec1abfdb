//! What a life is to be like, and lives that are handed over wrongly.

use super::number;
use crate::abi::Kind;
use crate::lives::Life;
use crate::random::Random;
use crate::twin::record::PLACE;

/// What a life is to be like.
#[derive(Clone, Copy, Debug)]
pub struct Plan {
    pub kind: Kind,
    pub f: u64,
    pub foreign: u64,
    pub tape_length: usize,
    pub calls: usize,
    /// Up to how many operations are stamped as a rule.
    pub stamped: u8,
    /// Of a hundred calls, about how many have a wrong one before them.
    pub wrong: u64,
    /// Whether foreign replicas may fill the tape.
    pub fills: bool,
    /// Whether all operations are stamped at first.
    pub early: bool,
    /// Up to how far a change of view goes.
    pub jump: u64,
}

/// How long a life is.
#[derive(Clone, Copy, PartialEq, Eq)]
pub enum Size {
    Any,
    Calls(usize),
}

/// A mask with this many bits below n.
fn mask(random: &mut Random, n: u64, bits: u64) -> u64 {
    let mut numbers: Vec<u64> = (0..n).collect();
    random.shuffle(&mut numbers);
    numbers.iter().take(bits as usize).map(|number| 1 << number).sum()
}

fn tape_length(random: &mut Random, calls: u64) -> usize {
    let places = match random.below(10) {
        0 => 0,
        1 => random.below(20),
        2..=6 => random.below(calls + 1),
        _ => calls,
    };
    places as usize * PLACE + random.below(PLACE as u64) as usize * random.below(2) as usize
}

/// A random plan with a granted open.
pub fn plan(random: &mut Random, size: Size) -> Plan {
    let f = random.of(&[1, 1, 2, 2, 3, 4, 5, 5]);
    let n = 3 * f + 1;
    let bits = random.within(0, f).max(random.within(0, f));
    let early = size == Size::Any && random.percent(8);
    let calls = match size {
        Size::Calls(calls) => calls as u64,
        Size::Any if early => random.within(100, 200 * n),
        Size::Any if random.percent(20) => random.below(20),
        Size::Any => random.within(20, 60 * n),
    };
    Plan {
        kind: random.of(&[Kind::Rating, Kind::Allotment]),
        f,
        foreign: mask(random, n, bits),
        tape_length: tape_length(random, calls),
        calls: calls as usize,
        stamped: if early { 64 } else { random.of(&[1, 2, 3, 4, 6, 8, 12, 64]) },
        wrong: random.of(&[0, 5, 15, 30]),
        fills: random.percent(30),
        early,
        jump: random.of(&[2, 7, 7, 40]),
    }
}

/// Hands a life over wrongly in one respect, or in two.
pub fn mishand(life: &mut Life, random: &mut Random) {
    mishand_once(life, random);
    if random.percent(40) {
        mishand_once(life, random);
    }
}

fn mishand_once(life: &mut Life, random: &mut Random) {
    match random.below(8) {
        0 => life.f = random.of(&[0, 6, 7, 16, 255, 256 + life.f, 1 << 32, u64::MAX]),
        1 => life.f = random.odd(),
        2 => {
            let n = (3 * life.f.min(20) + 1).min(63);
            let others = if random.percent(50) { life.foreign } else { 0 };
            life.foreign = others | 1 << random.of(&[n, n + (63 - n) / 2, 63]);
        }
        3 => life.foreign = mask(random, 3 * life.f.min(5) + 1, life.f.min(5) + 1),
        4 => life.room = random.of(&[0, 1, life.room + 1, life.room + 20, life.room / 2]),
        _ => make_unreadable(life, random),
    }
}

/// Makes a call into one that cannot be read.
fn make_unreadable(life: &mut Life, random: &mut Random) {
    let place = random.below(life.calls.len().max(1) as u64) as usize;
    let held = life.records.len() as u64;
    let Some(call) = life.calls.get_mut(place) else {
        return;
    };
    let [_, b, c, d, e] = call.arguments;
    let replica = random.below(4);
    match random.below(4) {
        0 => call.number = random.of(&[0, 17, 18, 256 + call.number, 1 << 40, u64::MAX]),
        1 => {
            call.number = random.within(number::DECIDE, number::SETTLE);
            call.arguments[2] = random.of(&[2, 3, 256, 257, 1 << 32, u64::MAX]);
        }
        2 => {
            call.number = number::FORGE;
            call.arguments[0] = random.of(&[held, held + 1, 1 << 32, 1 << 63, u64::MAX]);
        }
        _ => {
            call.number = random.within(number::LEAD, number::START);
            let (first, count) = random.of(&[
                (held, 1),
                (0, held + 1),
                (held + 1, 1),
                (1, u64::MAX),
                (u64::MAX, 1),
                (u64::MAX, 2),
                (1 << 63, 1 << 63),
                (held / 2, held + 1),
                (held + 1, 0),
                (u64::MAX, 0),
                (held, 0),
                (b, c),
            ]);
            call.arguments = [replica, first, count, d, e];
        }
    }
}
