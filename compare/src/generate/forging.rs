//! Operations, and what foreign replicas say.

use super::{Making, number};
use crate::abi::{Kind, Record};
use crate::random::Random;
use crate::twin::record::{self, ENTRY, REPLY, VIEW_CHANGE, VIEW_START};
use crate::twin::service::Service;

/// A random operation, which the service may find malformed.
pub fn operation(kind: Kind, random: &mut Random) -> u64 {
    if random.percent(5) {
        return random.any();
    }
    let wide = random.percent(30);
    let filling = if random.percent(5) { 1 << random.below(26) } else { 0 };
    match kind {
        Kind::Rating => rating(wide, filling, random),
        Kind::Allotment => {
            let account = random.below(if wide { 16 } else { 2 });
            let amount = random.below(if wide { 1 << 32 } else { 100 });
            random.within(1, 2) << 62 | account << 58 | amount << 26 | filling
        }
    }
}

fn rating(wide: bool, filling: u64, random: &mut Random) -> u64 {
    let stages = if wide { 1 << 14 } else { 12 };
    if random.percent(50) {
        return 2 << 62 | random.below(stages) << 48 | filling;
    }
    let (one, other) = (random.below(stages), random.below(stages));
    let ordered = random.percent(90);
    let low = if ordered { one.min(other) } else { one };
    let high = if ordered { one.max(other) } else { other };
    let curve = random.below(if wide { 8 } else { 3 });
    1 << 62 | curve << 59 | low << 45 | high << 31 | (random.any() >> 44) << 11 | random.any() >> 53
}

/// Sets one field of a record so that it breaks the layout, as a rule.
pub fn break_layout(record: &mut Record, random: &mut Random) {
    match random.below(10) {
        0 => record.kind = random.of(&[0, 10, 15, 16, 17, 255]),
        1 => record.signer = random.of(&[16, 17, 32, 255]),
        2 => record.view = random.of(&[0, 64, 65, 128, 255]),
        3 => record.last = random.of(&[1, 63, 64, 255, record.view, record.view.wrapping_add(1)]),
        4 => record.slot = random.of(&[64, 65, 127, 128, 255]),
        5 => record.verdict = random.of(&[1, 2, 3, 255]),
        6 => record.word |= 1 << record.slot.min(63),
        7 => record.word |= 1 << random.below(64),
        8 => record.result = random.odd(),
        _ => *record = any_record(random),
    }
}

/// Any record at all.
pub fn any_record(random: &mut Random) -> Record {
    Record {
        kind: random.below(12) as u8,
        signer: random.below(17) as u8,
        view: random.of(&[0, 1, 2, 63, 64, 255]),
        last: random.of(&[0, 0, 0, 1, 63]),
        slot: random.of(&[0, 1, 2, 63, 64, 65]),
        verdict: random.of(&[0, 0, 1, 2]),
        word: random.odd(),
        result: random.odd(),
    }
}

/// A bit below a slot or length, if there is one.
fn bit_below(slot: u8, random: &mut Random) -> u64 {
    if slot == 0 { 0 } else { 1 << random.below(slot.into()) }
}

impl<S: Service> Making<'_, S> {
    pub(super) fn stamp(&mut self) -> bool {
        let operation = operation(self.plan.kind, &mut self.random);
        self.make(number::STAMP, [operation, 0, 0, 0, 0])
    }

    /// What a foreign replica says in the place of a statement: this one, or another that keeps
    /// the layout.
    fn lie(&mut self, mut record: Record) -> Record {
        let random = &mut self.random;
        match record.kind {
            REPLY if random.percent(50) => record.word ^= bit_below(record.slot, random),
            REPLY => record.result = record.result.wrapping_add(1 + random.odd()),
            VIEW_CHANGE | VIEW_START | ENTRY => match random.below(4) {
                0 => record.slot = random.within(record.slot.into(), 64) as u8,
                1 => record.word ^= bit_below(record.slot, random),
                2 if record.kind == VIEW_CHANGE => {
                    record.last = random.below(record.view.into()) as u8;
                }
                _ => {
                    record.slot = random.below(u64::from(record.slot) + 1) as u8;
                    record.word &= !(u64::MAX.checked_shl(record.slot.into()).unwrap_or(0));
                }
            },
            record::DECISION..=record::COMMIT => record.verdict ^= 1,
            _ => record.slot = random.below(64) as u8,
        }
        if random.percent(10) {
            record.view = random.within(record.view.into(), 63) as u8;
        }
        record
    }

    /// A replica says a statement: a foreign one forges it or another, an honest one makes the
    /// call.
    pub(super) fn speak(&mut self, replica: u8, call: (u64, [u64; 5]), statement: Record) {
        if !self.bench.is_foreign(replica) {
            self.act(call.0, call.1);
            return;
        }
        let statement = statement.by(replica);
        let (lies, breaks) = (self.random.percent(40), self.random.percent(self.plan.wrong / 2));
        if lies {
            let lie = self.lie(statement);
            self.forge(lie);
        }
        if breaks {
            self.forge_wrong(statement);
        }
        if !lies || self.random.percent(30) {
            self.forge(statement);
        }
    }

    /// Forges a statement in a way that is refused, as a rule.
    pub(super) fn forge_wrong(&mut self, mut record: Record) {
        match self.random.below(4) {
            0 => record.signer = self.random.within(self.bench.n.into(), 16) as u8,
            1 => record.signer = self.random.below(self.bench.n.into()) as u8,
            _ => break_layout(&mut record, &mut self.random),
        }
        self.forge(record);
    }

    /// Foreign replicas say what they like, up to this many times.
    pub(super) fn forge_many(&mut self, times: usize) {
        let numbers = self.some_replicas(100);
        let Some(&signer) = numbers.iter().find(|&&r| self.bench.is_foreign(r)) else {
            return;
        };
        let held: Vec<Record> = self.bench.register.statements().collect();
        for _ in 0..times {
            let result = self.random.any();
            let slot = self.random.below(64) as u8;
            let invented = Record::reply(self.random.below(64) as u8, slot, 0, result);
            let record = match self.random.pick(&held) {
                Some(record) if self.random.percent(30) => *record,
                _ => invented,
            };
            let record = self.lie(record.by(signer));
            self.forge(record);
        }
    }
}
