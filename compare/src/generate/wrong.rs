//! Calls that are wrong in one respect, and random calls.

use super::forging::{any_record, break_layout};
use super::{Making, number};
use crate::abi::Record;
use crate::twin::service::Service;

impl<S: Service> Making<'_, S> {
    /// Makes a call that differs from one that fits.
    pub(super) fn wrong(&mut self, number: u64, mut arguments: [u64; 5]) {
        let names_replica =
            !matches!(number, number::STAMP | number::FORGE | number::ANSWER | number::NO_OP);
        let (replica, twice) = (self.random.percent(40), self.random.percent(25));
        if names_replica && replica {
            arguments[0] = self.other_replica();
        }
        if !names_replica || !replica || twice {
            self.change(number, &mut arguments);
        }
        self.make(number, arguments);
    }

    fn other_replica(&mut self) -> u64 {
        let n = u64::from(self.bench.n);
        let foreign: Vec<u64> = (0..n).filter(|r| self.bench.foreign >> r & 1 == 1).collect();
        match self.random.below(4) {
            0 => self.random.of(&[n, n + 1, 16, 255, 256, 1 << 32, u64::MAX]),
            1 => self.random.pick(&foreign).copied().unwrap_or(n),
            _ => self.random.below(n),
        }
    }

    fn other_slot(&mut self) -> u64 {
        let stamped = u64::from(self.stamped());
        let near = self.random.below(stamped + 1);
        self.random.of(&[stamped, stamped + 1, 64, 256 + near, 1 << 32, u64::MAX, near, near, near])
    }

    /// Changes another argument than the replica.
    fn change(&mut self, number: u64, arguments: &mut [u64; 5]) {
        match number {
            number::DELIVER | number::REPLY => arguments[1] = self.other_slot(),
            number::DECIDE..=number::SETTLE if self.random.percent(50) => arguments[2] ^= 1,
            number::DECIDE..=number::SETTLE => arguments[1] = self.other_slot(),
            number::LEAVE => {
                let near = self.random.below(arguments[1] + 1);
                arguments[1] = self.random.of(&[64, 65, 255, 256, u64::MAX, near, near]);
            }
            number::FIND | number::DROP => arguments[0] = self.other_replica(),
            number::LEAD | number::START => self.change_merge(arguments),
            number::ENTER => self.change_entry(arguments),
            number::ANSWER | number::NO_OP => self.change_certificate(number, arguments),
            _ => {}
        }
    }

    fn change_entry(&mut self, arguments: &mut [u64; 5]) {
        let [_, length, word, view, _] = arguments;
        match self.random.below(6) {
            0 => *view = self.random.of(&[64, 65, 256 + *view, u64::MAX]),
            1 => *length = self.random.of(&[65, 66, 256 + *length, u64::MAX]),
            2 => *word |= u64::MAX.checked_shl(*length as u32).unwrap_or(0),
            3 => *view = self.random.below(*view + 1),
            4 => *length = length.saturating_sub(1),
            _ => *word ^= 1 << self.random.below(64),
        }
    }

    fn change_certificate(&mut self, number: u64, arguments: &mut [u64; 5]) {
        let [room, view, slot, word, result] = arguments;
        match self.random.below(7) {
            0 => *room = self.random.below(16),
            1 => *view = self.random.of(&[64, 256 + *view, u64::MAX]),
            2 => *view = self.random.below(64),
            3 => *slot = self.other_slot(),
            4 if number == number::ANSWER && *slot < 64 => {
                *word |= 1 << self.random.within(*slot, 63);
            }
            5 if number == number::ANSWER => *result = result.wrapping_add(1),
            _ => *word ^= 1 << self.random.below(64),
        }
    }

    /// Changes the base or the picks of lead or start.
    fn change_merge(&mut self, arguments: &mut [u64; 5]) {
        let [_, first, count, length, word] = arguments;
        match self.random.below(12) {
            0 => *length = self.random.of(&[65, 66, 256, u64::MAX]),
            1 => *word |= u64::MAX.checked_shl(*length as u32).unwrap_or(0),
            2 => *length = (*length + 1).min(64),
            3 => *word ^= 1 << self.random.below((*length).clamp(1, 64)),
            _ => {
                let range = *first as usize..(*first + *count) as usize;
                let mut picks = self.life.records[range].to_vec();
                self.change_picks(&mut picks);
                if self.random.percent(20) {
                    self.change_picks(&mut picks);
                }
                *first = self.life.records.len() as u64;
                *count = picks.len() as u64;
                self.life.records.extend(picks);
            }
        }
    }

    fn change_picks(&mut self, picks: &mut Vec<Record>) {
        if picks.is_empty() || self.random.percent(10) {
            self.change_count(picks);
            return;
        }
        let last = picks.len() - 1;
        let place = if self.random.percent(20) {
            last
        } else {
            self.random.below(last as u64 + 1) as usize
        };
        let earlier = self.random.below(place.max(1) as u64) as usize;
        let top = crate::twin::picks::top(picks);
        let other = self.random.below(picks.len() as u64) as usize;
        match self.random.below(13) {
            0..=2 => break_layout(&mut picks[place], &mut self.random),
            3 => picks.swap(place, other),
            4 => picks[place] = self.random.of(picks.as_slice()),
            5 => picks[place] = picks[place].by(picks[earlier].signer),
            6 => picks[place].view = self.random.within(picks[place].view.into(), 63) as u8,
            7 => {
                picks[place].last = top;
                let over = (self.bench.operations.len() as u64 + 1).min(64);
                picks[place].slot = self.random.within(over, 64) as u8;
            }
            8 => picks[place].slot = picks[place].slot.saturating_sub(1),
            9 => picks[place].last = self.random.below(picks[place].view.max(1).into()) as u8,
            10 => picks[place].signer = self.random.within(self.bench.n.min(15).into(), 15) as u8,
            _ => picks[place] = self.other_statement(picks[place]),
        }
    }

    /// Another statement in the register: one of the same signer and view if there is one, else
    /// any.
    fn other_statement(&mut self, pick: Record) -> Record {
        let held: Vec<Record> = self.bench.register.statements().collect();
        let like = |other: &&Record| {
            (other.signer, other.view) == (pick.signer, pick.view) && other.kind != pick.kind
        };
        let like = held.iter().find(like);
        like.or_else(|| self.random.pick(&held)).copied().unwrap_or(pick)
    }

    /// Takes a pick away, adds one, or takes all.
    fn change_count(&mut self, picks: &mut Vec<Record>) {
        match self.random.below(4) {
            0 => picks.clear(),
            1 => picks.extend(self.a_statement(crate::twin::record::VIEW_CHANGE)),
            2 => picks.push(any_record(&mut self.random)),
            _ => drop(picks.pop()),
        }
    }

    /// Makes a call with arguments that may fit.
    pub(super) fn random_call(&mut self) {
        let n = u64::from(self.bench.n);
        let replica = self.random.below(n);
        let state = self.bench.replicas[replica as usize];
        let length = u64::from(state.length);
        let slot = if self.random.percent(50) { length } else { self.other_slot() };
        let verdict = self.random.below(2);
        let number = self.random.within(number::DELIVER, number::NO_OP);
        match number {
            number::FORGE => {
                let record = any_record(&mut self.random);
                self.forge_wrong(record);
            }
            number::LEAVE => {
                let target = u64::from(state.target) + self.random.below(2);
                self.make(number, [replica, target, 0, 0, 0]);
            }
            number::LEAD | number::START => self.random_merge(number, replica),
            number::ENTER => self.random_enter(replica),
            number::ANSWER | number::NO_OP => self.ask(),
            _ => drop(self.make(number, [replica, slot, verdict, 0, 0])),
        }
    }

    fn random_enter(&mut self, replica: u64) {
        let found = self.a_statement(crate::twin::record::ENTRY).unwrap_or_default();
        let Record { view, slot, word, .. } = found;
        self.make(number::ENTER, [replica, slot.into(), word, view.into(), 0]);
    }

    /// Leads or starts with the picks of an earlier call, or with some of the last records.
    fn random_merge(&mut self, number: u64, replica: u64) {
        let calls = &self.life.calls;
        let earlier = calls.iter().rev().find(|call| matches!(call.number, 12 | 13));
        let held = self.life.records.len() as u64;
        let count = (self.bench.q as u64).min(held);
        let others = [replica, held - count, count, 0, 0];
        let mut arguments = earlier.map_or(others, |call| call.arguments);
        arguments[0] = replica;
        self.make(number, arguments);
    }
}
