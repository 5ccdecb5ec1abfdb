//! Changes of view.

use super::{Making, number};
use crate::abi::Record;
use crate::twin::picks::{Line, merge, top};
use crate::twin::record::{ENTRY, VIEW_CHANGE};
use crate::twin::service::Service;

/// Picks and a base for a merge.
struct Merging {
    picks: Vec<Record>,
    base: Line,
}

impl<S: Service> Making<'_, S> {
    pub(super) fn view_round(&mut self) {
        let greatest = self.bench.replicas.iter().map(|r| r.target).max().unwrap_or(0);
        let far = if self.random.percent(15) { self.random.within(1, self.plan.jump) } else { 1 };
        let target = greatest + far as u8;
        if target > 63 {
            return;
        }
        self.leave_for(target);
        let Some(merging) = self.choose(target) else {
            return;
        };
        if self.random.percent(10) {
            self.start_all(target, &merging);
        }
        let leader = self.bench.leader(target);
        let line = merge(&merging.picks, merging.base);
        let call = (number::LEAD, self.hand_over(leader, &merging));
        self.speak(leader, call, Record::view_start(target, line.length, line.word));
        if self.random.percent(5) {
            return;
        }
        self.start_all(target, &merging);
        self.enter_all(target, line);
    }

    fn enter_all(&mut self, target: u8, line: Line) {
        for replica in self.some_replicas(93) {
            let arguments = [replica.into(), line.length.into(), line.word, target.into(), 0];
            if !self.bench.is_foreign(replica) {
                self.act(number::ENTER, arguments);
            }
        }
    }

    /// Replicas leave for a target, and do this and that while they are leaving.
    fn leave_for(&mut self, target: u8) {
        for replica in self.some_replicas(94) {
            let state = *self.bench.replica(replica);
            let like = self.a_statement(VIEW_CHANGE).filter(|held| held.view == target);
            let told = like.unwrap_or_else(|| {
                Record::view_change(target, state.view, state.reach(), state.sealed)
            });
            let call = (number::LEAVE, [replica.into(), target.into(), 0, 0, 0]);
            self.speak(replica, call, told);
            if self.random.percent(25) {
                self.work_while_leaving(replica);
            }
        }
    }

    fn work_while_leaving(&mut self, replica: u8) {
        let call = self.random.within(number::DELIVER, number::REPLY);
        let length = self.bench.replica(replica).length;
        let slot = if call == number::REPLY { length.saturating_sub(1) } else { length };
        let verdict = self.random.below(2);
        self.make(call, [replica.into(), slot.into(), verdict, 0, 0]);
    }

    fn start_all(&mut self, target: u8, merging: &Merging) {
        for replica in self.some_replicas(93) {
            let other = if self.random.percent(25) { self.choose(target) } else { None };
            let merging = other.as_ref().unwrap_or(merging);
            let line = merge(&merging.picks, merging.base);
            let call = (number::START, self.hand_over(replica, merging));
            self.speak(replica, call, Record::entry(target, line.length, line.word));
        }
    }

    /// Puts picks among the records; the arguments for lead or start.
    fn hand_over(&mut self, replica: u8, merging: &Merging) -> [u64; 5] {
        let first = self.life.records.len() as u64;
        self.life.records.extend(&merging.picks);
        let Line { length, word } = merging.base;
        [replica.into(), first, merging.picks.len() as u64, length.into(), word]
    }

    /// Picks of q signers for a target, if there are so many, that are good ones if the first few
    /// tries come upon such.
    fn choose(&mut self, target: u8) -> Option<Merging> {
        let statements = self.bench.register.statements();
        let mut told: Vec<Record> =
            statements.filter(|held| held.kind == VIEW_CHANGE && held.view == target).collect();
        let mut picks = Vec::new();
        for _ in 0..4 {
            self.random.shuffle(&mut told);
            picks = told.clone();
            picks.sort_by_key(|pick| pick.signer);
            picks.dedup_by_key(|pick| pick.signer);
            self.random.shuffle(&mut picks);
            picks.truncate(self.bench.q);
            let top = top(&picks);
            let fits = |pick: &Record| {
                (pick.last < top || pick.slot <= self.stamped()) && self.bench.is_backed(top, pick)
            };
            if picks.iter().all(fits) {
                break;
            }
        }
        let base = self.base_of(top(&picks));
        (picks.len() == self.bench.q).then_some(Merging { picks, base })
    }

    /// The line from which a view starts.
    fn base_of(&self, view: u8) -> Line {
        let mut statements = self.bench.register.statements();
        let entry = statements
            .find(|held| held.kind == ENTRY && held.view == view && self.bench.agreed(*held));
        entry.map_or(Line { length: 0, word: 0 }, |Record { slot: length, word, .. }| Line {
            length,
            word,
        })
    }
}
