//! What the replicas of a bench do together in a view.

use super::{Making, number};
use crate::abi::Record;
use crate::twin::record::{COMMIT, REPLY};
use crate::twin::service::Service;

impl<S: Service> Making<'_, S> {
    /// Some calls that belong together.
    pub(super) fn round(&mut self) {
        match self.random.below(100) {
            0..25 => self.deliver_round(),
            25..45 => self.gap_round(),
            45..55 => self.operation_round(),
            55..75 => self.view_round(),
            75..81 => self.reply_round(),
            81..87 => self.ask(),
            87..94 => self.random_call(),
            94..96 if self.plan.fills => self.fill(),
            96 => self.stamp_all(),
            _ => self.forge_many(2),
        }
    }

    /// Foreign replicas fill a tape that has not too much room.
    fn fill(&mut self) {
        let free = self.bench.register.free();
        if free <= 60 {
            self.forge_many(free);
        }
    }

    /// Stamps operations up to the last slot and one more, where the plan is for many.
    pub(super) fn stamp_all(&mut self) {
        while self.plan.stamped == 64 && self.stamp() {}
    }

    /// Whether there is an operation for a slot, stamping one if the plan is for so many.
    fn has_operation(&mut self, slot: u8) -> bool {
        if slot >= self.stamped() && slot < self.plan.stamped {
            self.stamp();
        }
        slot < self.stamped()
    }

    /// A replica delivers what is stamped, up to a slot.
    fn catch_up(&mut self, replica: u8, slot: u8) {
        let view = self.bench.replica(replica).view;
        for at in self.bench.replica(replica).length..slot.min(self.stamped()) {
            let call = [replica.into(), at.into(), 0, 0, 0];
            if !self.works_in(replica, view) || !self.act(number::DELIVER, call) {
                return;
            }
        }
    }

    fn deliver_round(&mut self) {
        if self.stamped() < self.plan.stamped && self.random.percent(70) {
            self.stamp();
        }
        for replica in self.some_replicas(85) {
            let length = self.bench.replica(replica).length;
            let far = if self.random.percent(60) { self.stamped() } else { length + 1 };
            if !self.bench.is_foreign(replica) {
                self.catch_up(replica, far);
            } else if let Some(said) = self.a_statement(REPLY) {
                self.speak(replica, (0, [0; 5]), said);
            }
        }
        self.ask();
    }

    fn gap_round(&mut self) {
        let Some(view) = self.a_view() else { return };
        let leader = self.bench.leader(view);
        let numbers = self.some_replicas(100);
        let member = numbers.into_iter().find(|&r| self.works_in(r, view)).unwrap_or(leader);
        let named = if self.works_in(leader, view) { leader } else { member };
        let slot = self.bench.replica(named).length;
        if !self.has_operation(slot) {
            return;
        }
        for replica in self.some_replicas(70) {
            if self.works_in(replica, view) {
                self.catch_up(replica, slot);
            }
        }
        let find = (number::FIND, [leader.into(), 0, 0, 0, 0]);
        self.speak(leader, find, Record::find(view, slot));
        for replica in self.some_replicas(95) {
            let call = (number::DROP, [replica.into(), 0, 0, 0, 0]);
            if self.bench.is_foreign(replica) || self.bench.replica(replica).length == slot {
                self.speak(replica, call, Record::drop(view, slot));
            }
            if self.random.percent(10) {
                self.make(number::DELIVER, [replica.into(), slot.into(), 0, 0, 0]);
            }
        }
        self.vote(view, slot, true);
    }

    /// A vote for an operation, or for a no-op at any open slot.
    fn operation_round(&mut self) {
        let Some(view) = self.a_view() else { return };
        let numbers = self.some_replicas(100);
        let Some(&member) = numbers.iter().find(|&&r| self.works_in(r, view)) else {
            return;
        };
        let state = self.bench.replica(member);
        let slot = self.random.within(state.base.into(), state.length.into()) as u8;
        if self.has_operation(slot) {
            let no_op = self.random.percent(15);
            self.vote(view, slot, no_op);
        }
    }

    /// Each of a number of replicas makes a call of a vote; it may be broken off after that.
    fn vote_by_all(&mut self, call: u64, slot: u8, statement: Record) -> bool {
        for replica in self.some_replicas(92) {
            let works = self.works_in(replica, statement.view);
            if works || self.bench.is_foreign(replica) || self.random.percent(10) {
                let arguments = [replica.into(), slot.into(), statement.verdict.into(), 0, 0];
                self.speak(replica, (call, arguments), statement);
            }
        }
        self.random.percent(90)
    }

    fn vote(&mut self, view: u8, slot: u8, no_op: bool) {
        let leader = self.bench.leader(view);
        let decide = [leader.into(), slot.into(), no_op.into(), 0, 0];
        self.speak(leader, (number::DECIDE, decide), Record::decision(view, slot, no_op));
        let commit = Record::commit(view, slot, no_op);
        let goes_on = self.vote_by_all(number::PREPARE, slot, Record::prepare(view, slot, no_op))
            && self.vote_by_all(number::COMMIT, slot, commit);
        if !goes_on {
            return;
        }
        for replica in self.some_replicas(92) {
            if self.works_in(replica, view) {
                let call = [replica.into(), slot.into(), no_op.into(), 0, 0];
                self.act(number::SETTLE, call);
            }
        }
        self.act(number::NO_OP, [16, view.into(), slot.into(), 0, 0]);
    }

    fn reply_round(&mut self) {
        let stamped = u64::from(self.stamped());
        let slot = self.random.below(stamped.max(1));
        for replica in self.some_replicas(80) {
            let said = self.bench.replica(replica);
            let word = said.word & ((1 << slot) - 1);
            let reply = Record::reply(said.view, slot as u8, word, self.random.below(3));
            self.speak(replica, (number::REPLY, [replica.into(), slot, 0, 0, 0]), reply);
        }
        self.ask();
    }

    /// Asks for certificates of what was said.
    pub(super) fn ask(&mut self) {
        let room = self.random.of(&[16, 16, 17, 64, u64::MAX]);
        if let Some(reply) = self.a_statement(REPLY) {
            let Record { view, slot, word, result, .. } = reply;
            self.act(number::ANSWER, [room, view.into(), slot.into(), word, result]);
        }
        if self.random.percent(40)
            && let Some(Record { view, slot, .. }) = self.a_statement(COMMIT)
        {
            self.act(number::NO_OP, [room, view.into(), slot.into(), 0, 0]);
        }
    }
}
