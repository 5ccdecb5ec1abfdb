//! A bench: its opening, what grounds share, and the calls stamp, deliver, find, drop, reply,
//! leave and forge, from docs/PROTOCOL.md.

use super::record::fits;
use super::register::Register;
use super::service::Service;
use super::{Refusal, refuse_if, refused};
use crate::abi::{REPLICAS, Record, SLOTS};

pub type Granted = Result<(), Refusal>;

#[derive(Clone, Copy, Default, PartialEq, Eq, Debug)]
pub struct Replica {
    pub view: u8,
    pub target: u8,
    pub base: u8,
    pub length: u8,
    pub mark: bool,
    pub word: u64,
    pub sealed: u64,
}

impl Replica {
    pub fn at_work(&self) -> bool {
        self.target == self.view
    }

    /// The greater of the length and one past the highest sealed bit.
    pub fn reach(&self) -> u8 {
        let sealed = 64 - self.sealed.leading_zeros() as u8;
        self.length.max(sealed)
    }

    pub fn has_no_op(&self, slot: u8) -> bool {
        self.word >> slot & 1 == 1
    }
}

pub struct Bench<R, S> {
    pub n: u8,
    pub q: usize,
    pub foreign: u64,
    pub register: R,
    service: S,
    pub operations: Vec<u64>,
    pub replicas: [Replica; REPLICAS],
}

/// The grounds of open, but for that of the register.
pub fn check_setup(f: u64, foreign: u64) -> Granted {
    refuse_if(!(1..=5).contains(&f), 3)?;
    refuse_if(foreign >> (3 * f + 1) != 0 || u64::from(foreign.count_ones()) > f, 4)
}

impl<R: Register, S: Service> Bench<R, S> {
    pub fn open(f: u64, foreign: u64, register: R, service: S) -> Result<Self, Refusal> {
        check_setup(f, foreign)?;
        refuse_if(!register.is_empty(), 5)?;
        Ok(Bench {
            n: (3 * f + 1) as u8,
            q: (2 * f + 1) as usize,
            foreign,
            register,
            service,
            operations: Vec::with_capacity(SLOTS),
            replicas: [Replica::default(); REPLICAS],
        })
    }

    pub fn is_foreign(&self, replica: u8) -> bool {
        self.foreign >> replica & 1 == 1
    }

    pub fn leader(&self, view: u8) -> u8 {
        view % self.n
    }

    pub fn replica(&self, number: u8) -> &Replica {
        &self.replicas[usize::from(number)]
    }

    pub(super) fn replica_mut(&mut self, number: u8) -> &mut Replica {
        &mut self.replicas[usize::from(number)]
    }

    /// Grounds 6 and 7 of a call that names a replica.
    pub(super) fn honest(&self, replica: u64) -> Result<u8, Refusal> {
        refuse_if(replica >= self.n.into(), 6)?;
        refuse_if(self.foreign >> replica & 1 == 1, 7)?;
        Ok(replica as u8)
    }

    /// Ground 8 where a slot is not stamped.
    pub(super) fn stamped(&self, slot: u64) -> Result<u8, Refusal> {
        refuse_if(slot >= self.operations.len() as u64, 8)?;
        Ok(slot as u8)
    }

    pub(super) fn said(&self, statement: Record, signer: u8) -> bool {
        self.register.ask(&statement.by(signer))
    }

    /// Whether q replicas said a statement.
    pub fn agreed(&self, statement: Record) -> bool {
        self.register.reached(statement, self.n, self.q)
    }

    pub(super) fn say(&mut self, statement: Record, signer: u8) -> Granted {
        self.register.enter(&statement.by(signer))
    }

    pub fn stamp(&mut self, operation: u64) -> Granted {
        refuse_if(self.operations.len() == SLOTS, 17)?;
        self.operations.push(operation);
        Ok(())
    }

    /// The answer of a replica with this line for a stamped slot.
    fn answer_of(&mut self, word: u64, slot: u8) -> u64 {
        self.service.clear();
        for (below, &operation) in self.operations[..usize::from(slot)].iter().enumerate() {
            if word >> below & 1 == 0 {
                self.service.apply(operation);
            }
        }
        self.service.apply(self.operations[usize::from(slot)])
    }

    pub fn deliver(&mut self, replica: u64, slot: u64) -> Granted {
        let signer = self.honest(replica)?;
        let slot = self.stamped(slot)?;
        let Replica { view, length, word, .. } = *self.replica(signer);
        refuse_if(!self.replica(signer).at_work(), 9)?;
        refuse_if(slot != length, 11)?;
        refuse_if(self.said(Record::drop(view, slot), signer), 12)?;
        let answer = self.answer_of(word, slot);
        self.say(Record::reply(view, slot, word, answer), signer)?;
        self.replica_mut(signer).length += 1;
        Ok(())
    }

    /// Grounds 6 to 9 of find and drop.
    fn gap(&self, replica: u64) -> Result<(u8, Replica), Refusal> {
        let signer = self.honest(replica)?;
        let state = *self.replica(signer);
        self.stamped(state.length.into())?;
        refuse_if(!state.at_work(), 9)?;
        Ok((signer, state))
    }

    pub fn find(&mut self, replica: u64) -> Granted {
        let (signer, Replica { view, length, .. }) = self.gap(replica)?;
        refuse_if(signer != self.leader(view), 10)?;
        self.say(Record::find(view, length), signer)
    }

    pub fn drop(&mut self, replica: u64) -> Granted {
        let (signer, Replica { view, length, .. }) = self.gap(replica)?;
        refuse_if(!self.said(Record::find(view, length), self.leader(view)), 15)?;
        self.say(Record::drop(view, length), signer)
    }

    pub fn reply(&mut self, replica: u64, slot: u64) -> Granted {
        let signer = self.honest(replica)?;
        let slot = self.stamped(slot)?;
        let state = *self.replica(signer);
        refuse_if(!state.at_work(), 9)?;
        refuse_if(slot >= state.length || state.has_no_op(slot), 11)?;
        let below = state.word & ((1 << slot) - 1);
        let answer = self.answer_of(below, slot);
        self.say(Record::reply(state.view, slot, below, answer), signer)
    }

    pub fn leave(&mut self, replica: u64, target: u64) -> Granted {
        let signer = self.honest(replica)?;
        refuse_if(target > 63, 8)?;
        let target = target as u8;
        let state = *self.replica(signer);
        refuse_if(target <= state.target, 11)?;
        let told = Record::view_change(target, state.view, state.reach(), state.sealed);
        self.say(told, signer)?;
        let state = self.replica_mut(signer);
        state.target = target;
        state.mark = false;
        Ok(())
    }

    pub fn forge(&mut self, record: &Record) -> Granted {
        refuse_if(!record.keeps_layout(), 2)?;
        refuse_if(record.signer >= self.n, 6)?;
        refuse_if(!self.is_foreign(record.signer), 7)?;
        self.register.enter(record)
    }

    pub fn enter(&mut self, replica: u64, length: u64, word: u64, view: u64) -> Granted {
        let signer = self.honest(replica)?;
        refuse_if(view > 63 || length > 64 || !fits(word, length), 8)?;
        let (view, length) = (view as u8, length as u8);
        let state = self.replica(signer);
        refuse_if(view <= state.view || view < state.target, 11)?;
        if !self.agreed(Record::entry(view, length, word)) {
            return refused(15);
        }
        *self.replica_mut(signer) =
            Replica { view, target: view, base: length, length, mark: false, word, sealed: 0 };
        Ok(())
    }
}
