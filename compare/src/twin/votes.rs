//! The calls decide, prepare, commit and settle, from docs/PROTOCOL.md.

use super::bench::{Bench, Granted, Replica};
use super::register::Register;
use super::service::Service;
use super::{Refusal, refuse_if};
use crate::abi::Record;

/// Ground 11 where a slot is not open.
fn open(state: &Replica, slot: u8) -> Granted {
    refuse_if(slot < state.base || slot > state.length, 11)
}

impl<R: Register, S: Service> Bench<R, S> {
    /// Grounds 6 to 9 of the four calls.
    fn voter(&self, replica: u64, slot: u64) -> Result<(u8, Replica, u8), Refusal> {
        let signer = self.honest(replica)?;
        let slot = self.stamped(slot)?;
        let state = *self.replica(signer);
        refuse_if(!state.at_work(), 9)?;
        Ok((signer, state, slot))
    }

    pub fn decide(&mut self, replica: u64, slot: u64, no_op: bool) -> Granted {
        let (signer, state, slot) = self.voter(replica, slot)?;
        let view = state.view;
        refuse_if(signer != self.leader(view), 10)?;
        open(&state, slot)?;
        refuse_if(self.said(Record::decision(view, slot, !no_op), signer), 12)?;
        refuse_if(no_op && !self.agreed(Record::drop(view, slot)), 15)?;
        self.say(Record::decision(view, slot, no_op), signer)
    }

    pub fn prepare(&mut self, replica: u64, slot: u64, no_op: bool) -> Granted {
        let (signer, state, slot) = self.voter(replica, slot)?;
        let view = state.view;
        open(&state, slot)?;
        refuse_if(self.said(Record::prepare(view, slot, !no_op), signer), 12)?;
        refuse_if(!self.said(Record::decision(view, slot, no_op), self.leader(view)), 15)?;
        refuse_if(no_op && !self.agreed(Record::drop(view, slot)), 15)?;
        self.say(Record::prepare(view, slot, no_op), signer)
    }

    pub fn commit(&mut self, replica: u64, slot: u64, no_op: bool) -> Granted {
        let (signer, state, slot) = self.voter(replica, slot)?;
        let view = state.view;
        open(&state, slot)?;
        refuse_if(!self.agreed(Record::prepare(view, slot, no_op)), 15)?;
        self.say(Record::commit(view, slot, no_op), signer)?;
        self.replica_mut(signer).sealed |= u64::from(no_op) << slot;
        Ok(())
    }

    pub fn settle(&mut self, replica: u64, slot: u64, no_op: bool) -> Granted {
        let (signer, state, slot) = self.voter(replica, slot)?;
        open(&state, slot)?;
        refuse_if(!self.agreed(Record::commit(state.view, slot, no_op)), 15)?;
        let bit = 1 << slot;
        let state = self.replica_mut(signer);
        state.length = state.length.max(slot + 1);
        if no_op {
            state.word |= bit;
            state.sealed |= bit;
        } else {
            state.word &= !bit;
        }
        Ok(())
    }
}
