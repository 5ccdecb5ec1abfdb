//! The calls answer and no-op, from docs/PROTOCOL.md.

use super::bench::Bench;
use super::record::fits;
use super::register::Register;
use super::service::Service;
use super::{Refusal, refuse_if};
use crate::abi::Record;

impl<R: Register, S: Service> Bench<R, S> {
    pub fn answer(
        &self,
        buffer: &mut [u8],
        view: u64,
        slot: u64,
        word: u64,
        result: u64,
    ) -> Result<bool, Refusal> {
        refuse_if(buffer.len() < 16, 1)?;
        refuse_if(view > 63, 8)?;
        let slot = self.stamped(slot)?;
        refuse_if(!fits(word, slot.into()), 8)?;
        Ok(self.certify(buffer, Record::reply(view as u8, slot, word, result)))
    }

    pub fn no_op(&self, buffer: &mut [u8], view: u64, slot: u64) -> Result<bool, Refusal> {
        refuse_if(buffer.len() < 16, 1)?;
        refuse_if(view > 63, 8)?;
        let slot = self.stamped(slot)?;
        Ok(self.certify(buffer, Record::commit(view as u8, slot, true)))
    }

    /// Whether q replicas said a statement; if so, writes which.
    fn certify(&self, buffer: &mut [u8], statement: Record) -> bool {
        let mut witnesses = [0; 16];
        let signers = self.register.signers(statement, self.n).take(self.q);
        let found = witnesses.iter_mut().zip(signers).map(|(place, signer)| *place = signer);
        let certified = found.count() == self.q;
        if certified {
            buffer[..self.q].copy_from_slice(&witnesses[..self.q]);
        }
        certified
    }
}
