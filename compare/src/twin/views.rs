//! The calls lead and start, from docs/PROTOCOL.md.

use super::bench::{Bench, Granted};
use super::picks::{base_line, check_layout};
use super::refuse_if;
use super::register::Register;
use super::service::Service;
use crate::abi::Record;

impl<R: Register, S: Service> Bench<R, S> {
    pub fn lead(
        &mut self,
        replica: u64,
        picks: &[Record],
        base_length: u64,
        base_word: u64,
    ) -> Granted {
        check_layout(picks)?;
        let signer = self.honest(replica)?;
        let base = base_line(base_length, base_word)?;
        let state = self.replica(signer);
        let target = state.target;
        refuse_if(state.at_work(), 9)?;
        refuse_if(signer != self.leader(target), 10)?;
        let merge = self.check_picks(target, picks, base)?;
        self.say(Record::view_start(target, merge.length, merge.word), signer)
    }

    pub fn start(
        &mut self,
        replica: u64,
        picks: &[Record],
        base_length: u64,
        base_word: u64,
    ) -> Granted {
        check_layout(picks)?;
        let signer = self.honest(replica)?;
        let base = base_line(base_length, base_word)?;
        let state = self.replica(signer);
        let target = state.target;
        refuse_if(state.at_work(), 9)?;
        refuse_if(state.mark, 12)?;
        let merge = self.check_picks(target, picks, base)?;
        let led = Record::view_start(target, merge.length, merge.word);
        refuse_if(!self.said(led, self.leader(target)), 16)?;
        self.say(Record::entry(target, merge.length, merge.word), signer)?;
        self.replica_mut(signer).mark = true;
        Ok(())
    }
}
