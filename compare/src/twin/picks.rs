//! Checking picks and merging them, from docs/PROTOCOL.md, "Checking the picks".

use super::bench::{Bench, Granted};
use super::record::{VIEW_CHANGE, fits};
use super::register::Register;
use super::service::Service;
use super::{Refusal, refuse_if, refused, refused_at};
use crate::abi::Record;

/// A length and a word.
#[derive(Clone, Copy, PartialEq, Eq, Debug)]
pub struct Line {
    pub length: u8,
    pub word: u64,
}

/// The greatest last of picks, 0 if there are none.
pub fn top(picks: &[Record]) -> u8 {
    picks.iter().map(|pick| pick.last).max().unwrap_or(0)
}

/// The line that picks merge to over a base.
pub fn merge(picks: &[Record], base: Line) -> Line {
    let top = top(picks);
    let told = picks.iter().filter(|pick| pick.last == top);
    told.fold(base, |line, pick| Line {
        length: line.length.max(pick.slot),
        word: line.word | pick.word,
    })
}

/// Ground 2 of lead and start.
pub fn check_layout(picks: &[Record]) -> Granted {
    match picks.iter().position(|pick| !pick.keeps_layout()) {
        Some(place) => refused_at(2, place),
        None => Ok(()),
    }
}

/// Ground 8 of lead and start.
pub fn base_line(length: u64, word: u64) -> Result<Line, Refusal> {
    refuse_if(length > 64 || !fits(word, length), 8)?;
    Ok(Line { length: length as u8, word })
}

impl<R: Register, S: Service> Bench<R, S> {
    /// Grounds 13, 14 and 15 of picks for a target; the merge.
    pub(super) fn check_picks(
        &self,
        target: u8,
        picks: &[Record],
        base: Line,
    ) -> Result<Line, Refusal> {
        if picks.len() != self.q {
            return refused(13);
        }
        let top = top(picks);
        let misfit = |place: usize| self.is_misfit(target, top, picks, place);
        if let Some(place) = (0..picks.len()).find(|&place| misfit(place)) {
            return refused_at(13, place);
        }
        if !self.is_certified_base(top, base) {
            return refused(14);
        }
        match picks.iter().position(|pick| !self.is_backed(top, pick)) {
            Some(place) => refused_at(15, place),
            None => Ok(merge(picks, base)),
        }
    }

    /// Whether the pick at a place meets ground 13.
    fn is_misfit(&self, target: u8, top: u8, picks: &[Record], place: usize) -> bool {
        let pick = &picks[place];
        pick.kind != VIEW_CHANGE
            || pick.signer >= self.n
            || picks[..place].iter().any(|earlier| earlier.signer == pick.signer)
            || pick.view != target
            || (pick.last == top && usize::from(pick.slot) > self.operations.len())
    }

    fn is_certified_base(&self, top: u8, base: Line) -> bool {
        match top {
            0 => base == Line { length: 0, word: 0 },
            _ => self.agreed(Record::entry(top, base.length, base.word)),
        }
    }

    /// Whether a pick is in the register, and what it tells of the top is prepared.
    pub fn is_backed(&self, top: u8, pick: &Record) -> bool {
        self.register.ask(pick)
            && (pick.last != top
                || (0..64)
                    .filter(|slot| pick.word >> slot & 1 == 1)
                    .all(|slot| self.agreed(Record::prepare(top, slot, true))))
    }
}
