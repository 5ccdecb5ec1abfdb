//! Records, their layout, and packing, from docs/RECORDS.md.

use crate::abi::Record;

pub const REPLY: u8 = 1;
pub const FIND: u8 = 2;
pub const DROP: u8 = 3;
pub const DECISION: u8 = 4;
pub const PREPARE: u8 = 5;
pub const COMMIT: u8 = 6;
pub const VIEW_CHANGE: u8 = 7;
pub const VIEW_START: u8 = 8;
pub const ENTRY: u8 = 9;

/// The bytes that a packed record takes.
pub const PLACE: usize = 20;

/// Whether a word has no bit at or above a slot or length.
pub fn fits(word: u64, length: u64) -> bool {
    length >= 64 || word >> length == 0
}

impl Record {
    pub fn keeps_layout(&self) -> bool {
        let sizes = self.signer < 16 && self.view < 64 && fits(self.word, self.slot.into());
        sizes
            && match self.kind {
                REPLY => self.slot < 64 && self.last == 0 && self.verdict == 0,
                FIND | DROP => self.slot < 64 && self.bare() && self.last == 0 && self.verdict == 0,
                DECISION | PREPARE | COMMIT => {
                    self.slot < 64 && self.bare() && self.last == 0 && self.verdict < 2
                }
                VIEW_CHANGE => {
                    self.slot <= 64
                        && self.last < self.view
                        && self.verdict == 0
                        && self.result == 0
                }
                VIEW_START | ENTRY => {
                    self.slot <= 64
                        && self.view > 0
                        && self.last == 0
                        && self.verdict == 0
                        && self.result == 0
                }
                _ => false,
            }
    }

    /// Whether word and result are 0.
    fn bare(&self) -> bool {
        self.word == 0 && self.result == 0
    }

    /// The 20 bytes, or nothing where the record breaks the layout.
    pub fn pack(&self) -> Option<[u8; PLACE]> {
        if !self.keeps_layout() {
            return None;
        }
        let head = u32::from(self.kind) << 28
            | u32::from(self.signer) << 24
            | u32::from(self.view) << 18
            | u32::from(self.last) << 12
            | u32::from(self.slot) << 5
            | u32::from(self.verdict) << 4;
        let mut bytes = [0; PLACE];
        bytes[..4].copy_from_slice(&head.to_be_bytes());
        bytes[4..12].copy_from_slice(&self.word.to_be_bytes());
        bytes[12..].copy_from_slice(&self.result.to_be_bytes());
        Some(bytes)
    }

    /// The record that packs to 20 bytes, or nothing where none does.
    pub fn unpack(bytes: &[u8]) -> Option<Record> {
        let head = u32::from_be_bytes(bytes.get(..4)?.try_into().ok()?);
        let field = |lowest: u32, bits: u32| (head >> lowest & ((1 << bits) - 1)) as u8;
        let record = Record {
            kind: field(28, 4),
            signer: field(24, 4),
            view: field(18, 6),
            last: field(12, 6),
            slot: field(5, 7),
            verdict: field(4, 1),
            word: u64::from_be_bytes(bytes.get(4..12)?.try_into().ok()?),
            result: u64::from_be_bytes(bytes.get(12..)?.try_into().ok()?),
        };
        (head & 15 == 0 && record.keeps_layout()).then_some(record)
    }

    /// The same statement under another signer.
    pub fn by(self, signer: u8) -> Record {
        Record { signer, ..self }
    }

    pub fn reply(view: u8, slot: u8, word: u64, result: u64) -> Record {
        Record { kind: REPLY, view, slot, word, result, ..Record::default() }
    }

    pub fn find(view: u8, slot: u8) -> Record {
        Record { kind: FIND, view, slot, ..Record::default() }
    }

    pub fn drop(view: u8, slot: u8) -> Record {
        Record { kind: DROP, view, slot, ..Record::default() }
    }

    pub fn decision(view: u8, slot: u8, no_op: bool) -> Record {
        Record { kind: DECISION, view, slot, verdict: no_op.into(), ..Record::default() }
    }

    pub fn prepare(view: u8, slot: u8, no_op: bool) -> Record {
        Record { kind: PREPARE, view, slot, verdict: no_op.into(), ..Record::default() }
    }

    pub fn commit(view: u8, slot: u8, no_op: bool) -> Record {
        Record { kind: COMMIT, view, slot, verdict: no_op.into(), ..Record::default() }
    }

    pub fn view_change(target: u8, last: u8, reach: u8, word: u64) -> Record {
        Record { kind: VIEW_CHANGE, view: target, last, slot: reach, word, ..Record::default() }
    }

    pub fn view_start(view: u8, length: u8, word: u64) -> Record {
        Record { kind: VIEW_START, view, slot: length, word, ..Record::default() }
    }

    pub fn entry(view: u8, length: u8, word: u64) -> Record {
        Record { kind: ENTRY, view, slot: length, word, ..Record::default() }
    }
}
