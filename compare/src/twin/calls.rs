//! The calls, and how numbers of C stand for them, from include/fotsgari.h and docs/C.md.

use crate::abi::{self, Record};

pub const BAD_CALL_NUMBER: u8 = 102;
pub const BAD_VERDICT: u8 = 103;
pub const BAD_RECORDS: u8 = 104;

pub enum Call<'a> {
    Stamp { operation: u64 },
    Deliver { replica: u64, slot: u64 },
    Find { replica: u64 },
    Drop { replica: u64 },
    Decide { replica: u64, slot: u64, no_op: bool },
    Prepare { replica: u64, slot: u64, no_op: bool },
    Commit { replica: u64, slot: u64, no_op: bool },
    Settle { replica: u64, slot: u64, no_op: bool },
    Reply { replica: u64, slot: u64 },
    Leave { replica: u64, target: u64 },
    Forge { record: &'a Record },
    Lead { replica: u64, picks: &'a [Record], length: u64, word: u64 },
    Start { replica: u64, picks: &'a [Record], length: u64, word: u64 },
    Enter { replica: u64, length: u64, word: u64, view: u64 },
    Answer { room: u64, view: u64, slot: u64, word: u64, result: u64 },
    NoOp { room: u64, view: u64, slot: u64 },
}

fn no_op_of(verdict: u64) -> Result<bool, u8> {
    match verdict {
        0 => Ok(false),
        1 => Ok(true),
        _ => Err(BAD_VERDICT),
    }
}

/// As many records as are asked for from a place on.
fn picks_of(records: &[Record], first: u64, count: u64) -> Result<&[Record], u8> {
    let range = usize::try_from(first).ok().zip(usize::try_from(count).ok());
    let range = range.and_then(|(first, count)| Some(first..first.checked_add(count)?));
    range.and_then(|range| records.get(range)).ok_or(BAD_RECORDS)
}

fn record_of(records: &[Record], place: u64) -> Result<&Record, u8> {
    picks_of(records, place, 1).map(|found| &found[0])
}

/// The call that numbers of C stand for, or what is wrong with them.
pub fn read<'a>(call: &abi::Call, records: &'a [Record]) -> Result<Call<'a>, u8> {
    let [a, b, c, d, e] = call.arguments;
    Ok(match call.number {
        1 => Call::Stamp { operation: a },
        2 => Call::Deliver { replica: a, slot: b },
        3 => Call::Find { replica: a },
        4 => Call::Drop { replica: a },
        5 => Call::Decide { replica: a, slot: b, no_op: no_op_of(c)? },
        6 => Call::Prepare { replica: a, slot: b, no_op: no_op_of(c)? },
        7 => Call::Commit { replica: a, slot: b, no_op: no_op_of(c)? },
        8 => Call::Settle { replica: a, slot: b, no_op: no_op_of(c)? },
        9 => Call::Reply { replica: a, slot: b },
        10 => Call::Leave { replica: a, target: b },
        11 => Call::Forge { record: record_of(records, a)? },
        12 => Call::Lead { replica: a, picks: picks_of(records, b, c)?, length: d, word: e },
        13 => Call::Start { replica: a, picks: picks_of(records, b, c)?, length: d, word: e },
        14 => Call::Enter { replica: a, length: b, word: c, view: d },
        15 => Call::Answer { room: a, view: b, slot: c, word: d, result: e },
        16 => Call::NoOp { room: a, view: b, slot: c },
        _ => return Err(BAD_CALL_NUMBER),
    })
}
