//! What differs between what the library left of a life and what the twin left.

use crate::abi::{Call, Memory, Outcome, Plain, Record, Status, YES};
use crate::generate::number;
use crate::lives::{Life, Ran};
use crate::twin::record::PLACE;

/// Every difference, each in words. There is one for each outcome, replica, operation and byte of
/// the tape that differs.
pub fn differences(life: &Life, before: &Ran, ours: &Ran, twin: &Ran) -> Vec<String> {
    let mut found = Vec::new();
    if ours.answer != twin.answer {
        found.push(format!("answer {}, by the twin {}", ours.answer, twin.answer));
        return found;
    }
    let (mut outcomes, mut status) = (0, 0);
    if ours.answer == 0 {
        compare_outcomes(life, ours, twin, &mut found);
        compare_status(&ours.status.values()[0], &twin.status.values()[0], &mut found);
        (outcomes, status) = (life.room * size_of::<Outcome>() / 8, size_of::<Status>() / 8);
    }
    // All other memory is as it was; so is the twin's tape where it did not write.
    compare_bytes("tape", &ours.tape, &twin.tape, &mut found);
    compare_rest("outcomes", outcomes, &ours.outcomes, &before.outcomes, &mut found);
    compare_rest("status", status, &ours.status, &before.status, &mut found);
    found
}

fn compare_rest<T: Plain>(
    name: &str,
    from: usize,
    ours: &Memory<T>,
    before: &Memory<T>,
    found: &mut Vec<String>,
) {
    compare_words(name, &ours.words()[from..], &before.words()[from..], found);
}

fn compare_outcomes(life: &Life, ours: &Ran, twin: &Ran, found: &mut Vec<String>) {
    let pairs = ours.outcomes.values().iter().zip(twin.outcomes.values()).take(life.room);
    for (place, (our, other)) in pairs.enumerate() {
        let alike = (our.kind, our.ground, our.place) == (other.kind, other.ground, other.place);
        let seen = &life.outcomes[place];
        let fault = witness_fault(life, place, our, &twin.tape)
            .or_else(|| witness_fault(life, place, other, &twin.tape));
        if !alike || other != seen || fault.is_some() {
            let call = &life.calls[place];
            found.push(format!(
                "call {place}, {call:?}: {our:?}, by the twin {other:?}, by its bench {seen:?}; {}",
                fault.unwrap_or("")
            ));
        }
    }
}

/// What is wrong with the witnesses of an outcome, by what the twin's register held at that moment.
fn witness_fault(life: &Life, place: usize, told: &Outcome, tape: &[u8]) -> Option<&'static str> {
    let (n, q) = (3 * life.f + 1, 2 * life.f as usize + 1);
    let (named, rest) = told.witnesses.split_at(if told.kind == YES { q } else { 0 });
    if rest.iter().any(|&byte| byte != 0) {
        return Some("a byte that is no witness is not 0");
    }
    let statement = asked(&life.calls[place])?;
    let held = &tape[..life.used[place] * PLACE];
    for (earlier, &witness) in named.iter().enumerate() {
        let said = statement.by(witness).pack();
        if u64::from(witness) >= n || named[..earlier].contains(&witness) {
            return Some("a witness is n or more, or is named twice");
        }
        if !said.is_some_and(|said| held.chunks_exact(PLACE).any(|part| part == said)) {
            return Some("a witness did not say it");
        }
    }
    None
}

/// The statement that a certificate call asks for.
pub fn asked(call: &Call) -> Option<Record> {
    let [_, view, slot, word, result] = call.arguments;
    match call.number {
        number::ANSWER => Some(Record::reply(view as u8, slot as u8, word, result)),
        number::NO_OP => Some(Record::commit(view as u8, slot as u8, true)),
        _ => None,
    }
}

fn compare_status(ours: &Status, twin: &Status, found: &mut Vec<String>) {
    if ours.stamped != twin.stamped {
        found.push(format!("stamped {}, by the twin {}", ours.stamped, twin.stamped));
    }
    compare_each(&ours.operations, &twin.operations, found, |slot, our, other| {
        format!("operation {slot} is {our:#x}, by the twin {other:#x}")
    });
    compare_each(&ours.replicas, &twin.replicas, found, |replica, our, other| {
        format!("replica {replica}: {our:?}, by the twin {other:?}")
    });
}

/// Compares values one by one; a difference in the words that are given for it.
pub fn compare_each<T: PartialEq>(
    ours: &[T],
    others: &[T],
    found: &mut Vec<String>,
    words: impl Fn(usize, &T, &T) -> String,
) {
    for (place, (our, other)) in ours.iter().zip(others).enumerate() {
        if our != other {
            found.push(words(place, our, other));
        }
    }
}

/// Compares bytes one by one.
pub fn compare_bytes(name: &str, ours: &[u8], twin: &[u8], found: &mut Vec<String>) {
    if ours == twin {
        return;
    }
    compare_each(ours, twin, found, |place, our, other| {
        format!("{name}: byte {place} is {our:#x} and not {other:#x}")
    });
}

/// Compares 8 bytes at a time.
pub fn compare_words(name: &str, ours: &[u64], twin: &[u64], found: &mut Vec<String>) {
    compare_each(ours, twin, found, |place, our, other| {
        format!("{name}: of the words that are not written, {place} is {our:#x} and not {other:#x}")
    });
}
