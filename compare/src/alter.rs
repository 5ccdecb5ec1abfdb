//! A check of the comparer: what the library left of a life is altered in one respect, and the
//! difference has to be noticed.

use crate::abi::{Call, Outcome, REFUSED, Request, Status, YES};
use crate::differ::asked;
use crate::lives::{Life, Ran};
use crate::random::Random;
use crate::sequences::Sequence;
use crate::twin::record::PLACE;

/// Alters what a run left; no where the life has nothing to alter so.
pub type Alter = fn(&Life, &mut Ran, &mut Random) -> bool;

/// What is altered of a life that ran.
pub const OF_A_LIFE: [(&str, Alter); 29] = [
    ("answer", |_, ran, _| {
        ran.answer = 3;
        true
    }),
    ("kind of an outcome", |life, ran, random| {
        of_outcome(life, ran, random, |_, _| true, |outcome, _| outcome.kind = outcome.kind % 4 + 1)
    }),
    ("ground of a refusal", |life, ran, random| {
        of_outcome(life, ran, random, is_refused, |outcome, _| outcome.ground ^= 1)
    }),
    ("ground of a grant", |life, ran, random| {
        of_outcome(life, ran, random, is_no_refusal, |outcome, _| outcome.ground = 9)
    }),
    ("place of a refusal", |life, ran, random| {
        of_outcome(life, ran, random, is_refused, |outcome, _| outcome.place += 1)
    }),
    ("place of a grant", |life, ran, random| {
        of_outcome(life, ran, random, is_no_refusal, |outcome, _| outcome.place = 1 << 40)
    }),
    ("yes by one who did not say it", stranger),
    ("yes by one who said it later", later_witness),
    ("yes by one witness twice", |life, ran, random| {
        of_outcome(life, ran, random, is_yes, |outcome, _| {
            outcome.witnesses[0] = outcome.witnesses[1]
        })
    }),
    ("yes by no replica", |life, ran, random| {
        of_outcome(life, ran, random, is_yes, |outcome, life| {
            outcome.witnesses[0] = 3 * life.f as u8 + 1;
        })
    }),
    ("witness after a quorum", |life, ran, random| {
        of_outcome(life, ran, random, is_yes, |outcome, _| outcome.witnesses[15] = 1)
    }),
    ("witness of no yes", |life, ran, random| {
        of_outcome(life, ran, random, |_, told| told.kind != YES, |told, _| told.witnesses[0] = 1)
    }),
    ("number of operations", |_, ran, _| of_status(ran, |status| status.stamped += 1)),
    ("stamped operation", |_, ran, _| of_operation(ran, |stamped| stamped.checked_sub(1))),
    ("operation not stamped", |_, ran, _| of_operation(ran, Some)),
    ("view", |_, ran, random| of_replica(ran, random, |status, at| status.replicas[at].view ^= 1)),
    ("target", |_, ran, random| {
        of_replica(ran, random, |status, at| status.replicas[at].target ^= 1)
    }),
    ("base length", |_, ran, random| {
        of_replica(ran, random, |status, at| status.replicas[at].base ^= 1)
    }),
    ("length", |_, ran, random| {
        of_replica(ran, random, |status, at| status.replicas[at].length ^= 1)
    }),
    ("mark", |_, ran, random| of_replica(ran, random, |status, at| status.replicas[at].mark ^= 1)),
    ("word", |_, ran, random| of_replica(ran, random, |status, at| status.replicas[at].word ^= 1)),
    ("sealed word", |_, ran, random| {
        of_replica(ran, random, |status, at| status.replicas[at].sealed ^= 1 << 63)
    }),
    ("byte of a statement on the tape", |life, ran, random| {
        let used = life.used.last().map_or(0, |used| used * PLACE);
        of_tape(ran, 0, used, random)
    }),
    ("byte of a place not used", |life, ran, random| {
        let used = life.used.last().map_or(0, |used| used * PLACE);
        of_tape(ran, used, life.tape.len() / PLACE * PLACE, random)
    }),
    ("byte left over", |life, ran, random| {
        let length = life.tape.len();
        of_tape(ran, length / PLACE * PLACE, length, random)
    }),
    ("byte after the tape", |life, ran, random| {
        of_tape(ran, life.tape.len(), ran.tape.len(), random)
    }),
    ("memory after the outcomes", |life, ran, random| {
        flip(&mut ran.outcomes.words_mut()[life.room * size_of::<Outcome>() / 8..], random)
    }),
    ("memory after the status", |_, ran, random| {
        flip(&mut ran.status.words_mut()[size_of::<Status>() / 8..], random)
    }),
    ("two operations exchanged", |_, ran, _| {
        let operations = &mut ran.status.values_mut()[0].operations;
        operations.swap(0, 1);
        operations[0] != operations[1]
    }),
];

/// What is altered of a life that did not run.
pub const OF_NO_LIFE: [(&str, Alter); 4] = [
    ("answer of no life", |_, ran, _| {
        ran.answer ^= 1;
        true
    }),
    ("tape of no life", |_, ran, random| {
        let length = ran.tape.len();
        of_tape(ran, 0, length, random)
    }),
    ("outcomes of no life", |_, ran, random| flip(ran.outcomes.words_mut(), random)),
    ("status of no life", |_, ran, random| flip(ran.status.words_mut(), random)),
];

/// The witnesses of a yes in another order, which is no difference.
pub fn reorder(life: &Life, ran: &mut Ran, random: &mut Random) -> bool {
    of_outcome(life, ran, random, is_yes, |outcome, _| outcome.witnesses.swap(0, 1))
}

fn is_yes(_: &Call, outcome: &Outcome) -> bool {
    outcome.kind == YES
}

fn is_refused(_: &Call, outcome: &Outcome) -> bool {
    outcome.kind == REFUSED
}

fn is_no_refusal(_: &Call, outcome: &Outcome) -> bool {
    outcome.kind != REFUSED
}

/// Alters an outcome of those that fit.
fn of_outcome(
    life: &Life,
    ran: &mut Ran,
    random: &mut Random,
    fits: fn(&Call, &Outcome) -> bool,
    alter: fn(&mut Outcome, &Life),
) -> bool {
    let pairs = life.calls.iter().zip(ran.outcomes.values_mut());
    let mut found: Vec<&mut Outcome> =
        pairs.filter(|(call, told)| fits(call, told)).map(|(_, told)| told).collect();
    if found.is_empty() {
        return false;
    }
    let place = random.below(found.len() as u64) as usize;
    alter(found[place], life);
    true
}

fn of_status(ran: &mut Ran, alter: fn(&mut Status)) -> bool {
    alter(&mut ran.status.values_mut()[0]);
    true
}

fn of_operation(ran: &mut Ran, place: fn(usize) -> Option<usize>) -> bool {
    let status = &mut ran.status.values_mut()[0];
    let place = place(status.stamped as usize);
    let operation = place.and_then(|place| status.operations.get_mut(place));
    operation.map(|operation| *operation ^= 1).is_some()
}

/// Alters one of the sixteen replicas.
fn of_replica(ran: &mut Ran, random: &mut Random, alter: fn(&mut Status, usize)) -> bool {
    alter(&mut ran.status.values_mut()[0], random.below(16) as usize);
    true
}

fn of_tape(ran: &mut Ran, from: usize, end: usize, random: &mut Random) -> bool {
    if from >= end {
        return false;
    }
    let place = random.within(from as u64, end as u64 - 1) as usize;
    ran.tape[place] ^= 1 << random.below(8);
    true
}

fn flip(words: &mut [u64], random: &mut Random) -> bool {
    if words.is_empty() {
        return false;
    }
    let place = random.below(words.len() as u64) as usize;
    words[place] ^= 1 << random.below(64);
    true
}

/// Names in a yes a replica that never said it.
fn stranger(life: &Life, ran: &mut Ran, _: &mut Random) -> bool {
    name_another(life, ran, |position, _| position.is_none())
}

/// Names in a yes a replica that said it only after the call.
fn later_witness(life: &Life, ran: &mut Ran, _: &mut Random) -> bool {
    name_another(life, ran, |position, used| position.is_some_and(|position| position >= used))
}

/// Names in a yes a replica whose statement's position on the tape, and the places used at the
/// call, fit.
fn name_another(life: &Life, ran: &mut Ran, fits: fn(Option<usize>, usize) -> bool) -> bool {
    let Ran { tape, outcomes, .. } = ran;
    let held = &tape[..life.used.last().map_or(0, |used| used * PLACE)];
    for (place, told) in outcomes.values_mut()[..life.room].iter_mut().enumerate() {
        let Some(statement) = asked(&life.calls[place]).filter(|_| told.kind == YES) else {
            continue;
        };
        let position = |signer: u8| {
            let packed = statement.by(signer).pack().unwrap_or_default();
            held.chunks_exact(PLACE).position(|part| part == packed)
        };
        let mut others = 0..3 * life.f as u8 + 1;
        if let Some(other) = others.find(|&r| fits(position(r), life.used[place])) {
            told.witnesses[0] = other;
            return true;
        }
    }
    false
}

/// What is altered of a sequence of requests to a register.
type AlterRequests = fn(&mut Sequence, &mut Random) -> bool;

pub const OF_A_SEQUENCE: [(&str, AlterRequests); 7] = [
    ("outcome of a request", |ran, random| of_request(ran, random, |request| request.outcome ^= 1)),
    ("value of a request", |ran, random| of_request(ran, random, |request| request.value += 1)),
    ("record of a request", |ran, random| {
        of_request(ran, random, |request| request.statement.result ^= 1)
    }),
    ("number of a request", |ran, random| of_request(ran, random, |request| request.number ^= 1)),
    ("replicas of a request", |ran, random| {
        of_request(ran, random, |request| request.replicas ^= 1)
    }),
    ("byte of a register's tape", |ran, random| {
        let length = ran.tape.len() as u64;
        length > 0 && {
            ran.tape[random.below(length) as usize] ^= 1;
            true
        }
    }),
    ("field of a register's table", |ran, random| {
        let places = ran.table.values_mut();
        let place = random.below(places.len().max(1) as u64) as usize;
        places.get_mut(place).map(|record| record.slot ^= 1).is_some()
    }),
];

fn of_request(ran: &mut Sequence, random: &mut Random, alter: fn(&mut Request)) -> bool {
    let place = random.below(ran.requests.len().max(1) as u64) as usize;
    ran.requests.get_mut(place).map(alter).is_some()
}
