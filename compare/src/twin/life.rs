//! A life as C hands it over, from include/fotsgari.h and docs/C.md.

use super::Refusal;
use super::bench::{Bench, Replica};
use super::calls::{Call, read};
use super::hash_set::Hashed;
use super::record::PLACE;
use super::register::{Register, Search, Tape};
use super::service::{Allotment, Rating, Service};
use crate::abi::{self, GRANTED, Given, Kind, NO, Outcome, REFUSED, SLOTS, Status, Written, YES};

pub const BAD_OUTCOMES: u8 = 101;

/// Makes a call; the kind of what came of it, and a yes with its witnesses.
fn try_call<R: Register, S: Service>(
    bench: &mut Bench<R, S>,
    call: &Call,
    witnesses: &mut [u8; 16],
) -> Result<u8, Refusal> {
    let up_to = |room: u64| room.min(16) as usize;
    let certified = |yes| if yes { YES } else { NO };
    match *call {
        Call::Stamp { operation } => bench.stamp(operation),
        Call::Deliver { replica, slot } => bench.deliver(replica, slot),
        Call::Find { replica } => bench.find(replica),
        Call::Drop { replica } => bench.drop(replica),
        Call::Decide { replica, slot, no_op } => bench.decide(replica, slot, no_op),
        Call::Prepare { replica, slot, no_op } => bench.prepare(replica, slot, no_op),
        Call::Commit { replica, slot, no_op } => bench.commit(replica, slot, no_op),
        Call::Settle { replica, slot, no_op } => bench.settle(replica, slot, no_op),
        Call::Reply { replica, slot } => bench.reply(replica, slot),
        Call::Leave { replica, target } => bench.leave(replica, target),
        Call::Forge { record } => bench.forge(record),
        Call::Lead { replica, picks, length, word } => bench.lead(replica, picks, length, word),
        Call::Start { replica, picks, length, word } => bench.start(replica, picks, length, word),
        Call::Enter { replica, length, word, view } => bench.enter(replica, length, word, view),
        Call::Answer { room, view, slot, word, result } => {
            return bench
                .answer(&mut witnesses[..up_to(room)], view, slot, word, result)
                .map(certified);
        }
        Call::NoOp { room, view, slot } => {
            return bench.no_op(&mut witnesses[..up_to(room)], view, slot).map(certified);
        }
    }
    .map(|()| GRANTED)
}

/// Makes a call, and tells what came of it.
pub fn make<R: Register, S: Service>(bench: &mut Bench<R, S>, call: &Call) -> Outcome {
    let mut witnesses = [0; 16];
    match try_call(bench, call, &mut witnesses) {
        Ok(kind) => Outcome { kind, ground: 0, witnesses, place: 0 },
        Err(Refusal { ground, place }) => {
            Outcome { kind: REFUSED, ground, witnesses: [0; 16], place }
        }
    }
}

/// What a bench kept, in the form of C.
pub fn status_of<R, S>(bench: &Bench<R, S>) -> Status {
    let mut operations = [0; SLOTS];
    operations[..bench.operations.len()].copy_from_slice(&bench.operations);
    let replicas =
        bench.replicas.map(|Replica { view, target, base, length, mark, word, sealed }| {
            abi::Replica { view, target, base, length, mark: mark.into(), word, sealed }
        });
    Status { stamped: bench.operations.len() as u64, operations, replicas }
}

/// Runs a life with a service over a register.
fn run<S: Service>(
    given: Given,
    register: impl Register,
    outcomes: &mut [Outcome],
    status: &mut Status,
) -> Result<(), u8> {
    if outcomes.len() != given.calls.len() {
        return Err(BAD_OUTCOMES);
    }
    let calls: Vec<Call> =
        given.calls.iter().map(|call| read(call, given.records)).collect::<Result<_, _>>()?;
    let bench = Bench::open(given.f, given.foreign, register, S::default());
    let mut bench = bench.map_err(|refusal| refusal.ground)?;
    for (outcome, call) in outcomes.iter_mut().zip(&calls) {
        *outcome = make(&mut bench, call);
    }
    *status = status_of(&bench);
    Ok(())
}

fn run_over(
    given: Given,
    register: impl Register,
    outcomes: &mut [Outcome],
    status: &mut Status,
) -> u8 {
    let ran = match given.kind {
        Kind::Rating => run::<Rating>(given, register, outcomes, status),
        Kind::Allotment => run::<Allotment>(given, register, outcomes, status),
    };
    ran.err().unwrap_or(0)
}

/// Runs a life as the library does.
pub fn run_life<F: Search>(given: Given, written: Written) -> u8 {
    let Written { tape, outcomes, status } = written;
    run_over(given, Tape::<F>::new(tape), outcomes, status)
}

/// Runs a life over a hash set, which has as many places as the tape. The tape stays as it is.
pub fn run_life_in_hash_set(given: Given, written: Written) -> u8 {
    let Written { tape, outcomes, status } = written;
    run_over(given, Hashed::new(tape.len() / PLACE), outcomes, status)
}
