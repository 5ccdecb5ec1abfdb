//! Requests on registers as C hands them over, from include/fotsgari_registers.h.

use super::hash_set::Hashed;
use super::register::{ByAny, Register, Search, SpareSheet, Table, Tape};
use crate::abi::{Record, Request};

pub const ASK: u8 = 1;
pub const IS_EMPTY: u8 = 2;
pub const ENTER: u8 = 3;
pub const COUNT: u8 = 4;

/// The outcomes of a request.
pub const UNKNOWN: u8 = 0;
pub const GRANTED: u8 = 1;
pub const YES: u8 = 2;
pub const NO: u8 = 3;
pub const REFUSED: u8 = 4;
pub const COUNTED: u8 = 5;

fn certain(yes: bool) -> (u8, u8) {
    (if yes { YES } else { NO }, 0)
}

/// What comes of a request: its outcome and its value.
fn take(register: &mut impl Register, request: &Request) -> (u8, u8) {
    match request.number {
        ASK => certain(register.ask(&request.statement)),
        IS_EMPTY => certain(register.is_empty()),
        ENTER => match register.enter(&request.statement) {
            Ok(()) => (GRANTED, 0),
            Err(refusal) => (REFUSED, refusal.ground),
        },
        COUNT => (COUNTED, register.count(request.statement, request.replicas.min(16)) as u8),
        _ => (UNKNOWN, 0),
    }
}

fn take_all(register: &mut impl Register, requests: &mut [Request]) {
    for request in requests {
        (request.outcome, request.value) = take(register, request);
    }
}

pub fn use_tape<F: Search>(tape: &mut [u8], requests: &mut [Request]) {
    take_all(&mut Tape::<F>::new(tape), requests);
}

pub fn use_table<F: Search>(table: &mut [Record], requests: &mut [Request]) {
    take_all(&mut Table::<F>::new(table), requests);
}

/// On a hash set, which has this many places.
pub fn use_hash_set(places: usize, requests: &mut [Request]) {
    take_all(&mut Hashed::new(places), requests);
}

/// On two sheets, one over the other, and no place below.
pub fn use_sheets(requests: &mut [Request]) {
    let table = Table::<ByAny>::new(&mut []);
    take_all(&mut SpareSheet::new(SpareSheet::new(table)), requests);
}
