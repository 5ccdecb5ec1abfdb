//! Requests that are made to each, on the same memory again and again.

use std::hint::black_box;

use super::{ALL, Who};
use crate::abi::{self, Memory, Record, Request};
use crate::twin::record::PLACE;
use crate::twin::register::{ByAny, ByContains};
use crate::twin::requests;

#[derive(Clone, Copy)]
pub enum Over {
    Table,
    Tape,
}

pub struct Requesting {
    over: Over,
    places: usize,
    tape: Vec<u8>,
    table: Memory<Record>,
    requests: Vec<Request>,
}

impl Requesting {
    pub fn new(over: Over, places: usize, requests: Vec<Request>) -> Self {
        let (tape, table) = (vec![0; places * PLACE], Memory::new(places, || 0));
        Requesting { over, places, tape, table, requests }
    }

    /// Makes the first requests, to a register that is empty at first.
    pub fn make(&mut self, who: Who, count: usize) {
        let requests = &mut self.requests[..count];
        let (tape, table, requests) =
            black_box((&mut self.tape, self.table.values_mut(), requests));
        match (self.over, who) {
            (Over::Table, Who::Library) => abi::use_table(table, requests),
            (Over::Table, Who::TwinByAny) => requests::use_table::<ByAny>(table, requests),
            (Over::Table, Who::TwinByContains) => {
                requests::use_table::<ByContains>(table, requests)
            }
            (Over::Tape, Who::Library) => abi::use_tape(tape, requests),
            (Over::Tape, Who::TwinByAny) => requests::use_tape::<ByAny>(tape, requests),
            (Over::Tape, Who::TwinByContains) => requests::use_tape::<ByContains>(tape, requests),
            (_, Who::TwinHashed) => requests::use_hash_set(black_box(self.places), requests),
        }
        black_box(requests.last());
    }

    /// Ends with a message where the first requests come to something else by one than by another.
    pub fn expect_alike(&mut self, name: &str, count: usize) {
        let fresh = self.requests.clone();
        let made = ALL.map(|who| {
            self.requests.clone_from(&fresh);
            self.make(who, count);
            self.requests[..count].to_vec()
        });
        assert!(made.iter().all(|requests| *requests == made[0]), "{name}");
    }
}
