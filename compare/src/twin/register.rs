//! The registers, from docs/REGISTERS.md: a table, a tape, and a spare sheet over a register.

use std::marker::PhantomData;

use super::{Refusal, refused};
use crate::abi::Record;
use crate::twin::record::PLACE;

pub trait Register {
    fn ask(&self, record: &Record) -> bool;
    fn is_empty(&self) -> bool;
    fn enter(&mut self, record: &Record) -> Result<(), Refusal>;

    /// The numbers below n under which the statement is held, from the lowest.
    fn signers(&self, statement: Record, n: u8) -> impl Iterator<Item = u8> {
        (0..n).filter(move |&signer| self.ask(&statement.by(signer)))
    }

    /// How many of the replicas below n said the statement.
    fn count(&self, statement: Record, n: u8) -> usize {
        self.signers(statement, n).count()
    }

    /// Whether at least q of the replicas below n said the statement.
    fn reached(&self, statement: Record, n: u8, q: usize) -> bool {
        self.signers(statement, n).take(q).count() == q
    }
}

/// How a record or a packed one is looked for among those that are held.
pub trait Search {
    fn in_records(held: &[Record], record: &Record) -> bool;
    fn in_bytes(held: &[u8], packed: &[u8; PLACE]) -> bool;
}

/// By `any`, over parts of a tape.
pub struct ByAny;

/// By `contains`, over a tape as arrays.
pub struct ByContains;

impl Search for ByAny {
    fn in_records(held: &[Record], record: &Record) -> bool {
        held.iter().any(|other| other == record)
    }

    fn in_bytes(held: &[u8], packed: &[u8; PLACE]) -> bool {
        held.chunks_exact(PLACE).any(|part| part == packed)
    }
}

impl Search for ByContains {
    fn in_records(held: &[Record], record: &Record) -> bool {
        held.contains(record)
    }

    fn in_bytes(held: &[u8], packed: &[u8; PLACE]) -> bool {
        held.as_chunks().0.contains(packed)
    }
}

/// A register over lent records.
pub struct Table<'a, F> {
    records: &'a mut [Record],
    used: usize,
    search: PhantomData<F>,
}

impl<'a, F> Table<'a, F> {
    pub fn new(records: &'a mut [Record]) -> Self {
        Table { records, used: 0, search: PhantomData }
    }
}

impl<F: Search> Register for Table<'_, F> {
    fn ask(&self, record: &Record) -> bool {
        F::in_records(&self.records[..self.used], record)
    }

    fn is_empty(&self) -> bool {
        self.used == 0
    }

    fn enter(&mut self, record: &Record) -> Result<(), Refusal> {
        if !record.keeps_layout() {
            return refused(2);
        }
        if self.ask(record) {
            return Ok(());
        }
        let Some(place) = self.records.get_mut(self.used) else {
            return refused(18);
        };
        *place = *record;
        self.used += 1;
        Ok(())
    }
}

/// A register over lent bytes.
pub struct Tape<'a, F> {
    bytes: &'a mut [u8],
    used: usize,
    search: PhantomData<F>,
}

impl<'a, F: Search> Tape<'a, F> {
    pub fn new(bytes: &'a mut [u8]) -> Self {
        Tape { bytes, used: 0, search: PhantomData }
    }

    /// How many statements it holds.
    pub fn used(&self) -> usize {
        self.used
    }

    /// How many more it has room for.
    pub fn free(&self) -> usize {
        self.bytes.len() / PLACE - self.used
    }

    /// The statements in the order in which they were entered.
    pub fn statements(&self) -> impl DoubleEndedIterator<Item = Record> {
        self.held().chunks_exact(PLACE).filter_map(Record::unpack)
    }

    fn held(&self) -> &[u8] {
        &self.bytes[..self.used * PLACE]
    }
}

impl<F: Search> Register for Tape<'_, F> {
    fn ask(&self, record: &Record) -> bool {
        record.pack().is_some_and(|packed| F::in_bytes(self.held(), &packed))
    }

    fn is_empty(&self) -> bool {
        self.used == 0
    }

    fn enter(&mut self, record: &Record) -> Result<(), Refusal> {
        let Some(packed) = record.pack() else {
            return refused(2);
        };
        if F::in_bytes(self.held(), &packed) {
            return Ok(());
        }
        let start = self.used * PLACE;
        let Some(place) = self.bytes.get_mut(start..start + PLACE) else {
            return refused(18);
        };
        place.copy_from_slice(&packed);
        self.used += 1;
        Ok(())
    }
}

/// Sixteen more places, used once the register below is full.
pub struct SpareSheet<R> {
    below: R,
    own: [Record; 16],
    used: usize,
}

impl<R: Register> SpareSheet<R> {
    pub fn new(below: R) -> Self {
        SpareSheet { below, own: [Record::default(); 16], used: 0 }
    }

    fn holds(&self, record: &Record) -> bool {
        self.own[..self.used].iter().any(|held| held == record)
    }
}

impl<R: Register> Register for SpareSheet<R> {
    fn ask(&self, record: &Record) -> bool {
        self.below.ask(record) || self.holds(record)
    }

    fn is_empty(&self) -> bool {
        self.used == 0 && self.below.is_empty()
    }

    fn enter(&mut self, record: &Record) -> Result<(), Refusal> {
        if self.holds(record) {
            return Ok(());
        }
        let Err(refusal) = self.below.enter(record) else {
            return Ok(());
        };
        if !record.keeps_layout() || self.used == self.own.len() {
            return Err(refusal);
        }
        self.own[self.used] = *record;
        self.used += 1;
        Ok(())
    }
}
