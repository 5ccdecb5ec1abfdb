//! A register over a hash set of std. Unlike those of docs/REGISTERS.md, it keeps its statements on
//! the heap, in no order, and not in memory that the caller lends.

use std::collections::HashSet;

use super::register::Register;
use super::{Refusal, refused};
use crate::abi::Record;

pub struct Hashed {
    statements: HashSet<Record>,
    free: usize,
}

impl Hashed {
    /// An empty register with this many free places. Room for them is taken as they are used.
    pub fn new(places: usize) -> Self {
        Hashed { statements: HashSet::new(), free: places }
    }
}

impl Register for Hashed {
    fn ask(&self, record: &Record) -> bool {
        self.statements.contains(record)
    }

    fn is_empty(&self) -> bool {
        self.statements.is_empty()
    }

    fn enter(&mut self, record: &Record) -> Result<(), Refusal> {
        if !record.keeps_layout() {
            return refused(2);
        }
        if self.ask(record) {
            return Ok(());
        }
        if self.free == 0 {
            return refused(18);
        }
        self.statements.insert(*record);
        self.free -= 1;
        Ok(())
    }
}
