//! Random sequences of requests to registers, and what differs after them.

use crate::abi::{self, Memory, Record, Request};
use crate::differ::{compare_bytes, compare_each, compare_words};
use crate::generate::{any_record, break_layout};
use crate::random::Random;
use crate::twin::record::PLACE;
use crate::twin::register::ByAny;
use crate::twin::requests::{self, ASK, COUNT, ENTER, IS_EMPTY};

/// Which register the requests are made to.
#[derive(Clone, Copy, Debug, PartialEq, Eq, PartialOrd, Ord)]
pub enum Over {
    Table,
    Tape,
    Sheets,
}

/// The memory of a register, of which one of the two is used, and the requests with what came of
/// them.
#[derive(Clone)]
pub struct Sequence {
    pub over: Over,
    pub table: Memory<Record>,
    pub tape: Vec<u8>,
    pub requests: Vec<Request>,
}

/// Records of which many differ in one field only, and some break the layout.
fn pool(random: &mut Random) -> Vec<Record> {
    let mut records = Vec::new();
    for _ in 0..random.within(1, 4) {
        let mut record = any_record(random);
        while !record.keeps_layout() {
            record = any_record(random);
        }
        records.extend((0..random.within(1, 16)).map(|signer| record.by(signer as u8)));
        let mut other = record;
        break_layout(&mut other, random);
        records.push(other);
    }
    records
}

fn some_request(pool: &[Record], random: &mut Random) -> Request {
    let number = match random.below(100) {
        0..30 => ASK,
        30..40 => IS_EMPTY,
        40..85 => ENTER,
        85..97 => COUNT,
        _ => random.of(&[0, 5, 6, 255]),
    };
    let mut statement = random.of(pool);
    if random.percent(5) {
        break_layout(&mut statement, random);
    }
    let few = random.below(20) as u8;
    Request {
        statement,
        number,
        replicas: random.of(&[few, few, 16, 17, 255]),
        outcome: random.any() as u8,
        value: random.any() as u8,
    }
}

impl Sequence {
    /// A random sequence. The memory holds anything before, also statements that it is asked for.
    pub fn new(random: &mut Random) -> Sequence {
        let pool = pool(random);
        let places = random.of(&[0, 1, 2, 3, 5, 10, 20, 40]);
        let mut table = Memory::new(places, || random.any());
        let mut tape: Vec<u8> = (0..places * PLACE + random.below(PLACE as u64) as usize)
            .map(|_| random.any() as u8)
            .collect();
        for (place, bytes) in table.values_mut().iter_mut().zip(tape.chunks_exact_mut(PLACE)) {
            if random.percent(50) {
                let record = random.of(&pool);
                *place = record;
                bytes.copy_from_slice(&record.pack().unwrap_or_default());
            }
        }
        let over = random.of(&[Over::Table, Over::Tape, Over::Sheets]);
        let most = if over == Over::Sheets { 300 } else { 100 };
        let length = random.below(most);
        let requests = (0..length).map(|_| some_request(&pool, random)).collect();
        Sequence { over, table, tape, requests }
    }

    pub fn run_by_library(&self) -> Sequence {
        let mut ran = self.clone();
        match self.over {
            Over::Table => abi::use_table(ran.table.values_mut(), &mut ran.requests),
            Over::Tape => abi::use_tape(&mut ran.tape, &mut ran.requests),
            Over::Sheets => abi::use_sheets(&mut ran.requests),
        }
        ran
    }

    /// How many different statements were entered.
    fn entered(&self) -> usize {
        let granted =
            |request: &&Request| request.number == ENTER && request.outcome == requests::GRANTED;
        let mut entered: Vec<Record> = Vec::new();
        for Request { statement, .. } in self.requests.iter().filter(granted) {
            if !entered.contains(statement) {
                entered.push(*statement);
            }
        }
        entered.len()
    }

    pub fn run_by_twin(&self) -> Sequence {
        let mut ran = self.clone();
        match self.over {
            Over::Table => requests::use_table::<ByAny>(ran.table.values_mut(), &mut ran.requests),
            Over::Tape => requests::use_tape::<ByAny>(&mut ran.tape, &mut ran.requests),
            Over::Sheets => requests::use_sheets(&mut ran.requests),
        }
        ran
    }
}

/// Every difference, each in words: outcomes, what was handed over in the requests, and memory.
pub fn differences(before: &Sequence, ours: &Sequence, twin: &Sequence) -> Vec<String> {
    let mut found = Vec::new();
    compare_each(&ours.requests, &twin.requests, &mut found, |place, our, other| {
        format!("request {place}: {our:?}, by the twin {other:?}")
    });
    compare_bytes("tape", &ours.tape, &twin.tape, &mut found);
    compare_each(ours.table.values(), twin.table.values(), &mut found, |place, our, other| {
        format!("place {place}: {our:?}, by the twin {other:?}")
    });
    // Places that no statement was written to are as they were, also the bytes between fields.
    let unused = twin.entered() * size_of::<Record>() / 8;
    let (words, held) = (ours.table.words(), before.table.words());
    if ours.over == Over::Table {
        compare_words("unused table", &words[unused..], &held[unused..], &mut found);
    }
    found
}
