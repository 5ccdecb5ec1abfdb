//! Rows on tables and tapes.

use super::requesting::{Over, Requesting};
use super::row::{ALIKE, Row};
use super::{MANY_PLACES, SOME_PLACES};
use crate::abi::{Record, Request};
use crate::twin::requests::{ASK, COUNT, ENTER};

/// The statement at a place of a full register: the last sixteen are one, said by all replicas.
fn statement(places: usize, place: usize) -> Record {
    match place.checked_sub(places - 16) {
        Some(signer) => Record::reply(1, 1, 0, 1).by(signer as u8),
        None => Record::reply(1, 1, 0, 2 + place as u64).by(place as u8 % 16),
    }
}

fn absent() -> Record {
    Record::reply(1, 1, 0, 0)
}

/// The requests that fill a register, and a request that is repeated after them.
fn requests(places: usize, request: Request, times: usize) -> Vec<Request> {
    let entering = |place| Request {
        statement: statement(places, place),
        number: ENTER,
        ..Request::default()
    };
    (0..places).map(entering).chain(std::iter::repeat_n(request, times)).collect()
}

/// A row that enters statements until a register is full.
fn filling(name: String, over: Over, places: usize) -> Row {
    let mut requesting = Requesting::new(over, places, requests(places, Request::default(), 0));
    requesting.expect_alike(&name, places);
    let work = Box::new(move |who, operations| requesting.make(who, operations));
    Row { name, operations: places..=places, work }
}

/// A row that repeats a request on a full register.
fn repeated(name: String, over: Over, places: usize, request: Request) -> Row {
    let mut requesting = Requesting::new(over, places, requests(places, request, *ALIKE.end()));
    requesting.expect_alike(&name, places + ALIKE.start());
    let work = Box::new(move |who, operations| requesting.make(who, places + operations));
    Row { name, operations: ALIKE, work }
}

/// Rows on a register of one kind, with this many places.
fn rows_over(name: &str, over: Over, places: usize) -> Vec<Row> {
    let name = |what| format!("{name} of {places}: {what}");
    let last = statement(places, places - 1);
    let repeating = [
        ("ask, absent", ASK, absent(), 0),
        ("ask, in the last place", ASK, last, 0),
        ("enter, in the last place", ENTER, last, 0),
        ("enter, new, so refused", ENTER, absent(), 0),
        ("count of all 4, f = 1", COUNT, last, 4),
        ("count of all 16, f = 5", COUNT, last, 16),
    ];
    let mut rows = vec![filling(name("enter, new, until full"), over, places)];
    rows.extend(repeating.map(|(what, number, statement, replicas)| {
        let request = Request { statement, number, replicas, ..Request::default() };
        repeated(name(what), over, places, request)
    }));
    rows
}

pub fn rows() -> Vec<Row> {
    let mut rows = Vec::new();
    for places in [SOME_PLACES, MANY_PLACES] {
        for (name, over) in [("table", Over::Table), ("tape", Over::Tape)] {
            rows.extend(rows_over(name, over, places));
        }
    }
    rows
}
