//! Measures the library and the twin side by side, on the same inputs.

mod registers;
mod requesting;
mod row;
mod running;
mod table;
mod whole;

/// Who does the work: the library, or the twin, which searches in one of two ways or has a hash
/// set.
#[derive(Clone, Copy)]
enum Who {
    Library,
    TwinByAny,
    TwinByContains,
    TwinHashed,
}

const ALL: [Who; 4] = [Who::Library, Who::TwinByAny, Who::TwinByContains, Who::TwinHashed];

/// How many places the registers have: as many as there are REPLYs of 16 replicas to 64 slots in a
/// view, and more than there are statements where each replica also says a PREPARE and a COMMIT of
/// each slot, and the leader a DECISION.
const SOME_PLACES: usize = 1024;
const MANY_PLACES: usize = 3478;

/// Prints a table of all rows.
pub fn measure(seed: u64, rounds: usize) {
    table::print_head();
    for mut row in registers::rows().into_iter().chain(whole::rows(seed)) {
        let times = row.times(rounds);
        table::print_row(&row.name, times);
    }
}
