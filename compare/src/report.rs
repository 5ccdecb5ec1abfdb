//! The tables at the end, and whether each call and ground was reached often enough.

use crate::tally::{CALLS, GROUNDS, Tally};

const NAMES: [&str; CALLS] = [
    "", "stamp", "deliver", "find", "drop", "decide", "prepare", "commit", "settle", "reply",
    "leave", "forge", "lead", "start", "enter", "answer", "no-op",
];

/// The grounds that each call can meet in a life (docs/PROTOCOL.md).
const MET: [&[usize]; CALLS] = [
    &[],
    &[17],
    &[6, 7, 8, 9, 11, 12, 18],
    &[6, 7, 8, 9, 10, 18],
    &[6, 7, 8, 9, 15, 18],
    &[6, 7, 8, 9, 10, 11, 12, 15, 18],
    &[6, 7, 8, 9, 11, 12, 15, 18],
    &[6, 7, 8, 9, 11, 15, 18],
    &[6, 7, 8, 9, 11, 15],
    &[6, 7, 8, 9, 11, 18],
    &[6, 7, 8, 11, 18],
    &[2, 6, 7, 18],
    &[2, 6, 7, 8, 9, 10, 13, 14, 15, 18],
    &[2, 6, 7, 8, 9, 12, 13, 14, 15, 16, 18],
    &[6, 7, 8, 11, 15],
    &[1, 8],
    &[1, 8],
];

/// The grounds that have places other than 0, and the last place: f is at most 5, and q 11.
const PLACED: [usize; 3] = [2, 13, 15];
const LAST_PLACE: usize = 10;
const ANSWERS: [u8; 7] = [0, 3, 4, 101, 102, 103, 104];

/// Prints the tables of the lives; whether everything was reached.
pub fn print_lives(tally: &Tally) -> bool {
    print_calls(tally);
    print_grounds(tally);
    println!("\nof the calls that were not refused");
    for (what, times) in &tally.reached {
        println!("{times:9}  {what}");
    }
    let answers: Vec<String> =
        tally.answers.iter().map(|(a, times)| format!("{a}: {times}")).collect();
    println!("\nlives by answer: {}", answers.join("  "));
    println!(
        "compared: {} lives, {} calls, {} witnesses, {} bytes of tapes, {} replicas",
        tally.lives,
        tally.calls,
        tally.witnesses,
        tally.tape_bytes,
        16 * tally.lives
    );
    is_reached(tally)
}

fn print_calls(tally: &Tally) {
    println!("\ncall     granted      yes       no  refused   refused on ground: how often");
    for (number, name) in NAMES.iter().enumerate().skip(1) {
        let [_, granted, yes, no, refused] = tally.kinds[number];
        let grounds: Vec<String> = MET[number]
            .iter()
            .map(|&ground| format!(" {ground}: {}", tally.grounds[number][ground]))
            .collect();
        let grounds = grounds.concat();
        println!("{name:8} {granted:7}  {yes:7}  {no:7}  {refused:7}  {grounds}");
    }
}

fn print_grounds(tally: &Tally) {
    println!("\nground   in all   at place 0, 1, 2 and so on");
    for ground in 1..GROUNDS {
        let in_all: u64 = tally.grounds.iter().map(|row| row[ground]).sum();
        let in_all = match ground {
            3 | 4 => tally.answers.get(&(ground as u8)).copied().unwrap_or(0),
            _ => in_all,
        };
        let places = if PLACED.contains(&ground) { LAST_PLACE } else { 0 };
        let places: Vec<String> =
            tally.places[ground][..=places].iter().map(|times| format!(" {times}")).collect();
        println!("{ground:6} {in_all:8}  {}", places.concat());
    }
}

/// How often a call was not refused, and was on each ground that it can meet.
fn times_of_call(tally: &Tally, number: usize) -> Vec<(u64, String)> {
    let [_, granted, yes, no, _] = tally.kinds[number];
    let name = NAMES[number];
    let mut times = vec![(granted.max(yes.min(no)), format!("{name} granted"))];
    times.extend(MET[number].iter().map(|&ground| {
        (tally.grounds[number][ground], format!("{name} refused on ground {ground}"))
    }));
    times
}

/// All that has to be reached, and how often it was.
fn times_of_all(tally: &Tally) -> Vec<(u64, String)> {
    let mut all: Vec<(u64, String)> =
        (1..CALLS).flat_map(|number| times_of_call(tally, number)).collect();
    all.extend(PLACED.iter().flat_map(|&ground| {
        (0..=LAST_PLACE).map(move |place| {
            (tally.places[ground][place], format!("ground {ground} at place {place}"))
        })
    }));
    all.extend(tally.reached.iter().map(|(what, &times)| (times, (*what).to_string())));
    all.extend(ANSWERS.iter().map(|answer| {
        (tally.answers.get(answer).copied().unwrap_or(0), format!("answer {answer}"))
    }));
    all
}

/// Prints what was not reached often enough, which is once in 100,000 calls each; whether
/// everything was.
fn is_reached(tally: &Tally) -> bool {
    let enough = tally.calls / 100_000;
    let mut rare = times_of_all(tally);
    rare.retain(|&(times, _)| times < enough);
    for (_, what) in &rare {
        println!("REACHED TOO SELDOM (under {enough} times): {what}");
    }
    rare.is_empty()
}

/// Prints the table of the registers; whether everything was reached.
pub fn print_registers(tally: &Tally) -> bool {
    const REQUESTS: [&str; 5] = ["none", "ask", "is_empty", "enter", "count"];
    const OUTCOMES: [&str; 6] = ["nothing", "granted", "yes", "no", "refused", "counted"];
    // Of each of three registers: no request, two answers of two questions, three of enter, a count.
    const ALL: usize = 3 * (1 + 4 + 3 + 1);
    println!("\nregister     request   outcome        how often");
    for (&(over, number, outcome, ground), times) in &tally.outcomes {
        let request = REQUESTS.get(usize::from(number)).unwrap_or(&"?");
        let outcome = OUTCOMES.get(usize::from(outcome)).unwrap_or(&"?");
        let ground = if ground == 0 { String::new() } else { format!(" on {ground}") };
        println!(
            "{:12} {request:9} {:13} {times:10}",
            format!("{over:?}"),
            format!("{outcome}{ground}")
        );
    }
    println!(
        "compared: {} sequences, {} requests, {} bytes of memory",
        tally.sequences, tally.requests, tally.memory_bytes
    );
    let enough = tally.requests / 100_000;
    let often = tally.outcomes.values().filter(|&&times| times >= enough).count();
    if often < ALL && enough > 0 {
        println!("REACHED TOO SELDOM (under {enough} times): {} of these {ALL}", ALL - often);
    }
    often == ALL || enough == 0
}
