//! Compares the static libraries for C with an implementation of their documents.

mod abi;
mod alter;
mod check;
mod comparer;
mod differ;
mod generate;
mod lives;
mod measure;
mod random;
mod report;
mod sequences;
mod tally;
mod twin;

use std::process::ExitCode;

use tally::Tally;

const USAGE: &str =
    "options: --seed N, --calls N, --requests N, --rounds N, --life N, --sequence N";

/// What the arguments ask for.
struct Options {
    seed: u64,
    calls: u64,
    requests: u64,
    rounds: u64,
    life: Option<u64>,
    sequence: Option<u64>,
}

fn options() -> Option<Options> {
    let mut options = Options {
        seed: 1,
        calls: 3_000_000,
        requests: 3_000_000,
        rounds: 60,
        life: None,
        sequence: None,
    };
    let mut arguments = std::env::args().skip(1);
    while let Some(name) = arguments.next() {
        let number = arguments.next()?.parse().ok()?;
        match name.as_str() {
            "--seed" => options.seed = number,
            "--calls" => options.calls = number,
            "--requests" => options.requests = number,
            "--rounds" => options.rounds = number,
            "--life" => options.life = Some(number),
            "--sequence" => options.sequence = Some(number),
            _ => return None,
        }
    }
    Some(options)
}

fn main() -> ExitCode {
    let Some(options) = options() else {
        eprintln!("{USAGE}");
        return ExitCode::from(2);
    };
    if run(&options) { ExitCode::SUCCESS } else { ExitCode::FAILURE }
}

/// Does what is asked for; whether there was no difference and everything was reached.
fn run(options: &Options) -> bool {
    println!("seed {}", options.seed);
    let mut tally = Tally::default();
    if let Some(number) = options.life {
        check::check_life(options.seed, number, &mut tally);
    }
    if let Some(number) = options.sequence {
        check::check_sequence(options.seed, number, &mut tally);
    }
    let only = options.life.or(options.sequence).is_some();
    let right = only || run_all(options, &mut tally);
    println!("\ndifferences: {}", tally.differences);
    right && tally.differences == 0
}

/// Whether the comparer noticed every alteration, and everything was reached.
fn run_all(options: &Options, tally: &mut Tally) -> bool {
    let noticed = comparer::check_comparer(options.seed);
    check::check_lives(options.seed, options.calls, tally);
    let lives = report::print_lives(tally);
    check::check_registers(options.seed, options.requests, tally);
    let registers = report::print_registers(tally);
    if options.rounds > 0 {
        measure::measure(options.seed, options.rounds as usize);
    }
    noticed && lives && registers
}
