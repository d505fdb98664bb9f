//! Works the library and the plain program on the same drawn cases and compares all that they answer and leave.

mod calls;
mod cell_sums;
mod command;
mod counts;
mod damage;
mod draw;
mod gates;
mod handed_in;
mod kinds;
mod lent_list;
mod outcome;
mod output_lists;
mod publishing;
mod record_bytes;
mod records_read;
mod records_written;
mod scan_input;
mod scans;
mod sites_and_grids;
mod sweep_alter;
mod sweep_caller;
mod sweep_calls;
mod sweep_draw;
mod sweep_held;
mod sweep_state;
mod sweep_step;
mod sweep_whole;
mod sweeps;

use at_scale::library;
use command::{command, Amount, Command, USAGE};
use counts::Counts;
use draw::Draw;
use kinds::Kind;
use outcome::{Answer, Outcome};
use plain_program::sine::Tables;
use std::process::ExitCode;
use std::time::Instant;

/// How often each kind comes before the first comes again.
const ROUND: [(Kind, usize); 6] = [
    (Kind::Gate, 60),
    (Kind::Scan, 15),
    (Kind::Sums, 15),
    (Kind::Sweep, 15),
    (Kind::Written, 15),
    (Kind::Read, 40),
];

const MOST_PRINTED: u64 = 10;

/// The command that works something again, without its last words.
const AGAIN: &str = "cargo run --release --offline -p at_scale --";

/// In so many cases each refusal number, also of a tally, of publishing and in each state of a sweep, each mark, and each number that 32
/// bits do not hold, comes up dozens of times, so one that does not is an error.
const CASES_FOR_ALL: u64 = 100_000;

fn print_difference(kind: Kind, seed: u64, outcome: &Outcome, counts: &Counts) {
    let Some(difference) = &outcome.difference else {
        return;
    };
    if counts.differences > MOST_PRINTED {
        return;
    }
    println!("DIFFERENCE in case {}, {}", counts.cases, kind.title());
    println!("  {difference}");
    println!("  again: {AGAIN} --case {} {seed}", kind.word());
}

fn enough(amount: Amount, counts: &Counts, start: Instant) -> bool {
    match amount {
        Amount::Gates(gates) => counts.gates >= gates,
        Amount::Time(time) => start.elapsed() >= time,
    }
}

fn work(amount: Amount, seed: u64, tables: &Tables) -> Counts {
    let (start, mut counts, mut seeds) = (Instant::now(), Counts::default(), Draw::new(seed));
    let round = ROUND.iter().flat_map(|&(kind, times)| vec![kind; times]);
    for kind in round.cycle() {
        if enough(amount, &counts, start) {
            break;
        }
        let seed = seeds.bits();
        let outcome = kind.work(seed, tables);
        counts.add(kind, &outcome);
        print_difference(kind, seed, &outcome, &counts);
    }
    counts
}

fn run(amount: Amount, seed: u64, tables: &Tables) -> ExitCode {
    match amount {
        Amount::Gates(gates) => println!("seed {seed}, again: {AGAIN} {gates} {seed}"),
        Amount::Time(time) => {
            let seconds = time.as_secs();
            println!("seed {seed}, again: {AGAIN} --seconds {seconds} {seed}");
        }
    }
    let start = Instant::now();
    let counts = work(amount, seed, tables);
    counts.print();
    let missing = match counts.cases {
        CASES_FOR_ALL.. => counts.missing(),
        _ => Vec::new(),
    };
    for line in &missing {
        println!("{line}");
    }
    println!(
        "{} gates, {} seconds",
        counts.gates,
        start.elapsed().as_secs()
    );
    println!("{} cases, {} differences", counts.cases, counts.differences);
    ExitCode::from(u8::from(counts.differences > 0 || !missing.is_empty()))
}

fn one_case(kind: Kind, seed: u64, tables: &Tables) -> ExitCode {
    println!("{}", kind.input(seed, tables));
    let outcome = kind.work(seed, tables);
    for Answer { call, number } in &outcome.answers {
        println!("answer of the plain program to {call}: {number}");
    }
    match outcome.difference {
        None => println!("no difference"),
        Some(ref difference) => println!("DIFFERENCE: {difference}"),
    }
    ExitCode::from(u8::from(outcome.difference.is_some()))
}

fn main() -> ExitCode {
    let words: Vec<String> = std::env::args().skip(1).collect();
    let words: Vec<&str> = words.iter().map(String::as_str).collect();
    let tables = Tables::new();
    match command(&words) {
        Some(Command::Run { amount, seed }) => run(amount, seed, &tables),
        Some(Command::Case { kind, seed }) => one_case(kind, seed, &tables),
        None => {
            eprintln!("{USAGE}");
            ExitCode::from(2)
        }
    }
}
