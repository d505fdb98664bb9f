//! Counts of what was worked, and their table.

use crate::handed_in::beyond_32_bits;
use crate::kinds::{Kind, KINDS};
use crate::outcome::Outcome;
use crate::publishing::PUBLISH;
use crate::scans::TALLY;
use crate::sweep_state::CALLS;
use std::collections::{BTreeMap, BTreeSet};

/// The refusal numbers of document 01 and of T-01.
pub const REFUSALS: [u32; 18] = [
    1, 2, 3, 4, 5, 6, 7, 8, 11, 12, 13, 14, 15, 16, 17, 18, 19, 31,
];

/// The calls of whole scans and of any sums, with the answers that a long run must have met.
const TALLIED_AND_PUBLISHED: [(Kind, &str, &[u32]); 3] = [
    (Kind::Scan, TALLY, &[0, 1, 2, 3, 4, 5, 6, 7, 8]),
    (Kind::Scan, PUBLISH, &[0, 6]),
    (Kind::Sums, PUBLISH, &[0, 6]),
];

#[derive(Default)]
struct KindCounts {
    cases: u64,
    gates: u64,
    /// How many of them are marked, where the calls tell marks.
    marked: Option<u64>,
    /// How often each call had each answer.
    answers: BTreeMap<(&'static str, u32), u64>,
    /// For each number that is handed in, how often 32 bits do not hold it.
    beyond: BTreeMap<&'static str, u64>,
}

impl KindCounts {
    fn calls(&self) -> u64 {
        self.answers.values().sum()
    }

    fn answered(&self, number: u32) -> u64 {
        let these = self
            .answers
            .iter()
            .filter(|((_, given), _)| *given == number);
        these.map(|(_, times)| times).sum()
    }

    fn refused(&self) -> u64 {
        self.calls() - self.answered(0)
    }

    fn unmarked(&self) -> Option<u64> {
        self.marked.map(|marked| self.gates - marked)
    }
}

#[derive(Default)]
pub struct Counts {
    kinds: [KindCounts; KINDS.len()],
    pub cases: u64,
    pub gates: u64,
    pub differences: u64,
}

impl Counts {
    pub fn add(&mut self, kind: Kind, outcome: &Outcome) {
        let counts = &mut self.kinds[kind as usize];
        counts.cases += 1;
        counts.gates += outcome.gates as u64;
        if let Some(marked) = outcome.marked {
            *counts.marked.get_or_insert(0) += marked as u64;
        }
        for answer in &outcome.answers {
            *counts
                .answers
                .entry((answer.call, answer.number))
                .or_default() += 1;
        }
        for &(name, number) in &outcome.handed_in {
            *counts.beyond.entry(name).or_default() += u64::from(beyond_32_bits(number));
        }
        self.cases += 1;
        self.gates += outcome.gates as u64;
        self.differences += u64::from(outcome.difference.is_some());
    }

    fn refused_by(&self, number: u32) -> u64 {
        self.kinds.iter().map(|kind| kind.answered(number)).sum()
    }

    fn answers_of(&self, kind: Kind, call: &'static str, number: u32) -> u64 {
        let answers = &self.kinds[kind as usize].answers;
        answers.get(&(call, number)).copied().unwrap_or(0)
    }

    fn of_sweep(&self, call: &'static str, number: u32) -> u64 {
        self.answers_of(Kind::Sweep, call, number)
    }

    /// The marks that no gate of a kind had.
    fn missing_marks(&self, kind: Kind) -> impl Iterator<Item = String> {
        let counts = &self.kinds[kind as usize];
        let had = [(counts.marked, "marked"), (counts.unmarked(), "unmarked")];
        let none = had.into_iter().filter(|(gates, _)| *gates == Some(0));
        none.map(move |(_, mark)| format!("no gate was {mark} in {}", kind.title()))
    }

    /// What no case tried: refusal numbers, answers to tallies, to publishing and to a sweep's calls, and, for each kind, marks and
    /// numbers that 32 bits do not hold.
    pub fn missing(&self) -> Vec<String> {
        let refusals = REFUSALS
            .into_iter()
            .filter(|&number| self.refused_by(number) == 0)
            .map(|number| format!("no case was refused by {number}"));
        let in_32_bits = |kind: Kind| {
            let numbers = self.kinds[kind as usize].beyond.iter();
            let always = numbers.filter(|(_, &cases)| cases == 0);
            always.map(move |(name, _)| format!("32 bits held every {name} in {}", kind.title()))
        };
        let answers_to = |(kind, call, numbers): (Kind, &'static str, &'static [u32])| {
            let never = numbers
                .iter()
                .filter(move |&&number| self.answers_of(kind, call, number) == 0);
            let title = kind.title();
            never.map(move |number| format!("no call was answered by {number}: {call}, {title}"))
        };
        let of_sweeps = CALLS.map(|(call, numbers)| (Kind::Sweep, call, numbers));
        refusals
            .chain(TALLIED_AND_PUBLISHED.into_iter().flat_map(answers_to))
            .chain(of_sweeps.into_iter().flat_map(answers_to))
            .chain(KINDS.into_iter().flat_map(|kind| self.missing_marks(kind)))
            .chain(KINDS.into_iter().flat_map(in_32_bits))
            .collect()
    }

    /// A dash stands where the kind has no such number.
    fn print_row(&self, title: &str, of_kind: impl Fn(&KindCounts) -> Option<u64>) {
        print!("{title:>10}");
        for counts in &self.kinds {
            let count = of_kind(counts).map_or("-".to_string(), |count| count.to_string());
            print!("{count:>17}");
        }
        println!();
    }

    /// A line for each call of a sweep and the state that is handed in.
    fn print_sweeps(&self) {
        println!("answers to the calls of a sweep:");
        for (call, _) in CALLS {
            print!("{call:>21}");
            for number in [0].into_iter().chain(REFUSALS) {
                match self.of_sweep(call, number) {
                    0 => {}
                    times => print!("  {number}: {times}"),
                }
            }
            println!();
        }
    }

    /// A column for each kind; a row for each mark, for each refusal number, and for each number that is handed in.
    pub fn print(&self) {
        print!("{:>10}", "");
        for kind in KINDS {
            print!("{:>17}", kind.title());
        }
        println!();
        self.print_row("cases", |counts| Some(counts.cases));
        self.print_row("calls", |counts| Some(counts.calls()));
        self.print_row("gates", |counts| Some(counts.gates));
        self.print_row("marked", |counts| counts.marked);
        self.print_row("unmarked", KindCounts::unmarked);
        self.print_row("refused", |counts| Some(counts.refused()));
        for number in REFUSALS {
            self.print_row(&format!("by {number}"), |counts| {
                Some(counts.answered(number))
            });
        }
        self.print_sweeps();
        println!("calls with a number that 32 bits do not hold:");
        let names: BTreeSet<_> = self
            .kinds
            .iter()
            .flat_map(|kind| kind.beyond.keys())
            .collect();
        for name in names {
            self.print_row(name, |counts| counts.beyond.get(name).copied());
        }
    }
}
