//! Sweeps: after every call the answer, the state and all lists by the library and by the plain program; at the end the whole scan of the
//! rays taken.

use crate::handed_in::{scan_numbers, Named};
use crate::outcome::{compare_answers, Answer, Outcome};
use crate::output_lists::{count_marked, Lengths, Lists};
use crate::sweep_draw::Case;
use crate::sweep_held::{by_library, by_plain_program, Held};
use crate::sweep_state::{call_name, WHOLE_SCAN, WHOLE_SCAN_SO_FAR};
use crate::sweep_step::{number_of, Step};
use crate::sweep_whole::Untouched;
use plain_program::sine::Tables;
use plain_program::sweep::{Sweep, OPEN};

/// A run through the steps.
struct Run<'a> {
    case: &'a Case,
    tables: &'a Tables,
    plain: Held,
    library: Held,
    kept: Sweep,
    untouched: Option<Untouched>,
    answers: Vec<Answer>,
    gates: usize,
    marked: usize,
    handed_in: Vec<Named>,
}

impl<'a> Run<'a> {
    fn new(case: &'a Case, tables: &'a Tables) -> Run<'a> {
        let begin = Held {
            state: case.begin,
            lists: Lists::new(&case.lengths, case.margin, case.contents),
        };
        Run {
            case,
            tables,
            plain: begin.clone(),
            library: begin,
            kept: case.begin,
            untouched: None,
            answers: Vec::new(),
            gates: 0,
            marked: 0,
            handed_in: Vec::new(),
        }
    }

    /// Both callers alter what they hold.
    fn alter(&mut self, step: &Step) {
        for held in [&mut self.plain, &mut self.library] {
            match *step {
                Step::AlterState(name, number) => *number_of(&mut held.state, name) = number,
                Step::Restore => held.state = self.kept,
                Step::AlterSums(sums) => sums.put(&mut held.lists),
                _ => {}
            }
        }
        match step {
            Step::Keep => self.kept = self.plain.state,
            Step::AlterSums(_) => self.untouched = None,
            _ => {}
        }
    }

    fn note_numbers(&mut self, step: &Step) {
        match step {
            Step::Open(head, _) => self.handed_in.extend(scan_numbers(head)),
            _ => {
                let state = self.plain.state;
                let own = [("taken", state.taken), ("closed", state.closed)];
                self.handed_in.extend(scan_numbers(&state.head));
                self.handed_in.extend(own);
            }
        }
    }

    /// Counts the gates of rays that were taken, and how many of them are marked.
    fn count_gates(&mut self, lengths: &Lengths, handed: Sweep) {
        let gate_before = |taken: i64| (taken * handed.head.gates) as usize;
        let taken = gate_before(handed.taken)..gate_before(self.plain.state.taken);
        let marks = &self.plain.lists.marks.first(lengths.marks)[taken];
        self.gates += marks.len();
        self.marked += count_marked(marks);
    }

    /// Follows a sweep that is handed on untouched.
    fn follow(&mut self, step: &Step, handed: Sweep) {
        match (step, &mut self.untouched) {
            (Step::Open(head, _), untouched) => {
                *untouched = Some(Untouched::opened(*head, &self.plain));
            }
            (_, Some(untouched)) if untouched.latest == handed => {
                if let Step::Take(group, _) = step {
                    untouched.take(group);
                }
                untouched.latest = self.plain.state;
            }
            (_, untouched) => *untouched = None,
        }
    }

    /// Works a step that is a call, and says how the library differs.
    fn call(&mut self, step: &Step) -> Option<String> {
        let before = self.plain.clone();
        let call = call_name(step, &before.state);
        self.note_numbers(step);
        let number = by_plain_program(step, self.tables, &mut self.plain);
        let library = by_library(step, self.case.as_c, &mut self.library);
        self.answers.push(Answer { call, number });
        let unchanged = || match number {
            0 => None,
            _ => self.library.compare(&before, "before stood"),
        };
        let difference = compare_answers(call, &library, &number)
            .or_else(|| self.library.compare(&self.plain, "the plain program"))
            .or_else(unchanged);
        if number == 0 {
            if let Step::Take(_, lengths) = step {
                self.count_gates(lengths, before.state);
            }
            self.follow(step, before.state);
        }
        // Gates of one scan cannot pass a width.
        let handed_on = |untouched: &Untouched| untouched.latest == before.state;
        let passed = number == 31 && self.untouched.as_ref().is_some_and(handed_on);
        difference.or_else(|| passed.then(|| "31 in a sweep that nobody altered".to_string()))
    }

    fn step(&mut self, step: &Step) -> Option<String> {
        match step {
            Step::Open(..) | Step::Take(..) | Step::Close(..) => self.call(step),
            _ => {
                self.alter(step);
                None
            }
        }
    }

    fn difference(&mut self) -> Option<String> {
        for (place, step) in self.case.steps.iter().enumerate() {
            if let Some(difference) = self.step(step) {
                return Some(format!("step {place}: {difference}"));
            }
        }
        let untouched = self.untouched.as_ref()?;
        let call = match untouched.latest.closed {
            OPEN => WHOLE_SCAN_SO_FAR,
            _ => WHOLE_SCAN,
        };
        self.answers.push(Answer { call, number: 0 });
        untouched.compare(&self.library)
    }
}

pub fn compare(case: &Case, tables: &Tables) -> Outcome {
    let mut run = Run::new(case, tables);
    let difference = run.difference();
    Outcome {
        answers: run.answers,
        gates: run.gates,
        marked: Some(run.marked),
        handed_in: run.handed_in,
        difference,
    }
}
