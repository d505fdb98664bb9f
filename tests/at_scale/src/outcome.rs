//! What comes of one case.

use crate::handed_in::Named;
use std::fmt::Debug;

/// The plain program's answer to a call.
#[derive(Clone, Copy, Debug, PartialEq, Eq)]
pub struct Answer {
    pub call: &'static str,
    /// The refusal number, 0 where nothing is refused.
    pub number: u32,
}

pub struct Outcome {
    /// One for each call of the case.
    pub answers: Vec<Answer>,
    /// The gates of accepted calls; a refused call has none.
    pub gates: usize,
    /// How many of them are marked, where the calls tell marks.
    pub marked: Option<usize>,
    /// The numbers that were handed in, other than those of lists and records.
    pub handed_in: Vec<Named>,
    /// Where the library differs.
    pub difference: Option<String>,
}

impl Outcome {
    /// Of a case that is one call, and tells no marks.
    pub fn new<T>(
        call: &'static str,
        plain: &Result<T, u32>,
        gates: usize,
        handed_in: Vec<Named>,
        difference: Option<String>,
    ) -> Outcome {
        let (number, gates) = match plain {
            Ok(_) => (0, gates),
            Err(number) => (*number, 0),
        };
        Outcome {
            answers: vec![Answer { call, number }],
            gates,
            marked: None,
            handed_in,
            difference,
        }
    }
}

/// Says how two answers to the same call differ.
pub fn compare_answers<T: PartialEq + Debug>(call: &str, library: &T, plain: &T) -> Option<String> {
    (library != plain)
        .then(|| format!("{call}: the library gives {library:?}, the plain program {plain:?}"))
}
