//! The states in which a sweep is called, and which answers each of them has to be met with.

use crate::sweep_step::Step;
use plain_program::sweep::{Sweep, OPEN};

/// The calls by the state that is handed in, with the answers that a long run must have met.
pub const CALLS: [(&str, &[u32]); 13] = [
    ("open", &[0, 1, 2, 3, 4, 5, 6]),
    ("take the first", &[0, 1, 2, 3, 4, 5, 6, 7, 8, 17, 31]),
    ("take between", &[0, 1, 2, 3, 4, 5, 6, 7, 8, 17, 31]),
    ("take after the last", &[6, 17]),
    ("take, too many", &[17]),
    ("take, closed", &[19]),
    ("close at the first", &[1, 2, 3, 4, 5, 18]),
    ("close between", &[1, 2, 3, 4, 5, 18]),
    ("close after the last", &[0, 1, 2, 3, 4, 5, 6]),
    ("close, too many", &[17]),
    ("close, closed", &[19]),
    (WHOLE_SCAN, &[0]),
    (WHOLE_SCAN_SO_FAR, &[0]),
];

/// The whole scan of the rays that a sweep took, which is worked at the end: of a closed sweep and of one that is not.
pub const WHOLE_SCAN: &str = "whole scan";
pub const WHOLE_SCAN_SO_FAR: &str = "whole scan so far";

/// A number of rays as T-01's calls compare it.
fn counted(number: i64) -> u32 {
    u32::try_from(number).unwrap_or(u32::MAX)
}

/// The call and the state that is handed in, as above.
pub fn call_name(step: &Step, state: &Sweep) -> &'static str {
    let (taken, rays) = (counted(state.taken), counted(state.head.rays));
    let place = match step {
        Step::Open(..) => return CALLS[0].0,
        _ if state.closed != OPEN => 5,
        _ if taken > rays => 4,
        _ if taken == rays => 3,
        _ if taken > 0 => 2,
        _ => 1,
    };
    match step {
        Step::Close(_) => CALLS[place + 5].0,
        _ => CALLS[place].0,
    }
}
