//! The command line.

use crate::kinds::{Kind, KINDS};
use std::time::{Duration, SystemTime, UNIX_EPOCH};

pub const USAGE: &str = "usage: at_scale GATES [SEED]
       at_scale --seconds SECONDS [SEED]
       at_scale --case KIND SEED    with KIND gate, scan, sums, sweep, written or read";

/// How much is worked.
#[derive(Clone, Copy)]
pub enum Amount {
    Gates(u64),
    Time(Duration),
}

pub enum Command {
    Run { amount: Amount, seed: u64 },
    Case { kind: Kind, seed: u64 },
}

fn seed_from_clock() -> Option<u64> {
    let since = SystemTime::now().duration_since(UNIX_EPOCH).ok()?;
    Some(since.as_nanos() as u64)
}

fn run(amount: Amount, seed: &[&str]) -> Option<Command> {
    let seed = match seed {
        [] => seed_from_clock()?,
        [seed] => seed.parse().ok()?,
        _ => return None,
    };
    Some(Command::Run { amount, seed })
}

/// None where the words are not as the usage says.
pub fn command(words: &[&str]) -> Option<Command> {
    match words {
        ["--case", word, seed] => {
            let kind = KINDS.into_iter().find(|kind| kind.word() == *word)?;
            let seed = seed.parse().ok()?;
            Some(Command::Case { kind, seed })
        }
        ["--seconds", seconds, seed @ ..] => {
            let time = Duration::from_secs(seconds.parse().ok()?);
            run(Amount::Time(time), seed)
        }
        [gates, seed @ ..] => run(Amount::Gates(gates.parse().ok()?), seed),
        [] => None,
    }
}
