//! A sweep that is handed on untouched, against the tally of the whole scan of the rays that it took, and both sheets of the two.

use crate::calls;
use crate::lent_list::LentList;
use crate::output_lists::{Lengths, Lists};
use crate::publishing;
use crate::scan_input::ScanInput;
use crate::sweep_held::Held;
use plain_program::scan::{Head, BY_QUALITY, PLAIN};
use plain_program::sweep::{Sweep, OPEN};
use std::fmt::Debug;

/// What was done since the last accepted opening, as long as the latest state and untouched lists were handed on.
pub struct Untouched {
    /// As opened.
    head: Head,
    lists: Lists,
    pub latest: Sweep,
    /// The rays that were taken.
    taken: ScanInput,
}

impl Untouched {
    pub fn opened(head: Head, held: &Held) -> Untouched {
        let taken = ScanInput {
            head: Head { rays: 0, ..head },
            azimuths: Vec::new(),
            values: Vec::new(),
            qualities: Vec::new(),
        };
        Untouched {
            head,
            lists: held.lists.clone(),
            latest: held.state,
            taken,
        }
    }

    pub fn take(&mut self, group: &ScanInput) {
        self.taken.head.rays += group.azimuths.len() as i64;
        self.taken.azimuths.extend(&group.azimuths);
        self.taken.values.extend(&group.values);
        self.taken.qualities.extend(&group.qualities);
    }

    /// What the library tallies of the whole scan of these rays; with no ray, sums of 0.
    fn whole(&self) -> Result<Lists, u32> {
        let cells = (self.head.grid.columns * self.head.grid.rows) as usize;
        let lengths = Lengths::exact(self.taken.values.len(), cells);
        let mut lists = Lists::new(&lengths, 0, 0);
        let entries = &mut uldrevin::EntryLists {
            ledger: lists.ledger.lent(),
            marks: lists.marks.lent(),
        };
        let sums = &mut uldrevin::SumLists {
            counts: lists.counts.lent(),
            quality_sums: lists.quality_sums.lent(),
            value_sums: lists.value_sums.lent(),
            weighted_sums: lists.weighted_sums.lent(),
        };
        if self.taken.azimuths.is_empty() {
            sums.counts.fill(0);
            sums.quality_sums.fill(0);
            sums.value_sums.fill(0);
            sums.weighted_sums.fill(0);
        } else {
            calls::tally(&self.taken.head, self.taken.gate_lists(), entries, sums)?;
        }
        Ok(lists)
    }

    /// Ledger, marks and sums against those of the whole scan, entries and marks of rays not taken against those at opening.
    fn compare_tallied(&self, lists: &Lists, whole: &Lists) -> Option<String> {
        let ledger = put_before(&whole.ledger, &self.lists.ledger);
        let marks = put_before(&whole.marks, &self.lists.marks);
        differ("ledger", lists.ledger.read(), &ledger)
            .or_else(|| differ("marks", lists.marks.read(), &marks))
            .or_else(|| same("counts", &lists.counts, &whole.counts))
            .or_else(|| same("quality_sums", &lists.quality_sums, &whole.quality_sums))
            .or_else(|| same("value_sums", &lists.value_sums, &whole.value_sums))
            .or_else(|| same("weighted_sums", &lists.weighted_sums, &whole.weighted_sums))
    }

    /// Compares what the sweep left with the whole scan. The cells before closing are those at opening.
    fn compare_whole(&self, held: &Held) -> Result<Option<String>, u32> {
        let whole = self.whole()?;
        let cells = match self.latest.closed {
            OPEN => self.lists.clone(),
            _ => sheet(self.head.weighting, &whole)?,
        };
        let mut difference = self
            .compare_tallied(&held.lists, &whole)
            .or_else(|| same_cells(&held.lists, &cells));
        for weighting in [PLAIN, BY_QUALITY] {
            let (swept, tallied) = (sheet(weighting, &held.lists)?, sheet(weighting, &whole)?);
            difference = difference.or_else(|| same_cells(&swept, &tallied));
        }
        Ok(difference)
    }

    pub fn compare(&self, held: &Held) -> Option<String> {
        let refused = |number| {
            Some(format!(
                "the whole scan of these rays is refused by {number}"
            ))
        };
        self.compare_whole(held).unwrap_or_else(refused)
    }
}

/// The lists with the cells that the library publishes from their sums.
fn sheet(weighting: i64, lists: &Lists) -> Result<Lists, u32> {
    let mut published = lists.clone();
    publishing::by_library(weighting, &mut published)?;
    Ok(published)
}

fn same_cells(swept: &Lists, whole: &Lists) -> Option<String> {
    let (qualities, whole_qualities) = (&swept.cell_qualities, &whole.cell_qualities);
    same("means", &swept.means, &whole.means)
        .or_else(|| same("cell_qualities", qualities, whole_qualities))
}

/// The whole scan's list of its gates, and behind it what stood in the longer list at opening.
fn put_before<T>(whole: &LentList<T>, at_opening: &LentList<T>) -> Vec<T>
where
    T: Copy + PartialEq + Debug,
{
    let rest = &at_opening.read()[whole.read().len()..];
    [whole.read(), rest].concat()
}

fn same<T>(name: &str, swept: &LentList<T>, whole: &LentList<T>) -> Option<String>
where
    T: Copy + PartialEq + Debug,
{
    differ(name, swept.read(), whole.read())
}

fn differ<T: Copy + PartialEq + Debug>(name: &str, swept: &[T], whole: &[T]) -> Option<String> {
    let place = (0..swept.len()).find(|&place| swept[place] != whole[place])?;
    let (swept, whole) = (swept[place], whole[place]);
    Some(format!(
        "{name}[{place}]: the sweep has {swept:?}, the whole scan {whole:?}"
    ))
}
