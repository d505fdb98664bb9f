//! Document 02, T-01: a scan that is opened, fed with one ray or several at a time, and closed. T-02's marks go with the ledger, and
//! both value sums of T-05 are kept, whatever the weighting.
//!
//! Each operation takes the state by value and gives the new one. The totals of a group are worked out in wide numbers, and nothing is
//! written before every refusal has been ruled out.

use crate::placement::{Grid, HRAP_KIND, HRAP_SIDE};
use crate::scan::{
    cell_length, check_cells, check_contents, check_head, check_sums, echo, entries_of, publish,
    Entries, Given, Head, LentSums, Sums, BY_QUALITY, NOT_MEASURED, OUTSIDE, PLAIN,
};
use crate::sine::Tables;
use std::collections::BTreeMap;

/// `closed` of a state that takes rays; any other number is closed.
pub const OPEN: i64 = 0;
pub const CLOSED: i64 = 1;

/// Where a count of rays beyond 32 bits is taken to lie.
const MOST_COUNTED: i64 = 4_294_967_295;

/// The state of a sweep. Its numbers may be any of 64 bits.
#[derive(Clone, Copy, Debug, PartialEq, Eq)]
pub struct Sweep {
    pub head: Head,
    pub taken: i64,
    pub closed: i64,
}

/// A number of rays as it is compared: one outside 0 to 4,294,967,295 is that limit.
fn counted(number: i64) -> i64 {
    match number {
        0..=MOST_COUNTED => number,
        _ => MOST_COUNTED,
    }
}

/// A good head as a state holds it.
fn in_plain_form(head: Head) -> Head {
    let side = match head.grid.kind {
        HRAP_KIND => HRAP_SIDE,
        _ => head.grid.side,
    };
    let weighting = match head.weighting {
        PLAIN => PLAIN,
        _ => BY_QUALITY,
    };
    Head {
        grid: Grid { side, ..head.grid },
        weighting,
        ..head
    }
}

/// The ledger entries and the marks of a group's gates.
fn group_entries(tables: &Tables, head: &Head, given: Given) -> (Vec<u32>, Vec<u8>) {
    let gates = given.values.len();
    let (mut ledger, mut marks) = (vec![OUTSIDE; gates], vec![0; gates]);
    let entries = Entries {
        ledger: &mut ledger,
        marks: &mut marks,
    };
    entries_of(tables, head, given.azimuths, entries);
    (ledger, marks)
}

/// What a group adds to one cell.
#[derive(Clone, Copy, Default)]
struct Added {
    count: u128,
    quality: u128,
    value: u128,
    weighted: u128,
}

/// What a group adds to each cell that it reaches.
fn added_by(ledger: &[u32], given: Given) -> BTreeMap<usize, Added> {
    let mut cells: BTreeMap<usize, Added> = BTreeMap::new();
    for ((&entry, &value), &quality) in ledger.iter().zip(given.values).zip(given.qualities) {
        if entry == OUTSIDE || value == NOT_MEASURED {
            continue;
        }
        let (counted, quality) = (u128::from(echo(value)), u128::from(quality));
        let added = cells.entry(entry as usize).or_default();
        added.count += 1;
        added.quality += quality;
        added.value += counted;
        added.weighted += counted * quality;
    }
    cells
}

/// The sums of a cell.
struct Grown {
    count: u32,
    quality: u32,
    value: u64,
    weighted: u64,
}

/// The number with what is added, or refusal 31 where that passes its width.
fn sum<T: Copy + Into<u128> + TryFrom<u128>>(number: T, added: u128) -> Result<T, u32> {
    T::try_from(number.into() + added).map_err(|_| 31)
}

/// The cell's count and sums with the group added, or refusal 31.
fn grown(sums: Sums, cell: usize, added: Added) -> Result<Grown, u32> {
    Ok(Grown {
        count: sum(sums.counts[cell], added.count)?,
        quality: sum(sums.quality_sums[cell], added.quality)?,
        value: sum(sums.value_sums[cell], added.value)?,
        weighted: sum(sums.weighted_sums[cell], added.weighted)?,
    })
}

impl Sweep {
    /// Clears the sums and gives a state with no ray taken. Refusals 1 to 6.
    pub fn open(head: Head, mut sums: LentSums) -> Result<Sweep, u32> {
        check_head(&head)?;
        check_sums(cell_length(head.grid), sums.read())?;
        sums.clear();
        Ok(Sweep {
            head: in_plain_form(head),
            taken: 0,
            closed: OPEN,
        })
    }

    /// 19, 17 where the state with so many more rays has more than announced, and 1 to 5.
    fn check_numbers(&self, more: usize) -> Result<(), u32> {
        if self.closed != OPEN {
            return Err(19);
        }
        if counted(self.taken) as u128 + more as u128 > counted(self.head.rays) as u128 {
            return Err(17);
        }
        check_head(&self.head)
    }

    /// Refusal 6 for a group and what it is written to.
    fn check_group(&self, given: Given, lent: &Entries, sums: Sums) -> Result<(), u32> {
        let (rays, gates) = (given.azimuths.len(), self.head.gates as usize);
        let exact = rays >= 1
            && given.values.len() == rays * gates
            && given.qualities.len() == rays * gates
            && lent.ledger.len() == self.head.rays as usize * gates
            && lent.marks.len() == self.head.rays as usize * gates;
        if !exact {
            return Err(6);
        }
        check_sums(cell_length(self.head.grid), sums)
    }

    /// Takes the rays of a group. Refusals 19, 17, 1 to 8, 31.
    pub fn take(
        self,
        tables: &Tables,
        given: Given,
        lent: Entries,
        sums: LentSums,
    ) -> Result<Sweep, u32> {
        self.check_numbers(given.azimuths.len())?;
        self.check_group(given, &lent, sums.read())?;
        check_contents(given.azimuths.iter().copied(), given.qualities)?;
        let (ledger, marks) = group_entries(tables, &self.head, given);
        let grown: Vec<_> = added_by(&ledger, given)
            .into_iter()
            .map(|(cell, added)| Ok((cell, grown(sums.read(), cell, added)?)))
            .collect::<Result<_, u32>>()?;
        for (cell, grown) in grown {
            sums.counts[cell] = grown.count;
            sums.quality_sums[cell] = grown.quality;
            sums.value_sums[cell] = grown.value;
            sums.weighted_sums[cell] = grown.weighted;
        }
        let first = (self.taken * self.head.gates) as usize;
        lent.ledger[first..][..ledger.len()].copy_from_slice(&ledger);
        lent.marks[first..][..marks.len()].copy_from_slice(&marks);
        Ok(Sweep {
            head: in_plain_form(self.head),
            taken: self.taken + given.azimuths.len() as i64,
            closed: OPEN,
        })
    }

    /// Publishes the cells in the weighting that it was opened with and gives a closed state. Refusals 19, 17, 1 to 5, 18, 6.
    pub fn close(
        self,
        sums: Sums,
        means: &mut [u16],
        cell_qualities: &mut [u8],
    ) -> Result<Sweep, u32> {
        self.check_numbers(0)?;
        if self.taken < self.head.rays {
            return Err(18);
        }
        let cells = cell_length(self.head.grid);
        check_sums(cells, sums)?;
        check_cells(cells, means, cell_qualities)?;
        publish(self.head.weighting, sums, means, cell_qualities)?;
        Ok(Sweep {
            head: in_plain_form(self.head),
            taken: self.taken,
            closed: CLOSED,
        })
    }
}

#[cfg(test)]
mod tests {
    use super::*;
    use crate::example::EXAMPLE;
    use crate::scan::NO_MEAN;

    /// Both gates of a ray lie in cell 1.
    const TWO_RAYS: Head = Head { rays: 2, ..EXAMPLE };

    #[derive(Clone, Debug, PartialEq)]
    struct Lists {
        ledger: [u32; 4],
        marks: [u8; 4],
        counts: [u32; 2],
        quality_sums: [u32; 2],
        value_sums: [u64; 2],
        weighted_sums: [u64; 2],
        means: [u16; 2],
        cell_qualities: [u8; 2],
    }

    const BEFORE: Lists = Lists {
        ledger: [9; 4],
        marks: [9; 4],
        counts: [9; 2],
        quality_sums: [9; 2],
        value_sums: [9; 2],
        weighted_sums: [9; 2],
        means: [9; 2],
        cell_qualities: [9; 2],
    };

    fn open(head: Head, lists: &mut Lists) -> Result<Sweep, u32> {
        let sums = LentSums {
            counts: &mut lists.counts,
            quality_sums: &mut lists.quality_sums,
            value_sums: &mut lists.value_sums,
            weighted_sums: &mut lists.weighted_sums,
        };
        Sweep::open(head, sums)
    }

    fn take(sweep: Sweep, given: Given, lists: &mut Lists) -> Result<Sweep, u32> {
        let sums = LentSums {
            counts: &mut lists.counts,
            quality_sums: &mut lists.quality_sums,
            value_sums: &mut lists.value_sums,
            weighted_sums: &mut lists.weighted_sums,
        };
        let entries = Entries {
            ledger: &mut lists.ledger,
            marks: &mut lists.marks,
        };
        sweep.take(&Tables::new(), given, entries, sums)
    }

    fn close(sweep: Sweep, lists: &mut Lists) -> Result<Sweep, u32> {
        let sums = Sums {
            counts: &lists.counts,
            quality_sums: &lists.quality_sums,
            value_sums: &lists.value_sums,
            weighted_sums: &lists.weighted_sums,
        };
        sweep.close(sums, &mut lists.means, &mut lists.cell_qualities)
    }

    /// East of the site. X is 0, on an edge line, and 100,000.
    const RAY: Given = Given {
        azimuths: &[900_000],
        values: &[1, 7],
        qualities: &[90, 10],
    };

    const BOTH: Given = Given {
        azimuths: &[900_000, 900_000],
        values: &[1, 7, 1, 7],
        qualities: &[90, 10, 90, 10],
    };

    const EMPTY: Given = Given {
        azimuths: &[],
        values: &[],
        qualities: &[],
    };

    /// A sweep of two rays with the first taken.
    fn half() -> (Sweep, Lists) {
        let mut lists = BEFORE;
        let opened = open(TWO_RAYS, &mut lists).unwrap();
        let sweep = take(opened, RAY, &mut lists).unwrap();
        (sweep, lists)
    }

    #[test]
    fn ray_by_ray_and_both_at_once() {
        let (sweep, mut lists) = half();
        assert_eq!((sweep.taken, sweep.closed), (1, OPEN));
        assert_eq!(lists.ledger, [1, 1, 9, 9]);
        assert_eq!(lists.marks, [1, 0, 9, 9]);
        assert_eq!(lists.means, [9; 2]);
        let sweep = take(sweep, RAY, &mut lists).unwrap();
        let closed = close(sweep, &mut lists).unwrap();
        assert_eq!((closed.taken, closed.closed), (2, CLOSED));
        assert_eq!(lists.ledger, [1; 4]);
        assert_eq!(lists.marks, [1, 0, 1, 0]);
        assert_eq!((lists.counts, lists.quality_sums), ([0, 4], [0, 200]));
        assert_eq!((lists.value_sums, lists.weighted_sums), ([0, 16], [0, 320]));
        assert_eq!((lists.means, lists.cell_qualities), ([NO_MEAN, 1], [0, 50]));
        let mut at_once = BEFORE;
        let opened = open(TWO_RAYS, &mut at_once).unwrap();
        let sweep = take(opened, BOTH, &mut at_once).unwrap();
        assert_eq!(close(sweep, &mut at_once), Ok(closed));
        assert_eq!(at_once, lists);
    }

    /// The answers to taking the group and to closing, which have to leave the lists.
    fn refused(sweep: Sweep, given: Given) -> [u32; 2] {
        let mut lists = BEFORE;
        let answers = [
            take(sweep, given, &mut lists).unwrap_err(),
            close(sweep, &mut lists).unwrap_err(),
        ];
        assert_eq!(lists, BEFORE);
        answers
    }

    #[test]
    fn refused_in_order() {
        let (sweep, _) = half();
        let bad = Given {
            azimuths: &[3_600_000],
            values: &[1, 7],
            qualities: &[101, 10],
        };
        let wrong_head = Head {
            gates: 0,
            ..TWO_RAYS
        };
        let wrong = Sweep {
            head: wrong_head,
            ..sweep
        };
        let past = Sweep { taken: 3, ..wrong };
        let closed = Sweep { closed: -5, ..past };
        assert_eq!(refused(closed, bad), [19, 19]);
        assert_eq!(refused(past, bad), [17, 17]);
        assert_eq!(refused(wrong, bad), [2, 2]);
        assert_eq!(refused(sweep, EMPTY), [6, 18]);
        assert_eq!(refused(sweep, BOTH), [17, 18]);
        assert_eq!(refused(sweep, bad), [7, 18]);
        let bad_quality = Given {
            azimuths: &[0],
            ..bad
        };
        assert_eq!(refused(sweep, bad_quality), [8, 18]);
    }

    /// Also one that is not measured. North of the site X stays 0.
    #[test]
    fn every_gate_has_its_mark() {
        let group = Given {
            azimuths: &[900_000, 0],
            values: &[NOT_MEASURED; 4],
            qualities: &[0; 4],
        };
        let mut lists = BEFORE;
        let opened = open(TWO_RAYS, &mut lists).unwrap();
        assert!(take(opened, group, &mut lists).is_ok());
        assert_eq!(lists.marks, [1, 0, 1, 1]);
    }

    /// Ledger and marks are those of all rays announced.
    #[test]
    fn lengths_of_the_entries() {
        let answer = |ledger: &mut [u32], marks: &mut [u8]| {
            let (sweep, mut lists) = half();
            let sums = LentSums {
                counts: &mut lists.counts,
                quality_sums: &mut lists.quality_sums,
                value_sums: &mut lists.value_sums,
                weighted_sums: &mut lists.weighted_sums,
            };
            let taken = sweep.take(&Tables::new(), RAY, Entries { ledger, marks }, sums);
            taken.map(|sweep| sweep.taken)
        };
        assert_eq!(answer(&mut [9; 4], &mut [9; 4]), Ok(2));
        for length in [0, 2, 3, 5] {
            let (mut ledger, mut marks) = (vec![9; length], vec![9; length]);
            assert_eq!(answer(&mut ledger, &mut [9; 4]), Err(6));
            assert_eq!(answer(&mut [9; 4], &mut marks), Err(6));
            assert!(ledger.iter().all(|&entry| entry == 9) && marks.iter().all(|&mark| mark == 9));
        }
    }

    #[test]
    fn no_ray_past_the_last() {
        let (sweep, _) = half();
        let full = Sweep { taken: 2, ..sweep };
        let mut lists = BEFORE;
        assert_eq!(take(full, RAY, &mut lists), Err(17));
        assert_eq!(take(full, EMPTY, &mut lists), Err(6));
        assert_eq!(lists, BEFORE);
    }

    /// Counts of rays that 32 bits do not hold are their limit.
    #[test]
    fn counts_of_every_size() {
        let (sweep, _) = half();
        for wrong in [-1, i64::MIN, i64::MAX, (1 << 32) + 1, MOST_COUNTED] {
            let taken = Sweep {
                taken: wrong,
                ..sweep
            };
            assert_eq!(refused(taken, RAY), [17, 17]);
            let head = Head {
                rays: wrong,
                ..TWO_RAYS
            };
            assert_eq!(refused(Sweep { head, ..sweep }, RAY), [1, 1]);
            let both = Sweep { head, ..taken };
            assert_eq!(refused(both, EMPTY), [1, 1]);
            assert_eq!(refused(both, RAY), [17, 1]);
        }
    }

    /// The answer to a further ray, whose gates add 2, 100, 8 and 160 to cell 1, with one of its sums altered; a refusal leaves the lists.
    fn take_with(alter: impl Fn(&mut Lists)) -> Result<i64, u32> {
        let (sweep, mut lists) = half();
        alter(&mut lists);
        let before = lists.clone();
        let answer = take(sweep, RAY, &mut lists).map(|sweep| sweep.taken);
        if answer.is_err() {
            assert_eq!(lists, before);
        }
        answer
    }

    #[test]
    fn widths() {
        assert_eq!(take_with(|lists| lists.counts[1] = u32::MAX - 2), Ok(2));
        assert_eq!(take_with(|lists| lists.counts[1] = u32::MAX - 1), Err(31));
        let most = u32::MAX - 100;
        assert_eq!(take_with(|lists| lists.quality_sums[1] = most), Ok(2));
        assert_eq!(take_with(|lists| lists.quality_sums[1] = most + 1), Err(31));
        let most = u64::MAX - 8;
        assert_eq!(take_with(|lists| lists.value_sums[1] = most), Ok(2));
        assert_eq!(take_with(|lists| lists.value_sums[1] = most + 1), Err(31));
        let most = u64::MAX - 160;
        assert_eq!(take_with(|lists| lists.weighted_sums[1] = most), Ok(2));
        assert_eq!(
            take_with(|lists| lists.weighted_sums[1] = most + 1),
            Err(31)
        );
        let other_cell = |lists: &mut Lists| {
            lists.counts[0] = u32::MAX;
            lists.quality_sums[0] = u32::MAX;
            lists.value_sums[0] = u64::MAX;
            lists.weighted_sums[0] = u64::MAX;
        };
        assert_eq!(take_with(other_cell), Ok(2));
    }

    /// Both value sums grow, also in a sweep that is plain.
    #[test]
    fn both_value_sums_in_each_weighting() {
        for weighting in [PLAIN, BY_QUALITY, -5] {
            let mut lists = BEFORE;
            let head = Head {
                weighting,
                ..TWO_RAYS
            };
            let opened = open(head, &mut lists).unwrap();
            take(opened, BOTH, &mut lists).unwrap();
            assert_eq!((lists.value_sums[1], lists.weighted_sums[1]), (16, 320));
        }
    }

    /// Mean and quality of cell 1 from altered sums, in the weighting.
    fn published(weighting: i64, sums: (u32, u32, u64, u64)) -> (u16, u8) {
        let (sweep, mut lists) = half();
        let (count, quality_sum, value_sum, weighted_sum) = sums;
        lists.counts[1] = count;
        lists.quality_sums[1] = quality_sum;
        lists.value_sums[1] = value_sum;
        lists.weighted_sums[1] = weighted_sum;
        let head = Head {
            weighting,
            ..TWO_RAYS
        };
        let full = Sweep {
            head,
            taken: 2,
            ..sweep
        };
        close(full, &mut lists).unwrap();
        (lists.means[1], lists.cell_qualities[1])
    }

    #[test]
    fn altered_sums_published() {
        let by_quality = |sums| published(BY_QUALITY, sums);
        assert_eq!(by_quality((1, 100, 0, 6_553_399)), (65_533, 100));
        assert_eq!(by_quality((1, 100, 0, 6_553_400)), (NO_MEAN, 100));
        assert_eq!(by_quality((2, 202, 0, 0)), (0, 100));
        assert_eq!(by_quality((1, u32::MAX, 0, u64::MAX)), (NO_MEAN, 100));
        assert_eq!(by_quality((0, 1, 5, 1)), (1, 0));
        assert_eq!(by_quality((1, 0, 5, 1)), (NO_MEAN, 0));
        let plain = |sums| published(PLAIN, sums);
        assert_eq!(plain((1, 100, 65_533, 0)), (65_533, 100));
        assert_eq!(plain((1, 100, 65_534, 0)), (NO_MEAN, 100));
        assert_eq!(plain((0, 1, 5, 1)), (NO_MEAN, 0));
        assert_eq!(plain((1, 0, 5, 1)), (5, 0));
    }

    #[test]
    fn numbers_in_plain_form() {
        let odd = Head {
            grid: Grid {
                side: -7,
                ..EXAMPLE.grid
            },
            weighting: 1 << 40,
            ..TWO_RAYS
        };
        let mut lists = BEFORE;
        let opened = open(odd, &mut lists).unwrap();
        assert_eq!(opened.head, TWO_RAYS);
        let altered = Sweep {
            head: odd,
            ..opened
        };
        let taken = take(altered, BOTH, &mut lists).unwrap();
        assert_eq!(taken.head, TWO_RAYS);
        let altered = Sweep { head: odd, ..taken };
        assert_eq!(close(altered, &mut lists).unwrap().head, TWO_RAYS);
    }
}
