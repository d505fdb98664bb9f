//! Document 01, "The scan" and "Ledger and cells", T-02 and T-05: a whole scan is tallied to its ledger, marks and sums, and cells are
//! published from sums.
//!
//! What the site decides is worked once a scan, what the azimuth decides once a ray, and what the range decides once a gate number.

use crate::placement::{
    arc, check_grid, check_site, pair, Grid, Site, Sphere, Survey, Window, AZIMUTHS, HRAP, RADOLAN,
    RADOLAN_KIND, RANGES,
};
use crate::sine::Tables;
use std::ops::RangeInclusive;

pub const MOST_RAYS: i64 = 720;
pub const MOST_GATES: i64 = 1_000;
pub const MOST_SPACING: i64 = 1_000_000;
pub const MOST_QUALITY: u8 = 100;

pub const RAYS: RangeInclusive<i64> = 1..=MOST_RAYS;
pub const GATES: RangeInclusive<i64> = 1..=MOST_GATES; // in a ray
pub const SPACINGS: RangeInclusive<i64> = 1..=MOST_SPACING;

/// The weighting; any number but 0 is by quality.
pub const PLAIN: i64 = 0;
pub const BY_QUALITY: i64 = 1;

pub const OUTSIDE: u32 = 4_294_967_295;
pub const NO_ECHO: u16 = 65_534;
pub const NOT_MEASURED: u16 = 65_535;
pub const NO_MEAN: u16 = 65_535;
pub const LARGEST_MEAN: u64 = 65_533;

/// A scan's numbers, without its lists.
#[derive(Clone, Copy, Debug, PartialEq, Eq)]
pub struct Head {
    pub site: Site,
    pub rays: i64,
    pub gates: i64,
    pub first: i64,
    pub spacing: i64,
    pub grid: Grid,
    pub weighting: i64,
}

/// A scan's lists.
#[derive(Clone, Copy, Debug)]
pub struct Given<'a> {
    pub azimuths: &'a [u32],
    pub values: &'a [u16],
    pub qualities: &'a [u8],
}

/// The lent lists of gates: a ledger entry a gate, and a mark a gate, 1 or 0.
#[derive(Debug)]
pub struct Entries<'a> {
    pub ledger: &'a mut [u32],
    pub marks: &'a mut [u8],
}

/// The sums of the cells: the measured gates, their qualities, their values, and their values times their qualities.
#[derive(Clone, Copy, Debug)]
pub struct Sums<'a> {
    pub counts: &'a [u32],
    pub quality_sums: &'a [u32],
    pub value_sums: &'a [u64],
    pub weighted_sums: &'a [u64],
}

/// The sums lent, to be cleared and added to.
#[derive(Debug)]
pub struct LentSums<'a> {
    pub counts: &'a mut [u32],
    pub quality_sums: &'a mut [u32],
    pub value_sums: &'a mut [u64],
    pub weighted_sums: &'a mut [u64],
}

impl LentSums<'_> {
    pub(crate) fn read(&self) -> Sums<'_> {
        Sums {
            counts: self.counts,
            quality_sums: self.quality_sums,
            value_sums: self.value_sums,
            weighted_sums: self.weighted_sums,
        }
    }

    pub(crate) fn clear(&mut self) {
        self.counts.fill(0);
        self.quality_sums.fill(0);
        self.value_sums.fill(0);
        self.weighted_sums.fill(0);
    }
}

/// Refusal 3, of a head whose number of gates is good.
fn check_centres(head: &Head) -> Result<(), u32> {
    let good = RANGES.contains(&head.first)
        && SPACINGS.contains(&head.spacing)
        && RANGES.contains(&(head.first + (head.gates - 1) * head.spacing));
    good.then_some(()).ok_or(3)
}

/// Refusals 1 to 5.
pub(crate) fn check_head(head: &Head) -> Result<(), u32> {
    if !RAYS.contains(&head.rays) {
        return Err(1);
    }
    if !GATES.contains(&head.gates) {
        return Err(2);
    }
    check_centres(head)?;
    check_site(head.site)?;
    check_grid(head.grid)
}

/// Rays, and rays x gates, of a head that passed 1 and 2.
fn gate_lengths(head: &Head) -> (usize, usize) {
    (head.rays as usize, (head.rays * head.gates) as usize)
}

/// Columns x rows of a grid that passed 5.
pub(crate) fn cell_length(grid: Grid) -> usize {
    (grid.columns * grid.rows) as usize
}

/// Refusal 6 for azimuths, values and qualities.
pub(crate) fn check_gate_lengths(
    head: &Head,
    azimuths: usize,
    values: usize,
    qualities: usize,
) -> Result<(), u32> {
    let (rays, gates) = gate_lengths(head);
    let exact = azimuths == rays && values == gates && qualities == gates;
    exact.then_some(()).ok_or(6)
}

/// Refusal 6 for the ledger and the marks.
fn check_entries(head: &Head, entries: &Entries) -> Result<(), u32> {
    let (_, gates) = gate_lengths(head);
    let exact = entries.ledger.len() == gates && entries.marks.len() == gates;
    exact.then_some(()).ok_or(6)
}

/// Refusal 6 for the sums of so many cells.
pub(crate) fn check_sums(cells: usize, sums: Sums) -> Result<(), u32> {
    let exact = sums.counts.len() == cells
        && sums.quality_sums.len() == cells
        && sums.value_sums.len() == cells
        && sums.weighted_sums.len() == cells;
    exact.then_some(()).ok_or(6)
}

/// Refusal 6 for the means and qualities of so many cells.
pub(crate) fn check_cells(cells: usize, means: &[u16], cell_qualities: &[u8]) -> Result<(), u32> {
    let exact = means.len() == cells && cell_qualities.len() == cells;
    exact.then_some(()).ok_or(6)
}

/// Refusals 7 and 8.
pub(crate) fn check_contents(
    mut azimuths: impl Iterator<Item = u32>,
    qualities: &[u8],
) -> Result<(), u32> {
    if azimuths.any(|azimuth| !AZIMUTHS.contains(&i64::from(azimuth))) {
        return Err(7);
    }
    if qualities.iter().any(|&quality| quality > MOST_QUALITY) {
        return Err(8);
    }
    Ok(())
}

fn check(head: &Head, given: Given, entries: &Entries, sums: Sums) -> Result<(), u32> {
    check_head(head)?;
    check_gate_lengths(
        head,
        given.azimuths.len(),
        given.values.len(),
        given.qualities.len(),
    )?;
    check_entries(head, entries)?;
    check_sums(cell_length(head.grid), sums)?;
    check_contents(given.azimuths.iter().copied(), given.qualities)
}

#[inline(always)] // once for each kind of grid, with the kind's own constants
fn fill_entries(
    tables: &Tables,
    head: &Head,
    sphere: &Sphere,
    window: &Window,
    azimuths: &[u32],
    entries: Entries,
) {
    let survey = Survey::new(tables, sphere, head.site);
    let arcs: Vec<_> = (0..head.gates)
        .map(|gate| arc(sphere, head.first + gate * head.spacing))
        .collect();
    let ledger = entries.ledger.chunks_exact_mut(arcs.len());
    let marks = entries.marks.chunks_exact_mut(arcs.len());
    for ((&azimuth, ledger), marks) in azimuths.iter().zip(ledger).zip(marks) {
        let ray = pair(tables, i64::from(azimuth));
        for ((&arc, entry), mark) in arcs.iter().zip(ledger).zip(marks) {
            let position = survey.position(ray, arc);
            *entry = window.cell(position).unwrap_or(OUTSIDE);
            *mark = u8::from(window.mark(position));
        }
    }
}

/// The ledger entries and the marks of the gates, measured or not, of rays with these azimuths.
pub(crate) fn entries_of(tables: &Tables, head: &Head, azimuths: &[u32], entries: Entries) {
    if head.grid.kind == RADOLAN_KIND {
        let window = Window::of_radolan(head.grid);
        fill_entries(tables, head, &RADOLAN, &window, azimuths, entries);
    } else {
        let window = Window::of_hrap(head.grid);
        fill_entries(tables, head, &HRAP, &window, azimuths, entries);
    }
}

/// What a measured gate counts.
pub(crate) fn echo(value: u16) -> u16 {
    match value {
        NO_ECHO => 0,
        _ => value,
    }
}

/// Adds the measured gates inside to the sums of their cells.
fn add_gates(ledger: &[u32], given: Given, sums: LentSums) {
    for ((&entry, &value), &quality) in ledger.iter().zip(given.values).zip(given.qualities) {
        if entry == OUTSIDE || value == NOT_MEASURED {
            continue;
        }
        let cell = entry as usize;
        let counted = u64::from(echo(value));
        sums.counts[cell] += 1;
        sums.quality_sums[cell] += u32::from(quality);
        sums.value_sums[cell] += counted;
        sums.weighted_sums[cell] += counted * u64::from(quality);
    }
}

/// Tallies the scan into the lent lists, or answers the lowest refusal of 1 to 8 and leaves the lists alone. The head's weighting plays
/// no part.
pub fn tally(
    tables: &Tables,
    head: &Head,
    given: Given,
    entries: Entries,
    mut sums: LentSums,
) -> Result<(), u32> {
    check(head, given, &entries, sums.read())?;
    let Entries { ledger, marks } = entries;
    let filled = Entries {
        ledger: &mut *ledger,
        marks,
    };
    entries_of(tables, head, given.azimuths, filled);
    sums.clear();
    add_gates(ledger, given, sums);
    Ok(())
}

/// The quotient, where it is a mean. One of sums from a tally is at most 65,533; one of other sums may be more (T-01).
fn mean(sum: u64, divisor: u32) -> u16 {
    match sum.checked_div(u64::from(divisor)) {
        Some(mean @ 0..=LARGEST_MEAN) => mean as u16,
        _ => NO_MEAN,
    }
}

/// Of sums from a tally it is at most 100 by itself.
fn cell_quality(quality_sum: u32, count: u32) -> u8 {
    match quality_sum.checked_div(count) {
        Some(quality) => quality.min(u32::from(MOST_QUALITY)) as u8,
        None => 0,
    }
}

/// Publishes means and qualities from any sums, in the weighting. Refusal 6 unless all lists are equally long.
pub fn publish(
    weighting: i64,
    sums: Sums,
    means: &mut [u16],
    cell_qualities: &mut [u8],
) -> Result<(), u32> {
    let cells = sums.counts.len();
    check_sums(cells, sums)?;
    check_cells(cells, means, cell_qualities)?;
    for cell in 0..cells {
        let (count, quality_sum) = (sums.counts[cell], sums.quality_sums[cell]);
        means[cell] = match weighting {
            PLAIN => mean(sums.value_sums[cell], count),
            _ => mean(sums.weighted_sums[cell], quality_sum),
        };
        cell_qualities[cell] = cell_quality(quality_sum, count);
    }
    Ok(())
}

#[cfg(test)]
mod tests {
    use super::*;
    use crate::example::EXAMPLE;

    /// The lists of two gates and two cells.
    #[derive(Clone, Debug, PartialEq)]
    struct Lists {
        ledger: [u32; 2],
        counts: [u32; 2],
        quality_sums: [u32; 2],
        value_sums: [u64; 2],
        weighted_sums: [u64; 2],
        means: [u16; 2],
        cell_qualities: [u8; 2],
    }

    const BEFORE: Lists = Lists {
        ledger: [9; 2],
        counts: [9; 2],
        quality_sums: [9; 2],
        value_sums: [9; 2],
        weighted_sums: [9; 2],
        means: [9; 2],
        cell_qualities: [9; 2],
    };

    /// Tallies a ray of two gates, with the marks in a list of the caller.
    fn tally_into(
        head: &Head,
        azimuths: &[u32],
        values: [u16; 2],
        qualities: [u8; 2],
        marks: &mut [u8],
        lists: &mut Lists,
    ) -> Result<(), u32> {
        let given = Given {
            azimuths,
            values: &values,
            qualities: &qualities,
        };
        let entries = Entries {
            ledger: &mut lists.ledger,
            marks,
        };
        let sums = LentSums {
            counts: &mut lists.counts,
            quality_sums: &mut lists.quality_sums,
            value_sums: &mut lists.value_sums,
            weighted_sums: &mut lists.weighted_sums,
        };
        tally(&Tables::new(), head, given, entries, sums)
    }

    /// Mean and quality of cell 1.
    fn published(weighting: i64, lists: &mut Lists) -> (u16, u8) {
        let sums = Sums {
            counts: &lists.counts,
            quality_sums: &lists.quality_sums,
            value_sums: &lists.value_sums,
            weighted_sums: &lists.weighted_sums,
        };
        let (means, qualities) = (&mut lists.means, &mut lists.cell_qualities);
        assert_eq!(publish(weighting, sums, means, qualities), Ok(()));
        (lists.means[1], lists.cell_qualities[1])
    }

    /// Count, mean by each weighting and quality of the cell that has both gates, all from one tally.
    fn cell_of(values: [u16; 2], qualities: [u8; 2]) -> (u32, u16, u16, u8) {
        let mut lists = BEFORE;
        let answer = tally_into(&EXAMPLE, &[0], values, qualities, &mut [9; 2], &mut lists);
        assert_eq!(answer, Ok(()));
        let (plain, quality) = published(PLAIN, &mut lists);
        let (by_quality, same_quality) = published(BY_QUALITY, &mut lists);
        assert_eq!(quality, same_quality);
        (lists.counts[1], plain, by_quality, quality)
    }

    #[test]
    fn means_and_qualities() {
        assert_eq!(cell_of([1, 7], [90, 10]), (2, 4, 1, 50));
        assert_eq!(cell_of([1, 7], [0, 0]), (2, 4, NO_MEAN, 0));
        assert_eq!(cell_of([NO_ECHO, 7], [1, 2]), (2, 3, 4, 1));
        assert_eq!(cell_of([NOT_MEASURED, 7], [1, 2]), (1, 7, 7, 2));
    }

    #[test]
    fn sums_of_a_tally() {
        let mut lists = BEFORE;
        let answer = tally_into(&EXAMPLE, &[0], [1, 7], [90, 10], &mut [9; 2], &mut lists);
        let after = Lists {
            ledger: [1, 1],
            counts: [0, 2],
            quality_sums: [0, 100],
            value_sums: [0, 8],
            weighted_sums: [0, 160],
            ..BEFORE
        };
        assert_eq!((answer, lists), (Ok(()), after));
    }

    fn answer(head: Head) -> Result<(), u32> {
        tally_into(
            &head,
            &[0],
            [1, 7],
            [90, 10],
            &mut [9; 2],
            &mut BEFORE.clone(),
        )
    }

    #[test]
    fn last_centre() {
        let ends_at = |last: i64| Head {
            first: last - 100_000,
            ..EXAMPLE
        };
        assert_eq!(answer(ends_at(46_000_000)), Ok(()));
        assert_eq!(answer(ends_at(46_000_001)), Err(3));
    }

    #[test]
    fn the_lowest_number_is_given() {
        let site = Site {
            latitude: 0,
            longitude: 0,
        };
        assert_eq!(answer(Head { site, ..EXAMPLE }), Err(4));
        let none = Head {
            site,
            rays: 0,
            ..EXAMPLE
        };
        assert_eq!(answer(none), Err(1));
    }

    /// Numbers that 32 bits do not hold, also with a good number in the low 32.
    #[test]
    fn numbers_of_every_size() {
        for wrong in [-1, i64::MIN, i64::MAX, (1 << 32) + 1, 1 - (1 << 32)] {
            let [rays, gates, first, spacing] = [wrong; 4];
            assert_eq!(answer(Head { rays, ..EXAMPLE }), Err(1));
            assert_eq!(answer(Head { gates, ..EXAMPLE }), Err(2));
            assert_eq!(answer(Head { first, ..EXAMPLE }), Err(3));
            assert_eq!(answer(Head { spacing, ..EXAMPLE }), Err(3));
        }
    }

    /// One cell that no tally made, by each weighting.
    fn published_from(
        count: u32,
        quality_sum: u32,
        value_sum: u64,
        weighted_sum: u64,
    ) -> [(u16, u8); 2] {
        [PLAIN, BY_QUALITY].map(|weighting| {
            let mut lists = Lists {
                counts: [9, count],
                quality_sums: [9, quality_sum],
                value_sums: [9, value_sum],
                weighted_sums: [9, weighted_sum],
                ..BEFORE
            };
            published(weighting, &mut lists)
        })
    }

    #[test]
    fn any_sums_are_published() {
        let largest = 65_533;
        assert_eq!(
            published_from(1, 100, 65_533, 0),
            [(largest, 100), (0, 100)]
        );
        assert_eq!(
            published_from(1, 100, 65_534, 6_553_399),
            [(NO_MEAN, 100), (largest, 100)]
        );
        assert_eq!(
            published_from(1, 100, 65_536, 6_553_400),
            [(NO_MEAN, 100); 2]
        );
        assert_eq!(published_from(2, 201, 7, 200), [(3, 100), (0, 100)]);
        assert_eq!(published_from(2, 202, 8, 202), [(4, 100), (1, 100)]);
        assert_eq!(published_from(1, 256, 0, 0), [(0, 100); 2]);
        assert_eq!(published_from(0, 2, 5, 7), [(NO_MEAN, 0), (3, 0)]);
        assert_eq!(published_from(2, 0, 5, 7), [(2, 0), (NO_MEAN, 0)]);
        assert_eq!(published_from(0, 0, 5, 7), [(NO_MEAN, 0); 2]);
        let most = (u32::MAX, u64::MAX);
        assert_eq!(
            published_from(most.0, most.0, most.1, most.1),
            [(NO_MEAN, 1); 2]
        );
    }

    #[test]
    fn every_weighting_but_0_is_by_quality() {
        for weighting in [-1, 1, 2, 1 << 32, i64::MIN, i64::MAX] {
            let mut lists = Lists {
                value_sums: [8; 2],
                weighted_sums: [160; 2],
                ..BEFORE
            };
            assert_eq!(published(weighting, &mut lists), (17, 1));
            assert_eq!(published(PLAIN, &mut lists), (0, 1));
        }
    }

    #[test]
    fn the_weighting_plays_no_part_in_a_tally() {
        let tallied = |weighting| {
            let (mut lists, mut marks) = (BEFORE, [9; 2]);
            let head = Head {
                weighting,
                ..EXAMPLE
            };
            let answer = tally_into(&head, &[0], [1, 7], [90, 10], &mut marks, &mut lists);
            (answer, lists, marks)
        };
        for weighting in [PLAIN, -1, i64::MIN] {
            assert_eq!(tallied(weighting), tallied(BY_QUALITY));
        }
    }

    /// The answer with lists of so many numbers; a refusal leaves means and qualities.
    fn publish_lengths(sums: [usize; 4], means: usize, qualities: usize) -> Result<(), u32> {
        let [counts, quality_sums, value_sums, weighted_sums] = sums;
        let sums = Sums {
            counts: &vec![1; counts],
            quality_sums: &vec![1; quality_sums],
            value_sums: &vec![1; value_sums],
            weighted_sums: &vec![1; weighted_sums],
        };
        let (mut means, mut qualities) = (vec![9; means], vec![9; qualities]);
        let answer = publish(PLAIN, sums, &mut means, &mut qualities);
        let left = match answer {
            Ok(()) => 1,
            Err(_) => 9,
        };
        assert!(means.iter().all(|&mean| mean == left));
        assert!(qualities.iter().all(|&quality| u16::from(quality) == left));
        answer
    }

    #[test]
    fn published_lists_are_equally_long() {
        for length in [0, 1, 3] {
            assert_eq!(publish_lengths([length; 4], length, length), Ok(()));
        }
        for wrong in [2, 4] {
            for place in 0..4 {
                let mut sums = [3; 4];
                sums[place] = wrong;
                assert_eq!(publish_lengths(sums, 3, 3), Err(6));
            }
            assert_eq!(publish_lengths([3; 4], wrong, 3), Err(6));
            assert_eq!(publish_lengths([3; 4], 3, wrong), Err(6));
        }
        assert_eq!(publish_lengths([0; 4], 1, 1), Err(6));
    }

    /// Of gates that are not measured, east of the site: X is 0, on an edge line, and 100,000.
    fn marks_of<const N: usize>(head: Head, azimuth: u32) -> (Result<(), u32>, [u8; N]) {
        let mut marks = [9; N];
        let values = [NOT_MEASURED; 2];
        let answer = tally_into(
            &head,
            &[azimuth],
            values,
            [0; 2],
            &mut marks,
            &mut BEFORE.clone(),
        );
        (answer, marks)
    }

    #[test]
    fn marks() {
        assert_eq!(marks_of(EXAMPLE, 900_000), (Ok(()), [1, 0]));
        let outside = Head {
            grid: Grid {
                columns: 1,
                rows: 2,
                ..EXAMPLE.grid
            },
            ..EXAMPLE
        };
        assert_eq!(marks_of(outside, 900_000), (Ok(()), [1, 0]));
        assert_eq!(marks_of(EXAMPLE, 900_000), (Err(6), [9]));
        assert_eq!(marks_of(EXAMPLE, 900_000), (Err(6), [9; 3]));
        assert_eq!(marks_of(EXAMPLE, 3_600_000), (Err(7), [9; 2]));
    }

    #[test]
    fn refused_contents_leave_the_lists() {
        let refused = |azimuths: &[u32]| {
            let (mut lists, values) = (BEFORE, [NOT_MEASURED, 7]);
            let answer = tally_into(
                &EXAMPLE,
                azimuths,
                values,
                [101, 2],
                &mut [9; 2],
                &mut lists,
            );
            assert_eq!(lists, BEFORE);
            answer
        };
        assert_eq!(refused(&[3_599_999]), Err(8));
        assert_eq!(refused(&[3_600_000]), Err(7));
        assert_eq!(refused(&[0, 0]), Err(6));
    }

    #[test]
    fn lengths_of_the_sums() {
        for place in 0..4 {
            for wrong in [1, 3] {
                let mut lengths = [2; 4];
                lengths[place] = wrong;
                let [counts, quality_sums, value_sums, weighted_sums] = lengths;
                let given = Given {
                    azimuths: &[0],
                    values: &[1, 7],
                    qualities: &[90, 10],
                };
                let entries = Entries {
                    ledger: &mut [9; 2],
                    marks: &mut [9; 2],
                };
                let sums = LentSums {
                    counts: &mut vec![9; counts],
                    quality_sums: &mut vec![9; quality_sums],
                    value_sums: &mut vec![9; value_sums],
                    weighted_sums: &mut vec![9; weighted_sums],
                };
                let answer = tally(&Tables::new(), &EXAMPLE, given, entries, sums);
                assert_eq!(answer, Err(6));
            }
        }
    }
}
