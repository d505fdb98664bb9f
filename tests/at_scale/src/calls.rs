//! The library's calls: by the crate's safe function where its types hold the numbers, so that both the crate and the library are tried,
//! and else by the function as C has it, which takes them all.

use crate::library::{from_placement, to_grid, to_head, to_number, to_site, to_weighting};
use plain_program::placement::{Grid, Placement, Site};
use plain_program::scan::Head;
use std::fmt::Debug;
use uldrevin::exports::{
    uldrevin_place, uldrevin_publish, uldrevin_record_write, uldrevin_tally, GridNumbers,
    ScanNumbers, SiteNumbers,
};
use uldrevin::{EntryLists, GateLists, Refusal, SumLists, OUTSIDE};

fn site_numbers(site: Site) -> SiteNumbers {
    SiteNumbers {
        latitude: site.latitude,
        longitude: site.longitude,
    }
}

fn grid_numbers(grid: Grid) -> GridNumbers {
    GridNumbers {
        kind: grid.kind,
        x: grid.x,
        y: grid.y,
        side: grid.side,
        columns: grid.columns,
        rows: grid.rows,
    }
}

pub fn scan_numbers(head: &Head) -> ScanNumbers {
    ScanNumbers {
        site: site_numbers(head.site),
        rays: head.rays,
        gates: head.gates,
        first: head.first,
        spacing: head.spacing,
        grid: grid_numbers(head.grid),
        weighting: head.weighting,
    }
}

fn number(refusal: Refusal) -> u32 {
    refusal.number
}

/// What stands in the numbers that were lent for output. After a refusal that has to be what stood there before.
fn left<T: PartialEq + Debug>(answer: u32, before: T, after: T) -> Result<T, u32> {
    match answer {
        0 => Ok(after),
        refusal => {
            assert_eq!(after, before, "refusal {refusal} left other numbers");
            Err(refusal)
        }
    }
}

/// The mark is a byte here, and has to be 1 or 0.
pub fn place_as_c(site: Site, grid: Grid, azimuth: i64, range: i64) -> Result<Placement, u32> {
    let (site, grid) = (site_numbers(site), grid_numbers(grid));
    let before = (7, 8, 9, 10);
    let (mut cell, mut x, mut y, mut mark) = before;
    // The pointers are to two structs and four numbers of this function.
    let answer = unsafe {
        uldrevin_place(
            &site, &grid, azimuth, range, &mut cell, &mut x, &mut y, &mut mark,
        )
    };
    let (cell, x, y, mark) = left(answer, before, (cell, x, y, mark))?;
    assert!(mark <= 1, "a mark is {mark}");
    Ok(Placement {
        x,
        y,
        cell: (cell != OUTSIDE).then_some(cell),
        mark: mark == 1,
    })
}

pub fn place(site: Site, grid: Grid, azimuth: i64, range: i64) -> Result<Placement, u32> {
    match (to_grid(grid), to_number(azimuth), to_number(range)) {
        (Some(grid), Some(azimuth), Some(range)) => {
            uldrevin::place(to_site(site), grid, azimuth, range)
                .map(from_placement)
                .map_err(number)
        }
        _ => place_as_c(site, grid, azimuth, range),
    }
}

fn answered(answer: u32) -> Result<(), u32> {
    match answer {
        0 => Ok(()),
        refusal => Err(refusal),
    }
}

fn tally_as_c(
    head: &Head,
    scan: GateLists,
    entries: &mut EntryLists,
    sums: &mut SumLists,
) -> Result<(), u32> {
    let numbers = scan_numbers(head);
    // Every pointer goes with the length of its own list, and no two lists of `entries` and `sums` overlap.
    answered(unsafe {
        uldrevin_tally(
            &numbers,
            scan.azimuths.as_ptr(),
            scan.azimuths.len(),
            scan.values.as_ptr(),
            scan.values.len(),
            scan.qualities.as_ptr(),
            scan.qualities.len(),
            entries.ledger.as_mut_ptr(),
            entries.ledger.len(),
            entries.marks.as_mut_ptr(),
            entries.marks.len(),
            sums.counts.as_mut_ptr(),
            sums.counts.len(),
            sums.quality_sums.as_mut_ptr(),
            sums.quality_sums.len(),
            sums.value_sums.as_mut_ptr(),
            sums.value_sums.len(),
            sums.weighted_sums.as_mut_ptr(),
            sums.weighted_sums.len(),
        )
    })
}

pub fn tally(
    head: &Head,
    scan: GateLists,
    entries: &mut EntryLists,
    sums: &mut SumLists,
) -> Result<(), u32> {
    match to_head(head) {
        Some(head) => uldrevin::tally_into(head, scan, entries, sums).map_err(number),
        None => tally_as_c(head, scan, entries, sums),
    }
}

fn publish_as_c(
    weighting: i64,
    sums: &SumLists,
    means: &mut [u16],
    cell_qualities: &mut [u8],
) -> Result<(), u32> {
    // Every pointer goes with the length of its own list, and no two lists overlap.
    answered(unsafe {
        uldrevin_publish(
            weighting,
            sums.counts.as_ptr(),
            sums.counts.len(),
            sums.quality_sums.as_ptr(),
            sums.quality_sums.len(),
            sums.value_sums.as_ptr(),
            sums.value_sums.len(),
            sums.weighted_sums.as_ptr(),
            sums.weighted_sums.len(),
            means.as_mut_ptr(),
            means.len(),
            cell_qualities.as_mut_ptr(),
            cell_qualities.len(),
        )
    })
}

pub fn publish(
    weighting: i64,
    sums: &SumLists,
    means: &mut [u16],
    cell_qualities: &mut [u8],
) -> Result<(), u32> {
    match to_weighting(weighting) {
        Some(weighting) => {
            uldrevin::publish_into(weighting, sums, means, cell_qualities).map_err(number)
        }
        None => publish_as_c(weighting, sums, means, cell_qualities),
    }
}

fn write_as_c(head: &Head, scan: GateLists, buffer: &mut [u8]) -> Result<usize, u32> {
    let numbers = scan_numbers(head);
    let before = 7;
    let mut length = before;
    // Every pointer goes with the length of its own list, and the buffer overlaps none of them.
    let answer = unsafe {
        uldrevin_record_write(
            &numbers,
            scan.azimuths.as_ptr(),
            scan.azimuths.len(),
            scan.values.as_ptr(),
            scan.values.len(),
            scan.qualities.as_ptr(),
            scan.qualities.len(),
            buffer.as_mut_ptr(),
            buffer.len(),
            &mut length,
        )
    };
    left(answer, before, length).map(|length| length as usize)
}

pub fn write(head: &Head, scan: GateLists, buffer: &mut [u8]) -> Result<usize, u32> {
    match to_head(head) {
        Some(head) => uldrevin::write_record_into(head, scan, buffer).map_err(number),
        None => write_as_c(head, scan, buffer),
    }
}
