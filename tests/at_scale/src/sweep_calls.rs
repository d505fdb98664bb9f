//! The library's three calls of a sweep, each by the crate's safe function and by the function as C has it. Only the latter takes every
//! number, and only it shows all that stands in the state afterwards.

use crate::calls::scan_numbers;
use crate::library::{from_head, from_numbers, to_head, to_number};
use plain_program::scan::Head;
use plain_program::sweep::{Sweep, CLOSED, OPEN};
use uldrevin::exports::{
    uldrevin_sweep_close, uldrevin_sweep_open, uldrevin_sweep_take, SweepNumbers,
};
use uldrevin::{EntryLists, GateLists, Refusal, SumLists};

fn sweep_numbers(sweep: &Sweep) -> SweepNumbers {
    SweepNumbers {
        scan: scan_numbers(&sweep.head),
        taken: sweep.taken,
        closed: sweep.closed,
    }
}

/// Puts what stands in the numbers into the state.
fn put(sweep: &mut Sweep, numbers: SweepNumbers) {
    *sweep = Sweep {
        head: from_numbers(numbers.scan),
        taken: numbers.taken,
        closed: numbers.closed,
    };
}

pub fn open_as_c(head: &Head, sums: &mut SumLists, sweep: &mut Sweep) -> u32 {
    let (scan, mut numbers) = (scan_numbers(head), sweep_numbers(sweep));
    // The structs are this function's, every pointer to numbers goes with the length of its own list, and no two overlap.
    let answer = unsafe {
        uldrevin_sweep_open(
            &scan,
            sums.counts.as_mut_ptr(),
            sums.counts.len(),
            sums.quality_sums.as_mut_ptr(),
            sums.quality_sums.len(),
            sums.value_sums.as_mut_ptr(),
            sums.value_sums.len(),
            sums.weighted_sums.as_mut_ptr(),
            sums.weighted_sums.len(),
            &mut numbers,
        )
    };
    put(sweep, numbers);
    answer
}

pub fn take_as_c(
    sweep: &mut Sweep,
    rays: GateLists,
    entries: &mut EntryLists,
    sums: &mut SumLists,
) -> u32 {
    let mut numbers = sweep_numbers(sweep);
    // As in `open_as_c`.
    let answer = unsafe {
        uldrevin_sweep_take(
            &mut numbers,
            rays.azimuths.as_ptr(),
            rays.azimuths.len(),
            rays.values.as_ptr(),
            rays.values.len(),
            rays.qualities.as_ptr(),
            rays.qualities.len(),
            entries.ledger.as_mut_ptr(),
            entries.ledger.len(),
            entries.marks.as_mut_ptr(),
            entries.marks.len(),
            sums.counts.as_mut_ptr(),
            sums.counts.len(),
            sums.quality_sums.as_mut_ptr(),
            sums.quality_sums.len(),
            sums.value_sums.as_mut_ptr(),
            sums.value_sums.len(),
            sums.weighted_sums.as_mut_ptr(),
            sums.weighted_sums.len(),
        )
    };
    put(sweep, numbers);
    answer
}

pub fn close_as_c(
    sweep: &mut Sweep,
    sums: &SumLists,
    means: &mut [u16],
    cell_qualities: &mut [u8],
) -> u32 {
    let mut numbers = sweep_numbers(sweep);
    // As in `open_as_c`.
    let answer = unsafe {
        uldrevin_sweep_close(
            &mut numbers,
            sums.counts.as_ptr(),
            sums.counts.len(),
            sums.quality_sums.as_ptr(),
            sums.quality_sums.len(),
            sums.value_sums.as_ptr(),
            sums.value_sums.len(),
            sums.weighted_sums.as_ptr(),
            sums.weighted_sums.len(),
            means.as_mut_ptr(),
            means.len(),
            cell_qualities.as_mut_ptr(),
            cell_qualities.len(),
        )
    };
    put(sweep, numbers);
    answer
}

/// None where the crate's type does not hold the numbers.
fn to_sweep(sweep: &Sweep) -> Option<uldrevin::Sweep> {
    Some(uldrevin::Sweep {
        head: to_head(&sweep.head)?,
        taken: to_number(sweep.taken)?,
        closed: match sweep.closed {
            OPEN => false,
            CLOSED => true,
            _ => return None,
        },
    })
}

/// The answer, with the state that is given put in the place of the old one.
fn given(result: Result<uldrevin::Sweep, Refusal>, sweep: &mut Sweep) -> u32 {
    match result {
        Ok(state) => {
            *sweep = Sweep {
                head: from_head(state.head),
                taken: state.taken.into(),
                closed: state.closed.into(),
            };
            0
        }
        Err(refusal) => refusal.number,
    }
}

pub fn open(head: &Head, sums: &mut SumLists, sweep: &mut Sweep) -> u32 {
    match to_head(head) {
        Some(head) => given(uldrevin::Sweep::open(head, sums), sweep),
        None => open_as_c(head, sums, sweep),
    }
}

pub fn take(
    sweep: &mut Sweep,
    rays: GateLists,
    entries: &mut EntryLists,
    sums: &mut SumLists,
) -> u32 {
    match to_sweep(sweep) {
        Some(state) => given(state.take(rays, entries, sums), sweep),
        None => take_as_c(sweep, rays, entries, sums),
    }
}

pub fn close(
    sweep: &mut Sweep,
    sums: &SumLists,
    means: &mut [u16],
    cell_qualities: &mut [u8],
) -> u32 {
    match to_sweep(sweep) {
        Some(state) => given(state.close(sums, means, cell_qualities), sweep),
        None => close_as_c(sweep, sums, means, cell_qualities),
    }
}
