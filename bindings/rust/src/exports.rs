//! The functions as C has them, for callers who hold numbers of any size. Every number of a struct has an answer: one that is out of
//! bounds is refused by its own rule. include/uldrevin.h describes each function, each number and its limits.
//!
//! ```
//! use uldrevin::exports::{uldrevin_place, GridNumbers, SiteNumbers, KIND_HRAP};
//!
//! let site = SiteNumbers { latitude: 600_000, longitude: -1_050_000 };
//! let grid = GridNumbers { kind: KIND_HRAP, x: 400, y: 932, side: 0, columns: 2, rows: i64::MAX };
//! let (mut cell, mut x, mut y, mut mark) = (7, 8, 9, 10);
//! // Each pointer is to a struct or a number of its own.
//! let refusal = unsafe { uldrevin_place(&site, &grid, 0, 0, &mut cell, &mut x, &mut y, &mut mark) };
//! assert_eq!(refusal, 5);
//! assert_eq!((cell, x, y, mark), (7, 8, 9, 10));
//! ```
//!
//! # Safety
//!
//! A pointer is aligned and never null, not even with the length 0. It points to as many numbers as the length after it says, or to one
//! number or struct where no length follows. What is lent for output overlaps nothing else that is lent to the same call.

/// The kind of a RADOLAN grid.
pub const KIND_RADOLAN: i64 = 1;
/// The kind of an HRAP grid.
pub const KIND_HRAP: i64 = 2;
/// The side of an HRAP cell.
pub const HRAP_SIDE: i64 = 476_250;

/// `struct uldrevin_site`.
#[repr(C)]
#[derive(Clone, Copy, Debug, Default, PartialEq, Eq)]
pub struct SiteNumbers {
    pub latitude: i64,
    pub longitude: i64,
}

/// `struct uldrevin_grid`.
#[repr(C)]
#[derive(Clone, Copy, Debug, Default, PartialEq, Eq)]
pub struct GridNumbers {
    pub kind: i64,
    /// Corner x, or I.
    pub x: i64,
    /// Corner y, or J.
    pub y: i64,
    /// Plays no part for HRAP.
    pub side: i64,
    pub columns: i64,
    pub rows: i64,
}

/// `struct uldrevin_scan`.
#[repr(C)]
#[derive(Clone, Copy, Debug, Default, PartialEq, Eq)]
pub struct ScanNumbers {
    pub site: SiteNumbers,
    pub rays: i64,
    pub gates: i64,
    pub first: i64,
    pub spacing: i64,
    pub grid: GridNumbers,
    /// 0 plain, any other number by quality. Plays no part in a tally.
    pub weighting: i64,
}

/// `struct uldrevin_sweep`.
#[repr(C)]
#[derive(Clone, Copy, Debug, Default, PartialEq, Eq)]
pub struct SweepNumbers {
    pub scan: ScanNumbers,
    pub taken: i64,
    /// 0 open, any other number closed.
    pub closed: i64,
}

extern "C" {
    pub fn uldrevin_sine(angle: i64) -> i64;
    pub fn uldrevin_cosine(angle: i64) -> i64;

    pub fn uldrevin_place(
        site: *const SiteNumbers,
        grid: *const GridNumbers,
        azimuth: i64,
        range: i64,
        cell: *mut u32,
        x: *mut i64,
        y: *mut i64,
        mark: *mut u8,
    ) -> u32;

    pub fn uldrevin_tally(
        scan: *const ScanNumbers,
        azimuths: *const u32,
        azimuths_length: usize,
        values: *const u16,
        values_length: usize,
        qualities: *const u8,
        qualities_length: usize,
        ledger: *mut u32,
        ledger_length: usize,
        marks: *mut u8,
        marks_length: usize,
        counts: *mut u32,
        counts_length: usize,
        quality_sums: *mut u32,
        quality_sums_length: usize,
        value_sums: *mut u64,
        value_sums_length: usize,
        weighted_sums: *mut u64,
        weighted_sums_length: usize,
    ) -> u32;

    pub fn uldrevin_publish(
        weighting: i64,
        counts: *const u32,
        counts_length: usize,
        quality_sums: *const u32,
        quality_sums_length: usize,
        value_sums: *const u64,
        value_sums_length: usize,
        weighted_sums: *const u64,
        weighted_sums_length: usize,
        means: *mut u16,
        means_length: usize,
        cell_qualities: *mut u8,
        cell_qualities_length: usize,
    ) -> u32;

    pub fn uldrevin_sweep_open(
        scan: *const ScanNumbers,
        counts: *mut u32,
        counts_length: usize,
        quality_sums: *mut u32,
        quality_sums_length: usize,
        value_sums: *mut u64,
        value_sums_length: usize,
        weighted_sums: *mut u64,
        weighted_sums_length: usize,
        sweep: *mut SweepNumbers,
    ) -> u32;

    pub fn uldrevin_sweep_take(
        sweep: *mut SweepNumbers,
        azimuths: *const u32,
        azimuths_length: usize,
        values: *const u16,
        values_length: usize,
        qualities: *const u8,
        qualities_length: usize,
        ledger: *mut u32,
        ledger_length: usize,
        marks: *mut u8,
        marks_length: usize,
        counts: *mut u32,
        counts_length: usize,
        quality_sums: *mut u32,
        quality_sums_length: usize,
        value_sums: *mut u64,
        value_sums_length: usize,
        weighted_sums: *mut u64,
        weighted_sums_length: usize,
    ) -> u32;

    pub fn uldrevin_sweep_close(
        sweep: *mut SweepNumbers,
        counts: *const u32,
        counts_length: usize,
        quality_sums: *const u32,
        quality_sums_length: usize,
        value_sums: *const u64,
        value_sums_length: usize,
        weighted_sums: *const u64,
        weighted_sums_length: usize,
        means: *mut u16,
        means_length: usize,
        cell_qualities: *mut u8,
        cell_qualities_length: usize,
    ) -> u32;

    pub fn uldrevin_record_head(
        record: *const u8,
        record_length: usize,
        scan: *mut ScanNumbers,
    ) -> u32;

    pub fn uldrevin_record_read(
        record: *const u8,
        record_length: usize,
        scan: *mut ScanNumbers,
        azimuths: *mut u32,
        azimuths_length: usize,
        values: *mut u16,
        values_length: usize,
        qualities: *mut u8,
        qualities_length: usize,
    ) -> u32;

    pub fn uldrevin_record_field(
        record: *const u8,
        record_length: usize,
        number: u32,
        start: *mut u64,
        length: *mut u64,
    ) -> u32;

    pub fn uldrevin_record_write(
        scan: *const ScanNumbers,
        azimuths: *const u32,
        azimuths_length: usize,
        values: *const u16,
        values_length: usize,
        qualities: *const u8,
        qualities_length: usize,
        buffer: *mut u8,
        buffer_length: usize,
        length: *mut u64,
    ) -> u32;
}
