//! Radar gates to cells of the HRAP mesh or the RADOLAN raster, and scan records, by the proved functions of Uldrevin.
//!
//! Angles are ten-thousandths of a degree, lengths are centimetres. No argument need be checked first: every call gives its result or
//! a [`Refusal`] with its number, and a refusal leaves every lent list as it came in. [`exports`] has the functions as C has them.
//!
//! Two gates of one ray on a grid of two cells, tallied once and published in both weightings. They lie on the line between the two cells,
//! and so have the mark 1:
//!
//! ```
//! use uldrevin::{publish, tally, GateLists, Grid, HrapGrid, ScanHead, Site, Weighting, NO_MEAN};
//!
//! let head = ScanHead {
//!     site: Site { latitude: 600_000, longitude: -1_050_000 },
//!     rays: 1,
//!     gates: 2,
//!     first: 0,
//!     spacing: 100_000,
//!     grid: Grid::Hrap(HrapGrid { i: 400, j: 932, columns: 2, rows: 1 }),
//!     weighting: Weighting::ByQuality,
//! };
//! let scan = GateLists { azimuths: &[0], values: &[1, 7], qualities: &[90, 10] };
//! let tally = tally(head, scan)?;
//! assert_eq!(tally.ledger, [1, 1]);
//! assert_eq!(tally.marks, [1, 1]);
//! assert_eq!(tally.sums.counts, [0, 2]);
//! assert_eq!(tally.sums.value_sums, [0, 8]);
//! assert_eq!(tally.sums.weighted_sums, [0, 160]); // 1 x 90 + 7 x 10
//!
//! let plain = publish(Weighting::Plain, &tally.sums)?;
//! assert_eq!(plain.means, [NO_MEAN, 4]); // 8 / 2
//! let by_quality = publish(Weighting::ByQuality, &tally.sums)?;
//! assert_eq!(by_quality.means, [NO_MEAN, 1]); // 160 / 100
//! assert_eq!(by_quality.cell_qualities, [0, 50]);
//! # Ok::<(), uldrevin::Refusal>(())
//! ```
//!
//! A [`Sweep`] takes the rays of a scan as the antenna turns.

pub mod exports;
mod gate;
mod numbers;
mod publish;
mod record;
mod refusal;
mod scan;
mod sums;
mod sweep;
mod tally;

pub use gate::{place, Placement};
pub use publish::{publish, publish_into, Cells};
pub use record::{
    read_record, read_record_into, record_field, record_head, write_record, write_record_into,
    ScanRead,
};
pub use refusal::Refusal;
pub use scan::{GateLists, ScanHead, Weighting};
pub use sums::{SumLists, Sums};
pub use sweep::Sweep;
pub use tally::{tally, tally_into, EntryLists, Tally};

/// The ledger entry of a gate outside the grid.
pub const OUTSIDE: u32 = 4_294_967_295;
/// The value of a gate that was measured with no echo. It counts as 0.
pub const NO_ECHO: u16 = 65_534;
/// The value of a gate that was not measured. It contributes nothing.
pub const NOT_MEASURED: u16 = 65_535;
/// The mean of a cell whose divisor is 0, or whose sums give more than 65,533, as those of a tally never do.
pub const NO_MEAN: u16 = 65_535;

/// The radar's site: latitude 200,000 to 750,000, longitude -1,800,000 to 1,800,000, east positive.
#[derive(Clone, Copy, Debug, PartialEq, Eq)]
pub struct Site {
    pub latitude: i64,
    pub longitude: i64,
}

/// A window of the RADOLAN raster: its south-west corner, the side of a cell, columns and rows.
#[derive(Clone, Copy, Debug, PartialEq, Eq)]
pub struct RadolanGrid {
    pub x: i64,
    pub y: i64,
    pub side: u32,
    pub columns: u32,
    pub rows: u32,
}

/// A window of the HRAP mesh: its first column I and first row J, columns and rows.
#[derive(Clone, Copy, Debug, PartialEq, Eq)]
pub struct HrapGrid {
    pub i: i64,
    pub j: i64,
    pub columns: u32,
    pub rows: u32,
}

/// One of the two kinds of grid. Cell numbers are row x columns + column; rows count northward.
#[derive(Clone, Copy, Debug, PartialEq, Eq)]
pub enum Grid {
    Radolan(RadolanGrid),
    Hrap(HrapGrid),
}

impl Grid {
    pub fn columns(&self) -> u32 {
        match self {
            Grid::Radolan(grid) => grid.columns,
            Grid::Hrap(grid) => grid.columns,
        }
    }

    pub fn rows(&self) -> u32 {
        match self {
            Grid::Radolan(grid) => grid.rows,
            Grid::Hrap(grid) => grid.rows,
        }
    }
}

/// The sine of an angle, times 2^30.
///
/// ```
/// assert_eq!(uldrevin::sine(900_000), 1 << 30);
/// assert_eq!(uldrevin::sine(-900_000), -(1 << 30));
/// ```
pub fn sine(angle: i64) -> i64 {
    // Takes and gives numbers only.
    unsafe { exports::uldrevin_sine(angle) }
}

/// The cosine of an angle, times 2^30.
pub fn cosine(angle: i64) -> i64 {
    // Takes and gives numbers only.
    unsafe { exports::uldrevin_cosine(angle) }
}
