//! What a scan is: its head, and the lists of its gates.

use crate::{Grid, Site};

/// How the gates of a cell are averaged.
#[derive(Clone, Copy, Debug, PartialEq, Eq)]
pub enum Weighting {
    Plain,
    ByQuality,
}

/// What a scan is besides its lists. Gate g of a ray, from 0, has its centre at first + g x spacing.
#[derive(Clone, Copy, Debug, PartialEq, Eq)]
pub struct ScanHead {
    pub site: Site,
    /// 1 to 720.
    pub rays: u32,
    /// Gates in a ray, 1 to 1,000.
    pub gates: u32,
    pub first: u32,
    pub spacing: u32,
    pub grid: Grid,
    /// That of a record, and that in which a sweep is closed. It plays no part in a tally.
    pub weighting: Weighting,
}

impl ScanHead {
    /// Gates of the whole scan.
    pub fn all_gates(&self) -> usize {
        self.rays as usize * self.gates as usize
    }

    /// Cells of the grid.
    pub fn all_cells(&self) -> usize {
        self.grid.columns() as usize * self.grid.rows() as usize
    }
}

/// The lists of a scan: an azimuth a ray; a value and a quality a gate, ray by ray.
#[derive(Clone, Copy, Debug)]
pub struct GateLists<'a> {
    pub azimuths: &'a [u32],
    pub values: &'a [u16],
    pub qualities: &'a [u8],
}
