//! The safe types as the numbers that C has, and back.

use crate::exports::{
    GridNumbers, ScanNumbers, SiteNumbers, SweepNumbers, HRAP_SIDE, KIND_HRAP, KIND_RADOLAN,
};
use crate::{Grid, HrapGrid, RadolanGrid, ScanHead, Site, Sweep, Weighting};

impl From<Site> for SiteNumbers {
    fn from(site: Site) -> SiteNumbers {
        SiteNumbers {
            latitude: site.latitude,
            longitude: site.longitude,
        }
    }
}

impl From<Grid> for GridNumbers {
    fn from(grid: Grid) -> GridNumbers {
        let (kind, x, y, side) = match grid {
            Grid::Radolan(grid) => (KIND_RADOLAN, grid.x, grid.y, grid.side.into()),
            Grid::Hrap(grid) => (KIND_HRAP, grid.i, grid.j, HRAP_SIDE),
        };
        GridNumbers {
            kind,
            x,
            y,
            side,
            columns: grid.columns().into(),
            rows: grid.rows().into(),
        }
    }
}

impl From<Weighting> for i64 {
    fn from(weighting: Weighting) -> i64 {
        match weighting {
            Weighting::Plain => 0,
            Weighting::ByQuality => 1,
        }
    }
}

impl From<ScanHead> for ScanNumbers {
    fn from(head: ScanHead) -> ScanNumbers {
        ScanNumbers {
            site: head.site.into(),
            rays: head.rays.into(),
            gates: head.gates.into(),
            first: head.first.into(),
            spacing: head.spacing.into(),
            grid: head.grid.into(),
            weighting: head.weighting.into(),
        }
    }
}

impl From<Sweep> for SweepNumbers {
    fn from(sweep: Sweep) -> SweepNumbers {
        SweepNumbers {
            scan: sweep.head.into(),
            taken: sweep.taken.into(),
            closed: sweep.closed.into(),
        }
    }
}

fn grid_of(numbers: GridNumbers) -> Grid {
    let GridNumbers { kind, x, y, .. } = numbers;
    let (columns, rows) = (numbers.columns as u32, numbers.rows as u32);
    if kind == KIND_RADOLAN {
        let side = numbers.side as u32;
        Grid::Radolan(RadolanGrid {
            x,
            y,
            side,
            columns,
            rows,
        })
    } else {
        let (i, j) = (x, y);
        Grid::Hrap(HrapGrid {
            i,
            j,
            columns,
            rows,
        })
    }
}

/// The head of a record or a sweep that was not refused: each of its numbers is in the bounds of document 01, and fits.
pub(crate) fn head_of(numbers: ScanNumbers) -> ScanHead {
    ScanHead {
        site: Site {
            latitude: numbers.site.latitude,
            longitude: numbers.site.longitude,
        },
        rays: numbers.rays as u32,
        gates: numbers.gates as u32,
        first: numbers.first as u32,
        spacing: numbers.spacing as u32,
        grid: grid_of(numbers.grid),
        weighting: match numbers.weighting {
            0 => Weighting::Plain,
            _ => Weighting::ByQuality,
        },
    }
}

/// A sweep that was not refused: it has taken no more rays than were announced.
pub(crate) fn sweep_of(numbers: SweepNumbers) -> Sweep {
    Sweep {
        head: head_of(numbers.scan),
        taken: numbers.taken as u32,
        closed: numbers.closed != 0,
    }
}
