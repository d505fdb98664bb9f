//! The library's types to the plain program's and back. The plain program's numbers have 64 bits, and a type of the crate that does not
//! hold them is not made.

use plain_program::placement::{Grid, Placement, Site, HRAP_KIND, HRAP_SIDE, RADOLAN_KIND};
use plain_program::scan::{Head, BY_QUALITY, PLAIN};
use uldrevin::exports::ScanNumbers;

pub fn to_site(site: Site) -> uldrevin::Site {
    uldrevin::Site {
        latitude: site.latitude,
        longitude: site.longitude,
    }
}

fn from_site(site: uldrevin::Site) -> Site {
    Site {
        latitude: site.latitude,
        longitude: site.longitude,
    }
}

pub fn to_number(number: i64) -> Option<u32> {
    u32::try_from(number).ok()
}

pub fn to_grid(grid: Grid) -> Option<uldrevin::Grid> {
    let (columns, rows) = (to_number(grid.columns)?, to_number(grid.rows)?);
    match (grid.kind, grid.side) {
        (RADOLAN_KIND, side) => Some(uldrevin::Grid::Radolan(uldrevin::RadolanGrid {
            x: grid.x,
            y: grid.y,
            side: to_number(side)?,
            columns,
            rows,
        })),
        (HRAP_KIND, HRAP_SIDE) => Some(uldrevin::Grid::Hrap(uldrevin::HrapGrid {
            i: grid.x,
            j: grid.y,
            columns,
            rows,
        })),
        _ => None,
    }
}

fn from_grid(grid: uldrevin::Grid) -> Grid {
    let (kind, x, y, side) = match grid {
        uldrevin::Grid::Radolan(grid) => (RADOLAN_KIND, grid.x, grid.y, grid.side.into()),
        uldrevin::Grid::Hrap(grid) => (HRAP_KIND, grid.i, grid.j, HRAP_SIDE),
    };
    Grid {
        kind,
        x,
        y,
        side,
        columns: grid.columns().into(),
        rows: grid.rows().into(),
    }
}

pub fn to_weighting(weighting: i64) -> Option<uldrevin::Weighting> {
    match weighting {
        PLAIN => Some(uldrevin::Weighting::Plain),
        BY_QUALITY => Some(uldrevin::Weighting::ByQuality),
        _ => None,
    }
}

pub fn to_head(head: &Head) -> Option<uldrevin::ScanHead> {
    Some(uldrevin::ScanHead {
        site: to_site(head.site),
        rays: to_number(head.rays)?,
        gates: to_number(head.gates)?,
        first: to_number(head.first)?,
        spacing: to_number(head.spacing)?,
        grid: to_grid(head.grid)?,
        weighting: to_weighting(head.weighting)?,
    })
}

pub fn from_head(head: uldrevin::ScanHead) -> Head {
    Head {
        site: from_site(head.site),
        rays: head.rays.into(),
        gates: head.gates.into(),
        first: head.first.into(),
        spacing: head.spacing.into(),
        grid: from_grid(head.grid),
        weighting: match head.weighting {
            uldrevin::Weighting::Plain => PLAIN,
            uldrevin::Weighting::ByQuality => BY_QUALITY,
        },
    }
}

pub fn from_numbers(numbers: ScanNumbers) -> Head {
    Head {
        site: Site {
            latitude: numbers.site.latitude,
            longitude: numbers.site.longitude,
        },
        rays: numbers.rays,
        gates: numbers.gates,
        first: numbers.first,
        spacing: numbers.spacing,
        grid: Grid {
            kind: numbers.grid.kind,
            x: numbers.grid.x,
            y: numbers.grid.y,
            side: numbers.grid.side,
            columns: numbers.grid.columns,
            rows: numbers.grid.rows,
        },
        weighting: numbers.weighting,
    }
}

pub fn from_placement(placement: uldrevin::Placement) -> Placement {
    Placement {
        x: placement.x,
        y: placement.y,
        cell: placement.cell,
        mark: placement.mark,
    }
}
