//! The placement of a single gate.

use crate::refusal::done;
use crate::{exports, Grid, Refusal, Site, OUTSIDE};

/// Where a gate lies: its position, its cell where it is inside the grid, and its mark, inside or outside.
#[derive(Clone, Copy, Debug, PartialEq, Eq)]
pub struct Placement {
    pub x: i64,
    pub y: i64,
    pub cell: Option<u32>,
    /// Whether the remainder of x less the x of the grid's south-west corner, by the side and never negative, is under 50 or at least the
    /// side less 50, or the same for y. The edge lines of cells are taken as prolonged beyond the grid. Where it is false, the cell is the
    /// very one that the same formulas give in exact fractions, or both are outside.
    pub mark: bool,
}

/// Places one gate by its azimuth, 0 to 3,599,999, and its range, 0 to 46,000,000.
///
/// ```
/// use uldrevin::{place, Grid, RadolanGrid, Site};
///
/// let site = Site { latitude: 510_000, longitude: 100_000 };
/// let window = RadolanGrid { x: -52_346_220, y: -465_864_470, side: 100_000, columns: 900, rows: 900 };
/// let grid = Grid::Radolan(window);
/// let placement = place(site, grid, 0, 0)?;
/// assert_eq!((placement.x, placement.cell, placement.mark), (0, Some(404_623), false));
/// assert_eq!(place(site, grid, 3_600_000, 0).unwrap_err().number, 7);
///
/// let moved = Grid::Radolan(RadolanGrid { x: -52_300_000, ..window });
/// assert!(place(site, moved, 0, 0)?.mark); // on a line between two columns
/// # Ok::<(), uldrevin::Refusal>(())
/// ```
pub fn place(site: Site, grid: Grid, azimuth: u32, range: u32) -> Result<Placement, Refusal> {
    let (site, grid) = (site.into(), grid.into());
    let (mut cell, mut x, mut y, mut mark) = (OUTSIDE, 0, 0, 0);
    // The pointers are to two structs and four numbers of this function.
    done(unsafe {
        exports::uldrevin_place(
            &site,
            &grid,
            azimuth.into(),
            range.into(),
            &mut cell,
            &mut x,
            &mut y,
            &mut mark,
        )
    })?;
    let cell = (cell != OUTSIDE).then_some(cell);
    let mark = mark != 0;
    Ok(Placement { x, y, cell, mark })
}
