//! The numbers that a case hands in besides its lists, by name. They are looked at for those that 32 bits do not hold.

use plain_program::placement::{Grid, Site};
use plain_program::scan::Head;

pub type Named = (&'static str, i64);

pub fn site_numbers(site: Site) -> [Named; 2] {
    [("latitude", site.latitude), ("longitude", site.longitude)]
}

pub fn grid_numbers(grid: Grid) -> [Named; 6] {
    [
        ("kind", grid.kind),
        ("x", grid.x),
        ("y", grid.y),
        ("side", grid.side),
        ("columns", grid.columns),
        ("rows", grid.rows),
    ]
}

pub fn scan_numbers(head: &Head) -> Vec<Named> {
    let own = [
        ("rays", head.rays),
        ("gates", head.gates),
        ("first", head.first),
        ("spacing", head.spacing),
        ("weighting", head.weighting),
    ];
    [&site_numbers(head.site)[..], &grid_numbers(head.grid), &own].concat()
}

/// Neither signed nor unsigned 32 bits hold the number.
pub fn beyond_32_bits(number: i64) -> bool {
    !(i64::from(i32::MIN)..=i64::from(u32::MAX)).contains(&number)
}
