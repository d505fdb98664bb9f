//! The steps of a caller who feeds a sweep: calls, and alterations of what is handed on.

use crate::cell_sums::CellSums;
use crate::output_lists::Lengths;
use crate::scan_input::ScanInput;
use plain_program::scan::Head;
use plain_program::sweep::Sweep;

/// The numbers of a state, by name.
pub const NUMBERS: [&str; 15] = [
    "latitude",
    "longitude",
    "rays",
    "gates",
    "first",
    "spacing",
    "kind",
    "x",
    "y",
    "side",
    "columns",
    "rows",
    "weighting",
    "taken",
    "closed",
];

pub fn number_of<'a>(sweep: &'a mut Sweep, name: &str) -> &'a mut i64 {
    let Sweep {
        head,
        taken,
        closed,
    } = sweep;
    match name {
        "latitude" => &mut head.site.latitude,
        "longitude" => &mut head.site.longitude,
        "rays" => &mut head.rays,
        "gates" => &mut head.gates,
        "first" => &mut head.first,
        "spacing" => &mut head.spacing,
        "kind" => &mut head.grid.kind,
        "x" => &mut head.grid.x,
        "y" => &mut head.grid.y,
        "side" => &mut head.grid.side,
        "columns" => &mut head.grid.columns,
        "rows" => &mut head.grid.rows,
        "weighting" => &mut head.weighting,
        "taken" => taken,
        "closed" => closed,
        _ => panic!("a state has no {name}"),
    }
}

#[derive(Clone, Debug)]
pub enum Step {
    Open(Head, Lengths),
    /// The rays of a group; its head is not handed in.
    Take(ScanInput, Lengths),
    Close(Lengths),
    /// A number of the state becomes another.
    AlterState(&'static str, i64),
    /// The state is kept, to be handed on at `Restore`.
    Keep,
    Restore,
    AlterSums(CellSums),
}
