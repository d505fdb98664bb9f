//! Reads a scan record from standard input and prints its grid, as the program sheet does, then its ledger with the marks.

use std::io::{self, Read, Write};
use std::process::ExitCode;

use uldrevin::{
    publish, read_record, tally, Cells, Refusal, ScanRead, Tally, NOT_MEASURED, OUTSIDE,
};

/// The scan of a record, its tally, and its cells in the weighting that the record names.
fn remapped(record: &[u8]) -> Result<(ScanRead, Tally, Cells), Refusal> {
    let scan = read_record(record)?;
    let tally = tally(scan.head, scan.gate_lists())?;
    let cells = publish(scan.head.weighting, &tally.sums)?;
    Ok((scan, tally, cells))
}

fn print_grid(
    out: &mut impl Write,
    scan: &ScanRead,
    tally: &Tally,
    cells: &Cells,
) -> io::Result<()> {
    let columns = scan.head.grid.columns() as usize;
    let measured_inside = |(&value, &cell): (&u16, &u32)| value != NOT_MEASURED && cell != OUTSIDE;
    let gates = scan.values.iter().zip(&tally.ledger);
    let placed = gates.filter(|&gate| measured_inside(gate)).count();
    writeln!(out, "grid {columns} {}", scan.head.grid.rows())?;
    writeln!(out, "gates {} placed {placed}", scan.values.len())?;
    for (cell, &count) in tally.sums.counts.iter().enumerate() {
        if count != 0 {
            let (column, row) = (cell % columns, cell / columns);
            let (mean, quality) = (cells.means[cell], cells.cell_qualities[cell]);
            writeln!(out, "{column} {row} {mean} {quality} {count}")?;
        }
    }
    Ok(())
}

fn print_ledger(out: &mut impl Write, scan: &ScanRead, tally: &Tally) -> io::Result<()> {
    let gates = scan.head.gates as usize;
    writeln!(out, "ledger")?;
    for (k, (&cell, mark)) in tally.ledger.iter().zip(&tally.marks).enumerate() {
        let (ray, gate) = (k / gates, k % gates);
        if cell == OUTSIDE {
            writeln!(out, "{ray} {gate} outside {mark}")?;
        } else {
            writeln!(out, "{ray} {gate} {cell} {mark}")?;
        }
    }
    Ok(())
}

fn main() -> io::Result<ExitCode> {
    let mut record = Vec::new();
    io::stdin().read_to_end(&mut record)?;
    let mut out = io::stdout().lock();
    match remapped(&record) {
        Err(refusal) => {
            writeln!(out, "refused {}", refusal.number)?;
            Ok(ExitCode::FAILURE)
        }
        Ok((scan, tally, cells)) => {
            print_grid(&mut out, &scan, &tally, &cells)?;
            print_ledger(&mut out, &scan, &tally)?;
            Ok(ExitCode::SUCCESS)
        }
    }
}
