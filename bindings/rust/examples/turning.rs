//! Reads a scan record from standard input, feeds its rays one at a time to a sweep, and prints its grid, as the program sheet does.

use std::io::{self, Read, Write};
use std::process::ExitCode;

use uldrevin::{read_record, Cells, EntryLists, GateLists, Refusal, ScanRead, Sums, Sweep};

fn swept(scan: &ScanRead) -> Result<(Sums, Cells), Refusal> {
    let (gates, all_gates) = (scan.head.gates as usize, scan.head.all_gates());
    let all_cells = scan.head.all_cells();
    let (mut ledger, mut marks) = (vec![0; all_gates], vec![0; all_gates]);
    let mut entries = EntryLists {
        ledger: &mut ledger,
        marks: &mut marks,
    };
    let mut kept = Sums::zeros(all_cells);
    let mut sums = kept.lists();
    let mut cells = Cells {
        means: vec![0; all_cells],
        cell_qualities: vec![0; all_cells],
    };

    let mut sweep = Sweep::open(scan.head, &mut sums)?;
    let rays = scan.values.chunks(gates).zip(scan.qualities.chunks(gates));
    for (azimuth, (values, qualities)) in scan.azimuths.chunks(1).zip(rays) {
        let ray = GateLists {
            azimuths: azimuth,
            values,
            qualities,
        };
        sweep = sweep.take(ray, &mut entries, &mut sums)?;
    }
    sweep.close(&sums, &mut cells.means, &mut cells.cell_qualities)?;

    Ok((kept, cells))
}

fn print_grid(out: &mut impl Write, scan: &ScanRead, sums: &Sums, cells: &Cells) -> io::Result<()> {
    let columns = scan.head.grid.columns() as usize;
    let placed: u32 = sums.counts.iter().sum();
    writeln!(out, "grid {columns} {}", scan.head.grid.rows())?;
    writeln!(out, "gates {} placed {placed}", scan.values.len())?;
    for (cell, &count) in sums.counts.iter().enumerate() {
        if count != 0 {
            let (column, row) = (cell % columns, cell / columns);
            let (mean, quality) = (cells.means[cell], cells.cell_qualities[cell]);
            writeln!(out, "{column} {row} {mean} {quality} {count}")?;
        }
    }
    Ok(())
}

fn main() -> io::Result<ExitCode> {
    let mut record = Vec::new();
    io::stdin().read_to_end(&mut record)?;
    let mut out = io::stdout().lock();
    match read_record(&record).and_then(|scan| Ok((swept(&scan)?, scan))) {
        Err(refusal) => {
            writeln!(out, "refused {}", refusal.number)?;
            Ok(ExitCode::FAILURE)
        }
        Ok(((sums, cells), scan)) => {
            print_grid(&mut out, &scan, &sums, &cells)?;
            Ok(ExitCode::SUCCESS)
        }
    }
}
