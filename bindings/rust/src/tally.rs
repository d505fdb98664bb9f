//! The tally of a whole scan: its gates in, the ledger, the marks and the sums out.

use crate::refusal::done;
use crate::{exports, GateLists, Refusal, ScanHead, SumLists, Sums};

/// The lists of entries of gates: a ledger entry and a mark, 1 or 0, a gate of the whole scan.
#[derive(Debug)]
pub struct EntryLists<'a> {
    pub ledger: &'a mut [u32],
    pub marks: &'a mut [u8],
}

/// A tallied scan, in the lists of [`EntryLists`] and [`SumLists`].
#[derive(Clone, Debug, Default, PartialEq, Eq)]
pub struct Tally {
    pub ledger: Vec<u32>,
    pub marks: Vec<u8>,
    pub sums: Sums,
}

impl Tally {
    fn sized(gates: usize, cells: usize) -> Tally {
        Tally {
            ledger: vec![0; gates],
            marks: vec![0; gates],
            sums: Sums::zeros(cells),
        }
    }

    fn fill(&mut self, head: ScanHead, scan: GateLists) -> Result<(), Refusal> {
        let mut entries = EntryLists {
            ledger: &mut self.ledger,
            marks: &mut self.marks,
        };
        tally_into(head, scan, &mut entries, &mut self.sums.lists())
    }
}

/// Tallies a scan into new lists. Its weighting plays no part. Refusals 1 to 8; the example of a good scan stands at the top of the crate:
///
/// ```
/// # use uldrevin::{tally, GateLists, Grid, HrapGrid, ScanHead, Site, Weighting};
/// # let head = ScanHead {
/// #     site: Site { latitude: 600_000, longitude: -1_050_000 },
/// #     rays: 1,
/// #     gates: 2,
/// #     first: 0,
/// #     spacing: 100_000,
/// #     grid: Grid::Hrap(HrapGrid { i: 400, j: 932, columns: 2, rows: 1 }),
/// #     weighting: Weighting::ByQuality,
/// # };
/// # let scan = GateLists { azimuths: &[0], values: &[1, 7], qualities: &[90, 10] };
/// assert_eq!(tally(ScanHead { rays: u32::MAX, ..head }, scan).unwrap_err().number, 1);
/// assert_eq!(tally(head, GateLists { values: &[1], ..scan }).unwrap_err().number, 6);
/// assert_eq!(tally(head, GateLists { qualities: &[90, 101], ..scan }).unwrap_err().number, 8);
/// assert_eq!(tally(ScanHead { weighting: Weighting::Plain, ..head }, scan), tally(head, scan));
/// ```
pub fn tally(head: ScanHead, scan: GateLists) -> Result<Tally, Refusal> {
    // Empty lists are refused by 6 where every number before is right, so only then are lists made.
    let refusal = Tally::default().fill(head, scan);
    if refusal != Err(Refusal { number: 6 }) {
        refusal?;
    }
    let mut tally = Tally::sized(head.all_gates(), head.all_cells());
    tally.fill(head, scan)?;
    Ok(tally)
}

/// Tallies a scan into lent lists. What they held before plays no part; after a refusal they hold it still.
pub fn tally_into(
    head: ScanHead,
    scan: GateLists,
    entries: &mut EntryLists,
    sums: &mut SumLists,
) -> Result<(), Refusal> {
    let numbers = head.into();
    // Every pointer goes with the length of its own list, and no two lists of `entries` and `sums` overlap.
    done(unsafe {
        exports::uldrevin_tally(
            &numbers,
            scan.azimuths.as_ptr(),
            scan.azimuths.len(),
            scan.values.as_ptr(),
            scan.values.len(),
            scan.qualities.as_ptr(),
            scan.qualities.len(),
            entries.ledger.as_mut_ptr(),
            entries.ledger.len(),
            entries.marks.as_mut_ptr(),
            entries.marks.len(),
            sums.counts.as_mut_ptr(),
            sums.counts.len(),
            sums.quality_sums.as_mut_ptr(),
            sums.quality_sums.len(),
            sums.value_sums.as_mut_ptr(),
            sums.value_sums.len(),
            sums.weighted_sums.as_mut_ptr(),
            sums.weighted_sums.len(),
        )
    })
}
