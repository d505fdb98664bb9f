//! A sweep: a scan that is fed ray by ray while the antenna turns.

use crate::exports::{self, SweepNumbers};
use crate::numbers::sweep_of;
use crate::refusal::done;
use crate::{EntryLists, GateLists, Refusal, ScanHead, SumLists};

/// A scan in the making. Each method takes the state and gives the new one; after a refusal the caller goes on with the old one.
///
/// The lists are the caller's, and as long as those of the whole scan from the start. While a caller hands on the latest state and
/// untouched lists, the ledger and the marks of the rays taken, and the sums, are those that [`tally`](crate::tally()) gives for the whole
/// scan of these rays, however they were divided, and after closing the cells are those that [`publish`](crate::publish()) gives from these
/// sums in the weighting of the head. From the same sums `publish` gives the cells in either weighting, at any time. The state is plain
/// numbers, which are tested again at each call.
///
/// Two rays on a grid of two cells. The second is refused, and taken once it is mended:
///
/// ```
/// use uldrevin::{publish, EntryLists, GateLists, Grid, HrapGrid, ScanHead, Site, Sums, Sweep, Weighting};
///
/// let head = ScanHead {
///     site: Site { latitude: 600_000, longitude: -1_050_000 },
///     rays: 2,
///     gates: 2,
///     first: 0,
///     spacing: 100_000,
///     grid: Grid::Hrap(HrapGrid { i: 400, j: 932, columns: 2, rows: 1 }),
///     weighting: Weighting::ByQuality,
/// };
/// let mut kept = Sums::zeros(2);
/// let mut sums = kept.lists();
/// let mut entries = EntryLists { ledger: &mut [0; 4], marks: &mut [0; 4] };
/// let (mut means, mut cell_qualities) = ([0; 2], [0; 2]);
///
/// let mut sweep = Sweep::open(head, &mut sums)?;
/// let ray = GateLists { azimuths: &[0], values: &[1, 7], qualities: &[90, 10] };
/// sweep = sweep.take(ray, &mut entries, &mut sums)?;
///
/// let bad = GateLists { azimuths: &[900_000], values: &[3, 5], qualities: &[101, 40] };
/// let refusal = sweep.take(bad, &mut entries, &mut sums).unwrap_err();
/// assert_eq!(refusal.to_string(), "refusal 8: a quality is over 100");
/// assert_eq!((sweep.taken, &*sums.counts), (1, &[0, 2][..]));
///
/// assert_eq!(sweep.close(&sums, &mut means, &mut cell_qualities).unwrap_err().number, 18); // a ray is missing
///
/// let mended = GateLists { qualities: &[60, 40], ..bad };
/// sweep = sweep.take(mended, &mut entries, &mut sums)?;
/// sweep = sweep.close(&sums, &mut means, &mut cell_qualities)?;
/// assert_eq!(entries.ledger, [1, 1, 1, 1]);
/// assert_eq!(entries.marks, [1, 1, 1, 0]); // all but the last lie on the line between the two cells
/// assert_eq!((means[1], cell_qualities[1]), (2, 50)); // (1 x 90 + 7 x 10 + 3 x 60 + 5 x 40) / 200
///
/// assert_eq!(sweep.take(ray, &mut entries, &mut sums).unwrap_err().number, 19); // it is closed
/// let altered = Sweep { closed: false, ..sweep };
/// assert_eq!(altered.take(ray, &mut entries, &mut sums).unwrap_err().number, 17); // both rays are taken
///
/// assert_eq!(publish(Weighting::Plain, &kept)?.means[1], 4); // the other sheet: (1 + 7 + 3 + 5) / 4
/// # Ok::<(), uldrevin::Refusal>(())
/// ```
#[derive(Clone, Copy, Debug, PartialEq, Eq)]
pub struct Sweep {
    /// As opened; its rays are those announced.
    pub head: ScanHead,
    /// The rays taken so far.
    pub taken: u32,
    pub closed: bool,
}

impl Sweep {
    /// Opens a sweep: the sums become 0. Refusals 1 to 6.
    pub fn open(head: ScanHead, sums: &mut SumLists) -> Result<Sweep, Refusal> {
        let (scan, mut numbers) = (head.into(), SweepNumbers::default());
        // The structs are this function's, and every pointer to numbers goes with the length of its own list.
        done(unsafe {
            exports::uldrevin_sweep_open(
                &scan,
                sums.counts.as_mut_ptr(),
                sums.counts.len(),
                sums.quality_sums.as_mut_ptr(),
                sums.quality_sums.len(),
                sums.value_sums.as_mut_ptr(),
                sums.value_sums.len(),
                sums.weighted_sums.as_mut_ptr(),
                sums.weighted_sums.len(),
                &mut numbers,
            )
        })?;
        Ok(sweep_of(numbers))
    }

    /// Takes one ray or several, which follow those taken before. Their ledger entries and marks are written, those of other rays stay,
    /// and the four sums grow by their gates, whatever the weighting. Refusals, in this order: 19, 17, 1 to 5, 6 also for no rays, 7, 8,
    /// 31.
    pub fn take(
        self,
        rays: GateLists,
        entries: &mut EntryLists,
        sums: &mut SumLists,
    ) -> Result<Sweep, Refusal> {
        let mut numbers = self.into();
        // The struct is this function's, every pointer to numbers goes with the length of its own list, and no two of them overlap.
        done(unsafe {
            exports::uldrevin_sweep_take(
                &mut numbers,
                rays.azimuths.as_ptr(),
                rays.azimuths.len(),
                rays.values.as_ptr(),
                rays.values.len(),
                rays.qualities.as_ptr(),
                rays.qualities.len(),
                entries.ledger.as_mut_ptr(),
                entries.ledger.len(),
                entries.marks.as_mut_ptr(),
                entries.marks.len(),
                sums.counts.as_mut_ptr(),
                sums.counts.len(),
                sums.quality_sums.as_mut_ptr(),
                sums.quality_sums.len(),
                sums.value_sums.as_mut_ptr(),
                sums.value_sums.len(),
                sums.weighted_sums.as_mut_ptr(),
                sums.weighted_sums.len(),
            )
        })?;
        Ok(sweep_of(numbers))
    }

    /// Closes a sweep that has taken all its rays, and publishes its cells in the weighting of its head, as [`publish`](crate::publish())
    /// does, also from sums that a caller has altered. Refusals, in this order: 19, 17, 1 to 5, 18, 6.
    pub fn close(
        self,
        sums: &SumLists,
        means: &mut [u16],
        cell_qualities: &mut [u8],
    ) -> Result<Sweep, Refusal> {
        let mut numbers = self.into();
        // The struct is this function's, every pointer to numbers goes with the length of its own list, and no two of them overlap.
        done(unsafe {
            exports::uldrevin_sweep_close(
                &mut numbers,
                sums.counts.as_ptr(),
                sums.counts.len(),
                sums.quality_sums.as_ptr(),
                sums.quality_sums.len(),
                sums.value_sums.as_ptr(),
                sums.value_sums.len(),
                sums.weighted_sums.as_ptr(),
                sums.weighted_sums.len(),
                means.as_mut_ptr(),
                means.len(),
                cell_qualities.as_mut_ptr(),
                cell_qualities.len(),
            )
        })?;
        Ok(sweep_of(numbers))
    }
}
