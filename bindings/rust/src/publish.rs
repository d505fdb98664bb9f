//! Publishing: sums in, the means and the qualities of cells out, in the weighting asked.

use crate::refusal::done;
use crate::{exports, Refusal, SumLists, Sums, Weighting};

/// Published cells: a mean and a quality a cell.
#[derive(Clone, Debug, Default, PartialEq, Eq)]
pub struct Cells {
    pub means: Vec<u16>,
    pub cell_qualities: Vec<u8>,
}

/// Publishes sums into new lists. Refusal 6 unless the four sums are equally long, of any number of cells.
///
/// Any sums are accepted, those of a tally or a sweep and all others. A mean is the value sum by the count or, by quality, the weighted
/// sum by the quality sum; for divisor 0 and above 65,533 it is [`NO_MEAN`](crate::NO_MEAN). A quality is the quality sum by the count in
/// either weighting; it is 0 for count 0, and above 100 it becomes 100:
///
/// ```
/// use uldrevin::{publish, Sums, Weighting, NO_MEAN};
///
/// let sums = Sums {
///     counts: vec![2, 0, 1],
///     quality_sums: vec![100, 3, 101],
///     value_sums: vec![8, 5, 65_534],
///     weighted_sums: vec![160, 10, 202],
/// };
/// let plain = publish(Weighting::Plain, &sums)?;
/// assert_eq!(plain.means, [4, NO_MEAN, NO_MEAN]);
/// let by_quality = publish(Weighting::ByQuality, &sums)?;
/// assert_eq!(by_quality.means, [1, 3, 2]);
/// assert_eq!(by_quality.cell_qualities, [50, 0, 100]);
/// assert_eq!(plain.cell_qualities, by_quality.cell_qualities);
///
/// let shorter = Sums { weighted_sums: vec![160, 10], ..sums };
/// assert_eq!(publish(Weighting::Plain, &shorter).unwrap_err().number, 6);
/// # Ok::<(), uldrevin::Refusal>(())
/// ```
pub fn publish(weighting: Weighting, sums: &Sums) -> Result<Cells, Refusal> {
    let mut cells = Cells {
        means: vec![0; sums.counts.len()],
        cell_qualities: vec![0; sums.counts.len()],
    };
    publish_lists(
        weighting,
        &sums.counts,
        &sums.quality_sums,
        &sums.value_sums,
        &sums.weighted_sums,
        &mut cells.means,
        &mut cells.cell_qualities,
    )?;
    Ok(cells)
}

/// Publishes lent sums into lent lists. What those held before plays no part; after a refusal they hold it still. Refusal 6 unless all six
/// lists are equally long.
///
/// ```
/// use uldrevin::{publish_into, SumLists, Weighting};
///
/// let sums = SumLists { counts: &mut [2], quality_sums: &mut [100], value_sums: &mut [8], weighted_sums: &mut [160] };
/// let (mut means, mut cell_qualities) = ([7], [7]);
/// publish_into(Weighting::Plain, &sums, &mut means, &mut cell_qualities)?;
/// assert_eq!((means, cell_qualities), ([4], [50]));
/// publish_into(Weighting::ByQuality, &sums, &mut means, &mut cell_qualities)?;
/// assert_eq!((means, cell_qualities), ([1], [50]));
///
/// let refusal = publish_into(Weighting::Plain, &sums, &mut [], &mut cell_qualities).unwrap_err();
/// assert_eq!((refusal.number, cell_qualities), (6, [50]));
/// # Ok::<(), uldrevin::Refusal>(())
/// ```
pub fn publish_into(
    weighting: Weighting,
    sums: &SumLists,
    means: &mut [u16],
    cell_qualities: &mut [u8],
) -> Result<(), Refusal> {
    publish_lists(
        weighting,
        sums.counts,
        sums.quality_sums,
        sums.value_sums,
        sums.weighted_sums,
        means,
        cell_qualities,
    )
}

fn publish_lists(
    weighting: Weighting,
    counts: &[u32],
    quality_sums: &[u32],
    value_sums: &[u64],
    weighted_sums: &[u64],
    means: &mut [u16],
    cell_qualities: &mut [u8],
) -> Result<(), Refusal> {
    // Every pointer goes with the length of its own list, and no two lists overlap.
    done(unsafe {
        exports::uldrevin_publish(
            weighting.into(),
            counts.as_ptr(),
            counts.len(),
            quality_sums.as_ptr(),
            quality_sums.len(),
            value_sums.as_ptr(),
            value_sums.len(),
            weighted_sums.as_ptr(),
            weighted_sums.len(),
            means.as_mut_ptr(),
            means.len(),
            cell_qualities.as_mut_ptr(),
            cell_qualities.len(),
        )
    })
}
