//! The scan record, read and written. docs/RECORD.md has its bytes.

use crate::exports::{self, ScanNumbers};
use crate::numbers::head_of;
use crate::refusal::done;
use crate::{GateLists, Refusal, ScanHead};

/// A scan that was read from a record.
#[derive(Clone, Debug, PartialEq, Eq)]
pub struct ScanRead {
    pub head: ScanHead,
    pub azimuths: Vec<u32>,
    pub values: Vec<u16>,
    pub qualities: Vec<u8>,
}

impl ScanRead {
    pub fn gate_lists(&self) -> GateLists<'_> {
        GateLists {
            azimuths: &self.azimuths,
            values: &self.values,
            qualities: &self.qualities,
        }
    }
}

/// The head of a record. It checks the whole record, but for lengths of lists.
pub fn record_head(record: &[u8]) -> Result<ScanHead, Refusal> {
    let mut numbers = ScanNumbers::default();
    // The pointers are to the record, with its length, and to a struct of this function.
    done(unsafe { exports::uldrevin_record_head(record.as_ptr(), record.len(), &mut numbers) })?;
    Ok(head_of(numbers))
}

/// The content of a field, 1 to 7, as a part of the record itself. Of any other number the part is empty. A refused record gives its
/// refusal, where document 01 has an empty part, whatever the number.
///
/// ```
/// # use uldrevin::{record_field, write_record, GateLists, Grid, HrapGrid, ScanHead, Site, Weighting};
/// # let head = ScanHead {
/// #     site: Site { latitude: 600_000, longitude: -1_050_000 },
/// #     rays: 1,
/// #     gates: 2,
/// #     first: 0,
/// #     spacing: 100_000,
/// #     grid: Grid::Hrap(HrapGrid { i: 400, j: 932, columns: 2, rows: 1 }),
/// #     weighting: Weighting::ByQuality,
/// # };
/// # let scan = GateLists { azimuths: &[0], values: &[1, 7], qualities: &[90, 10] };
/// let record = write_record(head, scan)?;
/// assert_eq!(record_field(&record, 6)?, [0, 1, 0, 7]); // two values of two bytes
/// assert_eq!(record_field(&record, 8)?, []);
/// assert_eq!(record_field(&record[1..], 8).unwrap_err().number, 12);
/// # Ok::<(), uldrevin::Refusal>(())
/// ```
pub fn record_field(record: &[u8], number: u32) -> Result<&[u8], Refusal> {
    let (mut start, mut length) = (0, 0);
    // The pointers are to the record, with its length, and to two numbers of this function.
    done(unsafe {
        exports::uldrevin_record_field(
            record.as_ptr(),
            record.len(),
            number,
            &mut start,
            &mut length,
        )
    })?;
    Ok(&record[start as usize..][..length as usize])
}

/// Reads a record into new lists.
///
/// ```
/// use uldrevin::{read_record, write_record, GateLists, Grid, RadolanGrid, ScanHead, Site, Weighting};
///
/// let head = ScanHead {
///     site: Site { latitude: 510_000, longitude: 100_000 },
///     rays: 2,
///     gates: 1,
///     first: 50_000,
///     spacing: 100_000,
///     grid: Grid::Radolan(RadolanGrid { x: -52_346_220, y: -465_864_470, side: 100_000, columns: 900, rows: 900 }),
///     weighting: Weighting::Plain,
/// };
/// let scan = GateLists { azimuths: &[0, 1_800_000], values: &[12, uldrevin::NO_ECHO], qualities: &[100, 80] };
/// let read = read_record(&write_record(head, scan)?)?;
/// assert_eq!(read.head, head);
/// assert_eq!(read.values, scan.values);
/// # Ok::<(), uldrevin::Refusal>(())
/// ```
pub fn read_record(record: &[u8]) -> Result<ScanRead, Refusal> {
    let head = record_head(record)?;
    let mut read = ScanRead {
        head,
        azimuths: vec![0; head.rays as usize],
        values: vec![0; head.all_gates()],
        qualities: vec![0; head.all_gates()],
    };
    read_record_into(
        record,
        &mut read.azimuths,
        &mut read.values,
        &mut read.qualities,
    )?;
    Ok(read)
}

/// Reads a record into lent lists, whose lengths have to be exact.
pub fn read_record_into(
    record: &[u8],
    azimuths: &mut [u32],
    values: &mut [u16],
    qualities: &mut [u8],
) -> Result<ScanHead, Refusal> {
    let mut numbers = ScanNumbers::default();
    // Every pointer goes with the length of its own list, and no two of them overlap.
    done(unsafe {
        exports::uldrevin_record_read(
            record.as_ptr(),
            record.len(),
            &mut numbers,
            azimuths.as_mut_ptr(),
            azimuths.len(),
            values.as_mut_ptr(),
            values.len(),
            qualities.as_mut_ptr(),
            qualities.len(),
        )
    })?;
    Ok(head_of(numbers))
}

/// The record of a scan.
pub fn write_record(head: ScanHead, scan: GateLists) -> Result<Vec<u8>, Refusal> {
    // An empty buffer is refused by 16 where all else is right, so only then is a buffer made.
    let refusal = write_record_into(head, scan, &mut []);
    if refusal != Err(Refusal { number: 16 }) {
        refusal?;
    }
    // Seven tags and lengths, the fields 1 to 4, the larger grid's among them; then 4 bytes a ray and 3 a gate.
    let most = 7 * 3 + 8 + 12 + 17 + 1 + 4 * head.rays as usize + 3 * head.all_gates();
    let mut record = vec![0; most];
    let length = write_record_into(head, scan, &mut record)?;
    record.truncate(length);
    Ok(record)
}

/// Writes the record of a scan into a lent buffer and gives its length. What stands behind that length stays.
pub fn write_record_into(
    head: ScanHead,
    scan: GateLists,
    buffer: &mut [u8],
) -> Result<usize, Refusal> {
    let numbers = head.into();
    let mut length = 0;
    // Every pointer goes with the length of its own list, and the buffer overlaps none of them.
    done(unsafe {
        exports::uldrevin_record_write(
            &numbers,
            scan.azimuths.as_ptr(),
            scan.azimuths.len(),
            scan.values.as_ptr(),
            scan.values.len(),
            scan.qualities.as_ptr(),
            scan.qualities.len(),
            buffer.as_mut_ptr(),
            buffer.len(),
            &mut length,
        )
    })?;
    Ok(length as usize)
}
