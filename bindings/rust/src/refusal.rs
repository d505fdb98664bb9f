//! Refusals: the numbers of documents 01 and 02, with a sentence each.

use std::error::Error;
use std::fmt;

/// Why a call gave no result. What was lent stays as it came in.
///
/// ```
/// let refusal = uldrevin::record_head(&[1, 0]).unwrap_err();
/// assert_eq!(refusal.number, 11);
/// assert_eq!(refusal.to_string(), "refusal 11: the record is cut short");
/// ```
#[derive(Clone, Copy, Debug, PartialEq, Eq)]
pub struct Refusal {
    pub number: u32,
}

impl Refusal {
    /// What the number means.
    pub fn sentence(&self) -> &'static str {
        match self.number {
            1 => "the number of rays is not 1 to 720",
            2 => "the number of gates in a ray is not 1 to 1,000",
            3 => "the first centre, the spacing, the last centre or the range is out of bounds",
            4 => "the latitude is not 200,000 to 750,000 or the longitude is not -1,800,000 to 1,800,000",
            5 => "a number of the grid is out of bounds",
            6 => "the length of a list is not exact",
            7 => "an azimuth is not 0 to 3,599,999",
            8 => "a quality is over 100",
            11 => "the record is cut short",
            12 => "a tag of the record is not the next one",
            13 => "a length, the kind or the weighting byte of the record is wrong",
            14 => "bytes stand after field 7 of the record",
            15 => "the scan has over 32,767 gates, too many for a record",
            16 => "the buffer is shorter than the record",
            17 => "more rays than were announced",
            18 => "rays are missing",
            19 => "the sweep is closed",
            31 => "a count or sum of a cell would pass its width",
            _ => "no refusal has this number",
        }
    }
}

impl fmt::Display for Refusal {
    fn fmt(&self, f: &mut fmt::Formatter) -> fmt::Result {
        write!(f, "refusal {}: {}", self.number, self.sentence())
    }
}

impl Error for Refusal {}

/// The result of a call that answered with a number, 0 for done.
pub(crate) fn done(number: u32) -> Result<(), Refusal> {
    match number {
        0 => Ok(()),
        number => Err(Refusal { number }),
    }
}
