//! The four sums of each cell, which a tally fills, a sweep adds to and cells are published from.

/// The sums, lent: a number a cell each.
#[derive(Debug)]
pub struct SumLists<'a> {
    /// The measured gates in the cell.
    pub counts: &'a mut [u32],
    /// The sum of their qualities.
    pub quality_sums: &'a mut [u32],
    /// The sum of their values, no echo as 0.
    pub value_sums: &'a mut [u64],
    /// The sum of their values, each times its quality.
    pub weighted_sums: &'a mut [u64],
}

/// The sums, owned: the lists of [`SumLists`].
#[derive(Clone, Debug, Default, PartialEq, Eq)]
pub struct Sums {
    pub counts: Vec<u32>,
    pub quality_sums: Vec<u32>,
    pub value_sums: Vec<u64>,
    pub weighted_sums: Vec<u64>,
}

impl Sums {
    /// Sums of 0 for as many cells.
    pub fn zeros(cells: usize) -> Sums {
        Sums {
            counts: vec![0; cells],
            quality_sums: vec![0; cells],
            value_sums: vec![0; cells],
            weighted_sums: vec![0; cells],
        }
    }

    /// The lists, lent.
    pub fn lists(&mut self) -> SumLists<'_> {
        SumLists {
            counts: &mut self.counts,
            quality_sums: &mut self.quality_sums,
            value_sums: &mut self.value_sums,
            weighted_sums: &mut self.weighted_sums,
        }
    }
}
