//! The sums of one cell, and draws of such that come near the limits of what is published.

use crate::draw::Draw;
use crate::output_lists::Lists;
use plain_program::scan::{LARGEST_MEAN, MOST_QUALITY};

#[derive(Clone, Copy, Debug, Default)]
pub struct CellSums {
    pub cell: usize,
    pub count: u32,
    pub quality_sum: u32,
    pub value_sum: u64,
    pub weighted_sum: u64,
}

impl CellSums {
    pub fn put(self, lists: &mut Lists) {
        lists.counts.lent()[self.cell] = self.count;
        lists.quality_sums.lent()[self.cell] = self.quality_sum;
        lists.value_sums.lent()[self.cell] = self.value_sum;
        lists.weighted_sums.lent()[self.cell] = self.weighted_sum;
    }
}

/// A number of up to 32 bits, each length alike.
fn any_narrow(draw: &mut Draw) -> u32 {
    draw.bits() as u32 >> draw.below(32)
}

/// A number of up to 64 bits, each length alike, or the greatest.
fn any_wide(draw: &mut Draw) -> u64 {
    match draw.below(8) {
        0 => u64::MAX,
        _ => draw.bits() >> draw.below(64),
    }
}

/// A sum whose quotient by the divisor is the one given, where 64 bits hold it; often nothing or all but one is left over.
fn sum_for(draw: &mut Draw, quotient: u64, divisor: u32) -> u64 {
    let rest = draw.good(0..=i64::from(divisor.max(1)) - 1) as u64;
    quotient.saturating_mul(divisor.into()).saturating_add(rest)
}

/// A value sum with its mean about 65,533 or beyond, or any where there is no divisor.
fn value_sum(draw: &mut Draw, divisor: u32) -> u64 {
    let far = any_wide(draw);
    let about = LARGEST_MEAN + draw.below(5) as u64 - 1;
    let mean = draw.one_of(&[0, 1, about, about, about, about + 65_536, far]);
    match divisor {
        0 => far,
        _ => sum_for(draw, mean, divisor),
    }
}

/// Sums of a cell with its means about 65,533 or beyond, or its quality about 100 or beyond.
pub fn sums_to_publish(draw: &mut Draw, cell: usize) -> CellSums {
    let any = any_narrow(draw);
    let count = draw.one_of(&[0, 1, 2, 7, u32::MAX, any]);
    let (most, far) = (u64::from(MOST_QUALITY), any_wide(draw));
    let quality = draw.one_of(&[0, most - 1, most, most + 1, 255, 256, 256 + most, far]);
    let quality_sum = sum_for(draw, quality, count).min(u32::MAX.into()) as u32;
    let any = any_narrow(draw);
    let quality_sum = draw.one_of(&[quality_sum, quality_sum, any]);
    CellSums {
        cell,
        count,
        quality_sum,
        value_sum: value_sum(draw, count),
        weighted_sum: value_sum(draw, quality_sum),
    }
}
