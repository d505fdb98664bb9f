//! A list that is lent with a margin before and behind it, so that a write beside it is seen.

use crate::draw::Draw;
use std::fmt::Debug;

#[derive(Clone)]
pub struct LentList<T> {
    held: Vec<T>,
    margin: usize,
}

impl<T: Copy + PartialEq + Debug> LentList<T> {
    /// Random contents, each number made from 64 random bits.
    pub fn new(draw: &mut Draw, margin: usize, length: usize, number: fn(u64) -> T) -> LentList<T> {
        let all = length + 2 * margin;
        LentList {
            held: (0..all).map(|_| number(draw.bits())).collect(),
            margin,
        }
    }

    /// The part between the margins.
    pub fn lent(&mut self) -> &mut [T] {
        let end = self.held.len() - self.margin;
        &mut self.held[self.margin..end]
    }

    /// So many numbers from the first of that part on, into the margin behind it at most.
    pub fn first(&mut self, length: usize) -> &mut [T] {
        let most = self.held.len() - self.margin;
        &mut self.held[self.margin..][..length.min(most)]
    }

    /// The part between the margins, to be read.
    pub fn read(&self) -> &[T] {
        &self.held[self.margin..self.held.len() - self.margin]
    }

    /// Says where the two differ first, margins and all. Places count from the start of the lent part.
    pub fn compare(&self, name: &str, other: &LentList<T>, other_name: &str) -> Option<String> {
        let mut pairs = self.held.iter().zip(&other.held);
        let place = pairs.position(|(mine, others)| mine != others)?;
        Some(format!(
            "{name}[{}]: the library leaves {:?}, {other_name} {:?}",
            place as i64 - self.margin as i64,
            self.held[place],
            other.held[place]
        ))
    }
}
