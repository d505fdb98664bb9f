//! The lists that a tally, a publishing or a sweep writes, lent: a ledger entry and a mark a gate, the rest a number a cell.

use crate::draw::Draw;
use crate::lent_list::LentList;

/// The lengths of the lent lists.
#[derive(Clone, Copy, Debug)]
pub struct Lengths {
    pub ledger: usize,
    pub marks: usize,
    pub counts: usize,
    pub quality_sums: usize,
    pub value_sums: usize,
    pub weighted_sums: usize,
    pub means: usize,
    pub cell_qualities: usize,
}

impl Lengths {
    pub fn exact(gates: usize, cells: usize) -> Lengths {
        Lengths {
            ledger: gates,
            marks: gates,
            counts: cells,
            quality_sums: cells,
            value_sums: cells,
            weighted_sums: cells,
            means: cells,
            cell_qualities: cells,
        }
    }

    /// Spoils one length.
    pub fn spoil(&mut self, draw: &mut Draw) {
        let length = match draw.below(8) {
            0 => &mut self.ledger,
            1 => &mut self.marks,
            _ => return self.spoil_published(draw),
        };
        *length = draw.wrong_length(*length);
    }

    /// Spoils one length of the lists that publishing takes.
    pub fn spoil_published(&mut self, draw: &mut Draw) {
        let length = match draw.below(6) {
            0 => &mut self.counts,
            1 => &mut self.quality_sums,
            2 => &mut self.value_sums,
            3 => &mut self.weighted_sums,
            4 => &mut self.means,
            _ => &mut self.cell_qualities,
        };
        *length = draw.wrong_length(*length);
    }

    /// How many cells have all sums.
    pub fn shortest_sums(&self) -> usize {
        let narrow = self.counts.min(self.quality_sums);
        narrow.min(self.value_sums).min(self.weighted_sums)
    }
}

pub fn count_marked(marks: &[u8]) -> usize {
    marks.iter().filter(|&&mark| mark == 1).count()
}

#[derive(Clone)]
pub struct Lists {
    pub ledger: LentList<u32>,
    pub marks: LentList<u8>,
    pub counts: LentList<u32>,
    pub quality_sums: LentList<u32>,
    pub value_sums: LentList<u64>,
    pub weighted_sums: LentList<u64>,
    pub means: LentList<u16>,
    pub cell_qualities: LentList<u8>,
}

impl Lists {
    /// Random contents, the same for the same seed.
    pub fn new(lengths: &Lengths, margin: usize, seed: u64) -> Lists {
        let draw = &mut Draw::new(seed);
        let low_half = |bits| bits as u32;
        let low_byte = |bits| bits as u8;
        Lists {
            ledger: LentList::new(draw, margin, lengths.ledger, low_half),
            marks: LentList::new(draw, margin, lengths.marks, low_byte),
            counts: LentList::new(draw, margin, lengths.counts, low_half),
            quality_sums: LentList::new(draw, margin, lengths.quality_sums, low_half),
            value_sums: LentList::new(draw, margin, lengths.value_sums, |bits| bits),
            weighted_sums: LentList::new(draw, margin, lengths.weighted_sums, |bits| bits),
            means: LentList::new(draw, margin, lengths.means, |bits| bits as u16),
            cell_qualities: LentList::new(draw, margin, lengths.cell_qualities, low_byte),
        }
    }

    /// Says where the two differ first, margins and all.
    pub fn compare(&self, other: &Lists, name: &str) -> Option<String> {
        let cells = || {
            self.counts
                .compare("counts", &other.counts, name)
                .or_else(|| {
                    self.quality_sums
                        .compare("quality_sums", &other.quality_sums, name)
                })
                .or_else(|| {
                    self.value_sums
                        .compare("value_sums", &other.value_sums, name)
                })
                .or_else(|| {
                    self.weighted_sums
                        .compare("weighted_sums", &other.weighted_sums, name)
                })
                .or_else(|| self.means.compare("means", &other.means, name))
                .or_else(|| {
                    self.cell_qualities
                        .compare("cell_qualities", &other.cell_qualities, name)
                })
        };
        self.ledger
            .compare("ledger", &other.ledger, name)
            .or_else(|| self.marks.compare("marks", &other.marks, name))
            .or_else(cells)
    }
}
