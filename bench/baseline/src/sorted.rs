//! The packing test by sorting, written straight: every set of nodes with its row as one number.

use crate::crowding::PackingTest;

pub struct Sorted {
    /// A set's nodes, one byte each, above 16 bits of the row.
    keys: Vec<u64>,
}

impl PackingTest for Sorted {
    fn new(_: usize) -> Self {
        Sorted { keys: Vec::new() }
    }

    fn first_crowded<const R: usize>(&mut self, rows: &[[u8; R]], width: usize, bound: usize) -> Option<usize> {
        let sets: Vec<u32> = (0..1 << R).filter(|set: &u32| set.count_ones() as usize == width).collect();
        self.keys.clear();
        self.keys.reserve(sets.len() * rows.len());
        for (i, row) in rows.iter().enumerate() {
            for set in &sets {
                let nodes = (0..R).filter(|j| set >> j & 1 == 1).fold(0, |nodes, j| nodes << 8 | u64::from(row[j]));
                self.keys.push(nodes << 16 | i as u64);
            }
        }
        self.keys.sort_unstable();
        // Equal sets are neighbours, so one that stands in more than `bound` rows is found twice, `bound` places apart.
        let pairs = self.keys.iter().zip(&self.keys[bound..]);
        pairs.filter(|(first, last)| *first >> 16 == *last >> 16).map(|(first, _)| (first & 0xffff) as usize).min()
    }
}
