//! The module's side of a list.

use crate::blocks::theirs as packed;
use crate::boundary::{Copy, CACHE_WORDS};
use crate::colours::table_words;
use crate::oracle::{access, LastLighting, Tables};
use crate::tables::is_data;
use lighting::BLOCK_WORDS;

/// The module's unit, the cache that is due, and the copy that its blocks and tables fill.
pub struct Theirs {
    pub file: Vec<u32>,
    pub tables: Tables,
    last: LastLighting,
    pub cache: Vec<u32>,
    pub copy: Copy,
}

impl Theirs {
    pub fn fresh(file: Vec<u32>) -> Theirs {
        Theirs { file, tables: Tables::default(), last: LastLighting::default(), cache: vec![0; CACHE_WORDS], copy: Copy::default() }
    }

    pub fn write(&mut self, register: u32, value: u32) {
        if is_data(register) {
            self.tables.write(&mut self.file, value);
        } else {
            self.file[register as usize] = value;
        }
    }

    pub fn restore(&mut self, saved: &[u32]) {
        let entries: Vec<[f32; 2]> = saved.as_chunks().0.iter().map(|entry| entry.map(f32::from_bits)).collect();
        assert!(self.tables.restore(&entries));
    }

    /// The block of `LastLighting::read` and `pack`, every NaN as 7FC00000; none where the lighting is off.
    pub fn cached_read(&mut self) -> Option<Vec<u32>> {
        let mut block = vec![];
        let lighting = self.last.read(&self.file);
        self.cache = full_cache(&self.file);
        lighting?.pack(&mut block);
        Some(block.into_iter().map(|w| crate::word(f32::from_bits(w))).collect())
    }

    pub fn hand_over(&mut self) {
        self.copy.block = self.cached_read().unwrap_or(vec![0; BLOCK_WORDS]);
        if self.copy.generation != self.tables.generation() {
            self.copy.tables = table_words(&self.tables);
            self.copy.generation = self.tables.generation();
        }
    }
}

/// The cache that a read of the file leaves.
pub fn full_cache(file: &[u32]) -> Vec<u32> {
    let block = packed(file).unwrap_or(vec![0; BLOCK_WORDS]);
    [vec![1], access::registers_read(file), block].concat()
}
