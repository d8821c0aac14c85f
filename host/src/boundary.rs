//! The library's calls as they cross the C boundary, on slices of any length. The crate `lighting` has them on types
//! that settle each length; here a call can be lent a slice of a wrong one.

use lighting::{BLOCK_WORDS, REGISTERS, TABLE_WORDS};

/// What a call returns where the lighting is off.
pub const OFF: u32 = 100;
/// What a call returns where a slice of which document 01 doesn't speak is not of the stated size.
pub const WRONG_SIZE: u32 = 101;
/// The words of a cache: 0 where it is empty, 139 kept registers, and the kept block.
pub const CACHE_WORDS: usize = 468;
pub const FRAGMENT_WORDS: usize = 23;
pub const ANSWER_WORDS: usize = 8;

#[rustfmt::skip]
unsafe extern "C" {
    fn lighting_write(
        file: *mut u32, file_words: usize, tables: *mut u32, table_words: usize, generation: *mut u64,
        register: u32, value: u32,
    ) -> u32;
    fn lighting_writes(
        file: *mut u32, file_words: usize, tables: *mut u32, table_words: usize, generation: *mut u64,
        pairs: *const u32, pair_words: usize, done: *mut u64,
    ) -> u32;
    fn lighting_restore(
        tables: *mut u32, table_words: usize, generation: *mut u64, saved: *const u32, saved_words: usize,
    ) -> u32;
    fn lighting_save(tables: *const u32, table_words: usize, output: *mut u32, output_words: usize) -> u32;
    fn lighting_read(file: *const u32, file_words: usize, block: *mut u32, block_words: usize) -> u32;
    fn lighting_cached_read(
        file: *const u32, file_words: usize, cache: *mut u32, cache_words: usize, block: *mut u32, block_words: usize,
    ) -> u32;
    fn lighting_hand_over(
        file: *const u32, file_words: usize, tables: *const u32, table_words: usize, generation: u64,
        cache: *mut u32, cache_words: usize, block: *mut u32, block_words: usize,
        copy_tables: *mut u32, copy_table_words: usize, copy_generation: *mut u64,
    ) -> u32;
    fn lighting_read_block(block: *const u32, block_words: usize) -> u32;
    fn lighting_shade_block(
        block: *const u8, block_bytes: usize, tables: *const u8, table_bytes: usize,
        fragment: *const u8, fragment_bytes: usize, answer: *mut u8, answer_bytes: usize,
    ) -> u32;
    fn lighting_shade_fragments(
        block: *const u32, block_words: usize, tables: *const u32, table_words: usize,
        fragments: *const u32, fragment_words: usize, answers: *mut u32, answer_words: usize,
    ) -> u32;
    fn lighting_capture(
        input: *const u8, input_bytes: usize, output: *mut u8, output_bytes: usize, printed: *mut u64,
    ) -> u32;
    fn lighting_census(mantissa: u32, exponent: u32, totals: *mut u32, totals_words: usize) -> u32;
}

// SAFETY, of every call below: each pointer and length are those of one slice, or a reference to one number. A `*mut`
// comes from a `&mut`, so it overlaps no other argument. Each call checks the lengths itself.

/// A unit, its slices of any length.
#[derive(Clone, PartialEq)]
pub struct Unit {
    pub file: Vec<u32>,
    pub tables: Vec<u32>,
    pub generation: u64,
    pub cache: Vec<u32>,
}

/// A copy, its slices of any length.
#[derive(Clone, PartialEq)]
pub struct Copy {
    pub block: Vec<u32>,
    pub tables: Vec<u32>,
    pub generation: u64,
}

impl Default for Unit {
    fn default() -> Unit {
        Unit { file: vec![0; REGISTERS], tables: vec![0; TABLE_WORDS], generation: 0, cache: vec![0; CACHE_WORDS] }
    }
}

impl Default for Copy {
    fn default() -> Copy {
        Copy { block: vec![0; BLOCK_WORDS], tables: vec![0; TABLE_WORDS], generation: 0 }
    }
}

impl Unit {
    #[inline]
    pub fn write(&mut self, register: u32, value: u32) -> u32 {
        let (f, t) = (&mut self.file, &mut self.tables);
        unsafe { lighting_write(f.as_mut_ptr(), f.len(), t.as_mut_ptr(), t.len(), &mut self.generation, register, value) }
    }

    #[inline]
    pub fn writes(&mut self, pairs: &[u32], done: &mut u64) -> u32 {
        let (f, t, g) = (&mut self.file, &mut self.tables, &mut self.generation);
        unsafe { lighting_writes(f.as_mut_ptr(), f.len(), t.as_mut_ptr(), t.len(), g, pairs.as_ptr(), pairs.len(), done) }
    }

    #[inline]
    pub fn restore(&mut self, saved: &[u32]) -> u32 {
        let t = &mut self.tables;
        unsafe { lighting_restore(t.as_mut_ptr(), t.len(), &mut self.generation, saved.as_ptr(), saved.len()) }
    }

    #[inline]
    pub fn save(&self, output: &mut [u32]) -> u32 {
        unsafe { lighting_save(self.tables.as_ptr(), self.tables.len(), output.as_mut_ptr(), output.len()) }
    }

    #[inline]
    pub fn cached_read(&mut self, block: &mut [u32]) -> u32 {
        let (f, c) = (&self.file, &mut self.cache);
        unsafe { lighting_cached_read(f.as_ptr(), f.len(), c.as_mut_ptr(), c.len(), block.as_mut_ptr(), block.len()) }
    }

    #[inline]
    pub fn hand_over(&mut self, copy: &mut Copy) -> u32 {
        hand_over(&self.file, &self.tables, self.generation, &mut self.cache, copy)
    }
}

/// A hand-over from a unit that is lent in parts.
#[inline]
pub fn hand_over(file: &[u32], tables: &[u32], generation: u64, cache: &mut [u32], copy: &mut Copy) -> u32 {
    let (b, t) = (&mut copy.block, &mut copy.tables);
    unsafe {
        lighting_hand_over(
            file.as_ptr(),
            file.len(),
            tables.as_ptr(),
            tables.len(),
            generation,
            cache.as_mut_ptr(),
            cache.len(),
            b.as_mut_ptr(),
            b.len(),
            t.as_mut_ptr(),
            t.len(),
            &mut copy.generation,
        )
    }
}

/// `lighting_read`, of a file that is lent.
#[inline]
pub fn read_file(file: &[u32], block: &mut [u32]) -> u32 {
    unsafe { lighting_read(file.as_ptr(), file.len(), block.as_mut_ptr(), block.len()) }
}

#[inline]
pub fn read_block(block: &[u32]) -> u32 {
    unsafe { lighting_read_block(block.as_ptr(), block.len()) }
}

/// One fragment, all slices as bytes.
#[inline]
pub fn shade_block(block: &[u8], tables: &[u8], fragment: &[u8], answer: &mut [u8]) -> u32 {
    let (b, t, f, a) = (block, tables, fragment, answer);
    unsafe { lighting_shade_block(b.as_ptr(), b.len(), t.as_ptr(), t.len(), f.as_ptr(), f.len(), a.as_mut_ptr(), a.len()) }
}

/// Any number of fragments, with eight words of answers for each.
#[inline]
pub fn shade_fragments(block: &[u32], tables: &[u32], fragments: &[u32], answers: &mut [u32]) -> u32 {
    let (b, t, f, a) = (block, tables, fragments, answers);
    unsafe { lighting_shade_fragments(b.as_ptr(), b.len(), t.as_ptr(), t.len(), f.as_ptr(), f.len(), a.as_mut_ptr(), a.len()) }
}

#[inline]
pub fn capture(input: &[u8], output: &mut [u8], printed: &mut u64) -> u32 {
    unsafe { lighting_capture(input.as_ptr(), input.len(), output.as_mut_ptr(), output.len(), printed) }
}

#[inline]
pub fn census(mantissa: u32, exponent: u32, totals: &mut [u32]) -> u32 {
    unsafe { lighting_census(mantissa, exponent, totals.as_mut_ptr(), totals.len()) }
}

/// Words as bytes, the lowest first.
pub fn bytes(words: &[u32]) -> Vec<u8> {
    words.iter().flat_map(|w| w.to_le_bytes()).collect()
}

/// The words of bytes.
pub fn words(bytes: &[u8]) -> Vec<u32> {
    bytes.as_chunks().0.iter().map(|w| u32::from_le_bytes(*w)).collect()
}
