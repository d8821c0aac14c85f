//! Document 01's calls on the structs, a lighting by value and a cache, as a library for comparisons has them on
//! slices of words. Each returns document 01's number, or 100 where the lighting is off.

use crate::boundary::Copy;

#[rustfmt::skip]
unsafe extern "C" {
    fn structs_shade_file(
        file: *const u32, file_words: usize, tables: *const u32, table_words: usize,
        fragment: *const u32, fragment_words: usize, answer: *mut u32, answer_words: usize,
    ) -> u32;
    fn structs_shade_reading(
        block: *const u32, block_words: usize, tables: *const u32, table_words: usize,
        fragment: *const u32, fragment_words: usize, answer: *mut u32, answer_words: usize,
    ) -> u32;
    fn structs_shade_block(
        block: *const u32, block_words: usize, tables: *const u32, table_words: usize,
        fragment: *const u32, fragment_words: usize, answer: *mut u32, answer_words: usize,
    ) -> u32;
    fn structs_cached_reads(
        file: *const u32, file_words: usize, other: *const u32, other_words: usize, block: *mut u32, block_words: usize,
    ) -> u32;
    fn structs_hand_overs(
        file: *const u32, file_words: usize, other: *const u32, other_words: usize,
        tables: *const u32, table_words: usize, first: u64, second: u64,
        block: *mut u32, block_words: usize, copied: *mut u32, copied_words: usize, age: *mut u64, pairs: u32,
    ) -> u32;
}

// SAFETY, of every call below: each pointer and length are those of one slice, or a reference to one number. A `*mut`
// comes from a `&mut`, so it overlaps no other argument. Each call checks the lengths itself.

/// Read of a file, then shade: 9 for a fragment of other than 23 words, 1, 100, then shade's 2 and 9.
pub fn shade_file(file: &[u32], tables: &[u32], fragment: &[u32], answer: &mut [u32]) -> u32 {
    let (i, t, f, a) = (file, tables, fragment, answer);
    unsafe { structs_shade_file(i.as_ptr(), i.len(), t.as_ptr(), t.len(), f.as_ptr(), f.len(), a.as_mut_ptr(), a.len()) }
}

/// Block read, then shade: 9 for a fragment of other than 23 words, 6, 7, 100, then shade's 2 and 9.
pub fn shade_reading(block: &[u32], tables: &[u32], fragment: &[u32], answer: &mut [u32]) -> u32 {
    let (b, t, f, a) = (block, tables, fragment, answer);
    unsafe { structs_shade_reading(b.as_ptr(), b.len(), t.as_ptr(), t.len(), f.as_ptr(), f.len(), a.as_mut_ptr(), a.len()) }
}

/// Block shading on words: 6, 2, 9, 7, 100.
pub fn shade_block(block: &[u32], tables: &[u32], fragment: &[u32], answer: &mut [u32]) -> u32 {
    let (b, t, f, a) = (block, tables, fragment, answer);
    unsafe { structs_shade_block(b.as_ptr(), b.len(), t.as_ptr(), t.len(), f.as_ptr(), f.len(), a.as_mut_ptr(), a.len()) }
}

/// Cached reads of one file and then of the other, from an empty cache, and pack of the second's lighting: 1, 100 with
/// the block left, 6.
pub fn cached_reads(files: [&[u32]; 2], block: &mut [u32]) -> u32 {
    let [f, o] = files;
    unsafe { structs_cached_reads(f.as_ptr(), f.len(), o.as_ptr(), o.len(), block.as_mut_ptr(), block.len()) }
}

/// `pairs` times two hand-overs to `copy`, of the first file and generation and then of the second, from an empty
/// cache. Returns the number of the last.
pub fn hand_overs(files: [&[u32]; 2], tables: &[u32], generations: [u64; 2], copy: &mut Copy, pairs: u32) -> u32 {
    let ([f, o], [first, second], b, t) = (files, generations, &mut copy.block, &mut copy.tables);
    unsafe {
        structs_hand_overs(
            f.as_ptr(),
            f.len(),
            o.as_ptr(),
            o.len(),
            tables.as_ptr(),
            tables.len(),
            first,
            second,
            b.as_mut_ptr(),
            b.len(),
            t.as_mut_ptr(),
            t.len(),
            &mut copy.generation,
            pairs,
        )
    }
}
