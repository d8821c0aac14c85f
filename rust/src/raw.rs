//! The calls of the C boundary, each on slices, returning its number. The only module with `unsafe`.
//!
//! Every wrapper may be called with any slices: a call checks each length itself before it reads or writes, keeps no
//! pointer, has no state, and writes only behind the pointers that are `*mut` here.

use crate::{Colours, Fragment};

/// Not a refusal: the lighting is off.
pub const OFF: u32 = 100;

const FRAGMENT_WORDS: usize = 23;
const COLOUR_WORDS: usize = 8;

// fragments and colours cross as their words
const _: () = assert!(std::mem::size_of::<Fragment>() == 4 * FRAGMENT_WORDS && std::mem::align_of::<Fragment>() == 4);
const _: () = assert!(std::mem::size_of::<Colours>() == 4 * COLOUR_WORDS && std::mem::align_of::<Colours>() == 4);

#[rustfmt::skip]
extern "C" {
    fn lighting_write(
        file: *mut u32, file_words: usize, tables: *mut u32, table_words: usize, generation: *mut u64,
        register: u32, value: u32,
    ) -> u32;
    fn lighting_writes(
        file: *mut u32, file_words: usize, tables: *mut u32, table_words: usize, generation: *mut u64,
        pairs: *const u32, pair_words: usize, done: *mut u64,
    ) -> u32;
    fn lighting_restore(
        tables: *mut u32, table_words: usize, generation: *mut u64, saved: *const u32, saved_words: usize,
    ) -> u32;
    fn lighting_save(tables: *const u32, table_words: usize, output: *mut u32, output_words: usize) -> u32;
    fn lighting_read(file: *const u32, file_words: usize, block: *mut u32, block_words: usize) -> u32;
    fn lighting_cached_read(
        file: *const u32, file_words: usize, cache: *mut u32, cache_words: usize, block: *mut u32, block_words: usize,
    ) -> u32;
    fn lighting_hand_over(
        file: *const u32, file_words: usize, tables: *const u32, table_words: usize, generation: u64,
        cache: *mut u32, cache_words: usize, block: *mut u32, block_words: usize,
        copied: *mut u32, copied_words: usize, copy_generation: *mut u64,
    ) -> u32;
    fn lighting_read_block(block: *const u32, block_words: usize) -> u32;
    fn lighting_shade_block(
        block: *const u8, block_bytes: usize, tables: *const u8, table_bytes: usize,
        fragment: *const u8, fragment_bytes: usize, answer: *mut u8, answer_bytes: usize,
    ) -> u32;
    fn lighting_shade_fragments(
        block: *const u32, block_words: usize, tables: *const u32, table_words: usize,
        fragments: *const u32, fragment_words: usize, answers: *mut u32, answer_words: usize,
    ) -> u32;
    fn lighting_capture(
        input: *const u8, input_bytes: usize, output: *mut u8, output_bytes: usize, printed: *mut u64,
    ) -> u32;
    fn lighting_census(mantissa: u32, exponent: u32, totals: *mut u32, totals_words: usize) -> u32;
}

// SAFETY, of every call below: each pointer and length are those of one slice, or a reference to one number. A `*mut`
// comes from a `&mut`, so it overlaps no other argument.

#[inline]
pub fn write(file: &mut [u32], tables: &mut [u32], generation: &mut u64, register: u32, value: u32) -> u32 {
    unsafe { lighting_write(file.as_mut_ptr(), file.len(), tables.as_mut_ptr(), tables.len(), generation, register, value) }
}

#[inline]
pub fn writes(file: &mut [u32], tables: &mut [u32], generation: &mut u64, pairs: &[[u32; 2]], done: &mut u64) -> u32 {
    // a slice has at most `isize::MAX` bytes, so its words can be counted
    let (words, count) = (pairs.as_ptr().cast(), 2 * pairs.len());
    unsafe { lighting_writes(file.as_mut_ptr(), file.len(), tables.as_mut_ptr(), tables.len(), generation, words, count, done) }
}

#[inline]
pub fn restore(tables: &mut [u32], generation: &mut u64, saved: &[u32]) -> u32 {
    unsafe { lighting_restore(tables.as_mut_ptr(), tables.len(), generation, saved.as_ptr(), saved.len()) }
}

#[inline]
pub fn save(tables: &[u32], output: &mut [u32]) -> u32 {
    unsafe { lighting_save(tables.as_ptr(), tables.len(), output.as_mut_ptr(), output.len()) }
}

#[inline]
pub fn read(file: &[u32], block: &mut [u32]) -> u32 {
    unsafe { lighting_read(file.as_ptr(), file.len(), block.as_mut_ptr(), block.len()) }
}

#[inline]
pub fn cached_read(file: &[u32], cache: &mut [u32], block: &mut [u32]) -> u32 {
    unsafe { lighting_cached_read(file.as_ptr(), file.len(), cache.as_mut_ptr(), cache.len(), block.as_mut_ptr(), block.len()) }
}

#[inline]
pub fn hand_over(
    file: &[u32],
    tables: &[u32],
    generation: u64,
    cache: &mut [u32],
    block: &mut [u32],
    copied: &mut [u32],
    copy_generation: &mut u64,
) -> u32 {
    unsafe {
        lighting_hand_over(
            file.as_ptr(),
            file.len(),
            tables.as_ptr(),
            tables.len(),
            generation,
            cache.as_mut_ptr(),
            cache.len(),
            block.as_mut_ptr(),
            block.len(),
            copied.as_mut_ptr(),
            copied.len(),
            copy_generation,
        )
    }
}

#[inline]
pub fn read_block(block: &[u32]) -> u32 {
    unsafe { lighting_read_block(block.as_ptr(), block.len()) }
}

#[inline]
pub fn shade_block(block: &[u8], tables: &[u8], fragment: &[u8], answer: &mut [u8]) -> u32 {
    unsafe {
        lighting_shade_block(
            block.as_ptr(),
            block.len(),
            tables.as_ptr(),
            tables.len(),
            fragment.as_ptr(),
            fragment.len(),
            answer.as_mut_ptr(),
            answer.len(),
        )
    }
}

#[inline]
pub fn shade_fragments(block: &[u32], tables: &[u32], fragments: &[Fragment], colours: &mut [Colours]) -> u32 {
    // both types are `repr(C)` over four-byte numbers of which every bit pattern is one, and as long as asserted above
    unsafe {
        lighting_shade_fragments(
            block.as_ptr(),
            block.len(),
            tables.as_ptr(),
            tables.len(),
            fragments.as_ptr().cast(),
            FRAGMENT_WORDS * fragments.len(),
            colours.as_mut_ptr().cast(),
            COLOUR_WORDS * colours.len(),
        )
    }
}

#[inline]
pub fn capture(input: &[u8], output: &mut [u8], printed: &mut u64) -> u32 {
    unsafe { lighting_capture(input.as_ptr(), input.len(), output.as_mut_ptr(), output.len(), printed) }
}

#[inline]
pub fn census(mantissa: u32, exponent: u32, totals: &mut [u32]) -> u32 {
    unsafe { lighting_census(mantissa, exponent, totals.as_mut_ptr(), totals.len()) }
}
