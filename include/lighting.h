/*
 * Fragment lighting, from register writes to two colours: the calls of the proved library liblighting_abi.a, which
 * `host/archives lighting_abi` makes in target/staticlib. It needs nothing but memcpy and memset.
 *
 * A unit is a register file, tables, a generation and a cache; a copy is a block, tables and a generation. The caller
 * owns them all, as plain arrays and numbers; fresh is all zero. A hand-over brings the copy, from which the hardware
 * renderer works, up to date with the unit.
 *
 * Slices     A slice is a pointer and then its length. Lengths count words, uint32_t in the machine's own byte order;
 *            where the pointer is a uint8_t *, they count bytes, and a word is four of them, the lowest first.
 *            NULL with length 0 is an empty slice; no other pointer may be NULL.
 * Alignment  As the pointer's type asks: words 4 bytes, generations and counts 8, bytes anywhere.
 * Aliasing   What a call may change, that is whatever a pointer without const leads to, overlaps no other argument of
 *            that call. What it only reads may overlap.
 * Answers    Every call returns one of enum lighting_number. Where several refusals hold, the first in the order given
 *            at the call. On a refusal nothing behind any pointer has changed, except as lighting_writes and
 *            lighting_capture say. A call fails in no other way.
 * State      None: no call allocates, keeps a pointer or prints. Calls may run side by side, from any threads, where
 *            nothing that one may change is an argument of another.
 * Floats     Calls use the machine's floats as a program starts with them: nearest-even, denormals kept, no traps. Code
 *            built with -ffast-math may have turned denormals off: turn them on again for a call.
 * Stack      At most LIGHTING_STACK_BYTES, for lighting_capture LIGHTING_CAPTURE_STACK_BYTES; measured on x86-64 by
 *            host/c/stack.c, not proved. Room for a loader that binds memcpy and memset only when called is in it.
 */
#ifndef LIGHTING_H
#define LIGHTING_H

#include <stddef.h>
#include <stdint.h>

#ifdef __cplusplus
extern "C" {
#endif

/* Sizes in words. A register file may be longer; only its first 474 words count. */
#define LIGHTING_FILE_WORDS 474
/* 24 tables of 256 entries, each the bits of its value and then of its step: also the size of saved words. */
#define LIGHTING_TABLE_WORDS 12288
#define LIGHTING_BLOCK_WORDS 328
/* All zero is the empty cache; its layout is the library's own. */
#define LIGHTING_CACHE_WORDS 468
/* The bits of floats: quaternion 4, view 3, then four texels of four channels each. Any bits are accepted. */
#define LIGHTING_FRAGMENT_WORDS 23
/* Primary red, green, blue, alpha, then the secondary's: each a whole number k from 0 to 255, for k/255. */
#define LIGHTING_ANSWER_WORDS 8
/* Zeros, infinities, NaNs and other numbers, in this order. */
#define LIGHTING_CENSUS_WORDS 4

/* Sizes in bytes, for lighting_shade_block. */
#define LIGHTING_BLOCK_BYTES (4 * LIGHTING_BLOCK_WORDS)
#define LIGHTING_TABLE_BYTES (4 * LIGHTING_TABLE_WORDS)
#define LIGHTING_FRAGMENT_BYTES (4 * LIGHTING_FRAGMENT_WORDS)
#define LIGHTING_ANSWER_BYTES (4 * LIGHTING_ANSWER_WORDS)

/* A capture has at most so many bytes, and none prints more than so many: 712 lines of 32. */
#define LIGHTING_CAPTURE_BYTES 65536
#define LIGHTING_PRINTED_BYTES 22784

/* The stack that a call needs at most, in bytes: all calls but lighting_capture, and that one. */
#define LIGHTING_STACK_BYTES 8192
#define LIGHTING_CAPTURE_STACK_BYTES 262144

/* What a call returns. */
enum lighting_number {
    LIGHTING_DONE = 0,            /* done; where a lighting was read or shaded: lit */
    LIGHTING_SHORT_FILE = 1,      /* register file under 474 words */
    LIGHTING_WRONG_TABLES = 2,    /* table slice not 12,288 words */
    LIGHTING_HIGH_REGISTER = 3,   /* register 474 (decimal) or above */
    LIGHTING_LAST_GENERATION = 4, /* generation 2^64-1, and the call would raise it */
    LIGHTING_WRONG_SAVED = 5,     /* saved words, or the output for them, not 12,288 */
    LIGHTING_WRONG_BLOCK = 6,     /* block not 328 words */
    LIGHTING_NOT_WELL_FORMED = 7, /* block not well formed, or what a cache keeps */
    LIGHTING_BAD_CAPTURE = 8,     /* input, contents or a body not as a capture has them */
    LIGHTING_WRONG_FRAGMENT = 9,  /* fragment not 23 words, or answer not 8 */
    LIGHTING_OFF = 100,           /* no refusal: the lighting is off */
    LIGHTING_WRONG_SIZE = 101     /* the boundary's own: a cache, list, output or totals not of the stated size */
};

/*
 * Writes a value to a register. 0x1C8 to 0x1CF take table data: it goes into the entry that 0x1C5 names, or nowhere for
 * tables 24 to 31, and 0x1C5 moves on; where the entry's bits change, the generation rises by 1.
 * May change: file, tables, generation.
 * Returns 0; 1, 2, 3, 4 (only where an entry would change).
 */
uint32_t lighting_write(uint32_t *file, size_t file_words, uint32_t *tables, size_t table_words, uint64_t *generation,
                        uint32_t register_number, uint32_t value);

/*
 * Makes a list of writes, pairs of register and value, in their order. It stops at the first that is refused and
 * returns its number; the writes before it stay, and done is their count. Done is set on 0, 3 and 4.
 * May change: file, tables, generation, done.
 * Returns 0; 1, 2, 101 pairs not an even number of words; then 3 or 4 of the write refused.
 */
uint32_t lighting_writes(uint32_t *file, size_t file_words, uint32_t *tables, size_t table_words, uint64_t *generation,
                         const uint32_t *pairs, size_t pairs_words, uint64_t *done);

/*
 * Replaces all tables by saved words; the generation always rises by 1.
 * May change: tables, generation.
 * Returns 0; 2, 5, 4.
 */
uint32_t lighting_restore(uint32_t *tables, size_t table_words, uint64_t *generation, const uint32_t *saved,
                          size_t saved_words);

/*
 * Copies all tables to the output, as lighting_restore takes them.
 * May change: output.
 * Returns 0; 2, 5.
 */
uint32_t lighting_save(const uint32_t *tables, size_t table_words, uint32_t *output, size_t output_words);

/*
 * Decodes the registers and packs the lighting into the block; a lighting that is off is a block all zero.
 * May change: block.
 * Returns 0 lit, 100 off; 1, 6.
 */
uint32_t lighting_read(const uint32_t *file, size_t file_words, uint32_t *block, size_t block_words);

/*
 * The same through the unit's cache: decodes only where the cache is empty or a register that decoding reads differs
 * from the one kept. A cache that calls alone have written never gives 7.
 * May change: cache, block.
 * Returns 0 lit, 100 off; 1, 6, 101 cache not LIGHTING_CACHE_WORDS, 7 its kept registers are the file's and its kept
 * block isn't well formed.
 */
uint32_t lighting_cached_read(const uint32_t *file, size_t file_words, uint32_t *cache, size_t cache_words,
                              uint32_t *block, size_t block_words);

/*
 * Brings a copy up to date with its unit: a cached read into the copy's block, and, exactly where the generations
 * differ, the unit's tables and generation. File, tables, generation and cache are the unit's; block, copy_tables and
 * copy_generation the copy's. Two units can be of one generation with different tables: a copy that goes over to another
 * unit is first given a generation that isn't that unit's, so that the tables are taken.
 * May change: cache, block, copy_tables, copy_generation.
 * Returns 0, also where the lighting is off; 1, 2 the unit's tables, 2 the copy's, 6, 101 and 7 as for the cached read.
 */
uint32_t lighting_hand_over(const uint32_t *file, size_t file_words, const uint32_t *tables, size_t table_words,
                            uint64_t generation, uint32_t *cache, size_t cache_words, uint32_t *block,
                            size_t block_words, uint32_t *copy_tables, size_t copy_table_words,
                            uint64_t *copy_generation);

/*
 * Says what a block reads as: off where all zero, else lit where well formed.
 * May change: nothing.
 * Returns 0 lit, 100 off; 6, 7.
 */
uint32_t lighting_read_block(const uint32_t *block, size_t block_words);

/*
 * Shades one fragment from a block and tables, all as bytes; a slice that isn't whole words is of wrong length.
 * May change: answer, on 0 only.
 * Returns 0, 100 off; 6, 2, 9, 7.
 */
uint32_t lighting_shade_block(const uint8_t *block, size_t block_bytes, const uint8_t *tables, size_t table_bytes,
                              const uint8_t *fragment, size_t fragment_bytes, uint8_t *answer, size_t answer_bytes);

/*
 * Shades any number of fragments, none included, from a block and tables: 23 words for each fragment, one after the
 * other, and 8 for its answer, in the same order. The block is checked once.
 * May change: answers, on 0 only.
 * Returns 0, 100 off; 6, 2, 9 fragments not whole, or not 8 words of answers for each; 7.
 */
uint32_t lighting_shade_fragments(const uint32_t *block, size_t block_words, const uint32_t *tables, size_t table_words,
                                  const uint32_t *fragments, size_t fragments_words, uint32_t *answers,
                                  size_t answers_words);

/*
 * Runs a capture on a fresh unit and a fresh copy. The output then begins with what lightshow prints of it, the line
 * `refused N` included, and printed is the length of that; bytes past it stay. LIGHTING_PRINTED_BYTES are always
 * enough. Where there is no room, output and printed stay as they were.
 * May change: output, printed.
 * Returns 0; 8, 3 a register too high in any body; 101 no room for what a capture that isn't refused prints.
 */
uint32_t lighting_capture(const uint8_t *input, size_t input_bytes, uint8_t *output, size_t output_bytes,
                          uint64_t *printed);

/*
 * Says of a short float with a mantissa and an exponent of these widths, in bits, and a sign, how many of its patterns
 * the unit decodes as zeros, infinities, NaNs and other numbers. Mantissas of 1 to 12 and exponents of 2 to 7 bits are
 * counted; any other widths give four zeros. The half is 10 and 5, the 20-bit float 12 and 7.
 * May change: totals.
 * Returns 0; 101 totals not LIGHTING_CENSUS_WORDS.
 */
uint32_t lighting_census(uint32_t mantissa, uint32_t exponent, uint32_t *totals, size_t totals_words);

#ifdef __cplusplus
}
#endif

#endif
