/*
 * The stack that each call needs at most: it runs on a stack that was painted before, and the deepest byte that is no
 * longer paint counts. What is measured reaches from the stack's top, so a little of this program's own is in it.
 * Prints call, bytes and bound; returns 1 where a call needs more than the header states, or where some answer of a
 * call was never met.
 */
#define _XOPEN_SOURCE 700
#include <inttypes.h>
#include <stdio.h>
#include <string.h>
#include <ucontext.h>

#include "lighting.h"

enum {
    STACK_BYTES = 2 * LIGHTING_CAPTURE_STACK_BYTES,
    /* of each call: everything that can be wrong with its arguments, with every capture */
    RUNS = 416,
    FRAGMENTS = 4,
    PAIRS = 2000,
    CAPTURE_WORDS = LIGHTING_CAPTURE_BYTES / 4
};

/* What is wrong with the arguments of a run, as far as a call takes them. */
enum wrong {
    NOTHING, SHORT_FILE, TABLES, COPY_TABLES, HIGH_REGISTER, LAST_GENERATION, SAVED, BLOCK, DAMAGED_BLOCK,
    CACHE, DAMAGED_CACHE, ODD_PAIRS, FRAGMENT, ANSWER, NO_ROOM, TOTALS, WRONGS
};

static struct {
    uint32_t file[LIGHTING_FILE_WORDS], tables[LIGHTING_TABLE_WORDS], cache[LIGHTING_CACHE_WORDS];
    uint32_t block[LIGHTING_BLOCK_WORDS], copy_tables[LIGHTING_TABLE_WORDS], saved[LIGHTING_TABLE_WORDS];
    uint32_t pairs[2 * PAIRS], register_number, value;
    uint32_t fragments[FRAGMENTS * LIGHTING_FRAGMENT_WORDS], answers[FRAGMENTS * LIGHTING_ANSWER_WORDS];
    uint64_t generation, copy_generation, done, printed;
    size_t file_words, table_words, cache_words, block_words, copy_words, saved_words, pairs_words, fragments_words;
    size_t answers_words;
    uint8_t block_b[LIGHTING_BLOCK_BYTES], tables_b[LIGHTING_TABLE_BYTES], fragment_b[LIGHTING_FRAGMENT_BYTES];
    uint8_t answer_b[LIGHTING_ANSWER_BYTES];
    uint8_t input[LIGHTING_CAPTURE_BYTES + 4], output[LIGHTING_PRINTED_BYTES];
    size_t input_bytes, output_bytes;
    uint32_t mantissa, exponent, totals[LIGHTING_CENSUS_WORDS];
    size_t totals_words;
} a;

static uint32_t number;

/* Steele and Vigna's splitmix64, started anew by each run. */
static uint64_t state;

static uint32_t any(void) {
    uint64_t z = state += 0x9E3779B97F4A7C15;
    z = (z ^ z >> 30) * 0xBF58476D1CE4E5B9;
    z = (z ^ z >> 27) * 0x94D049BB133111EB;
    return (uint32_t)(z >> 32);
}

static uint32_t below(uint32_t n) { return any() % n; }

/* The bits of a float: any, or mostly one between -4 and 4. */
static uint32_t float_bits(void) {
    return below(8) == 0 ? any() : below(2) << 31 | (100 + below(29)) << 23 | any() >> 9;
}

static void put_bytes(uint8_t *bytes, const uint32_t *words, size_t count) {
    for (size_t i = 0; i < 4 * count; i++) {
        bytes[i] = (uint8_t)(words[i / 4] >> 8 * (i % 4));
    }
}

/* The value of a register in which the lighting is lit, by all eight lights and with every table of the configuration
   more often than not. */
static uint32_t lit_value(uint32_t register_number) {
    switch (register_number) {
    case 0x8F: return 1;
    case 0x1C2: return below(4) == 0 ? any() : 7;
    case 0x1C4: return below(4) == 0 ? any() : 0;
    case 0x1C6: return 0;
    default: return any();
    }
}

static void put_pair(uint32_t *pair) {
    pair[0] = below(3) == 0 ? 0x1C5 + below(11) : below(LIGHTING_FILE_WORDS);
    pair[1] = lit_value(pair[0]);
}

/* The least that a lit capture of the most fragments has room for: 12 pairs. */
static const uint32_t few[] = {0x8F, 0x1C2, 0x1C3, 0x1D0, 0x1D1, 0x1D2, 0x1D9, 0x140, 0x141, 0x144, 0x149, 0x1C0};
enum { FEW = sizeof few / sizeof few[0] };

static uint32_t words[CAPTURE_WORDS + 1];
static size_t bodies, end;

static void begin(size_t count) {
    words[0] = (uint32_t)count;
    bodies = 0;
    end = 1 + 3 * count;
}

static void body(uint32_t kind, size_t length) {
    uint32_t *const at = words + 1 + 3 * bodies++;
    at[0] = kind;
    at[1] = (uint32_t)end;
    at[2] = (uint32_t)length;
    for (size_t i = 0; i < length; i++) {
        if (kind != 1) {
            words[end + i] = float_bits();
        } else if (i % 2 == 0) {
            put_pair(words + end + i);
        }
    }
    end += length;
}

static void few_writes(void) {
    body(1, 2 * FEW);
    for (size_t i = 0; i < FEW; i++) {
        words[end - 2 * FEW + 2 * i] = few[i];
        words[end - 2 * FEW + 2 * i + 1] = lit_value(few[i]);
    }
}

/* The words of as many fragments as there is room for. */
static size_t room(void) {
    return (CAPTURE_WORDS - end) / LIGHTING_FRAGMENT_WORDS * LIGHTING_FRAGMENT_WORDS;
}

/* The largest captures of each kind, small ones, and what is refused. */
enum { CAPTURES = 13 };
static void put_capture(uint32_t which) {
    switch (which) {
    case 0: case 1: case 2: /* writes alone; with a register too high at the end; too long */
        begin(1);
        body(1, CAPTURE_WORDS - end);
        if (which == 1) {
            words[end - 2] = LIGHTING_FILE_WORDS;
        } else if (which == 2) {
            words[end++] = 0;
        }
        break;
    case 3: /* fragments alone, all off */
        begin(1);
        body(2, room());
        break;
    case 4: case 5: /* the most fragments that are lit; of unknown kind */
        begin(2);
        few_writes();
        body(2, room());
        words[4] += which == 5 ? 2 : 0;
        break;
    case 6: /* a restore before them */
        begin(3);
        body(3, LIGHTING_TABLE_WORDS);
        few_writes();
        body(2, room());
        break;
    case 7: case 8: /* registers and tables that change between hand-overs; words after the last body */
        begin(16);
        few_writes();
        body(3, LIGHTING_TABLE_WORDS);
        for (int i = 0; i < 7; i++) {
            body(2, 3 * LIGHTING_FRAGMENT_WORDS);
            body(1, 200);
        }
        end += which == 8;
        break;
    case 9: /* hand-overs alone */
        begin(16);
        for (int i = 0; i < 16; i++) {
            body(2, 0);
        }
        break;
    case 10: /* nothing to run */
        begin(0);
        break;
    default: /* empty, or no whole words */
        begin(0);
        end = 0;
    }
    a.input_bytes = 4 * end + (which == CAPTURES - 1);
    memset(a.input, 0, sizeof a.input);
    put_bytes(a.input, words, end);
}

static void prepare(uint32_t run) {
    const enum wrong wrong = run % 2 == 0 ? NOTHING : (enum wrong)(run / 2 % WRONGS);
    const int off = run % 7 == 0, damaged = wrong == DAMAGED_BLOCK || wrong == DAMAGED_CACHE;
    state = run;
    for (uint32_t i = 0; i < LIGHTING_FILE_WORDS; i++) {
        a.file[i] = lit_value(i);
    }
    a.file[0x8F] = off && !damaged ? 0 : 1;
    for (size_t i = 0; i < LIGHTING_TABLE_WORDS; i++) {
        a.tables[i] = float_bits();
        a.copy_tables[i] = 0;
        a.saved[i] = float_bits();
    }
    for (size_t i = 0; i < PAIRS; i++) {
        put_pair(a.pairs + 2 * i);
    }
    for (size_t i = 0; i < FRAGMENTS * LIGHTING_FRAGMENT_WORDS; i++) {
        a.fragments[i] = float_bits();
    }
    a.register_number = below(2) == 0 ? 0x1C8 + below(8) : below(LIGHTING_FILE_WORDS);
    a.value = any();
    a.generation = 1 + below(3);
    a.copy_generation = 1 + below(3);

    /* a cache that is empty, or keeps these registers, or others */
    memset(a.cache, 0, sizeof a.cache);
    const uint32_t kept = damaged ? 1 : below(3);
    if (kept != 0) {
        lighting_cached_read(a.file, LIGHTING_FILE_WORDS, a.cache, LIGHTING_CACHE_WORDS, a.block, LIGHTING_BLOCK_WORDS);
        a.file[0x140] ^= kept == 2;
    }
    lighting_read(a.file, LIGHTING_FILE_WORDS, a.block, LIGHTING_BLOCK_WORDS);
    put_capture(run % CAPTURES);

    a.file_words = LIGHTING_FILE_WORDS - (wrong == SHORT_FILE);
    a.table_words = LIGHTING_TABLE_WORDS - (wrong == TABLES);
    a.copy_words = LIGHTING_TABLE_WORDS - (wrong == COPY_TABLES);
    a.saved_words = LIGHTING_TABLE_WORDS - (wrong == SAVED);
    a.block_words = LIGHTING_BLOCK_WORDS - (wrong == BLOCK);
    a.cache_words = LIGHTING_CACHE_WORDS - (wrong == CACHE);
    a.pairs_words = 2 * PAIRS - (wrong == ODD_PAIRS);
    a.fragments_words = FRAGMENTS * LIGHTING_FRAGMENT_WORDS - (wrong == FRAGMENT);
    a.answers_words = FRAGMENTS * LIGHTING_ANSWER_WORDS - (wrong == ANSWER);
    a.output_bytes = wrong == NO_ROOM ? 3 : LIGHTING_PRINTED_BYTES;
    a.mantissa = below(14);
    a.exponent = below(9);
    a.totals_words = LIGHTING_CENSUS_WORDS - (wrong == TOTALS);
    if (wrong == HIGH_REGISTER) {
        a.register_number = a.pairs[2 * PAIRS - 2] = LIGHTING_FILE_WORDS + below(2) * any() / 2;
    }
    if (wrong == LAST_GENERATION) {
        a.generation = UINT64_MAX;
        a.register_number = 0x1C8;
    }
    /* the last of its words is padding; a cache ends with its block */
    a.block[LIGHTING_BLOCK_WORDS - 1] ^= wrong == DAMAGED_BLOCK;
    a.cache[LIGHTING_CACHE_WORDS - 1] ^= wrong == DAMAGED_CACHE;
    put_bytes(a.block_b, a.block, LIGHTING_BLOCK_WORDS);
    put_bytes(a.tables_b, a.tables, LIGHTING_TABLE_WORDS);
    put_bytes(a.fragment_b, a.fragments, LIGHTING_FRAGMENT_WORDS);
}

static void nothing(void) {}

/* A need that is known, to see that it is measured. */
enum { KNOWN_BYTES = 5000 };
static void known(void) {
    volatile uint8_t local[KNOWN_BYTES];
    for (size_t i = 0; i < KNOWN_BYTES; i++) {
        local[i] = 0;
    }
    number = local[0];
}

static void write_one(void) {
    number = lighting_write(a.file, a.file_words, a.tables, a.table_words, &a.generation, a.register_number, a.value);
}
static void writes(void) {
    number = lighting_writes(a.file, a.file_words, a.tables, a.table_words, &a.generation, a.pairs, a.pairs_words,
                             &a.done);
}
static void restore(void) {
    number = lighting_restore(a.tables, a.table_words, &a.generation, a.saved, a.saved_words);
}
static void save(void) { number = lighting_save(a.tables, a.table_words, a.saved, a.saved_words); }
static void read_registers(void) { number = lighting_read(a.file, a.file_words, a.block, a.block_words); }
static void cached_read(void) {
    number = lighting_cached_read(a.file, a.file_words, a.cache, a.cache_words, a.block, a.block_words);
}
static void hand_over(void) {
    number = lighting_hand_over(a.file, a.file_words, a.tables, a.table_words, a.generation, a.cache, a.cache_words,
                                a.block, a.block_words, a.copy_tables, a.copy_words, &a.copy_generation);
}
static void read_block(void) { number = lighting_read_block(a.block, a.block_words); }
static void shade_block(void) {
    number = lighting_shade_block(a.block_b, 4 * a.block_words, a.tables_b, 4 * a.table_words, a.fragment_b,
                                  a.fragments_words % LIGHTING_FRAGMENT_WORDS == 0 ? LIGHTING_FRAGMENT_BYTES : 1,
                                  a.answer_b, a.answers_words % LIGHTING_ANSWER_WORDS == 0 ? LIGHTING_ANSWER_BYTES : 1);
}
static void shade_fragments(void) {
    number = lighting_shade_fragments(a.block, a.block_words, a.tables, a.table_words, a.fragments, a.fragments_words,
                                      a.answers, a.answers_words);
}
static void capture(void) {
    number = lighting_capture(a.input, a.input_bytes, a.output, a.output_bytes, &a.printed);
}
static void census(void) { number = lighting_census(a.mantissa, a.exponent, a.totals, a.totals_words); }

static ucontext_t home, away;
static union {
    long double aligned;
    uint8_t bytes[STACK_BYTES];
} stack;

/* How deep a call goes on a stack of this paint. */
static size_t depth(void (*call)(void), int paint) {
    memset(stack.bytes, paint, STACK_BYTES);
    if (getcontext(&away) != 0) {
        return STACK_BYTES;
    }
    away.uc_stack.ss_sp = stack.bytes;
    away.uc_stack.ss_size = STACK_BYTES;
    away.uc_link = &home;
    makecontext(&away, call, 0);
    if (swapcontext(&home, &away) != 0) {
        return STACK_BYTES;
    }
    size_t free_bytes = 0;
    while (free_bytes < STACK_BYTES && stack.bytes[free_bytes] == paint) {
        free_bytes++;
    }
    return STACK_BYTES - free_bytes;
}

/* By two paints, since a byte written may look like one of them. */
static size_t deepest(void (*call)(void), uint32_t run) {
    size_t most = 0;
    for (int paint = 0x5A; paint <= 0xA5; paint += 0xA5 - 0x5A) {
        prepare(run);
        const size_t bytes = depth(call, paint);
        most = bytes > most ? bytes : most;
    }
    return most;
}

static const struct {
    const char *name;
    void (*call)(void);
    size_t bound;
    uint32_t answers[7]; /* those that it can give, LIGHTING_DONE always */
} calls[] = {
    {"lighting_write", write_one, LIGHTING_STACK_BYTES, {1, 2, 3, 4}},
    {"lighting_writes", writes, LIGHTING_STACK_BYTES, {1, 2, 3, 4, 101}},
    {"lighting_restore", restore, LIGHTING_STACK_BYTES, {2, 4, 5}},
    {"lighting_save", save, LIGHTING_STACK_BYTES, {2, 5}},
    {"lighting_read", read_registers, LIGHTING_STACK_BYTES, {1, 6, 100}},
    {"lighting_cached_read", cached_read, LIGHTING_STACK_BYTES, {1, 6, 7, 100, 101}},
    {"lighting_hand_over", hand_over, LIGHTING_STACK_BYTES, {1, 2, 6, 7, 101}},
    {"lighting_read_block", read_block, LIGHTING_STACK_BYTES, {6, 7, 100}},
    {"lighting_shade_block", shade_block, LIGHTING_STACK_BYTES, {2, 6, 7, 9, 100}},
    {"lighting_shade_fragments", shade_fragments, LIGHTING_STACK_BYTES, {2, 6, 7, 9, 100}},
    {"lighting_capture", capture, LIGHTING_CAPTURE_STACK_BYTES, {3, 8, 101}},
    {"lighting_census", census, LIGHTING_STACK_BYTES, {101}},
};

int main(void) {
    int failed = 0;
    const size_t own = deepest(nothing, 0), seen = deepest(known, 0);
    if (seen < KNOWN_BYTES || seen > KNOWN_BYTES + own + 128) {
        fprintf(stderr, "stack: %d bytes are measured as %zu\n", KNOWN_BYTES, seen);
        failed = 1;
    }
    for (size_t c = 0; c < sizeof calls / sizeof calls[0]; c++) {
        size_t most = 0;
        int met[102] = {0};
        for (uint32_t run = 0; run < RUNS; run++) {
            const size_t bytes = deepest(calls[c].call, run);
            most = bytes > most ? bytes : most;
            if (number <= 101) {
                met[number] = 1;
            }
        }
        printf("%-26s%8zu of %7zu bytes\n", calls[c].name, most, calls[c].bound);
        if (most > calls[c].bound) {
            fprintf(stderr, "stack: %s needs more than the header states\n", calls[c].name);
            failed = 1;
        }
        for (size_t i = 0; i < 7; i++) {
            if (!met[calls[c].answers[i]]) {
                fprintf(stderr, "stack: %s never returned %" PRIu32 "\n", calls[c].name, calls[c].answers[i]);
                failed = 1;
            }
        }
    }
    printf("%-26s%8zu bytes, in each of these\n", "the measuring itself", own);
    return failed;
}
