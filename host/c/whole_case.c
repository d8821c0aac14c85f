/*
 * Document 01's whole case by the C calls, beside what a capture of it prints, and document 02's census of the half;
 * then every refusal that a C caller can meet, with nothing changed. Prints the case's line and `off`; returns 1 with a
 * message where anything differs.
 */
#include <inttypes.h>
#include <stdio.h>
#include <string.h>

#include "lighting.h"

/* Everything that a call may change, in one place, so that a refusal can be seen to leave it. */
static struct all {
    uint32_t file[LIGHTING_FILE_WORDS], tables[LIGHTING_TABLE_WORDS], cache[LIGHTING_CACHE_WORDS];
    uint64_t generation;
    uint32_t block[LIGHTING_BLOCK_WORDS], copy_tables[LIGHTING_TABLE_WORDS];
    uint64_t copy_generation;
    uint32_t saved[LIGHTING_TABLE_WORDS], answers[2 * LIGHTING_ANSWER_WORDS];
    uint8_t answer[LIGHTING_ANSWER_BYTES], output[LIGHTING_PRINTED_BYTES];
    uint64_t done, printed;
    uint32_t totals[LIGHTING_CENSUS_WORDS];
} now, before;

/* A second unit, written by a list. */
static struct {
    uint32_t file[LIGHTING_FILE_WORDS], tables[LIGHTING_TABLE_WORDS];
    uint64_t generation;
} listed;

static const uint32_t pairs[] = {0x8F, 1, 0x142, 0xFF3FCFF, 0x145, 0x3C00, 0x149, 1, 0x1C4, 0xFFFFFFFF};
enum { PAIRS_WORDS = sizeof pairs / sizeof pairs[0], CONTENTS_WORDS = 7 };
enum { CASE_WORDS = CONTENTS_WORDS + PAIRS_WORDS + LIGHTING_FRAGMENT_WORDS };

static const uint32_t fragments[2 * LIGHTING_FRAGMENT_WORDS];
static uint8_t block_bytes[LIGHTING_BLOCK_BYTES], table_bytes[LIGHTING_TABLE_BYTES];
static uint8_t fragment_bytes[LIGHTING_FRAGMENT_BYTES], capture[4 * CASE_WORDS];

static int differences;

static void same(const char *what, int is) {
    if (!is) {
        fprintf(stderr, "differs: %s\n", what);
        differences++;
    }
}

static void returned(const char *call, uint32_t number, uint32_t due) {
    if (number != due) {
        fprintf(stderr, "returns %" PRIu32 ", not %" PRIu32 ": %s\n", number, due, call);
        differences++;
    }
}

#define SAME(...) same(#__VA_ARGS__, __VA_ARGS__)
#define EQUAL(a, b) same(#a " is " #b, memcmp(a, b, sizeof(a)) == 0)
#define RETURNS(due, ...) returned(#__VA_ARGS__, __VA_ARGS__, due)
/* The same, and everything is left as it was. */
#define LEAVES(due, ...)                                                                                               \
    do {                                                                                                               \
        memcpy(&before, &now, sizeof now);                                                                             \
        returned(#__VA_ARGS__, __VA_ARGS__, due);                                                                      \
        same("what stood before " #__VA_ARGS__, memcmp(&now, &before, sizeof now) == 0);                               \
    } while (0)

/* Arguments that are right, as a call has them. */
#define REGISTERS now.file, LIGHTING_FILE_WORDS
#define TABLES now.tables, LIGHTING_TABLE_WORDS
#define CACHE now.cache, LIGHTING_CACHE_WORDS
#define BLOCK now.block, LIGHTING_BLOCK_WORDS
#define COPY now.copy_tables, LIGHTING_TABLE_WORDS, &now.copy_generation
#define SAVED now.saved, LIGHTING_TABLE_WORDS
#define ONE fragments, LIGHTING_FRAGMENT_WORDS, now.answers, LIGHTING_ANSWER_WORDS
#define BLOCK_B block_bytes, sizeof block_bytes
#define TABLES_B table_bytes, sizeof table_bytes
#define FRAGMENT_B fragment_bytes, sizeof fragment_bytes
#define ANSWER_B now.answer, sizeof now.answer
#define OUTPUT now.output, sizeof now.output, &now.printed
#define TOTALS now.totals, LIGHTING_CENSUS_WORDS

static void put_bytes(uint8_t *bytes, const uint32_t *words, size_t count) {
    for (size_t i = 0; i < 4 * count; i++) {
        bytes[i] = (uint8_t)(words[i / 4] >> 8 * (i % 4));
    }
}

static uint32_t word_at(const uint8_t *bytes) {
    return bytes[0] | (uint32_t)bytes[1] << 8 | (uint32_t)bytes[2] << 16 | (uint32_t)bytes[3] << 24;
}

/* The case as a capture, with this value in its first pair. */
static void put_capture(uint32_t first) {
    const uint32_t contents[CONTENTS_WORDS] = {2, 1, CONTENTS_WORDS, PAIRS_WORDS, 2, CONTENTS_WORDS + PAIRS_WORDS,
                                               LIGHTING_FRAGMENT_WORDS};
    put_bytes(capture, contents, CONTENTS_WORDS);
    put_bytes(capture + 4 * CONTENTS_WORDS, pairs, PAIRS_WORDS);
    put_bytes(capture + 4 * (CONTENTS_WORDS + 1), &first, 1);
    put_bytes(capture + 4 * (CONTENTS_WORDS + PAIRS_WORDS), fragments, LIGHTING_FRAGMENT_WORDS);
}

/* A line as lightshow prints it. */
static const char *line(const uint32_t *k) {
    static char text[8 * 11 + 1];
    int at = 0;
    for (int i = 0; i < LIGHTING_ANSWER_WORDS; i++) {
        at += sprintf(text + at, "%" PRIu32 "%c", k[i], i + 1 < LIGHTING_ANSWER_WORDS ? ' ' : '\n');
    }
    return text;
}

static int printed_is(const char *text) {
    return now.printed == strlen(text) && memcmp(now.output, text, strlen(text)) == 0;
}

static void copy_as_bytes(void) {
    put_bytes(block_bytes, now.block, LIGHTING_BLOCK_WORDS);
    put_bytes(table_bytes, now.copy_tables, LIGHTING_TABLE_WORDS);
    put_bytes(fragment_bytes, fragments, LIGHTING_FRAGMENT_WORDS);
}

static void whole_case(void) {
    uint32_t block[LIGHTING_BLOCK_WORDS];

    for (size_t i = 0; i < PAIRS_WORDS; i += 2) {
        RETURNS(LIGHTING_DONE, lighting_write(REGISTERS, TABLES, &now.generation, pairs[i], pairs[i + 1]));
    }
    RETURNS(LIGHTING_DONE, lighting_writes(listed.file, LIGHTING_FILE_WORDS, listed.tables, LIGHTING_TABLE_WORDS,
                                           &listed.generation, pairs, PAIRS_WORDS, &now.done));
    SAME(now.done == PAIRS_WORDS / 2);
    EQUAL(listed.file, now.file);
    EQUAL(listed.tables, now.tables);
    SAME(listed.generation == 0 && now.generation == 0);

    RETURNS(LIGHTING_DONE, lighting_hand_over(REGISTERS, TABLES, now.generation, CACHE, BLOCK, COPY));
    RETURNS(LIGHTING_DONE, lighting_read_block(BLOCK));
    RETURNS(LIGHTING_DONE, lighting_read(REGISTERS, block, LIGHTING_BLOCK_WORDS));
    EQUAL(block, now.block);
    memset(block, 0, sizeof block);
    RETURNS(LIGHTING_DONE, lighting_cached_read(REGISTERS, CACHE, block, LIGHTING_BLOCK_WORDS));
    EQUAL(block, now.block);

    RETURNS(LIGHTING_DONE, lighting_shade_fragments(BLOCK, now.copy_tables, LIGHTING_TABLE_WORDS, fragments,
                                                    2 * LIGHTING_FRAGMENT_WORDS, now.answers,
                                                    2 * LIGHTING_ANSWER_WORDS));
    SAME(memcmp(now.answers, now.answers + LIGHTING_ANSWER_WORDS, 4 * LIGHTING_ANSWER_WORDS) == 0);
    copy_as_bytes();
    RETURNS(LIGHTING_DONE, lighting_shade_block(BLOCK_B, TABLES_B, FRAGMENT_B, ANSWER_B));
    for (size_t i = 0; i < LIGHTING_ANSWER_WORDS; i++) {
        SAME(word_at(now.answer + 4 * i) == now.answers[i]);
    }

    put_capture(1);
    RETURNS(LIGHTING_DONE, lighting_capture(capture, sizeof capture, OUTPUT));
    SAME(printed_is(line(now.answers)));
    fputs(line(now.answers), stdout);
}

static void off(void) {
    RETURNS(LIGHTING_DONE, lighting_write(REGISTERS, TABLES, &now.generation, pairs[0], 0));
    RETURNS(LIGHTING_DONE, lighting_hand_over(REGISTERS, TABLES, now.generation, CACHE, BLOCK, COPY));
    RETURNS(LIGHTING_OFF, lighting_read_block(BLOCK));
    RETURNS(LIGHTING_OFF, lighting_read(REGISTERS, BLOCK));
    RETURNS(LIGHTING_OFF, lighting_cached_read(REGISTERS, CACHE, BLOCK));
    copy_as_bytes();
    LEAVES(LIGHTING_OFF, lighting_shade_fragments(BLOCK, TABLES, ONE));
    LEAVES(LIGHTING_OFF, lighting_shade_block(BLOCK_B, TABLES_B, FRAGMENT_B, ANSWER_B));
    /* off comes past all refusals */
    LEAVES(LIGHTING_WRONG_FRAGMENT, lighting_shade_block(BLOCK_B, TABLES_B, FRAGMENT_B, now.answer, 28));

    put_capture(0);
    RETURNS(LIGHTING_DONE, lighting_capture(capture, sizeof capture, OUTPUT));
    SAME(printed_is("off\n"));
    fwrite(now.output, 1, (size_t)now.printed, stdout);

    /* on again */
    RETURNS(LIGHTING_DONE, lighting_write(REGISTERS, TABLES, &now.generation, pairs[0], pairs[1]));
    RETURNS(LIGHTING_DONE, lighting_hand_over(REGISTERS, TABLES, now.generation, CACHE, BLOCK, COPY));
    copy_as_bytes();
    put_capture(1);
}

/* An upload, a save and a restore, each seen by the next hand-over. */
static void tables(void) {
    RETURNS(LIGHTING_DONE, lighting_write(REGISTERS, TABLES, &now.generation, 0x1C8, 0x800000));
    SAME(now.generation == 1 && now.tables[0] == 0 && now.tables[1] == 0x80000000 && now.file[0x1C5] == 1);
    RETURNS(LIGHTING_DONE, lighting_save(TABLES, SAVED));
    EQUAL(now.saved, now.tables);
    RETURNS(LIGHTING_DONE, lighting_hand_over(REGISTERS, TABLES, now.generation, CACHE, BLOCK, COPY));
    EQUAL(now.copy_tables, now.tables);
    SAME(now.copy_generation == 1);

    now.saved[2] = 0x3F800000;
    RETURNS(LIGHTING_DONE, lighting_restore(TABLES, &now.generation, SAVED));
    EQUAL(now.tables, now.saved);
    SAME(now.generation == 2 && now.copy_tables[2] == 0);
    RETURNS(LIGHTING_DONE, lighting_hand_over(REGISTERS, TABLES, now.generation, CACHE, BLOCK, COPY));
    EQUAL(now.copy_tables, now.saved);
    SAME(now.copy_generation == 2);
}

static void census(void) {
    const uint32_t half[] = {2, 2, 2046, 63486}, widest[] = {2, 2, 8190, 1040382}, none[LIGHTING_CENSUS_WORDS] = {0};

    RETURNS(LIGHTING_DONE, lighting_census(10, 5, TOTALS));
    EQUAL(half, now.totals);
    /* other widths are no refusal */
    RETURNS(LIGHTING_DONE, lighting_census(13, 5, TOTALS));
    EQUAL(none, now.totals);
    RETURNS(LIGHTING_DONE, lighting_census(12, 7, TOTALS));
    EQUAL(widest, now.totals);
    RETURNS(LIGHTING_DONE, lighting_census(UINT32_MAX, UINT32_MAX, TOTALS));
    EQUAL(none, now.totals);
}

static void refused_lengths(void) {
    uint64_t *const g = &now.generation;

    LEAVES(1, lighting_write(now.file, 473, now.tables, 1, g, 474, 1));
    LEAVES(1, lighting_write(NULL, 0, TABLES, g, 0, 1));
    LEAVES(1, lighting_writes(now.file, 473, now.tables, 1, g, pairs, 3, &now.done));
    LEAVES(1, lighting_read(now.file, 473, now.block, 327));
    LEAVES(1, lighting_cached_read(now.file, 473, now.cache, 1, now.block, 327));
    LEAVES(1, lighting_hand_over(now.file, 473, now.tables, 1, *g, CACHE, BLOCK, COPY));

    LEAVES(2, lighting_write(REGISTERS, now.tables, 12287, g, 474, 1));
    LEAVES(2, lighting_writes(REGISTERS, now.tables, 12287, g, pairs, 3, &now.done));
    LEAVES(2, lighting_restore(now.tables, 12287, g, now.saved, 1));
    LEAVES(2, lighting_save(NULL, 0, now.saved, 1));
    LEAVES(2, lighting_hand_over(REGISTERS, now.tables, 12287, *g, CACHE, now.block, 327, COPY));
    LEAVES(2, lighting_hand_over(REGISTERS, TABLES, *g, CACHE, now.block, 327, NULL, 0, &now.copy_generation));
    LEAVES(2, lighting_shade_block(BLOCK_B, table_bytes, sizeof table_bytes - 1, fragment_bytes, 1, ANSWER_B));
    LEAVES(2, lighting_shade_fragments(BLOCK, now.tables, 12287, fragments, 1, now.answers, 1));

    LEAVES(5, lighting_restore(TABLES, g, now.saved, 12287));
    LEAVES(5, lighting_save(TABLES, now.saved, 12287));

    LEAVES(6, lighting_read(REGISTERS, now.block, 327));
    LEAVES(6, lighting_cached_read(REGISTERS, now.cache, 467, now.block, 327));
    LEAVES(6, lighting_hand_over(REGISTERS, TABLES, *g, now.cache, 467, now.block, 327, COPY));
    LEAVES(6, lighting_read_block(now.block, 327));
    LEAVES(6, lighting_shade_block(block_bytes, sizeof block_bytes - 1, table_bytes, 0, FRAGMENT_B, ANSWER_B));
    LEAVES(6, lighting_shade_fragments(now.block, 327, now.tables, 0, ONE));

    LEAVES(9, lighting_shade_block(BLOCK_B, TABLES_B, fragment_bytes, sizeof fragment_bytes - 1, ANSWER_B));
    LEAVES(9, lighting_shade_block(BLOCK_B, TABLES_B, FRAGMENT_B, now.answer, sizeof now.answer - 1));
    LEAVES(9, lighting_shade_fragments(BLOCK, TABLES, fragments, 22, now.answers, 8));
    LEAVES(9, lighting_shade_fragments(BLOCK, TABLES, fragments, 46, now.answers, 8));
    RETURNS(LIGHTING_DONE, lighting_shade_fragments(BLOCK, TABLES, NULL, 0, NULL, 0));

    LEAVES(101, lighting_writes(REGISTERS, TABLES, g, pairs, 3, &now.done));
    LEAVES(101, lighting_cached_read(REGISTERS, now.cache, 467, BLOCK));
    LEAVES(101, lighting_hand_over(REGISTERS, TABLES, *g, now.cache, 467, BLOCK, COPY));
    LEAVES(101, lighting_census(10, 5, now.totals, 3));
    LEAVES(101, lighting_census(0, 0, NULL, 0));
}

static void refused_writes(void) {
    const uint32_t stopped[] = {0x140, 7, 474, 1, 0x141, 7};

    LEAVES(3, lighting_write(REGISTERS, TABLES, &now.generation, 474, 1));
    LEAVES(3, lighting_write(REGISTERS, TABLES, &now.generation, UINT32_MAX, 1));
    /* the write before the refused one stays */
    memcpy(&before, &now, sizeof now);
    before.file[0x140] = 7;
    before.done = 1;
    RETURNS(3, lighting_writes(REGISTERS, TABLES, &now.generation, stopped, 6, &now.done));
    SAME(memcmp(&now, &before, sizeof now) == 0);

    now.generation = UINT64_MAX;
    LEAVES(4, lighting_write(REGISTERS, TABLES, &now.generation, 0x1CF, 1));
    LEAVES(4, lighting_restore(TABLES, &now.generation, SAVED));
    /* equal bits raise nothing: the entry, saved as 1 and 0, is written so again */
    RETURNS(LIGHTING_DONE, lighting_write(REGISTERS, TABLES, &now.generation, 0x1CF, 0xFFF));
    SAME(now.generation == UINT64_MAX && now.file[0x1C5] == 2);
    now.generation = now.copy_generation;
}

static void refused_blocks(void) {
    /* the cache ends with its block, whose word 1 counts the lights */
    uint32_t *const kept = &now.cache[LIGHTING_CACHE_WORDS - LIGHTING_BLOCK_WORDS + 1];
    uint32_t block[LIGHTING_BLOCK_WORDS];

    RETURNS(LIGHTING_DONE, lighting_hand_over(REGISTERS, TABLES, now.generation, CACHE, BLOCK, COPY));
    SAME(*kept == 1 && now.block[1] == 1);
    now.block[1] = 9;
    copy_as_bytes();
    LEAVES(7, lighting_read_block(BLOCK));
    LEAVES(7, lighting_shade_block(BLOCK_B, TABLES_B, FRAGMENT_B, ANSWER_B));
    LEAVES(7, lighting_shade_fragments(BLOCK, TABLES, ONE));
    LEAVES(7, lighting_shade_fragments(BLOCK, TABLES, NULL, 0, NULL, 0));

    /* a cache whose registers are the file's and whose block is damaged; 7 comes last */
    *kept = 9;
    now.generation++;
    LEAVES(7, lighting_cached_read(REGISTERS, CACHE, BLOCK));
    LEAVES(7, lighting_hand_over(REGISTERS, TABLES, now.generation, CACHE, BLOCK, COPY));
    LEAVES(101, lighting_cached_read(REGISTERS, now.cache, 467, BLOCK));
    /* where a register differs, it is decoded anew, whatever was kept */
    RETURNS(LIGHTING_DONE, lighting_write(REGISTERS, TABLES, &now.generation, 0x1C0, 1));
    RETURNS(LIGHTING_DONE, lighting_hand_over(REGISTERS, TABLES, now.generation, CACHE, BLOCK, COPY));
    RETURNS(LIGHTING_DONE, lighting_read(REGISTERS, block, LIGHTING_BLOCK_WORDS));
    EQUAL(block, now.block);
    SAME(now.copy_generation == now.generation);
}

static void refused_captures(void) {
    uint8_t *const out = now.output;
    const size_t size = sizeof capture;

    /* no room, by one byte: what is printed is a line of 26 bytes, or of 10 where refused */
    now.printed = 1;
    LEAVES(101, lighting_capture(capture, size, out, 25, &now.printed));
    LEAVES(101, lighting_capture(capture, size, NULL, 0, &now.printed));
    LEAVES(8, lighting_capture(capture, size - 1, out, 9, &now.printed));
    LEAVES(8, lighting_capture(NULL, 0, NULL, 0, &now.printed));
    memset(out, 'x', sizeof now.output);
    RETURNS(0, lighting_capture(capture, size, out, 26, &now.printed));
    SAME(now.printed == 26 && out[25] == '\n' && out[26] == 'x');

    memset(out, 'x', sizeof now.output);
    RETURNS(8, lighting_capture(capture, size - 1, out, 10, &now.printed));
    SAME(printed_is("refused 8\n") && out[10] == 'x');
    const uint32_t high = 474;
    put_bytes(capture + 4 * CONTENTS_WORDS, &high, 1);
    now.printed = 1;
    LEAVES(3, lighting_capture(capture, size, out, 9, &now.printed));
    RETURNS(3, lighting_capture(capture, size, OUTPUT));
    SAME(printed_is("refused 3\n"));
    /* both reasons at once: 8 comes first */
    RETURNS(8, lighting_capture(capture, size - 4, OUTPUT));
    SAME(printed_is("refused 8\n"));
}

int main(void) {
    whole_case();
    off();
    tables();
    census();
    refused_lengths();
    refused_writes();
    refused_blocks();
    refused_captures();
    if (fflush(stdout) != 0) {
        perror("whole_case");
        return 1;
    }
    return differences == 0 ? 0 : 1;
}
