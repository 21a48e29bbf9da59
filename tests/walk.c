/* The walk that README.md shows (readme.h is its code), on a small stack; and every call with NULL for an empty slice. */
#include "readme.h"

#include <stdio.h>
#include <string.h>

static int checks, faults;

static void held(int line, uint32_t a, uint32_t b)
{
    checks++;
    if (a != b) {
        faults++;
        printf("walk.c:%d: %x, wanted %x\n", line, (unsigned)a, (unsigned)b);
    }
}
#define HELD(a, b) held(__LINE__, a, b)

/* At 0x8000: functions 0x7000 (cannot unwind), 0x7100 (compact: A8 B0), 0x7200 (generic, at 0x9000: A8 B0, a site from 0x7210 to below 0x7218). */
static const uint8_t index_bytes[24] = {
    0x00, 0xF0, 0xFF, 0x7F, 1, 0, 0, 0, 0xF8, 0xF0, 0xFF, 0x7F, 0xB0, 0xB0, 0xA8, 0x80, 0xF0, 0xF1, 0xFF, 0x7F, 0xEC, 0x0F, 0, 0,
};
static const uint8_t table_bytes[16] = {0, 0x10, 0, 0, 0xB0, 0xB0, 0xA8, 0x00, 0xFF, 0xFF, 0x01, 4, 0x10, 0x08, 0x20, 0x00};
static const struct section image = {index_bytes, 24, 0x8000}, table = {table_bytes, 16, 0x9000};

/* Walks from 0x7104 over a stack of `len` bytes with these two return addresses; `n` frames and `why` are wanted. */
static void walked(int line, uint32_t counter, uint32_t first, uint32_t second, size_t len, size_t most, size_t n, uint32_t why, const struct frame *wanted)
{
    uint32_t words[4] = {4, first, 5, second}, core[16] = {0}, told;
    uint8_t bytes[16];
    uint64_t vfp[32] = {0};
    struct frame frames[4] = {0};
    for (int k = 0; k < 16; k++)
        bytes[k] = (uint8_t)(words[k / 4] >> 8 * (k % 4));
    core[13] = 0x20000000;
    core[15] = counter;
    held(line, (uint32_t)frames_of(image, table, (struct section){bytes, len, 0x20000000}, core, vfp, frames, most, &told), (uint32_t)n);
    held(line, told, why);
    held(line, memcmp(frames, wanted, n * sizeof *frames) != 0, 0);
}

static void walks(void)
{
    const struct frame whole[3] = {{0x7104, 0x20000000, 0}, {0x7212, 0x20000008, 0x7220}, {0x7002, 0x20000010, 0}};
    const struct frame uncovered[3] = {{0x7104, 0x20000000, 0}, {0x7200, 0x20000008, 0}, {0x7002, 0x20000010, 0}};
    walked(__LINE__, 0x7104, 0x7215, 0x7005, 16, 4, 3, 0, whole);
    walked(__LINE__, 0x7104, 0x7214, 0x7004, 16, 4, 3, 0, whole);
    walked(__LINE__, 0x7104, 0x7215, 0x7005, 16, 2, 2, 0, whole);
    walked(__LINE__, 0x7104, 0x7203, 0x7005, 16, 4, 3, 0, uncovered);
    walked(__LINE__, 0x7104, 0x7215, 0, 16, 4, 2, 0, whole);
    walked(__LINE__, 0x7104, 0x7215, 0x7005, 15, 4, 2, 17, whole);
    walked(__LINE__, 0x7104, 0x7215, 0x6005, 16, 4, 2, 2, whole);
    walked(__LINE__, 0x6FFF, 0, 0, 16, 4, 0, 2, whole);
}

static void nulls(void)
{
    uint32_t row[9], core[16] = {0};
    uint64_t vfp[32] = {0};
    HELD(anrukfal_pointer(NULL, 0, 0, 0x01, row), 6);
    HELD(anrukfal_pointer(NULL, 0, 0, 0xFF, row), 8);
    HELD(anrukfal_instruction(NULL, 0, 7, row), 0);
    HELD(row[0], 0);
    HELD(row[3], 7);
    HELD(anrukfal_index_entry(NULL, 0, 0, 0, row), 6);
    HELD(anrukfal_table_entry(NULL, 0, 0, 0, row), 6);
    HELD(anrukfal_call_site(NULL, 0, 0x1000, 0x1000, row), 6);
    HELD(anrukfal_search(NULL, 0, 0, 0, row), 2);
    HELD(anrukfal_lookup(NULL, 0, 0, NULL, 0, 0, 0, row), 2);
    HELD(anrukfal_step(NULL, 0, 0, NULL, 0, 0, NULL, 0, 0, core, vfp, row), 2);
    core[15] = 0x7104;
    HELD(anrukfal_step(LENT(image), NULL, 0, 0, NULL, 0, 0, core, vfp, row), 17);
    HELD(anrukfal_audit(NULL, 0, 5, NULL, 0, 6, row), 0);
    HELD(anrukfal_bundle(NULL, 0, row), 18);
}

int main(void)
{
    walks();
    nulls();
    if (faults == 0 && checks > 0)
        printf("README: the walk finds its frames, and NULL with length 0 is an empty slice\n");
    return faults != 0;
}
