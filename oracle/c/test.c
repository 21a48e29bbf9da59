/* Every call of the two libraries on the paper's own cases, as a C program would make them. */
#include "anrukfal.h"
#include "anrukfal_readers.h"

#include <stdio.h>
#include <string.h>

static int checks, faults;

/* Holds an answer, its number and its row, to what the paper says. */
static void held(int line, uint32_t number, const uint32_t *row, size_t n, uint32_t wanted, const uint32_t *values)
{
    checks++;
    if (number == wanted && (n == 0 || memcmp(row, values, 4 * n) == 0))
        return;
    faults++;
    printf("test.c:%d: number %u, wanted %u; row", line, (unsigned)number, (unsigned)wanted);
    for (size_t k = 0; k < n; k++)
        printf(" %x/%x", (unsigned)row[k], (unsigned)values[k]);
    printf("\n");
}

#define BYTES(...) (const uint8_t[]){__VA_ARGS__}, sizeof((const uint8_t[]){__VA_ARGS__})
#define N(...) (sizeof((uint32_t[]){__VA_ARGS__}) / 4)
/* A call whose last argument is its row: HELD(number, call with `row`, values). */
#define HELD(wanted, call, ...)                                                                     \
    do {                                                                                            \
        uint32_t row[16];                                                                           \
        memset(row, 0xA5, sizeof row);                                                              \
        uint32_t number = (call);                                                                   \
        held(__LINE__, number, row, N(__VA_ARGS__), wanted, (const uint32_t[]){__VA_ARGS__});       \
        for (size_t k = N(__VA_ARGS__); k < 16; k++)                                                \
            held(__LINE__, row[k], NULL, 0, 0xA5A5A5A5, NULL);                                      \
    } while (0)
#define VALUE(wanted, call) held(__LINE__, (call), NULL, 0, wanted, NULL)

enum { END, POP, PUSH, REGISTERS, TO_SP, VFP, FINISH, REFUSED, RESERVED, UNIMPLEMENTED, ERROR };

static void prel31(void)
{
    VALUE(0x0FFF, anrukfal_prel31(0x7FFFFFFF, 0x1000));
    VALUE(0, anrukfal_prel31(0x40000000, 0x40000000));
    VALUE(0x3FFFFFFE, anrukfal_prel31(0x3FFFFFFF, 0xFFFFFFFF));
    VALUE(5, anrukfal_prel31(0x80000000, 5));
}

static void pointers(void)
{
    HELD(0, anrukfal_pointer(BYTES(0x7F), 0, 0x09, row), 0xFFFFFFFF, 1);
    HELD(0, anrukfal_pointer(BYTES(0, 0x80, 0x01), 1, 0x01, row), 0x80, 3);
    HELD(0, anrukfal_pointer(BYTES(0xFF, 0xFF, 0xFF, 0xFF, 0x0F), 0, 0x01, row), 0xFFFFFFFF, 5);
    HELD(9, anrukfal_pointer(BYTES(0x80, 0x80, 0x80, 0x80, 0x10), 0, 0x01, row), 0, 0);
    HELD(9, anrukfal_pointer(BYTES(0x80, 0x80, 0x80, 0x80, 0x80, 0x00), 0, 0x01, row), 0, 0);
    HELD(9, anrukfal_pointer(BYTES(0x80, 0x80, 0x80, 0x80, 0x80), 0, 0x01, row), 0, 0);
    HELD(6, anrukfal_pointer(BYTES(0x80, 0x80, 0x80, 0x80), 0, 0x01, row), 0, 0);
    HELD(0, anrukfal_pointer(BYTES(0x80, 0x80, 0x80, 0x80, 0x00), 0, 0x01, row), 0, 5);
    HELD(0, anrukfal_pointer(BYTES(1, 2, 3, 4, 0, 0, 0, 0), 0, 0x00, row), 0x04030201, 8);
    HELD(9, anrukfal_pointer(BYTES(1, 2, 3, 4, 1, 0, 0, 0), 0, 0x04, row), 0, 0);
    HELD(0, anrukfal_pointer(BYTES(0xFE, 0xFF), 0, 0x02, row), 0xFFFE, 2);
    HELD(0, anrukfal_pointer(BYTES(0xFE, 0xFF), 0, 0x0A, row), 0xFFFFFFFE, 2);
    HELD(0, anrukfal_pointer(BYTES(0, 0, 0, 0x80), 0, 0x03, row), 0x80000000, 4);
    HELD(0, anrukfal_pointer(BYTES(0, 0, 0, 0x80), 0, 0x0B, row), 0x80000000, 4);
    HELD(0, anrukfal_pointer(BYTES(0, 0, 0, 0x80, 0xFF, 0xFF, 0xFF, 0xFF), 0, 0x0C, row), 0x80000000, 8);
    HELD(9, anrukfal_pointer(BYTES(0, 0, 0, 0x80, 0, 0, 0, 0), 0, 0x0C, row), 0, 0);
    HELD(8, anrukfal_pointer(BYTES(0), 0, 0xFF, row), 0, 0);
    HELD(8, anrukfal_pointer(BYTES(0), 9, 0x10, row), 0, 0);
    HELD(6, anrukfal_pointer(BYTES(0), 1, 0x01, row), 0, 0);
    static uint8_t longer[65537];
    HELD(0, anrukfal_pointer(longer, 65536, 65535, 0x01, row), 0, 65536);
    HELD(1, anrukfal_pointer(longer, 65537, 0, 0xFF, row), 0, 0);
}

static void instructions(void)
{
    HELD(0, anrukfal_instruction(BYTES(0, 0, 0, 0x00), 0, row), POP, 4, 0, 1);
    HELD(0, anrukfal_instruction(BYTES(0, 0, 0, 0x7F), 0, row), PUSH, 256, 0, 1);
    HELD(0, anrukfal_instruction(BYTES(0, 0, 0, 0x80), 0, row), REFUSED, 0, 0, 2);
    HELD(0, anrukfal_instruction(BYTES(0x80, 0, 0, 0), 3, row), ERROR, 0, 0, 4);
    HELD(0, anrukfal_instruction(BYTES(0, 0, 0xFF, 0x8F), 0, row), REGISTERS, 0xFFF0, 0, 2);
    HELD(0, anrukfal_instruction(BYTES(0, 0, 0, 0x9D), 0, row), RESERVED, 0, 0, 1);
    HELD(0, anrukfal_instruction(BYTES(0, 0, 0, 0x9E), 0, row), TO_SP, 14, 0, 1);
    HELD(0, anrukfal_instruction(BYTES(0, 0, 0, 0xAF), 0, row), REGISTERS, 0x4FF0, 0, 1);
    HELD(0, anrukfal_instruction(BYTES(0, 0, 0x10, 0xB1), 0, row), RESERVED, 0, 0, 2);
    HELD(0, anrukfal_instruction(BYTES(0, 0, 0x0F, 0xB1), 0, row), REGISTERS, 0x000F, 0, 2);
    HELD(0, anrukfal_instruction(BYTES(0, 0x01, 0x81, 0xB2), 0, row), POP, 1032, 0, 3);
    HELD(0, anrukfal_instruction(BYTES(0xFF, 0xFE, 0xFE, 0xB2, 0, 0, 0x03, 0xFF), 0, row), POP, 0xFFFFFFFC, 0, 6);
    HELD(0, anrukfal_instruction(BYTES(0xFF, 0xFE, 0xFF, 0xB2, 0, 0, 0x03, 0xFF), 0, row), ERROR, 0, 0, 8);
    HELD(0, anrukfal_instruction(BYTES(0x80, 0x80, 0x80, 0xB2, 0, 0, 0x10, 0x80), 0, row), ERROR, 0, 0, 8);
    HELD(0, anrukfal_instruction(BYTES(0, 0, 0x0F, 0xC8), 0, row), VFP, 16, 16, 2);
    HELD(0, anrukfal_instruction(BYTES(0, 0, 0x1F, 0xC8), 0, row), VFP, 17, 16, 2);
    HELD(0, anrukfal_instruction(BYTES(0, 0, 0, 0xB3), 0, row), UNIMPLEMENTED, 0, 0, 1);
    HELD(0, anrukfal_instruction(BYTES(0xB0, 0xB0, 0xA8, 0x80), 1, row), REGISTERS, 0x4010, 0, 2);
    HELD(0, anrukfal_instruction(BYTES(0xB0, 0xB0, 0xA8, 0x80), 2, row), FINISH, 0, 0, 3);
    HELD(0, anrukfal_instruction(BYTES(0xB0, 0xB0, 0xA8, 0x80), 3, row), FINISH, 0, 0, 4);
    HELD(0, anrukfal_instruction(BYTES(0xB0, 0xB0, 0xA8, 0x80), 4, row), END, 0, 0, 4);
    HELD(1, anrukfal_instruction(BYTES(0xB0, 0xB0, 0xA8), 0, row), 0, 0, 0, 0);
}

#define INDEX_ENTRY 0x00, 0xF0, 0xFF, 0x7F /* 0x1000 below its place */

static void entries(void)
{
    HELD(0, anrukfal_index_entry(BYTES(INDEX_ENTRY, 1, 0, 0, 0), 0x8000, 0, row), 0x7000, 0, 0, 0, 0, 0);
    HELD(0, anrukfal_index_entry(BYTES(INDEX_ENTRY, 0xB0, 0xB0, 0xA8, 0xFF), 0x8000, 0, row), 0x7000, 1, 15, 4, 1, 1);
    HELD(0, anrukfal_index_entry(BYTES(INDEX_ENTRY, 0xFC, 0x0F, 0, 0), 0x8000, 0, row), 0x7000, 4, 0x9000, 0, 0, 0);
    HELD(3, anrukfal_index_entry(BYTES(0, 0xF0, 0xFF, 0xFF, 1, 0, 0, 0), 0x8000, 0, row), 0, 0, 0, 0, 0, 0);
    HELD(6, anrukfal_index_entry(BYTES(INDEX_ENTRY, 1, 0, 0, 0), 0x8000, 1, row), 0, 0, 0, 0, 0, 0);
    HELD(1, anrukfal_index_entry(BYTES(INDEX_ENTRY, 1, 0, 0, 0, 0, 0, 0, 0), 0x8000, 0, row), 0, 0, 0, 0, 0, 0);
    HELD(1, anrukfal_index_entry(BYTES(INDEX_ENTRY, 1, 0, 0, 0), 0xFFFFFFF9, 0, row), 0, 0, 0, 0, 0, 0);

    HELD(0, anrukfal_table_entry(BYTES(0xB0, 0xB0, 0xA8, 0x80), 0x9000, 0, row), 2, 0, 0, 1, 1, 4);
    HELD(0, anrukfal_table_entry(BYTES(0xB0, 0xB0, 1, 0x82, 0, 0, 0, 0, 7), 0x9000, 0, row), 2, 2, 0, 2, 2, 8);
    HELD(0, anrukfal_table_entry(BYTES(9, 9, 9, 9, 0, 0x10, 0, 0, 0xB0, 0xB0, 0xA8, 0, 0xFF), 0x9000, 4, row), 3, 0xA004, 8, 1, 1, 12);
    HELD(7, anrukfal_table_entry(BYTES(0, 0, 0, 0x83), 0x9000, 0, row), 0, 0, 0, 0, 0, 0);
    HELD(6, anrukfal_table_entry(BYTES(0xB0, 0xB0, 1, 0x82, 0, 0, 0), 0x9000, 0, row), 0, 0, 0, 0, 0, 0);
    HELD(6, anrukfal_table_entry(BYTES(0, 0, 0, 0x80), 0x9000, 4, row), 0, 0, 0, 0, 0, 0);
    HELD(5, anrukfal_table_entry(BYTES(0, 0, 0, 0x80), 0x9000, 6, row), 0, 0, 0, 0, 0, 0);
    HELD(1, anrukfal_table_entry(BYTES(0, 0, 0, 0x80), 0xFFFFFFFD, 6, row), 0, 0, 0, 0, 0, 0);
}

#define SITES(length) 0xFF, 0xFF, 0x01, length, 0x10, 0x08, 0x20, 0x00

static void call_sites(void)
{
    HELD(0, anrukfal_call_site(BYTES(SITES(4)), 0x08001000, 0x08001017, row), 0x08001010, 0x08001018, 0x08001020, 0, 0);
    HELD(11, anrukfal_call_site(BYTES(SITES(4)), 0x08001000, 0x08001018, row), 0, 0, 0, 0, 0);
    HELD(6, anrukfal_call_site(BYTES(SITES(5)), 0x08001000, 0x08001018, row), 0, 0, 0, 0, 0);
    HELD(0, anrukfal_call_site(BYTES(SITES(5)), 0x08001000, 0x08001017, row), 0x08001010, 0x08001018, 0x08001020, 0, 0);
    HELD(0, anrukfal_call_site(BYTES(0xFF, 0xFF, 0x01, 0x04, 0, 8, 0, 3), 0x1000, 0x1000, row), 0x1000, 0x1008, 0, 1, 4);
    HELD(0, anrukfal_call_site(BYTES(0x01, 0x08, 0x10, 0x05, 0x01, 0x01, 0, 8, 1, 0), 0x1000, 8, row), 8, 16, 9, 0, 0);
    HELD(11, anrukfal_call_site(BYTES(0xFF, 0xFF, 0x55, 0x00), 0x1000, 0x1000, row), 0, 0, 0, 0, 0);
    HELD(8, anrukfal_call_site(BYTES(0xFF, 0xFF, 0x55, 0x01), 0x1000, 0x1000, row), 0, 0, 0, 0, 0);
    HELD(10, anrukfal_call_site(BYTES(0xFF, 0xFF, 0x01, 0x04, 1, 0, 0, 0), 0xFFFFFFFF, 0, row), 0, 0, 0, 0, 0);
    HELD(6, anrukfal_call_site(NULL, 0, 0x1000, 0x1000, row), 0, 0, 0, 0, 0);
}

/* At 0x8000: functions 0x7000 (cannot unwind), 0x7100 (compact: A8 B0 B0), 0x7200 (generic, at 0x9000). */
static const uint8_t index_bytes[24] = {
    0x00, 0xF0, 0xFF, 0x7F, 1, 0, 0, 0,
    0xF8, 0xF0, 0xFF, 0x7F, 0xB0, 0xB0, 0xA8, 0x80,
    0xF0, 0xF1, 0xFF, 0x7F, 0xEC, 0x0F, 0, 0,
};
static const uint8_t table_bytes[16] = {0, 0x10, 0, 0, 0xB0, 0xB0, 0x1F, 0x00, SITES(4)};
#define INDEX index_bytes, sizeof index_bytes, 0x8000
#define TABLE table_bytes, sizeof table_bytes, 0x9000

static void lookups(void)
{
    HELD(2, anrukfal_search(NULL, 0, 0, 0x7000, row), 0, 0);
    HELD(2, anrukfal_search(INDEX, 0x6FFF, row), 0, 0);
    HELD(0, anrukfal_search(INDEX, 0x7000, row), 0, 2);
    HELD(0, anrukfal_search(INDEX, 0x71FF, row), 1, 3);
    HELD(0, anrukfal_search(INDEX, 0xFFFFFFFF, row), 2, 3);
    HELD(1, anrukfal_search(index_bytes, 20, 0x8000, 0x7000, row), 0, 0);

    HELD(0, anrukfal_lookup(INDEX, TABLE, 0x7000, row), 0, 0x7000, 0, 0, 0, 0, 0, 0, 0);
    HELD(0, anrukfal_lookup(INDEX, TABLE, 0x7100, row), 1, 0x7100, 1, 0, 0, 0, 0, 0, 0);
    HELD(0, anrukfal_lookup(INDEX, TABLE, 0x7210, row), 2, 0x7200, 3, 0xA000, 0x7210, 0x7218, 0x7220, 0, 0);
    HELD(11, anrukfal_lookup(INDEX, TABLE, 0x7218, row), 0, 0, 0, 0, 0, 0, 0, 0, 0);
    HELD(5, anrukfal_lookup(INDEX, table_bytes, 0, 0x9000, 0x7210, row), 0, 0, 0, 0, 0, 0, 0, 0, 0);
    HELD(5, anrukfal_lookup(INDEX, table_bytes, 16, 0x9004, 0x7210, row), 0, 0, 0, 0, 0, 0, 0, 0, 0);
    HELD(5, anrukfal_lookup(INDEX, table_bytes, 16, 0x8FFE, 0x7210, row), 0, 0, 0, 0, 0, 0, 0, 0, 0);
}

static const uint8_t stack_bytes[8] = {0x78, 0x56, 0x34, 0x12, 0x01, 0x10, 0x00, 0x08};

/* A step over the compact entry; the registers are held to `after`. */
static void stepped(int line, uint32_t counter, size_t stack_len, uint32_t wanted, const uint32_t *row_wanted, const uint32_t *after)
{
    uint32_t core[16], row[2] = {0xA5A5A5A5, 0xA5A5A5A5};
    uint64_t vfp[32], vfp_before[32];
    for (uint32_t k = 0; k < 16; k++)
        core[k] = k;
    for (uint32_t k = 0; k < 32; k++)
        vfp[k] = vfp_before[k] = k * UINT64_C(0x0101010101010101);
    core[13] = 0x20000100;
    core[15] = counter;
    uint32_t number = anrukfal_step(INDEX, TABLE, stack_bytes, stack_len, 0x20000100, core, vfp, row);
    held(line, number, row, 2, wanted, row_wanted);
    held(line, 0, core, 16, 0, after);
    held(line, memcmp(vfp, vfp_before, sizeof vfp) != 0, NULL, 0, 0, NULL);
}

static void steps(void)
{
    const uint32_t none[2] = {0, 0}, two[2] = {0, 2}, cannot[2] = {1, 0};
    const uint32_t same[16] = {0, 1, 2, 3, 4, 5, 6, 7, 8, 9, 10, 11, 12, 0x20000100, 14, 0x7100};
    const uint32_t next[16] = {0, 1, 2, 3, 0x12345678, 5, 6, 7, 8, 9, 10, 11, 12, 0x20000108, 0x08001001, 0x08001001};
    const uint32_t first[16] = {0, 1, 2, 3, 4, 5, 6, 7, 8, 9, 10, 11, 12, 0x20000100, 14, 0x7000};
    const uint32_t popped[16] = {0, 1, 2, 3, 4, 5, 6, 7, 8, 9, 10, 11, 12, 0x20000180, 14, 14};
    stepped(__LINE__, 0x7100, 8, 0, two, next);
    stepped(__LINE__, 0x7100, 7, 17, none, same);
    stepped(__LINE__, 0x7000, 0, 0, cannot, first);
    stepped(__LINE__, 0x7200, 0, 0, two, popped);
}

static void audits(void)
{
    uint8_t table[sizeof table_bytes];
    memcpy(table, table_bytes, sizeof table);
    HELD(0, anrukfal_audit(INDEX, TABLE, row), 0);
    HELD(0, anrukfal_audit(NULL, 0, 5, NULL, 0, 6, row), 0);
    HELD(5, anrukfal_audit(INDEX, table_bytes, 0, 0x9000, row), 2);
    HELD(6, anrukfal_audit(INDEX, table_bytes, 15, 0x9000, row), 2);
    HELD(1, anrukfal_audit(index_bytes, 23, 0x8000, TABLE, row), 0);
    table[6] = 0xB3;
    HELD(14, anrukfal_audit(INDEX, table, sizeof table, 0x9000, row), 2);
    const uint8_t unsorted[16] = {0, 0, 0, 0, 1, 0, 0, 0, 0xF8, 0xFF, 0xFF, 0x7F, 1, 0, 0, 0};
    HELD(4, anrukfal_audit(unsorted, sizeof unsorted, 0x8000, NULL, 0, 0, row), 1);
}

static void bundles(void)
{
    HELD(0, anrukfal_bundle(BYTES(2, 0, 0, 0, 1, 0, 0, 0, 2, 0, 0, 0, 0, 0, 0, 0, 0, 0, 0, 0), row), 1, 2, 16, 0, 20, 0);
    HELD(18, anrukfal_bundle(BYTES(2, 0, 0, 0, 1, 0, 0, 0, 2, 0, 0, 0, 0, 0, 0, 0, 0, 0, 0, 0, 0), row), 0, 0, 0, 0, 0, 0);
    HELD(18, anrukfal_bundle(BYTES(2, 0, 0, 0, 1, 0, 0, 0, 2, 0, 0, 0, 0, 0, 0, 0, 0, 0, 0), row), 0, 0, 0, 0, 0, 0);
    HELD(18, anrukfal_bundle(BYTES(3, 0, 0, 0), row), 0, 0, 0, 0, 0, 0);
    HELD(18, anrukfal_bundle(NULL, 0, row), 0, 0, 0, 0, 0, 0);
    HELD(1, anrukfal_bundle(BYTES(2, 0, 0, 0, 1, 0, 0, 0, 2, 0, 0, 0, 1, 0x20, 0, 0), row), 0, 0, 0, 0, 0, 0);
    HELD(1, anrukfal_bundle(BYTES(2, 0, 0, 0, 1, 0, 0, 0, 0xFD, 0xFF, 0xFF, 0xFF, 0, 0, 0, 0, 1, 0, 0, 0, 9, 9, 9, 9), row), 0, 0, 0, 0, 0, 0);
}

static void readers(void)
{
    VALUE(0, anrukfal_sections(index_bytes, 24, 0x8000, NULL, 0, 0x9000));
    VALUE(1, anrukfal_sections(index_bytes, 23, 0x8000, NULL, 0, 0x9000));
    HELD(0, anrukfal_offset(0x9000, 8, 0x9007, row), 7);
    HELD(5, anrukfal_offset(0x9000, 8, 0x9008, row), 0);
    HELD(5, anrukfal_offset(0x9000, 8, 0x8FFF, row), 0);
    HELD(0, anrukfal_plus(0xFFFFFFFE, 1, row), 0xFFFFFFFF);
    HELD(10, anrukfal_plus(0xFFFFFFFE, 2, row), 0);
    HELD(0, anrukfal_word(BYTES(9, 0x78, 0x56, 0x34, 0x12), 1, row), 0x12345678);
    HELD(6, anrukfal_word(BYTES(9, 0x78, 0x56, 0x34, 0x12), 2, row), 0);
    HELD(0, anrukfal_byte(BYTES(0xB0, 0xB1, 0xA8, 0x80), 1, row), 1, 0xA8);
    HELD(0, anrukfal_byte(BYTES(0xB0, 0xB1, 0xA8, 0x80), 4, row), 0, 0);
    HELD(1, anrukfal_byte(BYTES(0xB0, 0xB1, 0xA8), 0, row), 0, 0);
    HELD(0, anrukfal_function(index_bytes, 24, 0x8000, 2, row), 0x7200);
    HELD(6, anrukfal_function(index_bytes, 24, 0x8000, 3, row), 0);
    HELD(0, anrukfal_content(index_bytes, 24, 0x8000, 0, row), 0, 0, 0, 0, 0);
    HELD(0, anrukfal_content(index_bytes, 24, 0x8000, 1, row), 1, 0, 12, 1, 1);
    HELD(0, anrukfal_content(index_bytes, 24, 0x8000, 2, row), 4, 0x9000, 0, 0, 0);
    HELD(0, anrukfal_entry(index_bytes, 24, 0x8000, NULL, 0, 0x9000, 1, row), 0x7100, 1, 0, 12, 1, 1, 0);
    HELD(5, anrukfal_entry(index_bytes, 24, 0x8000, NULL, 0, 0x9000, 2, row), 0, 0, 0, 0, 0, 0, 0);
    HELD(0, anrukfal_site(BYTES(SITES(4)), 0x08001000, 0x01, 4, 8, 4, row), 1, 0x08001010, 0x08001018, 0x20, 0, 8);
    HELD(0, anrukfal_site(BYTES(SITES(4)), 0x08001000, 0x01, 4, 8, 8, row), 0, 0, 0, 0, 0, 0);
    HELD(6, anrukfal_site(BYTES(SITES(5)), 0x08001000, 0x01, 4, 9, 8, row), 0, 0, 0, 0, 0, 0);
    HELD(0, anrukfal_walk_byte(BYTES(0xB0, 0xB1, 0xA8, 0x80), 1, 3, row), 1, 0xB0, 4);
    HELD(0, anrukfal_walk_byte(BYTES(0xB0, 0xB1, 0xA8, 0x80), 1, 4, row), 0, 0, 4);
    HELD(1, anrukfal_walk_byte(BYTES(0xB0, 0xB1, 0xA8, 0x80), 3, 3, row), 0, 0, 0);
    HELD(0, anrukfal_walk_instruction(BYTES(0xB0, 0xB0, 0xA8, 0x80), 1, 1, row), REGISTERS, 0x4010, 0, 2);
    HELD(0, anrukfal_walk_instruction(BYTES(0xB0, 0xB0, 0xA8, 0x80), 1, 4, row), END, 0, 0, 4);
    HELD(1, anrukfal_walk_instruction(BYTES(0xB0, 0xB0, 0xA8), 1, 1, row), 0, 0, 0, 0);
    uint64_t header[4] = {9, 9, 9, 9}, wanted[4] = {0x08001000, 0x01, 4, 8};
    VALUE(0, anrukfal_header(BYTES(SITES(4)), 0x08001000, header));
    VALUE(0, (uint32_t)memcmp(header, wanted, sizeof header));
    VALUE(6, anrukfal_header(NULL, 0, 0x08001000, header));
    VALUE(0, (uint32_t)memcmp(header, (uint64_t[4]){0}, sizeof header));
}

int main(void)
{
    prel31();
    pointers();
    instructions();
    entries();
    call_sites();
    lookups();
    steps();
    audits();
    bundles();
    readers();
    printf("%24s: %11d checks, %d faults\n", "C", checks, faults);
    return faults != 0;
}
