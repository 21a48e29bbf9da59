/* Anrukfal: the proved unwinder core, as a C library.
 *
 * Each call returns the refusal's number, 0 for none, and fills its row: all zero at a refusal, but for an audit's entry.
 * anrukfal_prel31 returns the target. Memory that is lent is only read;
 * nothing but the row, and a step's registers, is written. Any bytes, addresses, counter and registers get one answer.
 *
 * What is lent, the row and the registers must be valid for their lengths and aligned, and may not overlap. NULL with length 0 is an
 * empty slice. A counter is taken as it stands, register 15 too: for a return address the caller takes off 1 or 2 first.
 *
 * Refusals: 1 section, 2 no entry, 3 corrupt, 4 unsorted, 5 place, 6 truncated, 7 selector, 8 encoding, 9 value, 10 sum, 11 no site,
 * 12 refused, 13 reserved, 14 unsupported, 15 malformed, 16 registers, 17 stack, 18 bundle. */
#ifndef ANRUKFAL_H
#define ANRUKFAL_H

#include <stddef.h>
#include <stdint.h>

#ifdef __cplusplus
extern "C" {
#endif

/* Returns the target of a prel31 word that stands at the address `place`. */
uint32_t anrukfal_prel31(uint32_t word, uint32_t place);

/* row: value, next position */
uint32_t anrukfal_pointer(const uint8_t *data, size_t len, uint32_t at, uint8_t encoding, uint32_t row[2]);

/* row: kind, a, b, next position. `at` counts in the order of the instruction bytes, so an entry's skip is its first `at`.
 * Kinds: 0 the end of the bytes (next position = at), 1 data pop (a = size), 2 data push (a = size), 3 register pop (a = mask),
 * 4 sp from register (a), 5 VFP pop (a = start, b = count), 6 Finish, 7 Refused, 8 Reserved, 9 Unimplemented, 10 Error. */
uint32_t anrukfal_instruction(const uint8_t *words, size_t len, uint32_t at, uint32_t row[4]);

/* row: function, kind, selector or table address, offset of the words, words, skip.
 * Kinds: 0 cannot unwind, 1 compact in the index, 4 leads to the table. */
uint32_t anrukfal_index_entry(const uint8_t *index, size_t len, uint32_t index_address, uint32_t number, uint32_t row[6]);

/* row: kind, selector or personality address, offset of the words, words, skip, offset of the language data.
 * Kinds: 2 compact in the table, 3 generic. */
uint32_t anrukfal_table_entry(const uint8_t *table, size_t len, uint32_t table_address, uint32_t offset, uint32_t row[6]);

/* row: start, end, pad (0 for none), has action, action */
uint32_t anrukfal_call_site(const uint8_t *data, size_t len, uint32_t function, uint32_t counter, uint32_t row[5]);

/* row: entry, function words read */
uint32_t anrukfal_search(const uint8_t *index, size_t len, uint32_t index_address, uint32_t counter, uint32_t row[2]);

/* row: entry, function, kind, selector or personality address, start, end, pad, has action, action.
 * Kinds: 0 cannot unwind, 1 compact in the index, 2 compact in the table, 3 generic. */
uint32_t anrukfal_lookup(const uint8_t *index, size_t index_len, uint32_t index_address, const uint8_t *table, size_t table_len,
                         uint32_t table_address, uint32_t counter, uint32_t row[9]);

/* core and vfp: in and out; a refused step leaves them as they were. row: kind (0 the next frame, 1 cannot unwind), count of
 * instructions executed. */
uint32_t anrukfal_step(const uint8_t *index, size_t index_len, uint32_t index_address, const uint8_t *table, size_t table_len,
                       uint32_t table_address, const uint8_t *stack, size_t stack_len, uint32_t stack_address, uint32_t core[16],
                       uint64_t vfp[32], uint32_t row[2]);

/* row: the entry at fault; 0 for a section fault and for an image that passes */
uint32_t anrukfal_audit(const uint8_t *index, size_t index_len, uint32_t index_address, const uint8_t *table, size_t table_len,
                        uint32_t table_address, uint32_t row[1]);

/* row: index address, table address, offset and bytes of the index, offset and bytes of the table */
uint32_t anrukfal_bundle(const uint8_t *bytes, size_t len, uint32_t row[6]);

#ifdef __cplusplus
}
#endif

#endif
