/* Anrukfal's readers, as a C library of their own (libreaders.a): what the calls of anrukfal.h are made of, for tests and tools.
 *
 * Each call returns the refusal's number, 0 for none, and fills its row: all zero at a refusal. The numbers are those of anrukfal.h.
 * Memory that is lent is only read; nothing but the row is written. */
#ifndef ANRUKFAL_READERS_H
#define ANRUKFAL_READERS_H

#include <stddef.h>
#include <stdint.h>

#ifdef __cplusplus
extern "C" {
#endif

/* The section rules of an image, the index's first. No row. */
uint32_t anrukfal_sections(const uint8_t *index, size_t index_len, uint32_t index_address, const uint8_t *table, size_t table_len,
                           uint32_t table_address);

/* row: the offset of an address in a section of `len` bytes */
uint32_t anrukfal_offset(uint32_t section, size_t len, uint32_t address, uint32_t row[1]);

/* row: the sum */
uint32_t anrukfal_plus(uint32_t a, uint32_t by, uint32_t row[1]);

/* row: the word */
uint32_t anrukfal_word(const uint8_t *bytes, size_t len, uint32_t at, uint32_t row[1]);

/* row: how many bytes the language data of the table entry at an offset has, and the one at a position, 0 past its end */
uint32_t anrukfal_language(const uint8_t *table, size_t len, uint32_t table_address, uint32_t offset, size_t at, uint64_t row[2]);

/* row: whether a byte is there, the byte. `at` counts in the order of the instruction bytes. */
uint32_t anrukfal_byte(const uint8_t *words, size_t len, uint32_t at, uint32_t row[2]);

/* row: function */
uint32_t anrukfal_function(const uint8_t *index, size_t len, uint32_t index_address, uint32_t number, uint32_t row[1]);

/* row: kind, selector or table address, offset of the words, words, skip.
 * Kinds: 0 cannot unwind, 1 compact in the index, 4 leads to the table. */
uint32_t anrukfal_content(const uint8_t *index, size_t len, uint32_t index_address, uint32_t number, uint32_t row[5]);

/* row: base, encoding, the call-site table's start and its end (start plus length, which may be past 2^32) */
uint32_t anrukfal_header(const uint8_t *data, size_t len, uint32_t function, uint64_t row[4]);

/* The call site at a position; base, encoding, start and end are the header's.
 * row: 1 for a site, 0 for the table's end; start, end, pad and action as they are written, next position */
uint32_t anrukfal_site(const uint8_t *data, size_t len, uint32_t base, uint8_t encoding, uint32_t start, uint64_t end, uint32_t at,
                       uint32_t row[6]);

/* row: function, kind, selector or personality address, offset of the words, words, skip, offset of the language data.
 * Kinds: 0 cannot unwind, 1 compact in the index, 2 compact in the table, 3 generic. */
uint32_t anrukfal_entry(const uint8_t *index, size_t index_len, uint32_t index_address, const uint8_t *table, size_t table_len,
                        uint32_t table_address, uint32_t number, uint32_t row[7]);

/* A walk over instruction words that starts at a skip and has come to a position.
 * row: whether a byte is there, the byte, next position (at the end: the position) */
uint32_t anrukfal_walk_byte(const uint8_t *bytes, size_t len, uint32_t skip, uint32_t pos, uint32_t row[3]);

/* row: kind, a, b, next position, as for anrukfal_instruction */
uint32_t anrukfal_walk_instruction(const uint8_t *bytes, size_t len, uint32_t skip, uint32_t pos, uint32_t row[4]);

#ifdef __cplusplus
}
#endif

#endif
