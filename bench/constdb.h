/*
 * The calls of target/staticlib/libc_calls.a, for C. Every number is tested inside; a pointer is to point to as many bytes as
 * the length that follows it says, or to one number, and no two of the numbers are the same one.
 *
 * A file stands in the first `len` bytes of `memory`. Memory is read in whole sectors of 512 bytes, so `memory_len` has to be
 * at least `len` rounded up to a multiple of 512; otherwise a call answers 11.
 */
#ifndef CONSTDB_H
#define CONSTDB_H

#include <stddef.h>
#include <stdint.h>

/*
 * Audits the file. Answers 0 and sets records, slots and probes, or answers the number of the refusal (1 to 8, or 11) and sets
 * its table (256 where none is meant) and its place. The numbers that are not set stay as they were.
 */
uint32_t constdb_audit(const uint8_t *memory, size_t memory_len, uint32_t len, uint32_t *records, uint32_t *slots,
                       uint64_t *probes, uint32_t *table, uint64_t *place);

/*
 * Looks up the data of record `n` of a key, counted from 0 in the order of the file. Answers 0 and sets the place and the
 * length of the data, both to 0 where the key has no such record, or answers the number of the refusal (1, 9 or 11) and leaves
 * both as they were.
 */
uint32_t constdb_find(const uint8_t *memory, size_t memory_len, uint32_t len, const uint8_t *key, size_t key_len, uint32_t n,
                      uint32_t *place, uint32_t *data_len);

#endif
