/* The layout of a share record, for hosts in C: its head, which is the bit and a label (n, whose record it is, zeros), then by party a MAC and a
 * key, own ones zero. nuzsdike_record_len tells how many bytes that makes. */
#ifndef RECORD_H
#define RECORD_H

#include <stddef.h>
#include <stdint.h>
#include <string.h>

/* The bytes of a head, of a party's entry, and of a MAC or key in it. */
enum { HEAD = 32, ENTRY = 32, BLOCK = 16 };

static inline size_t mac_at(size_t k) { return HEAD + ENTRY * k; }
static inline size_t key_at(size_t k) { return mac_at(k) + BLOCK; }

static inline void put_head(uint8_t *record, size_t n, size_t own, uint8_t bit) {
    memset(record, 0, HEAD);
    record[0] = bit, record[1] = (uint8_t)n, record[2] = (uint8_t)own;
}

#endif
