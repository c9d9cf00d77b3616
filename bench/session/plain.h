/* The sums of `fabitn` in plain C: mask and XOR, a pass over the records for each of the 120 strings, as `chunked_update_with_rbits` of src/mpc/faand.rs
 * has them. `row` is the bytes of a string. */
#include <stdint.h>
#include <string.h>
#include "../../host/examples-c/record.h"
#include "nuzsdike.h"

enum { STRINGS = 120 };

static uint64_t half(const uint8_t *p) {
    uint64_t w;
    memcpy(&w, p, 8);
    return w;
}

/* Of the Blocks at `at` in each record. */
__attribute__((noinline)) static void plain_blocks(const uint8_t *s, size_t record, size_t at, size_t count, const uint8_t *r, size_t row, uint64_t *out) {
    for (size_t j = 0; j < STRINGS; j++) {
        uint64_t low = 0, high = 0;
        for (size_t b = 0; b * 64 < count; b++) {
            uint64_t w = half(r + j * row + 8 * b);
            size_t most = count - b * 64 < 64 ? count - b * 64 : 64;
            const uint8_t *p = s + b * 64 * record + at;
            for (size_t e = 0; e < most; e++, p += record, w >>= 1) {
                uint64_t mask = -(w & 1);
                low ^= half(p) & mask;
                high ^= half(p + 8) & mask;
            }
        }
        out[2 * j] = low;
        out[2 * j + 1] = high;
    }
}

/* Of the bits. */
__attribute__((noinline)) static void plain_bits(const uint8_t *s, size_t record, size_t count, const uint8_t *r, size_t row, uint8_t *out) {
    for (size_t j = 0; j < STRINGS; j++) {
        uint8_t sum = 0;
        for (size_t t = 0; t < count; t++)
            sum ^= s[t * record] & (r[j * row + t / 8] >> t % 8);
        out[j] = sum & 1;
    }
}

/* Box 0's sums for n boxes: the bits, and for each other the MACs, which it sends, and the keys, which it keeps. Whether its messages hold them. */
static int plain_sums(const uint8_t *s, size_t n, size_t count, const uint8_t *r, size_t row, const uint8_t *sent, size_t len) {
    size_t record = nuzsdike_record_len((uint32_t)n);
    uint64_t macs[2 * STRINGS], keys[2 * STRINGS], kept = 0;
    uint8_t bits[STRINGS];
    int same = 1;
    plain_bits(s, record, count, r, row, bits);
    for (size_t k = 1; k < n; k++, sent += len) {
        plain_blocks(s, record, mac_at(k), count, r, row, macs);
        plain_blocks(s, record, key_at(k), count, r, row, keys);
        for (size_t j = 0; j < STRINGS; j++) {
            const uint8_t *item = sent + 8 + 17 * j;
            same &= item[0] == bits[j] && half(item + 1) == macs[2 * j] && half(item + 9) == macs[2 * j + 1];
            kept ^= keys[2 * j] ^ keys[2 * j + 1];
        }
    }
    return same && kept != 1; /* the keys' sums are used, so that they are computed */
}
