/* One call of nuzsdike_combine on valid records, held to combining step by step in plain C; `instructions` counts it.
 *   combine N BUCKET: box 0 of N; d is 0, 1, 1, 0 as far as it is due */
#include <stdio.h>
#include <stdlib.h>
#include <string.h>
#include "../../host/examples-c/record.h"
#include "nuzsdike.h"

enum { MOST = 5, RECORD = HEAD + ENTRY * 8 };

static uint64_t state = 1;
static uint8_t byte(void) {
    state ^= state >> 12, state ^= state << 25, state ^= state >> 27;
    return (uint8_t)(state * 2685821657736338717u >> 56);
}

/* Bit and entries: the sum keeps its label. */
static void add(uint8_t *sum, const uint8_t *record, size_t len, uint8_t d) {
    sum[0] ^= record[0] & -d;
    for (size_t b = HEAD; b < len; b++) sum[b] ^= record[b] & -d;
}

int main(int argc, char **argv) {
    uint32_t n = argc > 1 ? (uint32_t)strtoul(argv[1], 0, 10) : 0, count = argc > 2 ? (uint32_t)strtoul(argv[2], 0, 10) : 0;
    if (argc != 3 || n < 2 || n > 8 || !count || count > MOST) return fputs("usage: combine N BUCKET\n", stderr), 2;
    size_t len = nuzsdike_record_len(n);
    uint8_t d[MOST - 1] = {0, 1, 1, 0}, triples[3 * MOST * RECORD], out[3 * RECORD], due[3 * RECORD];
    for (size_t k = 0; k < 3 * count; k++) {
        uint8_t *record = triples + k * len;
        put_head(record, n, 0, byte() & 1);
        memset(record + mac_at(0), 0, ENTRY); /* its own */
        for (size_t b = mac_at(1); b < len; b++) record[b] = byte();
    }
    memcpy(due, triples, 3 * len);
    for (size_t e = 1; e < count; e++) {
        const uint8_t *x = triples + 3 * e * len;
        add(due, x, len, 1), add(due + 2 * len, x + 2 * len, len, 1), add(due + 2 * len, x, len, d[e - 1]);
    }
    uint64_t a = nuzsdike_combine(n, 0, count, triples, 3 * count * len, d, count - 1, out, 3 * len);
    if (a) return fprintf(stderr, "combining refused: %u\n", NUZSDIKE_CODE(a)), 1;
    if (memcmp(out, due, 3 * len)) return fputs("combine: it is not what plain C makes step by step\n", stderr), 1;
    return 0;
}
