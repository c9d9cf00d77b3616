/* Secrets under a microscope: runs n boxes in one process under valgrind's memcheck, every secret input marked as undefined. memcheck then reports
 * each conditional jump and each address that depends on one, and host/secrets holds what it reports to host/microscope/allowed.
 *
 *   secrets N L       a session
 *   secrets N L K     the same with one bit of box 1's message of round K to box 0 flipped: the ways of a refusal too
 *   secrets N L K all the same bit for every receiver, so that no echo tells and content is refused
 *   secrets control   a jump and an address that do depend on a secret: memcheck has to see both
 * Before N, `strings` lends r as strings; else it is a seed, from which the library draws.
 *
 * Secret: delta, the seeds of the tosses, the bits, MACs and keys of share records, and the masks. Public: n, i, the counts of the batches and
 * so l, and records' labels; r in either form (bytes of a seed are indices of AES' tables, and may be), and what is on the line. So what a call
 * wrote to the outgoing buffer is declared defined before it is carried over; the results stay undefined but for their labels, and are looked at
 * by nobody. The joint seed is public too, once a box has accepted round 3: all boxes opened their seeds there and know it. In the work area it
 * is declared defined then, and so are the words that the library draws from it and the permutation: these may decide jumps and addresses.
 */
#include <stdio.h>
#include <stdlib.h>
#include <string.h>
#include <valgrind/memcheck.h>

#include "../examples-c/record.h"
#include "nuzsdike.h"

enum { MOST = 8, TOSSED = 3, JOINT_SEED = 32 }; /* the round whose call tosses the joint seed, and its bytes */

static uint64_t state = 1;
static uint8_t byte(void) {
    state = state * 6364136223846793005u + 1442695040888963407u;
    return (uint8_t)(state >> 56);
}

static uint8_t *buffer(size_t len) {
    uint8_t *p = calloc(len + 8, 1);
    if (!p) abort();
    return p;
}

static uint8_t *random_bytes(size_t len) {
    uint8_t *p = buffer(len);
    for (size_t k = 0; k < len; k++) p[k] = byte();
    return p;
}

static void hide(const void *p, size_t len) { VALGRIND_MAKE_MEM_UNDEFINED(p, len); }
static void show(const void *p, size_t len) { VALGRIND_MAKE_MEM_DEFINED(p, len); }

/* Share records for n boxes, as docs/INTEGRATION.md has them. */
static void deal(uint32_t n, uint8_t *delta[], uint8_t *list[], size_t count) {
    size_t record = nuzsdike_record_len(n);
    for (size_t t = 0; t < count; t++)
        for (size_t j = 0; j < n; j++) {
            uint8_t *own = list[j] + t * record, bit = byte() & 1;
            put_head(own, n, j, bit);
            for (size_t k = 0; k < n; k++) {
                if (k == j) continue;
                uint8_t *key = list[k] + t * record + key_at(j), *mac = own + mac_at(k);
                for (size_t b = 0; b < BLOCK; b++) {
                    key[b] = byte();
                    mac[b] = key[b] ^ (delta[k][b] & -bit);
                }
            }
        }
}

/* The bits and entries of records; what stands between them, their labels, is public. */
static void hide_records(const uint8_t *list, size_t len, size_t record) {
    for (const uint8_t *own = list; own < list + len; own += record) hide(own, 1), hide(own + mac_at(0), record - mac_at(0));
}

/* The control: what a leak looks like. */
static volatile uint8_t sink;
__attribute__((noinline)) static void control_jump(const uint8_t *secret) {
    if (*secret & 1) sink = 1;
}
__attribute__((noinline)) static void control_address(const uint8_t *secret) {
    static volatile uint8_t table[256];
    sink = table[*secret];
}

/* Combining by itself: five triples of dealt records; d is public, as it is opened. A run of its own, since memcheck tells a place once. */
static int combining(uint32_t n) {
    size_t record = nuzsdike_record_len(n), len = 15 * record;
    if (!record) return 2;
    uint8_t *delta[MOST], *list[MOST], d[4] = {0, 1, 1, 0}, *combined = buffer(3 * record);
    for (size_t i = 0; i < n; i++) delta[i] = random_bytes(16), list[i] = buffer(len);
    deal(n, delta, list, 15);
    hide_records(list[0], len, record);
    VALGRIND_PRINTF("CALL combine\n");
    uint64_t answer = nuzsdike_combine(n, 0, 5, list[0], len, d, sizeof d, combined, 3 * record);
    VALGRIND_PRINTF("CALL none\n");
    show(&answer, sizeof answer);
    return answer != 0;
}

int main(int argc, char **argv) {
    if (argc == 2 && !strcmp(argv[1], "control")) {
        uint8_t secret = 5;
        hide(&secret, 1);
        VALGRIND_PRINTF("CALL control\n");
        control_jump(&secret);
        control_address(&secret);
        return 0;
    }
    if (argc == 3 && !strcmp(argv[1], "combine")) return combining((uint32_t)strtoul(argv[2], 0, 10));
    size_t strings = argc > 1 && !strcmp(argv[1], "strings");
    argc -= (int)strings, argv += strings;
    uint32_t n = argc > 1 ? (uint32_t)strtoul(argv[1], 0, 10) : 0, l = argc > 2 ? (uint32_t)strtoul(argv[2], 0, 10) : 0;
    uint32_t flip = argc > 3 ? (uint32_t)strtoul(argv[3], 0, 10) : 0, flipped = argc > 4 ? n : 1;
    size_t work_len = nuzsdike_work_len(n, l), record = nuzsdike_record_len(n);
    if (!work_len) {
        fputs("usage: secrets [strings] N L [K [all]] | secrets combine N | secrets control\n", stderr);
        return 2;
    }
    size_t bits_len = nuzsdike_bits_len(n, l), shares_len = nuzsdike_shares_len(n, l), masks_len = nuzsdike_masks_len(n, l);
    size_t pairs_len = nuzsdike_pairs_len(n), r_len = 0;
    for (uint32_t k = 1; k; k = nuzsdike_next_round(n, k)) r_len += nuzsdike_r_len(n, l, k);
    uint8_t *r = random_bytes(r_len), *delta[MOST], *seed[MOST], *pairs[MOST], *masks[MOST], *bits[MOST], *alpha[MOST], *beta[MOST], *work[MOST], *out[MOST];
    uint32_t session[MOST][NUZSDIKE_SESSION], told[NUZSDIKE_TOLD];
    for (size_t i = 0; i < n; i++) {
        delta[i] = random_bytes(16), seed[i] = random_bytes(32), pairs[i] = random_bytes(pairs_len), masks[i] = random_bytes(masks_len);
        for (size_t k = 0; k < masks_len; k++) masks[i][k] &= 1;
        bits[i] = buffer(bits_len), alpha[i] = buffer(shares_len), beta[i] = buffer(shares_len), work[i] = buffer(work_len), out[i] = 0;
    }
    deal(n, delta, bits, bits_len / record);
    deal(n, delta, alpha, l);
    deal(n, delta, beta, l);
    /* two batches, where there are as many ANDs */
    uint32_t counts[2] = {l > 1 ? l / 2 : l, l - l / 2};
    size_t batches = l > 1 ? 2 : 1;
    for (size_t i = 0; i < n; i++) {
        hide(delta[i], 16), hide(seed[i], 32), hide(pairs[i], pairs_len), hide(masks[i], masks_len);
        hide_records(bits[i], bits_len, record), hide_records(alpha[i], shares_len, record), hide_records(beta[i], shares_len, record);
    }

    for (uint32_t i = 0; i < n; i++) {
        out[i] = buffer(nuzsdike_out_len(n, l, 0));
        VALGRIND_PRINTF("CALL open\n");
        uint64_t answer = nuzsdike_open(session[i], NUZSDIKE_SESSION, n, i, counts, batches, delta[i], 16, seed[i], 32, pairs[i], pairs_len, bits[i], bits_len,
                                        alpha[i], shares_len, beta[i], shares_len, masks[i], masks_len, work[i], work_len, out[i], nuzsdike_out_len(n, l, 0));
        VALGRIND_PRINTF("CALL none\n");
        show(&answer, sizeof answer), show(session[i], sizeof session[i]); /* an answer is public */
        if (answer) return fprintf(stderr, "opening: refused %u\n", NUZSDIKE_CODE(answer)), 1;
    }
    for (uint32_t round = 1; round; round = nuzsdike_next_round(n, round)) {
        size_t len = nuzsdike_message_len(n, l, round), out_len = nuzsdike_out_len(n, l, round), refused = 0;
        uint8_t *incoming[MOST], *next[MOST];
        for (size_t i = 0; i < n; i++) show(out[i], (n - 1) * len); /* it is on the line */
        for (size_t i = 0; i < n; i++) {
            incoming[i] = buffer(n * len), next[i] = buffer(out_len);
            for (size_t k = 0; k < n; k++)
                if (k != i) memcpy(incoming[i] + k * len, out[k] + (i < k ? i : i - 1) * len, len);
        }
        for (size_t i = 0; round == flip && i < flipped; i++) incoming[i][2 * len - 1] ^= 1; /* its own is ignored */
        for (uint32_t i = 0; i < n; i++) {
            size_t starts[MOST] = {0}, lens[MOST] = {0};
            uint8_t missing[MOST] = {0};
            for (size_t k = 0; k < n; k++) starts[k] = k * len, lens[k] = len;
            size_t lent = nuzsdike_r_len(n, l, round); /* the first of the bytes are the seed */
            if (lent && !strings) lent = NUZSDIKE_R_SEED;
            VALGRIND_PRINTF("CALL round %u\n", round);
            uint64_t answer = nuzsdike_round(session[i], NUZSDIKE_SESSION, round, incoming[i], n * len, starts, n, lens, n, missing, n, r,
                                             lent, work[i], work_len, next[i], out_len, told, NUZSDIKE_TOLD);
            VALGRIND_PRINTF("CALL none\n");
            show(&answer, sizeof answer), show(session[i], sizeof session[i]);
            if (round == TOSSED && !answer) show(work[i] + nuzsdike_joint_seed_at(n, l), JOINT_SEED);
            if (answer) printf("round %u: box %u refuses %u, naming %llu\n", round, i, NUZSDIKE_CODE(answer), (unsigned long long)NUZSDIKE_PARTY(answer)), refused = 1;
        }
        if (refused) return flip ? 0 : 1;
        for (size_t i = 0; i < n; i++) free(out[i]), free(incoming[i]), out[i] = next[i];
    }
    if (flip) return puts("nobody refused"), 0;
    return 0;
}
