/* Two boxes in one process, on the C interface alone: what a host has to do, with a dealer in place of oblivious transfer and memory in place
 * of a network. The two sessions share nothing but the messages; each box takes the seed of r, which is public, from the tossed joint seed. The library
 * draws r from it, and the permutation from the joint seed.
 *
 *   cc -O2 -Iinclude -o two host/examples-c/two.c target/staticlib/libnuzsdike.a && ./two [L]
 */
#include <stdio.h>
#include <stdlib.h>
#include <string.h>

#include "nuzsdike.h"
#include "record.h"

enum { N = 2 };

/* What a box brings along, and what it has during a session. */
struct box {
    uint8_t delta[16], seed[32], *pairs, *bits, *alpha, *beta, *masks; /* secret, fresh for each session */
    uint32_t session[NUZSDIKE_SESSION], told[NUZSDIKE_TOLD];
    uint8_t *work, *out, *in, r[NUZSDIKE_R_SEED]; /* in: the other's message, copied as a network would */
};

static uint64_t state; /* of a generator for the demo; a box takes its operating system's randomness */
static uint8_t byte(void) {
    state = state * 6364136223846793005u + 1442695040888963407u;
    return (uint8_t)(state >> 56);
}

static uint8_t *buffer(size_t len) { /* never null, even if empty */
    uint8_t *p = calloc(len + 1, 1);
    if (!p) exit((fputs("two: out of memory\n", stderr), 1));
    return p;
}

static uint8_t *random_bytes(uint8_t *p, size_t len) {
    for (size_t k = 0; k < len; k++) p[k] = byte();
    return p;
}

/* Share records. j's MAC for k is k's key of j, plus k's delta where j's bit is 1. */
static void deal(struct box *box, uint8_t *list[N], size_t count) {
    for (size_t t = 0; t < count; t++)
        for (size_t j = 0; j < N; j++) {
            size_t k = 1 - j, at = t * nuzsdike_record_len(N);
            uint8_t bit = byte() & 1, *key = list[k] + at + key_at(j), *mac = list[j] + at + mac_at(k);
            put_head(list[j] + at, N, j, bit);
            random_bytes(key, BLOCK);
            for (size_t b = 0; b < BLOCK; b++) mac[b] = key[b] ^ (box[k].delta[b] & -bit);
        }
}

static void refused(uint64_t answer, uint32_t box, uint32_t round) {
    char name[17] = {0};
    for (size_t k = 0; k < 16; k++) name[k] = (char)nuzsdike_round_name(round, k);
    fprintf(stderr, "box %u: refused %u in round %u (%s), names box %llu\n", box, NUZSDIKE_CODE(answer), round, name,
            (unsigned long long)NUZSDIKE_PARTY(answer));
    exit(1);
}

int main(int argc, char **argv) {
    char *end = "";
    unsigned long given = argc > 1 ? strtoul(argv[1], &end, 10) : 100;
    uint32_t l = given <= UINT32_MAX ? (uint32_t)given : 0;
    size_t work_len = nuzsdike_work_len(N, l), record = nuzsdike_record_len(N);
    if (argc > 2 || *end || !work_len) {
        fputs("usage: two [L], L from 1 to 300000\n", stderr);
        return 2;
    }
    state = 1;
    struct box box[N];
    uint8_t *bits[N], *alpha[N], *beta[N];
    size_t bits_len = nuzsdike_bits_len(N, l), shares_len = nuzsdike_shares_len(N, l), masks_len = nuzsdike_masks_len(N, l);
    size_t most = nuzsdike_out_len(N, l, 0); /* the longest message, or the results */
    for (uint32_t k = 1; k; k = nuzsdike_next_round(N, k))
        if (nuzsdike_out_len(N, l, k) > most) most = nuzsdike_out_len(N, l, k);

    for (size_t i = 0; i < N; i++) {
        struct box *p = &box[i];
        random_bytes(p->delta, sizeof p->delta);
        random_bytes(p->seed, sizeof p->seed);
        p->pairs = random_bytes(buffer(nuzsdike_pairs_len(N)), nuzsdike_pairs_len(N));
        p->masks = random_bytes(buffer(masks_len), masks_len);
        for (size_t k = 0; k < masks_len; k++) p->masks[k] &= 1;
        bits[i] = p->bits = buffer(bits_len);
        alpha[i] = p->alpha = buffer(shares_len);
        beta[i] = p->beta = buffer(shares_len);
        p->work = buffer(work_len);
        p->out = buffer(most);
        p->in = buffer(most);
    }
    deal(box, bits, bits_len / record);
    deal(box, alpha, l);
    deal(box, beta, l);

    for (uint32_t i = 0; i < N; i++) {
        struct box *p = &box[i];
        /* one batch, of all l ANDs */
        uint64_t answer = nuzsdike_open(p->session, NUZSDIKE_SESSION, N, i, &l, 1, p->delta, 16, p->seed, 32, p->pairs, nuzsdike_pairs_len(N), p->bits,
                                        bits_len, p->alpha, shares_len, p->beta, shares_len, p->masks, masks_len, p->work, work_len, p->out,
                                        nuzsdike_out_len(N, l, 0));
        if (answer) refused(answer, i, 0);
    }
    for (uint32_t round; (round = nuzsdike_due(box[0].session, NUZSDIKE_SESSION)) != 0;) {
        size_t len = nuzsdike_message_len(N, l, round);
        for (size_t i = 0; i < N; i++) memcpy(box[1 - i].in, box[i].out, len); /* the network */
        for (uint32_t i = 0; i < N; i++) {
            size_t r_len = nuzsdike_r_len(N, l, round) ? NUZSDIKE_R_SEED : 0; /* a seed in the place of so many bytes */
            /* round 3 was accepted: the joint seed is there */
            if (r_len) memcpy(box[i].r, box[i].work + nuzsdike_joint_seed_at(N, l), r_len);
            size_t starts[N] = {0}, lens[N] = {len, len}; /* one incoming message; the own entry is ignored */
            uint8_t missing[N] = {0};
            uint64_t answer = nuzsdike_round(box[i].session, NUZSDIKE_SESSION, round, box[i].in, len, starts, N, lens, N, missing, N, box[i].r, r_len,
                                             box[i].work, work_len, box[i].out, nuzsdike_out_len(N, l, round), box[i].told, NUZSDIKE_TOLD);
            if (answer) refused(answer, i, round);
        }
    }

    for (size_t i = 0; i < N; i++)
        if (box[i].told[0] != 0 || box[i].told[1] != l) { /* the one batch starts at the first record */
            fprintf(stderr, "two: box %zu is told another batch\n", i);
            return 1;
        }
    /* The results lie in out. A checker that sees both boxes: heads, MAC rule and AND. */
    for (size_t t = 0; t < l; t++) {
        size_t at = t * record;
        int ok = (box[0].out[at] ^ box[1].out[at]) == ((alpha[0][at] ^ alpha[1][at]) & (beta[0][at] ^ beta[1][at]));
        for (size_t j = 0; j < N; j++) {
            const uint8_t *own = box[j].out + at, *other = box[1 - j].out + at, *delta = box[1 - j].delta;
            uint8_t head[HEAD];
            put_head(head, N, j, own[0] & 1);
            ok = ok && !memcmp(own, head, HEAD);
            for (size_t b = 0; b < BLOCK; b++) ok = ok && own[mac_at(1 - j) + b] == (other[key_at(j) + b] ^ (delta[b] & -own[0]));
        }
        if (!ok) {
            fprintf(stderr, "two: result %zu is wrong\n", t);
            return 1;
        }
    }
    printf("%u ANDs of two boxes are right: heads, MAC rule and AND\n", l);
    return 0;
}
