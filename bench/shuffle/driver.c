/* The permutation from the joint seed, measured: `driver block` makes one block, held to plain C here (RFC 8439's text); `driver draw TIMES` draws the
 * permutation of a session of 300,000, 900,000 numbers, holds it to the order's text in plain C, and tells the least CPU time of both. */
#include <stdint.h>
#include <stdio.h>
#include <stdlib.h>
#include <string.h>
#include <time.h>

enum { NUMBERS = 900000, PASSED = 64 };

void nuz_chacha20_block(uint8_t out[64], const uint8_t key[32], uint32_t counter, const uint8_t nonce[12]);
void nuz_draw(uint8_t section[4 * NUMBERS], const uint8_t key[32]);

static uint32_t load(const uint8_t *p) { return p[0] | (uint32_t)p[1] << 8 | (uint32_t)p[2] << 16 | (uint32_t)p[3] << 24; }
static uint32_t turn(uint32_t x, int k) { return x << k | x >> (32 - k); }
static void quarter(uint32_t *v, int a, int b, int c, int d) {
    v[a] += v[b], v[d] = turn(v[d] ^ v[a], 16), v[c] += v[d], v[b] = turn(v[b] ^ v[c], 12);
    v[a] += v[b], v[d] = turn(v[d] ^ v[a], 8), v[c] += v[d], v[b] = turn(v[b] ^ v[c], 7);
}
static void words(uint32_t out[16], const uint8_t *key, uint32_t counter, const uint8_t *nonce) {
    uint32_t s[16] = {0x61707865, 0x3320646e, 0x79622d32, 0x6b206574}, v[16];
    for (int i = 0; i < 8; i++) s[4 + i] = load(key + 4 * i);
    s[12] = counter;
    for (int i = 0; i < 3; i++) s[13 + i] = load(nonce + 4 * i);
    memcpy(v, s, sizeof v);
    for (int i = 0; i < 10; i++) {
        quarter(v, 0, 4, 8, 12), quarter(v, 1, 5, 9, 13), quarter(v, 2, 6, 10, 14), quarter(v, 3, 7, 11, 15);
        quarter(v, 0, 5, 10, 15), quarter(v, 1, 6, 11, 12), quarter(v, 2, 7, 8, 13), quarter(v, 3, 4, 9, 14);
    }
    for (int i = 0; i < 16; i++) out[i] = v[i] + s[i];
}

static uint32_t stream[16];
static uint64_t taken;
static uint32_t next(const uint8_t *key) {
    static const uint8_t nonce[12];
    if (taken % 16 == 0) words(stream, key, (uint32_t)(taken / 16), nonce);
    return stream[taken++ % 16];
}
static void shuffle(uint32_t *p, const uint8_t *key) {
    taken = 0;
    for (uint32_t t = 0; t < NUMBERS; t++) p[t] = t;
    for (uint64_t t = NUMBERS - 1; t >= 1; t--) {
        uint64_t bound = (1ull << 32) / (t + 1) * (t + 1), w = next(key);
        for (int passed = 0; passed < PASSED && w >= bound; passed++) w = next(key);
        uint32_t x = p[t];
        p[t] = p[w % (t + 1)], p[w % (t + 1)] = x;
    }
}

__attribute__((noinline)) void once(uint8_t *out, const uint8_t *key, const uint8_t *nonce) { nuz_chacha20_block(out, key, 1, nonce); }

static double now(void) {
    struct timespec t;
    clock_gettime(CLOCK_PROCESS_CPUTIME_ID, &t);
    return t.tv_sec * 1e3 + t.tv_nsec / 1e6;
}

int main(int argc, char **argv) {
    uint8_t key[32], nonce[12] = {0, 0, 0, 9, 0, 0, 0, 0x4a};
    for (int i = 0; i < 32; i++) key[i] = (uint8_t)i;
    if (argc == 2 && !strcmp(argv[1], "block")) {
        uint8_t out[64];
        uint32_t want[16];
        once(out, key, nonce);
        words(want, key, 1, nonce);
        for (int i = 0; i < 16; i++)
            if (load(out + 4 * i) != want[i]) return fprintf(stderr, "driver: word %d of the block is not plain C's\n", i), 1;
        return 0;
    }
    if (argc != 3 || strcmp(argv[1], "draw")) return fputs("usage: driver block | draw TIMES\n", stderr), 2;
    uint8_t *ours = malloc(4 * NUMBERS);
    uint32_t *plain = malloc(4 * NUMBERS);
    if (!ours || !plain) return fputs("driver: out of memory\n", stderr), 1;
    double least[2] = {1e18, 1e18};
    for (int turns = atoi(argv[2]); turns > 0; turns--) {
        double t = now();
        nuz_draw(ours, key);
        t = now() - t;
        if (t < least[0]) least[0] = t;
        t = now();
        shuffle(plain, key);
        t = now() - t;
        if (t < least[1]) least[1] = t;
        for (uint32_t k = 0; k < NUMBERS; k++)
            if (load(ours + 4 * k) != plain[k]) return fprintf(stderr, "driver: number %u is not plain C's\n", k), 1;
        key[0]++;
    }
    printf("%d numbers: ours %.2f ms, %.1f ns a number; plain C %.2f ms\n", NUMBERS, least[0], least[0] * 1e6 / NUMBERS, least[1]);
    return 0;
}
