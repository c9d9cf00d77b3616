// Hashes each run of SIZE bytes of LEN bytes (byte k is k mod 251; SIZE is LEN if not given) by the function that the build chose, and
// writes the hashes; or the 64 Blocks of 1,024 bytes at once. `run` counts the instructions inside `once`.
#include <stddef.h>
#include <stdint.h>
#include <stdio.h>
#include <stdlib.h>

#ifdef OURS
void nuz_blake3(const uint8_t *s, size_t n, uint8_t out[32]);
__attribute__((noipa)) void once(const uint8_t *s, size_t n, uint8_t *out) { nuz_blake3(s, n, out); }
#elif defined(OURS_BLOCK)
void nuz_blake3_block(uint64_t low, uint64_t high, uint8_t out[32]);
__attribute__((noipa)) void once(const uint8_t *s, size_t n, uint8_t *out) {
    (void)n;
    nuz_blake3_block(((const uint64_t *)s)[0], ((const uint64_t *)s)[1], out);
}
#elif defined(OURS_BLOCKS)
void nuz_blake3_blocks(const uint8_t blocks[1024], uint8_t out[2048]);
__attribute__((noipa)) void once(const uint8_t *s, size_t n, uint8_t *out) {
    (void)n;
    nuz_blake3_blocks(s, out);
}
#else
#include "blake3.h"
__attribute__((noipa)) void once(const uint8_t *s, size_t n, uint8_t *out) {
    blake3_hasher h;
    blake3_hasher_init(&h);
    blake3_hasher_update(&h, s, n);
    blake3_hasher_finalize(&h, out, 32);
}
#endif

int main(int argc, char **argv) {
    size_t n = argc > 1 ? strtoul(argv[1], 0, 10) : 0, size = argc > 2 ? strtoul(argv[2], 0, 10) : n, at = 0;
    uint8_t *s = malloc(n + 16), out[2048];
#ifdef OURS_BLOCKS
    int hashes = 64;
    size = n;
#else
    int hashes = 1;
#endif
    if (!s) return 1;
    for (size_t k = 0; k < n; k++) s[k] = (uint8_t)(k % 251);
    do {
        once(s + at, size, out);
        for (int k = 0; k < hashes * 32; k++) printf(k % 32 == 31 ? "%02x\n" : "%02x", out[k]);
        at += size;
    } while (at < n);
    return 0;
}
