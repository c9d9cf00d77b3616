/* AES-128 by FIPS 197 in plain C, byte by byte, and the Blocks that a seed draws: Block c is c as 128 bits, low byte first, enciphered. */
#include <stddef.h>
#include <stdint.h>
#include <string.h>

struct aes {
    uint8_t sbox[256], key[11][16];
};

/* Twice a, in GF(2^8) modulo x^8 + x^4 + x^3 + x + 1. */
static uint8_t aes_double(uint8_t a) { return (uint8_t)(a << 1 ^ (a >> 7) * 0x1b); }

static void aes_key(struct aes *aes, const uint8_t key[16]) {
    /* The S-box: p goes through the powers of 3, and q through those of its inverse, 0xf6; then the affine map. */
    uint8_t p = 1, q = 1;
    do {
        p ^= aes_double(p);
        q ^= q << 1, q ^= q << 2, q ^= q << 4, q ^= (q >> 7) * 0x09;
        aes->sbox[p] = (uint8_t)(0x63 ^ q ^ (q << 1 | q >> 7) ^ (q << 2 | q >> 6) ^ (q << 3 | q >> 5) ^ (q << 4 | q >> 4));
    } while (p != 1);
    aes->sbox[0] = 0x63;
    uint8_t *w = aes->key[0], constant = 1;
    memcpy(w, key, 16);
    for (size_t at = 16; at < sizeof aes->key; at += 4) {
        uint8_t t[4] = {w[at - 4], w[at - 3], w[at - 2], w[at - 1]};
        if (at % 16 == 0) {
            uint8_t first = t[0];
            t[0] = aes->sbox[t[1]] ^ constant, t[1] = aes->sbox[t[2]], t[2] = aes->sbox[t[3]], t[3] = aes->sbox[first];
            constant = aes_double(constant);
        }
        for (size_t b = 0; b < 4; b++) w[at + b] = w[at - 16 + b] ^ t[b];
    }
}

static void aes_block(const struct aes *aes, uint64_t c, uint8_t out[16]) {
    uint8_t s[16] = {0}, t[16];
    for (size_t k = 0; k < 8; k++) s[k] = (uint8_t)(c >> 8 * k);
    for (size_t k = 0; k < 16; k++) s[k] ^= aes->key[0][k];
    for (size_t round = 1; round <= 10; round++) {
        for (size_t k = 0; k < 16; k++) t[k] = aes->sbox[s[(k + 4 * (k % 4)) % 16]]; /* SubBytes and ShiftRows */
        for (size_t k = 0; k < 16; k++) {
            const uint8_t *column = t + k / 4 * 4;
            uint8_t a = column[k % 4], b = column[(k + 1) % 4];
            s[k] = round == 10 ? t[k] : aes_double(a ^ b) ^ b ^ column[(k + 2) % 4] ^ column[(k + 3) % 4];
            s[k] ^= aes->key[round][k];
        }
    }
    memcpy(out, s, 16);
}

/* The first `count` Blocks of a seed. */
static void aes_draw(const uint8_t seed[16], uint8_t *out, size_t count) {
    struct aes aes;
    aes_key(&aes, seed);
    for (size_t c = 0; c < count; c++) aes_block(&aes, c, out + 16 * c);
}
