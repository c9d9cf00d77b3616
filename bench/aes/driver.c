/* Counter Blocks under a key, by the function that the build chose: Block c is c as 128 bits, low byte first, enciphered. `run` counts the instructions
 * inside `once`, and holds the digests to each other.
 *   driver COUNT TIMES: a digest of the first COUNT Blocks, and the least time of TIMES, in nanoseconds a Block */
#include <stdint.h>
#include <stdio.h>
#include <stdlib.h>
#include <string.h>
#include <time.h>

static const uint8_t key[16] = {0, 1, 2, 3, 4, 5, 6, 7, 8, 9, 10, 11, 12, 13, 14, 15};

#ifdef PLAIN
#include "../session/aes.h"
__attribute__((noipa)) void once(uint8_t *out, size_t count) { aes_draw(key, out, count); }
#else
static void counter(uint8_t *out, uint64_t c) { /* this machine's words are low byte first */
    uint64_t words[2] = {c, 0};
    memcpy(out, words, 16);
}
#ifdef TABLES
#define OPENSSL_SUPPRESS_DEPRECATED
#include <openssl/aes.h>
__attribute__((noipa)) void once(uint8_t *out, size_t count) { /* Block by Block, as the session draws them */
    AES_KEY expanded;
    AES_set_encrypt_key(key, 128, &expanded);
    for (size_t c = 0; c < count; c++) {
        counter(out + 16 * c, c);
        AES_encrypt(out + 16 * c, out + 16 * c, &expanded);
    }
}
#else
#include <openssl/evp.h>
static EVP_CIPHER_CTX *context;
__attribute__((constructor)) static void prepare(void) { /* OpenSSL's own beginnings are no part of a Block */
    context = EVP_CIPHER_CTX_new();
    if (!context || !EVP_EncryptInit_ex(context, EVP_aes_128_ecb(), 0, key, 0)) abort();
}
__attribute__((noipa)) void once(uint8_t *out, size_t count) { /* all at once; OPENSSL_ia32cap says by which instructions */
    int len = 0;
    for (size_t c = 0; c < count; c++) counter(out + 16 * c, c);
    if (!EVP_EncryptInit_ex(context, 0, 0, key, 0) || !EVP_EncryptUpdate(context, out, &len, out, (int)(16 * count))) abort();
}
#endif
#endif

int main(int argc, char **argv) {
    size_t count = argc > 1 ? strtoul(argv[1], 0, 10) : 0, times = argc > 2 ? strtoul(argv[2], 0, 10) : 0;
    if (argc != 3 || !count || !times || count > 1 << 24) return fputs("usage: driver COUNT TIMES\n", stderr), 2;
    uint8_t *out = malloc(16 * count);
    if (!out) return 1;
    memset(out, 1, 16 * count);
    double least = 1e18;
    for (size_t turn = 0; turn < times; turn++) {
        struct timespec a, b;
        clock_gettime(CLOCK_PROCESS_CPUTIME_ID, &a);
        once(out, count);
        clock_gettime(CLOCK_PROCESS_CPUTIME_ID, &b);
        double t = (b.tv_sec - a.tv_sec) * 1e9 + (b.tv_nsec - a.tv_nsec);
        if (t < least) least = t;
    }
    uint64_t digest = 14695981039346656037u; /* FNV-1a */
    for (size_t k = 0; k < 16 * count; k++) digest = (digest ^ out[k]) * 1099511628211u;
    printf("%016llx %.1f\n", (unsigned long long)digest, least / count);
    return 0;
}
