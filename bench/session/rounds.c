/* Where the time of a session goes: CPU time of box 0, call by call. Boxes in one process, dealt inputs; dealing and copying are not timed.
 * Round 5, which makes `fabitn`, beside the same sums in plain C, to which its messages are held. r is lent as strings, and as the seed that they are
 * drawn from, in turn.
 *   rounds N L TIMES [strings | seed]: the least of TIMES sessions for each call, in microseconds */
#define _GNU_SOURCE
#include <stdio.h>
#include <stdlib.h>
#include <string.h>
#include <sys/mman.h>
#include <time.h>
#include "../../host/examples-c/record.h"
#include "aes.h"
#include "nuzsdike.h"
#include "plain.h"

enum { MOST = 8, LAST = 22, MAKES_FABITN = 5, FORMS = 2 };

static const char *const form_name[FORMS] = {"strings", "seed"};

static uint64_t state = 1;
static uint64_t word(void) {
    state ^= state >> 12, state ^= state << 25, state ^= state >> 27;
    return state * 2685821657736338717u;
}
/* Large buffers in huge pages, as INTEGRATION asks of hosts: with LARGE_PAGES=0 in the environment in small ones. */
enum { HUGE = 1 << 21 };
static uint8_t *buffer(size_t len) {
    const char *wanted = getenv("LARGE_PAGES");
    void *p = 0;
    if (len < HUGE || (wanted && *wanted == '0')) p = malloc(len + 1);
    else if (posix_memalign(&p, HUGE, len + 1) || madvise(p, len + 1, MADV_HUGEPAGE)) p = 0;
    if (!p) exit((fputs("rounds: out of memory\n", stderr), 1));
    memset(p, 1, len + 1);
    return p;
}
static uint8_t *drawn(size_t len, uint8_t mask) {
    uint8_t *p = buffer(len);
    for (size_t k = 0; k < len; k++) p[k] = (uint8_t)(word() >> 56) & mask;
    return p;
}
static double now(void) {
    struct timespec t;
    clock_gettime(CLOCK_PROCESS_CPUTIME_ID, &t);
    return t.tv_sec * 1e6 + t.tv_nsec / 1e3;
}

/* With OTHER_MEMORY in the environment other memory is touched before each call, so that what a call needs is in no cache, as in a box that waits for its lines. */
enum { OTHER = 400 << 20, LINE = 64 };
static void touch_other(void) {
    static uint8_t *other;
    if (!getenv("OTHER_MEMORY")) return;
    if (!other) other = buffer(OTHER);
    for (size_t k = 0; k < OTHER; k += LINE) other[k]++;
}

static uint32_t n, l;
static uint8_t *delta[MOST], *seed[MOST], *pairs[MOST], *bits[MOST], *alpha[MOST], *beta[MOST], *masks[MOST], *work[MOST], *out[MOST], *in;

static void deal(uint8_t *list[], size_t count) {
    size_t record = nuzsdike_record_len(n);
    for (size_t j = 0; j < n; j++) memset(list[j], 0, count * record);
    for (size_t t = 0; t < count; t++)
        for (size_t j = 0; j < n; j++) {
            uint8_t *own = list[j] + t * record, bit = word() >> 63;
            put_head(own, n, j, bit);
            for (size_t k = 0; k < n; k++) {
                if (k == j) continue;
                uint8_t *key = list[k] + t * record + key_at(j), *mac = own + mac_at(k);
                uint64_t a = word(), b = word();
                memcpy(key, &a, 8), memcpy(key + 8, &b, 8);
                for (size_t x = 0; x < BLOCK; x++) mac[x] = key[x] ^ (delta[k][x] & -bit);
            }
        }
}

static int usage(void) {
    fputs("usage: rounds N L TIMES [strings | seed]\n", stderr);
    return 2;
}

int main(int argc, char **argv) {
    if (argc != 4 && argc != 5) return usage();
    n = (uint32_t)strtoul(argv[1], 0, 10), l = (uint32_t)strtoul(argv[2], 0, 10);
    size_t times = strtoul(argv[3], 0, 10), work_len = nuzsdike_work_len(n, l), most = nuzsdike_shares_len(n, l), r_len = 0;
    size_t first = 0, last = FORMS - 1;
    if (argc == 5) {
        while (first < FORMS && strcmp(argv[4], form_name[first])) first++;
        last = first;
    }
    if (!work_len || !times || last == FORMS) return usage();
    for (uint32_t k = 0; k <= LAST; k++) {
        if (nuzsdike_out_len(n, l, k) > most) most = nuzsdike_out_len(n, l, k);
        if (nuzsdike_r_len(n, l, k)) r_len = nuzsdike_r_len(n, l, k);
    }
    size_t shares = nuzsdike_shares_len(n, l), bits_len = nuzsdike_bits_len(n, l), masks_len = nuzsdike_masks_len(n, l), pairs_len = nuzsdike_pairs_len(n);
    for (size_t i = 0; i < n; i++) {
        delta[i] = drawn(16, 255), seed[i] = drawn(32, 255), pairs[i] = drawn(pairs_len, 255), masks[i] = drawn(masks_len, 1);
        bits[i] = buffer(bits_len), alpha[i] = buffer(shares), beta[i] = buffer(shares), work[i] = buffer(work_len), out[i] = buffer(most);
    }
    in = buffer(most * n);
    size_t count = bits_len / nuzsdike_record_len(n);
    deal(bits, count), deal(alpha, l), deal(beta, l);
    uint8_t *r_seed = drawn(NUZSDIKE_R_SEED, 255), *r = buffer(r_len);
    aes_draw(r_seed, r, r_len / 16);
    double least[FORMS][LAST + 1], plain = 1e18;
    for (size_t form = 0; form < FORMS; form++)
        for (size_t k = 0; k <= LAST; k++) least[form][k] = 1e18;
    for (size_t turn = 0; turn < times * (last - first + 1); turn++) {
        size_t form = first + turn % (last - first + 1);
        uint32_t session[MOST][NUZSDIKE_SESSION], told[NUZSDIKE_TOLD];
        for (uint32_t i = 0; i < n; i++) {
            touch_other();
            double t = now();
            uint64_t a = nuzsdike_open(session[i], NUZSDIKE_SESSION, n, i, &l, 1, delta[i], 16, seed[i], 32, pairs[i], pairs_len, bits[i], bits_len, alpha[i], shares, beta[i], shares,
                                       masks[i], masks_len, work[i], work_len, out[i], nuzsdike_out_len(n, l, 0));
            t = now() - t;
            if (a) return fprintf(stderr, "opening refused: %u\n", NUZSDIKE_CODE(a)), 1;
            if (!i && t < least[form][0]) least[form][0] = t;
        }
        for (uint32_t k; (k = nuzsdike_due(session[0], NUZSDIKE_SESSION)) != 0;) {
            size_t len = nuzsdike_message_len(n, l, k), starts[MOST] = {0}, lens[MOST] = {0};
            uint8_t missing[MOST] = {0}, *sent[MOST], *lent = form ? r_seed : r;
            size_t lent_len = nuzsdike_r_len(n, l, k);
            if (lent_len && form) lent_len = NUZSDIKE_R_SEED;
            for (size_t j = 0; j < n; j++) memcpy(sent[j] = buffer((n - 1) * len), out[j], (n - 1) * len);
            for (size_t i = 0; i < n; i++) {
                for (size_t j = 0; j < n; j++) {
                    starts[j] = j * len, lens[j] = len;
                    if (j != i) memcpy(in + j * len, sent[j] + (i < j ? i : i - 1) * len, len);
                }
                touch_other();
                double t = now();
                uint64_t a = nuzsdike_round(session[i], NUZSDIKE_SESSION, k, in, n * len, starts, n, lens, n, missing, n, lent, lent_len, work[i], work_len, out[i],
                                            nuzsdike_out_len(n, l, k), told, NUZSDIKE_TOLD);
                t = now() - t;
                if (a) return fprintf(stderr, "round %u refused: %u\n", k, NUZSDIKE_CODE(a)), 1;
                if (!i && t < least[form][k]) least[form][k] = t;
                if (i || k != MAKES_FABITN) continue;
                t = now();
                if (!plain_sums(bits[0], n, count, r, r_len / STRINGS, out[0], nuzsdike_message_len(n, l, k + 1)))
                    return fputs("rounds: `fabitn` is not what plain C sums\n", stderr), 1;
                t = now() - t;
                if (t < plain) plain = t;
            }
            for (size_t j = 0; j < n; j++) free(sent[j]);
        }
    }
    double sum[FORMS] = {0};
    printf("%-17s", "r lent as");
    for (size_t form = first; form <= last; form++) printf(" %12s", form_name[form]);
    puts("");
    for (uint32_t k = 0; k <= LAST; k++) {
        if (least[first][k] == 1e18) continue;
        char name[17] = {0};
        for (size_t b = 0; b < 16; b++) name[b] = (char)nuzsdike_round_name(k, b);
        printf("%2u %-14s", k, k ? name : "opening");
        for (size_t form = first; form <= last; form++) printf(" %12.0f", least[form][k]), sum[form] += least[form][k];
        if (k == MAKES_FABITN) printf("  (plain C: %.0f for its sums; r has %zu Blocks)", plain, r_len / 16);
        puts("");
    }
    for (size_t form = first; form <= last; form++)
        printf("n %u l %u, r lent as %s: %.2f ms, %.2f us an AND\n", n, l, form_name[form], sum[form] / 1e3, sum[form] / l);
    return 0;
}
