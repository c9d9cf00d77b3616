/* Nuzsdike: the AND session of a rack box, after WRK17b. One header for C; link libnuzsdike.a (tools/staticlib nuzsdike).
 *
 * No call waits, allocates or keeps a pointer. All memory is the host's. A slice is a pointer and a count of elements; a pointer of an empty slice
 * must not be null, and slices that a call writes (session, work, out, told) may overlap nothing else that it is given.
 * What each call does is one equation, proved: crates/nuzsdike/src/lib.rt. docs/REFUSALS.md has the numbers, docs/MESSAGES.md every byte.
 */
#ifndef NUZSDIKE_H
#define NUZSDIKE_H

#include <stddef.h>
#include <stdint.h>

#ifdef __cplusplus
extern "C" {
#endif

/* Batches of a session at the most. A session makes ANDs for up to so many bundles together: opening is lent a list of 32-bit counts, one for each batch,
 * and l is their sum. All lengths go by l. */
#define NUZSDIKE_BATCHES 16

/* A session: twenty numbers n, i, l, the round that is due, 0 once it is done or ended, and the counts of the 16 batches, 0 where unused. The host keeps
 * them between calls and changes none: to numbers that no opening can have left (l that is not the sum of the counts, a batch behind an unused one) every
 * round call answers 20. */
#define NUZSDIKE_SESSION 20

/* What the last call tells of the batches: 16 pairs, the position of the batch's first result record, from 0, and its count; 0 0 where unused. */
#define NUZSDIKE_TOLD 32

/* An answer: 0 accepted; else the number of docs/REFUSALS.md, 1 to 23, in the low byte, and above it the party that it names; 18 is reserved and no longer
 * occurs. A round call whose session has another length than 20 answers 20 and names no party: nobody gave one. */
#define NUZSDIKE_CODE(answer) ((unsigned)((answer) & 0xff))
#define NUZSDIKE_PARTY(answer) ((uint64_t)(answer) >> 8)
#define NUZSDIKE_NO_PARTY ((uint64_t)1 << 32)

/* Bytes of a seed that r is drawn from: a key of AES-128 (FIPS 197). Block c of the strings, counted from 0 over all of them, is c as 128 bits, low byte
 * first, enciphered. The seed is as public as r is. */
#define NUZSDIKE_R_SEED 16

/* A share record of party i of n, 32 + 32n bytes: the bit, n, i, 29 zero bytes; then by party 16 bytes MAC and 16 bytes key, own ones zero.
 * n and i are those of the call: 22 where a record says another n or another box's number, or its filler, the 29 bytes, is not zero.
 * Results, and what combining writes, are such records too. */

/* Opens a session of party i of n, for one batch or several, of counts[0], counts[1], .. ANDs, l together; round 1 is due. No batch or more than 16 is 23, a
 * sum above 300,000 is 16, a batch of 0 is 3. session: 20 numbers, written. delta 16 bytes, seed 32, pairs 32 for each party; bits, alpha
 * and beta share records; masks a byte for each party and leaky AND. out: the messages of round 1 to the others, by party, own left out.
 * A refused opening writes nothing: a session that stands in the buffers goes on. */
uint64_t nuzsdike_open(uint32_t *session, size_t session_len, uint32_t n, uint32_t i,
                       const uint32_t *counts, size_t counts_len, const uint8_t *delta, size_t delta_len, const uint8_t *seed, size_t seed_len,
                       const uint8_t *pairs, size_t pairs_len, const uint8_t *bits, size_t bits_len,
                       const uint8_t *alpha, size_t alpha_len, const uint8_t *beta, size_t beta_len,
                       const uint8_t *masks, size_t masks_len,
                       uint8_t *work, size_t work_len, uint8_t *out, size_t out_len);

/* The call for a round, with the messages of the others: party k's lies in incoming from starts[k] on, lens[k] bytes and not one more (bytes after a
 * message's value are 21, and end the session); missing[k] other than 0 says that there is none. starts, lens and missing have n entries, the own one
 * is ignored. r is empty but for the call that nuzsdike_r_len tells. There it is all strings, nuzsdike_r_len bytes, or a seed, NUZSDIKE_R_SEED bytes,
 * from which the library draws them; whichever form a box is lent, the strings have to be the same at all boxes. Any other length is 17, and so is a
 * seed in another call. out: the messages of the next round, or the results after the last. told: 32 numbers, lent with every round call; the accepted
 * call for the last round writes there where each batch lies among the results, and no other call writes it. */
uint64_t nuzsdike_round(uint32_t *session, size_t session_len, uint32_t round,
                        const uint8_t *incoming, size_t incoming_len, const size_t *starts, size_t starts_len,
                        const size_t *lens, size_t lens_len, const uint8_t *missing, size_t missing_len,
                        const uint8_t *r, size_t r_len, uint8_t *work, size_t work_len, uint8_t *out, size_t out_len,
                        uint32_t *told, size_t told_len);

/* Combines `count` triples of party i's records x, y, z (at most 5) into one, by count - 1 bytes d; a call by itself. */
uint64_t nuzsdike_combine(uint32_t n, uint32_t i, uint32_t count, const uint8_t *triples, size_t triples_len,
                          const uint8_t *d, size_t d_len, uint8_t *out, size_t out_len);

/* The l of a list of counts, their sum, from 1 to 300,000; where opening would refuse them, 23, 16 or 3 as an answer that names no party: at least 2^40. */
uint64_t nuzsdike_sum(const uint32_t *counts, size_t counts_len);

/* Lengths for n parties and l ANDs; 0 where opening would refuse them. Round 0 stands for opening. */
size_t nuzsdike_work_len(uint32_t n, uint32_t l);                    /* bytes of the work area */
size_t nuzsdike_out_len(uint32_t n, uint32_t l, uint32_t round);     /* bytes of the outgoing buffer of the call for that round */
size_t nuzsdike_message_len(uint32_t n, uint32_t l, uint32_t round); /* bytes of one message of that round */
size_t nuzsdike_bits_len(uint32_t n, uint32_t l);                    /* bytes of the list of bits */
size_t nuzsdike_shares_len(uint32_t n, uint32_t l);                  /* bytes of alpha, of beta and of the results */
size_t nuzsdike_masks_len(uint32_t n, uint32_t l);                   /* bytes of the masks */
size_t nuzsdike_pairs_len(uint32_t n);                               /* bytes of the pairwise seeds */
size_t nuzsdike_r_len(uint32_t n, uint32_t l, uint32_t round);       /* bytes of r, lent with the call for that round; or a seed in its place */
size_t nuzsdike_record_len(uint32_t n);                              /* bytes of a share record */
uint32_t nuzsdike_bucket_size(uint32_t l);                           /* leaky ANDs for each AND */

/* Where the tossed seeds start in the work area of a live session, 0 where opening would refuse n or l. The joint seed, 32 bytes and the same for all,
 * is there once the call for round 3 was accepted: take the seed of r from it (its first 16 bytes will do). The library draws the permutation from it by
 * itself (ChaCha20 of RFC 8439), in the call that writes `dvalue`. The pairwise seeds, nuzsdike_pairs_len(n) bytes by party, are there once the call for
 * round 5 was accepted. */
size_t nuzsdike_joint_seed_at(uint32_t n, uint32_t l);
size_t nuzsdike_pairwise_seeds_at(uint32_t n, uint32_t l);

/* The round after a round of n parties, 1 after 0 (opening); 0 after the last, and where n or the round is none that a session has. */
uint32_t nuzsdike_next_round(uint32_t n, uint32_t round);
uint32_t nuzsdike_due(const uint32_t *session, size_t session_len); /* the round that is due, 0 for none */

/* Byte k (0 to 15) of the name of a round, zeros behind it. */
uint8_t nuzsdike_round_name(uint32_t round, size_t k);

#ifdef __cplusplus
}
#endif
#endif
