/*
 * Wickslate: the hash functions of ISO/IEC 29192-5: five of PHOTON, five of SPONGENT, and Lesamnta-LW
 * with its block cipher.
 *
 * C99, C11 and C++. Link with libwickslate.a, which `scripts/build wickslate` writes to
 * target/staticlib, for x86-64. The archive keeps nothing between calls, uses no heap and needs only
 * memcpy and memset from outside. Calls on different memory can run at the same time.
 *
 * THE ANSWER. Every function except the two of the block cipher, which are never refused, returns
 * WICKSLATE_DONE, which is 0, or one refusal: its number in the low byte and, for MISORDERED (10) and
 * PAST_END (11), the number of an entry above it. WICKSLATE_NUMBER and WICKSLATE_ENTRY take an answer
 * apart. Below, refusals are named without the prefix WICKSLATE_. They are checked in the order in
 * which they are listed for a function, and the first whose condition holds is the answer. A refused
 * call leaves all lent bytes and numbers, and every field of a lent running hash or cursor, as they
 * were; it may store the same values there again.
 *
 * BITS. A message is a string of up to 134,217,720 bits. The functions whose names end in _bits take
 * one that may end inside a byte. After the bytes comes a bit number: the number of bits that the last
 * byte contributes, 1 to 8. These are its low bits for SPONGENT and its high bits for PHOTON and
 * Lesamnta-LW, and the highest of them comes first in the string. The other bits of the last byte have
 * no effect. Each byte before it contributes all its bits, from its high bit on. So the eleven bits
 * 1011 0110 011 are lent as
 *     0xb6, 0x60 and the bit number 3 for PHOTON and Lesamnta-LW:  1011 0110  011. ....
 *     0xb6, 0x03 and the bit number 3 for SPONGENT:                1011 0110  .... .011
 * with 0 or 1 in place of each dot. The padding's 1 is the next bit of the string. In the functions
 * without a bit number the last byte, too, contributes all its bits.
 *
 * WHAT IS PROVED. Each function below is proved in its source language, for every variant number,
 * running hash, length and content: it returns, it touches nothing but what was lent, and its answer
 * and each byte that it writes are those of the definitions in crates/standard and beside it.
 * docs/ASSURANCE.md has the statements and what they rest on.
 *
 * WHERE THE PROOF BEGINS. It begins when a function is entered. The caller has to ensure the
 * following; if any of it does not hold, nothing is promised:
 *  - No pointer is null, not even with length 0. With length 0 any other pointer will do, and nothing
 *    is read or written there.
 *  - Each pointer is the address of as many bytes as the length beside it, or the size of its array,
 *    says, or of one wickslate_hasher, wickslate_cursor or uint32_t, aligned for its type. The same
 *    holds for the list of a cursor.
 *  - All memory that is passed in is initialised, outputs included, and also the `h` of
 *    wickslate_start, whose fields are read: `= {0}` will do.
 *  - Memory that a call may write overlaps nothing else that is lent to the same call, and no other
 *    thread uses it during the call. Memory that is only read may overlap and may be shared.
 *  - There is enough stack: the proof assumes that it is unlimited. The number of bytes stated for
 *    each function below is at least 64 more than any call, done or refused, was seen to use; a test
 *    holds the archive to that.
 * The compiler's back end, the linker, and this header are outside the proof.
 *
 * Nothing is said about time, power or other side channels, and no memory is cleared. PHOTON-100 and
 * SPONGENT-88 are too small for general use.
 */
#ifndef WICKSLATE_H
#define WICKSLATE_H

#include <stddef.h>
#include <stdint.h>

/* ---- Variants ---------------------------------------------------------- */

#define WICKSLATE_PHOTON_100 1
#define WICKSLATE_PHOTON_144 2
#define WICKSLATE_PHOTON_196 3
#define WICKSLATE_PHOTON_256 4
#define WICKSLATE_PHOTON_288 5
#define WICKSLATE_SPONGENT_88 6
#define WICKSLATE_SPONGENT_136 7
#define WICKSLATE_SPONGENT_176 8
#define WICKSLATE_SPONGENT_240 9
#define WICKSLATE_SPONGENT_272 10
#define WICKSLATE_LESAMNTA_LW 11

/* ---- Answers ----------------------------------------------------------- */

/*
 * The number of an answer's refusal, and the entry that MISORDERED (10) and PAST_END (11) name. For
 * these two compare the number; any other answer is its own number.
 */
#define WICKSLATE_NUMBER(answer) ((uint32_t)(answer) & 0xffu)
#define WICKSLATE_ENTRY(answer) ((uint32_t)(answer) >> 8)

#define WICKSLATE_DONE 0
#define WICKSLATE_UNKNOWN_VARIANT 1  /* the variant is not 1 to 11 */
#define WICKSLATE_MALFORMED 2        /* the running hash is not well formed */
#define WICKSLATE_WRONG_STAGE 3      /* the running hash is closed, or for a read still open */
#define WICKSLATE_TOO_LONG 4         /* more than 134,217,720 message bits */
#define WICKSLATE_OUTPUT_TOO_SHORT 5 /* the output cannot hold the result */
#define WICKSLATE_BAD_IMAGE 6        /* wrong length, or spare bits that are not zero */
#define WICKSLATE_OUT_OF_RANGE 7     /* the place or entry is past the end */
#define WICKSLATE_NO_BLOCK 8         /* no block leads to the state */
#define WICKSLATE_BAD_LIST 9         /* not whole entries, or more than 512 */
#define WICKSLATE_MISORDERED 10      /* an entry begins before the entry before it ends */
#define WICKSLATE_PAST_END 11        /* an entry ends past the buffer */
#define WICKSLATE_BAD_MANIFEST 12    /* not whole records, or more than 512 */
#define WICKSLATE_BAD_RECORD 13      /* no such variant, or filler that is not zero */
#define WICKSLATE_NOT_RISING 14      /* axis number not above the one before */
#define WICKSLATE_BAD_BIT_NUMBER 15  /* not 1 to 8, or given with no bytes */
#define WICKSLATE_INSIDE_BYTE 16     /* the piece before ended inside a byte */
#define WICKSLATE_NOT_SPONGE 17      /* Lesamnta-LW in a call that needs a sponge */

/* ---- Sizes in bytes ---------------------------------------------------- */

/* A digest. */
#define WICKSLATE_PHOTON_100_DIGEST_BYTES 10
#define WICKSLATE_PHOTON_144_DIGEST_BYTES 16
#define WICKSLATE_PHOTON_196_DIGEST_BYTES 20
#define WICKSLATE_PHOTON_256_DIGEST_BYTES 28
#define WICKSLATE_PHOTON_288_DIGEST_BYTES 32
#define WICKSLATE_SPONGENT_88_DIGEST_BYTES 11
#define WICKSLATE_SPONGENT_136_DIGEST_BYTES 16
#define WICKSLATE_SPONGENT_176_DIGEST_BYTES 20
#define WICKSLATE_SPONGENT_240_DIGEST_BYTES 28
#define WICKSLATE_SPONGENT_272_DIGEST_BYTES 32
#define WICKSLATE_LESAMNTA_LW_DIGEST_BYTES 32
#define WICKSLATE_MAX_DIGEST_BYTES 32

/*
 * An image: a whole state in bytes. PHOTON-100 and PHOTON-196 leave the low nibble of the last byte
 * spare, and it must be zero.
 */
#define WICKSLATE_PHOTON_100_IMAGE_BYTES 13
#define WICKSLATE_PHOTON_144_IMAGE_BYTES 18
#define WICKSLATE_PHOTON_196_IMAGE_BYTES 25
#define WICKSLATE_PHOTON_256_IMAGE_BYTES 32
#define WICKSLATE_PHOTON_288_IMAGE_BYTES 36
#define WICKSLATE_SPONGENT_88_IMAGE_BYTES 11
#define WICKSLATE_SPONGENT_136_IMAGE_BYTES 17
#define WICKSLATE_SPONGENT_176_IMAGE_BYTES 22
#define WICKSLATE_SPONGENT_240_IMAGE_BYTES 30
#define WICKSLATE_SPONGENT_272_IMAGE_BYTES 34
#define WICKSLATE_LESAMNTA_LW_IMAGE_BYTES 32
#define WICKSLATE_MAX_IMAGE_BYTES 36

/*
 * A block, packed from the high bit of its first byte. The 20 bits of PHOTON-100 and the 36 of
 * PHOTON-196 leave the low nibble of the last byte zero.
 */
#define WICKSLATE_PHOTON_100_BLOCK_BYTES 3
#define WICKSLATE_PHOTON_144_BLOCK_BYTES 2
#define WICKSLATE_PHOTON_196_BLOCK_BYTES 5
#define WICKSLATE_PHOTON_256_BLOCK_BYTES 4
#define WICKSLATE_PHOTON_288_BLOCK_BYTES 4
#define WICKSLATE_SPONGENT_88_BLOCK_BYTES 1
#define WICKSLATE_SPONGENT_136_BLOCK_BYTES 1
#define WICKSLATE_SPONGENT_176_BLOCK_BYTES 2
#define WICKSLATE_SPONGENT_240_BLOCK_BYTES 2
#define WICKSLATE_SPONGENT_272_BLOCK_BYTES 2
#define WICKSLATE_LESAMNTA_LW_BLOCK_BYTES 16
#define WICKSLATE_MAX_BLOCK_BYTES 16

/* A key and a state of Lesamnta-LW's block cipher. */
#define WICKSLATE_LESAMNTA_LW_KEY_BYTES 16
#define WICKSLATE_LESAMNTA_LW_STATE_BYTES 32

/* The longest message, in bytes and in bits; the longest segment list, and the longest manifest. */
#define WICKSLATE_MAX_MESSAGE_BYTES 16777215
#define WICKSLATE_MAX_MESSAGE_BITS 134217720
#define WICKSLATE_ENTRY_BYTES 8
#define WICKSLATE_MAX_ENTRIES 512
#define WICKSLATE_RECORD_BYTES 35
#define WICKSLATE_MAX_RECORDS 512

/* What a call with the argument `wanted` is asked for. */
#define WICKSLATE_DIGEST 0
#define WICKSLATE_END_STATE 1

/* ---- The running hash -------------------------------------------------- */

#define WICKSLATE_OPEN 0
#define WICKSLATE_CLOSED 1

/*
 * A message taken in pieces. Any 60 bytes may be lent as one: what is not well formed is refused with
 * MALFORMED (2). Well formed means: the variant is 1 to 11, the stage open or closed, the total at
 * most 134,217,720 bits, the bits of `state` after the variant's state zero, the bits of `held` after
 * those of a part-filled block zero, and none held when closed. A part-filled block has the bits of the
 * total that do not fill a whole block; they are held from the high bit of the first byte on, in every
 * family.
 *
 * It can be copied, stored and brought back; calls go on from what it holds. One that was stored by an
 * earlier version has a different size, 48 bytes, and its total may count bytes: finish or drop those
 * first.
 *
 * The two bytes after the fields mean nothing and are outside the proof. They have no effect on any
 * call; a call that may write `h` may put anything there, even what lay on the stack: send or store
 * the fields, or clear those bytes first.
 */
typedef struct wickslate_hasher {
    uint32_t total;                           /* the message bits taken so far */
    uint8_t variant;                          /* 1 to 11 */
    uint8_t stage;                            /* WICKSLATE_OPEN or WICKSLATE_CLOSED */
    uint8_t state[WICKSLATE_MAX_IMAGE_BYTES]; /* the state's image, then zeros */
    uint8_t held[WICKSLATE_MAX_BLOCK_BYTES];  /* the bits that fill no block yet, then zeros */
} wickslate_hasher;

#if defined(__cplusplus) && __cplusplus >= 201103L
#define WICKSLATE_ASSERT(name, condition) static_assert(condition, #name)
#elif !defined(__cplusplus) && defined(__STDC_VERSION__) && __STDC_VERSION__ >= 201112L
#define WICKSLATE_ASSERT(name, condition) _Static_assert(condition, #name)
#else
#define WICKSLATE_ASSERT(name, condition) typedef char wickslate_assert_##name[(condition) ? 1 : -1]
#endif

WICKSLATE_ASSERT(size_of_hasher, sizeof(wickslate_hasher) == 60);
WICKSLATE_ASSERT(offset_of_total, offsetof(wickslate_hasher, total) == 0);
WICKSLATE_ASSERT(offset_of_variant, offsetof(wickslate_hasher, variant) == 4);
WICKSLATE_ASSERT(offset_of_stage, offsetof(wickslate_hasher, stage) == 5);
WICKSLATE_ASSERT(offset_of_state, offsetof(wickslate_hasher, state) == 6);
WICKSLATE_ASSERT(offset_of_held, offsetof(wickslate_hasher, held) == 42);

/* A segment list and the number of its next entry, from 0. The list stays the caller's. */
typedef struct wickslate_cursor {
    const uint8_t *list;
    size_t list_length;
    size_t next;
} wickslate_cursor;

WICKSLATE_ASSERT(size_of_cursor, sizeof(wickslate_cursor) == 24);
WICKSLATE_ASSERT(offset_of_list, offsetof(wickslate_cursor, list) == 0);
WICKSLATE_ASSERT(offset_of_list_length, offsetof(wickslate_cursor, list_length) == 8);
WICKSLATE_ASSERT(offset_of_next, offsetof(wickslate_cursor, next) == 16);

#undef WICKSLATE_ASSERT

/* ---- The functions ----------------------------------------------------- */

/* gcc and clang warn of an unused result, and of a null. */
#if defined(__GNUC__)
#define WICKSLATE_CALL __attribute__((warn_unused_result, nonnull))
#define WICKSLATE_CALL_VOID __attribute__((nonnull))
#else
#define WICKSLATE_CALL
#define WICKSLATE_CALL_VOID
#endif

#ifdef __cplusplus
extern "C" {
#endif

/*
 * Begins a message. Whatever `h` held is replaced.
 *
 * Refusals: UNKNOWN_VARIANT (1).
 * Writes:   `h`, if done.
 * Stack:    576 bytes.
 *
 *     wickslate_hasher h = {0};
 *     if (wickslate_start(&h, WICKSLATE_PHOTON_256) != WICKSLATE_DONE)
 *         return -1;
 */
WICKSLATE_CALL uint32_t wickslate_start(wickslate_hasher *h, uint32_t variant);

/*
 * Takes the next piece of the message, with all its bits. How a message is cut into pieces makes no
 * difference to its digest and its end state, and a piece may be empty.
 *
 * Refusals: MALFORMED (2); WRONG_STAGE (3) if closed; INSIDE_BYTE (16) if the total is not a multiple
 *           of 8, for an empty piece too; TOO_LONG (4) if the total would pass 134,217,720.
 * Writes:   `h`, if done. `piece` is only read.
 * Stack:    21,504 bytes.
 *
 *     uint32_t answer = wickslate_update(&h, buffer, received);
 *     if (answer == WICKSLATE_TOO_LONG)
 *         return give_up();
 */
WICKSLATE_CALL uint32_t wickslate_update(wickslate_hasher *h, const uint8_t *piece, size_t piece_length);

/*
 * Takes a piece whose last byte contributes `bits` bits, 1 to 8: the low ones for SPONGENT, the high
 * ones for the others. With fewer than 8 it is the last piece, and wickslate_finish comes next. With 8
 * all bits count, and a piece that is not empty is taken as wickslate_update takes it.
 *
 * A trace of n bits, n not 0, has (n + 7) / 8 bytes, and the last one contributes (n - 1) % 8 + 1 bits.
 * A trace of no bits has no last byte, and needs no piece at all. A trace that is packed from the high
 * bit on can be lent as it is, except for SPONGENT: there its last byte has to be shifted down by
 * 8 - bits first, as examples/bit_trace.c does.
 *
 * Refusals: MALFORMED (2); WRONG_STAGE (3) if closed; BAD_BIT_NUMBER (15) if `bits` is not 1 to 8 or
 *           the piece is empty; INSIDE_BYTE (16) if the total is not a multiple of 8; TOO_LONG (4) if
 *           the total would pass 134,217,720.
 * Writes:   `h`, if done. `piece` is only read.
 * Stack:    21,504 bytes.
 *
 *     uint32_t bits = (uint32_t)((switches - 1) % 8 + 1);
 *     if (wickslate_update_bits(&h, trace, (switches + 7) / 8, bits) != WICKSLATE_DONE)
 *         return -1;
 */
WICKSLATE_CALL uint32_t wickslate_update_bits(wickslate_hasher *h, const uint8_t *piece, size_t piece_length,
                                              uint32_t bits);

/*
 * Ends the message: pads it and takes the blocks that are left with the padding, one, or in
 * Lesamnta-LW one or two. After that `h` is closed, and its state is the end state.
 *
 * Refusals: MALFORMED (2); WRONG_STAGE (3) if closed already.
 * Writes:   `h`, if done.
 * Stack:    21,504 bytes.
 *
 *     if (wickslate_finish(&h) != WICKSLATE_DONE)
 *         return -1;
 */
WICKSLATE_CALL uint32_t wickslate_finish(wickslate_hasher *h);

/*
 * Writes the digest of a finished message over the front of `out`. It can be read any number of times.
 * A digest is squeezed out of the end state, and different end states may have the same digest. The
 * digest of Lesamnta-LW is its end state.
 *
 * Refusals: MALFORMED (2); WRONG_STAGE (3) if still open; OUTPUT_TOO_SHORT (5).
 * Writes:   the variant's digest bytes, if done. The bytes after them in `out` are unchanged, and so
 *           is `h`.
 * Stack:    21,504 bytes.
 *
 *     uint8_t digest[WICKSLATE_PHOTON_256_DIGEST_BYTES] = {0};
 *     if (wickslate_digest(&h, digest, sizeof digest) == WICKSLATE_DONE)
 *         send(digest, sizeof digest);
 */
WICKSLATE_CALL uint32_t wickslate_digest(const wickslate_hasher *h, uint8_t *out, size_t out_length);

/*
 * Writes the image of a finished message's end state over the front of `out`. It can be read any
 * number of times. Two messages with the same number of bits that differ only within one block always
 * have different end states; for Lesamnta-LW that is not promised.
 *
 * Refusals: MALFORMED (2); WRONG_STAGE (3) if still open; OUTPUT_TOO_SHORT (5).
 * Writes:   the variant's image bytes, if done. The bytes after them in `out` are unchanged, and so
 *           is `h`.
 * Stack:    1,024 bytes.
 *
 *     uint8_t image[WICKSLATE_PHOTON_256_IMAGE_BYTES] = {0};
 *     if (wickslate_end_state(&h, image, sizeof image) == WICKSLATE_DONE)
 *         keep(image, sizeof image);
 */
WICKSLATE_CALL uint32_t wickslate_end_state(const wickslate_hasher *h, uint8_t *out, size_t out_length);

/*
 * Hashes a whole message in one call: gives its digest, or the image of its end state if `wanted` is
 * not 0 (WICKSLATE_DIGEST, WICKSLATE_END_STATE).
 *
 * Refusals: UNKNOWN_VARIANT (1); TOO_LONG (4); OUTPUT_TOO_SHORT (5).
 * Writes:   the result over the front of `out`, if done. The bytes after it are unchanged. `message`
 *           is only read.
 * Stack:    21,504 bytes.
 *
 *     uint8_t image[WICKSLATE_MAX_IMAGE_BYTES] = {0};
 *     uint32_t answer = wickslate_hash(WICKSLATE_SPONGENT_176, table, table_length,
 *                                      WICKSLATE_END_STATE, image, sizeof image);
 *     if (answer != WICKSLATE_DONE)
 *         return -1;
 */
WICKSLATE_CALL uint32_t wickslate_hash(uint32_t variant, const uint8_t *message, size_t message_length,
                                       uint32_t wanted, uint8_t *out, size_t out_length);

/*
 * wickslate_hash for a message whose last byte contributes `bits` bits, 1 to 8: the low ones for
 * SPONGENT, the high ones for the others. With 8 all bits count. A message of no bits has no last
 * byte, and wickslate_hash takes it.
 *
 * Refusals: UNKNOWN_VARIANT (1); BAD_BIT_NUMBER (15) if `bits` is not 1 to 8 or the message is empty;
 *           TOO_LONG (4); OUTPUT_TOO_SHORT (5).
 * Writes:   the result over the front of `out`, if done. The bytes after it are unchanged. `message`
 *           is only read.
 * Stack:    21,504 bytes.
 *
 *     const uint8_t eleven_bits[2] = {0xb6, 0x03};
 *     uint8_t digest[WICKSLATE_SPONGENT_176_DIGEST_BYTES] = {0};
 *     uint32_t answer = wickslate_hash_bits(WICKSLATE_SPONGENT_176, eleven_bits, sizeof eleven_bits, 3,
 *                                           WICKSLATE_DIGEST, digest, sizeof digest);
 *     if (answer != WICKSLATE_DONE)
 *         return -1;
 */
WICKSLATE_CALL uint32_t wickslate_hash_bits(uint32_t variant, const uint8_t *message, size_t message_length,
                                            uint32_t bits, uint32_t wanted, uint8_t *out, size_t out_length);

/*
 * Runs the variant's permutation on an image. Lesamnta-LW has none.
 *
 * Refusals: UNKNOWN_VARIANT (1); NOT_SPONGE (17) for Lesamnta-LW; BAD_IMAGE (6).
 * Writes:   the whole of `image`, if done.
 * Stack:    2,240 bytes.
 *
 *     uint8_t image[WICKSLATE_SPONGENT_88_IMAGE_BYTES] = {0};
 *     if (wickslate_permute(WICKSLATE_SPONGENT_88, image, sizeof image) != WICKSLATE_DONE)
 *         return -1;
 */
WICKSLATE_CALL uint32_t wickslate_permute(uint32_t variant, uint8_t *image, size_t image_length);

/*
 * Runs the inverse of the variant's permutation on an image: it undoes wickslate_permute, and
 * wickslate_permute undoes it.
 *
 * Refusals: UNKNOWN_VARIANT (1); NOT_SPONGE (17) for Lesamnta-LW; BAD_IMAGE (6).
 * Writes:   the whole of `image`, if done.
 * Stack:    2,432 bytes.
 *
 *     uint8_t image[WICKSLATE_SPONGENT_88_IMAGE_BYTES] = {0};
 *     if (wickslate_unpermute(WICKSLATE_SPONGENT_88, image, sizeof image) != WICKSLATE_DONE)
 *         return -1;
 */
WICKSLATE_CALL uint32_t wickslate_unpermute(uint32_t variant, uint8_t *image, size_t image_length);

/*
 * The block cipher of Lesamnta-LW: enciphers `state` under `key`, in 64 rounds. It takes every key and
 * every state, so it returns nothing. It is a part of the hash function, offered as such; it is no way
 * to keep data secret.
 *
 * Refusals: none.
 * Writes:   the whole of `state`. `key` is only read.
 * Stack:    4,608 bytes.
 *
 *     const uint8_t key[WICKSLATE_LESAMNTA_LW_KEY_BYTES] = {0};
 *     uint8_t state[WICKSLATE_LESAMNTA_LW_STATE_BYTES] = {0};
 *     wickslate_lesamnta_encrypt(key, state);
 */
WICKSLATE_CALL_VOID void wickslate_lesamnta_encrypt(const uint8_t key[WICKSLATE_LESAMNTA_LW_KEY_BYTES],
                                                    uint8_t state[WICKSLATE_LESAMNTA_LW_STATE_BYTES]);

/*
 * The inverse of the block cipher under the same key: it undoes wickslate_lesamnta_encrypt, and
 * wickslate_lesamnta_encrypt undoes it.
 *
 * Refusals: none.
 * Writes:   the whole of `state`. `key` is only read.
 * Stack:    5,120 bytes.
 *
 *     const uint8_t key[WICKSLATE_LESAMNTA_LW_KEY_BYTES] = {0};
 *     uint8_t state[WICKSLATE_LESAMNTA_LW_STATE_BYTES] = {0};
 *     wickslate_lesamnta_decrypt(key, state);
 */
WICKSLATE_CALL_VOID void wickslate_lesamnta_decrypt(const uint8_t key[WICKSLATE_LESAMNTA_LW_KEY_BYTES],
                                                    uint8_t state[WICKSLATE_LESAMNTA_LW_STATE_BYTES]);

/*
 * The lost block: gives the block that has to stand at `place`, counted from 0, among the blocks of
 * the padded message, for the message to end in the state of `image`. What `message` has at that place
 * has no effect. There is never more than one such block.
 *
 * With blocks of r bits, L bytes make 8 L / r + 1 blocks, rounded down. In Lesamnta-LW they make
 * L / 16 blocks, rounded up, and one more, which has the length; only that last one can be asked for.
 *
 * Refusals: UNKNOWN_VARIANT (1); TOO_LONG (4); OUT_OF_RANGE (7) if `place` is not below the number of
 *           blocks; NOT_SPONGE (17) for Lesamnta-LW if `place` is not the last; BAD_IMAGE (6);
 *           OUTPUT_TOO_SHORT (5); NO_BLOCK (8) if no block leads to that state.
 * Writes:   the variant's block bytes over the front of `out`, if done. The bytes after them are
 *           unchanged. `message` and `image` are only read.
 * Stack:    21,504 bytes.
 *
 *     uint8_t block[WICKSLATE_MAX_BLOCK_BYTES] = {0};
 *     uint32_t answer = wickslate_recover(WICKSLATE_PHOTON_256, table, table_length, 7,
 *                                         image, WICKSLATE_PHOTON_256_IMAGE_BYTES, block, sizeof block);
 *     if (answer == WICKSLATE_NO_BLOCK)
 *         puts("more than that block is wrong");
 */
WICKSLATE_CALL uint32_t wickslate_recover(uint32_t variant, const uint8_t *message, size_t message_length,
                                          size_t place, const uint8_t *image, size_t image_length,
                                          uint8_t *out, size_t out_length);

/*
 * wickslate_recover for a message whose last byte contributes `bits` bits, 1 to 8: the low ones for
 * SPONGENT, the high ones for the others. L bytes are then B = 8 (L - 1) + `bits` bits. With blocks of
 * r bits they make B / r + 1 blocks, rounded down; in Lesamnta-LW B / 128, rounded up, and one more.
 *
 * A block holds the bits of the string from its high bit on, in every family: for SPONGENT-88 the
 * block at place 1 of 0xb6, 0x03 with the bit number 3 is 0x70: 011, the padding's 1, and zeros.
 *
 * Refusals: UNKNOWN_VARIANT (1); BAD_BIT_NUMBER (15) if `bits` is not 1 to 8 or the message is empty;
 *           TOO_LONG (4); OUT_OF_RANGE (7) if `place` is not below the number of blocks;
 *           NOT_SPONGE (17) for Lesamnta-LW if `place` is not the last; BAD_IMAGE (6);
 *           OUTPUT_TOO_SHORT (5); NO_BLOCK (8) if no block leads to that state.
 * Writes:   the variant's block bytes over the front of `out`, if done. The bytes after them are
 *           unchanged. `message` and `image` are only read.
 * Stack:    21,504 bytes.
 *
 *     uint8_t block[WICKSLATE_MAX_BLOCK_BYTES] = {0};
 *     uint32_t bits = (uint32_t)((switches - 1) % 8 + 1);
 *     uint32_t answer = wickslate_recover_bits(WICKSLATE_PHOTON_256, trace, (switches + 7) / 8, bits, 7,
 *                                              image, WICKSLATE_PHOTON_256_IMAGE_BYTES, block, sizeof block);
 *     if (answer == WICKSLATE_NO_BLOCK)
 *         puts("more than that block is wrong");
 */
WICKSLATE_CALL uint32_t wickslate_recover_bits(uint32_t variant, const uint8_t *message, size_t message_length,
                                               uint32_t bits, size_t place, const uint8_t *image,
                                               size_t image_length, uint8_t *out, size_t out_length);

/*
 * A segment list names the parts of a buffer that count. Each entry has eight bytes: an offset and a
 * length of four bytes each, the high byte first. Entries are sorted by offset and do not overlap;
 * they may touch and may have length 0.
 *
 * Reads the offset and length of entry `k`, counted from 0, as they stand. A caller goes through a
 * list with k = 0, 1, .. until the answer is OUT_OF_RANGE (7).
 *
 * Refusals: BAD_LIST (9) if the list is not whole entries, or more than 512; OUT_OF_RANGE (7) if `k`
 *           is not below the number of entries.
 * Writes:   `*offset` and `*length`, if done; otherwise both are unchanged.
 * Stack:    128 bytes.
 *
 *     uint32_t offset = 0, length = 0;
 *     for (size_t k = 0; wickslate_entry(list, list_length, k, &offset, &length) == WICKSLATE_DONE; k++)
 *         printf("%lu bytes from %lu\n", (unsigned long)length, (unsigned long)offset);
 */
WICKSLATE_CALL uint32_t wickslate_entry(const uint8_t *list, size_t list_length, size_t k,
                                        uint32_t *offset, uint32_t *length);

/*
 * Gives the offset and length of the cursor's next entry, as they stand, and moves the cursor on by
 * one. The bytes of the list are lent as long as the cursor is. After the last entry the answer is
 * OUT_OF_RANGE (7), as often as it is asked.
 *
 * Refusals: BAD_LIST (9) if the list is not whole entries, or more than 512; OUT_OF_RANGE (7) if
 *           `next` is not below the number of entries.
 * Writes:   `*offset`, `*length` and `next` of `*c`, if done; otherwise all three are unchanged.
 * Stack:    128 bytes.
 *
 *     wickslate_cursor c = {list, list_length, 0};
 *     uint32_t offset = 0, length = 0;
 *     while (wickslate_advance(&c, &offset, &length) == WICKSLATE_DONE)
 *         printf("%lu bytes from %lu\n", (unsigned long)length, (unsigned long)offset);
 */
WICKSLATE_CALL uint32_t wickslate_advance(wickslate_cursor *c, uint32_t *offset, uint32_t *length);

/*
 * Tells whether entry `k` names a segment of the buffer. If so, the segment is the bytes of `buffer`
 * that wickslate_entry names.
 *
 * Refusals: BAD_LIST (9); OUT_OF_RANGE (7); MISORDERED (10) with `k`, if the entry's offset is below
 *           the end of the entry before it (nothing else of that one is checked); PAST_END (11) with
 *           `k`, if its end is past the buffer.
 * Writes:   nothing.
 * Stack:    128 bytes.
 *
 *     if (wickslate_check_entry(list, list_length, buffer, buffer_length, 0) == WICKSLATE_DONE)
 *         puts("the first segment is sound");
 */
WICKSLATE_CALL uint32_t wickslate_check_entry(const uint8_t *list, size_t list_length,
                                              const uint8_t *buffer, size_t buffer_length, size_t k);

/*
 * Hashes a segment list and its segments: gives the digest, or the image of the end state if `wanted`
 * is not 0 (WICKSLATE_DIGEST, WICKSLATE_END_STATE). The message is the number of entries in two bytes,
 * the high byte first; the bytes of the list; and the segments in list order. For lists that are not
 * refused, equal messages mean equal lists and, entry by entry, equal segments: moving the border
 * between two touching segments always changes the message.
 *
 * Refusals: UNKNOWN_VARIANT (1); BAD_LIST (9); then entry by entry MISORDERED (10) and PAST_END (11),
 *           as above and with the number of the entry; TOO_LONG (4) if the message is too long, with
 *           its two bytes of count and the list included; OUTPUT_TOO_SHORT (5).
 * Writes:   the result over the front of `out`, if done. The bytes after it are unchanged. `list` and
 *           `buffer` are only read.
 * Stack:    21,504 bytes.
 *
 *     uint8_t image[WICKSLATE_PHOTON_144_IMAGE_BYTES] = {0};
 *     uint32_t answer = wickslate_hash_list(WICKSLATE_PHOTON_144, list, list_length, buffer, buffer_length,
 *                                           WICKSLATE_END_STATE, image, sizeof image);
 *     uint32_t number = WICKSLATE_NUMBER(answer);
 *     if (number == WICKSLATE_MISORDERED || number == WICKSLATE_PAST_END)
 *         printf("entry %lu is wrong\n", (unsigned long)WICKSLATE_ENTRY(answer));
 */
WICKSLATE_CALL uint32_t wickslate_hash_list(uint32_t variant, const uint8_t *list, size_t list_length,
                                            const uint8_t *buffer, size_t buffer_length, uint32_t wanted,
                                            uint8_t *out, size_t out_length);

/*
 * A manifest says which table each axis of an installation should hold. Each record has 35 bytes: an
 * axis number of two bytes, the high byte first; a variant of one; and the digest of the axis's table,
 * filled to 32 bytes with zeros. Axis numbers go up from record to record, and none comes twice, so
 * that an installation has exactly one manifest: two sound ones hold the same exactly when their bytes
 * are equal.
 *
 * Tells whether a manifest is sound. The program `report` compares tables with one that is.
 *
 * Refusals: BAD_MANIFEST (12) if it is not whole records, or more than 512; then record by record
 *           BAD_RECORD (13) if its variant is not 1 to 11 or a byte after its digest is not zero, and
 *           NOT_RISING (14) if its axis number is that of the record before it or a lower one.
 * Writes:   nothing.
 * Stack:    320 bytes.
 *
 *     if (wickslate_check_manifest(manifest, manifest_length) != WICKSLATE_DONE)
 *         return give_up();
 */
WICKSLATE_CALL uint32_t wickslate_check_manifest(const uint8_t *manifest, size_t manifest_length);

#ifdef __cplusplus
}
#endif

#undef WICKSLATE_CALL
#undef WICKSLATE_CALL_VOID

#endif
