/*
 * Hashes a file in pieces of 64 bytes and keeps its end state. Then a block of
 * the file is spoilt, which shows in its end state, and is found again from
 * the end state that was kept.
 *
 *     lost_block FILE
 *
 * The end state is kept and not the digest: that one changed block always
 * shows is proved of end states, and two of them may have the same digest.
 *
 * Exit status: 0; 1 the file cannot be read or is refused; 2 wrong arguments.
 */
#include <stdio.h>
#include <string.h>

#include "wickslate.h"

enum {
    VARIANT = WICKSLATE_PHOTON_256,
    IMAGE_BYTES = WICKSLATE_PHOTON_256_IMAGE_BYTES,
    BLOCK_BYTES = WICKSLATE_PHOTON_256_BLOCK_BYTES,
    PIECE_BYTES = 64,
    MAX_BYTES = 4096, /* of a file, for this program */
    PLACE = 12        /* the block that it spoils */
};

static int complain(const char *what)
{
    fprintf(stderr, "lost_block: %s\n", what);
    return 1;
}

static int refused(const char *what, uint32_t answer)
{
    fprintf(stderr, "lost_block: %s: refused %lu\n", what, (unsigned long)WICKSLATE_NUMBER(answer));
    return 1;
}

static void print_bytes(const char *name, const uint8_t *bytes, size_t length)
{
    printf("%s ", name);
    for (size_t k = 0; k < length; k++)
        printf("%02x", (unsigned)bytes[k]);
    putchar('\n');
}

/* Takes the file to its end, in pieces. Gives the first refusal, if any. */
static uint32_t hash_file(wickslate_hasher *h, FILE *file)
{
    uint8_t piece[PIECE_BYTES] = {0};
    uint32_t answer = wickslate_start(h, VARIANT);
    size_t got = sizeof piece;
    while (answer == WICKSLATE_DONE && got == sizeof piece) {
        got = fread(piece, 1, sizeof piece, file);
        answer = wickslate_update(h, piece, got);
    }
    return answer == WICKSLATE_DONE ? wickslate_finish(h) : answer;
}

/* Hashes the file and prints its end state, to be kept. */
static int keep_end_state(FILE *file, uint8_t kept[IMAGE_BYTES])
{
    wickslate_hasher h = {0};
    uint32_t answer = hash_file(&h, file);
    if (ferror(file))
        return complain("the file cannot be read");
    if (answer == WICKSLATE_DONE)
        answer = wickslate_end_state(&h, kept, IMAGE_BYTES);
    if (answer != WICKSLATE_DONE)
        return refused("hash", answer);
    print_bytes("end state", kept, IMAGE_BYTES);
    return 0;
}

/* Tells whether the message still ends in the state that was kept. */
static int is_kept(const uint8_t *message, size_t length, const uint8_t kept[IMAGE_BYTES])
{
    uint8_t image[IMAGE_BYTES] = {0};
    uint32_t answer = wickslate_hash(VARIANT, message, length, WICKSLATE_END_STATE, image, sizeof image);
    return answer == WICKSLATE_DONE && memcmp(image, kept, IMAGE_BYTES) == 0;
}

/* Reads the file again, spoils a block of it, and mends it. */
static int mend_block(FILE *file, const uint8_t kept[IMAGE_BYTES])
{
    static uint8_t message[MAX_BYTES + 1];
    uint8_t block[BLOCK_BYTES] = {0};
    uint8_t *spoilt = message + PLACE * BLOCK_BYTES;
    uint32_t answer;
    size_t length;
    rewind(file);
    length = fread(message, 1, sizeof message, file);
    if (ferror(file))
        return complain("the file cannot be read");
    if (length > MAX_BYTES)
        return complain("the file is longer than this program takes");
    if (length < (PLACE + 1) * BLOCK_BYTES)
        return complain("the file has no such block");

    for (size_t k = 0; k < BLOCK_BYTES; k++)
        spoilt[k] ^= 0xff;
    if (!is_kept(message, length, kept))
        printf("block %d spoilt: a different end state\n", (int)PLACE);

    answer = wickslate_recover(VARIANT, message, length, PLACE, kept, IMAGE_BYTES, block, sizeof block);
    if (answer != WICKSLATE_DONE)
        return refused("recover", answer);
    print_bytes("found", block, sizeof block);
    memcpy(spoilt, block, sizeof block);
    if (is_kept(message, length, kept))
        printf("block %d mended: the end state that was kept\n", (int)PLACE);
    return 0;
}

int main(int argc, char **argv)
{
    uint8_t kept[IMAGE_BYTES] = {0};
    FILE *file;
    int status;
    if (argc != 2) {
        fputs("usage: lost_block FILE\n", stderr);
        return 2;
    }
    file = fopen(argv[1], "rb");
    if (file == NULL) {
        perror(argv[1]);
        return 1;
    }
    status = keep_end_state(file, kept);
    if (status == 0)
        status = mend_block(file, kept);
    fclose(file);
    return status;
}
