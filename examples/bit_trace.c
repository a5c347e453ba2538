/*
 * Hashes a trace of limit switches, which is a string of bits and may end
 * inside a byte, in pieces, with a PHOTON and with a SPONGENT, and keeps its
 * end states. Then the last switch is changed, which shows in both.
 *
 *     bit_trace FILE
 *
 * The file has a character 0 or 1 for each switch. Other characters, such as
 * line ends, are skipped.
 *
 * That one changed switch always shows in the end state is proved: a bit lies
 * in one block.
 *
 * Exit status: 0; 1 the file cannot be read or is refused; 2 wrong arguments.
 */
#include <stdio.h>
#include <string.h>

#include "wickslate.h"

enum {
    PIECE_BYTES = 8,
    MAX_BYTES = 4096 /* of a trace, for this program */
};

/* Each byte has eight switches, the first of them in its high bit. */
struct trace {
    uint8_t bytes[MAX_BYTES];
    size_t bits;
};

static int complain(const char *what)
{
    fprintf(stderr, "bit_trace: %s\n", what);
    return 1;
}

static int refused(const char *what, uint32_t answer)
{
    fprintf(stderr, "bit_trace: %s: refused %lu\n", what, (unsigned long)WICKSLATE_NUMBER(answer));
    return 1;
}

static int read_trace(FILE *file, struct trace *trace)
{
    int c;
    while ((c = getc(file)) != EOF) {
        if (c != '0' && c != '1')
            continue;
        if (trace->bits == 8 * MAX_BYTES)
            return complain("the trace is longer than this program takes");
        if (c == '1')
            trace->bytes[trace->bits / 8] |= (uint8_t)(0x80 >> trace->bits % 8);
        trace->bits++;
    }
    if (ferror(file))
        return complain("the file cannot be read");
    return trace->bits == 0 ? complain("the file has no switch") : 0;
}

/*
 * The end state of a trace. Its last byte comes alone, with the number of bits
 * that it contributes. They lie at its high end, as PHOTON wants them; for
 * SPONGENT they are moved to the low end.
 */
static uint32_t end_state(uint32_t variant, const struct trace *trace, uint8_t *image, size_t image_bytes)
{
    size_t whole = (trace->bits - 1) / 8;
    uint32_t bits = (uint32_t)((trace->bits - 1) % 8 + 1);
    uint8_t last = trace->bytes[whole];
    wickslate_hasher h = {0};
    uint32_t answer = wickslate_start(&h, variant);
    for (size_t k = 0; answer == WICKSLATE_DONE && k < whole; k += PIECE_BYTES)
        answer = wickslate_update(&h, trace->bytes + k, whole - k < PIECE_BYTES ? whole - k : PIECE_BYTES);
    if (variant >= WICKSLATE_SPONGENT_88)
        last = (uint8_t)(last >> (8 - bits));
    if (answer == WICKSLATE_DONE)
        answer = wickslate_update_bits(&h, &last, 1, bits);
    if (answer == WICKSLATE_DONE)
        answer = wickslate_finish(&h);
    return answer == WICKSLATE_DONE ? wickslate_end_state(&h, image, image_bytes) : answer;
}

/* Keeps the end state of the trace, changes its last switch, and compares. */
static int compare(const char *name, uint32_t variant, size_t image_bytes, struct trace trace)
{
    uint8_t kept[WICKSLATE_MAX_IMAGE_BYTES] = {0}, image[WICKSLATE_MAX_IMAGE_BYTES] = {0};
    uint32_t answer = end_state(variant, &trace, kept, image_bytes);
    if (answer != WICKSLATE_DONE)
        return refused(name, answer);
    printf("%s: %lu switches, end state ", name, (unsigned long)trace.bits);
    for (size_t k = 0; k < image_bytes; k++)
        printf("%02x", (unsigned)kept[k]);
    putchar('\n');

    trace.bytes[(trace.bits - 1) / 8] ^= (uint8_t)(0x80 >> (trace.bits - 1) % 8);
    answer = end_state(variant, &trace, image, image_bytes);
    if (answer != WICKSLATE_DONE)
        return refused(name, answer);
    printf("%s: the last switch changed: %s end state\n", name,
           memcmp(image, kept, image_bytes) == 0 ? "the same" : "a different");
    return 0;
}

int main(int argc, char **argv)
{
    static struct trace trace;
    FILE *file;
    int status;
    if (argc != 2) {
        fputs("usage: bit_trace FILE\n", stderr);
        return 2;
    }
    file = fopen(argv[1], "rb");
    if (file == NULL) {
        perror(argv[1]);
        return 1;
    }
    status = read_trace(file, &trace);
    fclose(file);
    if (status == 0)
        status = compare("photon-256", WICKSLATE_PHOTON_256, WICKSLATE_PHOTON_256_IMAGE_BYTES, trace);
    if (status == 0)
        status = compare("spongent-176", WICKSLATE_SPONGENT_176, WICKSLATE_SPONGENT_176_IMAGE_BYTES, trace);
    return status;
}
