/*
 * Keeps the end state over the heights and speeds in a file of bars, which a
 * segment list names, and not over the names of the bars. Then the file and
 * the list are changed, each in one place.
 *
 *     segment_list FILE
 *
 * Each line of the file has 24 bytes: `Bar 12, 5.80 m, 0.3 m/s`.
 *
 * What is hashed is the number of entries, the list, and the segments. So a
 * list that cuts the same bytes otherwise has a different message: this is proved,
 * and that the end state of this one differs is seen here. Of a changed byte
 * that lies in one block, as each does in this variant, it is proved too.
 *
 * Exit status: 0; 1 the file cannot be read or is refused; 2 wrong arguments.
 */
#include <stdio.h>
#include <string.h>

#include "wickslate.h"

enum {
    VARIANT = WICKSLATE_PHOTON_256,
    IMAGE_BYTES = WICKSLATE_PHOTON_256_IMAGE_BYTES,
    LINE_BYTES = 24,
    HEIGHT = 8, /* the offset of the height in a line, and its length */
    HEIGHT_BYTES = 8,
    SPEED = 16,
    SPEED_BYTES = 7,
    MAX_LINES = 100 /* of a file, for this program */
};

static int complain(const char *what)
{
    fprintf(stderr, "segment_list: %s\n", what);
    return 1;
}

static int refused(const char *what, uint32_t answer)
{
    fprintf(stderr, "segment_list: %s: refused %lu\n", what, (unsigned long)WICKSLATE_NUMBER(answer));
    return 1;
}

static void put_number(uint8_t out[4], uint32_t n)
{
    out[0] = (uint8_t)(n >> 24);
    out[1] = (uint8_t)(n >> 16);
    out[2] = (uint8_t)(n >> 8);
    out[3] = (uint8_t)n;
}

static void put_entry(uint8_t *list, size_t k, size_t offset, size_t length)
{
    put_number(list + WICKSLATE_ENTRY_BYTES * k, (uint32_t)offset);
    put_number(list + WICKSLATE_ENTRY_BYTES * k + 4, (uint32_t)length);
}

/* Two entries for each line: its height and, touching it, its speed. */
static size_t make_list(uint8_t *list, size_t lines)
{
    for (size_t line = 0; line < lines; line++) {
        put_entry(list, 2 * line, LINE_BYTES * line + HEIGHT, HEIGHT_BYTES);
        put_entry(list, 2 * line + 1, LINE_BYTES * line + SPEED, SPEED_BYTES);
    }
    return 2 * lines * WICKSLATE_ENTRY_BYTES;
}

/* The end state over a list, in one call. */
static uint32_t over_list(const uint8_t *list, size_t list_length, const uint8_t *bars, size_t length,
                          uint8_t image[IMAGE_BYTES])
{
    return wickslate_hash_list(VARIANT, list, list_length, bars, length, WICKSLATE_END_STATE, image, IMAGE_BYTES);
}

/* Takes the segments in turn. Gives the first refusal, if any. */
static uint32_t take_segments(wickslate_hasher *h, const uint8_t *list, size_t list_length,
                              const uint8_t *bars, size_t length)
{
    wickslate_cursor c = {list, list_length, 0};
    uint32_t answer = WICKSLATE_DONE;
    uint32_t offset = 0, bytes = 0;
    while (answer == WICKSLATE_DONE && wickslate_advance(&c, &offset, &bytes) == WICKSLATE_DONE) {
        answer = wickslate_check_entry(list, list_length, bars, length, c.next - 1);
        if (answer == WICKSLATE_DONE)
            answer = wickslate_update(h, bars + offset, bytes);
    }
    return answer;
}

/* The same end state from the pieces of the message: the number of entries, the list, the segments. */
static uint32_t in_pieces(const uint8_t *list, size_t list_length, const uint8_t *bars, size_t length,
                          uint8_t image[IMAGE_BYTES])
{
    size_t entries = list_length / WICKSLATE_ENTRY_BYTES;
    uint8_t count[2] = {(uint8_t)(entries >> 8), (uint8_t)entries};
    wickslate_hasher h = {0};
    uint32_t answer = wickslate_start(&h, VARIANT);
    if (answer == WICKSLATE_DONE)
        answer = wickslate_update(&h, count, sizeof count);
    if (answer == WICKSLATE_DONE)
        answer = wickslate_update(&h, list, list_length);
    if (answer == WICKSLATE_DONE)
        answer = take_segments(&h, list, list_length, bars, length);
    if (answer == WICKSLATE_DONE)
        answer = wickslate_finish(&h);
    return answer == WICKSLATE_DONE ? wickslate_end_state(&h, image, IMAGE_BYTES) : answer;
}

/* Says whether what was done gave the end state that was kept. */
static int tell(const char *what, uint32_t answer, const uint8_t image[IMAGE_BYTES], const uint8_t kept[IMAGE_BYTES])
{
    if (answer != WICKSLATE_DONE)
        return refused(what, answer);
    printf("%s: %s end state\n", what, memcmp(image, kept, IMAGE_BYTES) == 0 ? "the same" : "a different");
    return 0;
}

/* Keeps the end state of the bars, changes them and the list, and compares. */
static int compare(uint8_t *bars, size_t length)
{
    uint8_t list[2 * MAX_LINES * WICKSLATE_ENTRY_BYTES] = {0};
    uint8_t kept[IMAGE_BYTES] = {0}, image[IMAGE_BYTES] = {0};
    size_t list_length = make_list(list, length / LINE_BYTES);
    uint32_t answer = over_list(list, list_length, bars, length, kept);
    if (answer != WICKSLATE_DONE)
        return refused("list", answer);
    printf("%lu segments, end state ", (unsigned long)(list_length / WICKSLATE_ENTRY_BYTES));
    for (size_t k = 0; k < sizeof kept; k++)
        printf("%02x", (unsigned)kept[k]);
    putchar('\n');

    answer = in_pieces(list, list_length, bars, length, image);
    if (tell("in pieces", answer, image, kept) != 0)
        return 1;
    bars[4] ^= 1;
    answer = over_list(list, list_length, bars, length, image);
    if (tell("a bar's name changed", answer, image, kept) != 0)
        return 1;
    bars[HEIGHT] ^= 1;
    answer = over_list(list, list_length, bars, length, image);
    if (tell("a height changed", answer, image, kept) != 0)
        return 1;
    bars[HEIGHT] ^= 1;
    put_entry(list, 0, HEIGHT, HEIGHT_BYTES - 1);
    put_entry(list, 1, SPEED - 1, SPEED_BYTES + 1);
    answer = over_list(list, list_length, bars, length, image);
    return tell("a border moved", answer, image, kept);
}

int main(int argc, char **argv)
{
    uint8_t bars[MAX_LINES * LINE_BYTES + 1] = {0};
    size_t length;
    FILE *file;
    int failed;
    if (argc != 2) {
        fputs("usage: segment_list FILE\n", stderr);
        return 2;
    }
    file = fopen(argv[1], "rb");
    if (file == NULL) {
        perror(argv[1]);
        return 1;
    }
    length = fread(bars, 1, sizeof bars, file);
    failed = ferror(file);
    fclose(file);
    if (failed)
        return complain("the file cannot be read");
    if (length == 0 || length == sizeof bars || length % LINE_BYTES != 0)
        return complain("the file is not 1 to 100 lines of 24 bytes");
    return compare(bars, length);
}
