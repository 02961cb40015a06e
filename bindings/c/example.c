/* Draws a picture file of at most 80 by 24 cells, and answers questions for the dot of a point.
 *
 *     example list FILE     prints what the program layout prints for FILE
 *     example show FILE     prints what the program show prints
 *     example points FILE   prints what the program dots prints for the questions in FILE
 */
#include <inttypes.h>
#include <stdio.h>
#include <stdlib.h>
#include <string.h>

#include "mossbuckle.h"

enum { WIDEST = 80, HIGHEST = 24 };

static uint32_t cells[MOSSBUCKLE_CELLS_WORDS(WIDEST, HIGHEST)];
static uint32_t labels[MOSSBUCKLE_LABELS_WORDS];
static uint32_t screen[MOSSBUCKLE_SCREEN_WORDS(WIDEST, HIGHEST)];
/* a listing is longer than a terminal's bytes */
static uint8_t out[MOSSBUCKLE_LISTING_BYTES(WIDEST, HIGHEST)];

static void draw(const uint8_t *file, size_t length, int listing)
{
    uint16_t columns, rows;
    uint64_t painted = 0;
    uint32_t label_cells = 0;
    size_t place = 0, n;
    uint8_t refusal;

    mossbuckle_size(file, length, &columns, &rows);
    mossbuckle_blank(screen, sizeof screen / sizeof *screen);
    refusal = mossbuckle_draw(file, length, WIDEST, HIGHEST, cells, sizeof cells / sizeof *cells, labels,
                              sizeof labels / sizeof *labels, screen, sizeof screen / sizeof *screen,
                              &painted, &label_cells, &place);
    if (refusal != MOSSBUCKLE_DRAWN)
        n = mossbuckle_refusal(refusal, place, out, sizeof out);
    else if (listing)
        n = mossbuckle_listing(columns, rows, painted, screen, sizeof screen / sizeof *screen, out, sizeof out);
    else
        n = mossbuckle_terminal(columns, rows, screen, sizeof screen / sizeof *screen, out, sizeof out);
    fwrite(out, 1, n < sizeof out ? n : sizeof out, stdout);
}

/* A question has columns and rows (2 bytes each), four bounds (8-byte floats), a marker (1), x and y (8-byte
 * floats), in the machine's byte order, which is little-endian. */
static void answer(const uint8_t *question)
{
    uint16_t size[2];
    double bounds[4], point[2];
    uint32_t column = 0, row = 0;
    uint8_t status;

    memcpy(size, question, 4);
    memcpy(bounds, question + 4, 32);
    memcpy(point, question + 37, 16);
    status = mossbuckle_get_point(size[0], size[1], bounds[0], bounds[1], bounds[2], bounds[3], question[36],
                                  point[0], point[1], &column, &row);
    if (status == MOSSBUCKLE_FOUND)
        printf("dot %" PRIu32 " %" PRIu32 "\n", column, row);
    else if (status == MOSSBUCKLE_NO_DOT)
        printf("none\n");
    else
        printf("refused %u\n", (unsigned)status);
}

/* The bytes of a file, in memory that is not null for an empty one. */
static uint8_t *read_file(const char *name, size_t *length)
{
    FILE *stream = fopen(name, "rb");
    size_t room = 65537, n = 0, got;
    uint8_t *bytes = malloc(room);

    if (stream == NULL || bytes == NULL) {
        perror(name);
        exit(2);
    }
    while ((got = fread(bytes + n, 1, room - n, stream)) > 0) {
        n += got;
        if (n == room) {
            room *= 2;
            bytes = realloc(bytes, room);
            if (bytes == NULL) {
                perror(name);
                exit(2);
            }
        }
    }
    /* a read that fails is not the end of the file */
    if (ferror(stream)) {
        perror(name);
        exit(2);
    }
    fclose(stream);
    *length = n;
    return bytes;
}

int main(int count, char **words)
{
    size_t length, at;
    uint8_t *file;

    if (count != 3 || (strcmp(words[1], "list") && strcmp(words[1], "show") && strcmp(words[1], "points"))) {
        fprintf(stderr, "usage: example list|show|points FILE\n");
        return 2;
    }
    file = read_file(words[2], &length);
    if (strcmp(words[1], "points") == 0)
        for (at = 0; length - at >= 53; at += 53)
            answer(file + at);
    else
        draw(file, length, strcmp(words[1], "list") == 0);
    free(file);
    if (fflush(stdout) != 0 || ferror(stdout)) {
        perror("standard output");
        return 2;
    }
    return 0;
}
