/* A lens on the blocking bench, whose axis the operator trims by keys.
 *
 *     bench         draws the lens in the terminal
 *     bench list    prints the listing of the screen's cells, as the program layout prints one
 *
 * Then it reads keys from standard input: + and - turn the axis by five degrees, and the lens is drawn again; q ends
 * it, and other keys do nothing. A terminal hands keys over a line at a time, unless `stty -icanon` said otherwise. */
#include <math.h>
#include <stdio.h>
#include <string.h>

#include "mossbuckle.h"

/* The screen; the lens stands on a part of it, in millimetres from its centre. */
enum { COLUMNS = 80, ROWS = 24, LENS_COLUMNS = 60, LENS_ROWS = 20, LEFT = 12, TOP = 3, FIRST_AXIS = 20, STEP = 5 };
static const double HALF_WIDTH = 45, HALF_HEIGHT = 32, RADIUS = 28, HALF_AXIS = 31;

enum { BLUE = 0x5FAFFF, RED = 0xFF5F5F, WHITE = 0xFFFFFF };

static uint32_t stores[MOSSBUCKLE_STORES_WORDS(LENS_COLUMNS, LENS_ROWS)];
static uint32_t screen[MOSSBUCKLE_SCREEN_WORDS(COLUMNS, ROWS)];
/* a listing is longer than a terminal's bytes */
static uint8_t out[MOSSBUCKLE_LISTING_BYTES(COLUMNS, ROWS)];

static const size_t STORES = sizeof stores / sizeof *stores, SCREEN = sizeof screen / sizeof *screen;

/* The blank and its centre, and the axis with its ends at (x, y) and (-x, -y) on a layer above them. */
static uint8_t draw_lens(mossbuckle_context *lens, double x, double y)
{
    uint64_t dots = 0;
    uint8_t refusal;

    if ((refusal = mossbuckle_context_circle(lens, 0, 0, RADIUS, BLUE, &dots)) != MOSSBUCKLE_DONE
        || (refusal = mossbuckle_context_line(lens, -2, 0, 2, 0, WHITE, &dots)) != MOSSBUCKLE_DONE
        || (refusal = mossbuckle_context_line(lens, 0, -2, 0, 2, WHITE, &dots)) != MOSSBUCKLE_DONE
        || (refusal = mossbuckle_context_layer(lens)) != MOSSBUCKLE_DONE)
        return refusal;
    return mossbuckle_context_line(lens, -x, -y, x, y, RED, &dots);
}

/* What the lens is, and the axis with the dot that the end at (x, y) has. */
static uint8_t print_labels(mossbuckle_context *lens, int axis, double x, double y)
{
    uint32_t column = 0, row = 0;
    char text[MOSSBUCKLE_MAX_TEXT + 1];
    uint8_t refusal;

    if ((refusal = mossbuckle_context_point(lens, x, y, &column, &row)) != MOSSBUCKLE_FOUND
        || (refusal = mossbuckle_context_print(lens, -HALF_WIDTH, HALF_HEIGHT, "R", 1, WHITE)) != MOSSBUCKLE_DONE)
        return refusal;
    snprintf(text, sizeof text, "AXIS %d DOT %lu %lu", axis, (unsigned long)column, (unsigned long)row);
    return mossbuckle_context_print(lens, -HALF_WIDTH, -HALF_HEIGHT, text, strlen(text), RED);
}

/* Draws the lens with its axis at so many degrees, on a blank screen. */
static uint8_t draw(mossbuckle_context *lens, int axis, uint64_t *painted)
{
    const double radians = axis * 3.14159265358979323846 / 180;
    const double x = HALF_AXIS * cos(radians), y = HALF_AXIS * sin(radians);
    uint32_t label_cells = 0;
    uint8_t refusal;

    if ((refusal = mossbuckle_context_open(lens, LENS_COLUMNS, LENS_ROWS, -HALF_WIDTH, HALF_WIDTH, -HALF_HEIGHT,
                                           HALF_HEIGHT, MOSSBUCKLE_BRAILLE, ' ', MOSSBUCKLE_RESET)) != MOSSBUCKLE_DONE
        || (refusal = draw_lens(lens, x, y)) != MOSSBUCKLE_DONE
        || (refusal = print_labels(lens, axis, x, y)) != MOSSBUCKLE_DONE)
        return refusal;
    mossbuckle_blank(screen, SCREEN);
    return mossbuckle_context_render(lens, COLUMNS, ROWS, LEFT, TOP, screen, SCREEN, painted, &label_cells);
}

/* Shows the lens; the answer is 0, or 1 after a refusal. */
static int show(mossbuckle_context *lens, int axis, int listing)
{
    uint64_t painted = 0;
    uint8_t refusal = draw(lens, axis, &painted);
    size_t n;

    if (refusal != MOSSBUCKLE_DONE) {
        fprintf(stderr, "bench: refused %u\n", (unsigned)refusal);
        return 1;
    }
    if (listing) {
        n = mossbuckle_listing(COLUMNS, ROWS, painted, screen, SCREEN, out, sizeof out);
    } else {
        n = mossbuckle_terminal(COLUMNS, ROWS, screen, SCREEN, out, sizeof out);
        printf("\x1b[H"); /* over the lens that stands there */
    }
    fwrite(out, 1, n, stdout);
    fflush(stdout);
    return 0;
}

int main(int count, char **words)
{
    const int listing = count == 2 && strcmp(words[1], "list") == 0;
    mossbuckle_context lens = mossbuckle_context_in(stores, STORES);
    int axis = FIRST_AXIS, key, status;

    if (count > 2 || (count == 2 && !listing)) {
        fprintf(stderr, "usage: bench [list]\n");
        return 2;
    }
    if (mossbuckle_layout() != MOSSBUCKLE_LAYOUT) {
        fprintf(stderr, "bench: the archive and mossbuckle.h do not fit together\n");
        return 2;
    }
    status = show(&lens, axis, listing);
    while (status == 0 && (key = getchar()) != EOF && key != 'q') {
        if (key != '+' && key != '-')
            continue;
        axis = (axis + (key == '+' ? STEP : 180 - STEP)) % 180;
        status = show(&lens, axis, listing);
    }
    return status;
}
