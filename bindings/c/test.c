/* What the header says of buffers, refusals and limits, run. Each buffer ends where the next page may not be
 * touched, so a byte read or written past the end stops the program. The last line is 'N passed, M failed'. */
#define _DEFAULT_SOURCE
#include <math.h>
#include <stdio.h>
#include <stdlib.h>
#include <string.h>
#include <sys/mman.h>

#include "mossbuckle.h"

static int passed, failed;

static void expect(const char *what, int holds)
{
    if (holds) {
        passed++;
    } else {
        failed++;
        printf("failed: %s\n", what);
    }
}

/* Memory of this many bytes, each of one value, before a page that may not be touched. */
static void *fenced(size_t size, int value)
{
    size_t page = 4096, whole = (size + page - 1) / page * page;
    uint8_t *start = mmap(NULL, whole + page, PROT_READ | PROT_WRITE, MAP_PRIVATE | MAP_ANONYMOUS, -1, 0);

    if (start == MAP_FAILED || mprotect(start + whole, page, PROT_NONE) != 0) {
        perror("fenced");
        exit(2);
    }
    memset(start, value, whole);
    return start + whole - size;
}

static uint32_t *words(size_t count, int value) { return fenced(count * sizeof(uint32_t), value); }

/* document 01's example: 2 by 1, right and top 1, Dot, a line of colour FF */
static const uint8_t EXAMPLE[] = {2, 0, 1, 0, 0x1A, 0, 0, 0, 0, 0, 0, 0xF0, 0x3F, 0, 0, 0, 0, 0, 0, 0xF0, 0x3F, 2,
                                  1, 0x14, 0, 0, 0, 0, 0, 0, 0xF0, 0x3F, 0xFF, 0, 0, 0};
static const char *LISTING = "cells 2 1 painted 2\n0 0 2022 255 16777216\n1 0 2022 255 16777216\n";

static const uint8_t *file_of(const uint8_t *bytes, size_t length)
{
    return memcpy(fenced(length, 0), bytes, length);
}

/* A file drawn with memory of these lengths; every number starts as 77. */
struct outcome {
    uint8_t status;
    uint64_t painted;
    uint32_t label_cells;
    size_t place;
    uint32_t *screen;
};

static struct outcome drawn(const uint8_t *bytes, size_t length, uint16_t widest, uint16_t highest, size_t cells,
                            size_t labels, size_t screen)
{
    struct outcome o = {0, 77, 77, 77, words(screen, 0)};

    mossbuckle_blank(o.screen, screen);
    o.status = mossbuckle_draw(file_of(bytes, length), length, widest, highest, words(cells, 0xFF), cells,
                               words(labels, 0xFF), labels, o.screen, screen, &o.painted, &o.label_cells, &o.place);
    return o;
}

static int refused(struct outcome o, uint8_t number, size_t place)
{
    return o.status == number && o.place == place && o.painted == 77 && o.label_cells == 77;
}

static void test_draw(void)
{
    const size_t n = sizeof EXAMPLE;
    uint8_t other[sizeof EXAMPLE + 2];
    struct outcome o = drawn(EXAMPLE, n, 2, 1, 10, 2816, 6);

    expect("the example is drawn with memory of just its size", o.status == 0 && o.painted == 2 && o.label_cells == 0);
    expect("a place stays where nothing is refused", o.place == 77);
    expect("its first cell", o.screen[0] == 0x2022 && o.screen[1] == 255 && o.screen[2] == MOSSBUCKLE_RESET);
    o = drawn(EXAMPLE, n, 200, 100, 100000, 3000, 8);
    expect("words past the picture stay", o.status == 0 && o.screen[6] == 0 && o.screen[7] == 0);
    expect("5: cells one word short", refused(drawn(EXAMPLE, n, 2, 1, 9, 2816, 6), 5, 0));
    expect("5: labels one word short", refused(drawn(EXAMPLE, n, 2, 1, 10, 2815, 6), 5, 0));
    expect("5: no memory", refused(drawn(EXAMPLE, n, 2, 1, 0, 0, 0), 5, 0));
    o = drawn(EXAMPLE, n, 2, 1, 10, 2816, 5);
    expect("13: a screen one word short, at the file's end", refused(o, 13, n));
    expect("the screen of a refused file stays", o.screen[0] == 0x20 && o.screen[1] == MOSSBUCKLE_RESET);
    expect("1: more columns than the widest", refused(drawn(EXAMPLE, n, 1, 1, 10, 2816, 6), 1, 0));
    expect("1: more rows than the highest", refused(drawn(EXAMPLE, n, 2, 0, 10, 2816, 6), 1, 0));
    expect("14: an empty file", refused(drawn(EXAMPLE, 0, 2, 1, 10, 2816, 6), 14, 0));
    expect("14: a record cut short, at its first byte", refused(drawn(EXAMPLE, n - 1, 2, 1, 10, 2816, 6), 14, 22));
    memcpy(other, EXAMPLE, n);
    other[n] = 10;
    other[n + 1] = 0;
    o = drawn(other, n + 2, 2, 1, 10, 2816, 6);
    expect("15: an unknown kind, at its first byte", refused(o, 15, n));
    expect("17: over 65,536 bytes", refused(drawn(calloc(65537, 1), 65537, 2, 1, 10, 2816, 6), 17, 0));
}

static void test_size(void)
{
    uint16_t columns = 7, rows = 7;

    mossbuckle_size(file_of(EXAMPLE, 4), 4, &columns, &rows);
    expect("a file's size", columns == 2 && rows == 1);
    mossbuckle_size(file_of(EXAMPLE, 3), 3, &columns, &rows);
    expect("rows that the file cuts short", columns == 2 && rows == 0);
    mossbuckle_size(file_of(EXAMPLE, 0), 0, &columns, &rows);
    expect("the size of an empty file", columns == 0 && rows == 0);
}

static void test_blank(void)
{
    uint32_t *screen = words(5, 0);

    mossbuckle_blank(screen, 5);
    expect("a blank cell", screen[0] == 0x20 && screen[1] == MOSSBUCKLE_RESET && screen[2] == MOSSBUCKLE_RESET);
    expect("words left over stay", screen[3] == 0 && screen[4] == 0);
    mossbuckle_blank(words(0, 0), 0);
}

/* Whether a call that returned count left this text in out. */
static int wrote(size_t count, const uint8_t *out, const char *text)
{
    return count == strlen(text) && memcmp(out, text, count) == 0;
}

static void test_bytes(void)
{
    const size_t n = strlen(LISTING);
    const uint32_t *none = words(0, 0), *screen = drawn(EXAMPLE, sizeof EXAMPLE, 2, 1, 10, 2816, 6).screen;
    uint8_t *out = fenced(n + 2, '?');

    expect("a listing", wrote(mossbuckle_listing(2, 1, 2, screen, 6, out, n + 2), out, LISTING));
    expect("bytes past the listing stay", out[n] == '?' && out[n + 1] == '?');
    out = fenced(n - 1, '?');
    expect("a byte too few is counted", mossbuckle_listing(2, 1, 2, screen, 6, out, n - 1) == n);
    expect("and dropped", memcmp(out, LISTING, n - 1) == 0);
    expect("no byte at all", mossbuckle_listing(2, 1, 2, screen, 6, fenced(0, 0), 0) == n);
    expect("words past the screen count as 0",
           wrote(mossbuckle_listing(1, 1, 0, none, 0, out, n - 1), out, "cells 1 1 painted 0\n0 0 0000 0 0\n"));
    expect("a listing without columns",
           wrote(mossbuckle_listing(0, 65535, 5, none, 0, out, n - 1), out, "cells 0 65535 painted 5\n"));
    expect("a refusal", wrote(mossbuckle_refusal(14, 22, out, n - 1), out, "refused 14 at 22\n"));
    expect("the longest refusal", mossbuckle_refusal(255, SIZE_MAX, out, n - 1) == MOSSBUCKLE_REFUSAL_BYTES);
    expect("a terminal's bytes",
           wrote(mossbuckle_terminal(1, 1, screen, 3, out, n - 1), out, "\x1b[38;2;0;0;255m\xe2\x80\xa2\x1b[0m\n"));
}

/* The header's bounds on bytes, for words and numbers as large as can be. */
static void test_bounds(void)
{
    const size_t columns = 200, rows = 100, n = MOSSBUCKLE_SCREEN_WORDS(columns, rows);
    uint32_t *screen = words(n, 0xFF);
    size_t room = MOSSBUCKLE_LISTING_BYTES(columns, rows), i;

    expect("the listing's bound",
           mossbuckle_listing(columns, rows, UINT64_MAX, screen, n, fenced(room, 0), room) <= room);
    for (i = 0; i < n / 3; i++) {
        screen[3 * i] = 0x10FFFF;
        screen[3 * i + 1] = screen[3 * i + 2] = i % 2 ? 0xFFFFFF : 0xFEFEFE;
    }
    room = MOSSBUCKLE_TERMINAL_BYTES(columns, rows);
    expect("the terminal's bound is reached",
           mossbuckle_terminal(columns, rows, screen, n, fenced(room, 0), room) == room);
    expect("the largest size", mossbuckle_terminal(65535, 1, screen, n, fenced(9, 0), 9) > 65535);
}

/* The status of a point on document 01's canvas of 2 by 2, with another size, left bound or marker. */
static uint8_t point(uint16_t columns, double left, uint8_t marker, double x, double y, uint32_t *dot)
{
    return mossbuckle_get_point(columns, 2, left, 2, 0, 2, marker, x, y, &dot[0], &dot[1]);
}

static void test_get_point(void)
{
    uint32_t dot[2] = {77, 77};
    const double large = 1099511627776.0; /* 2^40 */

    expect("none outside the bounds", point(2, 1, 1, 0, 0, dot) == MOSSBUCKLE_NO_DOT);
    expect("none without width", point(2, 2, 1, 2, 1, dot) == MOSSBUCKLE_NO_DOT);
    expect("none at 2^40", point(2, 1, 1, large, 1, dot) == MOSSBUCKLE_NO_DOT);
    expect("2: the next float", point(2, 1, 1, nextafter(large, INFINITY), 1, dot) == 2);
    expect("2: not a number", point(2, 1, 1, nan("1234"), 1, dot) == 2);
    expect("2: infinite", point(2, 1, 1, 1, -INFINITY, dot) == 2);
    expect("5: a bound", point(2, -nan(""), 1, 1, 1, dot) == 5);
    expect("5: a size", point(201, 1, 1, 1, 1, dot) == 5);
    expect("5: a marker", point(2, 1, 9, 1, 1, dot) == 5);
    expect("column and row stay without a dot", dot[0] == 77 && dot[1] == 77);
    expect("a dot", point(2, 1, 1, 1.5, 1, dot) == MOSSBUCKLE_FOUND && dot[0] == 2 && dot[1] == 4);
    expect("Custom has one dot a cell", point(2, 1, 8, 2, 0, dot) == MOSSBUCKLE_FOUND && dot[0] == 1 && dot[1] == 1);
}

/* Opens document 01's canvas of 2 by 1 with right and top 1, Dot. */
static uint8_t open_example(mossbuckle_context *context)
{
    return mossbuckle_context_open(context, 2, 1, 0, 1, 0, 1, MOSSBUCKLE_DOT, ' ', MOSSBUCKLE_RESET);
}

/* What call lists do not reach: memory of just the size, colours that are none, a coordinate by itself. */
static void test_context(void)
{
    const size_t room = MOSSBUCKLE_STORES_WORDS(2, 1);
    const double coords[] = {0, 0, 1, 0, NAN};
    mossbuckle_context context = mossbuckle_context_in(words(room, 0xFF), room), none, less = context;
    uint64_t painted = 77;

    none = mossbuckle_context_in(words(0, 0), 0);
    less.cells_length--;
    expect("the archive's layout", mossbuckle_layout() == MOSSBUCKLE_LAYOUT);
    expect("5: a canvas that is not open", mossbuckle_context_layer(&context) == MOSSBUCKLE_REFUSED_STATE);
    expect("5: stores one word short", open_example(&less) == MOSSBUCKLE_REFUSED_STATE);
    expect("5: no memory for stores", open_example(&none) == MOSSBUCKLE_REFUSED_STATE);
    expect("an opening with stores of just its size", open_example(&context) == MOSSBUCKLE_DONE);
    expect("2: a refused line", mossbuckle_context_line(&context, 0, 0, INFINITY, 0, 255, &painted) == 2);
    expect("the painted number of a refused line stays", painted == 77);
    expect("points", mossbuckle_context_points(&context, coords, 4, 255, &painted) == 0 && painted == 2);
    expect("a last coordinate by itself is not looked at",
           mossbuckle_context_points(&context, coords, 5, 255, &painted) == 0 && painted == 2);
    expect("2: one with another before it", mossbuckle_context_points(&context, coords + 1, 4, 255, &painted) == 2);
    expect("a label without a colour", mossbuckle_context_print(&context, 0, 0, "a", 1, MOSSBUCKLE_NO_COLOUR) == 0);
    expect("3: a label's colour",
           mossbuckle_context_print(&context, 0, 0, "a", 1, MOSSBUCKLE_NO_COLOUR - 1) == MOSSBUCKLE_REFUSED_COLOUR);
}

static void test_render(void)
{
    const size_t room = MOSSBUCKLE_STORES_WORDS(2, 1), n = MOSSBUCKLE_SCREEN_WORDS(2, 1);
    mossbuckle_context context = mossbuckle_context_in(words(room, 0xFF), room);
    uint32_t *screen = words(n, 0), label_cells = 77, dot[2] = {77, 77};
    uint64_t painted = 77;
    uint8_t *out = fenced(strlen(LISTING), 0), status;

    open_example(&context);
    expect("a line", mossbuckle_context_line(&context, 0, 0, 1, 0, 255, &painted) == 0 && painted == 2);
    status = mossbuckle_context_render(&context, 2, 1, 1, 0, screen, n, &painted, &label_cells);
    expect("12: past an edge", status == MOSSBUCKLE_REFUSED_EDGE);
    status = mossbuckle_context_render(&context, 2, 1, 0, 0, screen + 1, n - 1, &painted, &label_cells);
    expect("13: a screen one word short", status == MOSSBUCKLE_REFUSED_SCREEN && screen[1] == 0 && label_cells == 77);
    mossbuckle_blank(screen, n);
    status = mossbuckle_context_render(&context, 2, 1, 0, 0, screen, n, &painted, &label_cells);
    expect("a render", status == MOSSBUCKLE_DONE && painted == 2 && label_cells == 0);
    expect("its screen is the example's",
           wrote(mossbuckle_listing(2, 1, painted, screen, n, out, strlen(LISTING)), out, LISTING));
    expect("6: a canvas that was rendered", mossbuckle_context_layer(&context) == MOSSBUCKLE_REFUSED_RENDERED);
    status = mossbuckle_context_point(&context, 1, 0, &dot[0], &dot[1]);
    expect("its dots can be asked for", status == MOSSBUCKLE_FOUND && dot[0] == 1 && dot[1] == 0);
}

/* Opens a canvas of these columns and one row in a list of words, with room for two. */
static uint8_t open_words(uint64_t *canvas, size_t count, uint16_t columns)
{
    return mossbuckle_open(canvas, count, words(10, 0), 10, words(MOSSBUCKLE_LABELS_WORDS, 0),
                           MOSSBUCKLE_LABELS_WORDS, columns, 1, 0, 1, 0, 1, MOSSBUCKLE_DOT, ' ', MOSSBUCKLE_RESET);
}

static uint8_t layer_words(uint64_t *canvas, size_t count)
{
    return mossbuckle_layer(canvas, count, words(10, 0), 10, words(MOSSBUCKLE_LABELS_WORDS, 0),
                            MOSSBUCKLE_LABELS_WORDS);
}

/* A canvas as a list of words, at the list's ends. */
static void test_words(void)
{
    const size_t n = MOSSBUCKLE_CANVAS_WORDS;
    uint64_t *canvas = fenced(8 * n, 0xFF), *few = fenced(8 * (n - 1), 0), *more = fenced(8 * (n + 1), 0xFF);
    size_t i, zeros = 0;

    expect("an opening in just enough words", open_words(canvas, n, 2) == 0 && layer_words(canvas, n) == 0);
    memcpy(few, canvas, 8 * (n - 1));
    expect("5: a word too few", layer_words(few, n - 1) == MOSSBUCKLE_REFUSED_STATE);
    expect("5: at an opening too, before its size", open_words(few, n - 1, 201) == MOSSBUCKLE_REFUSED_STATE);
    expect("too few words are not written", memcmp(few, canvas, 8 * (n - 1)) == 0);
    expect("5: no word at all", layer_words(few, 0) == MOSSBUCKLE_REFUSED_STATE);
    expect("1: an opening's size", open_words(more, n + 1, 201) == MOSSBUCKLE_REFUSED_SIZE);
    for (i = 0; i < n; i++)
        zeros += more[i] == 0;
    expect("a refused opening makes the words 0", zeros == n);
    expect("and none past them", more[n] == UINT64_MAX);
}

int main(void)
{
    test_context();
    test_render();
    test_words();
    test_size();
    test_blank();
    test_draw();
    test_bytes();
    test_bounds();
    test_get_point();
    printf("%d passed, %d failed\n", passed, failed);
    return failed != 0;
}
