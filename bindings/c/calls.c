/* Runs a call list from standard input by the functions of the archive, and prints what the program `calls`
 * (crates/test_calls) prints for it; tools/lists writes such lists, of steps of 64 bytes each.
 *
 * Each call is lent copies in memory of exactly their lengths, so that a tool that checks memory sees an access past
 * an end. After each refusal it is seen that every word, store and number is as it was (of an opening, that every word
 * of the canvas is 0), or the program ends with status 1. The words of a canvas that have no meaning yet are not 0
 * before a call, and no answer shows it. */
#include <inttypes.h>
#include <stdio.h>
#include <stdlib.h>
#include <string.h>

#include "mossbuckle.h"

enum {
    STEP = 64,
    MOST_STEPS = 65536,
    CELLS = 5 * 20000,
    LABELS = MOSSBUCKLE_LABELS_WORDS,
    SCREEN = 3 * 60000,
    SCRATCH = 32768,
    MOST_PAIRS = SCRATCH / 16,
    FIRST_SPARE = 14
};

static uint32_t cells[CELLS], labels[LABELS], screen[SCREEN];
static uint8_t scratch[SCRATCH];
static mossbuckle_canvas canvas;
static size_t cells_lent = CELLS, labels_lent = LABELS, screen_lent = SCREEN, scratch_held;

static const uint64_t SPARE = 0xA5A5A5A5A5A5A5A5u;
static const uint64_t UNSET = 0x5555555555555555u;

static void fail(const char *what)
{
    fflush(stdout);
    fprintf(stderr, "calls: %s\n", what);
    exit(1);
}

static size_t least(size_t a, size_t b) { return a < b ? a : b; }

/* ---- a step's operands, little-endian as the machine is */

static uint16_t number16(const uint8_t *bytes)
{
    uint16_t n;

    memcpy(&n, bytes, sizeof n);
    return n;
}

static uint32_t number32(const uint8_t *bytes)
{
    uint32_t n;

    memcpy(&n, bytes, sizeof n);
    return n;
}

static uint64_t number64(const uint8_t *bytes)
{
    uint64_t n;

    memcpy(&n, bytes, sizeof n);
    return n;
}

static double real(const uint8_t *bytes)
{
    double x;

    memcpy(&x, bytes, sizeof x);
    return x;
}

/* The operands w0 to w5. */
static const uint8_t *w(const uint8_t *step, int i) { return step + 16 + 8 * i; }

/* ---- memory lent to a call */

/* A copy that is not null, also of no bytes. */
static void *copied(const void *bytes, size_t size)
{
    void *copy = malloc(size);

    if (copy == NULL) {
        perror("calls");
        exit(2);
    }
    return memcpy(copy, bytes, size);
}

static mossbuckle_context *lend(void)
{
    mossbuckle_context context;
    int i;

    for (i = FIRST_SPARE; i < MOSSBUCKLE_CANVAS_WORDS; i++)
        canvas.words[i] = SPARE;
    context.cells = copied(cells, cells_lent * sizeof *cells);
    context.cells_length = cells_lent;
    context.labels = copied(labels, labels_lent * sizeof *labels);
    context.labels_length = labels_lent;
    context.canvas = canvas;
    return copied(&context, sizeof context);
}

/* Takes back what was lent, after an answer; of a refusal, where all is to stay, nothing may have changed. */
static void take_back(mossbuckle_context *context, int stays)
{
    if (stays) {
        if (memcmp(&canvas, &context->canvas, sizeof canvas) != 0)
            fail("a refused call changed the canvas");
        if (memcmp(cells, context->cells, cells_lent * sizeof *cells) != 0)
            fail("a refused call changed the cells");
        if (memcmp(labels, context->labels, labels_lent * sizeof *labels) != 0)
            fail("a refused call changed the labels");
    }
    memcpy(cells, context->cells, cells_lent * sizeof *cells);
    memcpy(labels, context->labels, labels_lent * sizeof *labels);
    canvas = context->canvas;
    free(context->cells);
    free(context->labels);
    free(context);
}

/* Prints a refusal. */
static int is_refused(uint8_t status)
{
    if (status != MOSSBUCKLE_DONE)
        printf("refused %u\n", (unsigned)status);
    return status != MOSSBUCKLE_DONE;
}

static void done(mossbuckle_context *context, uint8_t status)
{
    take_back(context, status != MOSSBUCKLE_DONE);
    if (!is_refused(status))
        printf("done\n");
}

static void painted(mossbuckle_context *context, uint8_t status, uint64_t count)
{
    take_back(context, status != MOSSBUCKLE_DONE);
    if (!is_refused(status))
        printf("painted %" PRIu64 "\n", count);
    else if (count != UNSET)
        fail("a refused draw changed the painted number");
}

/* ---- the calls */

/* 02: a refused opening makes every word 0 and leaves the stores; an accepted one makes those without a meaning 0. */
static void open_step(const uint8_t *step)
{
    static const mossbuckle_canvas zeros;
    mossbuckle_context *context = lend();
    uint8_t status = mossbuckle_context_open(context, number16(step + 12), number16(step + 14), real(w(step, 0)),
                                             real(w(step, 1)), real(w(step, 2)), real(w(step, 3)), step[1],
                                             number32(step + 8), number32(step + 4));

    if (memcmp(context->canvas.words + FIRST_SPARE, zeros.words, sizeof zeros - FIRST_SPARE * sizeof(uint64_t)) != 0)
        fail("an opening left words without a meaning");
    if (status != MOSSBUCKLE_DONE) {
        if (memcmp(&context->canvas, &zeros, sizeof zeros) != 0)
            fail("a refused opening left words of the canvas");
        canvas = zeros;
    }
    done(context, status);
}

static void points_step(const uint8_t *step)
{
    size_t count = least(least(number32(step + 12), scratch_held / 16), MOST_PAIRS);
    double *coords = copied(scratch, count * 16);
    uint64_t n = UNSET;
    mossbuckle_context *context = lend();
    uint8_t status = mossbuckle_context_points(context, coords, 2 * count, number32(step + 4), &n);

    free(coords);
    painted(context, status, n);
}

/* 05 to 0A. */
static void draw_step(const uint8_t *step)
{
    const double a = real(w(step, 0)), b = real(w(step, 1)), c = real(w(step, 2)), d = real(w(step, 3));
    const uint32_t colour = number32(step + 4);
    uint64_t n = UNSET;
    mossbuckle_context *context;
    uint8_t status;

    if (step[0] == 0x09) {
        points_step(step);
        return;
    }
    context = lend();
    if (step[0] == 0x05)
        status = mossbuckle_context_line(context, a, b, c, d, colour, &n);
    else if (step[0] == 0x06)
        status = mossbuckle_context_filled_line(context, a, b, c, d, real(w(step, 4)), colour, &n);
    else if (step[0] == 0x07)
        status = mossbuckle_context_rectangle(context, a, b, c, d, colour, &n);
    else if (step[0] == 0x08)
        status = mossbuckle_context_circle(context, a, b, c, colour, &n);
    else
        status = mossbuckle_context_dot(context, number32(w(step, 0)), number32(w(step, 1)), colour, &n);
    painted(context, status, n);
}

/* 0D: the text is the first bytes of the scratch. A colour that is given and happens to be MOSSBUCKLE_NO_COLOUR goes
 * over as another number that is no colour. */
static void print_step(const uint8_t *step)
{
    size_t length = least(number32(step + 12), scratch_held);
    char *text = copied(scratch, length);
    uint32_t colour = number32(step + 4);
    mossbuckle_context *context = lend();
    uint8_t status;

    if (colour == MOSSBUCKLE_NO_COLOUR)
        colour--;
    status = mossbuckle_context_print(context, real(w(step, 0)), real(w(step, 1)), text, length,
                                      step[2] & 2 ? colour : MOSSBUCKLE_NO_COLOUR);
    free(text);
    done(context, status);
}

static void render_step(const uint8_t *step)
{
    uint32_t *lent = copied(screen, screen_lent * sizeof *screen);
    uint64_t n = UNSET;
    uint32_t label_cells = (uint32_t)UNSET;
    mossbuckle_context *context = lend();
    uint8_t status =
        mossbuckle_context_render(context, number16(w(step, 0)), number16(w(step, 1)), number16(w(step, 2)),
                                  number16(w(step, 3)), lent, screen_lent, &n, &label_cells);

    take_back(context, status != MOSSBUCKLE_DONE);
    if (!is_refused(status))
        printf("rendered %" PRIu64 " labels %" PRIu32 "\n", n, label_cells);
    else if (n != UNSET || label_cells != (uint32_t)UNSET || memcmp(screen, lent, screen_lent * sizeof *screen) != 0)
        fail("a refused render changed the screen or a number");
    memcpy(screen, lent, screen_lent * sizeof *screen);
    free(lent);
}

static void point_step(const uint8_t *step)
{
    uint32_t column = (uint32_t)UNSET, row = (uint32_t)UNSET;
    mossbuckle_context *context = lend();
    uint8_t status = mossbuckle_context_point(context, real(w(step, 0)), real(w(step, 1)), &column, &row);

    take_back(context, 1);
    if (status == MOSSBUCKLE_FOUND)
        printf("dot %" PRIu32 " %" PRIu32 "\n", column, row);
    else if (column != (uint32_t)UNSET || row != (uint32_t)UNSET)
        fail("column or row changed without a dot");
    else if (status == MOSSBUCKLE_NO_DOT)
        printf("none\n");
    else
        is_refused(status);
}

/* 02 to 0F. */
static void call_step(const uint8_t *step)
{
    mossbuckle_context *context;

    if (step[0] == 0x02) {
        open_step(step);
    } else if (step[0] < 0x05) {
        printf("unknown\n");
    } else if (step[0] < 0x0B) {
        draw_step(step);
    } else if (step[0] == 0x0B) {
        context = lend();
        done(context, mossbuckle_context_layer(context));
    } else if (step[0] == 0x0C) {
        context = lend();
        done(context, mossbuckle_context_marker(context, step[1], number32(step + 8)));
    } else if (step[0] == 0x0D) {
        print_step(step);
    } else if (step[0] == 0x0E) {
        render_step(step);
    } else {
        point_step(step);
    }
}

/* ---- the canvas' fields, by the places of their words, which a program has no need of */

/* In the order of step 30: columns, rows, left, right, bottom, top, marker, character, background, dirty, rendered,
 * labels, draws, painted. Of its word a field has the low bits. */
static const struct {
    int word, bits;
} FIELDS[] = {{9, 16}, {10, 16}, {0, 64}, {1, 64}, {2, 64}, {3, 64}, {11, 8},
              {5, 32}, {6, 32},  {12, 1}, {13, 1}, {7, 32}, {8, 32}, {4, 64}};

enum { FIELD_COUNT = sizeof FIELDS / sizeof *FIELDS, FIRST_BOUND = 2, LAST_BOUND = 5 };

/* 30: the whole number goes into the word. */
static void field_step(const uint8_t *step)
{
    if (step[1] < FIELD_COUNT)
        canvas.words[FIELDS[step[1]].word] = number64(w(step, 0));
    printf(step[1] < FIELD_COUNT ? "set\n" : "unknown\n");
}

static void canvas_step(void)
{
    uint64_t word;
    double bound;
    int i;

    printf("canvas");
    for (i = 0; i < FIELD_COUNT; i++) {
        word = canvas.words[FIELDS[i].word];
        if (FIRST_BOUND <= i && i <= LAST_BOUND) {
            memcpy(&bound, &word, sizeof bound);
            printf(" %016" PRIX64, bound == bound ? word : 0x7FF8000000000000u);
        } else {
            printf(" %" PRIu64, FIELDS[i].bits == 64 ? word : word & (((uint64_t)1 << FIELDS[i].bits) - 1));
        }
    }
    printf("\n");
}

/* ---- lengths, scratch and what is shown */

static void fill(uint32_t *words, size_t count, uint32_t word)
{
    size_t i;

    for (i = 0; i < count; i++)
        words[i] = word;
}

/* 01: the lent lengths; the stores filled where a is 1. */
static void lengths_step(const uint8_t *step)
{
    if (step[1] == 1) {
        fill(cells, CELLS, number32(step + 12));
        fill(labels, LABELS, number32(step + 12));
    }
    cells_lent = 5 * least(number32(w(step, 0)), CELLS / 5);
    labels_lent = LABELS / MOSSBUCKLE_MAX_LABELS * least(number32(w(step, 1)), MOSSBUCKLE_MAX_LABELS);
    screen_lent = 3 * least(number32(w(step, 3)), SCREEN / 3);
    printf("lent\n");
}

/* 21: bytes past the scratch's end are dropped. */
static void add_step(const uint8_t *step)
{
    size_t count = least(least(step[1], STEP - 8), SCRATCH - scratch_held);

    memcpy(scratch + scratch_held, step + 8, count);
    scratch_held += count;
    printf("scratch %zu\n", scratch_held);
}

static uint64_t digest(uint64_t before, const uint32_t *words, size_t count)
{
    size_t i;

    for (i = 0; i < count; i++)
        before = (before * 31 + words[i]) % 4294967291u;
    return before;
}

/* 41: a line a cell where a is 1, else a digest. */
static void screen_step(const uint8_t *step)
{
    size_t count = least(number32(step + 12), SCREEN / 3), i;

    if (step[1] != 1)
        printf("41 digest %" PRIu64 "\n", digest(0, screen, 3 * count));
    for (i = 0; step[1] == 1 && i < count; i++)
        printf("41 cell %zu %04" PRIX32 " %" PRIu32 " %" PRIu32 "\n", i, screen[3 * i], screen[3 * i + 1],
               screen[3 * i + 2]);
}

/* From 10 on. */
static void late_step(const uint8_t *step)
{
    if (step[0] == 0x20) {
        scratch_held = 0;
        printf("scratch 0\n");
    } else if (step[0] == 0x21) {
        add_step(step);
    } else if (step[0] == 0x30) {
        field_step(step);
    } else if (step[0] == 0x40) {
        canvas_step();
    } else if (step[0] == 0x42) {
        printf("stores %" PRIu64 "\n", digest(digest(0, cells, CELLS), labels, LABELS));
    } else {
        printf("unknown\n");
    }
}

static void take_step(const uint8_t *step)
{
    if (step[0] == 0x41) {
        screen_step(step);
        return;
    }
    printf("%02X ", step[0]);
    if (step[0] == 0x00)
        printf("unknown\n");
    else if (step[0] == 0x01)
        lengths_step(step);
    else if (step[0] < 0x10)
        call_step(step);
    else
        late_step(step);
}

int main(void)
{
    uint8_t step[STEP];
    long left;

    if (mossbuckle_layout() != MOSSBUCKLE_LAYOUT)
        fail("the archive and mossbuckle.h do not fit together");
    mossbuckle_blank(screen, SCREEN);
    for (left = MOST_STEPS; left > 0 && fread(step, 1, STEP, stdin) == STEP; left--)
        take_step(step);
    return 0;
}
