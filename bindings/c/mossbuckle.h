/* The layout canvas for C: the functions of the archive target/staticlib/libmossbuckle.a, which
 * `bindings/archive` proves and writes. It links into x86-64 Linux programs and needs only memcpy and memset.
 *
 * Each function ends and is safe for every number and every length; what it must equal is its contract in
 * crates/exports/src/. A refusal is a number of document 01 (MOSSBUCKLE_REFUSED_.. below).
 *
 * In this order: sizes, refusals, picture files and screens, the calls on a canvas (mossbuckle_context_..,
 * inline), and the functions of the archive behind these.
 *
 * What a caller owes, for every pointer:
 * - It is not null, also with length 0, and is aligned for its type.
 * - It leads to as many elements as the length says (one, where there is no length), each of which was
 *   written before; the values do not matter.
 * - What one call may write overlaps nothing else that the call is handed, and no other thread uses it
 *   meanwhile.
 * There is no state between calls: threads may call with memory of their own. mossbuckle_draw and
 * mossbuckle_circle take some 8 KB of stack, the others a few KB.
 */
#ifndef MOSSBUCKLE_H
#define MOSSBUCKLE_H

#include <stddef.h>
#include <stdint.h>

#ifdef __cplusplus
extern "C" {
#endif

/* What lent words mean has a number, which every change of it raises. A program compares it first with that
 * of the archive: where mossbuckle_layout() is another, the two do not fit together. */
#define MOSSBUCKLE_LAYOUT 1
uint32_t mossbuckle_layout(void);

/* Limits of a canvas: its size; the magnitude of every coordinate, bound, length and radius (2^40); draws and
 * dots; pairs in a list of points; labels, and the bytes of one. */
#define MOSSBUCKLE_MAX_COLUMNS 200
#define MOSSBUCKLE_MAX_ROWS 100
#define MOSSBUCKLE_MAX_NUMBER 1099511627776.0
#define MOSSBUCKLE_MAX_DRAWS 65535
#define MOSSBUCKLE_MAX_PAIRS 1000
#define MOSSBUCKLE_MAX_LABELS 64
#define MOSSBUCKLE_MAX_TEXT 40

/* Lengths, in words of 32 bits, of the memory for a picture of this size. A screen has three words a cell,
 * row by row: symbol (a Unicode scalar value), foreground, background. A colour is 0xRRGGBB or
 * MOSSBUCKLE_RESET. What cells and labels, the stores, hold is the library's own. */
#define MOSSBUCKLE_SCREEN_WORDS(columns, rows) (3 * (size_t)(columns) * (size_t)(rows))
#define MOSSBUCKLE_CELLS_WORDS(columns, rows) (5 * (size_t)(columns) * (size_t)(rows))
#define MOSSBUCKLE_LABELS_WORDS 2816
#define MOSSBUCKLE_STORES_WORDS(columns, rows) (MOSSBUCKLE_LABELS_WORDS + MOSSBUCKLE_CELLS_WORDS(columns, rows))
#define MOSSBUCKLE_RESET 16777216
#define MOSSBUCKLE_NO_COLOUR 0xFFFFFFFFu /* of a label: it keeps the colours of the cells that it stands on */

/* Markers. The character belongs to MOSSBUCKLE_CUSTOM; the others keep it and do not look at it. */
#define MOSSBUCKLE_BRAILLE 1    /* 2 by 4 dots a cell */
#define MOSSBUCKLE_DOT 2        /* one dot a cell, as are Block, Bar and Custom */
#define MOSSBUCKLE_BLOCK 3      /* sets the background too */
#define MOSSBUCKLE_BAR 4
#define MOSSBUCKLE_HALF_BLOCK 5 /* 1 by 2 dots, each with a colour of its own */
#define MOSSBUCKLE_QUADRANT 6   /* 2 by 2 */
#define MOSSBUCKLE_SEXTANT 7    /* 2 by 3 */
#define MOSSBUCKLE_CUSTOM 8     /* a character of the caller's, a Unicode scalar value */

/* The most bytes that a screen of this size has as a listing and for a terminal, whatever its words, and
 * that a refusal's line has. */
#define MOSSBUCKLE_LISTING_BYTES(columns, rows) (47 + 43 * (size_t)(columns) * (size_t)(rows))
#define MOSSBUCKLE_TERMINAL_BYTES(columns, rows) (5 * (size_t)(rows) + 42 * (size_t)(columns) * (size_t)(rows))
#define MOSSBUCKLE_REFUSAL_BYTES 36

/* What a function that can refuse answers: 0, or a refusal. A picture file meets neither 6 nor 12, and 7 takes
 * more records than a file can have; a call meets none of 14 to 17. */
#define MOSSBUCKLE_DONE 0              /* a call: not refused */
#define MOSSBUCKLE_DRAWN 0             /* mossbuckle_draw */
#define MOSSBUCKLE_FOUND 0             /* mossbuckle_point, mossbuckle_get_point: a dot */
#define MOSSBUCKLE_REFUSED_SIZE 1      /* columns or rows above the limits, or 0 */
#define MOSSBUCKLE_REFUSED_NUMBER 2    /* a number that is not finite, or above 2^40 in magnitude */
#define MOSSBUCKLE_REFUSED_COLOUR 3    /* a colour above MOSSBUCKLE_RESET */
#define MOSSBUCKLE_REFUSED_MARKER 4    /* a marker that is not 1 to 8, or a character of Custom that is no scalar value */
#define MOSSBUCKLE_REFUSED_STATE 5     /* no open canvas, one that holds a number outside the limits, or a store too short */
#define MOSSBUCKLE_REFUSED_RENDERED 6  /* the canvas was rendered, which closes it */
#define MOSSBUCKLE_REFUSED_DRAWS 7     /* 65,535 draws and dots were accepted */
#define MOSSBUCKLE_REFUSED_PAIRS 8     /* over 1,000 pairs in a list of points */
#define MOSSBUCKLE_REFUSED_OUTSIDE 9   /* a dot outside a HalfBlock grid */
#define MOSSBUCKLE_REFUSED_TEXT 10     /* a label over 40 bytes, or with a byte outside 20 to 7E */
#define MOSSBUCKLE_REFUSED_LABELS 11   /* 64 labels are held */
#define MOSSBUCKLE_REFUSED_EDGE 12     /* the canvas passes an edge of the screen */
#define MOSSBUCKLE_REFUSED_SCREEN 13   /* a screen of another length; a picture file: shorter than the picture */
#define MOSSBUCKLE_REFUSED_CUT 14      /* the file ends inside the opening or a record */
#define MOSSBUCKLE_REFUSED_KIND 15     /* an unknown kind of record */
#define MOSSBUCKLE_REFUSED_MAP 16      /* a bit map with a bit that has no field */
#define MOSSBUCKLE_REFUSED_LONG 17     /* over 65,536 bytes */
#define MOSSBUCKLE_NO_DOT 255          /* mossbuckle_point, mossbuckle_get_point: the point has none */

/* ---- picture files and screens */

/* The columns and rows that a picture file says, each 0 where the file ends before; nothing else of the
 * file is looked at. */
void mossbuckle_size(const uint8_t *file, size_t file_length, uint16_t *columns, uint16_t *rows);

/* Makes every whole cell of a screen blank: a space, with both colours MOSSBUCKLE_RESET. One or two words
 * left over at the end stay as they are. */
void mossbuckle_blank(uint32_t *screen, size_t screen_length);

/* Draws a picture file onto a screen: over what stands there, so blank it first for the picture alone.
 *
 * More columns than widest or more rows than highest are refused with 1, as are sizes above the canvas'
 * limits. cells and labels need MOSSBUCKLE_CELLS_WORDS and MOSSBUCKLE_LABELS_WORDS words, else 5; screen
 * needs MOSSBUCKLE_SCREEN_WORDS words, else 13, and words past those stay as they are. Enough for every
 * file are the lengths for widest by highest.
 *
 * Returns 0 when the picture is drawn: *painted is then the number of dots painted, and *label_cells the
 * number of cells that labels took. Otherwise returns the refusal: *place is then the place in the file of
 * the record's first byte, 0 for the opening and for 17, and the file's length for 13; the screen is as it
 * was. What is not set stays as it was. cells and labels may be changed in either case; they need no
 * preparation for the next call. */
uint8_t mossbuckle_draw(const uint8_t *file, size_t file_length, uint16_t widest, uint16_t highest,
                        uint32_t *cells, size_t cells_length, uint32_t *labels, size_t labels_length,
                        uint32_t *screen, size_t screen_length, uint64_t *painted, uint32_t *label_cells,
                        size_t *place);

/* The dot of the point (x, y) on a canvas of this size, with these bounds and this marker (1 to 8).
 *
 * Returns 0 and sets *column and *row, counted from the upper left; or leaves them as they were and returns
 * MOSSBUCKLE_NO_DOT for a point outside the bounds, or bounds without width or height; 5 for a size, a bound
 * or a marker outside the domain; 2 for a coordinate outside it. */
uint8_t mossbuckle_get_point(uint16_t columns, uint16_t rows, double left, double right, double bottom,
                             double top, uint8_t marker, double x, double y, uint32_t *column, uint32_t *row);

/* The listing of a screen, as the program `layout` prints it; painted is what mossbuckle_draw gave.
 *
 * Returns how many bytes the listing has. Those that out does not hold are dropped, so a result above
 * out_length says that something is missing; what out has past the listing stays as it was. Words past the
 * screen's end count as 0. */
size_t mossbuckle_listing(uint16_t columns, uint16_t rows, uint64_t painted, const uint32_t *screen,
                          size_t screen_length, uint8_t *out, size_t out_length);

/* The line that `layout` prints for a refusal. Returns as mossbuckle_listing does. */
size_t mossbuckle_refusal(uint8_t number, size_t place, uint8_t *out, size_t out_length);

/* A screen for a terminal, in UTF-8 and 24-bit colour, as the program `show` prints it; no control character
 * of a picture goes through. Returns as mossbuckle_listing does. */
size_t mossbuckle_terminal(uint16_t columns, uint16_t rows, const uint32_t *screen, size_t screen_length,
                           uint8_t *out, size_t out_length);

/* ---- the functions of the archive behind the calls
 *
 * What each does is said below, at mossbuckle_context_... All take a canvas as a list of words, and the stores;
 * a store more will change these functions, and none of the inline ones. A list of fewer words than
 * MOSSBUCKLE_CANVAS_WORDS meets 5 at every call, an opening before all else, and is not written; words past
 * those are not touched. */

#define MOSSBUCKLE_CANVAS_WORDS 24

uint8_t mossbuckle_open(uint64_t *canvas, size_t canvas_length, uint32_t *cells, size_t cells_length,
                        const uint32_t *labels, size_t labels_length, uint16_t columns, uint16_t rows,
                        double left, double right, double bottom, double top, uint8_t marker,
                        uint32_t character, uint32_t background);
uint8_t mossbuckle_line(uint64_t *canvas, size_t canvas_length, uint32_t *cells, size_t cells_length,
                        const uint32_t *labels, size_t labels_length, double x1, double y1, double x2,
                        double y2, uint32_t colour, uint64_t *painted);
uint8_t mossbuckle_filled_line(uint64_t *canvas, size_t canvas_length, uint32_t *cells, size_t cells_length,
                               const uint32_t *labels, size_t labels_length, double x1, double y1, double x2,
                               double y2, double fill_to_y, uint32_t colour, uint64_t *painted);
uint8_t mossbuckle_rectangle(uint64_t *canvas, size_t canvas_length, uint32_t *cells, size_t cells_length,
                             const uint32_t *labels, size_t labels_length, double x, double y, double width,
                             double height, uint32_t colour, uint64_t *painted);
uint8_t mossbuckle_circle(uint64_t *canvas, size_t canvas_length, uint32_t *cells, size_t cells_length,
                          const uint32_t *labels, size_t labels_length, double x, double y, double radius,
                          uint32_t colour, uint64_t *painted);
uint8_t mossbuckle_points(uint64_t *canvas, size_t canvas_length, uint32_t *cells, size_t cells_length,
                          const uint32_t *labels, size_t labels_length, const double *coords,
                          size_t coords_length, uint32_t colour, uint64_t *painted);
uint8_t mossbuckle_dot(uint64_t *canvas, size_t canvas_length, uint32_t *cells, size_t cells_length,
                       const uint32_t *labels, size_t labels_length, uint32_t column, uint32_t row,
                       uint32_t colour, uint64_t *painted);
uint8_t mossbuckle_layer(uint64_t *canvas, size_t canvas_length, uint32_t *cells, size_t cells_length,
                         const uint32_t *labels, size_t labels_length);
uint8_t mossbuckle_marker(uint64_t *canvas, size_t canvas_length, uint32_t *cells, size_t cells_length,
                          const uint32_t *labels, size_t labels_length, uint8_t marker, uint32_t character);
uint8_t mossbuckle_print(uint64_t *canvas, size_t canvas_length, const uint32_t *cells, size_t cells_length,
                         uint32_t *labels, size_t labels_length, double x, double y, const uint8_t *text,
                         size_t text_length, uint32_t colour);
uint8_t mossbuckle_render(uint64_t *canvas, size_t canvas_length, uint32_t *cells, size_t cells_length,
                          const uint32_t *labels, size_t labels_length, uint16_t columns, uint16_t rows,
                          uint16_t x, uint16_t y, uint32_t *screen, size_t screen_length, uint64_t *painted,
                          uint32_t *label_cells);
uint8_t mossbuckle_point(const uint64_t *canvas, size_t canvas_length, double x, double y, uint32_t *column,
                         uint32_t *row);

/* ---- the calls on a canvas
 *
 * A canvas is opened, drawn on, and rendered onto a screen, which closes it; then it may be opened again. Each
 * call answers 0 or the first refusal, in the order that is said with it, whose condition holds. A refused call
 * changes nothing, no word and no number, but for a refused opening, after which every call meets 5. The answers
 * to every list of calls, refused ones included, are those of document 01's ledger: crates/words/specs/Hosted.antt.
 *
 * 'State', in the orders: 5 if the canvas is not open, or holds a size, bound, colour, marker or count outside the
 * limits, or a store is too short for it; then 6 if it was rendered. */

/* A canvas. What its words mean is the library's own; whatever they hold, each call is safe, and answers by the
 * canvas that they mean. */
typedef struct {
    uint64_t words[MOSSBUCKLE_CANVAS_WORDS];
} mossbuckle_canvas;

/* A canvas and its stores: what a program keeps from call to call. A copy has a canvas of its own and shares the
 * stores. */
typedef struct {
    uint32_t *cells;
    size_t cells_length;
    uint32_t *labels;
    size_t labels_length;
    mossbuckle_canvas canvas;
} mossbuckle_context;

/* A context that is not open, with its stores in this memory: MOSSBUCKLE_STORES_WORDS of the largest size that
 * will be opened. With less memory the opening is refused with 5. */
static inline mossbuckle_context mossbuckle_context_in(uint32_t *stores, size_t stores_length)
{
    size_t labels = stores_length < MOSSBUCKLE_LABELS_WORDS ? stores_length : MOSSBUCKLE_LABELS_WORDS;
    mossbuckle_context context = {stores + labels, stores_length - labels, stores, labels, {{0}}};

    return context;
}

/* The arguments that every call begins with. */
#define MOSSBUCKLE_CONTEXT_LISTS(context)                                                                     \
    (context)->canvas.words, MOSSBUCKLE_CANVAS_WORDS, (context)->cells, (context)->cells_length,              \
        (context)->labels, (context)->labels_length

/* Opens a blank canvas. Refusals: 1 size; 2 a bound outside the limits; 3 the background; 4 the marker, or its
 * character; 5 a store too short. Bounds without width or height may be opened, and draw nothing. */
static inline uint8_t mossbuckle_context_open(mossbuckle_context *context, uint16_t columns, uint16_t rows,
                                              double left, double right, double bottom, double top,
                                              uint8_t marker, uint32_t character, uint32_t background)
{
    return mossbuckle_open(MOSSBUCKLE_CONTEXT_LISTS(context), columns, rows, left, right, bottom, top, marker,
                           character, background);
}

/* Draws: a line; a line with each dot's column filled to the row of fill_to_y; a rectangle's four sides; a circle.
 * Refusals: state; 2 a number outside the limits; 3 the colour; 7. On 0 *painted is the number of dots painted,
 * repeated ones too. */
static inline uint8_t mossbuckle_context_line(mossbuckle_context *context, double x1, double y1, double x2,
                                              double y2, uint32_t colour, uint64_t *painted)
{
    return mossbuckle_line(MOSSBUCKLE_CONTEXT_LISTS(context), x1, y1, x2, y2, colour, painted);
}

static inline uint8_t mossbuckle_context_filled_line(mossbuckle_context *context, double x1, double y1,
                                                     double x2, double y2, double fill_to_y, uint32_t colour,
                                                     uint64_t *painted)
{
    return mossbuckle_filled_line(MOSSBUCKLE_CONTEXT_LISTS(context), x1, y1, x2, y2, fill_to_y, colour, painted);
}

static inline uint8_t mossbuckle_context_rectangle(mossbuckle_context *context, double x, double y, double width,
                                                   double height, uint32_t colour, uint64_t *painted)
{
    return mossbuckle_rectangle(MOSSBUCKLE_CONTEXT_LISTS(context), x, y, width, height, colour, painted);
}

static inline uint8_t mossbuckle_context_circle(mossbuckle_context *context, double x, double y, double radius,
                                                uint32_t colour, uint64_t *painted)
{
    return mossbuckle_circle(MOSSBUCKLE_CONTEXT_LISTS(context), x, y, radius, colour, painted);
}

/* Draws points: x and y by turns, so a point is two of coords_length; a last coordinate by itself is not looked
 * at. Refusals: state; 2 a number outside the limits, past the thousandth pair too; 3 the colour; 7; 8. */
static inline uint8_t mossbuckle_context_points(mossbuckle_context *context, const double *coords,
                                                size_t coords_length, uint32_t colour, uint64_t *painted)
{
    return mossbuckle_points(MOSSBUCKLE_CONTEXT_LISTS(context), coords, coords_length, colour, painted);
}

/* Paints one dot of the grid, counted from the upper left. A dot past a row's end falls in a later row, and one past
 * the last cell is counted and not shown; a HalfBlock grid refuses both. Refusals: state; 3 the colour; 7; 9. */
static inline uint8_t mossbuckle_context_dot(mossbuckle_context *context, uint32_t column, uint32_t row,
                                             uint32_t colour, uint64_t *painted)
{
    return mossbuckle_dot(MOSSBUCKLE_CONTEXT_LISTS(context), column, row, colour, painted);
}

/* Saves the layer and begins a new one, which will lie over it. Refusals: state. */
static inline uint8_t mossbuckle_context_layer(mossbuckle_context *context)
{
    return mossbuckle_layer(MOSSBUCKLE_CONTEXT_LISTS(context));
}

/* Saves the layer if anything was drawn on it, and begins one with this marker. Refusals: state; 4. */
static inline uint8_t mossbuckle_context_marker(mossbuckle_context *context, uint8_t marker, uint32_t character)
{
    return mossbuckle_marker(MOSSBUCKLE_CONTEXT_LISTS(context), marker, character);
}

/* A label, which begins in the cell of the point and lies over every layer. Its colour becomes the foreground, unless
 * it is MOSSBUCKLE_NO_COLOUR. Refusals: state; 2 a coordinate outside the limits; 3 the colour; 10 the text; 11. */
static inline uint8_t mossbuckle_context_print(mossbuckle_context *context, double x, double y, const char *text,
                                               size_t text_length, uint32_t colour)
{
    return mossbuckle_print(MOSSBUCKLE_CONTEXT_LISTS(context), x, y, (const uint8_t *)text, text_length, colour);
}

/* Lays the canvas on a screen of columns by rows cells, its upper left cell at the column x and the row y, and closes
 * the canvas. The screen has exactly MOSSBUCKLE_SCREEN_WORDS(columns, rows) words. Refusals: state; 12; 13.
 * On 0 *painted is the sum of all draws and dots, and *label_cells the number of cells that labels took. */
static inline uint8_t mossbuckle_context_render(mossbuckle_context *context, uint16_t columns, uint16_t rows,
                                                uint16_t x, uint16_t y, uint32_t *screen, size_t screen_length,
                                                uint64_t *painted, uint32_t *label_cells)
{
    return mossbuckle_render(MOSSBUCKLE_CONTEXT_LISTS(context), columns, rows, x, y, screen, screen_length,
                             painted, label_cells);
}

/* The dot of a point with the marker that the canvas has now: what mossbuckle_get_point answers of its numbers. It
 * needs no store, and takes a rendered canvas too. Refusals: 5 by the canvas alone; 2 a coordinate outside the
 * limits. On 0 *column and *row are set; MOSSBUCKLE_NO_DOT where the point has none. */
static inline uint8_t mossbuckle_context_point(const mossbuckle_context *context, double x, double y,
                                               uint32_t *column, uint32_t *row)
{
    return mossbuckle_point(context->canvas.words, MOSSBUCKLE_CANVAS_WORDS, x, y, column, row);
}

#ifdef __cplusplus
}
#endif

#endif
