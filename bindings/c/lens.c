/* Draws a lens in the terminal: the blank, its axis and a label. */
#include <stdio.h>

#include "mossbuckle.h"

int main(void)
{
    static uint32_t stores[MOSSBUCKLE_STORES_WORDS(80, 24)], screen[MOSSBUCKLE_SCREEN_WORDS(80, 24)];
    static uint8_t out[MOSSBUCKLE_TERMINAL_BYTES(80, 24)];
    mossbuckle_context lens = mossbuckle_context_in(stores, MOSSBUCKLE_STORES_WORDS(80, 24));
    uint64_t painted = 0;
    uint32_t label_cells = 0;

    mossbuckle_blank(screen, MOSSBUCKLE_SCREEN_WORDS(80, 24));
    if (mossbuckle_layout() != MOSSBUCKLE_LAYOUT
        || mossbuckle_context_open(&lens, 80, 24, -50, 50, -30, 30, MOSSBUCKLE_BRAILLE, ' ', MOSSBUCKLE_RESET)
        || mossbuckle_context_circle(&lens, 0, 0, 28, 0x5FAFFF, &painted)
        || mossbuckle_context_line(&lens, -31, -11.283, 31, 11.283, 0xFF5F5F, &painted)
        || mossbuckle_context_print(&lens, -50, 30, "R  BLANK 56  AXIS 20", 20, MOSSBUCKLE_NO_COLOUR)
        || mossbuckle_context_render(&lens, 80, 24, 0, 0, screen, MOSSBUCKLE_SCREEN_WORDS(80, 24), &painted,
                                     &label_cells))
        return 1;
    fwrite(out, 1, mossbuckle_terminal(80, 24, screen, MOSSBUCKLE_SCREEN_WORDS(80, 24), out, sizeof out), stdout);
    return 0;
}
