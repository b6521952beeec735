#include "reading.h"

#include <string.h>

typedef struct {
    size_t data, information, unknown;
} Counts;

/* Makes shades of the square that was read: the data and information modules that differ from the mark as written, and unknown ones
 * apart. Patterns and leftover modules decide nothing in a reading, and stay as they are. */
static Counts compare(const Reading *r, Square *shades)
{
    static Square written;
    static uint8_t kinds[HX_SIZE_SQUARE];
    Counts counts = {0, 0, 0};
    size_t n = r->square.side * r->square.side, i;
    hx_write(r->receipt.version, r->receipt.level, r->receipt.mask, &r->script, &r->payload, written.modules, n);
    layout(r->receipt.version, kinds);
    *shades = r->square;
    for (i = 0; i < n; i++) {
        if (kinds[i] == KIND_PATTERN || kinds[i] == KIND_LEFTOVER) {
            if (shades->modules[i] == SHADE_UNKNOWN)
                shades->modules[i] = written.modules[i];
        } else if (shades->modules[i] == SHADE_UNKNOWN) {
            counts.unknown++;
        } else if (shades->modules[i] != written.modules[i]) {
            shades->modules[i] = written.modules[i] == SHADE_LIGHT ? SHADE_ADDED : SHADE_LOST;
            *(kinds[i] == KIND_DATA ? &counts.data : &counts.information) += 1;
        }
    }
    return counts;
}

/* Where the picture goes to standard output, the counts go to standard error. */
static void draw(Wish *w, const char *name, const Reading *r)
{
    static Square shades;
    Words why;
    Output output;
    Counts counts = compare(r, &shades);
    FILE *words = strcmp(name, "-") == 0 ? stderr : stdout;
    if (!output_open(&output, name, w->force, &why))
        fail("%s", why.text);
    if (!picture_write(output.file, &w->look, &shades, &why)) {
        output_drop(&output);
        fail("%s: %s", strcmp(name, "-") == 0 ? "standard output" : name, why.text);
    }
    if (!output_flush(&output, &why) || !output_keep(&output, &why))
        fail("%s", why.text);
    print_name(words, r->file);
    fprintf(words, ": data modules that differ: %zu; information modules: %zu; unknown: %zu\n", counts.data, counts.information,
            counts.unknown);
}

int verb_overlay(Wish *w)
{
    static Reading reading;
    const char *name = w->output != NULL ? w->output : "-";
    if (w->count != 1)
        fail("overlay takes one file, or - (hanxin overlay --help)");
    choose_format(w, name);
    if (w->look.format == FORMAT_PBM || w->look.format == FORMAT_P4)
        fail("an overlay has colours: its format is text, svg or png");
    read_picture(w, w->operands[0], &reading);
    if (reading.outcome == DONE) {
        draw(w, name, &reading);
    } else {
        print_failure(&reading);
    }
    return reading.outcome;
}
