#define _POSIX_C_SOURCE 200809L /* for isatty */
#include "reading.h"

#include <ctype.h>
#include <stdlib.h>
#include <string.h>
#include <unistd.h>

/* A number of modules, or a part of the square in percent. */
static size_t count_of(const char *text, size_t length)
{
    char *end;
    unsigned long n = strtoul(text, &end, 10);
    int percent = strcmp(end, "%") == 0;
    if (!isdigit((unsigned char)text[0]) || (!percent && *end != 0) || n > (percent ? 100 : length))
        fail("FLIPS or --unknown is not a number of modules of this mark, nor a percentage: '%s'", text);
    return percent ? length * n / 100 : n;
}

/* A module that was not taken before. */
static uint8_t *take(Square *q, uint8_t *taken, uint64_t *state)
{
    size_t at;
    do {
        *state = *state * 6364136223846793005u + 1442695040888963407u;
        at = (size_t)((*state >> 33) % (q->side * q->side));
    } while (taken[at]);
    taken[at] = 1;
    return &q->modules[at];
}

/* Flips so many modules, and makes so many others unknown. */
static void scratch(Square *q, size_t flips, size_t unknown, uint64_t seed)
{
    static uint8_t taken[HX_SIZE_SQUARE];
    memset(taken, 0, sizeof taken);
    for (; flips > 0; flips--)
        *take(q, taken, &seed) ^= 1;
    for (; unknown > 0; unknown--)
        *take(q, taken, &seed) = HX_MODULE_UNKNOWN;
}

static void show(FILE *words, const Wish *w, const Square *q)
{
    Look look = w->look;
    Words why;
    look.format = FORMAT_TEXT;
    look.colours = isatty(fileno(words));
    if (!picture_write(words, &look, q, &why))
        fail("%s", why.text);
}

/* What was done to the square, above the picture of it. */
static void print_scratches(FILE *words, size_t all, size_t flips, size_t unknown)
{
    if (unknown == 0)
        fprintf(words, "with %zu of its %zu modules flipped:\n", flips, all);
    else if (flips == 0)
        fprintf(words, "with %zu of its %zu modules unknown, shown as ??:\n", unknown, all);
    else
        fprintf(words, "with %zu of its %zu modules flipped and %zu unknown, shown as ??:\n", flips, all, unknown);
}

/* The mark, before and after the scratches. */
static void damage(FILE *words, const Wish *w, Mark *mark)
{
    size_t all = mark->square.side * mark->square.side;
    size_t flips = w->count > 1 ? count_of(w->operands[1], all) : 0;
    size_t unknown = w->unknown != NULL ? count_of(w->unknown, all) : 0;
    size_t seed = w->count > 2 ? number_of(w->operands[2], "SEED", 0, 999999999) : 1;
    if (flips + unknown > all)
        fail("FLIPS and --unknown are more modules than the mark has");
    fprintf(words, "the mark for ");
    print_quoted(words, mark->payload.bytes, mark->payload.length);
    fprintf(words, ":\n");
    show(words, w, &mark->square);
    if (flips + unknown == 0)
        return;
    scratch(&mark->square, flips, unknown, seed);
    print_scratches(words, all, flips, unknown);
    show(words, w, &mark->square);
}

/* The scratched modules as a file that can be edited by hand: plain PBM with one pixel for each module and no border, 2 for unknown. */
static void save(const Wish *w, const Square *q)
{
    Look look = {FORMAT_PBM, 1, 0, 1, 0};
    Output output;
    Words why;
    if (!output_open(&output, w->written, w->force, &why))
        fail("%s", why.text);
    if (!picture_write(output.file, &look, q, &why)) {
        output_drop(&output);
        fail("%s: %s", w->written, why.text);
    }
    if (!output_flush(&output, &why) || !output_keep(&output, &why))
        fail("%s", why.text);
}

/* The square is handed over as it lies: the demonstration is of the library's reading, whichever modules are scratched. */
static int read_back(FILE *words, const Square *q)
{
    static Reading r;
    r.square = *q;
    r.refusal = hx_read(q->modules, q->side * q->side, q->side, &r.payload, &r.script, &r.receipt);
    if (r.refusal == HX_OK) {
        fprintf(words, "read:\n");
        print_reading(words, &r);
        return DONE;
    }
    r.by = BY_LIBRARY;
    say(&r.words, "%s", hx_refusal_words(r.refusal));
    print_refusal(words, &r);
    return REFUSED;
}

int verb_demo(Wish *w)
{
    static Mark mark;
    FILE *words = w->written != NULL && strcmp(w->written, "-") == 0 ? stderr : stdout;
    hx_status status;
    if (w->count == 0 || w->count > 3)
        fail("demo takes a serial, and how many modules are flipped and which if wanted (hanxin demo --help)");
    mark.payload.length = strlen(w->operands[0]);
    if (mark.payload.length <= HX_SIZE_BUFFER)
        memcpy(mark.payload.bytes, w->operands[0], mark.payload.length);
    status = mark_write(&mark, &w->choice);
    if (status != HX_OK) {
        fprintf(words, "refused: %zu, %s\n", status, hx_refusal_words(status));
        return REFUSED;
    }
    damage(words, w, &mark);
    if (w->written != NULL)
        save(w, &mark.square);
    return read_back(words, &mark.square);
}
