#define _POSIX_C_SOURCE 200809L /* for isatty */
#include "reading.h"

#include <string.h>
#include <unistd.h>

/* For people: what was read and what was refused on standard output, what failed on standard error. */
static void print_words(const Wish *w, const Reading *r)
{
    Look look = w->look;
    Words why;
    if (r->outcome == FAILED) {
        print_failure(r);
        return;
    }
    print_name(stdout, r->file);
    printf(": ");
    if (r->outcome == REFUSED)
        print_refusal(stdout, r);
    else
        printf("read\n");
    if (w->show && r->found) {
        look.format = FORMAT_TEXT;
        look.colours = isatty(STDOUT_FILENO);
        if (!picture_write(stdout, &look, &r->square, &why))
            fail("%s", why.text);
    }
    if (r->outcome == DONE)
        print_reading(stdout, r);
}

/* The payload alone, for scripts; all else on standard error. */
static void print_raw(const Reading *r)
{
    if (r->outcome == DONE) {
        fwrite(r->payload.bytes, 1, r->payload.length, stdout);
        return;
    }
    print_failure(r);
}

/* Ends with the worst of all files: one that failed, then one that was refused. */
int verb_read(Wish *w)
{
    static Reading reading;
    int worst = DONE;
    size_t i;
    if (w->count == 0)
        fail("read takes one file or more, or - (hanxin read --help)");
    if (w->raw && (w->json || w->show || w->count != 1))
        fail("--raw is for one file, and without --json and --show");
    if (w->json && w->show)
        fail("--json and --show exclude each other");
    for (i = 0; i < w->count; i++) {
        read_picture(w, w->operands[i], &reading);
        if (w->json)
            print_json(stdout, &reading);
        else if (w->raw)
            print_raw(&reading);
        else
            print_words(w, &reading);
        worst = reading.outcome > worst ? reading.outcome : worst;
        if (ferror(stdout)) /* nobody listens any more */
            break;
    }
    return worst;
}
