#include "reading.h"

#include <errno.h>
#include <string.h>

static void refuse(Reading *r, RefusedBy by)
{
    r->outcome = REFUSED;
    r->by = by;
}

/* The pixels of the file; a file that is no picture has failed, and is not refused. */
static int load(const Wish *w, const char *name, Picture *picture, Words *why)
{
    int given = strcmp(name, "-") == 0, good;
    FILE *file = given ? stdin : fopen(name, "rb");
    if (file == NULL)
        return say(why, "cannot be read: %s", strerror(errno));
    good = picture_read(file, w->threshold, picture, why);
    if (!given)
        fclose(file);
    return good;
}

/* The library's answer for the square. */
static void read_square(const Wish *w, Reading *r)
{
    const Expected *e = &w->expected;
    size_t length = r->square.side * r->square.side;
    if (e->known)
        r->refusal = hx_read_as(r->square.modules, length, e->version, e->level, e->mask, &r->payload, &r->script, &r->receipt);
    else
        r->refusal = hx_read(r->square.modules, length, r->square.side, &r->payload, &r->script, &r->receipt);
    if (r->refusal == HX_OK)
        return;
    refuse(r, BY_LIBRARY);
    if (r->refusal == HX_REFUSED_LENGTH) /* the one way in which it comes here */
        say(&r->words, "the square has %zu x %zu modules, and version %zu has %u x %u", r->square.side, r->square.side,
            e->version, (unsigned)HX_SIDE(e->version), (unsigned)HX_SIDE(e->version));
    else
        say(&r->words, "%s", hx_refusal_words(r->refusal));
}

void read_picture(const Wish *wish, const char *file, Reading *r)
{
    Picture picture = {0, 0, NULL};
    size_t i;
    memset(r, 0, sizeof *r);
    r->file = file;
    r->outcome = FAILED;
    if (!load(wish, file, &picture, &r->words))
        return;
    r->found = square_find(&picture, &wish->expected, &r->square, &r->position, &r->words);
    picture_free(&picture);
    if (!r->found) {
        refuse(r, BY_PICTURE);
        return;
    }
    for (i = 0; i < r->square.side * r->square.side; i++)
        r->unknown += r->square.modules[i] == HX_MODULE_UNKNOWN;
    r->outcome = DONE;
    say(&r->words, "%s", hx_refusal_words(HX_OK));
    read_square(wish, r);
    if (r->outcome == DONE && r->receipt.corrected > wish->most_repairs) {
        refuse(r, BY_POLICY);
        say(&r->words, "codewords repaired: %zu, more than --max-repairs %zu", r->receipt.corrected, wish->most_repairs);
    }
}

size_t command_words(const hx_script *script, size_t at, Words *words)
{
    static const char *const modes[] = {"",           "numeric",  "text",      "bytes", "region one",
                                        "region two", "two-byte", "four-byte", "ECI"};
    const uint8_t *command = script->bytes + at;
    if (command[0] == HX_MODE_ECI) {
        say(words, "ECI, character set %lu", command[1] * 65536ul + command[2] * 256ul + command[3]);
        return at + 4;
    }
    if (command[0] == HX_MODE_FOUR_BYTE) {
        say(words, "four-byte, 4 bytes");
        return at + 1;
    }
    say(words, "%s, %lu bytes", modes[command[0] <= 8 ? command[0] : 0], command[1] * 256ul + command[2]);
    return at + 3;
}

void print_reading(FILE *file, const Reading *r)
{
    Words words;
    size_t at = 0;
    fprintf(file, "  mark        version %zu, %zu x %zu modules, level %zu, mask %zu\n", r->receipt.version, r->square.side,
            r->square.side, r->receipt.level, r->receipt.mask);
    if (r->file != NULL)
        fprintf(file, "  position    %s; pixels for a module: %zu\n", position_words(&r->position), r->position.scale);
    if (r->unknown > 0)
        fprintf(file, "  unknown     modules: %zu\n", r->unknown);
    fprintf(file, "  repaired    codewords: %zu; information modules that differed: %zu of 68\n", r->receipt.corrected,
            r->receipt.distance);
    fprintf(file, "  payload     %zu bytes: ", r->payload.length);
    print_quoted(file, r->payload.bytes, r->payload.length);
    fputs("\n", file);
    while (at < r->script.length) {
        at = command_words(&r->script, at, &words);
        fprintf(file, "  script      %s\n", words.text);
    }
}

void print_refusal(FILE *file, const Reading *r)
{
    if (r->by == BY_LIBRARY)
        fprintf(file, "refused: %zu, %s\n", r->refusal, r->words.text);
    else
        fprintf(file, "refused %s: %s\n", r->by == BY_POLICY ? "by policy" : "because of the picture", r->words.text);
}

void print_failure(const Reading *r)
{
    fputs("hanxin: ", stderr);
    print_name(stderr, r->file);
    fputs(": ", stderr);
    if (r->outcome == REFUSED)
        print_refusal(stderr, r);
    else
        fprintf(stderr, "%s\n", r->words.text);
}
