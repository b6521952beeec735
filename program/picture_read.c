/* Reads a file, and tells from its first bytes which form it has. */
#include "picture.h"

#include <errno.h>
#include <stdlib.h>
#include <string.h>

#define CAN_READ "PNG, PBM (P1, P4), PGM (P2, P5), rows of 0, 1 and 2, and what hanxin writes can be read"

/* Forms that are often tried and cannot be read, by their first bytes. */
static const struct {
    const char *start, *name;
} UNREADABLE[] = {
    {"P3", "a colour picture (PPM, P3)"},
    {"P6", "a colour picture (PPM, P6)"},
    {"P7", "a PAM picture (P7)"},
    {"\xFF\xD8\xFF", "a JPEG file"},
    {"GIF8", "a GIF file"},
    {"BM", "a BMP file"},
    {"II*", "a TIFF file"},
    {"MM", "a TIFF file"},
    {"RIFF", "a WebP file, or another RIFF file"},
    {"%PDF", "a PDF file"},
    {"%!PS", "a PostScript file"},
};

int reader_peek(const Reader *r) { return r->at < r->length ? r->bytes[r->at] : AT_END; }

int reader_expect(Reader *r, const char *text)
{
    size_t length = strlen(text);
    if (r->length - r->at < length || memcmp(r->bytes + r->at, text, length) != 0)
        return 0;
    r->at += length;
    return 1;
}

static int is_white(int c) { return c == ' ' || (c >= '\t' && c <= '\r'); }

void reader_pass_white(Reader *r)
{
    while (is_white(reader_peek(r)))
        r->at++;
}

void reader_pass_comments(Reader *r)
{
    reader_pass_white(r);
    while (reader_peek(r) == '#') {
        while (reader_peek(r) != AT_END && reader_peek(r) != '\n' && reader_peek(r) != '\r')
            r->at++;
        reader_pass_white(r);
    }
}

int reader_refuse(const Reader *r, const char *wanted)
{
    int c = reader_peek(r);
    size_t line = 1, i;
    for (i = 0; i < r->at; i++)
        line += r->bytes[i] == '\n';
    if (c == AT_END)
        return say(r->why, "the file is cut short: it ends where %s should be", wanted);
    if (c > ' ' && c < 127)
        return say(r->why, "'%c' where %s should be, in line %zu", c, wanted, line);
    return say(r->why, "the byte 0x%02X where %s should be, in line %zu", (unsigned)c, wanted, line);
}

int reader_make(Reader *r, size_t width, size_t height)
{
    if (width == 0 || height == 0)
        return say(r->why, "the picture has no pixels: it is %zu x %zu", width, height);
    if (width > SIDE_MOST || height > SIDE_MOST || width * height > PIXELS_MOST)
        return say(r->why,
                   "the picture is too large, %zu x %zu pixels: at most 20,000 on a side and 64 million in all can be read",
                   width, height);
    r->picture->width = width;
    r->picture->height = height;
    r->picture->pixels = calloc(width, height);
    return r->picture->pixels != NULL ? 1 : say(r->why, "not enough memory for %zu x %zu pixels", width, height);
}

uint8_t pixel_of_grey(Threshold threshold, unsigned long sample, unsigned long most)
{
    unsigned long share = sample * 1000 / most;
    if (share < threshold.dark)
        return HX_MODULE_DARK;
    return share >= threshold.light ? HX_MODULE_LIGHT : HX_MODULE_UNKNOWN;
}

/* None of the forms: says which one it is, if it is known. */
static int refuse_form(const Reader *r)
{
    Reader start = *r;
    size_t i;
    for (i = 0; i < sizeof UNREADABLE / sizeof UNREADABLE[0]; i++)
        if (reader_expect(&start, UNREADABLE[i].start))
            return say(r->why, "%s; " CAN_READ, UNREADABLE[i].name);
    return say(r->why, "not a picture; " CAN_READ);
}

/* The forms that begin with white space are told from the first byte behind it. */
static int read_form(Reader *r)
{
    Reader start = *r;
    int first;
    if (reader_expect(&start, "\x89PNG"))
        return picture_read_png(r);
    if (reader_expect(r, "\xEF\xBB\xBF") && reader_peek(r) == AT_END)
        return say(r->why, "the file is empty but for a byte order mark");
    start = *r;
    if (reader_expect(&start, "P1") || reader_expect(&start, "P2") || reader_expect(&start, "P4") || reader_expect(&start, "P5"))
        return netpbm_read(r);
    reader_pass_white(&start);
    first = reader_peek(&start);
    if (first == AT_END)
        return say(r->why, "the file has only white space");
    if (first == '#' || (first >= '0' && first <= '9'))
        return rows_read(r);
    if (first == '<')
        return svg_read(r);
    if (first == '?' || first == '+' || first == '-' || first == 0x1B || reader_expect(&start, "\xE2\x96"))
        return text_read(r);
    return refuse_form(r);
}

/* The whole stream, in memory that the caller frees. Of a file that is too long more than FILE_MOST bytes are read, so that load can
 * tell. NULL if there is not enough memory. */
static uint8_t *fetch(FILE *file, size_t *length)
{
    size_t room = 65536;
    uint8_t *bytes = malloc(room), *more = bytes;
    *length = 0;
    while (more != NULL) {
        bytes = more;
        *length += fread(bytes + *length, 1, room - *length, file);
        if (*length < room || *length > FILE_MOST)
            return bytes;
        room *= 2;
        more = realloc(bytes, room);
    }
    free(bytes);
    return NULL;
}

static uint8_t *load(FILE *file, size_t *length, Words *why)
{
    uint8_t *bytes;
    errno = 0;
    bytes = fetch(file, length);
    if (bytes == NULL)
        say(why, "not enough memory for the file");
    else if (ferror(file))
        say(why, "cannot read: %s", errno != 0 ? strerror(errno) : "unknown error");
    else if (*length > FILE_MOST)
        say(why, "the file is larger than 64 MB");
    else if (*length == 0)
        say(why, "the file is empty");
    else
        return bytes;
    free(bytes);
    return NULL;
}

int picture_read(FILE *file, Threshold threshold, Picture *picture, Words *why)
{
    Reader reader = {NULL, 0, 0, threshold, picture, why};
    uint8_t *bytes = load(file, &reader.length, why);
    int done;
    picture->width = picture->height = 0;
    picture->pixels = NULL;
    if (bytes == NULL)
        return 0;
    reader.bytes = bytes;
    done = read_form(&reader);
    free(bytes);
    if (!done)
        picture_free(picture);
    return done;
}

void picture_free(Picture *picture)
{
    free(picture->pixels);
    picture->pixels = NULL;
    picture->width = picture->height = 0;
}
