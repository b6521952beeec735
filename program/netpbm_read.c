/* Reads PBM and PGM, plain (P1, P2) and binary (P4, P5). */
#include "picture.h"

/* A number of the header, or a sample. Anything may stand behind its digits: the caller looks at it. */
static int read_number(Reader *r, const char *what, unsigned long *value)
{
    unsigned long n = 0;
    int c;
    reader_pass_comments(r);
    c = reader_peek(r);
    if (c < '0' || c > '9')
        return reader_refuse(r, what);
    for (; c >= '0' && c <= '9'; c = reader_peek(r)) {
        n = 10 * n + (unsigned long)(c - '0');
        if (n > 100000000)
            return say(r->why, "%s is a number above 100,000,000", what);
        r->at++;
    }
    *value = n;
    return 1;
}

/* Two numbers stand apart; so do 'P1' and the width. */
static int read_gap(Reader *r)
{
    int c = reader_peek(r);
    return c == AT_END || c == '#' || c == ' ' || (c >= '\t' && c <= '\r') ? 1 : reader_refuse(r, "white space");
}

/* The sizes behind the form's two letters, and the greatest sample of a grey picture. */
static int read_header(Reader *r, int grey, unsigned long *most)
{
    unsigned long width, height;
    r->at += 2;
    if (!read_gap(r) || !read_number(r, "the width", &width) || !read_gap(r) || !read_number(r, "the height", &height)
        || !read_gap(r))
        return 0;
    if (!grey)
        return reader_make(r, width, height);
    if (!read_number(r, "the greatest sample", most) || !read_gap(r))
        return 0;
    if (*most == 0 || *most > 65535)
        return say(r->why, "the greatest sample (maxval) is %lu: it must be 1 to 65535", *most);
    return reader_make(r, width, height);
}

static size_t pixel_count(const Reader *r) { return r->picture->width * r->picture->height; }

/* Digits may stand together. A 2 is an unknown pixel: hanxin's extension. */
static int read_plain_bits(Reader *r)
{
    size_t count = pixel_count(r), i;
    for (i = 0; i < count; i++) {
        int c;
        reader_pass_comments(r);
        c = reader_peek(r);
        if (c == AT_END)
            return say(r->why, "the file is cut short: it has %zu of %zu pixels", i, count);
        if (c < '0' || c > '2')
            return reader_refuse(r, "a pixel, 0, 1 or 2,");
        r->picture->pixels[i] = (uint8_t)(c - '0');
        r->at++;
    }
    return 1;
}

static int set_grey(Reader *r, size_t i, unsigned long sample, unsigned long most)
{
    if (sample > most)
        return say(r->why, "a sample of %lu, in row %zu, is above the greatest, %lu", sample, i / r->picture->width + 1, most);
    r->picture->pixels[i] = pixel_of_grey(r->threshold, sample, most);
    return 1;
}

static int read_plain_grey(Reader *r, unsigned long most)
{
    size_t count = pixel_count(r), i;
    for (i = 0; i < count; i++) {
        unsigned long sample;
        reader_pass_comments(r);
        if (reader_peek(r) == AT_END)
            return say(r->why, "the file is cut short: it has %zu of %zu pixels", i, count);
        if (!read_number(r, "a sample", &sample) || !read_gap(r) || !set_grey(r, i, sample, most))
            return 0;
    }
    return 1;
}

/* One character of white space parts the header of a binary form from its pixels. A comment may stand before it; then it is the end
 * of the comment's line. */
static int pass_to_bytes(Reader *r, size_t needed)
{
    if (reader_peek(r) == '#')
        while (reader_peek(r) != AT_END && reader_peek(r) != '\n' && reader_peek(r) != '\r')
            r->at++;
    if (reader_peek(r) != AT_END)
        r->at++;
    if (r->length - r->at < needed)
        return say(r->why, "the file is cut short: it has %zu of %zu bytes of pixels", r->length - r->at, needed);
    return 1;
}

/* Each row begins with a new byte. */
static int read_bits(Reader *r)
{
    size_t width = r->picture->width, stride = (width + 7) / 8, row, column;
    if (!pass_to_bytes(r, stride * r->picture->height))
        return 0;
    for (row = 0; row < r->picture->height; row++) {
        for (column = 0; column < width; column++)
            r->picture->pixels[row * width + column] = r->bytes[r->at + column / 8] >> (7 - column % 8) & 1;
        r->at += stride;
    }
    return 1;
}

static int read_grey(Reader *r, unsigned long most)
{
    size_t count = pixel_count(r), size = most > 255 ? 2 : 1, i;
    if (!pass_to_bytes(r, count * size))
        return 0;
    for (i = 0; i < count; i++, r->at += size) {
        unsigned long sample = r->bytes[r->at];
        if (size == 2)
            sample = sample * 256 + r->bytes[r->at + 1];
        if (!set_grey(r, i, sample, most))
            return 0;
    }
    return 1;
}

int netpbm_read(Reader *r)
{
    int form = r->bytes[r->at + 1], grey = form == '2' || form == '5', done;
    unsigned long most = 1;
    if (!read_header(r, grey, &most))
        return 0;
    if (form == '1')
        done = read_plain_bits(r);
    else if (form == '2')
        done = read_plain_grey(r, most);
    else
        done = grey ? read_grey(r, most) : read_bits(r);
    if (!done)
        return 0;
    if (form == '1' || form == '2')
        reader_pass_comments(r);
    reader_pass_white(r);
    if (reader_peek(r) != AT_END)
        return say(r->why, "something stands behind the last pixel; a file with several pictures cannot be read");
    return 1;
}
