/* Reads rows of the digits 0, 1 and 2, and the pictures of block characters that picture_write writes. */
#include "picture.h"

#include <stdlib.h>

/* Takes one line; answers how many pixels it has, 0 if it is blank. `pixels` may be NULL, then they are only counted. */
static size_t take_row(Reader *r, uint8_t *pixels)
{
    size_t count = 0;
    int c, comment = 0;
    for (c = reader_peek(r); c != AT_END && c != '\n' && c != '\r'; c = reader_peek(r)) {
        comment = comment || c == '#';
        if (!comment && c >= '0' && c <= '2') {
            if (pixels != NULL)
                pixels[count] = (uint8_t)(c - '0');
            count++;
        } else if (!comment && c != ' ' && c != '\t') {
            break;
        }
        r->at++;
    }
    return count;
}

/* How many rows there are, and how many pixels each has. */
static int measure_rows(Reader *r, size_t *width, size_t *height)
{
    *width = *height = 0;
    while (reader_peek(r) != AT_END) {
        size_t count = take_row(r, NULL);
        int c = reader_peek(r);
        if (c != AT_END && c != '\n' && c != '\r')
            return reader_refuse(r, "a pixel, 0, 1 or 2,");
        r->at += c != AT_END;
        if (count == 0)
            continue;
        if (*height > 0 && count != *width)
            return say(r->why, "row %zu has %zu pixels, and the rows above have %zu", *height + 1, count, *width);
        *width = count;
        ++*height;
    }
    return *height > 0 ? 1 : say(r->why, "the file has only comments");
}

int rows_read(Reader *r)
{
    size_t start = r->at, width, height, row = 0;
    if (!measure_rows(r, &width, &height) || !reader_make(r, width, height))
        return 0;
    for (r->at = start; row < height; r->at++)
        row += take_row(r, r->picture->pixels + row * width) > 0;
    return 1;
}

/* The characters of a picture in text. The first four are light and dark, upper half + 2 x lower half. */
enum { BLANK, UPPER, LOWER, FULL, UNKNOWN, ADDED, LOST, LINE, OVER, WRONG };

/* Passes colours for a terminal: ESC [, numbers, m. */
static void pass_colours(Reader *r)
{
    Reader ahead = *r;
    while (reader_expect(&ahead, "\x1B[")) {
        int c = reader_peek(&ahead);
        for (; c == ';' || (c >= '0' && c <= '9'); c = reader_peek(&ahead))
            ahead.at++;
        if (!reader_expect(&ahead, "m"))
            return;
        r->at = ahead.at;
    }
}

static int take_character(Reader *r)
{
    static const struct {
        const char *text;
        int character;
    } CHARACTERS[] = {{" ", BLANK}, {"\xE2\x96\x88", FULL}, {"\xE2\x96\x80", UPPER}, {"\xE2\x96\x84", LOWER},
                      {"\n", LINE}, {"\r\n", LINE},         {"?", UNKNOWN},          {"+", ADDED},
                      {"-", LOST}};
    size_t i;
    pass_colours(r);
    if (reader_peek(r) == AT_END)
        return OVER;
    for (i = 0; i < sizeof CHARACTERS / sizeof CHARACTERS[0]; i++)
        if (reader_expect(r, CHARACTERS[i].text))
            return CHARACTERS[i].character;
    return WRONG;
}

/* The sizes in characters, and whether a module is two characters wide. An editor may have removed blanks at the ends of lines, so the
 * longest line counts; and the last line may have no end. */
typedef struct {
    size_t width, height;
    int wide;
} Layout;

static int measure_text(Reader *r, Layout *layout)
{
    size_t column = 0;
    int c = BLANK, halves = 0;
    for (; c != OVER; layout->height += c == LINE || (c == OVER && column > 0)) {
        c = take_character(r);
        if (c == WRONG)
            return reader_refuse(r, "a block, a blank or a pair of ?, + or -");
        column = c == LINE ? 0 : column + (c != OVER);
        layout->width = column > layout->width ? column : layout->width;
        halves = halves || c == UPPER || c == LOWER;
        layout->wide = layout->wide || c == UNKNOWN || c == ADDED || c == LOST;
    }
    if (layout->wide && halves)
        return say(r->why, "half blocks and pairs of ?, + or - in one picture");
    return 1;
}

/* One line, two rows of pixels. */
static void read_halves(Reader *r, size_t line)
{
    size_t width = r->picture->width;
    uint8_t *upper = r->picture->pixels + 2 * line * width, *lower = upper + width;
    int c;
    for (c = take_character(r); c != LINE && c != OVER; c = take_character(r)) {
        *upper++ = (uint8_t)(c & 1);
        *lower++ = (uint8_t)(c >> 1);
    }
}

/* One line, one row of pixels, each of them two characters. */
static int read_pairs(Reader *r, size_t line)
{
    static const uint8_t PIXELS[] = {HX_MODULE_LIGHT,   HX_MODULE_LIGHT, HX_MODULE_LIGHT, HX_MODULE_DARK,
                                     HX_MODULE_UNKNOWN, HX_MODULE_DARK,  HX_MODULE_LIGHT};
    uint8_t *pixel = r->picture->pixels + line * r->picture->width;
    int c;
    for (c = take_character(r); c != LINE && c != OVER; c = take_character(r)) {
        if (take_character(r) != c)
            return say(r->why, "two characters that should be the same are not, in line %zu", line + 1);
        *pixel++ = PIXELS[c];
    }
    return 1;
}

int text_read(Reader *r)
{
    Layout layout = {0, 0, 0};
    size_t start = r->at, line;
    if (!measure_text(r, &layout))
        return 0;
    if (!reader_make(r, layout.wide ? (layout.width + 1) / 2 : layout.width, layout.wide ? layout.height : 2 * layout.height))
        return 0;
    r->at = start;
    for (line = 0; line < layout.height; line++) {
        if (!layout.wide)
            read_halves(r, line);
        else if (!read_pairs(r, line))
            return 0;
    }
    return 1;
}
