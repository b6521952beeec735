/* Reads the SVG that picture_write writes, and no other. */
#include "picture.h"

#include <string.h>

/* A number of at most five digits. */
static int take_number(Reader *r, size_t *value)
{
    size_t start = r->at;
    int c = reader_peek(r);
    *value = 0;
    for (; c >= '0' && c <= '9' && r->at < start + 5; c = reader_peek(r)) {
        *value = 10 * *value + (size_t)(c - '0');
        r->at++;
    }
    return r->at > start;
}

/* A length in mm, which says nothing about the modules. */
static int pass_length(Reader *r)
{
    int c = reader_peek(r);
    for (; c == '.' || (c >= '0' && c <= '9'); c = reader_peek(r))
        r->at++;
    return reader_expect(r, "mm\"");
}

static int take_header(Reader *r, size_t *side)
{
    size_t height;
    reader_pass_white(r);
    return reader_expect(r, "<svg xmlns=\"http://www.w3.org/2000/svg\" width=\"") && pass_length(r)
           && reader_expect(r, " height=\"") && pass_length(r) && reader_expect(r, " viewBox=\"0 0 ") && take_number(r, side)
           && reader_expect(r, " ") && take_number(r, &height) && height == *side && reader_expect(r, "\">");
}

/* An overlay has a white background. */
static int pass_background(Reader *r)
{
    size_t width, height;
    reader_pass_white(r);
    if (!reader_expect(r, "<rect width=\""))
        return 1;
    return take_number(r, &width) && reader_expect(r, "\" height=\"") && take_number(r, &height)
           && reader_expect(r, "\" fill=\"#fff\"/>");
}

/* A run of modules of one row. */
static int take_run(Reader *r, uint8_t pixel)
{
    size_t x, y, length, back, side = r->picture->width;
    if (!reader_expect(r, "M") || !take_number(r, &x) || !reader_expect(r, " ") || !take_number(r, &y) || !reader_expect(r, "h")
        || !take_number(r, &length) || !reader_expect(r, "v1h-") || !take_number(r, &back) || !reader_expect(r, "z"))
        return 0;
    if (length != back || y >= side || x + length > side)
        return 0;
    memset(r->picture->pixels + y * side + x, pixel, length);
    return 1;
}

/* The runs of one shade. An added module is dark, and a lost one is light. */
static int take_path(Reader *r)
{
    static const uint8_t PIXELS[SHADES] = {HX_MODULE_LIGHT, HX_MODULE_DARK, HX_MODULE_UNKNOWN, HX_MODULE_DARK, HX_MODULE_LIGHT};
    unsigned shade = SHADE_DARK;
    if (!reader_expect(r, "<path fill=\""))
        return 0;
    while (shade < SHADES && !reader_expect(r, SHADE_COLOURS[shade].fill))
        shade++;
    if (shade == SHADES || !reader_expect(r, "\" d=\""))
        return 0;
    while (reader_peek(r) == 'M')
        if (!take_run(r, PIXELS[shade]))
            return 0;
    return reader_expect(r, "\"/>");
}

static int take_paths(Reader *r)
{
    reader_pass_white(r);
    while (!reader_expect(r, "</svg>")) {
        if (!take_path(r))
            return 0;
        reader_pass_white(r);
    }
    reader_pass_white(r);
    return reader_peek(r) == AT_END;
}

int svg_read(Reader *r)
{
    static const char FOREIGN[] = "an SVG file that hanxin did not write; convert it to PNG or PBM";
    size_t side;
    if (!take_header(r, &side))
        return say(r->why, "%s", FOREIGN);
    if (!reader_make(r, side, side))
        return 0;
    if (!pass_background(r) || !take_paths(r))
        return say(r->why, "%s", FOREIGN);
    return 1;
}
