/* Draws squares as text, PBM, SVG and PNG. */
#include "picture.h"

#include <errno.h>
#include <string.h>

const char *const FORMAT_NAMES[FORMATS] = {"text", "pbm", "p4", "svg", "png"};
const char *const FORMAT_EXTENSIONS[FORMATS] = {"txt", "pbm", "pbm", "svg", "png"};

const Colour SHADE_COLOURS[SHADES] = {
    {"#fff", 255, 255, 255},       {"#000", 0, 0, 0}, {"#3b6fb5", 0x3B, 0x6F, 0xB5}, {"#d62728", 0xD6, 0x27, 0x28},
    {"#ff9f1c", 0xFF, 0x9F, 0x1C},
};

unsigned shade_at(const Writer *w, size_t row, size_t column)
{
    size_t quiet = w->look->quiet, side = w->square->side;
    if (row < quiet || row >= quiet + side || column < quiet || column >= quiet + side)
        return SHADE_LIGHT;
    return w->square->modules[(row - quiet) * side + column - quiet];
}

void shades_of_row(const Writer *w, size_t row, uint8_t pixels[SIDE_MOST])
{
    size_t scale = w->look->scale, column;
    for (column = 0; column < w->side; column++)
        memset(pixels + column * scale, (int)shade_at(w, row, column), scale);
}

void bits_of_row(const Writer *w, size_t row, uint8_t bytes[SIDE_MOST])
{
    size_t width = w->side * w->look->scale, i;
    shades_of_row(w, row, bytes);
    for (i = 0; i < width; i++) { /* in place: byte i / 8 changes only when pixel i has been read */
        unsigned bit = bytes[i], before = i % 8 == 0 ? 0 : bytes[i / 8];
        bytes[i / 8] = (uint8_t)(before | bit << (7 - i % 8));
    }
}

#define BLOCK "\xE2\x96\x88" /* a dark character, and two of which one half is dark */
#define UPPER "\xE2\x96\x80"
#define LOWER "\xE2\x96\x84"
#define DARK_ON_LIGHT "\x1B[30;107m"

/* Two modules, one below the other, as one character. */
static void write_halves(const Writer *w, size_t row)
{
    static const char *const CHARACTERS[] = {" ", UPPER, LOWER, BLOCK};
    size_t column;
    for (column = 0; column < w->side; column++)
        fputs(CHARACTERS[shade_at(w, row, column) + 2 * shade_at(w, row + 1, column)], w->file);
}

/* One module as two characters. Each colour holds until the next one. */
static void write_pairs(const Writer *w, size_t row)
{
    static const char *const PAIRS[SHADES] = {"  ", BLOCK BLOCK, "??", "++", "--"};
    static const char *const COLOURS[SHADES] = {DARK_ON_LIGHT, DARK_ON_LIGHT, "\x1B[97;44m", "\x1B[97;41m", "\x1B[30;43m"};
    const char *colour = DARK_ON_LIGHT;
    size_t column;
    for (column = 0; column < w->side; column++) {
        unsigned shade = shade_at(w, row, column);
        if (w->look->colours && strcmp(colour, COLOURS[shade]) != 0)
            fputs(COLOURS[shade], w->file);
        colour = COLOURS[shade];
        fputs(PAIRS[shade], w->file);
    }
}

/* Half a character cannot show another shade than light and dark, so an overlay has one row to a line. With colours it is dark on
 * light, whatever the terminal's own are. */
static int write_text(const Writer *w)
{
    size_t row;
    for (row = 0; row < w->side; row += w->overlay ? 1 : 2) {
        fputs(w->look->colours ? DARK_ON_LIGHT : "", w->file);
        if (w->overlay)
            write_pairs(w, row);
        else
            write_halves(w, row);
        fputs(w->look->colours ? "\x1B[0m\n" : "\n", w->file);
    }
    return 1;
}

/* One row of pixels in each line; 2 is an unknown pixel, which no other program reads. */
static int write_plain(const Writer *w)
{
    uint8_t pixels[SIDE_MOST];
    size_t row, width = w->side * w->look->scale, i;
    fprintf(w->file, "P1\n%zu %zu\n", width, width);
    for (row = 0; row < w->side; row++) {
        shades_of_row(w, row, pixels);
        for (i = 0; i < width; i++)
            pixels[i] = (uint8_t)(pixels[i] + '0');
        for (i = 0; i < w->look->scale; i++) {
            fwrite(pixels, 1, width, w->file);
            putc('\n', w->file);
        }
    }
    return 1;
}

static int write_binary(const Writer *w)
{
    uint8_t bytes[SIDE_MOST];
    size_t row, width = w->side * w->look->scale, i;
    fprintf(w->file, "P4\n%zu %zu\n", width, width);
    for (row = 0; row < w->side; row++) {
        bits_of_row(w, row, bytes);
        for (i = 0; i < w->look->scale; i++)
            fwrite(bytes, 1, (width + 7) / 8, w->file);
    }
    return 1;
}

/* One shade, each run of its modules in a row as a rectangle. All are one path, so that no seams are seen between the rows. */
static void write_path(const Writer *w, unsigned shade)
{
    size_t row, start, end;
    fprintf(w->file, "<path fill=\"%s\" d=\"", SHADE_COLOURS[shade].fill);
    for (row = 0; row < w->side; row++)
        for (start = 0; start < w->side; start = end) {
            unsigned here = shade_at(w, row, start);
            for (end = start + 1; end < w->side && shade_at(w, row, end) == here; end++)
                ;
            if (here == shade)
                fprintf(w->file, "M%zu %zuh%zuv1h-%zuz", start, row, end - start, end - start);
        }
    fputs("\"/>\n", w->file);
}

/* A number with a point, whatever the locale has, and no more digits behind it than are needed, at most six. */
static const char *decimal(double value, char text[32])
{
    unsigned long long millionths = (unsigned long long)(value * 1e6 + 0.5);
    size_t length = (size_t)snprintf(text, 32, "%llu.%06llu", millionths / 1000000, millionths % 1000000);
    while (text[length - 1] == '0')
        text[--length] = 0;
    if (text[length - 1] == '.')
        text[--length] = 0;
    return text;
}

static int write_svg(const Writer *w)
{
    char text[32];
    unsigned shade;
    decimal((double)w->side * w->look->module, text);
    fprintf(w->file, "<svg xmlns=\"http://www.w3.org/2000/svg\" width=\"%smm\" height=\"%smm\" viewBox=\"0 0 %zu %zu\">\n", text,
            text, w->side, w->side);
    if (w->overlay)
        fprintf(w->file, "<rect width=\"%zu\" height=\"%zu\" fill=\"%s\"/>\n", w->side, w->side, SHADE_COLOURS[SHADE_LIGHT].fill);
    for (shade = SHADE_DARK; shade < SHADES; shade++)
        if (shade == SHADE_DARK || memchr(w->square->modules, (int)shade, w->square->side * w->square->side) != NULL)
            write_path(w, shade);
    fputs("</svg>\n", w->file);
    return 1;
}

/* Whether there is a square, and which shades it has. */
static int look_through(Writer *w)
{
    size_t side = w->square->side, i;
    if (side == 0 || side * side > HX_SIZE_SQUARE)
        return say(w->why, "a square of %zu modules on a side cannot be drawn", side);
    for (i = 0; i < side * side; i++) {
        if (w->square->modules[i] >= SHADES)
            return say(w->why, "a module is %u, which is no shade", (unsigned)w->square->modules[i]);
        w->overlay = w->overlay || w->square->modules[i] > SHADE_DARK;
    }
    return 1;
}

/* Whether the sizes can be drawn. Numbers are compared before they are multiplied, so that nothing overflows. */
static int check_sizes(Writer *w)
{
    const Look *look = w->look;
    size_t scale = look->format == FORMAT_TEXT || look->format == FORMAT_SVG ? 1 : look->scale;
    if (scale == 0)
        return say(w->why, "a module cannot be drawn with 0 pixels: the scale is at least 1");
    w->side = look->quiet > SIDE_MOST ? SIDE_MOST + 1 : w->square->side + 2 * look->quiet;
    if (scale > SIDE_MOST || w->side * scale > SIDE_MOST || w->side * scale * w->side * scale > PIXELS_MOST) /* as in reading */
        return say(w->why,
                   "the picture would have more than 20,000 pixels on a side, or more than 64 million in all: the scale or the "
                   "quiet zone is too large");
    if ((look->format == FORMAT_SVG || look->format == FORMAT_PNG) && !(look->module >= 1e-6 && look->module <= 1e6))
        return say(w->why, "the side of a module is %g mm: it must be 0.000001 to 1,000,000", look->module);
    return 1;
}

/* Whether the format has all the shades. */
static int check_shades(const Writer *w)
{
    size_t length = w->square->side * w->square->side;
    const char *name = FORMAT_NAMES[w->look->format];
    if (w->look->format != FORMAT_PBM && w->look->format != FORMAT_P4)
        return 1;
    if (memchr(w->square->modules, SHADE_ADDED, length) != NULL || memchr(w->square->modules, SHADE_LOST, length) != NULL)
        return say(w->why, "%s has only light and dark: draw an overlay as text, svg or png", name);
    if (w->look->format == FORMAT_P4 && w->overlay)
        return say(w->why, "%s has only light and dark: draw unknown modules as text, pbm, svg or png", name);
    return 1;
}

int picture_write(FILE *file, const Look *look, const Square *square, Words *why)
{
    static int (*const WRITERS[FORMATS])(const Writer *) = {write_text, write_plain, write_binary, write_svg, picture_write_png};
    Writer writer = {file, look, square, 0, 0, why};
    if (!look_through(&writer) || !check_sizes(&writer) || !check_shades(&writer))
        return 0;
    errno = 0;
    if (!WRITERS[look->format](&writer))
        return 0;
    if (fflush(file) != 0 || ferror(file))
        return say(why, "cannot write: %s", errno != 0 ? strerror(errno) : "unknown error");
    return 1;
}
