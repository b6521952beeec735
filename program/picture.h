/* What the files that read and write pictures share among themselves. */
#ifndef PICTURE_H
#define PICTURE_H

#include "hanxin.h"

/* The largest pictures: pixels on a side, pixels in all, and bytes of a file. */
enum { SIDE_MOST = 20000, PIXELS_MOST = 64000000, FILE_MOST = 64 * 1024 * 1024 };

/* How each shade is drawn, in SVG and in PNG. */
typedef struct {
    const char *fill;
    uint8_t red, green, blue;
} Colour;

extern const Colour SHADE_COLOURS[SHADES];

/* READING. A file in memory, how far it is read, and where the picture goes. */
typedef struct {
    const uint8_t *bytes;
    size_t length, at;
    Threshold threshold;
    Picture *picture;
    Words *why;
} Reader;

enum { AT_END = -1 };

/* The next byte, or AT_END; the reader stays where it is. */
int reader_peek(const Reader *reader);
/* Whether the text comes next; if so, it is passed. */
int reader_expect(Reader *reader, const char *text);
/* Passes white space. */
void reader_pass_white(Reader *reader);
/* Passes white space, and comments from '#' to the end of their line. */
void reader_pass_comments(Reader *reader);
/* Says that something else is wanted than what comes next. */
int reader_refuse(const Reader *reader, const char *wanted);
/* Makes a light picture, if its sizes are allowed. */
int reader_make(Reader *reader, size_t width, size_t height);
/* The pixel for a grey sample. */
uint8_t pixel_of_grey(Threshold threshold, unsigned long sample, unsigned long most);

/* One function for each form of file. The reader stands at the first byte of the form. */
int netpbm_read(Reader *reader);
int rows_read(Reader *reader);
int text_read(Reader *reader);
int svg_read(Reader *reader);
int picture_read_png(Reader *reader);

/* WRITING. */
typedef struct {
    FILE *file;
    const Look *look;
    const Square *square;
    size_t side; /* in modules, with the quiet zone */
    int overlay; /* whether there is any other shade than light and dark */
    Words *why;
} Writer;

/* The shade at a row and column of the square with its quiet zone; light below the last row. */
unsigned shade_at(const Writer *writer, size_t row, size_t column);
/* A row of modules as pixels, one byte for the shade of each. */
void shades_of_row(const Writer *writer, size_t row, uint8_t pixels[SIDE_MOST]);
/* The same with eight pixels in a byte, the first one highest. There are only light and dark. */
void bits_of_row(const Writer *writer, size_t row, uint8_t bytes[SIDE_MOST]);

int picture_write_png(const Writer *writer);

#endif
