/* What the files of the program hanxin share. The program stands outside the proofs: it is C over the header and the library, and is
 * tested (program/test). */
#ifndef HANXIN_H
#define HANXIN_H

#include "han_xin.h"

#include <stdio.h>

/* Exit statuses. */
enum { DONE = 0, REFUSED = 1, FAILED = 2 };

/* Why something is refused or has failed, in words for the user. */
typedef struct {
    char text[512];
} Words;

/* Sets the words; answers 0, so that a function that fails can return it. */
int say(Words *why, const char *format, ...);

/* MODULES. A module of a square is HX_MODULE_LIGHT, HX_MODULE_DARK or HX_MODULE_UNKNOWN. An overlay has two more: data or information
 * modules that differ from the mark as written. */
enum {
    SHADE_LIGHT = HX_MODULE_LIGHT,
    SHADE_DARK = HX_MODULE_DARK,
    SHADE_UNKNOWN = HX_MODULE_UNKNOWN,
    SHADE_ADDED = 3, /* it is dark, and was written light */
    SHADE_LOST = 4,  /* it is light, and was written dark */
    SHADES = 5
};

typedef struct {
    size_t side;
    uint8_t modules[HX_SIZE_SQUARE];
} Square;

/* PICTURES, of pixels that are light, dark or unknown, as modules are. */
typedef struct {
    size_t width, height;
    uint8_t *pixels;
} Picture;

/* From which share of white on (0 to 1000) a pixel of a grey picture is light: dark below `dark`, light from `light` on, unknown
 * between. */
typedef struct {
    unsigned dark, light;
} Threshold;

/* Reads a whole picture: P1, P2, P4, P5, PNG, or what picture_write writes. Answers 0 and why if it is none. */
int picture_read(FILE *file, Threshold threshold, Picture *picture, Words *why);
void picture_free(Picture *picture);

typedef enum { FORMAT_TEXT, FORMAT_PBM, FORMAT_P4, FORMAT_SVG, FORMAT_PNG, FORMATS } Format;

extern const char *const FORMAT_NAMES[FORMATS];      /* text, pbm, p4, svg, png */
extern const char *const FORMAT_EXTENSIONS[FORMATS]; /* txt, pbm, pbm, svg, png */

typedef struct {
    Format format;
    size_t scale;  /* pixels for each module, in pbm, p4 and png */
    size_t quiet;  /* light modules on each side */
    double module; /* side of a module in mm, in svg and png */
    int colours;   /* text with colours for a terminal */
} Look;

/* Draws a square of shades. Answers 0 and why if the format cannot hold it, or if the file cannot be written. */
int picture_write(FILE *file, const Look *look, const Square *square, Words *why);

/* Whether PNG is built in. */
int png_is_there(void);

#endif
