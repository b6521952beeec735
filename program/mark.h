/* Marks: which kind each module is, a mark for a serial, and the square of a mark in a picture. */
#ifndef MARK_H
#define MARK_H

#include "hanxin.h"

/* The kinds of modules (docs/SPECIFICATION.md 4, 6.3). */
enum { KIND_DATA, KIND_INFORMATION, KIND_PATTERN, KIND_LEFTOVER };

/* The kind of each module of a version, row by row. */
void layout(size_t version, uint8_t *kinds);

/* Place n (0 to 33) of a copy of the information word. */
size_t information_place(size_t side, int second, size_t n);

/* MASK_AUTO is for the mask that the standard's rule chooses. */
#define MASK_AUTO 4u

/* The penalty of a square by the standard's rule for choosing a mask: the mask with the least is taken. */
unsigned long penalty(const Square *square);

typedef struct {
    size_t level, mask, version; /* mask 0 to 3 or MASK_AUTO; version 1 to 84 or 0 for the smallest */
} Choice;

/* A mark, with what was written into it. */
typedef struct {
    Square square;
    hx_payload payload;
    hx_script script;
    size_t version, level, mask, bits; /* bits: how many of the data codewords' bits the script takes */
} Mark;

/* Writes a mark for the payload (payload.bytes and length are set before). Answers the library's refusal. */
hx_status mark_write(Mark *mark, const Choice *choice);

/* How a square lies in its picture: the mark, mirrored from left to right if it is, then turned clockwise by so many degrees; pixels of
 * a module; pixels left of it and above it. */
typedef struct {
    unsigned turned;
    int mirrored;
    size_t scale, left, top;
} Position;

typedef struct {
    int upright;  /* it lies upright and is not mirrored; nothing is looked for */
    int mirrored; /* it is mirrored */
    int mixed;    /* a module of pixels of both kinds is unknown, where it is else refused */
    int known;    /* version, level and mask of the mark are those below */
    size_t version, level, mask;
} Expected;

/* Finds the square of a mark in a picture and lays it upright. Answers 0 and why if there is none, or if it cannot be told how it
 * lies. Nothing is decided by reading: a mark that is turned by 180 degrees may pass the first tests of a reading. */
int square_find(const Picture *picture, const Expected *expected, Square *square, Position *position, Words *why);

/* The position in words, such as "turned 90 degrees, mirrored". */
const char *position_words(const Position *position);

#endif
