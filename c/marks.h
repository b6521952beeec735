/* What the test and the measurement of the stack share: marks of any data, and which module belongs to which codeword. */
#ifndef MARKS_H
#define MARKS_H

#include "han_xin.h"

/* A numeric, text or bytes segment as a whole script: writes the mark and answers as hx_write_square does. */
hx_status write_run(size_t version, size_t level, size_t mask, uint8_t mode, const uint8_t *payload, size_t length,
                    uint8_t *square);

/* Writes the mark whose data codewords are `data`, of which there are `room` (at least 9), whatever they say. Every mark
 * that the writer makes has data that can be read; this one need not. Answers 0 if the writer refused. */
int craft(size_t version, size_t level, size_t mask, const uint8_t *data, size_t room, uint8_t *square);

/* The data modules of a version in use, row by row: those that change with the data. Answers how many there are. */
size_t data_modules(size_t version, size_t level, size_t room, size_t *places);

/* The module that holds a bit (0 to 7, the highest first) of the codeword at a place of the stream; `total` is the version's
 * codewords. */
size_t module_of(const size_t *places, size_t total, size_t place, size_t bit);

/* Flips the modules of a codeword where `bits` has ones. */
void flip_codeword(uint8_t *square, const size_t *places, size_t total, size_t place, uint8_t bits);

/* Place n (0 to 33) of a copy of the information word in a square. */
size_t info_place(size_t side, int second, size_t n);

/* The next number of a fixed sequence, below `limit`. */
size_t next_below(uint64_t *seed, size_t limit);

#endif
