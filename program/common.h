/* What every verb of the program uses: words for the user, numbers and names from its arguments, files that are written whole or not at
 * all. */
#ifndef COMMON_H
#define COMMON_H

#include "hanxin.h"

/* Prints 'hanxin: ' and the words on standard error, and ends the program with FAILED. */
void fail(const char *format, ...);

/* Sees that all of standard output has been written, or the program ends and says why not. */
void finish_output(void);

/* Prints a file's name, with ? for what a terminal would obey. Words have it so too. */
void print_name(FILE *file, const char *name);

/* A number between two others, or the program ends and says what it should have been. */
size_t number_of(const char *text, const char *what, size_t least, size_t most);

/* A list of numbers with one character between each two: answers whether the text is one, and no more. */
int numbers_of(const char *text, char between, size_t *numbers, size_t count);

/* Bytes in double quotes; what is no printable ASCII is escaped, so that a terminal shows it and never obeys it. */
void print_quoted(FILE *file, const uint8_t *bytes, size_t length);

/* The length of the UTF-8 character (of Unicode, in its shortest form) at the front of the bytes, or 0 if there is none. */
size_t character_at(const uint8_t *bytes, size_t length);

/* Reads a file, or standard input if its name is "-", whole into a buffer of `room` bytes. Answers 0 and why if that fails; a file
 * longer than the buffer has the length room + 1. */
int read_whole(const char *name, uint8_t *bytes, size_t room, size_t *length, Words *why);

/* A file that is being written: beside the name that it will have, so that a file of this name is always whole. */
typedef struct {
    FILE *file;
    const char *name;
    char beside[4100]; /* where it is written meanwhile; empty if straight to the name (standard output, a device) */
    int force;         /* whether a file of this name is replaced */
} Output;

/* Opens it; "-" is standard output. A file that exists is refused unless `force`. */
int output_open(Output *output, const char *name, int force, Words *why);

/* Closes what has been written so far; the file is read back from output_place. */
int output_flush(Output *output, Words *why);
const char *output_place(const Output *output);

/* Gives it its name, after output_flush; or takes it away. */
int output_keep(Output *output, Words *why);
void output_drop(Output *output);

#endif
