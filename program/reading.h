/* The reading of one picture file. */
#ifndef READING_H
#define READING_H

#include "options.h"

typedef enum { BY_NONE, BY_LIBRARY, BY_POLICY, BY_PICTURE } RefusedBy;

typedef struct {
    const char *file;
    int outcome;       /* DONE read, REFUSED, FAILED */
    RefusedBy by;      /* who refused: the library; --max-repairs; the picture has no square, or it cannot be told how it lies */
    hx_status refusal; /* of the library */
    Words words;       /* why it was refused or has failed */
    int found;         /* whether square and position are set */
    Square square;
    Position position;
    size_t unknown; /* modules */
    hx_receipt receipt;
    hx_payload payload;
    hx_script script;
} Reading;

/* Reads a file, or standard input if its name is "-". */
void read_picture(const Wish *wish, const char *file, Reading *reading);

/* A command of a script at this place, in words; answers the place behind it. */
size_t command_words(const hx_script *script, size_t at, Words *words);

/* What was read, for people: the mark, how it lies, what was repaired, payload and script. */
void print_reading(FILE *file, const Reading *reading);

/* 'refused: ..' for people, with who refused it. */
void print_refusal(FILE *file, const Reading *reading);

/* The same on standard error, with the file; or why it has failed. */
void print_failure(const Reading *reading);

/* The whole reading as one line of JSON. */
void print_json(FILE *file, const Reading *reading);

#endif
