/* The records of a list of serials: its lines, or a column of a CSV file. */
#ifndef LINES_H
#define LINES_H

#include "common.h"

typedef struct {
    uint8_t *bytes; /* the whole file */
    size_t length, at;
    size_t line; /* the number of the line at which the last record began, from 1 */
    size_t next; /* that of the next one */
    int csv;
    size_t column; /* of a CSV file, from 0 */
} Lines;

/* Reads the file whole ("-" is standard input). Answers 0 and why if that fails. */
int lines_open(Lines *lines, const char *name, Words *why);

/* Makes it a CSV file: the column by its number from 1, or by its name in the first record, which is then no serial. */
int lines_column(Lines *lines, const char *column, Words *why);

/* The next record. Answers 1 and the serial; 0 at the end; -1 and why if this record has none, after which one can go on. */
int lines_next(Lines *lines, hx_payload *serial, Words *why);

void lines_close(Lines *lines);

/* How far it has come, 0 to 100. */
unsigned lines_percent(const Lines *lines);

#endif
