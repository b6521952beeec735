/* The program's arguments. */
#ifndef OPTIONS_H
#define OPTIONS_H

#include "common.h"
#include "mark.h"

typedef enum { VERB_WRITE = 1, VERB_READ = 2, VERB_BATCH = 4, VERB_OVERLAY = 8, VERB_DEMO = 16 } Verb;

typedef struct {
    Verb verb;
    Choice choice; /* of a mark that is written */
    Look look;     /* of a picture that is written */
    int has_format;
    const char *output, *file; /* -o, --file */
    int exact, force;
    Expected expected; /* of a mark that is read */
    Threshold threshold;
    size_t most_repairs;
    int json, raw, show;
    const char *column, *directory, *pattern, *manifest; /* of a batch */
    const char *unknown, *written;                       /* of a demonstration */
    char **operands;
    size_t count;
    int literal; /* whether the first operand stood behind --, so that "-" is a serial */
} Wish;

/* All arguments behind the verb. Wrong ones, and --help, end the program. */
Wish wish_of(Verb verb, char **arguments);

/* The format by the option or by the extension of the name, else text; and whether it has colours for a terminal. */
void choose_format(Wish *wish, const char *name);

/* The text of --help for a verb. */
const char *help_of(Verb verb);
const char *verb_name(Verb verb);

/* The verbs. Each answers the exit status. */
int verb_write(Wish *wish);
int verb_read(Wish *wish);
int verb_batch(Wish *wish);
int verb_overlay(Wish *wish);
int verb_demo(Wish *wish);

#endif
