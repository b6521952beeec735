/* The names that a run has given to files: two serials may give the same one. */
#ifndef NAMES_H
#define NAMES_H

#include <stddef.h>

typedef struct {
    char **names;
    size_t count, room;
} Names;

/* Adds a name. Answers 1; 0 if it was there; -1 if there is no memory. */
int names_add(Names *names, const char *name);

void names_free(Names *names);

#endif
