#include "names.h"

#include <stdint.h>
#include <stdlib.h>
#include <string.h>

/* Where a name stands, or the empty place where it would; at least half of all places are empty. */
static char **place_of(char **names, size_t room, const char *name)
{
    uint64_t sum = 14695981039346656037u;
    const char *c;
    size_t at;
    for (c = name; *c != 0; c++)
        sum = (sum ^ (unsigned char)*c) * 1099511628211u;
    for (at = (size_t)(sum ^ sum >> 32) % room; names[at] != NULL && strcmp(names[at], name) != 0; at = (at + 1) % room)
        ;
    return &names[at];
}

static int grow(Names *n)
{
    size_t room = n->room == 0 ? 1024 : 2 * n->room, i;
    char **names = calloc(room, sizeof *names);
    if (names == NULL)
        return 0;
    for (i = 0; i < n->room; i++)
        if (n->names[i] != NULL)
            *place_of(names, room, n->names[i]) = n->names[i];
    free(n->names);
    n->names = names;
    n->room = room;
    return 1;
}

int names_add(Names *n, const char *name)
{
    char **place;
    if (2 * n->count >= n->room && !grow(n))
        return -1;
    place = place_of(n->names, n->room, name);
    if (*place != NULL)
        return 0;
    *place = malloc(strlen(name) + 1);
    if (*place == NULL)
        return -1;
    strcpy(*place, name);
    n->count++;
    return 1;
}

void names_free(Names *n)
{
    size_t i;
    for (i = 0; i < n->room; i++)
        free(n->names[i]);
    free(n->names);
}
