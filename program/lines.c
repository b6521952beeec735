#include "lines.h"

#include <errno.h>
#include <stdlib.h>
#include <string.h>

enum { MOST = 1 << 28 }; /* bytes of a list */

/* All of a stream, up to MOST bytes; NULL if there is no memory. */
static uint8_t *slurp(FILE *file, size_t *length)
{
    size_t room = 1 << 16;
    uint8_t *bytes = malloc(room);
    *length = 0;
    while (bytes != NULL) {
        uint8_t *more;
        *length += fread(bytes + *length, 1, room - *length, file);
        if (*length < room || room >= MOST)
            break;
        room *= 2;
        more = realloc(bytes, room);
        if (more == NULL)
            free(bytes);
        bytes = more;
    }
    return bytes;
}

int lines_open(Lines *lines, const char *name, Words *why)
{
    int given = strcmp(name, "-") == 0, failed;
    FILE *file = given ? stdin : fopen(name, "rb");
    memset(lines, 0, sizeof *lines);
    lines->next = 1;
    if (file == NULL)
        return say(why, "cannot read '%s': %s", name, strerror(errno));
    errno = 0;
    lines->bytes = slurp(file, &lines->length);
    failed = ferror(file);
    if (failed)
        say(why, "cannot read '%s': %s", name, strerror(errno));
    if (!given)
        fclose(file);
    if (failed)
        return 0;
    if (lines->bytes == NULL || lines->length >= MOST)
        return say(why, "'%s' is too long", name);
    if (lines->length == 0)
        return say(why, "'%s' is empty", name);
    if (lines->length >= 3 && memcmp(lines->bytes, "\xEF\xBB\xBF", 3) == 0)
        lines->at = 3;
    return 1;
}

static void append(hx_payload *field, uint8_t byte)
{
    if (field->length < HX_SIZE_BUFFER)
        field->bytes[field->length] = byte;
    field->length++;
}

/* The bytes up to a line end, which is passed; a CR in front of it does not count. */
static void take_line(Lines *l, hx_payload *field)
{
    const uint8_t *end = memchr(l->bytes + l->at, '\n', l->length - l->at);
    size_t stop = end == NULL ? l->length : (size_t)(end - l->bytes), i, last = stop;
    if (last > l->at && l->bytes[last - 1] == '\r')
        last--;
    field->length = 0;
    for (i = l->at; i < last; i++)
        append(field, l->bytes[i]);
    l->at = end == NULL ? stop : stop + 1;
    l->next++;
}

/* A field in quotes, from the place behind the first: a doubled quote is one, and line ends count as they are. Answers whether it
 * ends. */
static int take_quoted(Lines *l, hx_payload *field)
{
    while (l->at < l->length) {
        uint8_t byte = l->bytes[l->at++];
        if (byte == '"' && l->at < l->length && l->bytes[l->at] == '"')
            l->at++;
        else if (byte == '"')
            return 1;
        l->next += byte == '\n';
        append(field, byte);
    }
    return 0;
}

static int ends_record(const Lines *l)
{
    return l->at >= l->length || l->bytes[l->at] == '\n'
           || (l->bytes[l->at] == '\r' && (l->at + 1 >= l->length || l->bytes[l->at + 1] == '\n'));
}

/* One field of a CSV record (RFC 4180). Answers 0 if its quotes are wrong; the rest of the line is then passed. */
static int take_field(Lines *l, hx_payload *field)
{
    field->length = 0;
    if (l->at < l->length && l->bytes[l->at] == '"') {
        l->at++;
        if (!take_quoted(l, field))
            return 0;
        return ends_record(l) || l->bytes[l->at] == ',';
    }
    while (!ends_record(l) && l->bytes[l->at] != ',')
        append(field, l->bytes[l->at++]);
    return 1;
}

/* A record of a CSV file: its field of the column. */
static int take_record(Lines *l, hx_payload *serial, Words *why)
{
    static hx_payload field;
    size_t column = 0;
    int found = 0, good = 1, more = 1;
    while (more && good) {
        good = take_field(l, column == l->column ? serial : &field);
        found = found || column == l->column;
        column++;
        more = good && !ends_record(l);
        l->at += more ? 1 : 0;
    }
    take_line(l, &field); /* what is left of the line: its end, or what is behind a wrong quote */
    if (!good)
        say(why, "a field's quotes do not end, or something stands behind them");
    else if (!found)
        say(why, "there is no column %zu: the record has %zu", l->column + 1, column);
    return good && found ? 1 : -1;
}

int lines_next(Lines *l, hx_payload *serial, Words *why)
{
    if (l->at >= l->length)
        return 0;
    l->line = l->next;
    if (l->csv)
        return take_record(l, serial, why);
    take_line(l, serial);
    return 1;
}

/* The column of this name in the first record, which is passed. */
static int find_column(Lines *l, const char *column, Words *why)
{
    static hx_payload name;
    size_t length = strlen(column);
    for (;; l->at++, l->column++) {
        if (!take_field(l, &name))
            return say(why, "line 1: a field's quotes do not end, or something stands behind them");
        if (name.length == length && length <= HX_SIZE_BUFFER && memcmp(name.bytes, column, length) == 0)
            break;
        if (ends_record(l))
            return say(why, "the first line names no column '%.80s'", column);
    }
    take_line(l, &name);
    return 1;
}

int lines_column(Lines *l, const char *column, Words *why)
{
    size_t number;
    l->csv = 1;
    if (!numbers_of(column, 0, &number, 1))
        return find_column(l, column, why);
    l->column = number - 1;
    return number > 0 || say(why, "columns are counted from 1");
}

unsigned lines_percent(const Lines *l) { return (unsigned)(l->at * 100 / l->length); }

void lines_close(Lines *l) { free(l->bytes); }
