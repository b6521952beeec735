#include "mark.h"

#include <string.h>

/* A row or a column of a square. Outside the square all is light. */
typedef struct {
    const uint8_t *first;
    long side, step;
} Line;

static unsigned on(const Line *line, long i) { return i < 0 || i >= line->side ? 0u : line->first[i * line->step]; }

static int is_light(const Line *line, long from)
{
    return on(line, from) == 0 && on(line, from + 1) == 0 && on(line, from + 2) == 0;
}

/* 50 for each ratio of a finder, dark and light modules as 1:1:1:1:3 or 3:1:1:1:1, with three light modules before or behind it. */
static unsigned long ratio_penalty(const Line *line)
{
    unsigned long sum = 0;
    unsigned seven = 0; /* the last seven modules */
    long i;
    for (i = 0; i < line->side; i++) {
        seven = (seven << 1 | line->first[i * line->step]) & 0x7Fu;
        if (seven == 0x57u || seven == 0x75u)
            sum += is_light(line, i - 9) || is_light(line, i + 1) ? 50u : 0u;
    }
    return sum;
}

/* 4 for each module of a run of three or more of one shade. */
static unsigned long run_penalty(const Line *line)
{
    unsigned long sum = 0;
    long i, run = 0;
    for (i = 0; i < line->side; i++) {
        run++;
        if (i + 1 == line->side || on(line, i + 1) != on(line, i)) {
            sum += run >= 3 ? 4u * (unsigned long)run : 0u;
            run = 0;
        }
    }
    return sum;
}

unsigned long penalty(const Square *square)
{
    unsigned long sum = 0;
    long side = (long)square->side, i;
    for (i = 0; i < side; i++) {
        Line row = {0}, column = {0};
        row.first = square->modules + i * side;
        row.step = 1;
        column.first = square->modules + i;
        column.step = side;
        row.side = column.side = side;
        sum += ratio_penalty(&row) + ratio_penalty(&column) + run_penalty(&row) + run_penalty(&column);
    }
    return sum;
}

/* Whether a byte of text mode stands in its second subset (docs/SPECIFICATION.md 8.6). */
static int in_second(uint8_t byte)
{
    return !((byte >= '0' && byte <= '9') || (byte >= 'A' && byte <= 'Z') || (byte >= 'a' && byte <= 'z'));
}

/* The number of bits of the one segment (docs/SPECIFICATION.md 9.4). */
static size_t bits_of(unsigned mode, const hx_payload *payload)
{
    size_t n = payload->length, switches = 0, i;
    if (mode == HX_MODE_NUMERIC)
        return 14 + 10 * ((n + 2) / 3);
    if (mode == HX_MODE_BYTES)
        return 17 + 8 * n;
    for (i = 0; i < n; i++)
        switches += (size_t)(in_second(payload->bytes[i]) != (i > 0 && in_second(payload->bytes[i - 1])));
    return 10 + 6 * (n + switches);
}

/* The script of one segment for the whole payload. */
static void segment(hx_script *script, unsigned mode, size_t length)
{
    script->length = 3;
    script->bytes[0] = (uint8_t)mode;
    script->bytes[1] = (uint8_t)(length / 256);
    script->bytes[2] = (uint8_t)(length % 256);
}

static hx_status write_at(Mark *mark, size_t mask)
{
    mark->mask = mask;
    mark->square.side = HX_SIDE(mark->version);
    return hx_write(mark->version, mark->level, mask, &mark->script, &mark->payload, mark->square.modules,
                    mark->square.side * mark->square.side);
}

/* With this script: at the version wanted, or the smallest. */
static hx_status write_script(Mark *mark, const Choice *choice)
{
    size_t mask = choice->mask == MASK_AUTO ? 0 : choice->mask;
    hx_answer answer = {HX_OK, 0};
    mark->version = choice->version;
    if (choice->version != 0)
        return write_at(mark, mask);
    answer = hx_write_fit(mark->level, mask, &mark->script, &mark->payload, mark->square.modules, HX_SIZE_SQUARE);
    mark->version = answer.value;
    mark->mask = mask;
    mark->square.side = HX_SIDE(mark->version);
    return answer.status;
}

/* The first mode that has all bytes and fits: the writer itself is asked. Numeric refuses an empty payload by its script. */
static hx_status write_shortest(Mark *mark, const Choice *choice)
{
    unsigned mode;
    hx_status status = HX_REFUSED_NO_VERSION;
    for (mode = HX_MODE_NUMERIC; mode <= HX_MODE_BYTES; mode++) {
        segment(&mark->script, mode, mark->payload.length);
        mark->bits = bits_of(mode, &mark->payload);
        status = write_script(mark, choice);
        if (status != HX_REFUSED_SCRIPT && status != HX_REFUSED_PAYLOAD && status != HX_REFUSED_NO_VERSION
            && status != HX_REFUSED_TOO_LONG)
            break;
    }
    return status;
}

hx_status mark_write(Mark *mark, const Choice *choice)
{
    size_t mask, best = 0;
    unsigned long least = 0;
    hx_status status;
    mark->level = choice->level;
    if (mark->payload.length > 8191) /* the largest mark has room for 7,827 digits, and for less of all else */
        return choice->version == 0 ? HX_REFUSED_NO_VERSION : HX_REFUSED_TOO_LONG;
    status = write_shortest(mark, choice);
    if (status != HX_OK || choice->mask != MASK_AUTO)
        return status;
    for (mask = 0; mask < 4; mask++) {
        unsigned long sum;
        write_at(mark, mask);
        sum = penalty(&mark->square);
        if (mask == 0 || sum < least) {
            best = mask;
            least = sum;
        }
    }
    return mask - 1 == best ? HX_OK : write_at(mark, best);
}
