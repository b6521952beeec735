/* Calls of the six functions on lent buffers that are watched. Each buffer lies at a page that must not be touched, so that a byte
 * read or written beyond it ends the program, and what every call must keep is checked after it. */
#ifndef CALLS_H
#define CALLS_H

#include "han_xin.h"

#define UNTOUCHED 0xA5u /* what lent bytes hold before a call */

/* Buffers begin behind the forbidden page, or end before it; in the third way those of 0 bytes are NULL. */
enum { AT_START, AT_END, AT_END_OR_NULL, WAYS };

/* Counts a check, and prints its line if it fails. */
void check(int holds, int line, const char *text);
#define CHECK(fact) check((fact) != 0, __LINE__, #fact)

size_t checks_made(void);
size_t checks_failed(void);

/* Which version, level, mask or turn is under test, for the message of a failed check. */
void about(size_t version, size_t level, size_t mask, size_t turn);

void lend_at(int way);

/* How a square is read: by its side, or with known version, level and mask. */
typedef struct {
    int known;
    size_t side, version, level, mask;
} How;

How by_side(size_t side);
How by_known(size_t version, size_t level, size_t mask);

/* How many bytes of payload, script and receipt are lent. */
typedef struct {
    size_t payload, script, receipt;
} Lent;

extern const Lent ENOUGH;

/* What a mark holds. */
typedef struct {
    size_t version, level, mask;
    const uint8_t *script;
    size_t script_length;
    const uint8_t *payload;
    size_t payload_length;
} Mark;

/* How many modules a version has. */
size_t area(size_t version);

Mark mark_of(size_t version, size_t level, size_t mask, const uint8_t *script, size_t script_length, const void *payload,
             size_t payload_length);

/* One numeric segment, the digits 00471100. */
Mark serial_mark(size_t version, size_t level, size_t mask);

/* Reads, and checks that the answer is this refusal. */
void refuses_at(int line, How how, const uint8_t *square, size_t length, Lent lent, hx_status number);
#define REFUSES(how, square, length, lent, number) refuses_at(__LINE__, how, square, length, lent, number)

/* Reads, and checks that the mark comes out with this count and distance. */
void reads_at(int line, How how, const uint8_t *square, size_t length, Lent lent, const Mark *mark, size_t corrected,
              size_t distance);
#define READS(how, square, length, lent, mark, corrected, distance) \
    reads_at(__LINE__, how, square, length, lent, mark, corrected, distance)

/* Reads and answers the number, with no more checks than those of every call. */
hx_status read_any(int line, How how, const uint8_t *square, size_t length, Lent lent);

/* Writes into a lent square of so many bytes, checks the answer, and copies what was written. */
void writes_at(int line, const Mark *mark, size_t length, hx_status number, uint8_t *square);
#define WRITES(mark, square) writes_at(__LINE__, mark, area((mark)->version), 0, square)
#define WRITE_REFUSES(mark, length, number) writes_at(__LINE__, mark, length, number, NULL)

/* The same with hx_write_smallest. What is written must be the square of the mark's version, as hx_write_square writes it. */
void smallest_at(int line, const Mark *mark, size_t length, hx_status number, uint8_t *square);
#define SMALLEST(mark, length, square) smallest_at(__LINE__, mark, length, HX_OK, square)
#define SMALLEST_REFUSES(mark, length, number) smallest_at(__LINE__, mark, length, number, NULL)

/* Lends a copy of a queue of so many bytes, hands in, and checks the answer. The bytes must be `after` then, or as they were if that
 * is NULL; what the copy holds is copied back. */
void hands_in_at(int line, uint8_t *queue, size_t length, size_t head, size_t side, hx_status number, const uint8_t *after);

/* The same with a turn, which must answer `expected`. */
void turns_at(int line, uint8_t *queue, size_t length, hx_turn expected, const uint8_t *after);

#endif
