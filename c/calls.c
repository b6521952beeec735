#define _DEFAULT_SOURCE /* for MAP_ANONYMOUS */
#include "calls.h"

#include <signal.h>
#include <stdio.h>
#include <stdlib.h>
#include <string.h>
#include <sys/mman.h>

#define SLOT 65536u /* more than any buffer, and a multiple of any page */

enum { SQUARE, PAYLOAD, SCRIPT, RECEIPT, QUEUE, SLOTS };

const Lent ENOUGH = {HX_SIZE_BUFFER, HX_SIZE_BUFFER, HX_SIZE_RECEIPT};

static size_t made, failed;
static size_t now[4];
static int lending, calling; /* the way, and the line of the call */
static uint8_t *slots[SLOTS];

static void tell(int line, const char *text)
{
    printf("failed: line %d: %s (version %zu, level %zu, mask %zu, turn %zu, way %d)\n", line, text, now[0], now[1], now[2],
           now[3], lending);
}

void check(int holds, int line, const char *text)
{
    made++;
    if (holds)
        return;
    failed++;
    tell(line, text);
}

/* The call that touched a forbidden page cannot go on: the test says so and ends. */
static void touched(int signal_number)
{
    (void)signal_number;
    tell(calling, "a byte outside the lent buffers was read or written");
    fflush(stdout);
    _Exit(1);
}

size_t checks_made(void) { return made; }
size_t checks_failed(void) { return failed; }

void about(size_t version, size_t level, size_t mask, size_t turn)
{
    now[0] = version;
    now[1] = level;
    now[2] = mask;
    now[3] = turn;
}

/* A slot between two pages that must not be touched. */
static uint8_t *guarded(void)
{
    uint8_t *all = mmap(NULL, 3 * SLOT, PROT_NONE, MAP_PRIVATE | MAP_ANONYMOUS, -1, 0);
    if (all == MAP_FAILED || mprotect(all + SLOT, SLOT, PROT_READ | PROT_WRITE) != 0) {
        printf("failed: no memory for the test\n");
        exit(1);
    }
    return all + SLOT;
}

void lend_at(int way)
{
    int slot;
    lending = way;
    signal(SIGSEGV, touched);
    signal(SIGBUS, touched);
    for (slot = 0; slot < SLOTS; slot++)
        if (slots[slot] == NULL)
            slots[slot] = guarded();
}

static uint8_t *lent_part(int slot, size_t length) { return lending == AT_START ? slots[slot] : slots[slot] + SLOT - length; }

/* Lends so many bytes of a slot: a copy of `from`, or untouched ones. */
static uint8_t *lend(int slot, const uint8_t *from, size_t length)
{
    memset(slots[slot], UNTOUCHED, SLOT);
    if (from != NULL && length != 0)
        memcpy(lent_part(slot, length), from, length);
    return lending == AT_END_OR_NULL && length == 0 ? NULL : lent_part(slot, length);
}

/* The bytes of a slot are untouched but for those from `first` to `last` of the lent part. */
static int untouched(int slot, size_t length, size_t first, size_t last)
{
    static uint8_t like[SLOT];
    size_t start = (size_t)(lent_part(slot, length) - slots[slot]);
    if (like[0] != UNTOUCHED)
        memset(like, UNTOUCHED, SLOT);
    return memcmp(slots[slot], like, start + first) == 0 && memcmp(slots[slot] + start + last, like, SLOT - start - last) == 0;
}

How by_side(size_t side)
{
    How how = {0, 0, 0, 0, 0};
    how.side = side;
    return how;
}

How by_known(size_t version, size_t level, size_t mask)
{
    How how = {1, 0, 0, 0, 0};
    how.version = version;
    how.level = level;
    how.mask = mask;
    return how;
}

size_t area(size_t version) { return (size_t)HX_SIDE(version) * HX_SIDE(version); }

Mark mark_of(size_t version, size_t level, size_t mask, const uint8_t *script, size_t script_length, const void *payload,
             size_t payload_length)
{
    Mark m;
    m.version = version;
    m.level = level;
    m.mask = mask;
    m.script = script;
    m.script_length = script_length;
    m.payload = payload;
    m.payload_length = payload_length;
    return m;
}

Mark serial_mark(size_t version, size_t level, size_t mask)
{
    static const uint8_t numeric[] = {HX_MODE_NUMERIC, 0, 8};
    return mark_of(version, level, mask, numeric, sizeof numeric, "00471100", 8);
}

/* What holds of every reading (SPECIFICATION 10.1, 2.6): what a refusal leaves and what its receipt has, and what is written after a 0. */
static void check_reading(int line, const uint8_t *square, size_t length, Lent lent, hx_status number)
{
    static const uint8_t zeros[HX_SIZE_RECEIPT];
    const uint8_t *receipt = lent_part(RECEIPT, lent.receipt);
    size_t payload = 0, script = 0;
    check(length == 0 || memcmp(lent_part(SQUARE, length), square, length) == 0, line, "the square is as it was");
    check(untouched(SQUARE, length, 0, length), line, "nothing beside the square");
    if (lent.receipt != HX_SIZE_RECEIPT) {
        check(number == HX_REFUSED_LENGTH, line, "a receipt of another length gets 2");
        check(untouched(RECEIPT, lent.receipt, 0, 0), line, "and is as it was");
    } else {
        check(receipt[0] == number && receipt[11] == 0, line, "the receipt has the number, and a zero at its end");
        check(number == 0 || memcmp(receipt + 1, zeros, 11) == 0, line, "a refusal's receipt has zeros");
        check(untouched(RECEIPT, HX_SIZE_RECEIPT, 0, HX_SIZE_RECEIPT), line, "nothing beside the receipt");
        payload = hx_receipt_payload_length(receipt);
        script = hx_receipt_script_length(receipt);
    }
    check(payload <= lent.payload && script <= lent.script, line, "payload and script fit their buffers");
    check(untouched(PAYLOAD, lent.payload, 0, payload), line, "nothing beside the payload");
    check(untouched(SCRIPT, lent.script, 0, script), line, "nothing beside the script");
}

hx_status read_any(int line, How how, const uint8_t *square, size_t length, Lent lent)
{
    const uint8_t *q = lend(SQUARE, square, length);
    uint8_t *p = lend(PAYLOAD, NULL, lent.payload), *s = lend(SCRIPT, NULL, lent.script), *r = lend(RECEIPT, NULL, lent.receipt);
    hx_status number;
    calling = line;
    if (how.known)
        number = hx_read_known(q, length, how.version, how.level, how.mask, p, lent.payload, s, lent.script, r, lent.receipt);
    else
        number = hx_read_square(q, length, how.side, p, lent.payload, s, lent.script, r, lent.receipt);
    check_reading(line, square, length, lent, number);
    return number;
}

void refuses_at(int line, How how, const uint8_t *square, size_t length, Lent lent, hx_status number)
{
    hx_status answer = read_any(line, how, square, length, lent);
    char text[64];
    sprintf(text, "the refusal is %zu, not %zu", number, answer);
    check(answer == number, line, text);
}

void reads_at(int line, How how, const uint8_t *square, size_t length, Lent lent, const Mark *mark, size_t corrected,
              size_t distance)
{
    hx_status answer = read_any(line, how, square, length, lent);
    const uint8_t *receipt = lent_part(RECEIPT, HX_SIZE_RECEIPT);
    char text[64];
    sprintf(text, "the mark is read, not refused by %zu", answer);
    check(answer == 0, line, text);
    if (answer != 0)
        return;
    check(hx_receipt_version(receipt) == mark->version, line, "the version");
    check(hx_receipt_level(receipt) == mark->level && hx_receipt_mask(receipt) == mark->mask, line, "level and mask");
    sprintf(text, "the count is %zu, not %zu", corrected, hx_receipt_corrected(receipt));
    check(hx_receipt_corrected(receipt) == corrected, line, text);
    check(hx_receipt_distance(receipt) == distance, line, "the distance");
    check(hx_receipt_payload_length(receipt) == mark->payload_length, line, "the payload's length");
    check(hx_receipt_script_length(receipt) == mark->script_length, line, "the script's length");
    check(memcmp(lent_part(PAYLOAD, lent.payload), mark->payload, mark->payload_length) == 0, line, "the payload");
    check(memcmp(lent_part(SCRIPT, lent.script), mark->script, mark->script_length) == 0, line, "the script");
}

/* What holds of every writing: script and payload are as they were, and so is the square but for its first bytes, as many as were
 * written, which are modules. */
static void check_writing(int line, const Mark *mark, size_t length, size_t written)
{
    const uint8_t *s = lent_part(SCRIPT, mark->script_length), *p = lent_part(PAYLOAD, mark->payload_length);
    const uint8_t *q = lent_part(SQUARE, length);
    size_t i;
    check(untouched(SQUARE, length, 0, written), line, "nothing beside the square, and no refused square");
    check(untouched(SCRIPT, mark->script_length, 0, mark->script_length), line, "nothing beside the script");
    check(untouched(PAYLOAD, mark->payload_length, 0, mark->payload_length), line, "nothing beside the payload");
    check(mark->script_length == 0 || memcmp(s, mark->script, mark->script_length) == 0, line, "the script is as it was");
    check(mark->payload_length == 0 || memcmp(p, mark->payload, mark->payload_length) == 0, line, "the payload is as it was");
    for (i = 0; i < written && q[i] <= 1; i++)
        ;
    check(i == written, line, "every module is 0 or 1");
}

void writes_at(int line, const Mark *mark, size_t length, hx_status number, uint8_t *square)
{
    const uint8_t *s = lend(SCRIPT, mark->script, mark->script_length), *p = lend(PAYLOAD, mark->payload, mark->payload_length);
    uint8_t *q = lend(SQUARE, NULL, length);
    hx_status answer;
    char text[64];
    calling = line;
    answer = hx_write_square(mark->version, mark->level, mark->mask, s, mark->script_length, p, mark->payload_length, q, length);
    sprintf(text, "writing answers %zu, not %zu", number, answer);
    check(answer == number, line, text);
    check_writing(line, mark, length, answer == HX_OK ? length : 0);
    if (answer == HX_OK && square != NULL)
        memcpy(square, q, length);
}

void smallest_at(int line, const Mark *mark, size_t length, hx_status number, uint8_t *square)
{
    static uint8_t same[HX_SIZE_SQUARE];
    const uint8_t *s = lend(SCRIPT, mark->script, mark->script_length), *p = lend(PAYLOAD, mark->payload, mark->payload_length);
    uint8_t *q = lend(SQUARE, NULL, length);
    size_t version = number == HX_OK ? mark->version : 0, n = area(mark->version);
    hx_answer answer;
    hx_status known;
    char text[128];
    calling = line;
    answer = hx_write_smallest(mark->level, mark->mask, s, mark->script_length, p, mark->payload_length, q, length);
    sprintf(text, "the smallest mark: %zu and version %zu, not %zu and %zu", number, version, answer.status, answer.value);
    check(answer.status == number && answer.value == version, line, text);
    check_writing(line, mark, length, number == HX_OK ? n : 0);
    if (number != HX_OK)
        return;
    known = hx_write_square(version, mark->level, mark->mask, s, mark->script_length, p, mark->payload_length, same, n);
    check(known == HX_OK && memcmp(q, same, n) == 0, line, "the square is the one that hx_write_square writes");
    if (square != NULL)
        memcpy(square, q, n);
}

/* What holds of every call with a queue: its bytes are those that are expected, and nothing beside it has changed. */
static void check_queue(int line, uint8_t *queue, size_t length, const uint8_t *after)
{
    const uint8_t *q = lent_part(QUEUE, length);
    if (after == NULL)
        check(length == 0 || memcmp(q, queue, length) == 0, line, "the queue is as it was");
    else
        check(memcmp(q, after, length) == 0, line, "the bytes of the queue");
    check(untouched(QUEUE, length, 0, length), line, "nothing beside the queue");
    if (length != 0)
        memcpy(queue, q, length);
}

void hands_in_at(int line, uint8_t *queue, size_t length, size_t head, size_t side, hx_status number, const uint8_t *after)
{
    uint8_t *q = lend(QUEUE, queue, length);
    hx_status answer;
    char text[128];
    calling = line;
    answer = hx_queue_hand_in(q, length, head, side);
    sprintf(text, "handing in head %zu, side %zu answers %zu, not %zu", head, side, number, answer);
    check(answer == number, line, text);
    check_queue(line, queue, length, after);
}

void turns_at(int line, uint8_t *queue, size_t length, hx_turn expected, const uint8_t *after)
{
    uint8_t *q = lend(QUEUE, queue, length);
    hx_turn answer;
    char text[192];
    calling = line;
    answer = hx_queue_turn(q, length);
    sprintf(text, "a turn answers %zu, head %zu, side %zu, not %zu, %zu, %zu", expected.status, expected.head, expected.side,
            answer.status, answer.head, answer.side);
    check(answer.status == expected.status && answer.head == expected.head && answer.side == expected.side, line, text);
    check_queue(line, queue, length, after);
}
