/* The test of hx_queue_hand_in and hx_queue_turn. What is expected comes from docs/SPECIFICATION.md, by a list of those that wait,
 * which the test keeps beside the bytes; never from an answer of the library. */
#include "calls.h"
#include "marks.h"

#include <stdio.h>
#include <string.h>

/* Those that wait, the longest waiting first. */
static struct {
    size_t count, heads[HX_HEADS], sides[HX_HEADS];
} waiting;

static uint8_t queue[HX_SIZE_QUEUE];

static void begin(void)
{
    waiting.count = 0;
    memset(queue, 0, sizeof queue);
}

static int waits(size_t head)
{
    size_t i;
    for (i = 0; i < waiting.count && waiting.heads[i] != head; i++)
        ;
    return i < waiting.count;
}

static int is_side(size_t side)
{
    size_t version;
    for (version = HX_VERSION_MIN; version <= HX_VERSION_MAX && side != 2 * version + 21; version++)
        ;
    return version <= HX_VERSION_MAX;
}

static void join(size_t head, size_t side)
{
    waiting.heads[waiting.count] = head;
    waiting.sides[waiting.count] = side;
    waiting.count++;
}

static void leave(void)
{
    size_t i;
    waiting.count--;
    for (i = 0; i < waiting.count; i++) {
        waiting.heads[i] = waiting.heads[i + 1];
        waiting.sides[i] = waiting.sides[i + 1];
    }
}

/* The bytes of a queue of those that wait: an entry for each, and zeros behind them. */
static const uint8_t *bytes_of_waiting(void)
{
    static uint8_t bytes[HX_SIZE_QUEUE];
    size_t i;
    memset(bytes, 0, sizeof bytes);
    for (i = 0; i < waiting.count; i++) {
        bytes[2 * i] = (uint8_t)waiting.heads[i];
        bytes[2 * i + 1] = (uint8_t)waiting.sides[i];
    }
    return bytes;
}

/* Hands in, with this answer. An accepted head waits behind all others; a refused one leaves every byte. */
static void hands_in(int line, size_t head, size_t side, hx_status number)
{
    if (number == HX_OK)
        join(head, side);
    hands_in_at(line, queue, HX_SIZE_QUEUE, head, side, number, number == HX_OK ? bytes_of_waiting() : NULL);
}
#define HANDS_IN(head, side) hands_in(__LINE__, head, side, HX_OK)
#define REFUSED(head, side, number) hands_in(__LINE__, head, side, number)

/* A turn that serves this head with this side, which are the first of those that wait. */
static void serves(int line, size_t head, size_t side)
{
    hx_turn expected = {HX_OK, 0, 0};
    expected.head = head;
    expected.side = side;
    leave();
    turns_at(line, queue, HX_SIZE_QUEUE, expected, bytes_of_waiting());
}
#define SERVES(head, side) serves(__LINE__, head, side)
#define SERVES_FIRST() serves(__LINE__, waiting.heads[0], waiting.sides[0])

/* A turn that says that nobody waits, and leaves every byte. */
static void nobody(int line)
{
    static const hx_turn none = {HX_OK, 0, 0};
    turns_at(line, queue, HX_SIZE_QUEUE, none, NULL);
}
#define NOBODY() nobody(__LINE__)

/* A side of its own for each head; a second one for when it comes again. */
static size_t side_of(size_t head) { return HX_SIDE(HX_VERSION_MIN + 15 * head); }
static size_t next_side_of(size_t head) { return HX_SIDE(HX_VERSION_MAX - 14 * head); }

/* So many heads wait, each `step` behind the one before it: 1 goes up from the first, 5 down. */
static void wait_from(size_t first, size_t step, size_t count)
{
    size_t i;
    begin();
    for (i = 0; i < count; i++)
        HANDS_IN((first + step * i) % HX_HEADS, side_of((first + step * i) % HX_HEADS));
}

static void test_alone(void)
{
    static const size_t sides[] = {23, 25, 105, 127, 129, 187, 189};
    size_t head, i;
    begin();
    NOBODY();
    NOBODY();
    for (head = 0; head < HX_HEADS; head++)
        for (i = 0; i < sizeof sides / sizeof sides[0]; i++) {
            about(0, 0, 0, head);
            HANDS_IN(head, sides[i]);
            SERVES(head, sides[i]);
            NOBODY();
        }
}

/* All 720 orders of six heads: the first `place` of `order` wait, the others come in each order. */
static void orders(size_t *order, size_t place)
{
    size_t i, other;
    if (place == HX_HEADS) {
        begin();
        for (i = 0; i < HX_HEADS; i++)
            HANDS_IN(order[i], side_of((order[i] + order[0]) % HX_HEADS));
        for (i = 0; i < HX_HEADS; i++)
            SERVES(order[i], side_of((order[i] + order[0]) % HX_HEADS));
        NOBODY();
        return;
    }
    for (i = place; i < HX_HEADS; i++) {
        other = order[place];
        order[place] = order[i];
        order[i] = other;
        orders(order, place + 1);
        order[i] = order[place];
        order[place] = other;
    }
}

static void test_orders(void)
{
    size_t order[HX_HEADS] = {0, 1, 2, 3, 4, 5};
    about(0, 0, 0, 0);
    orders(order, 0);
}

/* A head with this side comes behind so many others, and then all are served. */
static void test_side(size_t side, size_t before)
{
    size_t head = side % HX_HEADS;
    about(0, 0, before, side);
    wait_from(head + 1, 1, before);
    hands_in(__LINE__, head, side, is_side(side) ? HX_OK : HX_REFUSED_RANGE);
    while (waiting.count != 0)
        SERVES_FIRST();
    NOBODY();
}

/* Each number up to 300 as a side, and larger ones that have a side in their low bytes: the 84 sides are accepted, all others get 1. */
static void test_sides(void)
{
    static const size_t large[] = {256 + 23, 65536 + 189, ((size_t)1 << 32) + 23, ((size_t)1 << 63) + 23, SIZE_MAX};
    size_t sides = 0, side, i;
    for (side = 0; side <= 300; side++) {
        sides += (size_t)is_side(side);
        test_side(side, 0);
        test_side(side, 5);
    }
    CHECK(sides == 84);
    for (i = 0; i < sizeof large / sizeof large[0]; i++) {
        test_side(large[i], 0);
        test_side(large[i], 5);
    }
}

/* 16 for a head above 5, also one that has a head in its low bytes; however many wait. */
static void test_heads(void)
{
    static const size_t heads[] = {
        6, 7, 255, 256, 256 + 5, (size_t)1 << 32, ((size_t)1 << 32) + 1, (size_t)1 << 63, ((size_t)1 << 63) + 2, SIZE_MAX};
    size_t count, i;
    for (count = 0; count <= HX_HEADS; count++) {
        wait_from(count, 5, count);
        for (i = 0; i < sizeof heads / sizeof heads[0]; i++) {
            about(0, 0, 0, count);
            REFUSED(heads[i], 23, HX_REFUSED_HEAD);
        }
        while (waiting.count != 0)
            SERVES_FIRST();
        NOBODY();
    }
}

/* 17 for a head that waits, at each place of queues of each length, with its side and another; not for one that does not wait. The
 * refused ones change nothing of the order in which the others are served, nor of the sides. */
static void test_waiting(void)
{
    size_t first, count, i;
    for (first = 0; first < HX_HEADS; first++)
        for (count = 1; count <= HX_HEADS; count++) {
            about(0, 0, count, first);
            wait_from(first, 1, count);
            for (i = 0; i < count; i++) {
                REFUSED((first + i) % HX_HEADS, side_of((first + i) % HX_HEADS), HX_REFUSED_WAITING);
                REFUSED((first + i) % HX_HEADS, next_side_of((first + i) % HX_HEADS), HX_REFUSED_WAITING);
            }
            for (i = 0; i < count; i++)
                SERVES((first + i) % HX_HEADS, side_of((first + i) % HX_HEADS));
            NOBODY();
            wait_from(first, 1, count);
            for (i = count; i < HX_HEADS; i++)
                HANDS_IN((first + i) % HX_HEADS, next_side_of(i));
        }
}

/* Both functions with a queue of another length: 2, whatever else there is, and nothing is changed. `bytes` are 24. */
static void test_length(const uint8_t *bytes, size_t length)
{
    static const hx_turn refused = {HX_REFUSED_LENGTH, 0, 0};
    static const size_t wrong[][2] = {{4, 23}, {5, 23}, {6, 23}, {4, 22}, {6, 22}, {5, 22}, {SIZE_MAX, SIZE_MAX}, {0, 0}};
    uint8_t copy[24];
    size_t i;
    memcpy(copy, bytes, sizeof copy);
    for (i = 0; i < sizeof wrong / sizeof wrong[0]; i++)
        hands_in_at(__LINE__, copy, length, wrong[i][0], wrong[i][1], HX_REFUSED_LENGTH, NULL);
    turns_at(__LINE__, copy, length, refused, NULL);
}

/* Queues of other lengths, in whose first twelve bytes nobody waits, head 5 alone does, all but head 4, and all heads. No byte of the
 * last is zero but the number of head 0, so that a zero that is written is seen. */
static void test_lengths(void)
{
    static const size_t lengths[] = {0, 1, 2, 6, 10, 11, 13, 14, 24};
    static const uint8_t bytes[][24] = {{0},
                                        {5, 23},
                                        {5, 189, 0, 23, 1, 25, 2, 27, 3, 29, 0, 0, 4, 31},
                                        {5, 31, 4, 33, 0, 35, 1, 37, 2, 39, 3, 41, 9, 9, 9, 9, 9, 9, 9, 9, 9, 9, 9, 9}};
    size_t i, j;
    for (i = 0; i < sizeof lengths / sizeof lengths[0]; i++)
        for (j = 0; j < sizeof bytes / sizeof bytes[0]; j++) {
            about(0, 0, j, lengths[i]);
            test_length(bytes[j], lengths[i]);
        }
}

/* Sets bytes in which the first `place` heads wait; then comes an entry of these two bytes, which makes no sense, and behind it the
 * heads that do not wait, which would. */
static void set_bytes(size_t first, size_t place, size_t head, size_t side)
{
    size_t i;
    begin();
    for (i = 0; i < place; i++)
        join((first + i) % HX_HEADS, side_of(i));
    memcpy(queue, bytes_of_waiting(), sizeof queue);
    if (place == HX_HEADS)
        return;
    queue[2 * place] = (uint8_t)head;
    queue[2 * place + 1] = (uint8_t)side;
    for (i = place + 1; i < HX_HEADS; i++) {
        queue[2 * i] = (uint8_t)((first + i) % HX_HEADS);
        queue[2 * i + 1] = (uint8_t)next_side_of(i);
    }
}

/* The order 2, 16, 17, 1: each number alone, and all that can apply at once. 2 with each of the others is in test_length. 16 and 17
 * cannot: a head above 5 never waits, and an entry that names one makes no sense. */
static void test_order(void)
{
    about(0, 0, 0, 0);
    wait_from(3, 1, 1);
    REFUSED(6, 23, HX_REFUSED_HEAD);
    REFUSED(6, 22, HX_REFUSED_HEAD); /* before 1 */
    REFUSED(SIZE_MAX, 0, HX_REFUSED_HEAD);
    REFUSED(3, 23, HX_REFUSED_WAITING);
    REFUSED(3, 22, HX_REFUSED_WAITING); /* before 1 */
    REFUSED(3, SIZE_MAX, HX_REFUSED_WAITING);
    REFUSED(2, 22, HX_REFUSED_RANGE);
    set_bytes(3, 1, 6, 23);
    REFUSED(6, 23, HX_REFUSED_HEAD);
    REFUSED(6, 22, HX_REFUSED_HEAD);
    set_bytes(3, 1, 255, 23);
    REFUSED(255, 23, HX_REFUSED_HEAD);
}

/* A head that was served may hand in again, behind all others, and then waits again; at each length of the queue. */
static void test_again(void)
{
    size_t count, turn, head;
    for (count = 1; count <= HX_HEADS; count++) {
        wait_from(2, 5, count);
        for (turn = 0; turn < 20; turn++) {
            about(0, 0, count, turn);
            head = waiting.heads[0];
            REFUSED(head, next_side_of(head), HX_REFUSED_WAITING);
            SERVES_FIRST();
            HANDS_IN(head, turn % 2 ? side_of(head) : next_side_of(head));
            REFUSED(head, side_of(head), HX_REFUSED_WAITING);
        }
    }
}

/* What all heads but one hand in between two turns: as much as is accepted, and as much again that is refused. */
static void others_hand_in(size_t head)
{
    size_t other;
    for (other = 0; other < HX_HEADS; other++)
        if (other != head) {
            REFUSED(other + HX_HEADS, 23, HX_REFUSED_HEAD);
            hands_in(__LINE__, other, 22, waits(other) ? HX_REFUSED_WAITING : HX_REFUSED_RANGE);
            hands_in(__LINE__, other, side_of(other), waits(other) ? HX_REFUSED_WAITING : HX_OK);
            REFUSED(other, next_side_of(other), HX_REFUSED_WAITING);
        }
}

/* A head that waits is served within six turns, while the others hand in again and again and are refused: at the turn after those
 * of all who came before it, and with the side that it handed in. */
static void test_within_six(void)
{
    size_t head, before, turn;
    for (head = 0; head < HX_HEADS; head++)
        for (before = 0; before < HX_HEADS; before++) {
            about(0, 0, before, head);
            wait_from(head + 1, 1, before);
            HANDS_IN(head, 189 - 2 * head);
            for (turn = 1; turn <= before; turn++) {
                others_hand_in(head);
                REFUSED(head, side_of(head), HX_REFUSED_WAITING);
                SERVES((head + turn) % HX_HEADS, side_of((head + turn) % HX_HEADS));
            }
            others_hand_in(head);
            SERVES(head, 189 - 2 * head); /* turn before + 1, at most 6 */
        }
}

/* Those before the entry wait, and no others: what a turn serves, and what each head gets that hands in. Refusals, and a turn
 * with nobody waiting, leave all bytes, also those behind the entry; what is accepted or served sets these to zero. */
static void test_senseless(size_t first, size_t place, size_t head, size_t side)
{
    size_t i;
    about(first, place, head, side);
    set_bytes(first, place, head, side);
    REFUSED(6, 23, HX_REFUSED_HEAD);
    for (i = 0; i < HX_HEADS; i++)
        hands_in(__LINE__, i, 24, waits(i) ? HX_REFUSED_WAITING : HX_REFUSED_RANGE);
    if (place == 0)
        NOBODY();
    else
        SERVES(first, side_of(0));
    for (i = 0; i < HX_HEADS; i++) {
        set_bytes(first, place, head, side);
        hands_in(__LINE__, (first + i) % HX_HEADS, 189 - 2 * i, i < place ? HX_REFUSED_WAITING : HX_OK);
    }
    while (waiting.count != 0)
        SERVES_FIRST();
    NOBODY();
}

/* Entries that make no sense, at each of the six places. */
static void test_bytes(void)
{
    static const size_t heads[] = {6, 7, 128, 255}, sides[] = {0, 1, 21, 22, 24, 104, 188, 190, 191, 255};
    size_t first, place, i;
    for (place = 0; place < HX_HEADS; place++)
        for (first = 0; first < HX_HEADS; first++) {
            for (i = 0; i < sizeof heads / sizeof heads[0]; i++)
                test_senseless(first, place, heads[i], 23);
            for (i = 0; i < sizeof sides / sizeof sides[0]; i++)
                test_senseless(first, place, (first + place) % HX_HEADS, sides[i]);
            for (i = 0; i < place; i++) /* an entry again, and its head with another side */
                test_senseless(first, place, (first + i) % HX_HEADS, side_of(i));
            for (i = 0; i < place; i++)
                test_senseless(first, place, (first + i) % HX_HEADS, next_side_of(i));
        }
}

/* An entry of each two bytes, alone, and behind heads 0 to 4. */
static void test_every_entry(void)
{
    size_t head, side;
    for (head = 0; head < 256; head++)
        for (side = 0; side < 256; side++) {
            about(0, 0, head, side);
            begin();
            queue[0] = (uint8_t)head;
            queue[1] = (uint8_t)side;
            if (head <= 5 && is_side(side)) {
                join(head, side);
                SERVES(head, side);
            } else
                NOBODY();
            set_bytes(0, 5, head, side);
            if (head == 5 && is_side(side))
                join(head, side);
            SERVES(0, side_of(0));
        }
}

/* What refuses a head with a side, by those that wait. */
static hx_status refusal(size_t head, size_t side)
{
    return head > 5 ? HX_REFUSED_HEAD : waits(head) ? HX_REFUSED_WAITING : is_side(side) ? HX_OK : HX_REFUSED_RANGE;
}

/* Random hand-ins and turns. Before each hundredth the bytes are set anew, with an entry whose side is even: it makes no sense. */
static void test_random(void)
{
    uint64_t seed = 17;
    size_t event, head, side, place;
    begin();
    for (event = 0; event < 5000; event++) {
        about(0, 0, 0, event);
        head = next_below(&seed, 7);
        side = 2 * next_below(&seed, 128);
        place = next_below(&seed, HX_HEADS + 1);
        if (event % 100 == 99)
            set_bytes(event / 100 % HX_HEADS, place, head, side);
        head = next_below(&seed, 7);
        side = next_below(&seed, 2) ? 23 + 2 * next_below(&seed, 84) : next_below(&seed, 256);
        if (next_below(&seed, event % 400 < 200 ? 2 : 4) != 0)
            hands_in(__LINE__, head, side, refusal(head, side));
        else if (waiting.count != 0)
            SERVES_FIRST();
        else
            NOBODY();
    }
}

int main(void)
{
    int way;
    for (way = 0; way < WAYS; way++) {
        lend_at(way);
        test_alone();
        test_orders();
        test_sides();
        test_heads();
        test_waiting();
        test_lengths();
        test_order();
        test_again();
        test_within_six();
        test_bytes();
        if (way == AT_END)
            test_every_entry();
        test_random();
    }
    printf("the queue for C: %zu checks, %zu failed\n", checks_made(), checks_failed());
    return checks_failed() != 0;
}
