/* How much stack a call needs: each runs in a thread of its own whose stack was painted before, on the marks that need most. Ends
 * with 1 if one needs more than HX_SIZE_STACK, which the header promises. */
#include "marks.h"

#include <pthread.h>
#include <stdio.h>
#include <stdlib.h>
#include <string.h>

#define PAINT 0xA5
#define SIZE (4u * 1024u * 1024u)
#define ROOM 3264u  /* data codewords of version 84, level 0 */
#define TOTAL 3886u /* its codewords in all */

static uint8_t square[HX_SIZE_SQUARE], payload[HX_SIZE_BUFFER], script[HX_SIZE_BUFFER], receipt[HX_SIZE_RECEIPT];
static uint8_t queue[HX_SIZE_QUEUE] = {0, 23, 1, 25, 2, 27, 3, 29, 4, 31}; /* head 5 does not wait */
static size_t payload_length, script_length, places[HX_SIZE_SQUARE];
static hx_status answer;

static void *nothing(void *unused) { return unused; }

static void *reads_square(void *unused)
{
    answer =
        hx_read_square(square, HX_SIZE_SQUARE, 189, payload, HX_SIZE_BUFFER, script, HX_SIZE_BUFFER, receipt, HX_SIZE_RECEIPT);
    return unused;
}

static void *reads_known(void *unused)
{
    answer = hx_read_known(square, HX_SIZE_SQUARE, 84, 0, 0, payload, HX_SIZE_BUFFER, script, HX_SIZE_BUFFER, receipt,
                           HX_SIZE_RECEIPT);
    return unused;
}

static void *writes_square(void *unused)
{
    answer = hx_write_square(84, 0, 0, script, script_length, payload, payload_length, square, HX_SIZE_SQUARE);
    return unused;
}

static void *writes_smallest(void *unused)
{
    answer = hx_write_smallest(0, 0, script, script_length, payload, payload_length, square, HX_SIZE_SQUARE).status;
    return unused;
}

static void *hands_in(void *unused)
{
    answer = hx_queue_hand_in(queue, HX_SIZE_QUEUE, 5, 189);
    return unused;
}

static void *turns(void *unused)
{
    answer = hx_queue_turn(queue, HX_SIZE_QUEUE).status;
    return unused;
}

/* Runs it in a thread with a painted stack and answers how many bytes of the stack were touched. */
static size_t touched(void *(*run)(void *))
{
    pthread_t thread;
    pthread_attr_t attributes;
    size_t untouched = 0;
    void *stack = NULL;
    if (posix_memalign(&stack, 65536, SIZE) != 0)
        exit(1);
    memset(stack, PAINT, SIZE);
    if (pthread_attr_init(&attributes) != 0 || pthread_attr_setstack(&attributes, stack, SIZE) != 0
        || pthread_create(&thread, &attributes, run, NULL) != 0 || pthread_join(thread, NULL) != 0) {
        printf("failed: no thread for the measurement\n");
        exit(1);
    }
    while (untouched < SIZE && ((uint8_t *)stack)[untouched] == PAINT)
        untouched++;
    pthread_attr_destroy(&attributes);
    free(stack);
    return SIZE - untouched;
}

/* Says what a call needed, whose answer must be `expected`; answers 1 if that is more than the header says. */
static int report(const char *name, size_t bytes, hx_status expected)
{
    printf("  %-64s %7zu bytes of stack\n", name, bytes);
    if (answer == expected && bytes <= HX_SIZE_STACK)
        return 0;
    printf("failed: it answers %zu, not %zu, or needs more than %u bytes\n", answer, expected, HX_SIZE_STACK);
    return 1;
}

/* Measures a call. */
static int measure(const char *name, void *(*run)(void *), hx_status expected)
{
    return report(name, touched(run) - touched(nothing), expected);
}

/* Measures a call that needs hardly more than none: a byte that is written may have the colour of the paint. */
static int measure_small(const char *name, void *(*run)(void *), hx_status expected)
{
    size_t with = touched(run), without = touched(nothing);
    return report(name, with > without ? with - without : 0, expected);
}

/* Data of region one in which every word is a switch to the other region: the two functions call each other each time. */
static void craft_switches(void)
{
    static uint8_t data[ROOM];
    size_t bit;
    for (bit = 0; bit < 8 * ROOM; bit++) {
        int one = bit < 4 ? bit == 1 : (bit - 4) % 12 != 11;
        data[bit / 8] = (uint8_t)(data[bit / 8] | one << (7 - bit % 8));
    }
    if (!craft(84, 0, 0, data, ROOM, square)) {
        printf("failed: the mark was not crafted\n");
        exit(1);
    }
}

/* Pairs that change region each time, as many as fit: 16 + 12 x (pairs + switches) bits. */
static void script_of_switches(void)
{
    size_t pairs = (8 * ROOM - 16) / 24, i;
    payload_length = 2 * pairs;
    script_length = 3;
    script[0] = HX_MODE_REGION_TWO;
    script[1] = (uint8_t)(payload_length / 256);
    script[2] = (uint8_t)(payload_length % 256);
    for (i = 0; i < pairs; i++) {
        payload[2 * i] = i % 2 ? 0xD8 : 0xB0;
        payload[2 * i + 1] = 0xA1;
    }
}

/* Each thirteenth codeword of the stream changed: at most ten in a block, all in reach. */
static void damage(void)
{
    size_t i;
    for (i = 0; i < TOTAL; i += 13)
        flip_codeword(square, places, TOTAL, i, 255);
}

/* Each seventh codeword changed and erased: at most 18 in a block of parity 20 and 20 in one of 22, all in reach. */
static void erase(void)
{
    size_t i;
    for (i = 0; i < TOTAL; i += 7) {
        flip_codeword(square, places, TOTAL, i, 1);
        square[module_of(places, TOTAL, i, 0)] = HX_MODULE_UNKNOWN;
    }
}

int main(void)
{
    int failed = 0;
    data_modules(84, 0, ROOM, places);
    craft_switches();
    failed |= measure("hx_read_square, 2,175 switches of region that never end", reads_square, HX_REFUSED_DATA);
    failed |= measure("hx_read_known, the same", reads_known, HX_REFUSED_DATA);
    damage();
    failed |= measure("hx_read_square, the same with 299 codewords to repair", reads_square, HX_REFUSED_DATA);
    craft_switches();
    erase();
    failed |= measure("hx_read_square, the same with 556 codewords erased", reads_square, HX_REFUSED_DATA);
    failed |= measure("hx_read_known, the same", reads_known, HX_REFUSED_DATA);
    script_of_switches();
    failed |= measure("hx_write_square, 1,087 switches of region", writes_square, HX_OK);
    failed |= measure("hx_write_smallest, the same", writes_smallest, HX_OK);
    failed |= measure("hx_read_square, what was written", reads_square, HX_OK);
    failed |= measure_small("hx_queue_hand_in, five wait", hands_in, HX_OK);
    failed |= measure_small("hx_queue_turn, six wait", turns, HX_OK);
    return failed;
}
