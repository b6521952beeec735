/* The test of hx_write_smallest. What is expected comes from docs/SPECIFICATION.md: the formulas of the writer, the block table, and
 * the refusals and their order. */
#include "calls.h"

#include <stdio.h>

static uint8_t square[HX_SIZE_SQUARE];

/* The data codewords of some versions at each level, by the block table. */
static const struct {
    size_t version, rooms[4];
} ROOMS[] = {{1, {21, 17, 13, 9}},          {2, {31, 25, 19, 15}},         {3, {42, 34, 26, 20}},
             {10, {131, 109, 83, 61}},      {11, {135, 113, 87, 65}},      {20, {321, 267, 205, 153}},
             {40, {929, 773, 597, 441}},    {60, {1807, 1505, 1161, 861}}, {83, {3190, 2658, 2050, 1520}},
             {84, {3264, 2720, 2098, 1554}}};

/* A script that takes all bits of a version, 25 + 22 + 17 + 8 x (room - 8), gets this version; the one below refuses it. */
static void test_exactly_full(size_t version, size_t level, size_t mask, size_t room)
{
    static const uint8_t payload[4096] = "\x81\x30\x81\x30"
                                         "aa";
    uint8_t script[7] = {HX_MODE_FOUR_BYTE, HX_MODE_TEXT, 0, 2, HX_MODE_BYTES, 0, 0};
    Mark m = mark_of(version, level, mask, script, sizeof script, payload, room - 2);
    script[5] = (uint8_t)((room - 8) / 256);
    script[6] = (uint8_t)((room - 8) % 256);
    SMALLEST(&m, HX_SIZE_SQUARE, square);
    READS(by_side(HX_SIDE(version)), square, area(version), ENOUGH, &m, 0, 0);
    m.version--;
    if (m.version != 0)
        WRITE_REFUSES(&m, area(m.version), HX_REFUSED_TOO_LONG);
}

/* A script that takes one bit more, 17 + 8 x (room - 2), gets the next version; at the last version it gets 14. */
static void test_one_bit_over(size_t version, size_t level, size_t mask, size_t room)
{
    static const uint8_t payload[4096];
    uint8_t script[3] = {HX_MODE_BYTES, 0, 0};
    Mark m = mark_of(version + 1, level, mask, script, sizeof script, payload, room - 2);
    script[1] = (uint8_t)((room - 2) / 256);
    script[2] = (uint8_t)((room - 2) % 256);
    if (version == HX_VERSION_MAX)
        SMALLEST_REFUSES(&m, HX_SIZE_SQUARE, HX_REFUSED_NO_VERSION);
    else
        SMALLEST(&m, HX_SIZE_SQUARE, NULL);
}

/* Few bits get version 1. Of each version in the table, all bits and one bit more. */
static void test_versions(void)
{
    size_t i, level, mask;
    for (level = 0; level < 4; level++)
        for (mask = 0; mask < 4; mask++) {
            Mark m = serial_mark(1, level, mask);
            about(1, level, mask, 0);
            SMALLEST(&m, 529, NULL);
            for (i = 0; i < sizeof ROOMS / sizeof ROOMS[0]; i++) {
                about(ROOMS[i].version, level, mask, ROOMS[i].rooms[level]);
                test_exactly_full(ROOMS[i].version, level, mask, ROOMS[i].rooms[level]);
                test_one_bit_over(ROOMS[i].version, level, mask, ROOMS[i].rooms[level]);
            }
        }
}

/* 2 for a square that is shorter than the mark, and for no other: as long as the mark, longer, one byte shorter, that of a lower
 * version, none. */
static void test_squares(void)
{
    static const uint8_t three[3] = {HX_MODE_BYTES, 0, 23}, largest[3] = {HX_MODE_BYTES, 3261 / 256, 3261 % 256};
    static const size_t enough[] = {729, 730, 841, HX_SIZE_SQUARE, HX_SIZE_SQUARE + 1000}, less[] = {728, 625, 529, 1, 0};
    static const uint8_t payload[3261];
    size_t i;
    Mark m = mark_of(3, 1, 2, three, 3, payload, 23); /* 201 bits, of which version 2 has 200 and version 3 has 272 */
    for (i = 0; i < 5; i++) {
        about(3, 1, 2, enough[i]);
        SMALLEST(&m, enough[i], NULL);
        about(3, 1, 2, less[i]);
        SMALLEST_REFUSES(&m, less[i], HX_REFUSED_LENGTH);
    }
    m = serial_mark(1, 0, 0);
    about(1, 0, 0, 0);
    SMALLEST_REFUSES(&m, 528, HX_REFUSED_LENGTH);
    m = mark_of(84, 0, 3, largest, 3, payload, 3261); /* 26,105 bits, of which version 83 has 25,520 */
    about(84, 0, 3, 0);
    SMALLEST(&m, HX_SIZE_SQUARE, NULL);
    SMALLEST_REFUSES(&m, HX_SIZE_SQUARE - 1, HX_REFUSED_LENGTH);
    SMALLEST_REFUSES(&m, 0, HX_REFUSED_LENGTH);
}

/* This script and payload get this number, with a square that is long enough and with none; but 1 where level or mask is wrong. */
static void refuses(int line, const char *script, size_t script_length, const void *payload, size_t length, hx_status number)
{
    Mark m = mark_of(1, 0, 0, (const uint8_t *)script, script_length, payload, length);
    smallest_at(line, &m, HX_SIZE_SQUARE, number, NULL);
    smallest_at(line, &m, 0, number, NULL);
    m.level = 4;
    smallest_at(line, &m, HX_SIZE_SQUARE, HX_REFUSED_RANGE, NULL);
    m.level = 3;
    m.mask = 4;
    smallest_at(line, &m, 0, HX_REFUSED_RANGE, NULL);
}

/* 1 for level or mask, before 2. */
static void test_ranges(void)
{
    static const size_t wrong[][2] = {
        {4, 0}, {256, 0}, {(size_t)1 << 63, 0}, {SIZE_MAX, 0}, {0, 4}, {0, 256}, {0, (size_t)1 << 63}, {0, SIZE_MAX}, {4, 4}};
    size_t i;
    for (i = 0; i < sizeof wrong / sizeof wrong[0]; i++) {
        Mark m = serial_mark(1, wrong[i][0], wrong[i][1]);
        about(1, m.level, m.mask, 0);
        SMALLEST_REFUSES(&m, 529, HX_REFUSED_RANGE);
        SMALLEST_REFUSES(&m, 528, HX_REFUSED_RANGE);
    }
}

/* The order 1, 11, 12, 8, 14, 2: each number alone, and each two that can apply at once. 12 and 8 cannot: an empty payload has no
 * byte that a mode lacks, and a four-byte command without its four bytes gets 11. With 14 there is no mark that a square could be
 * too short for; a square of no bytes gets 14 too. Version 84 has 26,112 bits. */
static void test_order(void)
{
    static const char too_long[] = "\3\x0C\xBE", unknown[] = "\3\x0C\xBE\x9", lacking[] = "\3\x0C\xBE\2\0\1";
    static uint8_t payload[3263]; /* as bytes, the first 3,262 take 17 + 8 x 3,262 = 26,113 bits */
    static uint8_t eci[4 * 933];  /* 28 x 933 = 26,124 bits */
    size_t i;
    payload[3262] = 0x1C;
    for (i = 0; i < sizeof eci; i++)
        eci[i] = i % 4 == 0 ? HX_MODE_ECI : i % 4 == 1 ? 0x10 : 0;
    about(1, 0, 0, 0);
    refuses(__LINE__, "\2\0\1\x9", 4, "a", 1, HX_REFUSED_SCRIPT);
    refuses(__LINE__, "\2\0\1\x9", 4, "\x1C", 1, HX_REFUSED_SCRIPT); /* before 12 */
    refuses(__LINE__, "\x8\0\0\5\x9", 5, "", 0, HX_REFUSED_SCRIPT);  /* before 8 */
    refuses(__LINE__, unknown, 4, payload, 3262, HX_REFUSED_SCRIPT); /* before 14 */
    refuses(__LINE__, "\2\0\1", 3, "\x1C", 1, HX_REFUSED_PAYLOAD);
    refuses(__LINE__, lacking, 6, payload, 3263, HX_REFUSED_PAYLOAD); /* before 14 */
    refuses(__LINE__, "\x8\0\0\5\2\0\0", 7, "", 0, HX_REFUSED_EMPTY);
    refuses(__LINE__, (const char *)eci, sizeof eci, "", 0, HX_REFUSED_EMPTY); /* before 14 */
    refuses(__LINE__, too_long, 3, payload, 3262, HX_REFUSED_NO_VERSION);
}

int main(void)
{
    int way;
    for (way = 0; way < WAYS; way++) {
        lend_at(way);
        test_versions();
        test_squares();
        test_ranges();
        test_order();
    }
    printf("the smallest mark for C: %zu checks, %zu failed\n", checks_made(), checks_failed());
    return checks_failed() != 0;
}
