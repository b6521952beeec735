/* The test of the interface for C. What is expected comes from docs/SPECIFICATION.md: the refusals and their order, the receipt, the
 * edges, the formulas of the writer and the block table; never from an answer of the library. */
#include "calls.h"
#include "marks.h"

#include <stdio.h>
#include <string.h>

static uint8_t square[HX_SIZE_SQUARE], other[HX_SIZE_SQUARE];
static size_t places[HX_SIZE_SQUARE];

static Lent lent(size_t payload, size_t script, size_t receipt)
{
    Lent l;
    l.payload = payload;
    l.script = script;
    l.receipt = receipt;
    return l;
}

/* Every version, level and mask: what was written is read, by both readings. */
static void test_all_marks(void)
{
    size_t v, level, mask;
    for (v = 1; v <= HX_VERSION_MAX; v++)
        for (level = 0; level < 4; level++)
            for (mask = 0; mask < 4; mask++) {
                Mark m = serial_mark(v, level, mask);
                about(v, level, mask, 0);
                WRITES(&m, square);
                READS(by_side(HX_SIDE(v)), square, area(v), ENOUGH, &m, 0, 0);
                READS(by_known(v, level, mask), square, area(v), ENOUGH, &m, 0, 0);
            }
}

static void test_receipts(void)
{
    static const size_t lengths[] = {0, 1, 11, 13, 24};
    Mark m = serial_mark(1, 1, 2);
    size_t i;
    about(1, 1, 2, 0);
    WRITES(&m, square);
    READS(by_side(23), square, 529, lent(HX_SIZE_BUFFER, HX_SIZE_BUFFER, 12), &m, 0, 0);
    for (i = 0; i < sizeof lengths / sizeof lengths[0]; i++) {
        Lent l = lent(HX_SIZE_BUFFER, HX_SIZE_BUFFER, lengths[i]);
        REFUSES(by_side(23), square, 529, l, HX_REFUSED_LENGTH);
        REFUSES(by_known(1, 1, 2), square, 529, l, HX_REFUSED_LENGTH);
        REFUSES(by_side(22), square, 529, l, HX_REFUSED_LENGTH); /* before 1 */
        REFUSES(by_known(0, 4, 4), square, 529, l, HX_REFUSED_LENGTH);
    }
}

/* 1 for the side, or for version, level and mask; 2 for the length of the square; 1 before 2. */
static void test_ranges(void)
{
    static const size_t sides[] = {0, 1, 21, 22, 24, 188, 190, 191, 256 + 23, (size_t)1 << 63, ((size_t)1 << 63) + 23, SIZE_MAX};
    static const size_t wrong[][3] = {{0, 0, 0}, {85, 0, 0},       {256 + 1, 0, 0}, {SIZE_MAX, 0, 0}, {(size_t)1 << 63, 0, 0},
                                      {1, 4, 0}, {1, SIZE_MAX, 0}, {1, 0, 4},       {1, 0, SIZE_MAX}, {0, 4, 4}};
    static const size_t lengths[] = {0, 1, 528, 530, 625};
    size_t i, j;
    Mark m = serial_mark(1, 0, 0);
    about(1, 0, 0, 0);
    WRITES(&m, square);
    memset(square + 529, 0, sizeof square - 529);
    for (i = 0; i < sizeof sides / sizeof sides[0]; i++) {
        about(0, 0, 0, sides[i]);
        REFUSES(by_side(sides[i]), square, 529, ENOUGH, HX_REFUSED_RANGE);
        REFUSES(by_side(sides[i]), square, 0, ENOUGH, HX_REFUSED_RANGE);
        if (sides[i] <= 191)
            REFUSES(by_side(sides[i]), square, sides[i] * sides[i] < HX_SIZE_SQUARE ? sides[i] * sides[i] : HX_SIZE_SQUARE,
                    ENOUGH, HX_REFUSED_RANGE);
    }
    for (i = 0; i < sizeof wrong / sizeof wrong[0]; i++) {
        about(wrong[i][0], wrong[i][1], wrong[i][2], 0);
        REFUSES(by_known(wrong[i][0], wrong[i][1], wrong[i][2]), square, 529, ENOUGH, HX_REFUSED_RANGE);
        REFUSES(by_known(wrong[i][0], wrong[i][1], wrong[i][2]), square, 528, ENOUGH, HX_REFUSED_RANGE);
    }
    for (j = 0; j < sizeof lengths / sizeof lengths[0]; j++) {
        about(1, 0, 0, lengths[j]);
        REFUSES(by_side(23), square, lengths[j], ENOUGH, HX_REFUSED_LENGTH);
        REFUSES(by_known(1, 0, 0), square, lengths[j], ENOUGH, HX_REFUSED_LENGTH);
    }
    REFUSES(by_side(189), square, HX_SIZE_SQUARE - 1, ENOUGH, HX_REFUSED_LENGTH);
    REFUSES(by_known(84, 0, 0), square, HX_SIZE_SQUARE - 1, ENOUGH, HX_REFUSED_LENGTH);
}

/* 3 for a byte above 2, wherever it is, with unknown modules and without; 1 and 2 before 3, 3 before 4 and 6. */
static void test_modules(void)
{
    static const uint8_t bytes[] = {3, 4, 128, 255};
    static const size_t at[] = {0, 8, 264, 527, 528};
    Mark m = serial_mark(1, 0, 3);
    size_t i, j;
    for (i = 0; i < sizeof bytes; i++)
        for (j = 0; j < sizeof at / sizeof at[0]; j++) {
            about(1, 0, 3, bytes[i] + 1000 * at[j]);
            WRITES(&m, square);
            square[at[j]] = bytes[i];
            REFUSES(by_side(23), square, 529, ENOUGH, HX_REFUSED_MODULE);
            REFUSES(by_known(1, 0, 3), square, 529, ENOUGH, HX_REFUSED_MODULE);
            REFUSES(by_side(23), square, 528, ENOUGH, HX_REFUSED_LENGTH);
            REFUSES(by_known(1, 0, 3), square, 530, ENOUGH, HX_REFUSED_LENGTH);
            REFUSES(by_side(24), square, 529, ENOUGH, HX_REFUSED_RANGE);
            REFUSES(by_known(1, 4, 3), square, 529, ENOUGH, HX_REFUSED_RANGE);
            memset(square, HX_MODULE_UNKNOWN, 529);
            REFUSES(by_side(23), square, 528, ENOUGH, HX_REFUSED_LENGTH);
            REFUSES(by_known(1, 4, 3), square, 529, ENOUGH, HX_REFUSED_RANGE);
            square[at[j]] = bytes[i];
            REFUSES(by_side(23), square, 529, ENOUGH, HX_REFUSED_MODULE);
            REFUSES(by_known(1, 0, 3), square, 529, ENOUGH, HX_REFUSED_MODULE);
        }
    memset(square, 1, 529);
    REFUSES(by_side(23), square, 529, ENOUGH, HX_REFUSED_INFORMATION);
    square[528] = 3;
    REFUSES(by_side(23), square, 529, ENOUGH, HX_REFUSED_MODULE);
    REFUSES(by_known(1, 0, 3), square, 529, ENOUGH, HX_REFUSED_MODULE);
}

/* Flips so many of the twelve modules that are light in every information word: the nearest word stays, and is so far off. */
static void flip_light_information(size_t version, size_t flips)
{
    size_t i;
    for (i = 0; i < flips; i++)
        square[info_place(HX_SIDE(version), i >= 6, 28 + i % 6)] ^= 1;
}

/* 4 when the distance is above 10, and 4 before 6; the reading with known level and mask does not look. */
static void test_information(void)
{
    static const size_t versions[] = {1, 2, 4, 23, 84};
    size_t i, k, n;
    uint64_t seed = 3;
    for (i = 0; i < sizeof versions / sizeof versions[0]; i++) {
        size_t v = versions[i], side = HX_SIDE(v);
        Mark m = serial_mark(v, i % 4, (i + 1) % 4);
        for (k = 0; k <= 12; k++) {
            about(v, m.level, m.mask, k);
            WRITES(&m, square);
            flip_light_information(v, k);
            if (k <= 10)
                READS(by_side(side), square, area(v), ENOUGH, &m, 0, k);
            else
                REFUSES(by_side(side), square, area(v), ENOUGH, HX_REFUSED_INFORMATION);
            READS(by_known(v, m.level, m.mask), square, area(v), ENOUGH, &m, 0, 0);
        }
        for (k = 0; k <= 8; k++) {
            WRITES(&m, square);
            for (n = 0; n < k; n++) /* 8 distinct ones of 68 */
                square[info_place(side, (int)(n % 2), 4 * n + next_below(&seed, 4))] ^= 1;
            READS(by_side(side), square, area(v), ENOUGH, &m, 0, k);
        }
        for (n = 0; n < 68; n++)
            square[info_place(side, (int)(n % 2), n / 2)] = (uint8_t)next_below(&seed, 2);
        READS(by_known(v, m.level, m.mask), square, area(v), ENOUGH, &m, 0, 0);
    }
}

static uint64_t information_word(size_t version, int second)
{
    uint64_t word = 0;
    size_t n;
    for (n = 0; n < 34; n++)
        word = word * 2 + square[info_place(HX_SIDE(version), second, n)];
    return word;
}

/* The word of (1, 0, 0) is 5423D300 hex. Nine flips halfway from (level 2, mask 0) to (0, 0) read as (0, 0). */
static void test_information_words(void)
{
    Mark near = serial_mark(1, 0, 0), far = serial_mark(1, 2, 0);
    uint64_t zero, two;
    size_t n, differ = 0;
    about(1, 0, 0, 0);
    WRITES(&near, square);
    zero = information_word(1, 0);
    CHECK(zero == 0x5423D300u);
    CHECK(information_word(1, 1) == 0x5423D300u);
    WRITES(&far, square);
    two = information_word(1, 0);
    for (n = 0; n < 34; n++)
        if ((zero ^ two) >> (33 - n) & 1) {
            square[info_place(23, 0, n)] ^= 1;
            differ++;
        }
    CHECK(differ == 9);
    CHECK(read_any(__LINE__, by_side(23), square, 529, ENOUGH) == read_any(__LINE__, by_known(1, 0, 0), square, 529, ENOUGH));
    WRITES(&near, square);
    for (n = 0; n < 34; n++)
        if ((zero ^ two) >> (33 - n) & 1)
            square[info_place(23, 1, n)] ^= 1;
    READS(by_side(23), square, 529, ENOUGH, &near, 0, 9);
}

/* The finders of every version stand as the header shows them: left and right half of each line are a left and a right finder. */
static void test_finders(void)
{
    static const char *const top[] = {"##############", "#............#", "#.##########.#", "#.#........#.#",
                                      "#.#.######.#.#", "#.#.######.#.#", "#.#.######.#.#"};
    static const char *const bottom[] = {"##########.#.#", "......####.#.#", "#####.####.#.#", "....#.#....#.#",
                                         "###.#.######.#", "###.#.#......#", "###.#.########"};
    size_t v, row, column;
    for (v = 1; v <= HX_VERSION_MAX; v++) {
        Mark m = serial_mark(v, 3, 1);
        size_t side = HX_SIDE(v);
        about(v, 3, 1, 0);
        WRITES(&m, square);
        for (row = 0; row < 7; row++)
            for (column = 0; column < 14; column++) {
                size_t place = column < 7 ? column : side - 14 + column;
                CHECK(square[row * side + place] == (top[row][column] == '#'));
                CHECK(square[(side - 7 + row) * side + place] == (bottom[row][column] == '#'));
            }
    }
}

/* Whether a mask inverts the module at row i and column j, both counted from 1 (SPECIFICATION 6.1). */
static unsigned inverted(size_t mask, size_t i, size_t j)
{
    if (mask == 1)
        return (i + j) % 2 == 0;
    if (mask == 2)
        return ((i + j) % 3 + j % 3) % 2 == 0;
    if (mask == 3)
        return (i % j + j % i + i % 3 + j % 3) % 2 == 0;
    return 0;
}

/* Modules that are left over are zeros under the mask. They are in no block: with each of them inverted, and with all, the mark is read. */
static void test_leftover(size_t version, size_t mask, const size_t *leftover, size_t count)
{
    size_t side = HX_SIDE(version), i;
    Mark m = serial_mark(version, 0, mask);
    WRITES(&m, square);
    for (i = 0; i < count; i++) {
        about(version, 0, mask, i);
        CHECK(square[leftover[i]] == inverted(mask, leftover[i] / side + 1, leftover[i] % side + 1));
        square[leftover[i]] ^= 1;
        READS(by_side(side), square, area(version), ENOUGH, &m, 0, 0);
        square[leftover[i]] ^= 1;
    }
    for (i = 0; i < count; i++)
        square[leftover[i]] ^= 1;
    READS(by_side(side), square, area(version), ENOUGH, &m, 0, 0);
    for (i = 0; i < 49; i++) { /* finders are in no block either */
        square[i / 7 * side + i % 7] ^= 1;
        square[(side - 1 - i / 7) * side + side - 1 - i % 7] ^= 1;
    }
    READS(by_side(side), square, area(version), ENOUGH, &m, 0, 0);
}

/* Versions 1 to 3 have no alignment: data are all modules outside the four corners of nine by nine, of which five are left over. */
static void test_places(void)
{
    static const size_t totals[] = {25, 37, 50}, rooms[] = {21, 31, 42};
    size_t v, mask, i, n;
    for (v = 1; v <= 3; v++) {
        size_t side = HX_SIDE(v), found = data_modules(v, 0, rooms[v - 1], places);
        about(v, 0, 0, 0);
        CHECK(found == 8 * totals[v - 1]);
        for (i = 0, n = 0; i < side * side; i++) {
            size_t row = i / side, column = i % side;
            if ((row < 9 || row >= side - 9) && (column < 9 || column >= side - 9))
                continue;
            if (n < found)
                CHECK(places[n] == i);
            places[n++] = i; /* those left over too */
        }
        for (mask = 0; mask < 4; mask++)
            test_leftover(v, mask, places + 8 * totals[v - 1], n - 8 * totals[v - 1]);
    }
}

/* Changes `count` codewords of a block that begins at stream place `first` and has `length` of them. */
static void change(size_t total, size_t first, size_t length, size_t count, uint64_t *seed)
{
    uint8_t taken[255] = {0};
    while (count > 0) {
        size_t at = next_below(seed, length);
        if (taken[at])
            continue;
        taken[at] = 1;
        flip_codeword(square, places, total, first + at, (uint8_t)(1 + next_below(seed, 255)));
        count--;
    }
}

/* One block: every number of changed codewords in reach is read with its count; one more is refused. */
static void test_one_block(void)
{
    static const size_t rooms[] = {21, 17, 13, 9};
    size_t level, k, turn;
    uint64_t seed = 5;
    for (level = 0; level < 4; level++) {
        Mark m = serial_mark(1, level, level);
        size_t reach = (25 - rooms[level]) / 2;
        data_modules(1, level, rooms[level], places);
        for (turn = 0; turn < 20; turn++)
            for (k = 0; k <= reach; k++) {
                about(1, level, level, k);
                WRITES(&m, square);
                change(25, 0, 25, k, &seed);
                READS(by_side(23), square, 529, ENOUGH, &m, k, 0);
                READS(by_known(1, level, level), square, 529, ENOUGH, &m, k, 0);
            }
    }
}

/* GF(256) with polynomial 163 hex: a times x. */
static unsigned times_x(unsigned a) { return a & 128u ? (a << 1 ^ 0x163u) & 255u : a << 1; }

/* The stream of a square of version 1 to 3, where data are all modules outside the four corners. */
static void stream_of(size_t side, size_t mask, size_t total, uint8_t *stream)
{
    size_t row, column, n = 0, start, place;
    uint8_t found[64] = {0};
    for (row = 0; row < side; row++)
        for (column = 0; column < side; column++) {
            unsigned dark = square[row * side + column] ^ inverted(mask, row + 1, column + 1);
            if ((row < 9 || row >= side - 9) && (column < 9 || column >= side - 9))
                continue;
            if (n < 8 * total)
                found[n / 8] = (uint8_t)(found[n / 8] | dark << (7 - n % 8));
            n++;
        }
    for (start = 0, n = 0; start < 13; start++)
        for (place = start; place < total; place += 13)
            stream[place] = found[n++];
}

/* What is in a written mark (SPECIFICATION 10.11): the data codewords, and a block that is zero at x^1 to x^parity. */
static void test_written(void)
{
    static const size_t totals[] = {25, 37, 50}, rooms[3][4] = {{21, 17, 13, 9}, {31, 25, 19, 15}, {42, 34, 26, 20}};
    static const uint8_t script[] = {HX_MODE_NUMERIC, 0, 3}, data[64] = {0x10, 0x1F, 0xFF};
    uint8_t stream[64];
    size_t v, level, mask, root, i, turn;
    for (v = 1; v <= 3; v++)
        for (level = 0; level < 4; level++)
            for (mask = 0; mask < 4; mask++) {
                Mark m = mark_of(v, level, mask, script, sizeof script, "007", 3);
                about(v, level, mask, 0);
                WRITES(&m, square);
                stream_of(HX_SIDE(v), mask, totals[v - 1], stream);
                CHECK(memcmp(stream, data, rooms[v - 1][level]) == 0);
                for (root = 1; root <= totals[v - 1] - rooms[v - 1][level]; root++) {
                    unsigned value = 0;
                    for (i = 0; i < totals[v - 1]; i++) {
                        for (turn = 0; turn < root; turn++)
                            value = times_x(value);
                        value ^= stream[i];
                    }
                    CHECK(value == 0);
                }
            }
}

/* The values at x^1 to x^4 of a block of 25 with one byte, as one number: what errors add to them. */
static uint32_t values_of(size_t place, unsigned byte)
{
    uint32_t values = 0;
    size_t root, i;
    for (root = 1; root <= 4; root++) {
        unsigned value = byte;
        for (i = 0; i < root * (24 - place); i++)
            value = times_x(value);
        values = values << 8 | value;
    }
    return values;
}

/* Some two codewords of a block of 25 and parity 4 can be changed so that these values become zero: every pair is tried. */
static int in_reach_of_two(uint32_t values)
{
    static uint32_t table[25][256];
    size_t p, q;
    unsigned a, b;
    if (table[0][1] == 0)
        for (p = 0; p < 25; p++)
            for (a = 0; a < 256; a++)
                table[p][a] = values_of(p, a);
    for (p = 0; p < 25; p++)
        for (a = 0; a < 256; a++)
            for (q = p + 1; q < 25; q++)
                for (b = 0; b < 256; b++)
                    if ((values ^ table[p][a]) == table[q][b])
                        return 1;
    return 0;
}

/* Three changed codewords where two can be repaired: 6 exactly when no codeword is within two places, which is found by trying all. */
static void test_out_of_reach(void)
{
    Mark m = serial_mark(1, 0, 1);
    size_t turn, k;
    uint64_t seed = 7;
    data_modules(1, 0, 21, places);
    for (turn = 0; turn < 12; turn++) {
        uint32_t values = 0;
        size_t first = next_below(&seed, 8);
        about(1, 0, 1, turn);
        WRITES(&m, square);
        for (k = 0; k < 3; k++) {
            uint8_t bits = (uint8_t)(1 + next_below(&seed, 255));
            flip_codeword(square, places, 25, first + 8 * k, bits);
            values ^= values_of(first + 8 * k, bits);
        }
        if (in_reach_of_two(values)) {
            CHECK(read_any(__LINE__, by_side(23), square, 529, ENOUGH) != HX_REFUSED_BLOCK);
        } else {
            REFUSES(by_side(23), square, 529, ENOUGH, HX_REFUSED_BLOCK);
            REFUSES(by_known(1, 0, 1), square, 529, ENOUGH, HX_REFUSED_BLOCK);
        }
        flip_light_information(1, 11);
        REFUSES(by_side(23), square, 529, ENOUGH, HX_REFUSED_INFORMATION); /* 4 before 6 */
    }
}

/* A row of the block table with two batches: count, data, parity. */
typedef struct {
    size_t version, level, total, room, batch[2][3];
} Row;

/* Changes as many codewords of each block as can be repaired, and `more` in block `bad`; answers how many. */
static size_t change_blocks(const Row *row, size_t bad, size_t more, uint64_t *seed)
{
    size_t batch, i, block = 0, first = 0, sum = 0;
    for (batch = 0; batch < 2; batch++)
        for (i = 0; i < row->batch[batch][0]; i++, block++) {
            size_t length = row->batch[batch][1] + row->batch[batch][2];
            size_t count = row->batch[batch][2] / 2 + (block == bad ? more : 0);
            change(row->total, first, length, count, seed);
            first += length;
            sum += count;
        }
    return sum;
}

/* Many blocks, each with as many changed codewords as can be repaired: the count is their sum. One more in one block gets 6: that
 * a chance change of t + 1 codewords is within t places of another codeword has a probability below 1 in 10^9 here. */
static void test_many_blocks(void)
{
    static const Row rows[] = {{5, 3, 69, 27, {{1, 14, 20}, {1, 13, 22}}},
                               {13, 0, 203, 171, {{1, 86, 16}, {1, 85, 16}}},
                               {84, 3, 3886, 1554, {{79, 18, 28}, {4, 33, 30}}}};
    size_t r, turn, sum;
    uint64_t seed = 11;
    for (r = 0; r < 3; r++) {
        const Row *row = &rows[r];
        Mark m = serial_mark(row->version, row->level, r);
        size_t blocks = row->batch[0][0] + row->batch[1][0], n = area(row->version);
        CHECK(data_modules(row->version, row->level, row->room, places) == 8 * row->total);
        for (turn = 0; turn < 6; turn++) {
            about(row->version, row->level, r, turn);
            WRITES(&m, square);
            sum = change_blocks(row, 0, 0, &seed);
            READS(by_side(HX_SIDE(row->version)), square, n, ENOUGH, &m, sum, 0);
            READS(by_known(row->version, row->level, r), square, n, ENOUGH, &m, sum, 0);
            WRITES(&m, square);
            change_blocks(row, turn % 2 ? blocks - 1 : next_below(&seed, blocks), 1, &seed);
            REFUSES(by_side(HX_SIDE(row->version)), square, n, ENOUGH, HX_REFUSED_BLOCK);
            REFUSES(by_known(row->version, row->level, r), square, n, lent(0, 0, 12), HX_REFUSED_BLOCK); /* before 9 and 10 */
        }
    }
}

/* Payload and script buffers that are exactly long enough, one short, empty and longer; 9 before 10. */
static void test_buffers(void)
{
    static const size_t payloads[] = {0, 1, 7, 8, 9, 100, HX_SIZE_BUFFER}, scripts[] = {0, 1, 2, 3, 4, 100, HX_SIZE_BUFFER};
    size_t p, s;
    Mark m = serial_mark(2, 2, 1);
    WRITES(&m, square);
    for (p = 0; p < 7; p++)
        for (s = 0; s < 7; s++) {
            Lent l = lent(payloads[p], scripts[s], 12);
            size_t number = payloads[p] < 8 ? HX_REFUSED_PAYLOAD_FULL : scripts[s] < 3 ? HX_REFUSED_SCRIPT_FULL : HX_OK;
            about(2, 2, 1, 100 * p + s);
            if (number == HX_OK) {
                READS(by_side(25), square, 625, l, &m, 0, 0);
                READS(by_known(2, 2, 1), square, 625, l, &m, 0, 0);
            } else {
                REFUSES(by_side(25), square, 625, l, number);
                REFUSES(by_known(2, 2, 1), square, 625, l, number);
            }
        }
}

/* Data codewords as text of bits; anything but 0 and 1 is skipped, and zeros follow. */
static size_t pack(const char *bits, uint8_t *data, size_t room)
{
    size_t n = 0;
    memset(data, 0, room);
    for (; *bits != 0 && n < 8 * room; bits++)
        if (*bits == '0' || *bits == '1') {
            data[n / 8] = (uint8_t)(data[n / 8] | (*bits - '0') << (7 - n % 8));
            n++;
        }
    return n;
}

/* The mark of version 1, level 0 with these data is read as this script and payload, or refused. */
static void says(int line, const char *bits, size_t number, const char *script, size_t script_length, const char *payload,
                 size_t length)
{
    uint8_t data[21];
    Mark m = mark_of(1, 0, 2, (const uint8_t *)script, script_length, payload, length);
    pack(bits, data, sizeof data);
    check(craft(1, 0, 2, data, sizeof data, square), line, "the mark was crafted");
    if (number != 0) {
        refuses_at(line, by_side(23), square, 529, ENOUGH, number);
        refuses_at(line, by_known(1, 0, 2), square, 529, lent(0, 0, 12), number); /* before 9 and 10 */
    } else {
        reads_at(line, by_side(23), square, 529, ENOUGH, &m, 0, 0);
        reads_at(line, by_known(1, 0, 2), square, 529, ENOUGH, &m, 0, 0);
    }
}
#define SAYS(bits, script, payload) says(__LINE__, bits, 0, script, sizeof script - 1, payload, sizeof payload - 1)
#define SAYS_NOT(bits, number) says(__LINE__, bits, number, "", 0, "", 0)

/* Edges of the segments, as data in a mark. */
static void test_edges(void)
{
    about(1, 0, 2, 0);
    SAYS("00010000 00011111 11111111", "\1\0\3", "007");                /* 10 1F FF */
    SAYS("00010000 00010111 11111101", "\1\0\1", "5");                  /* 10 17 FD */
    SAYS_NOT("00010000 00101011 11111101", HX_REFUSED_DATA);            /* 10 2B FD: 10 in one digit */
    SAYS_NOT("00011111 11110100", HX_REFUSED_DATA);                     /* 1F F4: no group */
    SAYS("00101001 00111111", "\2\0\1", "a");                           /* 29 3F */
    SAYS("0110 101110110000011 111111111111111", "\6\0\2", "\xFE\xFE"); /* 23939 */
    SAYS_NOT("0110 101110110000100 111111111111111", HX_REFUSED_DATA);  /* 23940 */
    SAYS("0111 110000011100110001111", "\7", "\xFE\x39\xFE\x39");       /* 1587599 */
    SAYS_NOT("0111 110000011100110010000", HX_REFUSED_DATA);            /* 1587600 */
    SAYS("0100 111111101001 111111111111", "\4\0\2", "\xA8\xC0");       /* 4073 */
    SAYS_NOT("0100 111111101010 111111111111", HX_REFUSED_DATA);        /* 4074 */
    SAYS("0101 101110111111 111111111111", "\5\0\2", "\xF7\xFE");       /* 3007 */
    SAYS_NOT("0101 101111000000 111111111111", HX_REFUSED_DATA);        /* 3008 */
    SAYS("0100 111111111110 101110111111 111111111110 111111101001 111111111111", "\4\0\4", "\xF7\xFE\xA8\xC0");
    SAYS("0010 111110 000000 111111 0010 100100 111111", "\2\0\1\2\0\1", "\0a"); /* the second text starts in the first subset */
    SAYS("1000 00000101 0010 100100 111111", "\x8\0\0\5\2\0\1", "a");
    SAYS("1000 1000000000000101 0010 100100 111111", "\x8\0\0\5\2\0\1", "a"); /* a longer form of the same value */
    SAYS("1000 110111111111111111111111 0010 100100 111111", "\x8\x1F\xFF\xFF\2\0\1", "a");
    SAYS_NOT("1000 1110", HX_REFUSED_DATA);
    SAYS("0011 0000000000001 11111111", "\3\0\1", "\xFF");
    SAYS("0011 0000000000000 0011 0000000000001 00000000", "\3\0\0\3\0\1", "\0");
}

/* 7 for each unknown mode and for each mode that is cut by the end; 8 for no payload byte; 7 before 8. */
static void test_no_data(void)
{
    static const char *modes[] = {"1001", "1010", "1011", "1100", "1101", "1110", "1111"};
    size_t i;
    for (i = 0; i < 7; i++) {
        about(1, 0, 2, 9 + i);
        SAYS_NOT(modes[i], HX_REFUSED_DATA);
    }
    SAYS_NOT("0001", HX_REFUSED_DATA); /* groups of zeros up to the end */
    SAYS_NOT("0010", HX_REFUSED_DATA);
    SAYS_NOT("0011 1111111111111", HX_REFUSED_DATA);
    SAYS_NOT("0100", HX_REFUSED_DATA);
    SAYS_NOT("0101", HX_REFUSED_DATA);
    SAYS_NOT("0110", HX_REFUSED_DATA);
    SAYS_NOT("0000", HX_REFUSED_EMPTY);
    SAYS_NOT("0000 1111 1111 1111", HX_REFUSED_EMPTY); /* mode 0 ends, whatever follows */
    SAYS_NOT("1000 00000101", HX_REFUSED_EMPTY);
    SAYS_NOT("0010 111111", HX_REFUSED_EMPTY);
    SAYS_NOT("0011 0000000000000", HX_REFUSED_EMPTY);
    SAYS_NOT("1000 00000101 1111", HX_REFUSED_DATA);
}

/* A block out of reach is told before what the data would say. */
static void test_reach_before_data(void)
{
    static const char *bits[] = {"1001", "0000"};
    uint8_t data[21];
    size_t i, k;
    data_modules(1, 0, 21, places);
    for (i = 0; i < 2; i++) {
        uint32_t values = 0;
        about(1, 0, 3, i);
        pack(bits[i], data, sizeof data);
        CHECK(craft(1, 0, 3, data, sizeof data, square));
        for (k = 0; k < 3; k++) {
            flip_codeword(square, places, 25, 3 + 7 * k, 0x55);
            values ^= values_of(3 + 7 * k, 0x55);
        }
        CHECK(!in_reach_of_two(values));
        REFUSES(by_side(23), square, 529, ENOUGH, HX_REFUSED_BLOCK);
        REFUSES(by_known(1, 0, 3), square, 529, ENOUGH, HX_REFUSED_BLOCK);
    }
}

/* Writing: 1 and 2, and 1 before 2 before 11. */
static void test_write_ranges(void)
{
    static const size_t wrong[][3] = {{0, 0, 0},        {85, 0, 0}, {SIZE_MAX, 0, 0}, {1, 4, 0},
                                      {1, SIZE_MAX, 0}, {1, 0, 4},  {1, 0, SIZE_MAX}};
    static const size_t lengths[] = {0, 1, 528, 530, 625};
    size_t i;
    Mark m = serial_mark(1, 0, 0), bad = mark_of(1, 0, 0, (const uint8_t *)"\0", 1, "", 0);
    for (i = 0; i < sizeof wrong / sizeof wrong[0]; i++) {
        m.version = wrong[i][0];
        m.level = wrong[i][1];
        m.mask = wrong[i][2];
        about(m.version, m.level, m.mask, 0);
        WRITE_REFUSES(&m, 529, HX_REFUSED_RANGE);
        WRITE_REFUSES(&m, 0, HX_REFUSED_RANGE);
        WRITE_REFUSES(&m, 441, HX_REFUSED_RANGE);
    }
    m = serial_mark(1, 0, 0);
    for (i = 0; i < sizeof lengths / sizeof lengths[0]; i++) {
        about(1, 0, 0, lengths[i]);
        WRITE_REFUSES(&m, lengths[i], HX_REFUSED_LENGTH);
        WRITE_REFUSES(&bad, lengths[i], HX_REFUSED_LENGTH);
    }
    WRITE_REFUSES(&bad, 529, HX_REFUSED_SCRIPT);
    m.version = 84;
    WRITE_REFUSES(&m, HX_SIZE_SQUARE - 1, HX_REFUSED_LENGTH);
    WRITE_REFUSES(&m, HX_SIZE_SQUARE + 1, HX_REFUSED_LENGTH);
}

/* Writes version 1, level 0 with this script and payload; what was written is read. The smallest mark is this one too, or has the
 * same refusal, unless version 1 is too small. */
static void gives(int line, const char *script, size_t script_length, const void *payload, size_t length, size_t number)
{
    Mark m = mark_of(1, 0, 3, (const uint8_t *)script, script_length, payload, length);
    writes_at(line, &m, 529, number, square);
    if (number == 0)
        reads_at(line, by_side(23), square, 529, ENOUGH, &m, 0, 0);
    if (number != HX_REFUSED_TOO_LONG)
        smallest_at(line, &m, 529, number, NULL);
}
#define GIVES(script, payload, number) gives(__LINE__, script, sizeof script - 1, payload, sizeof payload - 1, number)

/* 11: unknown command, operand cut short, ECI too large, lengths that a mode lacks, lengths that do not add up; before 12 and 8. */
static void test_scripts(void)
{
    about(1, 0, 3, 0);
    GIVES("\0", "", HX_REFUSED_SCRIPT);
    GIVES("\x9", "", HX_REFUSED_SCRIPT);
    GIVES("\xFF", "1", HX_REFUSED_SCRIPT);
    GIVES("", "1", HX_REFUSED_SCRIPT);
    GIVES("\1", "1", HX_REFUSED_SCRIPT);
    GIVES("\1\0", "1", HX_REFUSED_SCRIPT);
    GIVES("\2\0\1\x8\0\0", "1", HX_REFUSED_SCRIPT);
    GIVES("\x8\x20\0\0\2\0\1", "1", HX_REFUSED_SCRIPT);
    GIVES("\x8\x1F\xFF\xFF\2\0\1", "1", HX_OK);
    GIVES("\1\0\0", "", HX_REFUSED_SCRIPT);
    GIVES("\1\0\0\2\0\1", "1", HX_REFUSED_SCRIPT);
    GIVES("\4\0\1", "\xB0", HX_REFUSED_SCRIPT);
    GIVES("\5\0\3", "\xD8\xA1\xD8", HX_REFUSED_SCRIPT);
    GIVES("\6\0\1", "\xFE", HX_REFUSED_SCRIPT);
    GIVES("\7", "\x81\x30\x81", HX_REFUSED_SCRIPT);
    GIVES("\1\0\2", "1", HX_REFUSED_SCRIPT);
    GIVES("\1\0\1", "12", HX_REFUSED_SCRIPT);
    GIVES("\2\xFF\xFF", "1", HX_REFUSED_SCRIPT);
    GIVES("\1\0\1\x9", "a", HX_REFUSED_SCRIPT); /* before 12 */
    GIVES("\1\0\1\2\0\1", "a", HX_REFUSED_SCRIPT);
    GIVES("\x8\0\0\5\x9", "", HX_REFUSED_SCRIPT); /* before 8 */
}

/* 12 for a byte, pair or four bytes that its mode lacks; the edges of the modes. */
static void test_payloads(void)
{
    about(1, 0, 3, 1);
    GIVES("\1\0\1", "/", HX_REFUSED_PAYLOAD);
    GIVES("\1\0\1", ":", HX_REFUSED_PAYLOAD);
    GIVES("\1\0\2", "09", HX_OK);
    GIVES("\2\0\1", "\x1B", HX_OK);
    GIVES("\2\0\1", "\x1C", HX_REFUSED_PAYLOAD);
    GIVES("\2\0\1", "\x1F", HX_REFUSED_PAYLOAD);
    GIVES("\2\0\2", " \x7F", HX_OK);
    GIVES("\2\0\1", "\x80", HX_REFUSED_PAYLOAD);
    GIVES("\3\0\2", "\0\xFF", HX_OK);
    GIVES("\4\0\2", "\xA8\xC0", HX_OK);
    GIVES("\4\0\2", "\xA8\xC1", HX_REFUSED_PAYLOAD);
    GIVES("\4\0\2", "\xA3\xFE", HX_OK);
    GIVES("\4\0\2", "\xA4\xA1", HX_REFUSED_PAYLOAD);
    GIVES("\4\0\2", "\xB0\xA0", HX_REFUSED_PAYLOAD);
    GIVES("\4\0\2", "\xAF\xFE", HX_REFUSED_PAYLOAD);
    GIVES("\5\0\4", "\xF7\xFE\xB0\xA1", HX_OK);
    GIVES("\5\0\2", "\xF8\xA1", HX_REFUSED_PAYLOAD);
    GIVES("\6\0\4", "\xFE\xFE\x81\x40", HX_OK);
    GIVES("\6\0\2", "\xFF\x40", HX_REFUSED_PAYLOAD);
    GIVES("\6\0\2", "\x80\xFE", HX_REFUSED_PAYLOAD);
    GIVES("\6\0\2", "\x81\x7F", HX_REFUSED_PAYLOAD);
    GIVES("\6\0\2", "\x81\x3F", HX_REFUSED_PAYLOAD);
    GIVES("\7", "\xFE\x39\xFE\x39", HX_OK);
    GIVES("\7", "\xFE\x39\xFE\x3A", HX_REFUSED_PAYLOAD);
    GIVES("\7", "\xFF\x30\x81\x30", HX_REFUSED_PAYLOAD);
    GIVES("\7", "\x81\x2F\x81\x30", HX_REFUSED_PAYLOAD);
    GIVES("\3\0\1\1\0\1", "1a", HX_REFUSED_PAYLOAD); /* the last segment counts too */
    GIVES("", "", HX_REFUSED_EMPTY);
    GIVES("\x8\0\0\5", "", HX_REFUSED_EMPTY);
    GIVES("\2\0\0\3\0\0\4\0\0\5\0\0\6\0\0", "", HX_REFUSED_EMPTY);
}

/* A run of one byte in a mode: so many fit version 1, level 0, which has 168 bits, and one more gets 13. */
static void fits(int line, uint8_t mode, const char *unit, size_t most)
{
    uint8_t payload[64];
    char script[3] = {0, 0, 0};
    size_t size = strlen(unit), n, i;
    for (n = most; n <= most + 1; n++) {
        for (i = 0; i < n * size; i++)
            payload[i] = (uint8_t)unit[i % size];
        script[0] = (char)mode;
        script[2] = (char)(n * size);
        gives(line, script, 3, payload, n * size, n == most ? HX_OK : HX_REFUSED_TOO_LONG);
    }
}

#define FOUR_BYTES "\x81\x30\x81\x30" /* a character of the four-byte mode */

/* 13 by the writer's formulas, exactly; 12 and 8 before 13. */
static void test_room(void)
{
    static uint8_t long_script[64], payload[12300];
    Mark m = mark_of(1, 0, 3, long_script, sizeof long_script, payload, 0);
    size_t i;
    about(1, 0, 3, 2);
    fits(__LINE__, HX_MODE_NUMERIC, "7", 45);           /* 14 + 10 x 15 = 164 */
    fits(__LINE__, HX_MODE_TEXT, "a", 26);              /* 10 + 6 x 26 = 166 */
    fits(__LINE__, HX_MODE_TEXT, " ", 25);              /* 10 + 6 x (25 + 1) = 166 */
    fits(__LINE__, HX_MODE_BYTES, "a", 18);             /* 17 + 8 x 18 = 161 */
    fits(__LINE__, HX_MODE_REGION_ONE, "\xB0\xA1", 12); /* 16 + 12 x 12 = 160 */
    fits(__LINE__, HX_MODE_REGION_ONE, "\xD8\xA1", 11); /* 16 + 12 x (11 + 1) = 160 */
    fits(__LINE__, HX_MODE_REGION_TWO, "\xD8\xA1", 12);
    fits(__LINE__, HX_MODE_TWO_BYTE, "\x81\x40", 9);               /* 19 + 15 x 9 = 154, and 169 is one bit too many */
    GIVES("\7\2\0\2\3\0\xD", FOUR_BYTES "aa0123456789abc", HX_OK); /* 25 + 22 + 121: all 168 bits */
    GIVES("\7\2\0\2\3\0\xE", FOUR_BYTES "aa0123456789abcd", HX_REFUSED_TOO_LONG);
    GIVES("\2\0\x1B", "aaaaaaaaaaaaaaaaaaaaaaaaaa\x1C", HX_REFUSED_PAYLOAD); /* 12 before 13 */
    for (i = 0; i < sizeof long_script; i += 4)
        long_script[i] = HX_MODE_ECI;
    WRITE_REFUSES(&m, 529, HX_REFUSED_EMPTY); /* 8 before 13: 16 x 12 bits */
    gives(__LINE__, "\3\x1F\xFF", 3, payload, 8191, HX_REFUSED_TOO_LONG);
    gives(__LINE__, "\3\x20\0", 3, payload, 8192, HX_REFUSED_SCRIPT);
}

/* The largest mark: version 84, level 0 has 3,264 data codewords, 26,112 bits. */
static void test_largest(void)
{
    static uint8_t payload[8000];
    static const uint8_t numeric[3] = {HX_MODE_NUMERIC, 7827 / 256, 7827 % 256},
                         over[3] = {HX_MODE_NUMERIC, 7828 / 256, 7828 % 256};
    static const uint8_t bytes[3] = {HX_MODE_BYTES, 3261 / 256, 3261 % 256}, more[3] = {HX_MODE_BYTES, 3262 / 256, 3262 % 256};
    size_t i;
    Mark m;
    about(84, 0, 0, 0);
    for (i = 0; i < sizeof payload; i++)
        payload[i] = (uint8_t)(48 + i % 10);
    m = mark_of(84, 0, 0, numeric, 3, payload, 7827); /* 14 + 10 x 2,609 = 26,104 */
    WRITES(&m, square);
    READS(by_side(189), square, HX_SIZE_SQUARE, lent(7827, 3, 12), &m, 0, 0);
    REFUSES(by_side(189), square, HX_SIZE_SQUARE, lent(7826, 3, 12), HX_REFUSED_PAYLOAD_FULL);
    SMALLEST(&m, HX_SIZE_SQUARE, NULL);            /* version 83 has 25,520 bits */
    m = mark_of(84, 0, 0, over, 3, payload, 7828); /* 14 + 10 x 2,610 = 26,114 */
    WRITE_REFUSES(&m, HX_SIZE_SQUARE, HX_REFUSED_TOO_LONG);
    SMALLEST_REFUSES(&m, HX_SIZE_SQUARE, HX_REFUSED_NO_VERSION);
    m = mark_of(84, 0, 0, bytes, 3, payload, 3261); /* 17 + 8 x 3,261 = 26,105 */
    WRITES(&m, square);
    READS(by_known(84, 0, 0), square, HX_SIZE_SQUARE, ENOUGH, &m, 0, 0);
    m = mark_of(84, 0, 0, more, 3, payload, 3262);
    WRITE_REFUSES(&m, HX_SIZE_SQUARE, HX_REFUSED_TOO_LONG);
}

/* A script of 8,699 bytes: 2,174 ECI of 12 bits and a text of 16, in 26,104 of 26,112 bits. */
static void test_long_script(void)
{
    static uint8_t script[4 * 2175 + 3];
    Mark m = mark_of(84, 0, 1, script, 4 * 2174 + 3, "a", 1);
    size_t i;
    about(84, 0, 1, 0);
    for (i = 0; i < 2175; i++) {
        memset(script + 4 * i, 0, 4);
        script[4 * i] = HX_MODE_ECI;
        script[4 * i + 3] = (uint8_t)(i % 128);
    }
    memcpy(script + 4 * 2174, "\2\0\1", 3);
    WRITES(&m, square);
    READS(by_side(189), square, HX_SIZE_SQUARE, ENOUGH, &m, 0, 0);
    READS(by_known(84, 0, 1), square, HX_SIZE_SQUARE, lent(1, m.script_length, 12), &m, 0, 0);
    REFUSES(by_side(189), square, HX_SIZE_SQUARE, lent(1, m.script_length - 1, 12), HX_REFUSED_SCRIPT_FULL);
    SMALLEST(&m, HX_SIZE_SQUARE, NULL);
    script[4 * 2174] = HX_MODE_ECI;
    memset(script + 4 * 2174 + 1, 0, 3);
    memcpy(script + 4 * 2175, "\2\0\1", 3);
    m.script_length += 4;
    WRITE_REFUSES(&m, HX_SIZE_SQUARE, HX_REFUSED_TOO_LONG);
    SMALLEST_REFUSES(&m, HX_SIZE_SQUARE, HX_REFUSED_NO_VERSION);
}

/* All eight modes in one script: 417 bits by the formulas, so 53 codewords. Level 0 has 46 in version 4 and 57 in version 5. */
static void test_all_modes(void)
{
    static const char script[] = "\1\0\4"
                                 "\2\0\4"
                                 "\3\0\2"
                                 "\4\0\6"
                                 "\5\0\4"
                                 "\6\0\4"
                                 "\7"
                                 "\x8\0\0\x7F"
                                 "\x8\0\0\x80"
                                 "\x8\0\x3F\xFF"
                                 "\x8\0\x40\0"
                                 "\x8\x1F\xFF\xFF";
    static const char payload[] = "0047"
                                  "a b\x1B"
                                  "\0\xFF"
                                  "\xB0\xA1\xA8\xC0\xD8\xA1"
                                  "\xF7\xFE\xB0\xA1"
                                  "\xFE\xFE\x81\x40"
                                  "\xFE\x39\xFE\x39";
    size_t v;
    for (v = 1; v <= 12; v++) {
        Mark m = mark_of(v, 0, v % 4, (const uint8_t *)script, sizeof script - 1, payload, sizeof payload - 1);
        about(v, 0, v % 4, 0);
        if (v < 5) {
            WRITE_REFUSES(&m, area(v), HX_REFUSED_TOO_LONG);
            continue;
        }
        if (v == 5)
            SMALLEST(&m, HX_SIZE_SQUARE, NULL);
        WRITES(&m, square);
        READS(by_side(HX_SIDE(v)), square, area(v), ENOUGH, &m, 0, 0);
        READS(by_known(v, 0, v % 4), square, area(v), ENOUGH, &m, 0, 0);
        READS(by_side(HX_SIDE(v)), square, area(v), lent(sizeof payload - 1, sizeof script - 1, 12), &m, 0, 0);
        REFUSES(by_side(HX_SIDE(v)), square, area(v), lent(sizeof payload - 2, sizeof script - 1, 12), HX_REFUSED_PAYLOAD_FULL);
        REFUSES(by_side(HX_SIDE(v)), square, area(v), lent(sizeof payload - 1, sizeof script - 2, 12), HX_REFUSED_SCRIPT_FULL);
    }
}

/* Squares of random modules, and marks with random flips: whatever the answer, every call keeps what each must keep. */
static void test_random(void)
{
    size_t turn, i;
    uint64_t seed = 13;
    for (turn = 0; turn < 300; turn++) {
        size_t v = 1 + next_below(&seed, 84), level = next_below(&seed, 4), mask = next_below(&seed, 4), number;
        Lent l = lent(next_below(&seed, 40), next_below(&seed, 40), 12);
        Mark m = serial_mark(v, level, mask);
        about(v, level, mask, turn);
        WRITES(&m, square);
        for (i = 0; i < area(v); i++)
            other[i] = turn % 2 ? (uint8_t)next_below(&seed, 2) : (uint8_t)(square[i] ^ (next_below(&seed, 12) == 0));
        number = read_any(__LINE__, by_side(HX_SIDE(v)), other, area(v), l);
        CHECK(number == 0 || number == 4 || (number >= 6 && number <= 10));
        number = read_any(__LINE__, by_known(v, level, mask), other, area(v), l);
        CHECK(number == 0 || (number >= 6 && number <= 10));
    }
}

int main(void)
{
    int way;
    for (way = 0; way < WAYS; way++) {
        lend_at(way);
        test_all_marks();
        test_receipts();
        test_ranges();
        test_modules();
        test_information();
        test_information_words();
        test_finders();
        test_places();
        test_written();
        test_one_block();
        test_out_of_reach();
        test_many_blocks();
        test_buffers();
        test_edges();
        test_no_data();
        test_reach_before_data();
        test_write_ranges();
        test_scripts();
        test_payloads();
        test_room();
        test_largest();
        test_long_script();
        test_all_modes();
        test_random();
    }
    printf("the interface for C: %zu checks, %zu failed\n", checks_made(), checks_failed());
    return checks_failed() != 0;
}
