/* The test of unknown modules. What is expected comes from docs/SPECIFICATION.md: the rule of a block with erased codewords, the block
 * table, and the refusals and their order. */
#include "calls.h"
#include "marks.h"

#include <stdio.h>
#include <string.h>

static uint8_t clean[HX_SIZE_SQUARE], square[HX_SIZE_SQUARE]; /* a mark as it was written, and as it is read */
static size_t places[HX_SIZE_SQUARE];                         /* of the data modules in use */

enum { OTHER, DATA, INFORMATION };
static uint8_t kinds[HX_SIZE_SQUARE];

/* A row of the block table: codewords in all, data codewords, and three batches of count, data and parity. */
typedef struct {
    size_t version, level, total, room, batch[3][3];
} Row;

static const Row ROWS[] = {{1, 0, 25, 21, {{1, 21, 4}}},
                           {1, 1, 25, 17, {{1, 17, 8}}},
                           {1, 2, 25, 13, {{1, 13, 12}}},
                           {1, 3, 25, 9, {{1, 9, 16}}},
                           {4, 3, 54, 22, {{1, 22, 32}}},
                           {5, 3, 69, 27, {{1, 14, 20}, {1, 13, 22}}},
                           {13, 0, 203, 171, {{1, 86, 16}, {1, 85, 16}}},
                           {28, 3, 623, 251, {{10, 17, 26}, {3, 20, 28}, {1, 21, 28}}},
                           {84, 3, 3886, 1554, {{79, 18, 28}, {4, 33, 30}}}};
enum { ONE_BLOCK = 5, ALL_ROWS = sizeof ROWS / sizeof ROWS[0] }; /* the first five have one block */

typedef struct {
    size_t first, length, parity; /* the place of its first codeword in the stream */
} Block;

static size_t blocks_of(const Row *row) { return row->batch[0][0] + row->batch[1][0] + row->batch[2][0]; }

static Block block_of(const Row *row, size_t n)
{
    Block b = {0, 0, 0};
    size_t batch = 0, i, left = 0;
    for (i = 0; i <= n; i++) {
        for (; left == 0; batch++)
            left = row->batch[batch][0];
        b.first += b.length;
        b.length = row->batch[batch - 1][1] + row->batch[batch - 1][2];
        b.parity = row->batch[batch - 1][2];
        left--;
    }
    return b;
}

static void find_kinds(const Row *row)
{
    size_t found = data_modules(row->version, row->level, row->room, places), n;
    CHECK(found == 8 * row->total);
    memset(kinds, OTHER, sizeof kinds);
    for (n = 0; n < found; n++)
        kinds[places[n]] = DATA;
    for (n = 0; n < 68; n++)
        kinds[info_place(HX_SIDE(row->version), n >= 34, n % 34)] = INFORMATION;
}

/* Random bytes, as many as fit: 17 + 8 x (room - 3) bits. So codewords of all blocks have light and dark modules. */
static Mark full_mark(const Row *row, size_t mask)
{
    static uint8_t payload[4096], script[3] = {HX_MODE_BYTES, 0, 0};
    uint64_t seed = 1 + row->room;
    size_t n = row->room - 3, i;
    script[1] = (uint8_t)(n / 256);
    script[2] = (uint8_t)(n % 256);
    for (i = 0; i < n; i++)
        payload[i] = (uint8_t)next_below(&seed, 256);
    return mark_of(row->version, row->level, mask, script, sizeof script, payload, n);
}

/* Begins with the mark as it was written. */
static void renew(const Mark *m)
{
    WRITES(m, clean);
    memcpy(square, clean, sizeof square);
}

/* Both readings give the mark with this count; the known reading's distance is 0. */
static void both_read(int line, const Mark *m, size_t corrected, size_t distance)
{
    reads_at(line, by_side(HX_SIDE(m->version)), square, area(m->version), ENOUGH, m, corrected, distance);
    reads_at(line, by_known(m->version, m->level, m->mask), square, area(m->version), ENOUGH, m, corrected, 0);
}
#define BOTH_READ(mark, corrected, distance) both_read(__LINE__, mark, corrected, distance)

/* Both readings refuse so, before 9 and 10 too. */
static void both_refuse(int line, const Mark *m, hx_status number)
{
    static const Lent none = {0, 0, HX_SIZE_RECEIPT};
    refuses_at(line, by_side(HX_SIDE(m->version)), square, area(m->version), ENOUGH, number);
    refuses_at(line, by_side(HX_SIDE(m->version)), square, area(m->version), none, number);
    refuses_at(line, by_known(m->version, m->level, m->mask), square, area(m->version), ENOUGH, number);
    refuses_at(line, by_known(m->version, m->level, m->mask), square, area(m->version), none, number);
}
#define BOTH_REFUSE(mark, number) both_refuse(__LINE__, mark, number)

/* One unknown module, whichever it is, is taken as light: where it was dark, its codeword or information module counts. A byte 3 in
 * its place gets 3. */
static void test_each_module(void)
{
    size_t mask, i;
    find_kinds(&ROWS[0]);
    for (mask = 0; mask < 4; mask++) {
        Mark m = serial_mark(1, 0, mask);
        renew(&m);
        for (i = 0; i < 529; i++) {
            about(1, 0, mask, i);
            square[i] = HX_MODULE_UNKNOWN;
            BOTH_READ(&m, clean[i] == HX_MODULE_DARK && kinds[i] == DATA, clean[i] == HX_MODULE_DARK && kinds[i] == INFORMATION);
            square[i] = 3;
            BOTH_REFUSE(&m, HX_REFUSED_MODULE);
            square[i] = clean[i];
        }
    }
}

/* Finders, separators, alignment patterns and leftover modules change nothing when all of them are unknown. */
static void test_outside(void)
{
    size_t r, i;
    for (r = 0; r < ALL_ROWS; r++) {
        Mark m = full_mark(&ROWS[r], r % 4);
        about(m.version, m.level, m.mask, 0);
        find_kinds(&ROWS[r]);
        renew(&m);
        for (i = 0; i < area(m.version); i++)
            if (kinds[i] == OTHER)
                square[i] = HX_MODULE_UNKNOWN;
        BOTH_READ(&m, 0, 0);
    }
}

/* Makes so many information modules of this colour unknown, or all if there are fewer; answers how many. */
static size_t hide_information(size_t version, uint8_t colour, size_t most)
{
    size_t n, count = 0;
    for (n = 0; n < 68 && count < most; n++) {
        size_t at = info_place(HX_SIDE(version), n % 2 != 0, n / 2);
        if (clean[at] == colour) {
            square[at] = HX_MODULE_UNKNOWN;
            count++;
        }
    }
    return count;
}

/* Sets some of the twelve information modules that are light in every word: a dark one adds 1 to the distance of each word. */
static void set_light_information(size_t version, size_t count, uint8_t byte)
{
    size_t i;
    for (i = 0; i < count; i++)
        square[info_place(HX_SIDE(version), i >= 6, 28 + i % 6)] = byte;
}

/* Up to 8 dark information modules that are unknown leave the written word the nearest, at as many; with others, which are flipped,
 * 10 are read and 11 are not. */
static void test_dark_information(const Mark *m)
{
    size_t k;
    for (k = 0; k <= 8; k++) {
        about(m->version, m->level, m->mask, k);
        renew(m);
        CHECK(hide_information(m->version, HX_MODULE_DARK, k) == k);
        BOTH_READ(m, 0, k);
        set_light_information(m->version, 10 - k, HX_MODULE_DARK);
        BOTH_READ(m, 0, 10);
        set_light_information(m->version, 11 - k, HX_MODULE_DARK);
        REFUSES(by_side(HX_SIDE(m->version)), square, area(m->version), ENOUGH, HX_REFUSED_INFORMATION);
        READS(by_known(m->version, m->level, m->mask), square, area(m->version), ENOUGH, m, 0, 0);
        set_light_information(m->version, 12, HX_MODULE_UNKNOWN); /* light again */
        BOTH_READ(m, 0, k);
    }
}

/* Light information modules change nothing when they are unknown. With all unknown, each word is as far off as it has dark modules in
 * its two copies: above 10 in these versions. */
static void test_information(void)
{
    static const size_t versions[] = {1, 2, 4, 23, 84};
    size_t i, level, mask;
    for (i = 0; i < sizeof versions / sizeof versions[0]; i++)
        for (level = 0; level < 4; level++)
            for (mask = 0; mask < 4; mask++) {
                Mark m = serial_mark(versions[i], level, mask);
                about(m.version, level, mask, 100);
                renew(&m);
                hide_information(m.version, HX_MODULE_LIGHT, 68);
                BOTH_READ(&m, 0, 0);
                CHECK(hide_information(m.version, HX_MODULE_DARK, 68) > 10);
                READS(by_known(m.version, level, mask), square, area(m.version), ENOUGH, &m, 0, 0);
                REFUSES(by_side(HX_SIDE(m.version)), square, area(m.version), ENOUGH, HX_REFUSED_INFORMATION);
                test_dark_information(&m);
            }
}

/* Makes the modules of a codeword unknown where `bits` has ones. */
static void hide_codeword(const Row *row, size_t place, unsigned bits)
{
    size_t bit;
    for (bit = 0; bit < 8; bit++)
        if (bits >> (7 - bit) & 1u)
            square[module_of(places, row->total, place, bit)] = HX_MODULE_UNKNOWN;
}

/* The modules of a codeword that are this byte, as bits. */
static unsigned bits_that_are(const uint8_t *of, const Row *row, size_t place, uint8_t byte)
{
    unsigned bits = 0;
    size_t bit;
    for (bit = 0; bit < 8; bit++)
        bits = bits * 2 + (of[module_of(places, row->total, place, bit)] == byte);
    return bits;
}

/* What happened to a block: how many codewords are wrong and not erased, how many are erased, and how many of these are changed. */
typedef struct {
    size_t wrong, erased, changed;
} Harm;

static Harm harm_of(const Row *row, Block b)
{
    Harm h = {0, 0, 0};
    size_t place;
    for (place = b.first; place < b.first + b.length; place++) {
        int unknown = bits_that_are(square, row, place, HX_MODULE_UNKNOWN) != 0;
        int differs = bits_that_are(square, row, place, HX_MODULE_DARK) != bits_that_are(clean, row, place, HX_MODULE_DARK);
        h.wrong += differs && !unknown;
        h.erased += (size_t)unknown;
        h.changed += differs && unknown;
    }
    return h;
}

#define UNSURE 99u /* another codeword than the written one may decide */

/* What a block gets. Two codewords differ in more places than there is parity. So the block is another codeword only if more places
 * were changed than that; and another codeword is in reach only if 2 x wrong + erased is at least parity + 4, or, of a block with none
 * erased, if the written one is not. */
static hx_status rule(size_t parity, Harm h)
{
    if (h.erased > parity)
        return HX_REFUSED_ERASED;
    if (h.wrong + h.changed == 0)
        return HX_OK;
    if (h.erased == 0)
        return 2 * h.wrong <= parity ? HX_OK : UNSURE;
    if (2 * h.wrong + h.erased + 2 <= parity)
        return HX_OK;
    return 2 * h.wrong + h.erased < parity + 4 && h.wrong + h.changed <= parity ? HX_REFUSED_BLOCK : UNSURE;
}

/* What the square gets by its first block that is not accepted, and how many codewords are changed. */
static hx_status rule_of_all(const Row *row, size_t *corrected)
{
    hx_status status = HX_OK;
    size_t n;
    *corrected = 0;
    for (n = 0; n < blocks_of(row) && status == HX_OK; n++) {
        Harm h = harm_of(row, block_of(row, n));
        status = rule(block_of(row, n).parity, h);
        *corrected += h.wrong + h.changed;
    }
    return status;
}

/* Both readings do what the rule says, where it is sure. */
static void both_keep_the_rule(int line, const Row *row, const Mark *m)
{
    size_t corrected;
    hx_status status = rule_of_all(row, &corrected);
    if (status == HX_OK)
        both_read(line, m, corrected, 0);
    else if (status != UNSURE)
        both_refuse(line, m, status);
}

/* Each of its eight modules erases a codeword, and all eight erase it once. Parity 8: six wrong codewords are in reach only if they
 * are erased. */
static void test_each_bit(void)
{
    const Row *row = &ROWS[1];
    Mark m = full_mark(row, 3);
    size_t bit, k;
    find_kinds(row);
    for (bit = 0; bit < 9; bit++) {
        unsigned hidden = bit < 8 ? 0x80u >> bit : 0xFFu;
        about(m.version, m.level, m.mask, bit);
        renew(&m);
        for (k = 0; k < 6; k++) {
            flip_codeword(square, places, row->total, 4 * k + 1, (uint8_t)~hidden);
            hide_codeword(row, 4 * k + 1, hidden);
        }
        BOTH_READ(&m, harm_of(row, block_of(row, 0)).changed, 0);
    }
}

/* Erases a codeword by some of its modules, not all. If it is to be changed, one that stays known is flipped; else only light ones
 * become unknown. Answers 0 if there are none. */
static int erase(const Row *row, size_t place, int changed, uint64_t *seed)
{
    unsigned bits = 1 + (unsigned)next_below(seed, 254), light = bits_that_are(square, row, place, HX_MODULE_LIGHT);
    if (changed)
        flip_codeword(square, places, row->total, place, (uint8_t)(~bits & (bits + 1))); /* the last that stays known */
    else
        bits = (bits & light) != 0 ? bits & light : light;
    hide_codeword(row, place, bits);
    return bits != 0;
}

/* Harms codewords of a block that are different from each other. */
static void harm(const Row *row, Block b, Harm h, uint64_t *seed)
{
    uint8_t taken[255] = {0};
    while (h.wrong + h.erased > 0) {
        size_t at = next_below(seed, b.length);
        if (taken[at])
            continue;
        taken[at] = 1;
        if (h.wrong > 0) {
            flip_codeword(square, places, row->total, b.first + at, (uint8_t)(1 + next_below(seed, 255)));
            h.wrong--;
        } else if (erase(row, b.first + at, h.changed > 0, seed)) {
            h.changed -= h.changed > 0;
            h.erased--;
        }
    }
}

static Harm harm_with(size_t wrong, size_t erased, size_t changed)
{
    Harm h;
    h.wrong = wrong;
    h.erased = erased;
    h.changed = changed;
    return h;
}

/* One block with every number of erased codewords up to two above the parity, of which none, one or all are changed, and every number
 * of wrong ones up to those that nothing is sure of. */
static void test_one_block(void)
{
    size_t r, f, e, k;
    uint64_t seed = 5;
    for (r = 0; r < ONE_BLOCK; r++) {
        Block b = block_of(&ROWS[r], 0);
        Mark m = full_mark(&ROWS[r], r % 4);
        find_kinds(&ROWS[r]);
        for (f = 1; f <= b.parity + 2; f++)
            for (e = 0; 2 * e + f < b.parity + 4 && e + f <= b.length; e++)
                for (k = 0; k < 3; k++) {
                    Harm h = harm_with(e, f, k < 2 ? k : f), found;
                    about(m.version, m.level, m.mask, 10000 * e + 100 * f + h.changed);
                    renew(&m);
                    harm(&ROWS[r], b, h, &seed);
                    found = harm_of(&ROWS[r], b);
                    CHECK(found.wrong == e && found.erased == f && found.changed == h.changed);
                    both_keep_the_rule(__LINE__, &ROWS[r], &m);
                }
    }
}

/* A block with as many wrong codewords as can be repaired, some of them erased: with one erased it gets 6, since two parity codewords
 * are then kept in reserve; with none, and with two or more, it is read, and the count is the same. */
static void test_erasing_wrong_ones(void)
{
    size_t r, i, k;
    for (r = 0; r < ONE_BLOCK; r++) {
        size_t reach = block_of(&ROWS[r], 0).parity / 2;
        Mark m = full_mark(&ROWS[r], r % 4);
        find_kinds(&ROWS[r]);
        for (k = 0; k <= reach; k++) {
            about(m.version, m.level, m.mask, k);
            renew(&m);
            for (i = 0; i < reach; i++)
                flip_codeword(square, places, ROWS[r].total, i, 0x81);
            for (i = 0; i < k; i++)
                hide_codeword(&ROWS[r], i, 0x80);
            if (k == 1)
                BOTH_REFUSE(&m, HX_REFUSED_BLOCK);
            else
                BOTH_READ(&m, reach, 0);
        }
    }
}

/* As much harm as a block of this parity can take, or less; in a third of the blocks no codeword is erased. */
static Harm harm_in_reach(size_t parity, uint64_t *seed)
{
    size_t erased = next_below(seed, 3) == 0 ? 0 : 1 + next_below(seed, parity - 2);
    size_t most = erased == 0 ? parity / 2 : (parity - 2 - erased) / 2;
    size_t wrong = next_below(seed, 2) == 0 ? most : next_below(seed, most + 1);
    return harm_with(wrong, erased, next_below(seed, erased + 1));
}

/* One codeword too many for the rule, wrong or erased, or two: 2 x wrong + erased is parity - 1 or parity. */
static Harm harm_for_six(size_t parity, uint64_t *seed)
{
    size_t wrong = next_below(seed, parity / 2), erased = parity - 2 * wrong - next_below(seed, 2);
    return harm_with(wrong, erased, 1 + next_below(seed, erased));
}

/* One codeword too many is erased; they may all be right, and none else be wrong. */
static Harm harm_for_fifteen(size_t parity, uint64_t *seed)
{
    return harm_with(next_below(seed, 2), parity + 1, next_below(seed, parity + 2));
}

/* Harms all blocks within reach, but for two: they get these numbers, if they are not 0. The lower of them decides. */
static void test_two_blocks(const Row *row, size_t low, hx_status first, size_t high, hx_status second, uint64_t *seed)
{
    Mark m = full_mark(row, (low + high) % 4);
    size_t n, corrected = 0;
    renew(&m);
    for (n = 0; n < blocks_of(row); n++) {
        Block b = block_of(row, n);
        hx_status number = n == low ? first : n == high ? second : HX_OK;
        Harm h = number == HX_OK              ? harm_in_reach(b.parity, seed)
                 : number == HX_REFUSED_BLOCK ? harm_for_six(b.parity, seed)
                                              : harm_for_fifteen(b.parity, seed);
        corrected += h.wrong + h.changed;
        harm(row, b, h, seed);
    }
    if (first != HX_OK || second != HX_OK)
        BOTH_REFUSE(&m, first != HX_OK ? first : second);
    else
        BOTH_READ(&m, corrected, 0);
}

/* Many blocks: the count is the sum, and the first block that is not accepted decides between 15 and 6. */
static void test_many_blocks(void)
{
    static const hx_status numbers[] = {HX_OK, HX_REFUSED_BLOCK, HX_REFUSED_ERASED};
    size_t r, i;
    uint64_t seed = 11;
    for (r = ONE_BLOCK; r < ALL_ROWS; r++) {
        size_t blocks = blocks_of(&ROWS[r]);
        find_kinds(&ROWS[r]);
        for (i = 0; i < 18; i++) {
            size_t low = i < 9 ? 0 : next_below(&seed, blocks - 1), high = i < 9 ? blocks - 1 : low + 1;
            about(ROWS[r].version, ROWS[r].level, (low + high) % 4, 10000 * i + 100 * low + high);
            test_two_blocks(&ROWS[r], low, numbers[i % 3], high, numbers[i / 3 % 3], &seed);
        }
    }
}

/* 15 and 6 of erased codewords, in a mark whose data get `data`: after 2, 1, 3 and 4, and before what the data get. */
static void test_order_with(const Mark *m, hx_status data, uint64_t *seed)
{
    static const hx_status numbers[] = {HX_REFUSED_ERASED, HX_REFUSED_BLOCK};
    Block b = block_of(&ROWS[0], 0);
    size_t i;
    memcpy(square, clean, sizeof square);
    harm(&ROWS[0], b, harm_with(0, 2, 2), seed);
    BOTH_REFUSE(m, data);
    for (i = 0; i < 2; i++) {
        memcpy(square, clean, sizeof square);
        harm(&ROWS[0], b, harm_with(0, numbers[i] == HX_REFUSED_ERASED ? 5 : 4, 1), seed);
        BOTH_REFUSE(m, numbers[i]);
        set_light_information(1, 11, HX_MODULE_DARK);
        REFUSES(by_side(23), square, 529, ENOUGH, HX_REFUSED_INFORMATION);
        REFUSES(by_known(1, 0, m->mask), square, 529, ENOUGH, numbers[i]);
        square[528] = 3;
        BOTH_REFUSE(m, HX_REFUSED_MODULE);
        REFUSES(by_side(23), square, 528, ENOUGH, HX_REFUSED_LENGTH);
        REFUSES(by_known(1, 0, m->mask), square, 528, ENOUGH, HX_REFUSED_LENGTH);
        REFUSES(by_side(24), square, 529, ENOUGH, HX_REFUSED_RANGE);
        REFUSES(by_known(1, 0, 4), square, 529, ENOUGH, HX_REFUSED_RANGE);
    }
}

/* Data of an unknown mode, which get 7, and data without a segment, which get 8. */
static void test_order(void)
{
    static const uint8_t mode_nine[21] = {0x90}, nothing[21] = {0};
    Mark m = serial_mark(1, 0, 2);
    uint64_t seed = 17;
    about(1, 0, 2, 0);
    find_kinds(&ROWS[0]);
    CHECK(craft(1, 0, 2, mode_nine, sizeof mode_nine, clean));
    test_order_with(&m, HX_REFUSED_DATA, &seed);
    CHECK(craft(1, 0, 2, nothing, sizeof nothing, clean));
    test_order_with(&m, HX_REFUSED_EMPTY, &seed);
}

/* Marks with data modules that are flipped or unknown by chance: what the rule says, where it is sure. And squares of random modules:
 * whatever the answer, every call keeps what each must keep. */
static void test_random(void)
{
    size_t r, turn, i, number;
    uint64_t seed = 13;
    for (r = 0; r < ALL_ROWS; r++) {
        find_kinds(&ROWS[r]);
        for (turn = 0; turn < 40; turn++) {
            size_t flips = 10 + next_below(&seed, 400), unknown = 10 + next_below(&seed, 100);
            Mark m = full_mark(&ROWS[r], turn % 4);
            about(m.version, m.level, m.mask, turn);
            renew(&m);
            for (i = 0; i < 8 * ROWS[r].total; i++) {
                square[places[i]] ^= next_below(&seed, flips) == 0;
                if (next_below(&seed, unknown) == 0)
                    square[places[i]] = HX_MODULE_UNKNOWN;
            }
            both_keep_the_rule(__LINE__, &ROWS[r], &m);
            for (i = 0; i < area(m.version); i++)
                square[i] = (uint8_t)next_below(&seed, 3);
            number = read_any(__LINE__, by_known(m.version, m.level, m.mask), square, area(m.version), ENOUGH);
            CHECK(number == HX_REFUSED_ERASED || number == HX_REFUSED_BLOCK || number <= HX_REFUSED_SCRIPT_FULL);
        }
    }
}

int main(void)
{
    int way;
    for (way = 0; way < WAYS; way++) {
        lend_at(way);
        test_each_module();
        test_outside();
        test_information();
        test_each_bit();
        test_one_block();
        test_erasing_wrong_ones();
        test_many_blocks();
        test_order();
        test_random();
    }
    printf("unknown modules for C: %zu checks, %zu failed\n", checks_made(), checks_failed());
    return checks_failed() != 0;
}
