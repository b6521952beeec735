#include "marks.h"

#include <string.h>

hx_status write_run(size_t version, size_t level, size_t mask, uint8_t mode, const uint8_t *payload, size_t length,
                    uint8_t *square)
{
    uint8_t script[3];
    size_t side = HX_SIDE(version);
    script[0] = mode;
    script[1] = (uint8_t)(length / 256);
    script[2] = (uint8_t)(length % 256);
    return hx_write_square(version, level, mask, script, sizeof script, payload, length, square, side * side);
}

/* Masks, placement and parity are linear: the sum (xor) of an odd number of marks of one version, level and mask is the mark whose
 * data are the sum of theirs. So marks that the writer makes add up to a mark of any data. */
typedef struct {
    size_t version, level, mask, count;
    uint8_t *square;
    int failed;
} Sum;

static void add(Sum *sum, const uint8_t *script, size_t script_length, const uint8_t *payload, size_t length)
{
    static uint8_t term[HX_SIZE_SQUARE];
    size_t side = HX_SIDE(sum->version), i;
    if (hx_write_square(sum->version, sum->level, sum->mask, script, script_length, payload, length, term, side * side) != 0)
        sum->failed = 1;
    for (i = 0; i < side * side; i++)
        sum->square[i] = (uint8_t)(sum->square[i] ^ term[i]);
    sum->count++;
}

static void add_run(Sum *sum, uint8_t mode, const uint8_t *payload, size_t length)
{
    uint8_t script[3];
    script[0] = mode;
    script[1] = (uint8_t)(length / 256);
    script[2] = (uint8_t)(length % 256);
    add(sum, script, sizeof script, payload, length);
}

/* Three marks whose data add up to zeros: numeric "0" 10 03 FD, text "010" 20 01 03 F0 and bytes 30 02 FE F0 00 ... */
static void add_nothing(Sum *sum)
{
    static const uint8_t bytes[5] = {0xFD, 0xE0, 0, 0, 0};
    add_run(sum, HX_MODE_NUMERIC, (const uint8_t *)"0", 1);
    add_run(sum, HX_MODE_TEXT, (const uint8_t *)"010", 3);
    add_run(sum, HX_MODE_BYTES, bytes, sizeof bytes);
}

static uint8_t text_character(unsigned value)
{
    return (uint8_t)(value < 10 ? 48 + value : value < 36 ? 55 + value : 61 + value);
}

/* The first four bits: a mark for each of its ones. What those marks hold besides is taken off `data`. */
static void add_mode(Sum *sum, uint8_t *data)
{
    static const uint8_t eci[7] = {HX_MODE_ECI, 0, 0, 0, HX_MODE_TEXT, 0, 1}, pair[2] = {0xB0, 0xA1};
    static const uint8_t held[4][4] = {
        {0x10, 0x17, 0xFD, 0}, {0x29, 0x3F, 0, 0}, {0x40, 0, 0xFF, 0xF0}, {0x80, 0x02, 0x93, 0xF0}};
    unsigned mode = data[0] / 16u, bit;
    size_t i;
    for (bit = 0; bit < 4; bit++) {
        if ((mode >> bit & 1u) == 0)
            continue;
        if (bit == 0)
            add_run(sum, HX_MODE_NUMERIC, (const uint8_t *)"5", 1);
        if (bit == 1)
            add_run(sum, HX_MODE_TEXT, (const uint8_t *)"a", 1);
        if (bit == 2)
            add_run(sum, HX_MODE_REGION_ONE, pair, 2);
        if (bit == 3)
            add(sum, eci, sizeof eci, (const uint8_t *)"a", 1);
        for (i = 0; i < 4; i++)
            data[i] = (uint8_t)(data[i] ^ held[bit][i]);
    }
}

/* Bits 4 to 21: two texts of three characters, whose values add up to them. Every value below 32, and 32 itself, is a character. */
static void add_start(Sum *sum, uint8_t *data)
{
    unsigned value = (data[0] % 16u) << 14 | (unsigned)data[1] << 6 | data[2] / 4u, i;
    uint8_t low[3], high[3];
    for (i = 0; i < 3; i++) {
        unsigned c = value >> (12 - 6 * i) & 63u;
        low[i] = text_character(c & 31u);
        high[i] = text_character(c & 32u);
    }
    add_run(sum, HX_MODE_TEXT, low, 3);
    add_run(sum, HX_MODE_TEXT, high, 3);
    data[0] = (uint8_t)(data[0] & 0xF0);
    data[1] = 0;
    data[2] = (uint8_t)(data[2] & 3);
}

/* The last codeword: four bytes (25 bits), two characters (22) and bytes (17 and 8 each) end with the last bit. */
static void add_end(Sum *sum, uint8_t last, size_t room)
{
    static uint8_t payload[4096];
    uint8_t script[7] = {HX_MODE_FOUR_BYTE, HX_MODE_TEXT, 0, 2, HX_MODE_BYTES, 0, 0};
    size_t bytes = room - 8;
    script[5] = (uint8_t)(bytes / 256);
    script[6] = (uint8_t)(bytes % 256);
    memset(payload, 0, sizeof payload);
    memcpy(payload, "\x81\x30\x81\x30\x61\x61", 6);
    add(sum, script, sizeof script, payload, 6 + bytes);
    payload[5 + bytes] = last;
    add(sum, script, sizeof script, payload, 6 + bytes);
}

int craft(size_t version, size_t level, size_t mask, const uint8_t *data, size_t room, uint8_t *square)
{
    static uint8_t rest[4096], bytes[4096];
    size_t side = HX_SIDE(version), i;
    Sum sum = {0, 0, 0, 0, NULL, 0};
    sum.version = version;
    sum.level = level;
    sum.mask = mask;
    sum.square = square;
    memset(square, 0, side * side);
    memcpy(rest, data, room);
    add_mode(&sum, rest);
    add_start(&sum, rest);
    for (i = 0; i + 3 < room; i++) /* bytes start at bit 17 */
        bytes[i] = (uint8_t)(rest[i + 2] << 1 | rest[i + 3] >> 7);
    add_run(&sum, HX_MODE_BYTES, bytes, room - 3);
    memset(bytes, 0, sizeof bytes);
    add_run(&sum, HX_MODE_BYTES, bytes, room - 3);
    add_end(&sum, (uint8_t)(rest[room - 1] & 127), room); /* the bytes above left seven bits */
    if (sum.count % 2 == 0)
        add_nothing(&sum);
    return !sum.failed;
}

size_t data_modules(size_t version, size_t level, size_t room, size_t *places)
{
    static uint8_t first[HX_SIZE_SQUARE], other[HX_SIZE_SQUARE], changes[HX_SIZE_SQUARE], bytes[4096];
    uint64_t seed = 1;
    size_t side = HX_SIDE(version), turn, i, n = 0;
    memset(changes, 0, sizeof changes);
    for (turn = 0; turn < 64; turn++) {
        for (i = 0; i < room; i++)
            bytes[i] = (uint8_t)next_below(&seed, 256);
        craft(version, level, 0, bytes, room, other);
        if (turn == 0)
            memcpy(first, other, side * side);
        for (i = 0; i < side * side; i++)
            changes[i] = (uint8_t)(changes[i] | (first[i] ^ other[i]));
    }
    for (i = 0; i < side * side; i++)
        if (changes[i])
            places[n++] = i;
    return n;
}

/* The i-th codeword of the square goes to places 0, 13, 26, .. of the stream, then 1, 14, .. */
static size_t codeword_at(size_t total, size_t place)
{
    size_t start, i = place / 13;
    for (start = 0; start < place % 13; start++)
        i += (total - start + 12) / 13;
    return i;
}

size_t module_of(const size_t *places, size_t total, size_t place, size_t bit)
{
    return places[8 * codeword_at(total, place) + bit];
}

void flip_codeword(uint8_t *square, const size_t *places, size_t total, size_t place, uint8_t bits)
{
    size_t i = codeword_at(total, place), bit;
    for (bit = 0; bit < 8; bit++)
        if (bits >> (7 - bit) & 1)
            square[places[8 * i + bit]] ^= 1;
}

size_t info_place(size_t side, int second, size_t n)
{
    size_t row = n < 9 ? 8 : n < 17 ? 16 - n : n < 26 ? n - 17 : 8;
    size_t column = n < 9 ? n : n < 17 ? 8 : n < 26 ? side - 9 : side - 9 + (n - 25);
    size_t place = row * side + column;
    return second ? side * side - 1 - place : place;
}

size_t next_below(uint64_t *seed, size_t limit)
{
    *seed = *seed * 6364136223846793005u + 1442695040888963407u;
    return (size_t)((*seed >> 33) % limit);
}
