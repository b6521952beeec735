/* Tests layout.c, make.c and square.c: against the library, against the masks that zint chose, and on squares in every position.
 *   mark_test FILE   FILE has zint's masks (program/zint_masks.txt) */
#include "mark.h"
#include "../c/marks.h"

#include <stdlib.h>
#include <string.h>

static unsigned long checks;

static void check(int good, const char *what, size_t number)
{
    checks++;
    if (!good) {
        printf("failed: %s (%zu)\n", what, number);
        exit(1);
    }
}

static uint64_t state = 20830;
static size_t below(size_t limit)
{
    state = state * 6364136223846793005u + 1442695040888963407u;
    return (size_t)((state >> 33) % limit);
}

/* A mark of random bytes, as many as were wanted or as fit. Answers how many. */
static size_t random_mark(size_t version, size_t level, size_t mask, size_t wanted, Square *q)
{
    static uint8_t payload[4096];
    size_t length = 0, step, i;
    for (i = 0; i < sizeof payload; i++)
        payload[i] = (uint8_t)below(256);
    q->side = HX_SIDE(version);
    for (step = 2048; step > 0; step /= 2)
        if (length + step <= wanted
            && write_run(version, level, mask, HX_MODE_BYTES, payload, length + step, q->modules) == HX_OK)
            length += step;
    write_run(version, level, mask, HX_MODE_BYTES, payload, length, q->modules);
    return length;
}

/* Data modules are those that change with the data; modules of patterns never change, leftover ones only with the mask. */
static void test_layout(size_t version)
{
    static uint8_t kinds[HX_SIZE_SQUARE], expected[HX_SIZE_SQUARE];
    static size_t places[HX_SIZE_SQUARE];
    static Square first, other;
    size_t side = HX_SIDE(version), n = side * side, room = random_mark(version, 0, 0, 4000, &first) + 3, i, turn;
    memset(expected, KIND_PATTERN, n);
    for (i = 0; i < 68; i++)
        expected[information_place(side, i >= 34, i % 34)] = KIND_INFORMATION;
    for (i = data_modules(version, 0, room, places); i > 0; i--)
        expected[places[i - 1]] = KIND_DATA;
    layout(version, kinds);
    for (i = 0; i < n; i++)
        check(kinds[i] == expected[i] || (kinds[i] == KIND_LEFTOVER && expected[i] == KIND_PATTERN), "layout", version);
    for (turn = 1; turn < 16; turn++) {
        random_mark(version, turn / 4, turn % 4, 9, &other);
        for (i = 0; i < n; i++)
            check(kinds[i] != KIND_PATTERN || first.modules[i] == other.modules[i], "a pattern changes", version);
    }
    for (i = 0, room = 0; i < n; i++)
        room += kinds[i] == KIND_LEFTOVER;
    check(room >= 1 && room <= 7, "number of leftover modules", version);
}

/* Lines of zint's choices: level, version, mask and the payload in hex. */
static void test_masks(const char *name)
{
    static Mark mark;
    static char hex[20000];
    unsigned level, version, mask, byte;
    size_t line = 0, i;
    FILE *file = fopen(name, "r");
    check(file != NULL, "no file of masks", 0);
    while (fscanf(file, "%u %u %u %19999s", &level, &version, &mask, hex) == 4) {
        Choice choice = {0, MASK_AUTO, 0};
        choice.level = level;
        line++;
        mark.payload.length = strlen(hex) / 2;
        for (i = 0; i < mark.payload.length && sscanf(hex + 2 * i, "%2x", &byte) == 1; i++)
            mark.payload.bytes[i] = (uint8_t)byte;
        check(mark_write(&mark, &choice) == HX_OK, "a mark is not written", line);
        check(mark.version == version, "another version than zint's", line);
        check(mark.mask == mask, "another mask than zint's", line);
    }
    fclose(file);
    check(line >= 1000, "too few masks", line);
}

/* The square of a mark in a picture: mirrored from left to right, turned, with so many pixels for each module and light around it. */
static void draw(const Square *q, const Position *p, Picture *picture)
{
    size_t side = q->side, y, x;
    picture->width = p->left + side * p->scale + 5;
    picture->height = p->top + side * p->scale + 5;
    picture->pixels = calloc(picture->width, picture->height);
    check(picture->pixels != NULL, "no memory", 0);
    for (y = 0; y < side * p->scale; y++)
        for (x = 0; x < side * p->scale; x++) {
            size_t r = y / p->scale, c = x / p->scale, row, column;
            row = p->turned == 0 ? r : p->turned == 90 ? side - 1 - c : p->turned == 180 ? side - 1 - r : c;
            column = p->turned == 0 ? c : p->turned == 90 ? r : p->turned == 180 ? side - 1 - c : side - 1 - r;
            column = p->mirrored ? side - 1 - column : column;
            picture->pixels[(p->top + y) * picture->width + p->left + x] = q->modules[row * side + column];
        }
}

static int find(const Square *q, const Position *p, Square *found, Position *position)
{
    Expected expected = {0, 0, 0, 0, 0, 0, 0};
    Picture picture;
    Words why;
    int good;
    draw(q, p, &picture);
    good = square_find(&picture, &expected, found, position, &why);
    free(picture.pixels);
    return good;
}

/* Whether the word of this version, level and mask, mirrored, is nearly a word of the version again: then a mirrored mark is not told from
 * one that is not. There are three of 1,344 (bench/locking --check tries all). */
static int is_word_mirrored(size_t version, size_t level, size_t mask)
{
    return (version == 43 && level == 1 && mask == 3) || (version == 51 && level == 3 && mask == 3)
           || (version == 52 && level == 2 && mask == 0);
}

/* A clean mark is found in each of the eight positions. */
static void test_positions(size_t version)
{
    static Square q, found;
    size_t turn, scale = version < 20 ? 1 + below(6) : 1;
    for (turn = 0; turn < 8; turn++) {
        Position p = {0, 0, 0, 0, 0}, position;
        size_t level = below(4), mask = below(4);
        p.turned = (unsigned)(turn % 4 * 90);
        p.mirrored = turn >= 4;
        p.scale = scale;
        p.left = below(9);
        p.top = below(9);
        random_mark(version, level, mask, 9, &q);
        if (p.mirrored && is_word_mirrored(version, level, mask))
            continue;
        check(find(&q, &p, &found, &position), "not found", version);
        check(position.turned == p.turned && position.mirrored == p.mirrored, "found in another position", version);
        check(position.scale == p.scale && position.left == p.left && position.top == p.top, "found elsewhere", version);
        check(found.side == q.side && memcmp(found.modules, q.modules, q.side * q.side) == 0, "other modules", version);
    }
}

/* Damage that does not reach the finders' majority: flips anywhere, at most 8 of them in the information modules; a corner lost. */
static void test_damaged(size_t turn)
{
    static Square q, found;
    size_t version = 1 + below(12), side = HX_SIDE(version), i;
    Position p = {0, 0, 0, 0, 0}, position;
    p.turned = (unsigned)(turn % 4 * 90);
    p.scale = 1 + below(3);
    p.left = p.top = 4;
    random_mark(version, below(4), below(4), 9, &q);
    if (turn % 3 == 0) {
        size_t corner = below(4);
        for (i = 0; i < 49; i++)
            q.modules[(corner / 2 * (side - 7) + i / 7) * side + corner % 2 * (side - 7) + i % 7] = (uint8_t)(turn % 2);
    }
    if (turn % 3 == 1)
        for (i = 0; i < 8; i++)
            q.modules[information_place(side, i % 2 == 0, below(34))] ^= 1;
    for (i = 0; i < side * side / 50 && turn % 3 == 2; i++) {
        size_t row = 9 + below(side - 18), column = 9 + below(side - 18);
        q.modules[row * side + column] = (uint8_t)below(3);
    }
    if (turn % 3 == 0 && turn % 2 == 0)
        p.left = p.top = 0; /* a corner that is light would move the edge of the dark area; here the border is none */
    check(find(&q, &p, &found, &position), "damaged, not found", turn);
    check(position.turned == p.turned && !position.mirrored, "damaged, found in another position", turn);
    check(memcmp(found.modules, q.modules, side * side) == 0, "damaged, other modules", turn);
}

/* A mark that is not mirrored is never taken so while its information modules fit, even where they fit a mark mirrored too: as those of
 * these three do. When they are mirrored, that is not told. */
static void test_mirrored_words(void)
{
    static const size_t kinds[3][3] = {{43, 1, 3}, {51, 3, 3}, {52, 2, 0}};
    static Square q, found;
    size_t i, n;
    for (i = 0; i < 6; i++) {
        const size_t *kind = kinds[i / 2];
        Position p = {0, 0, 1, 2, 2}, position;
        p.mirrored = i % 2 == 1;
        random_mark(kind[0], kind[1], kind[2], 9, &q);
        for (n = 0; n < 8 && !p.mirrored; n++)
            q.modules[information_place(q.side, n % 2 == 0, 4 * n)] ^= 1;
        check(find(&q, &p, &found, &position) && !position.mirrored, "taken as mirrored", kind[0]);
    }
}

/* A mirrored mark is told by its information modules as long as no more of them are flipped than a reading allows, which is 10. */
static void test_mirrored_and_flipped(void)
{
    static Square q, found;
    size_t flips, n;
    for (flips = 0; flips <= 11; flips++) {
        Position p = {0, 1, 1, 2, 2}, position;
        random_mark(10, 0, 0, 9, &q);
        for (n = 0; n < flips; n++)
            q.modules[information_place(q.side, n % 2 == 0, 3 * n)] ^= 1;
        check(find(&q, &p, &found, &position), "mirrored and flipped, not found", flips);
        check(position.mirrored == (flips <= 10), "mirrored and flipped, told otherwise", flips);
    }
}

/* An outer row is light, so that the dark area is no square; the border, as wide on each side, tells where the mark is. */
static void test_lost_row(void)
{
    static Square q, found;
    size_t edge, i;
    for (edge = 0; edge < 4; edge++) {
        Position p = {0, 0, 3, 5, 5}, position; /* draw leaves five pixels behind the mark */
        random_mark(4, 2, 1, 9, &q);
        for (i = 0; i < q.side; i++)
            q.modules[edge == 0   ? i
                      : edge == 1 ? q.side * (q.side - 1) + i
                      : edge == 2 ? q.side * i
                                  : q.side * i + q.side - 1] = 0;
        check(find(&q, &p, &found, &position), "a lost row, not found", edge);
        check(position.left == 5 && position.top == 5 && position.scale == 3 && position.turned == 0, "a lost row, elsewhere",
              edge);
        check(memcmp(found.modules, q.modules, q.side * q.side) == 0, "a lost row, other modules", edge);
    }
}

/* Two corners lost, the odd one among them: then no position is nearer than all others, and nothing is guessed. */
static void test_not_told(void)
{
    static Square q, found;
    Position p = {0, 0, 1, 0, 0}, position;
    size_t i, turn;
    random_mark(5, 2, 1, 9, &q);
    for (i = 0; i < 49; i++)
        q.modules[(i / 7) * q.side + i % 7] = q.modules[(q.side - 7 + i / 7) * q.side + i % 7] = 0;
    check(!find(&q, &p, &found, &position), "told without its finders", 0);
    for (turn = 0; turn < 300; turn++) {
        for (i = 0; i < q.side * q.side; i++)
            q.modules[i] = (uint8_t)below(2);
        check(!find(&q, &p, &found, &position), "found in noise", turn);
    }
}

int main(int count, char **arguments)
{
    size_t i;
    check(count == 2, "usage: mark_test FILE", (size_t)count);
    for (i = 1; i <= 84; i++) {
        test_layout(i);
        test_positions(i);
    }
    test_masks(arguments[1]);
    for (i = 0; i < 600; i++)
        test_damaged(i);
    test_mirrored_words();
    test_mirrored_and_flipped();
    test_lost_row();
    test_not_told();
    printf("layouts, masks and positions: %lu checks\n", checks);
    return 0;
}
