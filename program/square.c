#include "mark.h"

#include <stdint.h>
#include <string.h>

/* The finders, row by row with bit 6 the leftmost (docs/SPECIFICATION.md 4.2), at the top left, top right, bottom left and bottom right:
 * three have the corner of their two outer dark lines at the corner of the square; the one at the bottom left has it towards the
 * middle. */
enum { FINDER = 7, CELLS = FINDER * FINDER, FINDER_MODULES = 4 * CELLS };
static const uint8_t FINDERS[4][FINDER] = {{0x7F, 0x40, 0x5F, 0x50, 0x57, 0x57, 0x57},
                                           {0x7F, 0x01, 0x7D, 0x05, 0x75, 0x75, 0x75},
                                           {0x7F, 0x01, 0x7D, 0x05, 0x75, 0x75, 0x75},
                                           {0x75, 0x75, 0x75, 0x05, 0x7D, 0x01, 0x7F}};

/* Two positions differ in 44 modules of the finders. One is taken if it is nearer than each of the others by a quarter of these, and not
 * more than a third of all modules of the finders differ. */
enum { LEAST_LEAD = 11, MOST_DIFFERENT = FINDER_MODULES / 3 };

/* Where in the picture a square is taken from, and by how many quarters it is turned clockwise there. */
typedef struct {
    size_t left, top, size, scale;
    unsigned quarters;
} Frame;

/* The place in a square that is turned clockwise by so many quarters of the module in this row and column of the mark. */
static size_t turned_place(size_t side, unsigned quarters, size_t row, size_t column)
{
    size_t last = side - 1;
    switch (quarters) {
    case 1: return column * side + last - row;
    case 2: return (last - row) * side + last - column;
    case 3: return (last - column) * side + row;
    default: return row * side + column;
    }
}

/* The corners of a square, 7 x 7 modules each. */
typedef struct {
    uint8_t modules[4][CELLS];
} Corners;

/* Each module by the pixel in its middle. */
static void take_corners(const Picture *p, const Frame *f, Corners *corners)
{
    size_t far = f->size - FINDER * f->scale, i, row, column;
    for (i = 0; i < 4; i++) {
        size_t top = f->top + (i >= 2 ? far : 0) + f->scale / 2, left = f->left + (i % 2 == 1 ? far : 0) + f->scale / 2;
        for (row = 0; row < FINDER; row++)
            for (column = 0; column < FINDER; column++)
                corners->modules[i][row * FINDER + column] =
                    p->pixels[(top + row * f->scale) * p->width + left + column * f->scale];
    }
}

/* In how many modules the finders differ from those of a mark that is turned so; unknown ones do not count. A corner of the mark comes to
 * the next one clockwise, and is turned itself. */
static unsigned finders_differ(const Corners *corners, unsigned quarters)
{
    static const uint8_t around[4] = {0, 1, 3, 2}; /* a corner's number on the way around, and back */
    unsigned differ = 0;
    size_t i, row, column;
    for (i = 0; i < 4; i++) {
        const uint8_t *modules = corners->modules[around[(around[i] + quarters) % 4]];
        for (row = 0; row < FINDER; row++)
            for (column = 0; column < FINDER; column++) {
                uint8_t module = modules[turned_place(FINDER, quarters, row, column)];
                differ += module != HX_MODULE_UNKNOWN && module != (FINDERS[i][row] >> (6 - column) & 1u);
            }
    }
    return differ;
}

/* The two nearest of the four turns. */
typedef struct {
    unsigned quarters, differ, next;
} Turn;

static Turn nearest_turn(const Picture *p, const Frame *f)
{
    Turn turn = {0, FINDER_MODULES + 1, FINDER_MODULES + 1};
    Corners corners;
    unsigned quarters;
    take_corners(p, f, &corners);
    for (quarters = 0; quarters < 4; quarters++) {
        unsigned differ = finders_differ(&corners, quarters);
        if (differ < turn.differ) {
            turn.next = turn.differ;
            turn.differ = differ;
            turn.quarters = quarters;
        } else if (differ < turn.next) {
            turn.next = differ;
        }
    }
    return turn;
}

/* In how many modules the finders differ from those of a mark that lies upright. */
static unsigned upright_differs(const Picture *p, const Frame *f)
{
    Corners corners;
    take_corners(p, f, &corners);
    return finders_differ(&corners, 0);
}

/* The smallest area with all that is not light: left and top are its first column and row, right and bottom the first ones behind it. */
typedef struct {
    size_t left, top, right, bottom;
} Area;

/* Widens the area by one row. */
static void add_row(const Picture *p, size_t y, Area *area)
{
    const uint8_t *row = p->pixels + y * p->width;
    size_t x = 0, end = p->width;
    while (x < p->width && row[x] == HX_MODULE_LIGHT)
        x++;
    if (x == p->width)
        return;
    while (end > area->right && row[end - 1] == HX_MODULE_LIGHT)
        end--;
    area->left = x < area->left ? x : area->left;
    area->right = end;
    area->top = y < area->top ? y : area->top;
    area->bottom = y + 1;
}

/* Answers whether anything is not light. */
static int dark_area(const Picture *p, Area *area)
{
    size_t y;
    area->left = p->width;
    area->top = p->height;
    area->right = area->bottom = 0;
    for (y = 0; y < p->height; y++)
        add_row(p, y, area);
    return area->bottom > 0;
}

/* The frames that are tried: the whole picture, what is left without a border that is as wide on each side, and the dark area. The
 * second has the square of a mark with an outer row that was scratched away. Answers how many are square. */
static size_t frames_of(const Picture *p, Frame *frames, Words *why)
{
    Area area;
    size_t border, n = 0;
    if (!dark_area(p, &area))
        return (size_t)say(why, "the picture has no dark pixel");
    border = area.left < area.top ? area.left : area.top;
    border = p->width - area.right < border ? p->width - area.right : border;
    border = p->height - area.bottom < border ? p->height - area.bottom : border;
    memset(frames, 0, 3 * sizeof *frames);
    if (p->width == p->height) {
        frames[n++].size = p->width;
        frames[n].left = frames[n].top = border;
        frames[n++].size = p->width - 2 * border;
    }
    if (area.right - area.left == area.bottom - area.top) {
        frames[n].left = area.left;
        frames[n].top = area.top;
        frames[n++].size = area.right - area.left;
    }
    if (n == 0)
        say(why, "the dark area is %zu x %zu pixels, which is no square", area.right - area.left, area.bottom - area.top);
    return n;
}

/* Whether a mark can have this side. */
static int is_side(size_t side) { return side >= HX_SIDE(1) && side <= HX_SIDE(84) && side % 2 == 1; }

/* The frame and the number of pixels of a module for which the finders stand best in the corners. */
static int find_frame(const Picture *p, int upright, Frame *best, Words *why)
{
    Frame frames[3];
    size_t n = frames_of(p, frames, why), i;
    unsigned least = FINDER_MODULES + 1;
    if (n == 0)
        return 0;
    for (i = 0; i < n; i++) {
        Frame f = frames[i];
        for (f.scale = 1; f.scale * HX_SIDE(1) <= f.size && least > 0; f.scale++) {
            unsigned differ;
            if (f.size % f.scale != 0 || !is_side(f.size / f.scale))
                continue;
            differ = upright ? upright_differs(p, &f) : nearest_turn(p, &f).differ;
            if (differ < least) {
                least = differ;
                *best = f;
            }
        }
    }
    if (least > FINDER_MODULES)
        return say(why, "the dark area of %zu x %zu pixels is no square of 23, 25 .. 189 modules of whole pixels",
                   frames[n - 1].size, frames[n - 1].size);
    return 1;
}

/* Which way it lies, by its finders. */
static int find_turn(const Picture *p, Frame *f, Words *why)
{
    Turn turn = nearest_turn(p, f);
    size_t side = f->size / f->scale;
    f->quarters = turn.quarters;
    if (turn.differ > MOST_DIFFERENT)
        return say(
            why,
            "no finders stand in the corners of the dark area, for any whole number of pixels for a module (best: %zu x %zu "
            "modules of %zu pixels, with %u of the 196 modules of the finders different)",
            side, side, f->scale, turn.differ);
    if (turn.next < turn.differ + LEAST_LEAD)
        return say(
            why, "which way the square lies cannot be told from its finders: %u of their 196 modules differ, turned otherwise %u",
            turn.differ, turn.next);
    return 1;
}

/* The first pixel of a module. */
static const uint8_t *first_of(const Picture *p, const Frame *f, size_t place)
{
    size_t side = f->size / f->scale;
    return p->pixels + (f->top + place / side * f->scale) * p->width + f->left + place % side * f->scale;
}

/* Whether all pixels of a module are as its first one. */
static int is_one_shade(const Picture *p, const Frame *f, const uint8_t *first)
{
    size_t y;
    if (memcmp(first, first + 1, f->scale - 1) != 0)
        return 0;
    for (y = 1; y < f->scale; y++)
        if (memcmp(first, first + y * p->width, f->scale) != 0)
            return 0;
    return 1;
}

static size_t dark_pixels(const Picture *p, const Frame *f, const uint8_t *first)
{
    size_t i, n = 0;
    for (i = 0; i < f->scale * f->scale; i++)
        n += first[i / f->scale * p->width + i % f->scale] == HX_MODULE_DARK;
    return n;
}

/* The modules of the frame, laid upright. A module with pixels of several shades is refused, or unknown if that is wanted. */
static int take_modules(const Picture *p, const Frame *f, int mixed, Square *q, Words *why)
{
    size_t side = f->size / f->scale, i;
    q->side = side;
    for (i = 0; i < side * side; i++) {
        size_t place = turned_place(side, f->quarters, i / side, i % side);
        const uint8_t *first = first_of(p, f, place);
        int uniform = is_one_shade(p, f, first);
        q->modules[i] = uniform ? *first : HX_MODULE_UNKNOWN;
        if (!uniform && !mixed)
            return say(
                why,
                "the module in row %zu and column %zu of the picture's square is not of one shade: of its %zu pixels %zu are "
                "dark (--mixed takes such modules as unknown)",
                place / side, place % side, f->scale * f->scale, dark_pixels(p, f, first));
    }
    return 1;
}

/* In how many information modules a square differs from a word; of an unknown module the reading thinks that it is light. */
static unsigned word_differs(const Square *q, const Square *written)
{
    unsigned differ = 0;
    size_t n;
    for (n = 0; n < 68; n++) {
        size_t place = information_place(q->side, n >= 34, n % 34);
        differ += (q->modules[place] == HX_MODULE_DARK) != (written->modules[place] == HX_MODULE_DARK);
    }
    return differ;
}

/* Whether the information modules of a square fit a mark of its side, or the known one: no more differ than refusal 4 allows. The word
 * that a clean square has is tried first. */
static int fits_word(const Square *q, const Expected *expected)
{
    static const uint8_t script[3] = {HX_MODE_NUMERIC, 0, 1}, payload[1] = {'0'};
    static Square written;
    size_t n, first = 0, version = (q->side - 21) / 2;
    for (n = 8; n < 12; n++) /* level and mask are the bits 8 to 11 of a word */
        first = 2 * first + (q->modules[information_place(q->side, 0, n)] == HX_MODULE_DARK);
    for (n = 0; n < 16; n++) {
        size_t level = (first + n) % 16 / 4, mask = (first + n) % 4;
        if (expected->known && (level != expected->level || mask != expected->mask))
            continue;
        hx_write_square(version, level, mask, script, sizeof script, payload, sizeof payload, written.modules, q->side * q->side);
        if (word_differs(q, &written) <= 10)
            return 1;
    }
    return 0;
}

/* Mirrored at the diagonal from bottom left to top right, where finders and alignment patterns stay the same. */
static void mirror(const Square *q, Square *mirrored)
{
    size_t side = q->side, i;
    mirrored->side = side;
    for (i = 0; i < side * side; i++)
        mirrored->modules[i] = q->modules[(side - 1 - i % side) * side + side - 1 - i / side];
}

/* Finders do not tell whether a square is mirrored. It is taken so only if its information modules fit no mark as it lies, and do fit
 * one mirrored: so a mark that is not mirrored, with at most 8 of them flipped, is never taken as mirrored. */
static int is_mirrored(const Square *q, const Square *mirrored, const Expected *expected)
{
    if (expected->mirrored || expected->upright)
        return expected->mirrored;
    return !fits_word(q, expected) && fits_word(mirrored, expected);
}

int square_find(const Picture *picture, const Expected *expected, Square *square, Position *position, Words *why)
{
    static Square mirrored;
    Frame frame = {0, 0, 0, 0, 0};
    if (!find_frame(picture, expected->upright, &frame, why))
        return 0;
    if (!expected->upright && !find_turn(picture, &frame, why))
        return 0;
    if (!take_modules(picture, &frame, expected->mixed, square, why))
        return 0;
    mirror(square, &mirrored);
    position->mirrored = is_mirrored(square, &mirrored, expected);
    if (position->mirrored) /* this mirroring is one from left to right, then a quarter turn */
        *square = mirrored;
    position->turned = (frame.quarters + (position->mirrored ? 1u : 0u)) % 4 * 90;
    position->scale = frame.scale;
    position->left = frame.left;
    position->top = frame.top;
    return 1;
}

const char *position_words(const Position *position)
{
    static const char *const words[2][4] = {
        {"upright", "turned 90 degrees clockwise", "turned 180 degrees", "turned 270 degrees clockwise"},
        {"mirrored", "mirrored, then turned 90 degrees clockwise", "mirrored, then turned 180 degrees",
         "mirrored, then turned 270 degrees clockwise"}};
    return words[position->mirrored != 0][position->turned / 90 % 4];
}
