#include "mark.h"

#include <string.h>

/* What a version's alignment has (docs/SPECIFICATION.md 4.5): m changes at these versions, and k is listed for each from version 4. */
static const uint8_t M_STARTS[] = {4, 11, 22, 32, 41, 49, 58, 66, 75, 83};
static const uint8_t K[] = {14, 16, 16, 17, 18, 19, 20, 14, 15, 16, 16, 17, 17, 18, 19, 20, 20, 21, 16, 17, 17,
                            18, 18, 19, 19, 20, 20, 21, 17, 17, 18, 18, 19, 19, 19, 20, 20, 17, 17, 18, 18, 18,
                            19, 19, 19, 17, 17, 18, 18, 18, 18, 19, 19, 19, 17, 17, 18, 18, 18, 18, 19, 19, 17,
                            17, 17, 18, 18, 18, 18, 19, 19, 17, 17, 17, 18, 18, 18, 18, 18, 17, 17};

typedef struct {
    uint8_t *kinds;
    long side, k, r, m;
    long lines[13]; /* row n of the alignment lies in row lines[n], column n in column side - 1 - lines[n] */
} Layout;

static long step_of(const Layout *l, long n) { return n < l->m ? l->k : l->r - 1; }

static void plot(const Layout *l, long x, long y)
{
    if (x < 0 || y < 0 || x >= l->side || y >= l->side)
        return;
    if (l->kinds[y * l->side + x] == KIND_DATA)
        l->kinds[y * l->side + x] = KIND_PATTERN;
}

/* A dark module with its eight light neighbours. */
static void assistant(const Layout *l, long x, long y)
{
    long i;
    for (i = 0; i < 9; i++)
        plot(l, x - 1 + i % 3, y - 1 + i / 3);
}

static void assistants(const Layout *l)
{
    long n;
    for (n = 0; n <= l->m + 1; n++) {
        long y = l->lines[n], x = l->side - 1 - y;
        if ((n + l->m) % 2 == 1) {
            assistant(l, 0, y);
            assistant(l, x, l->side - 1);
        }
        if (n % 2 == 1) {
            assistant(l, l->side - 1, y);
            assistant(l, x, 0);
        }
    }
}

/* A dark module and the light one at its lower left. */
static void line_module(const Layout *l, long x, long y)
{
    plot(l, x, y);
    plot(l, x - 1, y + 1);
}

/* The lines that go left and down from where column j and row n of the alignment cross. */
static void lines_from(const Layout *l, long n, long j)
{
    long x = l->side - 1 - l->lines[j], y = l->lines[n], i;
    for (i = 0; i <= step_of(l, j); i++)
        line_module(l, x - i, y);
    for (i = 1; i < step_of(l, n); i++)
        line_module(l, x, y + i);
}

static void alignment(Layout *l, size_t version)
{
    long n, j;
    l->m = 0;
    while (l->m < (long)sizeof M_STARTS && M_STARTS[l->m] <= version)
        l->m++;
    l->k = K[version - 4];
    l->r = l->side - l->m * l->k;
    l->lines[0] = 0;
    for (n = 0; n <= l->m; n++)
        l->lines[n + 1] = l->lines[n] + step_of(l, n);
    assistants(l);
    for (n = 0; n <= l->m + 1; n++)
        for (j = 0; j <= l->m + 1; j++)
            if ((n + j) % 2 == 0 && n + j > 0)
                lines_from(l, n, j);
}

/* Finders and separators are the squares of 8 x 8 modules in the corners, the information modules the arms around them. */
static uint8_t corner_kind(size_t side, size_t row, size_t column)
{
    size_t y = row < side - 1 - row ? row : side - 1 - row, x = column < side - 1 - column ? column : side - 1 - column;
    size_t ring = x > y ? x : y;
    return ring < 8 ? KIND_PATTERN : ring == 8 ? KIND_INFORMATION : KIND_DATA;
}

void layout(size_t version, uint8_t *kinds)
{
    size_t side = HX_SIDE(version), i, data = 0, spare;
    Layout l;
    memset(&l, 0, sizeof l);
    l.kinds = kinds;
    l.side = (long)side;
    for (i = 0; i < side * side; i++)
        kinds[i] = corner_kind(side, i / side, i % side);
    if (version >= 4)
        alignment(&l, version);
    for (i = 0; i < side * side; i++)
        data += kinds[i] == KIND_DATA;
    for (spare = data % 8, i = side * side; spare > 0; spare -= kinds[i] == KIND_LEFTOVER) {
        i--;
        if (kinds[i] == KIND_DATA)
            kinds[i] = KIND_LEFTOVER;
    }
}

size_t information_place(size_t side, int second, size_t n)
{
    size_t row = n < 9 ? 8 : n < 17 ? 16 - n : n < 26 ? n - 17 : 8;
    size_t column = n < 9 ? n : n < 17 ? 8 : n < 26 ? side - 9 : side - 9 + (n - 25);
    size_t place = row * side + column;
    return second ? side * side - 1 - place : place;
}
