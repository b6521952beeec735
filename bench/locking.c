/* locking: how often a damaged mark is read right, refused, or read as another one. bench/locking builds and runs it. The tables that it
 * prints are Markdown; docs/LOCKING.md has them. Every number is made from a fixed seed, so that each run prints the same. */
#include "marks.h"

#include <ctype.h>
#include <stdio.h>
#include <stdlib.h>
#include <string.h>

enum { VERSIONS = 84, LEVELS = 4, CAPS = 3, FILLINGS = 4 };
enum { SEED = 1 };

static void stop(const char *what)
{
    fprintf(stderr, "locking: %s\n", what);
    exit(1);
}

/* KINDS OF MARKS. The table of blocks as scripts/blocks.txt has it: for each version its codewords, then for each level three batches
 * of a count of blocks, their data and their parity. */
static size_t table[VERSIONS][1 + 9 * LEVELS];

static void read_table(const char *name)
{
    FILE *file = fopen(name, "r");
    char line[512], *at;
    size_t version = 0, i;
    if (file == NULL)
        stop("the table of blocks cannot be read");
    while (version < VERSIONS && fgets(line, sizeof line, file) != NULL) {
        if (line[0] == '#')
            continue;
        for (at = line, i = 0; i < 1 + 9 * LEVELS; i++) {
            while (*at != 0 && !isdigit((unsigned char)*at))
                at++;
            table[version][i] = strtoul(at, &at, 10);
        }
        version++;
    }
    fclose(file);
    if (version != VERSIONS)
        stop("the table of blocks has not 84 versions");
}

typedef struct {
    size_t version, level, side, total, room, reach, blocks; /* room: data codewords; reach: of all blocks, added */
    const size_t *batches;                                   /* count, data, parity, three times */
} Kind;

static Kind kind_of(size_t version, size_t level)
{
    Kind kind = {0, 0, 0, 0, 0, 0, 0, NULL};
    size_t i;
    kind.version = version;
    kind.level = level;
    kind.side = HX_SIDE(version);
    kind.total = table[version - 1][0];
    kind.batches = table[version - 1] + 1 + 9 * level;
    for (i = 0; i < 9; i += 3) {
        kind.blocks += kind.batches[i];
        kind.room += kind.batches[i] * kind.batches[i + 1];
        kind.reach += kind.batches[i] * (kind.batches[i + 2] / 2);
    }
    return kind;
}

/* MARKS with a random payload. Digits end in check digits: the last is Luhn's over all before it, the two before that are those of
 * ISO 7064 MOD 97-10 over all before them. */
typedef enum { FULL_DIGITS, SHORT_DIGITS, FULL_TEXT, FULL_BYTES, FORMS } Form;

static const char *const FORM_NAMES[FORMS] = {"digits that fill the mark", "8 digits", "letters and digits that fill the mark",
                                              "bytes that fill the mark"};

/* How many payload bytes of a form a kind of mark holds (SPECIFICATION 9.4; text without switches). */
static size_t fits(const Kind *kind, Form form)
{
    size_t bits = 8 * kind->room;
    switch (form) {
    case FULL_DIGITS: return 3 * ((bits - 14) / 10);
    case FULL_TEXT: return (bits - 10) / 6;
    case FULL_BYTES: return (bits - 17) / 8;
    default: return 8;
    }
}

static uint8_t mode_of(Form form)
{
    return form == FULL_TEXT ? HX_MODE_TEXT : form == FULL_BYTES ? HX_MODE_BYTES : HX_MODE_NUMERIC;
}

typedef struct {
    Kind kind;
    Form form;
    size_t mask, length;
    uint8_t payload[8192], square[HX_SIZE_SQUARE];
} Mark;

static unsigned luhn(const uint8_t *digits, size_t n)
{
    unsigned sum = 0, twice = 0;
    for (; n > 0; n--) {
        unsigned digit = (digits[n - 1] - 48u) * (1u + twice);
        sum += digit / 10 + digit % 10;
        twice = !twice;
    }
    return sum % 10;
}

static unsigned mod97(const uint8_t *digits, size_t n)
{
    unsigned rest = 0;
    size_t i;
    for (i = 0; i < n; i++)
        rest = (rest * 10 + (digits[i] - 48u)) % 97;
    return rest;
}

/* Three check digits behind `body` digits. */
static void add_check_digits(uint8_t *digits, size_t body)
{
    unsigned check;
    memset(digits + body, '0', 3);
    check = 98 - mod97(digits, body + 2);
    digits[body] = (uint8_t)(48 + check / 10);
    digits[body + 1] = (uint8_t)(48 + check % 10);
    digits[body + 2] = (uint8_t)(48 + (10 - luhn(digits, body + 3)) % 10);
}

static uint8_t random_byte(Form form, uint64_t *seed)
{
    static const char letters[] = "0123456789ABCDEFGHIJKLMNOPQRSTUVWXYZabcdefghijklmnopqrstuvwxyz";
    if (form == FULL_BYTES)
        return (uint8_t)next_below(seed, 256);
    return (uint8_t)letters[next_below(seed, form == FULL_TEXT ? 62 : 10)];
}

/* A new payload and mask for the kind and form that stand in the mark, and its square. */
static void draw(Mark *mark, uint64_t *seed)
{
    size_t i;
    mark->length = fits(&mark->kind, mark->form);
    mark->mask = next_below(seed, 4);
    for (i = 0; i < mark->length; i++)
        mark->payload[i] = random_byte(mark->form, seed);
    if (mode_of(mark->form) == HX_MODE_NUMERIC && mark->length > 3)
        add_check_digits(mark->payload, mark->length - 3);
    if (write_run(mark->kind.version, mark->kind.level, mark->mask, mode_of(mark->form), mark->payload, mark->length,
                  mark->square)
        != HX_OK)
        stop("a mark was not written");
}

/* READING. */
typedef enum { READ, KNOWN, WAYS } Way;

static hx_payload payload;
static hx_script script;

static hx_status look(const Mark *mark, const uint8_t *square, Way way, hx_receipt *receipt)
{
    const Kind *kind = &mark->kind;
    size_t length = kind->side * kind->side;
    if (way == READ)
        return hx_read(square, length, kind->side, &payload, &script, receipt);
    return hx_read_as(square, length, kind->version, kind->level, mark->mask, &payload, &script, receipt);
}

static int same_payload(const Mark *mark)
{
    return payload.length == mark->length && memcmp(payload.bytes, mark->payload, mark->length) == 0;
}

/* Right is what was written: payload, script, version, level and mask. */
static int is_right(const Mark *mark, const hx_receipt *receipt)
{
    return same_payload(mark) && script.length == 3 && script.bytes[0] == mode_of(mark->form)
           && receipt->level == mark->kind.level && receipt->mask == mark->mask && receipt->version == mark->kind.version;
}

/* COUNTS. */
typedef struct {
    unsigned long trials, right, wrong;
    unsigned long word_fits, blocks_fit; /* not refused with 4; nor with 6 */
    unsigned long payload_only;          /* wrong, but the payload is that of the mark */
    unsigned long other_word;            /* wrong, and at another level or mask */
    unsigned long at[3];                 /* wrong, with a count of repairs at full reach, one below, lower */
    unsigned long right_over[CAPS], wrong_within[CAPS];
    unsigned long formed, luhn, mod97, both; /* wrong, with as many digits as the mark; and with these check digits right */
} Tally;

/* The caps on repairs: one below the reach of the mark, two below, half of it. */
static size_t cap(const Kind *kind, size_t i) { return i == 2 ? kind->reach / 2 : kind->reach - 1 - i; }

static void count_checks(Tally *tally, const Mark *mark)
{
    size_t i;
    int a, b;
    for (i = 0; i < payload.length; i++)
        if (!isdigit(payload.bytes[i]))
            return;
    if (payload.length != mark->length || mode_of(mark->form) != HX_MODE_NUMERIC)
        return;
    a = luhn(payload.bytes, payload.length) == 0;
    b = mod97(payload.bytes, payload.length - 1) == 1;
    tally->formed++;
    tally->luhn += (unsigned)a;
    tally->mod97 += (unsigned)b;
    tally->both += (unsigned)(a && b);
}

static void count_wrong(Tally *tally, const Mark *mark, const hx_receipt *receipt)
{
    size_t reach = kind_of(receipt->version, receipt->level).reach, below = reach - receipt->corrected, i;
    tally->wrong++;
    tally->at[below < 2 ? below : 2]++;
    tally->payload_only += (unsigned)same_payload(mark);
    tally->other_word += receipt->level != mark->kind.level || receipt->mask != mark->mask;
    for (i = 0; i < CAPS; i++)
        tally->wrong_within[i] += receipt->corrected <= cap(&mark->kind, i);
    count_checks(tally, mark);
}

static void count(Tally *tally, const Mark *mark, const uint8_t *square, Way way)
{
    hx_receipt receipt;
    hx_status status = look(mark, square, way, &receipt);
    size_t i;
    tally->trials++;
    tally->word_fits += status != HX_REFUSED_INFORMATION;
    tally->blocks_fit += status != HX_REFUSED_INFORMATION && status != HX_REFUSED_BLOCK;
    if (status != HX_OK)
        return;
    if (!is_right(mark, &receipt)) {
        count_wrong(tally, mark, &receipt);
        return;
    }
    tally->right++;
    for (i = 0; i < CAPS; i++)
        tally->right_over[i] += receipt.corrected > cap(&mark->kind, i);
}

static void add(Tally *sum, const Tally *t)
{
    size_t i;
    sum->trials += t->trials;
    sum->right += t->right;
    sum->wrong += t->wrong;
    sum->payload_only += t->payload_only;
    sum->other_word += t->other_word;
    for (i = 0; i < 3; i++)
        sum->at[i] += t->at[i];
    for (i = 0; i < CAPS; i++) {
        sum->right_over[i] += t->right_over[i];
        sum->wrong_within[i] += t->wrong_within[i];
    }
    sum->formed += t->formed;
    sum->luhn += t->luhn;
    sum->mod97 += t->mod97;
    sum->both += t->both;
}

/* DAMAGE. */
static const size_t PERCENTS[] = {1, 2, 4, 8, 16};
enum { SHARES = sizeof PERCENTS / sizeof PERCENTS[0] };

static size_t flips_of(const Kind *kind, size_t percent) { return (kind->side * kind->side * percent + 50) / 100; }

static void reset_order(size_t *order)
{
    size_t i;
    for (i = 0; i < HX_SIZE_SQUARE; i++)
        order[i] = i;
}

/* Flips n different modules. `order` holds the places of the square in any order, and still does after it. */
static void flip(Mark *mark, size_t n, size_t *order, uint64_t *seed)
{
    size_t length = mark->kind.side * mark->kind.side, i;
    for (i = 0; i < n; i++) {
        size_t j = i + next_below(seed, length - i), place = order[j];
        order[j] = order[i];
        order[i] = place;
        mark->square[place] ^= 1;
    }
}

/* Both readings of so many marks with n flipped modules. */
static void try_flips(Mark *mark, size_t n, unsigned long trials, Tally tally[WAYS])
{
    static size_t order[HX_SIZE_SQUARE];
    uint64_t seed = SEED + 1000000 * mark->kind.version + 100000 * mark->kind.level + 10000 * (size_t)mark->form + n;
    reset_order(order);
    memset(tally, 0, WAYS * sizeof tally[0]);
    for (; trials > 0; trials--) {
        draw(mark, &seed);
        flip(mark, n, order, &seed);
        count(&tally[READ], mark, mark->square, READ);
        count(&tally[KNOWN], mark, mark->square, KNOWN);
    }
}

/* A scratch is a straight line of modules at a random angle through a random module, which is its middle. Its length is counted along
 * rows or columns, whichever it crosses more of, and its width across; what lies outside the square is cut off. */
typedef struct {
    size_t length, width;
    size_t percent; /* of all modules, flipped besides, which nobody has noticed */
} Scratch;

static long rounded(long a, long b)
{
    long size = (2 * labs(a) + labs(b)) / (2 * labs(b));
    return (a < 0) == (b < 0) ? size : -size;
}

/* The direction is that of a random point of a disc. */
static size_t scratch_places(const Kind *kind, Scratch scratch, uint64_t *seed, size_t *places)
{
    long side = (long)kind->side, down, right, middle[2], k, w, n = (long)scratch.length;
    size_t found = 0;
    do {
        down = (long)next_below(seed, 2001) - 1000;
        right = (long)next_below(seed, 2001) - 1000;
    } while (down * down + right * right > 1000000 || (down == 0 && right == 0));
    middle[0] = (long)next_below(seed, kind->side);
    middle[1] = (long)next_below(seed, kind->side);
    for (k = -(n / 2); k < n - n / 2; k++) {
        for (w = 0; w < (long)scratch.width; w++) {
            int steep = labs(down) > labs(right);
            long row = middle[0] + (steep ? k : rounded(k * down, right) + w);
            long column = middle[1] + (steep ? rounded(k * right, down) + w : k);
            if (row >= 0 && row < side && column >= 0 && column < side)
                places[found++] = (size_t)(row * side + column);
        }
    }
    return found;
}

typedef enum { ALL_DARK, ALL_LIGHT, RANDOM, ALL_UNKNOWN } Filling;

static uint8_t filled(Filling filling, uint64_t *seed)
{
    static const uint8_t modules[FILLINGS] = {HX_MODULE_DARK, HX_MODULE_LIGHT, 0, HX_MODULE_UNKNOWN};
    return filling == RANDOM ? (uint8_t)next_below(seed, 2) : modules[filling];
}

/* The same marks with the same scratches, filled in each way. */
static void try_scratches(Mark *mark, Scratch scratch, unsigned long trials, Tally tally[FILLINGS])
{
    static uint8_t square[HX_SIZE_SQUARE];
    static size_t places[1024], order[HX_SIZE_SQUARE];
    uint64_t seed = SEED + 1000000 * mark->kind.version + 100000 * mark->kind.level + 100 * scratch.length + scratch.width;
    size_t length = mark->kind.side * mark->kind.side, n, i;
    int filling;
    reset_order(order);
    memset(tally, 0, FILLINGS * sizeof tally[0]);
    for (; trials > 0; trials--) {
        draw(mark, &seed);
        flip(mark, flips_of(&mark->kind, scratch.percent), order, &seed);
        n = scratch_places(&mark->kind, scratch, &seed, places);
        for (filling = 0; filling < FILLINGS; filling++) {
            memcpy(square, mark->square, length);
            for (i = 0; i < n; i++)
                square[places[i]] = filled((Filling)filling, &seed);
            count(&tally[filling], mark, square, READ);
        }
    }
}

/* NUMBERS AS TEXT. Each answers one of several buffers by turns, so that a line of a table can have several. */
static char *buffer(void)
{
    static char buffers[16][48];
    static size_t next = 0;
    return buffers[next++ % 16];
}

static char *grouped(unsigned long n)
{
    char *text = buffer(), digits[24];
    size_t length = (size_t)sprintf(digits, "%lu", n), i, out = 0;
    for (i = 0; i < length; i++) {
        if (i > 0 && (length - i) % 3 == 0)
            text[out++] = ',';
        text[out++] = digits[i];
    }
    text[out] = 0;
    return text;
}

/* A count as a part of another. Nearly all is not shown as all. */
static char *share(unsigned long n, unsigned long of)
{
    char *text = buffer();
    double percent = of == 0 ? 0 : 100.0 * (double)n / (double)of;
    if (of == 0)
        sprintf(text, "–");
    else if (n == 0)
        sprintf(text, "none");
    else if (n == of)
        sprintf(text, "all");
    else if (percent > 99.985)
        sprintf(text, "above 99.98 %%");
    else if (percent > 99)
        sprintf(text, "%.2f %%", percent);
    else if (percent >= 0.01)
        sprintf(text, "%.3g %%", percent);
    else
        sprintf(text, "%s of %s", grouped(n), grouped(of));
    return text;
}

static char *one_in(unsigned long n, unsigned long of)
{
    char *text = buffer();
    if (n == 0)
        sprintf(text, "none");
    else
        sprintf(text, "%s (1 in %s)", grouped(n), grouped((of + n / 2) / n));
    return text;
}

/* TABLES. */
static const char *const WAY_NAMES[WAYS] = {"Read a square (`hx_read`)",
                                            "Read with known version, level and mask (`hx_read_as`)"};

/* More where wrong readings can be seen in some minutes: by the chances that --reach prints, these are levels 0 and 1 of version 1, and
 * level 0 of the next ones. */
static unsigned long trials_of(const Kind *kind, unsigned long trials)
{
    if (kind->version == 1)
        return kind->level < 2 ? trials : trials / 4;
    return kind->level == 0 ? trials / 4 : trials / 20;
}

static void print_line(size_t level, size_t percent, const Tally tally[WAYS])
{
    const Tally *t = &tally[READ], *known = &tally[KNOWN];
    printf("| %zu | %zu %% | %s | %s | %s | %s | %s |", level, percent, grouped(t->trials), share(t->right, t->trials),
           share(t->trials - t->right - t->wrong, t->trials), one_in(t->wrong, t->trials), share(t->wrong, t->right + t->wrong));
    printf(" %s, %s, %s | %s | %s |\n", grouped(t->at[0]), grouped(t->at[1]), grouped(t->at[2]),
           share(known->right, known->trials), one_in(known->wrong, known->trials));
}

/* One version at all levels and shares of flips. Adds the lines of a level up for the tables below. */
static void measure_flips(size_t version, unsigned long trials, Tally sums[LEVELS])
{
    static Mark mark;
    Tally tally[WAYS], all;
    size_t level, i;
    printf("\n### Version %zu, random flips\n\n", version);
    puts(
        "| level | flipped | trials | right | refused | wrong | of the accepted, wrong | wrong with a count at reach, one below, lower "
        "| known: right | known: wrong |\n|---|---|---|---|---|---|---|---|---|---|");
    mark.form = FULL_DIGITS;
    memset(&all, 0, sizeof all);
    for (level = 0; level < LEVELS; level++) {
        mark.kind = kind_of(version, level);
        for (i = 0; i < SHARES; i++) {
            try_flips(&mark, flips_of(&mark.kind, PERCENTS[i]), trials_of(&mark.kind, trials), tally);
            print_line(level, PERCENTS[i], tally);
            add(&sums[level], &tally[READ]);
        }
        add(&all, &sums[level]);
    }
    printf(
        "\nOf the %s wrong ones %s were read at another level or mask, and %s had the right payload beside another script, level or "
        "mask.\n",
        grouped(all.wrong), grouped(all.other_word), grouped(all.payload_only));
    fflush(stdout);
}

static void print_caps(const Tally *t, const Kind *kind)
{
    size_t i;
    printf("| %zu | %zu | %zu | %s | %s | %s |", kind->version, kind->level, kind->reach, grouped(t->trials), grouped(t->right),
           grouped(t->wrong));
    for (i = 0; i < CAPS; i++)
        printf(" %zu: %s, %s |", cap(kind, i), share(t->right_over[i], t->right), grouped(t->wrong_within[i]));
    puts("");
}

static void print_checks(const Tally *t, const Kind *kind)
{
    if (t->wrong > 0)
        printf("| %zu | %zu | %s | %s | %s | %s | %s |\n", kind->version, kind->level, grouped(t->wrong),
               share(t->formed, t->wrong), share(t->luhn, t->wrong), share(t->mod97, t->wrong), share(t->both, t->wrong));
}

/* Versions with flips, and from the same readings what caps and check digits do, all shares of flips together. */
static void measure_versions(unsigned long trials)
{
    static const size_t versions[] = {1, 2, 3, 5};
    static Tally sums[4][LEVELS];
    Kind kind;
    size_t i, level, turn;
    for (i = 0; i < 4; i++)
        measure_flips(versions[i], trials, sums[i]);
    for (turn = 0; turn < 2; turn++) {
        puts(
            turn == 0
                ? "\n### Caps on the count of repairs, all shares of flips together: right ones lost, wrong ones left\n\n"
                  "| version | level | reach | trials | right | wrong | cap at reach − 1 | cap at reach − 2 | cap at half of reach "
                  "|\n|---|---|---|---|---|---|---|---|---|"
                : "\n### Wrong readings that pass a check of the text, all shares of flips together\n\n"
                  "| version | level | wrong | same number of digits | and Luhn's digit right | and MOD 97-10 digits right | and "
                  "all three digits right |\n|---|---|---|---|---|---|---|");
        for (i = 0; i < 4; i++) {
            for (level = 0; level < LEVELS; level++) {
                kind = kind_of(versions[i], level);
                if (turn == 0)
                    print_caps(&sums[i][level], &kind);
                else
                    print_checks(&sums[i][level], &kind);
            }
        }
    }
}

/* What the payload is makes a difference: data behind its end are not looked at, and not every word is a digit or a character. */
static void measure_forms(unsigned long trials)
{
    static Mark mark;
    Tally tally[WAYS];
    size_t i;
    int form;
    puts("\n### Version 1, level 0, other payloads, Read a square\n");
    puts("| payload | flipped | trials | right | refused | wrong | of the accepted, wrong |\n|---|---|---|---|---|---|---|");
    mark.kind = kind_of(1, 0);
    for (form = 0; form < FORMS; form++) {
        mark.form = (Form)form;
        for (i = 1; i < SHARES; i++) {
            const Tally *t = &tally[READ];
            try_flips(&mark, flips_of(&mark.kind, PERCENTS[i]), trials, tally);
            printf("| %s | %zu %% | %s | %s | %s | %s | %s |\n", FORM_NAMES[form], PERCENTS[i], grouped(t->trials),
                   share(t->right, t->trials), share(t->trials - t->right - t->wrong, t->trials), one_in(t->wrong, t->trials),
                   share(t->wrong, t->right + t->wrong));
        }
    }
    fflush(stdout);
}

static void measure_scratches(size_t version, size_t percent, unsigned long trials)
{
    static Scratch scratches[] = {{10, 1, 0}, {20, 1, 0}, {40, 1, 0}, {10, 2, 0}, {20, 2, 0}, {40, 2, 0}};
    static Mark mark;
    Tally tally[FILLINGS];
    size_t level, i, filling;
    printf("\n### Version %zu, scratches, and %zu %% of all modules flipped besides: right, wrong of %s trials each\n\n", version,
           percent, grouped(trials));
    puts("| level | length × width | all dark | all light | random | unknown |\n|---|---|---|---|---|---|");
    mark.form = FULL_DIGITS;
    for (level = 0; level < LEVELS; level++) {
        mark.kind = kind_of(version, level);
        for (i = 0; i < sizeof scratches / sizeof scratches[0]; i++) {
            scratches[i].percent = percent;
            try_scratches(&mark, scratches[i], trials, tally);
            printf("| %zu | %zu × %zu |", level, scratches[i].length, scratches[i].width);
            for (filling = 0; filling < FILLINGS; filling++)
                printf(" %s, %s |", share(tally[filling].right, trials), grouped(tally[filling].wrong));
            puts("");
        }
    }
    fflush(stdout);
}

/* POSITIONS of a clean mark that is not handed over upright. 0 is upright, 1 to 3 are quarter turns clockwise, 4 is mirrored at the
 * diagonal from bottom left to top right, 5 to 7 are quarter turns of that. */
enum { POSITIONS = 8 };

static const char *const POSITION_NAMES[POSITIONS] = {"upright",
                                                      "turned by 90 degrees",
                                                      "turned by 180 degrees",
                                                      "turned by 270 degrees",
                                                      "mirrored at the diagonal from bottom left to top right",
                                                      "that, turned by 90 degrees",
                                                      "that, turned by 180 degrees",
                                                      "that, turned by 270 degrees"};

static void move(const Mark *mark, size_t position, uint8_t *square)
{
    size_t last = mark->kind.side - 1, row, column, turns;
    for (row = 0; row <= last; row++) {
        for (column = 0; column <= last; column++) {
            size_t r = row, c = column, before;
            for (turns = position % 4; turns > 0; turns--) {
                before = r;
                r = last - c;
                c = before;
            }
            if (position >= 4) {
                before = r;
                r = last - c;
                c = last - before;
            }
            square[row * (last + 1) + column] = mark->square[r * (last + 1) + c];
        }
    }
}

static void try_position(Mark *mark, size_t position, unsigned long trials, Tally *tally)
{
    static uint8_t square[HX_SIZE_SQUARE];
    uint64_t seed = SEED + 1000000 * mark->kind.version + 100000 * mark->kind.level + position;
    memset(tally, 0, sizeof *tally);
    for (; trials > 0; trials--) {
        draw(mark, &seed);
        move(mark, position, square);
        count(tally, mark, square, READ);
    }
}

/* Level 0 alone: what decides at the others is how rarely a block lies within reach, which --reach prints. */
static void measure_positions(unsigned long trials)
{
    static Mark mark;
    size_t position;
    Tally t;
    puts("\n### Version 1, level 0, clean marks that are turned or mirrored, Read a square\n\n"
         "| position | trials | information modules fit | block within reach too | wrong |\n|---|---|---|---|---|");
    mark.form = FULL_DIGITS;
    mark.kind = kind_of(1, 0);
    for (position = 1; position < POSITIONS; position++) {
        try_position(&mark, position, trials, &t);
        printf("| %s | %s | %s | %s | %s |\n", POSITION_NAMES[position], grouped(trials), share(t.word_fits, trials),
               one_in(t.blocks_fit, trials), one_in(t.wrong, trials));
    }
    fflush(stdout);
}

/* THE TABLES OF REACH. */
static const size_t STATION_VERSIONS[] = {1, 2, 3, 4, 5, 6, 7, 8, 9, 10, 15, 20, 40, 84};
enum { STATIONS = sizeof STATION_VERSIONS / sizeof STATION_VERSIONS[0] };

/* Batches of one parity that follow each other are one here. */
static void print_blocks(const Kind *kind)
{
    size_t i, count = 0;
    const char *before = " ";
    printf(" %zu:", kind->blocks);
    for (i = 0; i < 9; i += 3) {
        const size_t *batch = kind->batches + i;
        count += batch[0];
        if (batch[0] == 0 || (i < 6 && batch[3] > 0 && batch[5] == batch[2]))
            continue;
        printf("%s", before);
        if (count > 1)
            printf("%zu × ", count);
        printf("%zu (%zu)", batch[2], batch[2] / 2);
        before = ", ";
        count = 0;
    }
    printf(" |");
}

static void print_room(const Kind *kind)
{
    printf(" %s, %s, %s |", grouped(fits(kind, FULL_DIGITS)), grouped(fits(kind, FULL_TEXT)), grouped(fits(kind, FULL_BYTES)));
}

/* The chance that a block of random bytes lies within so many changes of a codeword: those of at most so many changes, of which each
 * block belongs to one codeword at most (SPECIFICATION 3.6), times the codewords, by all blocks. */
static double chance(size_t length, size_t parity, size_t changes)
{
    double term = 1, sum;
    size_t i;
    for (i = 0; i < parity; i++)
        term /= 256;
    sum = term;
    for (i = 1; i <= changes; i++) {
        term *= 255 * (double)(length - i + 1) / (double)i;
        sum += term;
    }
    return sum;
}

/* The greatest of the blocks, with so many changes fewer than reach. */
static double chance_of(const Kind *kind, size_t fewer)
{
    double greatest = 0;
    size_t i;
    for (i = 0; i < 9; i += 3) {
        const size_t *batch = kind->batches + i;
        double one = batch[0] == 0 ? 0 : chance(batch[1] + batch[2], batch[2], batch[2] / 2 - fewer);
        if (one > greatest)
            greatest = one;
    }
    return greatest;
}

/* Small ones are rounded to the power of ten above them. */
static char *odds(double chance)
{
    char *text = buffer();
    int power = 0;
    for (; chance < 1e-9; chance *= 10)
        power++;
    if (power == 0)
        sprintf(text, "1 in %s", grouped((unsigned long)(1 / chance + 0.5)));
    else
        sprintf(text, "1 in 10^%d", power + 8);
    return text;
}

static void print_chance(const Kind *kind) { printf(" %s; %s |", odds(chance_of(kind, 0)), odds(chance_of(kind, 1))); }

static void print_levels(const char *title, size_t versions, void (*print)(const Kind *))
{
    size_t i, level;
    printf("%s\n\n| version | modules | level 0 | level 1 | level 2 | level 3 |\n|---|---|---|---|---|---|\n", title);
    for (i = 0; i < versions; i++) {
        printf("| %zu | %u × %u |", STATION_VERSIONS[i], 2 * (unsigned)STATION_VERSIONS[i] + 21,
               2 * (unsigned)STATION_VERSIONS[i] + 21);
        for (level = 0; level < LEVELS; level++) {
            Kind kind = kind_of(STATION_VERSIONS[i], level);
            print(&kind);
        }
        puts("");
    }
}

static void print_reach(void)
{
    print_levels("Number of blocks: parity of each (reach of each).", STATIONS, print_blocks);
    print_levels("\nHow many digits, how many letters and digits, how many bytes fit.", STATIONS, print_room);
    print_levels("\nChance that a block of random bytes lies within reach of some codeword; that it does within one repair less.",
                 5, print_chance);
}

/* THE CHECK. Marks are damaged, and by comparing codewords alone it is told whether the damage is within reach (SPECIFICATION 11.5).
 * Then both readings must give what was written, with the exact counts. */
typedef struct {
    Mark mark;
    uint8_t square[HX_SIZE_SQUARE]; /* the mark with its damage */
    size_t places[8 * 3886];        /* its data modules */
    size_t info, changed, beyond;   /* information modules and codewords that differ; blocks that are not within reach */
    unsigned long within, edges;    /* marks that were within reach; of these, with some block exactly at its reach */
} Check;

static int dark(uint8_t module) { return module == HX_MODULE_DARK; }

static size_t count_info(const Check *c)
{
    size_t n, differ = 0;
    int second;
    for (second = 0; second < 2; second++) {
        for (n = 0; n < 34; n++) {
            size_t place = info_place(c->mark.kind.side, second, n);
            differ += dark(c->square[place]) != dark(c->mark.square[place]);
        }
    }
    return differ;
}

/* Whether the codeword at a place of the stream differs, and whether it is erased. */
static void compare_codeword(const Check *c, size_t place, int *differs, int *erased)
{
    size_t bit;
    *differs = 0;
    *erased = 0;
    for (bit = 0; bit < 8; bit++) {
        size_t module = module_of(c->places, c->mark.kind.total, place, bit);
        *differs = *differs || dark(c->square[module]) != dark(c->mark.square[module]);
        *erased = *erased || c->square[module] == HX_MODULE_UNKNOWN;
    }
}

/* A block from a place of the stream on. Answers whether it is exactly at its reach. */
static int assess_block(Check *c, size_t start, const size_t *batch)
{
    size_t place, changed = 0, erased = 0, unerased = 0, cost;
    int differs, unknown;
    for (place = start; place < start + batch[1] + batch[2]; place++) {
        compare_codeword(c, place, &differs, &unknown);
        changed += (unsigned)differs;
        erased += (unsigned)unknown;
        unerased += (unsigned)(differs && !unknown);
    }
    cost = erased == 0 ? 2 * changed : 2 * unerased + erased + 2;
    c->changed += changed;
    if (changed == 0 ? erased > batch[2] : cost > batch[2])
        c->beyond++;
    return cost / 2 == batch[2] / 2;
}

static int assess(Check *c)
{
    const size_t *batches = c->mark.kind.batches;
    size_t i, k, start = 0;
    int edge = 0;
    c->info = count_info(c);
    c->changed = 0;
    c->beyond = 0;
    for (i = 0; i < 9; i += 3) {
        for (k = 0; k < batches[i]; k++) {
            edge |= assess_block(c, start, batches + i);
            start += batches[i + 1] + batches[i + 2];
        }
    }
    return edge;
}

/* What is unknown becomes dark, so that a module is never above 2. */
static void invert(uint8_t *module) { *module = (uint8_t)!dark(*module); }

static void change_codeword(Check *c, size_t place, size_t bits)
{
    size_t bit;
    for (bit = 0; bit < 8; bit++)
        if (bits >> bit & 1)
            invert(&c->square[module_of(c->places, c->mark.kind.total, place, bit)]);
}

/* In each block up to one codeword more than its reach, now and then as unknown modules. */
static void damage_codewords(Check *c, uint64_t *seed)
{
    const size_t *batches = c->mark.kind.batches;
    size_t i, k, n, start = 0, total = c->mark.kind.total;
    int unknown = next_below(seed, 2) == 0;
    for (i = 0; i < 9; i += 3) {
        for (k = 0; k < batches[i]; k++) {
            size_t length = batches[i + 1] + batches[i + 2], reach = batches[i + 2] / 2;
            for (n = reach - 2 + next_below(seed, 4); n > 0; n--) {
                size_t place = start + next_below(seed, length);
                if (unknown && next_below(seed, 2) == 0)
                    c->square[module_of(c->places, total, place, next_below(seed, 8))] = HX_MODULE_UNKNOWN;
                else
                    change_codeword(c, place, 1 + next_below(seed, 255));
            }
            start += length;
        }
    }
}

static void damage(Check *c, uint64_t *seed)
{
    static size_t places[256];
    static const Scratch thin = {12, 1, 0};
    size_t side = c->mark.kind.side, n, i;
    memcpy(c->square, c->mark.square, side * side);
    if (next_below(seed, 4) > 0) {
        damage_codewords(c, seed);
    } else {
        n = scratch_places(&c->mark.kind, thin, seed, places);
        for (i = 0; i < n; i++)
            c->square[places[i]] = HX_MODULE_UNKNOWN;
    }
    for (n = next_below(seed, 10); n > 0; n--)
        invert(&c->square[info_place(side, next_below(seed, 2) == 0, next_below(seed, 34))]);
    for (n = next_below(seed, 3); n > 0; n--) /* of any kind, patterns too */
        invert(&c->square[next_below(seed, side * side)]);
}

/* Answers whether a reading of a mark within reach is as it must be. */
static int as_written(const Check *c, Way way)
{
    hx_receipt receipt;
    hx_status status = look(&c->mark, c->square, way, &receipt);
    const Kind *kind = &c->mark.kind;
    if (status == HX_OK && is_right(&c->mark, &receipt) && receipt.corrected == c->changed
        && receipt.distance == (way == READ ? c->info : 0))
        return 1;
    printf(
        "failed: version %zu, level %zu, mask %zu, %s: within reach with %zu codewords and %zu information modules changed, but\n"
        "        status %zu, payload %s, codewords %zu, information modules %zu\n",
        kind->version, kind->level, c->mark.mask, WAY_NAMES[way], c->changed, c->info, status,
        status != HX_OK          ? "none"
        : same_payload(&c->mark) ? "right"
                                 : "wrong",
        receipt.corrected, receipt.distance);
    return 0;
}

static int check_kind(Check *c, unsigned long trials)
{
    Kind *kind = &c->mark.kind;
    uint64_t seed = SEED + 10 * kind->version + kind->level;
    int edge;
    if (data_modules(kind->version, kind->level, kind->room, c->places) != 8 * kind->total)
        stop("the data modules were not found");
    c->within = c->edges = 0;
    for (; trials > 0; trials--) {
        c->mark.form = (Form)next_below(&seed, FORMS);
        draw(&c->mark, &seed);
        damage(c, &seed);
        edge = assess(c);
        if (c->beyond > 0)
            continue;
        c->within++;
        c->edges += (unsigned)edge;
        if ((c->info <= 8 && !as_written(c, READ)) || !as_written(c, KNOWN))
            return 0;
    }
    if (c->edges > 0)
        return 1;
    printf("failed: version %zu, level %zu: no mark at its reach was tried\n", kind->version, kind->level);
    return 0;
}

/* The table says how much fits: the writer is asked, and for one more too. */
static int check_room(const Kind *kind)
{
    static uint8_t square[HX_SIZE_SQUARE], bytes[8192];
    int form;
    memset(bytes, '7', sizeof bytes);
    for (form = 0; form < FORMS; form++) {
        size_t n = fits(kind, (Form)form);
        uint8_t mode = mode_of((Form)form);
        if (form == SHORT_DIGITS)
            continue;
        if (write_run(kind->version, kind->level, 0, mode, bytes, n, square) != HX_OK
            || write_run(kind->version, kind->level, 0, mode, bytes, n + 1, square) != HX_REFUSED_TOO_LONG) {
            printf("failed: version %zu, level %zu does not hold exactly %zu: %s\n", kind->version, kind->level, n,
                   FORM_NAMES[form]);
            return 0;
        }
    }
    return 1;
}

/* Of all versions, levels and masks: whether a clean mark in another position passes the check of its information modules. Turned by 180
 * degrees each does. Mirrored so that the finders stay, only these three do, which docs/LOCKING.md names. */
static int check_positions(void)
{
    static const size_t mirrored[3][3] = {{43, 1, 3}, {51, 3, 3}, {52, 2, 0}};
    static Mark mark;
    static uint8_t square[HX_SIZE_SQUARE];
    uint64_t seed = SEED;
    size_t n, found = 0;
    hx_receipt receipt;
    mark.form = SHORT_DIGITS;
    for (n = 0; n < VERSIONS * LEVELS * 4; n++) {
        mark.kind = kind_of(1 + n / 16, n / 4 % 4);
        do
            draw(&mark, &seed);
        while (mark.mask != n % 4);
        move(&mark, 2, square);
        if (look(&mark, square, READ, &receipt) == HX_REFUSED_INFORMATION)
            return 0;
        move(&mark, 4, square);
        if (look(&mark, square, READ, &receipt) == HX_REFUSED_INFORMATION)
            continue;
        if (found == 3 || mark.kind.version != mirrored[found][0] || mark.kind.level != mirrored[found][1]
            || mark.mask != mirrored[found][2])
            return 0;
        found++;
    }
    return found == 3;
}

static int check_all(void)
{
    static const size_t versions[] = {1, 2, 3, 5, 7, 10};
    static Check c;
    unsigned long within = 0, edges = 0;
    size_t i, level;
    if (!check_positions()) {
        puts("failed: other marks than docs/LOCKING.md names pass the check of their information modules, turned or mirrored");
        return 0;
    }
    for (i = 0; i < STATIONS; i++) {
        for (level = 0; level < LEVELS; level++) {
            Kind kind = kind_of(STATION_VERSIONS[i], level);
            if (!check_room(&kind))
                return 0;
        }
    }
    for (i = 0; i < sizeof versions / sizeof versions[0]; i++) {
        for (level = 0; level < LEVELS; level++) {
            c.mark.kind = kind_of(versions[i], level);
            if (!check_kind(&c, 4000))
                return 0;
            within += c.within;
            edges += c.edges;
        }
    }
    printf(
        "locking: %s damaged marks within reach were read as written with the exact count, %s of them with a block exactly at its "
        "reach\n",
        grouped(within), grouped(edges));
    return 1;
}

static void measure(unsigned long trials)
{
    printf("Library %s, seed %d.\n", hx_library_version(), SEED);
    measure_versions(trials);
    measure_forms(trials / 2);
    measure_scratches(1, 0, trials / 10);
    measure_scratches(1, 1, trials / 10);
    measure_scratches(3, 0, trials / 20);
    measure_positions(trials / 2);
}

/* The table of blocks comes first, then what to do. */
int main(int count, char **arguments)
{
    if (count != 3)
        stop("usage: locking BLOCKS TRIALS|--check|--reach");
    read_table(arguments[1]);
    if (strcmp(arguments[2], "--check") == 0)
        return check_all() ? 0 : 1;
    if (strcmp(arguments[2], "--reach") == 0)
        print_reach();
    else
        measure(strtoul(arguments[2], NULL, 10));
    return 0;
}
