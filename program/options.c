#define _POSIX_C_SOURCE 200809L /* for isatty */
#include "options.h"

#include <stdlib.h>
#include <string.h>
#include <unistd.h>

enum {
    LEVEL,
    MASK,
    VERSION,
    FORMAT,
    SCALE,
    QUIET,
    MODULE,
    OUTPUT,
    SERIAL_FILE,
    EXACT,
    FORCE,
    KNOWN,
    MOST,
    JSON,
    RAW,
    SHOW,
    THRESHOLD,
    MIXED,
    UPRIGHT,
    MIRRORED,
    COLUMN,
    DIRECTORY,
    PATTERN,
    MANIFEST,
    UNKNOWN,
    WRITTEN,
    HELP,
    OPTIONS
};

#define MAKES (VERB_WRITE | VERB_BATCH | VERB_DEMO)
#define DRAWS (VERB_WRITE | VERB_BATCH | VERB_OVERLAY)
#define READS (VERB_READ | VERB_OVERLAY)
#define ALL (MAKES | DRAWS | READS)

/* Each option: its name, a letter or 0, whether it has a value, and the verbs that take it. */
static const struct {
    const char *name;
    char letter;
    int has_value;
    unsigned verbs;
} TABLE[OPTIONS] = {[LEVEL] = {"level", 0, 1, MAKES},
                    [MASK] = {"mask", 0, 1, MAKES},
                    [VERSION] = {"version", 0, 1, MAKES},
                    [FORMAT] = {"format", 0, 1, DRAWS},
                    [SCALE] = {"scale", 0, 1, DRAWS},
                    [QUIET] = {"quiet-zone", 0, 1, DRAWS},
                    [MODULE] = {"module", 0, 1, DRAWS},
                    [OUTPUT] = {"output", 'o', 1, VERB_WRITE | VERB_OVERLAY},
                    [SERIAL_FILE] = {"file", 0, 1, VERB_WRITE},
                    [EXACT] = {"exact", 0, 0, VERB_WRITE},
                    [FORCE] = {"force", 0, 0, DRAWS | VERB_DEMO},
                    [KNOWN] = {"known", 0, 1, READS},
                    [MOST] = {"max-repairs", 0, 1, READS},
                    [JSON] = {"json", 0, 0, VERB_READ},
                    [RAW] = {"raw", 0, 0, VERB_READ},
                    [SHOW] = {"show", 0, 0, VERB_READ},
                    [THRESHOLD] = {"threshold", 0, 1, READS},
                    [MIXED] = {"mixed", 0, 0, READS},
                    [UPRIGHT] = {"upright", 0, 0, READS},
                    [MIRRORED] = {"mirrored", 0, 0, READS},
                    [COLUMN] = {"column", 0, 1, VERB_BATCH},
                    [DIRECTORY] = {"directory", 'd', 1, VERB_BATCH},
                    [PATTERN] = {"pattern", 0, 1, VERB_BATCH},
                    [MANIFEST] = {"manifest", 0, 1, VERB_BATCH},
                    [UNKNOWN] = {"unknown", 0, 1, VERB_DEMO},
                    [WRITTEN] = {"write", 0, 1, VERB_DEMO},
                    [HELP] = {"help", 'h', 0, ALL}};

/* The length of a module in mm. */
static double length_of(const char *text)
{
    char *end;
    double length = strtod(text, &end);
    if (strspn(text, "0123456789.") != strlen(text) || end == text || *end != 0 || length < 0.001 || length > 1000)
        fail("--module is a length in mm from 0.001 to 1000, not '%s'", text);
    return length;
}

static Format format_of(const char *text)
{
    size_t i;
    for (i = 0; i < FORMATS; i++)
        if (strcmp(text, FORMAT_NAMES[i]) == 0)
            return (Format)i;
    fail("--format is text, pbm, p4, svg or png, not '%s'", text);
    return FORMAT_TEXT;
}

/* By the extension of a file's name; standard output has none. */
static Format format_by_name(const char *name)
{
    const char *dot = strrchr(name, '.');
    size_t i;
    if (strcmp(name, "-") == 0)
        return FORMAT_TEXT;
    for (i = 0; i < FORMATS && dot != NULL; i++)
        if (i != FORMAT_P4 && strcmp(dot + 1, FORMAT_EXTENSIONS[i]) == 0)
            return (Format)i;
    fail("the name '%s' does not tell the format (.txt, .pbm, .svg, .png): give --format", name);
    return FORMAT_TEXT;
}

void choose_format(Wish *wish, const char *name)
{
    int terminal = strcmp(name, "-") == 0 && isatty(STDOUT_FILENO);
    if (!wish->has_format)
        wish->look.format = format_by_name(name);
    if (terminal && (wish->look.format == FORMAT_P4 || wish->look.format == FORMAT_PNG))
        fail("a %s file is not for a terminal: give -o FILE", FORMAT_NAMES[wish->look.format]);
    wish->look.colours = terminal;
}

static void set_mark(Wish *w, int option, const char *value)
{
    if (option == LEVEL)
        w->choice.level = number_of(value, "--level", 0, 3);
    else if (option == VERSION)
        w->choice.version = number_of(value, "--version of a mark", HX_VERSION_MIN, HX_VERSION_MAX);
    else if (strcmp(value, "auto") == 0)
        w->choice.mask = MASK_AUTO;
    else
        w->choice.mask = number_of(value, "--mask, if it is not auto,", 0, 3);
}

static void set_look(Wish *w, int option, const char *value)
{
    switch (option) {
    case FORMAT:
        w->look.format = format_of(value);
        w->has_format = 1;
        break;
    case SCALE: w->look.scale = number_of(value, "--scale", 1, 500); break;
    case QUIET: w->look.quiet = number_of(value, "--quiet-zone", 0, 100); break;
    default: w->look.module = length_of(value);
    }
}

/* From which share of white on a pixel is light: one number for dark and light, or two with unknown between. */
static Threshold threshold_of(const char *value)
{
    size_t shares[2];
    Threshold t;
    if (numbers_of(value, 0, shares, 1))
        shares[1] = shares[0];
    else if (!numbers_of(value, '-', shares, 2))
        shares[1] = 1000;
    if (shares[1] > 100 || shares[0] > shares[1] || shares[1] == 0)
        fail("--threshold is a percentage of white, such as 50, or two such as 40-60, not '%s'", value);
    t.dark = (unsigned)shares[0] * 10;
    t.light = (unsigned)shares[1] * 10;
    return t;
}

static void set_known(Expected *e, const char *value)
{
    size_t numbers[3];
    if (!numbers_of(value, ',', numbers, 3) || numbers[0] < 1 || numbers[0] > 84 || numbers[1] > 3 || numbers[2] > 3)
        fail("--known is version, level and mask, such as 1,2,0, not '%s'", value);
    e->known = 1;
    e->version = numbers[0];
    e->level = numbers[1];
    e->mask = numbers[2];
}

static void set_reading(Wish *w, int option, const char *value)
{
    switch (option) {
    case KNOWN: set_known(&w->expected, value); break;
    case MOST: w->most_repairs = number_of(value, "--max-repairs", 0, 9999); break;
    case THRESHOLD: w->threshold = threshold_of(value); break;
    case MIXED: w->expected.mixed = 1; break;
    case UPRIGHT: w->expected.upright = 1; break;
    case MIRRORED: w->expected.mirrored = 1; break;
    case JSON: w->json = 1; break;
    case RAW: w->raw = 1; break;
    default: w->show = 1;
    }
}

static void set_name(Wish *w, int option, const char *value)
{
    switch (option) {
    case OUTPUT: w->output = value; break;
    case SERIAL_FILE: w->file = value; break;
    case COLUMN: w->column = value; break;
    case DIRECTORY: w->directory = value; break;
    case PATTERN: w->pattern = value; break;
    case MANIFEST: w->manifest = value; break;
    case UNKNOWN: w->unknown = value; break;
    case WRITTEN: w->written = value; break;
    case EXACT: w->exact = 1; break;
    default: w->force = 1;
    }
}

static void set(Wish *w, int option, const char *value)
{
    if (option == HELP) {
        fputs(help_of(w->verb), stdout);
        finish_output();
        exit(DONE);
    }
    if (option <= VERSION)
        set_mark(w, option, value);
    else if (option <= MODULE)
        set_look(w, option, value);
    else if (option >= KNOWN && option <= MIRRORED)
        set_reading(w, option, value);
    else
        set_name(w, option, value);
}

/* Which option an argument names, with how many of its characters. */
static int option_of(Verb verb, const char *argument, size_t *length)
{
    int i;
    *length = argument[1] == '-' ? strcspn(argument, "=") : 2;
    for (i = 0; i < OPTIONS; i++) {
        int is_long =
            argument[1] == '-' && strlen(TABLE[i].name) == *length - 2 && strncmp(argument + 2, TABLE[i].name, *length - 2) == 0;
        int is_short = argument[1] != '-' && TABLE[i].letter != 0 && argument[1] == TABLE[i].letter;
        if ((is_long || is_short) && (TABLE[i].verbs & (unsigned)verb) != 0)
            return i;
    }
    fail("%s has no option %.*s (hanxin %s --help lists them)", verb_name(verb), (int)*length, argument, verb_name(verb));
    return 0;
}

/* One option; answers how many arguments it took. */
static int take_option(Wish *w, char **arguments)
{
    size_t length;
    int option = option_of(w->verb, arguments[0], &length);
    const char *rest = arguments[0] + length;
    const char *value = *rest == '=' ? rest + 1 : *rest != 0 ? rest : NULL;
    if (!TABLE[option].has_value) {
        if (value != NULL)
            fail("%.*s has no value", (int)length, arguments[0]);
        set(w, option, NULL);
        return 1;
    }
    if (value == NULL && arguments[1] == NULL)
        fail("%s needs a value (hanxin %s --help)", arguments[0], verb_name(w->verb));
    set(w, option, value != NULL ? value : arguments[1]);
    return value != NULL ? 1 : 2;
}

Wish wish_of(Verb verb, char **arguments)
{
    Wish w;
    size_t count = 0, i = 0;
    int operands = 0; /* whether all that follows are operands */
    while (arguments[count] != NULL)
        count++;
    memset(&w, 0, sizeof w);
    w.verb = verb;
    w.choice.level = 2;
    w.choice.mask = MASK_AUTO;
    w.look.scale = 4;
    w.look.quiet = 3;
    w.look.module = 0.25;
    w.threshold.dark = w.threshold.light = 500;
    w.most_repairs = SIZE_MAX;
    w.operands = arguments; /* the operands are moved to the front */
    while (i < count) {
        if (strcmp(arguments[i], "--") == 0 && !operands) {
            operands = 1;
            w.literal = w.count == 0;
            i++;
        } else if (!operands && arguments[i][0] == '-' && arguments[i][1] != 0) {
            i += (size_t)take_option(&w, arguments + i);
        } else {
            w.operands[w.count++] = arguments[i++];
        }
    }
    if (w.expected.upright && w.expected.mirrored)
        fail("--upright and --mirrored exclude each other");
    return w;
}
