#define _POSIX_C_SOURCE 200809L /* for link, open, fdopen */
#include "common.h"

#include <ctype.h>
#include <errno.h>
#include <fcntl.h>
#include <stdarg.h>
#include <stdlib.h>
#include <string.h>
#include <sys/stat.h>
#include <unistd.h>

/* The length of what is printed as it is: a character of UTF-8 that is no control character; or 0. */
static size_t printable_at(const uint8_t *bytes, size_t length)
{
    size_t n = character_at(bytes, length);
    int control = bytes[0] < 32 || bytes[0] == 127 || (bytes[0] == 0xC2 && n == 2 && bytes[1] < 0xA0);
    return control ? 0 : n;
}

/* Words may have the name of a file, or an argument, and these may have any byte. */
static void make_printable(Words *why)
{
    uint8_t *bytes = (uint8_t *)why->text;
    size_t length = strlen(why->text), i = 0;
    while (i < length) {
        size_t n = printable_at(bytes + i, length - i);
        if (n == 0)
            bytes[i] = '?';
        i += n == 0 ? 1 : n;
    }
}

int say(Words *why, const char *format, ...)
{
    va_list values;
    va_start(values, format);
    vsnprintf(why->text, sizeof why->text, format, values);
    va_end(values);
    make_printable(why);
    return 0;
}

void print_name(FILE *file, const char *name)
{
    const uint8_t *bytes = (const uint8_t *)name;
    size_t length = strlen(name), i = 0;
    while (i < length) {
        size_t n = printable_at(bytes + i, length - i);
        if (n == 0)
            putc('?', file);
        else
            fwrite(bytes + i, 1, n, file);
        i += n == 0 ? 1 : n;
    }
}

void fail(const char *format, ...)
{
    Words why;
    va_list values;
    va_start(values, format);
    vsnprintf(why.text, sizeof why.text, format, values);
    va_end(values);
    make_printable(&why);
    fputs("hanxin: ", stderr);
    fputs(why.text, stderr);
    fputs("\n", stderr);
    exit(FAILED);
}

void finish_output(void)
{
    if (fflush(stdout) != 0 || ferror(stdout))
        fail("cannot write standard output: %s", strerror(errno));
}

int numbers_of(const char *text, char between, size_t *numbers, size_t count)
{
    size_t i;
    for (i = 0; i < count; i++) {
        char *end;
        if (!isdigit((unsigned char)text[0]) || strspn(text, "0123456789") > 9)
            return 0;
        numbers[i] = strtoul(text, &end, 10);
        if (i + 1 < count && *end != between)
            return 0;
        text = i + 1 < count ? end + 1 : end;
    }
    return *text == 0;
}

size_t number_of(const char *text, const char *what, size_t least, size_t most)
{
    size_t n;
    if (!numbers_of(text, 0, &n, 1) || n < least || n > most)
        fail("%s is %zu to %zu, not '%s'", what, least, most, text);
    return n;
}

void print_quoted(FILE *file, const uint8_t *bytes, size_t length)
{
    size_t i;
    putc('"', file);
    for (i = 0; i < length; i++) {
        if (bytes[i] >= 32 && bytes[i] < 127 && bytes[i] != '"' && bytes[i] != '\\')
            putc(bytes[i], file);
        else
            fprintf(file, "\\x%02X", bytes[i]);
    }
    putc('"', file);
}

size_t character_at(const uint8_t *bytes, size_t length)
{
    static const unsigned long least[5] = {0, 0, 0x80, 0x800, 0x10000};
    size_t n = bytes[0] < 0x80 ? 1 : bytes[0] < 0xC2 ? 0 : bytes[0] < 0xE0 ? 2 : bytes[0] < 0xF0 ? 3 : bytes[0] < 0xF5 ? 4 : 0;
    unsigned long value = n == 1 ? bytes[0] : bytes[0] & (0x7Fu >> n);
    size_t i;
    if (n == 0 || n > length)
        return 0;
    for (i = 1; i < n; i++) {
        if ((bytes[i] & 0xC0) != 0x80)
            return 0;
        value = value << 6 | (bytes[i] & 0x3Fu);
    }
    return value < least[n] || value > 0x10FFFF || (value >= 0xD800 && value <= 0xDFFF) ? 0 : n;
}

int read_whole(const char *name, uint8_t *bytes, size_t room, size_t *length, Words *why)
{
    int given = strcmp(name, "-") == 0, failed;
    FILE *file = given ? stdin : fopen(name, "rb");
    if (file == NULL)
        return say(why, "cannot read '%s': %s", name, strerror(errno));
    errno = 0;
    *length = fread(bytes, 1, room, file);
    if (*length == room && getc(file) != EOF)
        (*length)++;
    failed = ferror(file);
    if (failed)
        say(why, "cannot read '%s': %s", given ? "standard input" : name, strerror(errno));
    if (!given)
        fclose(file);
    return !failed;
}

static int is_there(const char *name, int *regular)
{
    struct stat status;
    int there = stat(name, &status) == 0;
    *regular = !there || S_ISREG(status.st_mode);
    return there;
}

/* A file that was not there before. */
static FILE *new_file(const char *name)
{
    int place = open(name, O_WRONLY | O_CREAT | O_EXCL, 0666);
    return place == -1 ? NULL : fdopen(place, "wb");
}

int output_open(Output *output, const char *name, int force, Words *why)
{
    int regular, there = is_there(name, &regular);
    output->name = name;
    output->force = force;
    output->beside[0] = 0;
    output->file = stdout;
    if (strcmp(name, "-") == 0)
        return 1;
    if (there && regular && !force)
        return say(why, "'%s' is there already (--force replaces it)", name);
    if (regular
        && (size_t)snprintf(output->beside, sizeof output->beside, "%s.%ld.part", name, (long)getpid()) >= sizeof output->beside)
        return say(why, "the name of the file is too long: '%.80s..'", name);
    output->file = regular ? new_file(output->beside) : fopen(name, "wb");
    if (output->file == NULL) {
        output->beside[0] = 0; /* nothing of ours to take away */
        return say(why, "cannot write '%s': %s", name, strerror(errno));
    }
    return 1;
}

int output_flush(Output *output, Words *why)
{
    int good = fflush(output->file) == 0 && !ferror(output->file), error = errno;
    if (output->file != stdout && fclose(output->file) != 0 && good) {
        good = 0;
        error = errno;
    }
    output->file = NULL;
    if (good)
        return 1;
    if (strcmp(output->name, "-") == 0)
        say(why, "cannot write standard output: %s", strerror(error));
    else
        say(why, "cannot write '%s': %s", output->name, strerror(error));
    output_drop(output);
    return 0;
}

const char *output_place(const Output *output) { return output->beside[0] == 0 ? output->name : output->beside; }

int output_keep(Output *output, Words *why)
{
    int kept;
    if (output->beside[0] == 0)
        return 1;
    /* link, unlike rename, never replaces a file that came there meanwhile; some file systems do not have it */
    kept = !output->force && link(output->beside, output->name) == 0;
    if (kept)
        unlink(output->beside);
    else if (output->force || errno != EEXIST)
        kept = rename(output->beside, output->name) == 0;
    if (!kept) {
        say(why, "cannot write '%s': %s", output->name, strerror(errno));
        output_drop(output);
    }
    return kept;
}

void output_drop(Output *output)
{
    if (output->file != NULL && output->file != stdout)
        fclose(output->file);
    output->file = NULL;
    if (output->beside[0] != 0)
        unlink(output->beside);
}
