#define _POSIX_C_SOURCE 200809L /* for isatty, mkdir, sigaction */
#include "lines.h"
#include "names.h"
#include "reading.h"

#include <errno.h>
#include <signal.h>
#include <string.h>
#include <sys/stat.h>
#include <unistd.h>

static volatile sig_atomic_t stopped;
static void stop(int signal)
{
    (void)signal;
    stopped = 1;
}

typedef struct {
    Wish *wish;
    Lines lines;
    Mark mark;
    Reading back;
    Names names;
    FILE *manifest;
    char manifest_name[4096], file[4096]; /* the file's name, without the directory */
    size_t written, refused, failed;
    int bar; /* whether progress is shown */
} Batch;

/* A line that has no mark, by its number. */
static void complain(Batch *b, size_t *count, const char *words)
{
    if (b->bar)
        fputs("\r\x1B[K", stderr);
    fprintf(stderr, "hanxin: line %zu: %s\n", b->lines.line, words);
    (*count)++;
}

/* At most once for each percent, so that the terminal does not slow the run down. */
static void show_progress(Batch *b)
{
    static unsigned shown = 101;
    unsigned percent = lines_percent(&b->lines);
    if (!b->bar || percent == shown)
        return;
    shown = percent;
    fprintf(stderr, "\r[%-25.*s] %3u %%, written: %zu ", (int)(percent / 4), "=========================", percent, b->written);
    fflush(stderr);
}

static int is_safe(uint8_t byte)
{
    return (byte >= '0' && byte <= '9') || (byte >= 'A' && byte <= 'Z') || (byte >= 'a' && byte <= 'z') || byte == '-'
           || byte == '_';
}

/* The serial as part of a file's name: what is not a letter, digit, '-' or '_' becomes '_'. */
static void add_serial(char *name, size_t room, const hx_payload *serial)
{
    size_t at = strlen(name), i;
    for (i = 0; i < serial->length && i < 100 && at + 1 < room; i++)
        name[at++] = is_safe(serial->bytes[i]) ? (char)serial->bytes[i] : '_';
    name[at] = 0;
}

/* The pattern with {n} and {serial} replaced, and the format's extension. */
static void name_file(Batch *b)
{
    const char *pattern = b->wish->pattern, *extension = FORMAT_EXTENSIONS[b->wish->look.format];
    size_t room = sizeof b->file;
    b->file[0] = 0;
    while (*pattern != 0) {
        size_t at = strlen(b->file);
        if (strncmp(pattern, "{n}", 3) == 0) {
            snprintf(b->file + at, room - at, "%06zu", b->lines.line);
            pattern += 3;
        } else if (strncmp(pattern, "{serial}", 8) == 0) {
            add_serial(b->file, room, &b->mark.payload);
            pattern += 8;
        } else {
            snprintf(b->file + at, room - at, "%c", *pattern++);
        }
    }
    snprintf(b->file + strlen(b->file), room - strlen(b->file), ".%s", extension);
}

/* A field of the manifest, in quotes where CSV needs them. */
static void print_field(FILE *file, const uint8_t *bytes, size_t length)
{
    size_t i;
    int quoted = 0;
    for (i = 0; i < length; i++)
        quoted = quoted || strchr(",\"\r\n", bytes[i]) != NULL;
    if (quoted)
        putc('"', file);
    for (i = 0; i < length; i++) {
        if (bytes[i] == '"')
            putc('"', file);
        putc(bytes[i], file);
    }
    if (quoted)
        putc('"', file);
}

/* The row is written, and has left the program, before the file gets its name: so every file has its row, whenever the run stops. */
static int record(Batch *b, Words *why)
{
    fprintf(b->manifest, "%zu,", b->lines.line);
    print_field(b->manifest, b->mark.payload.bytes, b->mark.payload.length);
    putc(',', b->manifest);
    print_field(b->manifest, (const uint8_t *)b->file, strlen(b->file));
    fprintf(b->manifest, ",%zu,%zu,%zu,%zu\n", b->mark.version, b->mark.level, b->mark.mask, b->mark.bits);
    if (fflush(b->manifest) != 0 || ferror(b->manifest))
        return say(why, "cannot write '%s': %s", b->manifest_name, strerror(errno));
    return 1;
}

/* Whether the file, read from the disk, is the mark that was meant: module by module, and by its reading. */
static int reads_back(Batch *b, const char *place, Words *why)
{
    const Mark *m = &b->mark;
    const Reading *r = &b->back;
    size_t n = m->square.side * m->square.side;
    read_picture(b->wish, place, &b->back);
    if (r->outcome != DONE)
        return say(why, "the file does not read back: %s", r->words.text);
    if (r->square.side != m->square.side || memcmp(r->square.modules, m->square.modules, n) != 0
        || r->payload.length != m->payload.length || memcmp(r->payload.bytes, m->payload.bytes, m->payload.length) != 0
        || r->receipt.level != m->level || r->receipt.mask != m->mask || r->receipt.corrected + r->receipt.distance != 0)
        return say(why, "the file reads back as another mark");
    return 1;
}

/* A file of this run is not replaced by another of this run, even where those of other runs are. */
static int is_new_name(Batch *b, Words *why)
{
    int added = names_add(&b->names, b->file);
    if (added == 0)
        return say(why, "an earlier line has the name '%s' too (--pattern with {n} makes names differ)", b->file);
    return added > 0 || say(why, "not enough memory for the names of the files");
}

/* The file of the mark; it counts only if it was read back. */
static int write_file(Batch *b, Words *why)
{
    static char path[8200];
    Output output;
    name_file(b);
    if (strlen(b->file) > 230)
        return say(why, "the name of the file is longer than 230 bytes");
    if (!is_new_name(b, why))
        return 0;
    snprintf(path, sizeof path, "%s/%s", b->wish->directory, b->file);
    if (!output_open(&output, path, b->wish->force, why))
        return 0;
    if (!picture_write(output.file, &b->wish->look, &b->mark.square, why)) {
        output_drop(&output);
        return 0;
    }
    if (!output_flush(&output, why))
        return 0;
    if (!reads_back(b, output_place(&output), why)) {
        output_drop(&output);
        return 0;
    }
    if (!record(b, why)) {
        output_drop(&output);
        fail("%s", why->text);
    }
    return output_keep(&output, why);
}

static void take_line(Batch *b, int found, const Words *missing)
{
    Words why = *missing;
    hx_status status;
    if (found < 0) {
        complain(b, &b->refused, why.text);
        return;
    }
    status = mark_write(&b->mark, &b->wish->choice);
    if (status != HX_OK) {
        say(&why, "refused: %zu, %s", status, hx_refusal_words(status));
        complain(b, &b->refused, why.text);
    } else if (!write_file(b, &why)) {
        complain(b, &b->failed, why.text);
    } else {
        b->written++;
    }
}

/* The directory is made if it is not there; the manifest of another run is not replaced without --force. */
static void open_manifest(Batch *b)
{
    const char *name = b->wish->manifest, *directory = b->wish->directory;
    if (mkdir(directory, 0777) != 0 && errno != EEXIST)
        fail("cannot make the directory '%s': %s", directory, strerror(errno));
    if ((size_t)snprintf(b->manifest_name, sizeof b->manifest_name, "%s%s%s", name == NULL ? directory : name,
                         name == NULL ? "/" : "", name == NULL ? "manifest.csv" : "")
        >= sizeof b->manifest_name)
        fail("the name of the manifest is too long");
    if (!b->wish->force && access(b->manifest_name, F_OK) == 0)
        fail("'%s' is there already (--force replaces it)", b->manifest_name);
    b->manifest = fopen(b->manifest_name, "wb");
    if (b->manifest == NULL)
        fail("cannot write '%s': %s", b->manifest_name, strerror(errno));
    fputs("line,serial,file,version,level,mask,bits\n", b->manifest);
}

/* A signal that is ignored stays ignored, as nohup wants it. */
static void catch_signal(int number)
{
    struct sigaction action;
    if (sigaction(number, NULL, &action) != 0 || action.sa_handler == SIG_IGN)
        return;
    memset(&action, 0, sizeof action);
    action.sa_handler = stop;
    sigaction(number, &action, NULL);
}

static void prepare(Batch *b, Wish *w)
{
    Words why;
    b->wish = w;
    if (w->count != 1 || w->directory == NULL)
        fail("batch takes one list, or -, and --directory (hanxin batch --help)");
    if (w->pattern == NULL)
        w->pattern = "{n}";
    if (strchr(w->pattern, '/') != NULL || (strstr(w->pattern, "{n}") == NULL && strstr(w->pattern, "{serial}") == NULL))
        fail("--pattern has {n} or {serial}, and no '/': '%s'", w->pattern);
    if (!w->has_format)
        w->look.format = png_is_there() ? FORMAT_PNG : FORMAT_P4;
    if (w->look.format == FORMAT_PNG && !png_is_there())
        fail("PNG is not built in; --format p4 is");
    if (!lines_open(&b->lines, w->operands[0], &why) || (w->column != NULL && !lines_column(&b->lines, w->column, &why)))
        fail("%s", why.text);
    open_manifest(b);
    b->bar = isatty(STDERR_FILENO);
    catch_signal(SIGINT);
    catch_signal(SIGTERM);
    catch_signal(SIGHUP);
}

int verb_batch(Wish *w)
{
    static Batch b;
    Words why = {""};
    int found;
    prepare(&b, w);
    while (!stopped && (found = lines_next(&b.lines, &b.mark.payload, &why)) != 0) {
        take_line(&b, found, &why);
        show_progress(&b);
    }
    if (b.bar)
        fputs("\r\x1B[K", stderr);
    lines_close(&b.lines);
    names_free(&b.names);
    if (fclose(b.manifest) != 0)
        fail("cannot write '%s': %s", b.manifest_name, strerror(errno));
    print_name(stdout, b.manifest_name);
    printf(": written: %zu, refused: %zu, failed: %zu\n", b.written, b.refused, b.failed);
    if (stopped) {
        fprintf(stderr, "hanxin: stopped behind line %zu; the manifest has every file that was written\n", b.lines.line);
        return FAILED;
    }
    return b.failed > 0 ? FAILED : b.refused > 0 ? REFUSED : DONE;
}
