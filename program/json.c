#include "reading.h"

#include <string.h>

/* A string of bytes that are UTF-8; any byte that is not becomes the replacement character. */
static void print_string(FILE *file, const uint8_t *bytes, size_t length)
{
    size_t i = 0;
    putc('"', file);
    while (i < length) {
        size_t n = character_at(bytes + i, length - i);
        if (n == 0)
            fputs("\\ufffd", file);
        else if (n == 1 && (bytes[i] < 32 || bytes[i] == 127))
            fprintf(file, "\\u%04x", bytes[i]);
        else if (n == 2 && bytes[i] == 0xC2 && bytes[i + 1] < 0xA0) /* control characters, too: some terminals obey them */
            fprintf(file, "\\u%04x", bytes[i + 1]);
        else if (n == 1 && (bytes[i] == '"' || bytes[i] == '\\'))
            fprintf(file, "\\%c", bytes[i]);
        else
            fwrite(bytes + i, 1, n, file);
        i += n == 0 ? 1 : n;
    }
    putc('"', file);
}

static int is_text(const uint8_t *bytes, size_t length)
{
    size_t i = 0, n = 1;
    while (i < length && n > 0) {
        n = character_at(bytes + i, length - i);
        i += n;
    }
    return n > 0;
}

static void print_hex(FILE *file, const uint8_t *bytes, size_t length)
{
    size_t i;
    putc('"', file);
    for (i = 0; i < length; i++)
        fprintf(file, "%02x", bytes[i]);
    putc('"', file);
}

/* A name and a number, or null where there is none. */
static void print_number(FILE *file, const char *name, int there, size_t number)
{
    if (there)
        fprintf(file, ",\"%s\":%zu", name, number);
    else
        fprintf(file, ",\"%s\":null", name);
}

/* Who answered what. A name that is no text is lost in a string, so it stands there in hex too. */
static void print_outcome(FILE *file, const Reading *r)
{
    static const char *const outcomes[] = {"read", "refused", "failed"}, *const by[] = {"", "library", "policy", "picture"};
    const uint8_t *name = (const uint8_t *)r->file;
    size_t length = strlen(r->file);
    fputs("{\"file\":", file);
    print_string(file, name, length);
    fputs(",\"file_hex\":", file);
    if (is_text(name, length))
        fputs("null", file);
    else
        print_hex(file, name, length);
    fprintf(file, ",\"outcome\":\"%s\"", outcomes[r->outcome]);
    if (r->by == BY_NONE)
        fputs(",\"refused_by\":null", file);
    else
        fprintf(file, ",\"refused_by\":\"%s\"", by[r->by]);
    print_number(file, "refusal", r->outcome == DONE || r->by == BY_LIBRARY, r->refusal);
    fputs(",\"words\":", file);
    print_string(file, (const uint8_t *)r->words.text, strlen(r->words.text));
}

static void print_receipt(FILE *file, const Reading *r, int there)
{
    print_number(file, "version", there, r->receipt.version);
    print_number(file, "level", there, r->receipt.level);
    print_number(file, "mask", there, r->receipt.mask);
    print_number(file, "corrected", there, r->receipt.corrected);
    print_number(file, "distance", there, r->receipt.distance);
    print_number(file, "payload_length", there, r->receipt.payload_length);
    print_number(file, "script_length", there, r->receipt.script_length);
}

static void print_position(FILE *file, const Reading *r)
{
    print_number(file, "side", r->found, r->square.side);
    print_number(file, "unknown_modules", r->found, r->unknown);
    fprintf(file, r->found ? ",\"position\":\"%s\"" : ",\"position\":null", position_words(&r->position));
    print_number(file, "turned", r->found, r->position.turned);
    fprintf(file, ",\"mirrored\":%s", !r->found ? "null" : r->position.mirrored ? "true" : "false");
    print_number(file, "pixels_per_module", r->found, r->position.scale);
    print_number(file, "left", r->found, r->position.left);
    print_number(file, "top", r->found, r->position.top);
}

static void print_script(FILE *file, const hx_script *script)
{
    Words words;
    size_t at = 0;
    putc('[', file);
    while (at < script->length) {
        fputs(at == 0 ? "\"" : ",\"", file);
        at = command_words(script, at, &words);
        fprintf(file, "%s\"", words.text);
    }
    putc(']', file);
}

/* A payload that was refused by policy is not printed, so that nobody takes it by mistake; its receipt is. */
void print_json(FILE *file, const Reading *r)
{
    print_outcome(file, r);
    print_receipt(file, r, r->outcome == DONE || r->by == BY_POLICY);
    print_position(file, r);
    if (r->outcome != DONE) {
        fputs(",\"payload_hex\":null,\"payload_text\":null,\"script\":null}\n", file);
        return;
    }
    fputs(",\"payload_hex\":", file);
    print_hex(file, r->payload.bytes, r->payload.length);
    fputs(",\"payload_text\":", file);
    if (is_text(r->payload.bytes, r->payload.length))
        print_string(file, r->payload.bytes, r->payload.length);
    else
        fputs("null", file);
    fputs(",\"script\":", file);
    print_script(file, &r->script);
    fputs("}\n", file);
}
