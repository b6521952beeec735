#include "options.h"

#include <string.h>

/* A file's text is its serial: a byte order mark in front and one line end behind are the editor's. */
static void strip(hx_payload *payload)
{
    uint8_t *bytes = payload->bytes;
    if (payload->length >= 3 && memcmp(bytes, "\xEF\xBB\xBF", 3) == 0) {
        payload->length -= 3;
        memmove(bytes, bytes + 3, payload->length);
    }
    if (payload->length > 0 && bytes[payload->length - 1] == '\n') {
        payload->length--;
        if (payload->length > 0 && bytes[payload->length - 1] == '\r')
            payload->length--;
    }
}

static void take_serial(const Wish *w, hx_payload *payload)
{
    Words why;
    const char *file = w->file;
    if (w->count + (w->file != NULL) != 1)
        fail("write takes one serial, or --file (hanxin write --help)");
    if (file == NULL && strcmp(w->operands[0], "-") == 0 && !w->literal)
        file = "-";
    if (file == NULL) {
        payload->length = strlen(w->operands[0]);
        if (payload->length <= HX_SIZE_BUFFER)
            memcpy(payload->bytes, w->operands[0], payload->length);
        return;
    }
    if (!read_whole(file, payload->bytes, HX_SIZE_BUFFER, &payload->length, &why))
        fail("%s", why.text);
    if (payload->length <= HX_SIZE_BUFFER && !w->exact)
        strip(payload);
}

int verb_write(Wish *w)
{
    static Mark mark;
    Words why;
    Output output;
    const char *name = w->output != NULL ? w->output : "-";
    hx_status status;
    take_serial(w, &mark.payload);
    choose_format(w, name);
    status = mark_write(&mark, &w->choice);
    if (status != HX_OK) {
        fprintf(stderr, "hanxin: refused: %zu, %s\n", status, hx_refusal_words(status));
        return REFUSED;
    }
    if (!output_open(&output, name, w->force, &why))
        fail("%s", why.text);
    if (!picture_write(output.file, &w->look, &mark.square, &why)) {
        output_drop(&output);
        fail("%s: %s", strcmp(name, "-") == 0 ? "standard output" : name, why.text);
    }
    if (!output_flush(&output, &why) || !output_keep(&output, &why))
        fail("%s", why.text);
    if (strcmp(name, "-") != 0) {
        print_name(stdout, name);
        printf(": version %zu, %zu x %zu modules, level %zu, mask %zu; bits: %zu\n", mark.version, mark.square.side,
               mark.square.side, mark.level, mark.mask, mark.bits);
    }
    return DONE;
}
