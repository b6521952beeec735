/* Reads and writes PNG through libpng, if it was there when the program was built. */
#include "picture.h"

#ifdef HAVE_PNG

#include <errno.h>
#include <png.h>
#include <stdlib.h>
#include <string.h>

int png_is_there(void) { return 1; }

/* libpng's own words for damage, and for a failure to write, are passed on. Its warnings are left out: they tell of what does not
 * change the pixels. */
static void fail_reading(png_structp png, png_const_charp text)
{
    say(png_get_error_ptr(png), "the PNG file cannot be read: %s", text);
    png_longjmp(png, 1);
}

static void fail_writing(png_structp png, png_const_charp text)
{
    say(png_get_error_ptr(png), "cannot write: %s", text);
    png_longjmp(png, 1);
}

static void ignore(png_structp png, png_const_charp text)
{
    (void)png;
    (void)text;
}

/* READING. */
typedef struct {
    png_structp png;
    png_infop info;
    Reader *reader;
    int packed;      /* whether a byte has eight pixels, as in the program's own files */
    size_t channels; /* else bytes for each pixel: one, or red, green, blue, alpha */
    uint8_t *row;
    uint8_t pixels[256]; /* what a sample of grey becomes */
} Decoder;

static void take_bytes(png_structp png, png_bytep bytes, size_t length)
{
    Reader *r = png_get_io_ptr(png);
    if (r->length - r->at < length)
        png_error(png, "the file is cut short");
    memcpy(bytes, r->bytes + r->at, length);
    r->at += length;
}

/* Grey over white. The weights are those of ITU-R BT.709, and leave grey as it is. */
static unsigned long grey_of(const uint8_t *pixel)
{
    unsigned long grey = (2126ul * pixel[0] + 7152ul * pixel[1] + 722ul * pixel[2] + 5000) / 10000;
    return (grey * pixel[3] + 255ul * (255 - pixel[3]) + 127) / 255;
}

/* The pixels of one pass: every `across`th from column `left` on, in every `down`th row from `top` on. */
typedef struct {
    size_t top, left, down, across;
} Pass;

static void read_pass(Decoder *d, const Pass *pass)
{
    Picture *picture = d->reader->picture;
    size_t row, column;
    if (pass->left >= picture->width)
        return; /* libpng passes over such a pass, too */
    for (row = pass->top; row < picture->height; row += pass->down) {
        uint8_t *pixels = picture->pixels + row * picture->width;
        const uint8_t *sample = d->row;
        png_read_row(d->png, d->row, NULL);
        for (column = pass->left; column < picture->width; column += pass->across, sample += d->channels)
            pixels[column] = d->pixels[d->channels == 1 ? *sample : grey_of(sample)];
    }
}

/* Eight pixels at once. */
static void read_packed(Decoder *d)
{
    Picture *picture = d->reader->picture;
    uint8_t eights[256][8];
    size_t i, row, column;
    for (i = 0; i < 256 * 8; i++)
        eights[i / 8][i % 8] = d->pixels[(i / 8 >> (7 - i % 8) & 1) != 0 ? 255 : 0];
    for (row = 0; row < picture->height; row++) {
        uint8_t *pixels = picture->pixels + row * picture->width;
        png_read_row(d->png, d->row, NULL);
        for (column = 0; column + 8 <= picture->width; column += 8)
            memcpy(pixels + column, eights[d->row[column / 8]], 8);
        if (column < picture->width)
            memcpy(pixels + column, eights[d->row[column / 8]], picture->width - column);
    }
}

/* An interlaced picture is in seven passes; they are read one by one, so that the picture is not held in colour. */
static void read_passes(Decoder *d)
{
    static const Pass WHOLE = {0, 0, 1, 1};
    static const Pass PASSES[7] = {{0, 0, 8, 8}, {0, 4, 8, 8}, {4, 0, 8, 4}, {0, 2, 4, 4},
                                   {2, 0, 4, 2}, {0, 1, 2, 2}, {1, 0, 2, 1}};
    size_t i;
    if (d->packed)
        read_packed(d);
    else if (png_get_interlace_type(d->png, d->info) == PNG_INTERLACE_NONE)
        read_pass(d, &WHOLE);
    else
        for (i = 0; i < 7; i++)
            read_pass(d, &PASSES[i]);
}

/* A picture of one bit for each pixel is read as it is, another grey one with eight bits; any other becomes colour with alpha, eight bits
 * each. */
static void set_colours(Decoder *d)
{
    unsigned long sample;
    int grey = png_get_color_type(d->png, d->info) == PNG_COLOR_TYPE_GRAY && !png_get_valid(d->png, d->info, PNG_INFO_tRNS);
    for (sample = 0; sample < 256; sample++)
        d->pixels[sample] = pixel_of_grey(d->reader->threshold, sample, 255);
    d->packed = grey && png_get_bit_depth(d->png, d->info) == 1 && png_get_interlace_type(d->png, d->info) == PNG_INTERLACE_NONE;
    d->channels = grey ? 1 : 4;
    if (!d->packed) {
        png_set_expand(d->png);
        png_set_scale_16(d->png);
    }
    if (!grey) {
        png_set_gray_to_rgb(d->png);
        png_set_add_alpha(d->png, 255, PNG_FILLER_AFTER);
    }
    png_read_update_info(d->png, d->info);
    if (png_get_channels(d->png, d->info) != d->channels || png_get_bit_depth(d->png, d->info) != (d->packed ? 1 : 8))
        png_error(d->png, "its colours cannot be told");
}

/* Chunks that do not change the pixels are not read. */
static int decode(Decoder *d)
{
    if (setjmp(png_jmpbuf(d->png)))
        return 0;
    png_set_read_fn(d->png, d->reader, take_bytes);
    png_set_keep_unknown_chunks(d->png, PNG_HANDLE_CHUNK_NEVER, NULL, -1);
    png_set_user_limits(d->png, PNG_UINT_31_MAX, PNG_UINT_31_MAX);
    png_read_info(d->png, d->info);
    if (!reader_make(d->reader, png_get_image_width(d->png, d->info), png_get_image_height(d->png, d->info)))
        return 0;
    set_colours(d);
    d->row = malloc(d->channels * d->reader->picture->width);
    if (d->row == NULL)
        png_error(d->png, "not enough memory");
    read_passes(d);
    png_read_end(d->png, NULL);
    return 1;
}

int picture_read_png(Reader *r)
{
    Decoder d = {NULL, NULL, r, 0, 0, NULL, {0}};
    int done = 0;
    d.png = png_create_read_struct(PNG_LIBPNG_VER_STRING, r->why, fail_reading, ignore);
    if (d.png != NULL)
        d.info = png_create_info_struct(d.png);
    if (d.info != NULL)
        done = decode(&d);
    else
        say(r->why, "the PNG file cannot be read: libpng cannot be used");
    png_destroy_read_struct(&d.png, &d.info, NULL);
    free(d.row);
    return done;
}

/* WRITING. */
typedef struct {
    png_structp png;
    png_infop info;
    const Writer *writer;
} Encoder;

static void put_bytes(png_structp png, png_bytep bytes, size_t length)
{
    if (fwrite(bytes, 1, length, png_get_io_ptr(png)) != length)
        png_error(png, errno != 0 ? strerror(errno) : "unknown error");
}

/* picture_write flushes the file. */
static void flush(png_structp png) { (void)png; }

/* Pixels for each metre. */
static void set_size(const Encoder *e)
{
    const Look *look = e->writer->look;
    double density = (double)look->scale * 1000 / look->module + 0.5;
    if (density < 1 || density > PNG_UINT_31_MAX)
        png_error(e->png, "the side of a module is too small or too large for PNG");
    png_set_pHYs(e->png, e->info, (png_uint_32)density, (png_uint_32)density, PNG_RESOLUTION_METER);
}

static void set_palette(const Encoder *e)
{
    png_color colours[SHADES];
    unsigned shade;
    for (shade = 0; shade < SHADES; shade++) {
        colours[shade].red = SHADE_COLOURS[shade].red;
        colours[shade].green = SHADE_COLOURS[shade].green;
        colours[shade].blue = SHADE_COLOURS[shade].blue;
    }
    png_set_PLTE(e->png, e->info, colours, SHADES);
}

/* One bit for each pixel if there are only light and dark; else four, which libpng packs. */
static void write_rows(const Encoder *e)
{
    const Writer *w = e->writer;
    uint8_t bytes[SIDE_MOST];
    size_t row, i;
    if (w->overlay)
        png_set_packing(e->png);
    else
        png_set_invert_mono(e->png); /* in grey, 1 is white */
    for (row = 0; row < w->side; row++) {
        if (w->overlay)
            shades_of_row(w, row, bytes);
        else
            bits_of_row(w, row, bytes);
        for (i = 0; i < w->look->scale; i++)
            png_write_row(e->png, bytes);
    }
}

static int encode(const Encoder *e)
{
    const Writer *w = e->writer;
    png_uint_32 width = (png_uint_32)(w->side * w->look->scale);
    if (setjmp(png_jmpbuf(e->png)))
        return 0;
    png_set_write_fn(e->png, w->file, put_bytes, flush);
    png_set_compression_mem_level(e->png, 7); /* a larger one makes many small files slower, and large ones no smaller */
    png_set_IHDR(e->png, e->info, width, width, w->overlay ? 4 : 1, w->overlay ? PNG_COLOR_TYPE_PALETTE : PNG_COLOR_TYPE_GRAY,
                 PNG_INTERLACE_NONE, PNG_COMPRESSION_TYPE_BASE, PNG_FILTER_TYPE_BASE);
    set_size(e);
    if (w->overlay)
        set_palette(e);
    png_write_info(e->png, e->info);
    write_rows(e);
    png_write_end(e->png, NULL);
    return 1;
}

int picture_write_png(const Writer *w)
{
    Encoder e = {NULL, NULL, w};
    int done = 0;
    e.png = png_create_write_struct(PNG_LIBPNG_VER_STRING, w->why, fail_writing, ignore);
    if (e.png != NULL)
        e.info = png_create_info_struct(e.png);
    if (e.info != NULL)
        done = encode(&e);
    else
        say(w->why, "cannot write: libpng cannot be used");
    png_destroy_write_struct(&e.png, &e.info);
    return done;
}

#else

static const char NOT_THERE[] =
    "PNG is not built in (libpng's development files were not there); use --format p4 and pnmtopng, or pngtopnm for reading";

int png_is_there(void) { return 0; }
int picture_read_png(Reader *reader) { return say(reader->why, "%s", NOT_THERE); }
int picture_write_png(const Writer *writer) { return say(writer->why, "%s", NOT_THERE); }

#endif
