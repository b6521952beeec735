/* Tests the reading and the writing of pictures: what is written is read back, small files are read as they should be, and bad ones
 * are refused for the right reason. */
#include "picture.h"

#include <math.h>
#include <stdarg.h>
#include <stdlib.h>
#include <string.h>

static unsigned long checks, failures;

/* Counts a check, and says which one failed. */
static void check(int good, const char *format, ...)
{
    va_list values;
    checks++;
    if (good)
        return;
    failures++;
    va_start(values, format);
    fputs("pictures: failed: ", stderr);
    vfprintf(stderr, format, values);
    putc('\n', stderr);
    va_end(values);
}

static FILE *temporary(void)
{
    FILE *file = tmpfile();
    if (file == NULL) {
        perror("pictures: a temporary file");
        exit(1);
    }
    return file;
}

static unsigned draw(unsigned below)
{
    static uint64_t state = 1;
    state = state * 6364136223846793005u + 1442695040888963407u;
    return (unsigned)(state >> 33) % below;
}

/* Random modules of so many shades. */
static void fill(Square *square, size_t side, unsigned shades)
{
    size_t i;
    square->side = side;
    for (i = 0; i < side * side; i++)
        square->modules[i] = (uint8_t)draw(shades);
}

/* WHAT IS WRITTEN IS READ BACK. In grey the colours for unknown, added and lost modules are 412, 298 and 666 thousandths of white. */
static const Threshold THRESHOLD = {350, 600};

/* The pixel that should be at a place of the picture. */
static unsigned wanted_at(const Square *square, const Look *look, size_t row, size_t column)
{
    static const unsigned PIXELS[SHADES] = {0, 1, 2, 1, 0};
    Writer writer = {NULL, look, square, 0, 0, NULL};
    return PIXELS[shade_at(&writer, row / look->scale, column / look->scale)];
}

/* Text has two rows in a line, unless there are other shades than light and dark. */
static void compare(const Square *square, const Look *look, const Picture *picture)
{
    size_t width = (square->side + 2 * look->quiet) * look->scale, height = width, i, wrong = 0;
    if (look->format == FORMAT_TEXT && memchr(square->modules, SHADE_UNKNOWN, square->side * square->side) == NULL)
        height += height % 2;
    check(picture->width == width && picture->height == height, "%s: %zu x %zu pixels, not %zu x %zu", FORMAT_NAMES[look->format],
          picture->width, picture->height, width, height);
    for (i = 0; i < picture->width * picture->height; i++)
        wrong += picture->pixels[i] != wanted_at(square, look, i / picture->width, i % picture->width);
    check(wrong == 0, "%s: side %zu, quiet %zu, scale %zu: %zu pixels differ", FORMAT_NAMES[look->format], square->side,
          look->quiet, look->scale, wrong);
}

static void test_round(const Square *square, Look look)
{
    FILE *file = temporary();
    Picture picture;
    Words why;
    int done = picture_write(file, &look, square, &why);
    check(done, "%s: %s", FORMAT_NAMES[look.format], why.text);
    rewind(file);
    done = done && picture_read(file, THRESHOLD, &picture, &why);
    check(done, "%s: %s", FORMAT_NAMES[look.format], why.text);
    if (look.format == FORMAT_TEXT || look.format == FORMAT_SVG)
        look.scale = 1;
    if (done) {
        compare(square, &look, &picture);
        picture_free(&picture);
    }
    fclose(file);
}

/* Every format that has these shades. */
static void test_formats(const Square *square, unsigned shades, Look look)
{
    unsigned format;
    for (format = 0; format < FORMATS; format++) {
        look.format = (Format)format;
        if ((format == FORMAT_P4 && shades > 2) || (format == FORMAT_PBM && shades > 3)
            || (format == FORMAT_PNG && !png_is_there()))
            continue;
        test_round(square, look);
    }
}

static void test_rounds(void)
{
    static const size_t SIDES[] = {23, 25, 27, 64, 2, 189};
    static Square square;
    unsigned i, shades;
    for (i = 0; i < 60; i++)
        for (shades = 2; shades <= SHADES; shades++) {
            Look look = {FORMAT_TEXT, 1 + i % 9, i % 6, 0.25 * (1 + i % 7), i % 2 == 1};
            if (i >= 6 * 7 && SIDES[i % 6] == 189)
                continue; /* a few of the largest are enough */
            fill(&square, SIDES[i % 6], shades);
            square.modules[0] = 1; /* a picture in text has one dark module at least */
            square.modules[1] = (uint8_t)(shades - 1);
            square.modules[2] = shades > 2 ? SHADE_UNKNOWN : SHADE_LIGHT;
            test_formats(&square, shades, look);
        }
}

/* WHAT IS WRITTEN, byte by byte. The square is dark, light; light, dark. */
static void test_bytes(const char *wanted, size_t length, const Look *look, const Square *square)
{
    char bytes[1000];
    FILE *file = temporary();
    Words why = {""};
    size_t got = 0;
    check(picture_write(file, look, square, &why), "%s", why.text);
    rewind(file);
    got = fread(bytes, 1, sizeof bytes, file);
    check(got == length && memcmp(bytes, wanted, length) == 0, "%s is not written as it should be", FORMAT_NAMES[look->format]);
    fclose(file);
}

#define BYTES(text) text, sizeof text - 1
#define SVG_START "<svg xmlns=\"http://www.w3.org/2000/svg\" width=\""

static void test_written(void)
{
    static Square square = {2, {1, 0, 0, 1}}, overlay = {2, {2, 3, 4, 1}};
    Look look = {FORMAT_TEXT, 1, 0, 0.3, 0};
    test_bytes(BYTES("\xE2\x96\x80\xE2\x96\x84\n"), &look, &square);
    test_bytes(BYTES("??++\n--\xE2\x96\x88\xE2\x96\x88\n"), &look, &overlay);
    look.colours = 1;
    test_bytes(BYTES("\x1B[30;107m\xE2\x96\x80\xE2\x96\x84\x1B[0m\n"), &look, &square);
    test_bytes(
        BYTES("\x1B[30;107m\x1B[97;44m??\x1B[97;41m++\x1B[0m\n\x1B[30;107m\x1B[30;43m--\x1B[30;107m\xE2\x96\x88\xE2\x96\x88"
              "\x1B[0m\n"),
        &look, &overlay);
    look.scale = 2;
    look.format = FORMAT_PBM;
    test_bytes(BYTES("P1\n4 4\n1100\n1100\n0011\n0011\n"), &look, &square);
    look.format = FORMAT_P4;
    test_bytes(BYTES("P4\n4 4\n\xC0\xC0\x30\x30"), &look, &square);
    look.format = FORMAT_SVG;
    test_bytes(BYTES(SVG_START
                     "0.6mm\" height=\"0.6mm\" viewBox=\"0 0 2 2\">\n<path fill=\"#000\" d=\"M0 0h1v1h-1zM1 1h1v1h-1z\"/>\n"
                     "</svg>\n"),
               &look, &square);
    look.module = 0.0625;
    look.quiet = 1;
    test_bytes(BYTES(SVG_START
                     "0.25mm\" height=\"0.25mm\" viewBox=\"0 0 4 4\">\n<rect width=\"4\" height=\"4\" fill=\"#fff\"/>\n"
                     "<path fill=\"#000\" d=\"M2 2h1v1h-1z\"/>\n<path fill=\"#3b6fb5\" d=\"M1 1h1v1h-1z\"/>\n"
                     "<path fill=\"#d62728\" d=\"M2 1h1v1h-1z\"/>\n<path fill=\"#ff9f1c\" d=\"M1 2h1v1h-1z\"/>\n</svg>\n"),
               &look, &overlay);
}

/* SMALL FILES, and the rows that they hold. */
typedef struct {
    const char *bytes;
    size_t length;
    const char *wanted; /* rows, each behind a '/'; or words */
} Case;

#define PNG_START "\x89PNG\r\n\x1A\n\0\0\0\x0DIHDR"
#define PNG_END "\0\0\0\0IEND\xAE\x42\x60\x82"
#define BOM "\xEF\xBB\xBF"

static const Case GOOD[] = {
    {BYTES("P1\n3 2\n010\n101\n"), "/010/101"},
    {BYTES("P1 3 2 0 1 0 1 0 1"), "/010/101"},
    {BYTES("P1#one\n#two\n3#three\n2\n0#four 1\n10\n1#\n01#five"), "/010/101"},
    {BYTES("P1\r\n# a comment\r\n3 2\r\n012\r\n101\r\n"), "/012/101"},
    {BYTES(BOM "P1\n1 1\n2\n"), "/2"},
    {BYTES("P4\n3 2\n\x5F\xA0"), "/010/101"},
    {BYTES("P4 # a comment\n9#another\n2#third\n\xFF\x80\0\0\n"), "/111111111/000000000"},
    {BYTES("P4 16 1 ##"), "/0010001100100011"},
    {BYTES("P2\n# a comment\n4 1\n1000\n349 350 599 600\n"), "/1220"},
    {BYTES("P2 3 1 255 0 128 255"), "/120"},
    {BYTES(BOM "P2\r\n2 2\r\n15\r\n0 15#last\r\n15 0"), "/10/01"},
    {BYTES("P5\n4 1\n255\n\x59\x5A\x98\x99"), "/1220"},
    {BYTES("P5 2 1 65535 \x59\x99\x99\x9A"), "/10"},
    {BYTES("P5 3 1 256 \0\0\0\x80\1\0\n \n"), "/120"},
    {BYTES("P5 1 1 10#c\n\5"), "/2"},
    {BYTES("010\n101\n"), "/010/101"},
    {BYTES(BOM "# rows\r\n\r\n 0 1\t2 # more\r\n\r\n101"), "/012/101"},
    {BYTES("\n\n12\n\n02\n\n"), "/12/02"},
    {BYTES("\xE2\x96\x80\xE2\x96\x84\n"), "/10/01"},
    {BYTES(BOM "\n \xE2\x96\x88\r\n\xE2\x96\x84"), "/00/00/01/01/00/10"},
    {BYTES("\x1B[30;107m\xE2\x96\x80 \x1B[0m\n"), "/10/00"},
    {BYTES("??\xE2\x96\x88\xE2\x96\x88\n++  --\n"), "/210/100"},
    {BYTES("\r\n" SVG_START "1mm\" height=\"1mm\" viewBox=\"0 0 2 2\">\r\n<path fill=\"#000\" d=\"M0 1h2v1h-2z\"/></svg>\r\n"),
     "/00/11"},
};

static const Case GOOD_PNG[] = {
    {BYTES(PNG_START "\x00\x00\x00\x03\x00\x00\x00\x01\x08\x00\x00\x00\x00\x3E\x8B\x4B\x68\x00\x00\x00\x0C\x49\x44\x41"
                     "\x54\x78\xDA\x63\x60\x68\xF8\x0F\x00\x02\x03\x01\x80\x1A\x9C\x26\x3B" PNG_END),
     "/120"},
    {BYTES(PNG_START "\x00\x00\x00\x03\x00\x00\x00\x01\x10\x00\x00\x00\x00\x6E\x1B\x97\x2B\x00\x00\x00\x0F\x49\x44\x41"
                     "\x54\x78\xDA\x63\x60\x60\x68\x60\xF8\xFF\x1F\x00\x05\x04\x02\x7F\x5A\xFB\xF7\xA7" PNG_END),
     "/120"},
    {BYTES(PNG_START "\x00\x00\x00\x04\x00\x00\x00\x01\x08\x06\x00\x00\x00\xF9\x3C\x0F\xCD\x00\x00\x00\x13\x49\x44\x41"
                     "\x54\x78\xDA\x63\x60\x60\x60\xF8\xCF\x00\x01\x0D\x40\xC6\x7F\x00\x14\x7F\x03\x7E\x18\x97\x84\xA5" PNG_END),
     "/1021"},
    {BYTES(PNG_START "\x00\x00\x00\x04\x00\x00\x00\x01\x02\x03\x00\x00\x00\x84\x52\xE7\x5E\x00\x00\x00\x0C\x50\x4C\x54"
                     "\x45\x00\x00\x00\xFF\xFF\xFF\x80\x80\x80\x00\x00\x00\x8A\xD4\x65\x7A\x00\x00\x00\x04\x74\x52\x4E"
                     "\x53\xFF\xFF\xFF\x00\x40\x2A\xA9\xF4\x00\x00\x00\x0A\x49\x44\x41\x54\x78\xDA\x63\x90\x06\x00\x00"
                     "\x1D\x00\x1C\x23\x7C\x8F\xAC" PNG_END),
     "/1020"},
    {BYTES(PNG_START "\x00\x00\x00\x05\x00\x00\x00\x05\x01\x00\x00\x00\x01\xD2\x13\x2B\xDE\x00\x00\x00\x1A\x49\x44\x41"
                     "\x54\x78\xDA\x63\x68\x60\x60\x60\x38\xC0\xD0\x00\x84\x07\x18\x1C\x18\x40\xBC\x0C\x06\x09\x00\x34"
                     "\xA6\x04\x41\x6D\xB9\x72\x9F" PNG_END),
     "/01001/10010/00011/11100/01010"},
    {BYTES(PNG_START "\x00\x00\x00\x02\x00\x00\x00\x02\x01\x00\x00\x00\x01\x2D\xCA\x00\x1F\x00\x00\x00\x0E\x49\x44\x41"
                     "\x54\x78\xDA\x63\x68\x60\x60\x60\x70\x00\x00\x02\xC6\x00\xC1\x12\x35\x36\x6C" PNG_END),
     "/01/10"},
};

static FILE *file_of(const Case *c)
{
    FILE *file = temporary();
    if (fwrite(c->bytes, 1, c->length, file) != c->length)
        perror("pictures");
    rewind(file);
    return file;
}

static void test_good(const Case *c)
{
    char rows[100], *end = rows;
    FILE *file = file_of(c);
    Picture picture;
    Words why = {""};
    size_t i;
    if (picture_read(file, THRESHOLD, &picture, &why)) {
        for (i = 0; i < picture.width * picture.height && end < rows + 90; i++) {
            if (i % picture.width == 0)
                *end++ = '/';
            *end++ = (char)('0' + picture.pixels[i]);
        }
        picture_free(&picture);
    }
    *end = 0;
    check(strcmp(rows, c->wanted) == 0, "%.*s: read as %s, not as %s %s", (int)c->length, c->bytes, rows, c->wanted, why.text);
    fclose(file);
}

/* BAD FILES, and words of their refusals. */
static const Case BAD[] = {
    {BYTES(""), "the file is empty"},
    {BYTES(BOM), "byte order mark"},
    {BYTES(" \n\t\r\n"), "only white space"},
    {BYTES("P"), "not a picture"},
    {BYTES("P9\n1 1\n1"), "not a picture"},
    {BYTES("hello"), "not a picture"},
    {BYTES("P3\n1 1\n255\n0 0 0\n"), "P3"},
    {BYTES("P6\n1 1\n255\n   "), "P6"},
    {BYTES("P7\nWIDTH 1\n"), "P7"},
    {BYTES("\xFF\xD8\xFF\xE0"), "JPEG"},
    {BYTES("P1"), "cut short: it ends where the width"},
    {BYTES("P1\n5"), "cut short: it ends where the height"},
    {BYTES("P12 2\n1111"), "'2' where white space should be, in line 1"},
    {BYTES("P1\nx"), "'x' where the width should be, in line 2"},
    {BYTES("P1\n-3 3"), "'-' where the width should be"},
    {BYTES("P1\n3\n\x80"), "byte 0x80 where the height should be, in line 3"},
    {BYTES("P1\n0 3\n"), "no pixels"},
    {BYTES("P4\n3 0\n"), "no pixels"},
    {BYTES("P1\n20001 1\n"), "too large, 20001 x 1"},
    {BYTES("P5\n1 20001 1\n"), "too large, 1 x 20001"},
    {BYTES("P4\n8001 8000\n"), "too large, 8001 x 8000"},
    {BYTES("P1\n18446744073709551617 1\n1"), "the width is a number above"},
    {BYTES("P1\n1 99999999999999999999999999\n1"), "the height is a number above"},
    {BYTES("P1\n2 2\n011"), "cut short: it has 3 of 4 pixels"},
    {BYTES("P1\n2 2\n013"), "'3' where a pixel"},
    {BYTES("P1\n1 1\n01"), "behind the last pixel"},
    {BYTES("P1\n1 1\n0\nP1\n1 1\n0\n"), "behind the last pixel"},
    {BYTES("P4\n9 2\n\0\0\0"), "cut short: it has 3 of 4 bytes"},
    {BYTES("P4\n9 2"), "cut short: it has 0 of 4 bytes"},
    {BYTES("P4\n1 1\n\0P4\n1 1\n\0"), "behind the last pixel"},
    {BYTES("P2\n1 1\n0\n0\n"), "maxval) is 0"},
    {BYTES("P5\n1 1\n65536\n\0\0"), "maxval) is 65536"},
    {BYTES("P5\n1 1\n\n"), "cut short: it ends where the greatest sample"},
    {BYTES("P2\n2 1\n255\n0 256\n"), "a sample of 256, in row 1, is above the greatest, 255"},
    {BYTES("P2\n1 2\n255\n0 99999999999\n"), "a sample is a number above"},
    {BYTES("P2\n1 2\n255\n0 x\n"), "'x' where a sample should be, in line 4"},
    {BYTES("P2\n1 2\n255\n0x\n"), "'x' where white space should be"},
    {BYTES("P2\n2 2\n9\n1 2 3\n"), "cut short: it has 3 of 4 pixels"},
    {BYTES("P2\n1 1\n9\n1 2\n"), "behind the last pixel"},
    {BYTES("P5\n2 2\n9\n\1\2\3"), "cut short: it has 3 of 4 bytes"},
    {BYTES("P5\n2 1\n9\n\1\12"), "a sample of 10, in row 1, is above the greatest, 9"},
    {BYTES("P5\n2 1\n999\n\1\2\3"), "cut short: it has 3 of 4 bytes"},
    {BYTES("P5\n1 2\n256\n\1\0\1\1"), "a sample of 257, in row 2, is above the greatest, 256"},
    {BYTES("P5\n1 1\n9\n\1P5\n1 1\n9\n\1"), "behind the last pixel"},
    {BYTES("010\n11\n"), "row 2 has 2 pixels, and the rows above have 3"},
    {BYTES("010\n1x1\n"), "'x' where a pixel, 0, 1 or 2, should be, in line 2"},
    {BYTES("013\n"), "'3' where a pixel"},
    {BYTES("# nothing\n"), "only comments"},
    {BYTES("<svg></svg>"), "an SVG file that hanxin did not write; convert it to PNG or PBM"},
    {BYTES("<?xml version=\"1.0\"?>"), "an SVG file that hanxin did not write"},
    {BYTES(SVG_START "1mm\" height=\"1mm\" viewBox=\"0 0 2 2\">\n<path fill=\"#000\" d=\"M1 1h2v1h-2z\"/></svg>"),
     "hanxin did not write"},
    {BYTES(SVG_START "1mm\" height=\"1mm\" viewBox=\"0 0 2 2\">\n<path fill=\"#000\" d=\"M0 2h1v1h-1z\"/></svg>"),
     "hanxin did not write"},
    {BYTES(SVG_START "1mm\" height=\"1mm\" viewBox=\"0 0 2 2\">\n<path fill=\"#000\" d=\"M0 0h1v1h-1z\"/>"),
     "hanxin did not write"},
    {BYTES(SVG_START "1mm\" height=\"1mm\" viewBox=\"0 0 2 2\">\n<text/></svg>"), "hanxin did not write"},
    {BYTES(SVG_START "1mm\" height=\"1mm\" viewBox=\"0 0 0 0\">"), "no pixels"},
    {BYTES(SVG_START "1mm\" height=\"1mm\" viewBox=\"0 0 8001 8001\">"), "too large"},
    {BYTES("\xE2\x96\x80x"), "'x' where a block"},
    {BYTES("\xE2\x96\x81"), "byte 0xE2 where a block"},
    {BYTES("\x1B[2J"), "byte 0x1B where a block"},
    {BYTES("\xE2\x96\x80??"), "half blocks"},
    {BYTES("??\n+-\n"), "not, in line 2"},
    {BYTES("???\n"), "not, in line 1"},
};

static const Case BAD_PNG[] = {
    {BYTES("\x89PNG\r\n"), "the PNG file cannot be read"},
    {BYTES("\x89PNG\n\x1A\n\0\0\0\x0D"), "the PNG file cannot be read"},
    {BYTES(PNG_START), "cannot be read: the file is cut short"},
    {BYTES(PNG_START "\0\0\0\3\0\0\0\1\x08\0\0\0\0\x3E\x8B\x4B\x68\0\0\0\x0CIDAT\x78\xDA"),
     "cannot be read: the file is cut short"},
    {BYTES(PNG_START "\0\0\0\3\0\0\0\1\x08\0\0\0\0\x3E\x8B\x4B\x69"), "CRC"},
    {BYTES(PNG_START "\x00\x00\x4E\x21\x00\x00\x00\x01\x08\x00\x00\x00\x00\xF1\x1D\xAA\x6C\x00\x00\x00\x2A\x49\x44\x41"
                     "\x54\x78\xDA\xED\xC1\x31\x01\x00\x00\x00\xC2\xA0\xF5\x4F\x6D\x0D\x0F\xA0\x00\x00\x00\x00\x00\x00"
                     "\x00\x00\x00\x00\x00\x00\x00\x00\x00\x00\x00\x00\x00\xF8\x30\x4E\x22\x00\x01\x9E\xFC\xEE\xA4" PNG_END),
     "too large, 20001 x 1"},
};

static void test_bad(const Case *c)
{
    FILE *file = file_of(c);
    Picture picture;
    Words why = {""};
    int done = picture_read(file, THRESHOLD, &picture, &why);
    check(!done && strstr(why.text, c->wanted) != NULL, "%.*s: %s, not: %s", (int)c->length, c->bytes, done ? "read" : why.text,
          c->wanted);
    check(picture.pixels == NULL, "%.*s: has pixels", (int)c->length, c->bytes);
    picture_free(&picture);
    fclose(file);
}

#define COUNT(cases) (sizeof cases / sizeof cases[0])

static void test_cases(void)
{
    static const Case NO_PNG = {BYTES("\x89PNG\r\n\x1A\n"), "PNG is not built in"};
    size_t i;
    for (i = 0; i < COUNT(GOOD); i++)
        test_good(&GOOD[i]);
    for (i = 0; i < COUNT(BAD); i++)
        test_bad(&BAD[i]);
    for (i = 0; i < COUNT(GOOD_PNG) && png_is_there(); i++)
        test_good(&GOOD_PNG[i]);
    for (i = 0; i < COUNT(BAD_PNG) && png_is_there(); i++)
        test_bad(&BAD_PNG[i]);
    if (!png_is_there())
        test_bad(&NO_PNG);
}

/* Too long a file, and a directory. */
static void test_files(void)
{
    FILE *file = temporary();
    Picture picture;
    Words why = {""};
    if (fseek(file, FILE_MOST, SEEK_SET) == 0 && putc(0, file) == 0) {
        rewind(file);
        check(!picture_read(file, THRESHOLD, &picture, &why) && strstr(why.text, "larger than 64 MB") != NULL, "64 MB: %s",
              why.text);
    }
    fclose(file);
    file = fopen(".", "r");
    if (file == NULL)
        return; /* some systems do not open one */
    check(!picture_read(file, THRESHOLD, &picture, &why) && strstr(why.text, "cannot read: ") == why.text, "directory: %s",
          why.text);
    fclose(file);
}

/* WHAT CANNOT BE WRITTEN. */
static void test_refusal(const Look *look, const Square *square, const char *wanted)
{
    FILE *file = temporary();
    Words why = {""};
    check(!picture_write(file, look, square, &why) && strstr(why.text, wanted) != NULL, "%s: %s, not: %s",
          FORMAT_NAMES[look->format], why.text, wanted);
    check(ftell(file) == 0, "%s: refused, and something is written", FORMAT_NAMES[look->format]);
    fclose(file);
}

static void test_sizes(const Square *square)
{
    static const Look LOOKS[] = {
        {FORMAT_PBM, 0, 3, 1, 0},          {FORMAT_P4, 870, 0, 1, 0},
        {FORMAT_PBM, 1, 10000, 1, 0},      {FORMAT_SVG, 0, 9989, 1, 0},
        {FORMAT_TEXT, 0, 20001, 1, 0},     {FORMAT_PBM, (size_t)-1, 3, 1, 0},
        {FORMAT_SVG, 1, (size_t)-1, 1, 0}, {FORMAT_SVG, 1, (size_t)-1 / 2, 1, 0},
        {FORMAT_P4, 348, 0, 1, 0}, /* 8,004 x 8,004 pixels */
    };
    size_t i;
    test_refusal(&LOOKS[0], square, "the scale is at least 1");
    for (i = 1; i < COUNT(LOOKS); i++)
        test_refusal(&LOOKS[i], square, "more than 20,000 pixels");
}

static void test_modules(const Square *square)
{
    static const double SIDES[] = {0, -1, 1e-9, 1e7, NAN, INFINITY};
    Look look = {FORMAT_SVG, 1, 3, 0, 0};
    size_t i;
    for (i = 0; i < 2 * COUNT(SIDES); i++) {
        look.format = i % 2 == 0 ? FORMAT_SVG : FORMAT_PNG;
        look.module = SIDES[i / 2];
        test_refusal(&look, square, "the side of a module is");
    }
    look.module = 1e6;
    if (png_is_there())
        test_refusal(&look, square, "too small or too large for PNG");
    else
        test_refusal(&look, square, "PNG is not built in");
}

static void test_shades(void)
{
    static Square square;
    Look pbm = {FORMAT_PBM, 2, 3, 1, 0}, p4 = {FORMAT_P4, 2, 3, 1, 0};
    fill(&square, 23, 2);
    test_sizes(&square);
    test_modules(&square);
    square.modules[528] = SHADE_UNKNOWN;
    test_refusal(&p4, &square, "draw unknown modules");
    square.modules[528] = SHADE_ADDED;
    test_refusal(&p4, &square, "draw an overlay");
    test_refusal(&pbm, &square, "draw an overlay");
    square.modules[528] = SHADE_LOST;
    test_refusal(&pbm, &square, "draw an overlay");
    square.modules[528] = SHADES;
    test_refusal(&pbm, &square, "no shade");
    square.side = 190;
    test_refusal(&pbm, &square, "190 modules on a side");
    square.side = 0;
    test_refusal(&pbm, &square, "0 modules on a side");
}

/* A file that cannot be written. A large picture fails while it is written, and a small one when the file is flushed. */
static void test_failure(const Look *look, const char *name, const char *mode)
{
    static Square square;
    FILE *file = fopen(name, mode);
    Words why = {""};
    if (file == NULL)
        return; /* not every system has these files */
    fill(&square, look->scale == 1 ? 23 : 189, 2);
    check(!picture_write(file, look, &square, &why) && strstr(why.text, "cannot write: ") == why.text, "%s to %s: %s",
          FORMAT_NAMES[look->format], name, why.text);
    fclose(file);
}

static void test_failures(void)
{
    Look look = {FORMAT_TEXT, 1, 3, 1, 0};
    unsigned i;
    for (i = 0; i < 2 * FORMATS; i++) {
        look.format = (Format)(i / 2);
        look.scale = i % 2 == 0 ? 1 : 9;
        if (look.format == FORMAT_PNG && !png_is_there())
            continue;
        test_failure(&look, "/dev/null", "r"); /* open for reading only */
        test_failure(&look, "/dev/full", "w");
    }
}

int main(void)
{
    test_rounds();
    test_written();
    test_cases();
    test_files();
    test_shades();
    test_failures();
    if (failures > 0) {
        fprintf(stderr, "pictures: %lu of %lu checks failed\n", failures, checks);
        return 1;
    }
    printf("pictures: %lu checks\n", checks);
    return 0;
}
