/* The test of what the header adds to the six functions: the fields of a receipt, and the calls with structs. */
#include "calls.h"
#include "marks.h"

#include <stdio.h>
#include <string.h>

static uint8_t square[HX_SIZE_SQUARE], other[HX_SIZE_SQUARE], like[HX_SIZE_BUFFER];
static hx_payload payload;
static hx_script script;
static hx_receipt receipt;

static void test_fields(void)
{
    static const uint8_t bytes[HX_SIZE_RECEIPT] = {9, 8, 7, 6, 5, 4, 3, 2, 1, 11, 12, 13};
    hx_receipt fields = hx_receipt_decode(bytes);
    CHECK(hx_receipt_status(bytes) == 9 && fields.status == 9);
    CHECK(hx_receipt_version(bytes) == 8 && fields.version == 8);
    CHECK(hx_receipt_level(bytes) == 7 && fields.level == 7);
    CHECK(hx_receipt_mask(bytes) == 6 && fields.mask == 6);
    CHECK(hx_receipt_corrected(bytes) == 5 * 256 + 4 && fields.corrected == 5 * 256 + 4);
    CHECK(hx_receipt_distance(bytes) == 3 && fields.distance == 3);
    CHECK(hx_receipt_payload_length(bytes) == 2 * 256 + 1 && fields.payload_length == 2 * 256 + 1);
    CHECK(hx_receipt_script_length(bytes) == 11 * 256 + 12 && fields.script_length == 11 * 256 + 12);
}

/* What no call may leave unnoticed: other bytes, lengths and fields than those that it writes. */
static void forget(void)
{
    memset(&payload, UNTOUCHED, sizeof payload);
    memset(&script, UNTOUCHED, sizeof script);
    memset(&receipt, UNTOUCHED, sizeof receipt);
}

static void set_content(const char *script_bytes, size_t script_length, const char *payload_bytes, size_t payload_length)
{
    script.length = script_length;
    memcpy(script.bytes, script_bytes, script_length);
    payload.length = payload_length;
    memcpy(payload.bytes, payload_bytes, payload_length);
}

/* The content of the mark below, with so many codewords repaired and this distance. */
static void check_content(hx_status status, size_t version, size_t corrected, size_t distance)
{
    CHECK(status == HX_OK && receipt.status == HX_OK);
    CHECK(receipt.version == version && receipt.level == 1 && receipt.mask == 2);
    CHECK(receipt.corrected == corrected && receipt.distance == distance);
    CHECK(payload.length == 9 && receipt.payload_length == 9 && memcmp(payload.bytes, "00471100a", 9) == 0);
    CHECK(script.length == 6 && receipt.script_length == 6 && memcmp(script.bytes, "\1\0\10\2\0\1", 6) == 0);
    CHECK(memcmp(payload.bytes + 9, like, HX_SIZE_BUFFER - 9) == 0 && memcmp(script.bytes + 6, like, HX_SIZE_BUFFER - 6) == 0);
}

/* A mark is the one that hx_write_square writes, and is read with its repairs; a module may be unknown. */
static void test_content(void)
{
    static const size_t versions[] = {HX_VERSION_MIN, 2, 30, HX_VERSION_MAX};
    size_t i;
    for (i = 0; i < sizeof versions / sizeof versions[0]; i++) {
        size_t v = versions[i], side = HX_SIDE(v), n = side * side;
        about(v, 1, 2, 0);
        set_content("\1\0\10\2\0\1", 6, "00471100a", 9);
        CHECK(hx_write(v, 1, 2, &script, &payload, square, n) == HX_OK);
        CHECK(hx_write_square(v, 1, 2, script.bytes, 6, payload.bytes, 9, other, n) == HX_OK && memcmp(square, other, n) == 0);
        square[info_place(side, 0, 30)] ^= 1; /* light in every information word */
        square[5 * side + 12] ^= 1;           /* a data module */
        forget();
        check_content(hx_read(square, n, side, &payload, &script, &receipt), v, 1, 1);
        forget();
        check_content(hx_read_as(square, n, v, 1, 2, &payload, &script, &receipt), v, 1, 0);
        square[5 * side + 12] = HX_MODULE_UNKNOWN; /* wrong only if it was dark */
        forget();
        check_content(hx_read(square, n, side, &payload, &script, &receipt), v, other[5 * side + 12], 1);
        forget();
        check_content(hx_read_as(square, n, v, 1, 2, &payload, &script, &receipt), v, other[5 * side + 12], 0);
    }
}

static void check_refused(hx_status status, hx_status expected)
{
    CHECK(status == expected && receipt.status == expected);
    CHECK(receipt.version == 0 && receipt.level == 0 && receipt.mask == 0 && receipt.corrected == 0 && receipt.distance == 0);
    CHECK(payload.length == 0 && receipt.payload_length == 0 && memcmp(payload.bytes, like, HX_SIZE_BUFFER) == 0);
    CHECK(script.length == 0 && receipt.script_length == 0 && memcmp(script.bytes, like, HX_SIZE_BUFFER) == 0);
}

/* After a refusal the bytes are as they were, and all numbers 0 but the status. */
static void test_refusals(void)
{
    about(1, 0, 1, 0);
    set_content("\1\0\2", 3, "47", 2);
    CHECK(hx_write(1, 0, 1, &script, &payload, square, 529) == HX_OK);
    memset(square + 11 * 23, HX_MODULE_UNKNOWN, 23); /* four codewords, as many as the parity: no reserve is left */
    forget();
    check_refused(hx_read(square, 529, 23, &payload, &script, &receipt), HX_REFUSED_BLOCK);
    forget();
    check_refused(hx_read_as(square, 529, 1, 0, 1, &payload, &script, &receipt), HX_REFUSED_BLOCK);
    memset(square + 12 * 23, HX_MODULE_UNKNOWN, 23);
    forget();
    check_refused(hx_read(square, 529, 23, &payload, &script, &receipt), HX_REFUSED_ERASED);
    forget();
    check_refused(hx_read_as(square, 529, 1, 0, 1, &payload, &script, &receipt), HX_REFUSED_ERASED);
    square[100] = 3;
    forget();
    check_refused(hx_read(square, 529, 23, &payload, &script, &receipt), HX_REFUSED_MODULE);
    forget();
    check_refused(hx_read(square, 528, 23, &payload, &script, &receipt), HX_REFUSED_LENGTH);
    forget();
    check_refused(hx_read_as(square, 529, 1, 0, 1, &payload, &script, &receipt), HX_REFUSED_MODULE);
    forget();
    check_refused(hx_read_as(square, 529, 1, 4, 1, &payload, &script, &receipt), HX_REFUSED_RANGE);
}

/* Lengths that the structs cannot have get 9 and 10, before what the writer refuses; the longest that they can have go to the writer. */
static void test_lengths(void)
{
    size_t i;
    about(1, 0, 0, 1);
    memset(other, UNTOUCHED, sizeof other);
    set_content("\1\0\2", 3, "47", 2);
    payload.length = HX_SIZE_BUFFER + 1;
    CHECK(hx_write(85, 0, 0, &script, &payload, other, 529) == HX_REFUSED_PAYLOAD_FULL);
    script.length = SIZE_MAX;
    CHECK(hx_write(85, 0, 0, &script, &payload, other, 529) == HX_REFUSED_PAYLOAD_FULL);
    payload.length = 2;
    CHECK(hx_write(85, 0, 0, &script, &payload, other, 529) == HX_REFUSED_SCRIPT_FULL);
    script.length = 3;
    CHECK(hx_write(85, 0, 0, &script, &payload, other, 529) == HX_REFUSED_RANGE);
    payload.length = HX_SIZE_BUFFER;
    CHECK(hx_write(1, 0, 0, &script, &payload, other, 529) == HX_REFUSED_SCRIPT);
    script.length = HX_SIZE_BUFFER;
    CHECK(hx_write(1, 0, 0, &script, &payload, other, 529) == HX_REFUSED_SCRIPT);
    for (i = 0; i < sizeof other && other[i] == UNTOUCHED; i++)
        ;
    CHECK(i == sizeof other);
}

static void check_fit(int line, hx_answer answer, hx_status status, size_t version)
{
    check(answer.status == status && answer.value == version, line, "hx_write_fit's status and version");
}
#define FITS(answer, version) check_fit(__LINE__, answer, HX_OK, version)
#define FITS_NOT(answer, status) check_fit(__LINE__, answer, status, 0)

/* hx_write_fit writes the mark that hx_write writes at the version that it answers, and no byte beyond it. */
static void test_fit(void)
{
    about(1, 1, 2, 0);
    set_content("\1\0\10\2\0\1", 6, "00471100a", 9);
    memset(other, UNTOUCHED, sizeof other);
    FITS_NOT(hx_write_fit(1, 2, &script, &payload, other, 528), HX_REFUSED_LENGTH);
    CHECK(memcmp(other, like, 528) == 0);
    FITS(hx_write_fit(1, 2, &script, &payload, other, sizeof other), 1);
    CHECK(hx_write(1, 1, 2, &script, &payload, square, 529) == HX_OK && memcmp(square, other, 529) == 0);
    CHECK(memcmp(other + 529, like, sizeof like) == 0);
    about(84, 0, 3, 0);
    set_content("\3\x0C\xBD", 3, (const char *)like, 3261);
    FITS(hx_write_fit(0, 3, &script, &payload, other, sizeof other), 84);
    CHECK(hx_write(84, 0, 3, &script, &payload, square, sizeof square) == HX_OK && memcmp(square, other, sizeof other) == 0);
}

/* Lengths that the structs cannot have, as above; after a refusal the version is 0. */
static void test_fit_lengths(void)
{
    about(1, 0, 0, 2);
    memset(other, UNTOUCHED, sizeof other);
    set_content("\1\0\2", 3, "47", 2);
    payload.length = HX_SIZE_BUFFER + 1;
    FITS_NOT(hx_write_fit(4, 0, &script, &payload, other, 529), HX_REFUSED_PAYLOAD_FULL);
    script.length = SIZE_MAX;
    FITS_NOT(hx_write_fit(4, 0, &script, &payload, other, 529), HX_REFUSED_PAYLOAD_FULL);
    payload.length = 2;
    FITS_NOT(hx_write_fit(4, 0, &script, &payload, other, 529), HX_REFUSED_SCRIPT_FULL);
    script.length = 3;
    FITS_NOT(hx_write_fit(4, 0, &script, &payload, other, 529), HX_REFUSED_RANGE);
    payload.length = HX_SIZE_BUFFER;
    FITS_NOT(hx_write_fit(0, 0, &script, &payload, other, 529), HX_REFUSED_SCRIPT);
    script.length = HX_SIZE_BUFFER;
    FITS_NOT(hx_write_fit(0, 0, &script, &payload, other, 529), HX_REFUSED_SCRIPT);
    CHECK(memcmp(other, like, 529) == 0);
}

static void check_turn(int line, hx_turn turn, size_t head, size_t side)
{
    check(turn.status == HX_OK && turn.head == head && turn.side == side, line, "hx_take_turn's status, head and side");
}
#define TURNS(turn, head, side) check_turn(__LINE__, turn, head, side)

/* A queue that begins with zeros, static or not; two of them know nothing of each other. Their bytes are those that the two functions
 * of the library write. */
static void test_queue(void)
{
    static const uint8_t two[HX_SIZE_QUEUE] = {5, 189, 0, 23}, one[HX_SIZE_QUEUE] = {0, 23}, none[HX_SIZE_QUEUE] = {0};
    static hx_queue first;
    hx_queue second = {{0}};
    about(0, 0, 0, 0);
    CHECK(sizeof first == HX_SIZE_QUEUE && memcmp(first.bytes, none, sizeof none) == 0);
    TURNS(hx_take_turn(&first), 0, 0);
    CHECK(hx_hand_in(&first, 5, 189) == HX_OK);
    CHECK(hx_hand_in(&second, 5, 25) == HX_OK && hx_hand_in(&second, 1, 27) == HX_OK);
    CHECK(hx_hand_in(&first, 0, 23) == HX_OK && memcmp(first.bytes, two, sizeof two) == 0);
    CHECK(hx_hand_in(&first, 6, 22) == HX_REFUSED_HEAD);
    CHECK(hx_hand_in(&first, 5, 22) == HX_REFUSED_WAITING);
    CHECK(hx_hand_in(&first, 1, 22) == HX_REFUSED_RANGE && memcmp(first.bytes, two, sizeof two) == 0);
    TURNS(hx_take_turn(&first), 5, 189);
    CHECK(memcmp(first.bytes, one, sizeof one) == 0);
    TURNS(hx_take_turn(&second), 5, 25);
    TURNS(hx_take_turn(&first), 0, 23);
    TURNS(hx_take_turn(&first), 0, 0);
    TURNS(hx_take_turn(&second), 1, 27);
    TURNS(hx_take_turn(&second), 0, 0);
    CHECK(memcmp(first.bytes, none, sizeof none) == 0 && memcmp(second.bytes, none, sizeof none) == 0);
}

int main(void)
{
    memset(like, UNTOUCHED, sizeof like);
    test_fields();
    test_content();
    test_refusals();
    test_lengths();
    test_fit();
    test_fit_lengths();
    test_queue();
    printf("receipts and calls with structs: %zu checks, %zu failed\n", checks_made(), checks_failed());
    return checks_failed() != 0;
}
