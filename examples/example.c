/* Writes a mark for a serial, damages it within reach and reads it back; then damages it beyond reach, and it is refused. */
#include "han_xin.h"

#include <stdio.h>
#include <string.h>

static uint8_t square[HX_SIZE_SQUARE]; /* row by row from the top left */

/* The smallest mark at level 2 with mask 0, one numeric segment; the answer has its version. */
static hx_answer write_serial(const char *digits)
{
    static hx_payload payload;
    static hx_script script;
    payload.length = strlen(digits);
    memcpy(payload.bytes, digits, payload.length);
    script.length = 3;
    script.bytes[0] = HX_MODE_NUMERIC;
    script.bytes[1] = (uint8_t)(payload.length / 256);
    script.bytes[2] = (uint8_t)(payload.length % 256);
    return hx_write_fit(2, 0, &script, &payload, square, sizeof square);
}

static hx_status refused(hx_status status)
{
    printf("refused: %zu, %s\n", status, hx_refusal_words(status));
    return status;
}

static hx_status read_serial(size_t side)
{
    static hx_payload payload;
    static hx_script script;
    hx_receipt receipt;
    hx_status status = hx_read(square, side * side, side, &payload, &script, &receipt);
    if (status != HX_OK)
        return refused(status);
    printf("read: %.*s, codewords repaired: %zu\n", (int)payload.length, (const char *)payload.bytes, receipt.corrected);
    return HX_OK;
}

int main(void)
{
    const char *serial = "00471100";
    hx_answer written = write_serial(serial);
    size_t side = HX_SIDE(written.value), row, column;
    if (written.status != HX_OK)
        return refused(written.status) != HX_OK;
    printf("written: %s, version %zu, %zu x %zu modules\n", serial, written.value, side, side);

    /* The one block of this mark has 12 parity codewords. Three wrong codewords and four with an unknown module need 2 x 3 + 4 + 2
     * of them: just within reach. One of the four is right as it is, since an unknown module is taken as light: six are repaired. */
    for (row = 9; row <= 13; row += 2)
        square[row * side + 6] ^= 1;
    for (row = 9; row <= 12; row++)
        square[row * side + 12] = HX_MODULE_UNKNOWN;
    printf("damaged: column 6, rows 9, 11 and 13 flipped; column 12, rows 9 to 12 unknown\n");
    if (read_serial(side) != HX_OK)
        return 1;

    for (column = 0; column < side; column++)
        square[10 * side + column] = HX_MODULE_DARK;
    printf("damaged: row 10 dark too\n");
    return read_serial(side) == HX_OK; /* it must be refused */
}
