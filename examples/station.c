#include <stdio.h>
#include "han_xin.h"

static uint8_t square[HX_SIZE_SQUARE]; /* row by row from the top left, 0 light, 1 dark, 2 unknown */
static hx_payload serial;
static hx_script script;

int main(void)
{
    hx_receipt receipt;
    hx_status status;
    size_t side = 0, n = 0;

    if (scanf("P1 %zu %*u", &side) != 1)
        return 2;
    while (n < sizeof square && scanf(" %1hhu", &square[n]) == 1)
        n++;
    status = hx_read(square, n, side, &serial, &script, &receipt);
    if (status != HX_OK) {
        fprintf(stderr, "refused: %zu, %s\n", status, hx_refusal_words(status));
        return 1;
    }
    fwrite(serial.bytes, 1, serial.length, stdout);
    printf(", codewords repaired: %zu\n", receipt.corrected);
    return 0;
}
