/* Six heads, one reader. Each head has a buffer of its own for its square, and hands in its number and the square's side. A turn names
 * the longest waiting, and the station reads the square where it stands. */
#include "han_xin.h"

#include <stdio.h>
#include <string.h>

static uint8_t squares[HX_HEADS][HX_SIZE_SQUARE]; /* each row by row from the top left */
static hx_queue queue;                            /* zeros: nobody waits; threads that share it take a lock for each call */

/* In place of a camera: the smallest mark for these digits, fewer than 256, at level 3 with mask 0. Answers its side. */
static size_t shoot(size_t head, const char *digits)
{
    static hx_payload payload;
    static hx_script script = {3, {HX_MODE_NUMERIC, 0, 0}};
    payload.length = strlen(digits);
    memcpy(payload.bytes, digits, payload.length);
    script.bytes[2] = (uint8_t)payload.length;
    return HX_SIDE(hx_write_fit(3, 0, &script, &payload, squares[head], HX_SIZE_SQUARE).value);
}

static void refused(size_t head, hx_status status)
{
    printf("head %zu: refused: %zu, %s\n", head, status, hx_refusal_words(status));
}

static void hand_in(size_t head, size_t side)
{
    hx_status status = hx_hand_in(&queue, head, side);
    if (status != HX_OK)
        refused(head, status);
    else
        printf("head %zu: hands in %zu x %zu modules\n", head, side, side);
}

static void read_square(size_t head, size_t side)
{
    static hx_payload serial;
    static hx_script script;
    hx_receipt receipt;
    hx_status status = hx_read(squares[head], side * side, side, &serial, &script, &receipt);
    if (status != HX_OK)
        refused(head, status);
    else
        printf("head %zu: %.*s, codewords repaired: %zu\n", head, (int)serial.length, (const char *)serial.bytes,
               receipt.corrected);
}

int main(void)
{
    static const char *const serials[HX_HEADS] = {"00471100", "00471101", "00471102", "00471103", "00000815000000471104",
                                                  "00471105"};
    static const size_t order[HX_HEADS] = {3, 0, 5, 1, 4, 2};
    const char *later = "00471106";
    hx_turn next;
    size_t i;

    for (i = 0; i < HX_HEADS; i++)
        hand_in(order[i], shoot(order[i], serials[order[i]]));
    for (i = 9; i <= 13; i += 2)
        squares[5][i * 23 + 12] ^= 1; /* damage within reach */
    hand_in(0, 23); /* a head that waits cannot hand in another, and leaves its buffer as it is until its turn */

    for (next = hx_take_turn(&queue); next.side != 0; next = hx_take_turn(&queue)) {
        read_square(next.head, next.side);
        if (next.head == 3 && later != NULL) { /* its buffer is free again: it waits behind all others */
            hand_in(3, shoot(3, later));
            later = NULL;
        }
    }
    return 0;
}
