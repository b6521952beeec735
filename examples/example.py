#!/usr/bin/env python3
"""Writes a mark for a serial, damages it within reach and reads it back; then damages it beyond reach, and it is refused."""
import ctypes.util
import os
import sys
from ctypes import c_char_p, c_size_t

NUMERIC, DARK, UNKNOWN = 1, 1, 2
SIZE_SQUARE, SIZE_BUFFER, SIZE_RECEIPT = 35721, 12288, 12
BUFFER = ctypes.POINTER(ctypes.c_uint8)  # one that is written; c_char_p is one that is read


class Answer(ctypes.Structure):
    """hx_answer, which is returned by value."""
    _fields_ = [("status", c_size_t), ("value", c_size_t)]


NAME = os.environ.get("HAN_XIN_LIBRARY") or ctypes.util.find_library("han_xin")
if not NAME:
    sys.exit("no libhan_xin is installed; HAN_XIN_LIBRARY can name its file")
HX = ctypes.CDLL(NAME)
HX.hx_write_smallest.argtypes = [c_size_t, c_size_t, c_char_p, c_size_t, c_char_p, c_size_t, BUFFER, c_size_t]
HX.hx_write_smallest.restype = Answer
HX.hx_read_square.argtypes = [c_char_p, c_size_t, c_size_t, BUFFER, c_size_t, BUFFER, c_size_t, BUFFER, c_size_t]
HX.hx_read_square.restype = c_size_t
HX.hx_refusal_words.argtypes = [c_size_t]
HX.hx_refusal_words.restype = c_char_p


def accept(status):
    if status != 0:
        raise ValueError(f"refused: {status}, {HX.hx_refusal_words(status).decode()}")


def write_serial(digits):
    """The smallest mark at level 2 with mask 0, one numeric segment: its version, and its modules row by row from the top left."""
    script = bytes([NUMERIC]) + len(digits).to_bytes(2, "big")
    square = (ctypes.c_uint8 * SIZE_SQUARE)()
    answer = HX.hx_write_smallest(2, 0, script, len(script), digits, len(digits), square, SIZE_SQUARE)
    accept(answer.status)
    side = 2 * answer.value + 21
    return answer.value, side, bytearray(square[:side * side])


def read_serial(side, square):
    payload, script, receipt = ((ctypes.c_uint8 * size)() for size in (SIZE_BUFFER, SIZE_BUFFER, SIZE_RECEIPT))
    accept(HX.hx_read_square(bytes(square), len(square), side, payload, SIZE_BUFFER, script, SIZE_BUFFER, receipt, SIZE_RECEIPT))
    corrected, length = (int.from_bytes(receipt[at:at + 2], "big") for at in (4, 7))
    print(f"read: {bytes(payload[:length]).decode()}, codewords repaired: {corrected}")


def main():
    serial = "00471100"
    version, side, square = write_serial(serial.encode())
    print(f"written: {serial}, version {version}, {side} x {side} modules")

    # The one block of this mark has 12 parity codewords. Three wrong codewords and four with an unknown module need 2 x 3 + 4 + 2
    # of them: just within reach. One of the four is right as it is, since an unknown module is taken as light: six are repaired.
    for row in 9, 11, 13:
        square[row * side + 6] ^= 1
    for row in range(9, 13):
        square[row * side + 12] = UNKNOWN
    print("damaged: column 6, rows 9, 11 and 13 flipped; column 12, rows 9 to 12 unknown")
    read_serial(side, square)

    for column in range(side):
        square[10 * side + column] = DARK
    print("damaged: row 10 dark too")
    try:
        read_serial(side, square)
    except ValueError as refusal:
        print(refusal)
    else:
        sys.exit("it must be refused")


if __name__ == "__main__":
    main()
