/* The functions of the library that are not proved: texts alone. They are symbols, and not inline functions of the header, so that
 * programs in other languages can call them. c/run holds the texts to the comments in the header. */
#include "han_xin.h"

const char *hx_refusal_words(hx_status status)
{
    switch (status) {
    case HX_OK: return "no refusal";
    case HX_REFUSED_RANGE: return "side, version, level or mask is out of range";
    case HX_REFUSED_LENGTH: return "the receipt is not 12 bytes long, or the square not side x side, or too short for the mark";
    case HX_REFUSED_MODULE: return "a byte of the square is above 2";
    case HX_REFUSED_INFORMATION: return "more than 10 information modules differ from those of every level and mask";
    case HX_REFUSED_BLOCK: return "a block has more wrong codewords than can be repaired";
    case HX_REFUSED_DATA: return "the data end inside a segment, or contain an unknown mode or value";
    case HX_REFUSED_EMPTY: return "the payload is empty";
    case HX_REFUSED_PAYLOAD_FULL: return "the payload is longer than its buffer";
    case HX_REFUSED_SCRIPT_FULL: return "the script is longer than its buffer";
    case HX_REFUSED_SCRIPT: return "the script has an unknown command or a bad operand, or does not match the payload's length";
    case HX_REFUSED_PAYLOAD: return "part of the payload cannot be encoded in this mode";
    case HX_REFUSED_TOO_LONG: return "script and payload do not fit this version and level";
    case HX_REFUSED_NO_VERSION: return "script and payload do not fit any version at this level";
    case HX_REFUSED_ERASED: return "a block has more codewords with unknown modules than parity codewords";
    case HX_REFUSED_HEAD: return "the head number is above 5";
    case HX_REFUSED_WAITING: return "the head already waits";
    default: return "unknown refusal number";
    }
}

const char *hx_library_version(void) { return HX_LIBRARY_VERSION; }
