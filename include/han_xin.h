/* Han Xin marks (ISO/IEC 20830) for C: six functions on numbers and byte buffers. C99, and C++ too.
 *
 * Linux on x86-64. `make install` installs the library, static and shared; pkg-config --cflags --libs han_xin prints the flags. Without
 * that, link with target/lib/libhan_xin.a, which c/library writes. Of the C library it needs memcpy and memset.
 *
 * NAMES. HX_SIZE_.. are numbers of bytes, HX_MODULE_.. the bytes of a square, HX_REFUSED_.. refusals, HX_MODE_.. the commands of a
 * script, HX_VERSION_.. the versions of marks, HX_LIBRARY_.. the version of this library. hx_receipt_.. reads a field of a receipt,
 * hx_queue_.. works on a queue.
 *
 * A SQUARE has side x side bytes, row by row: 0 light, 1 dark, and for the readings also 2 unknown; a writing writes 0 and 1 only.
 * Row 0 is the top row and column 0 the left one: the module at a row and column is byte row x side + column. A mark of version 1
 * to 84 has side 2 x version + 21, so 23 to 189. Level (of error correction) and mask are each 0 to 3. In each corner stands a
 * finder of 7 x 7 modules (# dark, . light):
 *
 *   top left      #######    #######   top right
 *                 #......    ......#
 *                 #.#####    #####.#
 *                 #.#....    ....#.#
 *                 #.#.###    ###.#.#
 *                 #.#.###    ###.#.#
 *                 #.#.###    ###.#.#
 *
 *   bottom left   #######    ###.#.#   bottom right
 *                 ......#    ###.#.#
 *                 #####.#    ###.#.#
 *                 ....#.#    ....#.#
 *                 ###.#.#    #####.#
 *                 ###.#.#    ......#
 *                 ###.#.#    #######
 *
 * The two outer dark lines of a finder meet in one of its corners. For three finders that is the corner of the square; for the one
 * at the bottom left it is the corner towards the middle. So the finders tell how a square is turned. The functions do not turn it:
 * the caller does, until the finders stand as above. They do not tell whether it is mirrored: a mark mirrored at the diagonal from
 * bottom left to top right has the same finders. Where a camera may mirror, the caller has to know it or to look at the information
 * modules (docs/DECISIONS.md has the rule of the program hanxin).
 *
 * UNKNOWN MODULES. Set a module to unknown when it cannot be told light from dark: under a scratch, glare or dirt. Do not guess
 * there, and do not say unknown for probably light. Both readings take an unknown module as light. A codeword is erased if one of
 * its eight modules is unknown. A block with f erased codewords is read so:
 *
 *   f = 0                    it is repaired if at most half as many codewords are wrong as it has parity codewords; else 6
 *   f from 1 to the parity   it is accepted if it needs no repair; it is repaired if, of the codewords that are not erased, e are
 *                            wrong and 2 e + f + 2 is not above the parity; else 6
 *   f above the parity       15
 *
 * So a wrong codeword costs two parity codewords, and an erased one costs one, even if it would have been right. Two more are kept
 * in reserve, which makes a repair to another mark less likely. So a module that is guessed wrong costs twice as much as an unknown
 * one, and each that is set to unknown without need costs reach. A block with as many wrong codewords as can be repaired gets 6 once
 * one codeword of it is erased, because the reserve is kept from then on; with two of the wrong ones erased it is repaired again.
 *
 * Outside the data, unknown modules matter only among the information modules: there one that is light in the mark changes nothing,
 * and a dark one counts as different.
 *
 * The PAYLOAD is the bytes that a mark holds. The SCRIPT beside it says how they are written: commands of one byte, each with an
 * operand of fixed width, big-endian, which take the payload bytes from first to last:
 *
 *   command            operand                          payload bytes that it takes
 *   1 numeric          2 bytes, a length, not 0         as many as the length: digits 30 to 39 hex
 *   2 text             2 bytes, a length                as many: bytes 00 to 1B and 20 to 7F hex
 *   3 bytes            2 bytes, a length up to 8,191    as many: any bytes
 *   4 region one       2 bytes, an even length          as many: pairs B0 to D7 or A1 to A3, then A1 to FE; A8, then A1 to C0
 *                                                       hex; and those of region two, after a switch
 *   5 region two       2 bytes, an even length          as many: pairs D8 to F7, then A1 to FE hex; and those of region one,
 *                                                       after a switch
 *   6 two-byte         2 bytes, an even length          as many: pairs 81 to FE, then 40 to 7E or 80 to FE hex
 *   7 four-byte        none                             4: 81 to FE, 30 to 39, 81 to FE, 30 to 39 hex
 *   8 ECI              3 bytes, up to 2,097,151         none: the number of a character set
 *
 * So the script {1, 0, 8} with the payload "00471100" is one numeric segment of 8 digits.
 *
 * The RECEIPT of a reading has 12 bytes; two-byte numbers are big-endian:
 *
 *   byte 0      the refusal number, or 0              byte 6        how many of the 68 information modules differ
 *   byte 1      version                                             (0 to 10; after hx_read_known always 0)
 *   byte 2      level                                 bytes 7, 8    payload length
 *   byte 3      mask                                  bytes 9, 10   script length
 *   bytes 4, 5  corrected: how many codewords of      byte 11       0
 *               the blocks were wrong and repaired
 *
 * In both counts an unknown module is light: a codeword that is erased, but right so, is not counted.
 *
 * SIX HEADS, ONE READER. Heads 0 to 5 hand in squares, and one reader takes them in turn. A head hands in its number and the side
 * of its square; the square stays in the head's own buffer until its turn. A turn names the longest waiting with the side that it
 * handed in, and takes it off the queue; then the station reads that square. A head that waits cannot hand in another, so at most
 * six wait, and each is named within six turns, whatever is handed in meanwhile.
 *
 * The QUEUE stands in HX_SIZE_QUEUE bytes that the station keeps. Zeros are the empty queue, so a static array or memset begins
 * one; after that only the two functions write to it. For each head that waits it has an entry of two bytes, head and side, the
 * longest waiting first, and zeros behind them. Whatever the bytes are, they mean a queue: that of the entries before the first
 * one that makes no sense, because its head is above 5, its head has an entry before it, or no square has its side. In a queue
 * that began with zeros no such entry is ever met but zeros.
 *
 * WHAT IS WRITTEN. A function returns 0 or a refusal number, alone, in an hx_answer or in an hx_turn. After a refusal payload,
 * script, square and queue are as they were, and the receipt has the number and eleven zeros; if the receipt is not 12 bytes
 * long, nothing at all is written. After 0, payload and script hold what the receipt's lengths say, and their bytes beyond that
 * are as they were. hx_write_square writes the square whole; hx_write_smallest writes as many of its first bytes as the mark has,
 * and the bytes beyond are as they were.
 *
 * BUFFERS. Each is a pointer with its number of bytes. A buffer that is written (payload, script and receipt of a reading, square
 * of a writing, a queue) must not overlap any other buffer of the call, and no other thread may use it meanwhile; nor may another
 * thread write to one that is read. The pointer must be valid for as many bytes as are given. A buffer of 0 bytes is allowed, and
 * nothing is read or written through its pointer: the test passes NULL with 0 for every buffer. The language's documents do not
 * promise that for NULL; the address of any byte is safe.
 *
 * THREADS, MEMORY. There is no state between calls but what stands in lent buffers, no heap, no input or output: threads may call
 * at the same time, each with its own buffers. Threads that share a queue take a lock for each call. A call needs at most
 * HX_SIZE_STACK bytes of stack.
 *
 * What the functions do is defined in crates/marks/specs and crates/queue/specs, and proved; proofs/Theorems.antt of each of these
 * two crates has the theorem.
 */
#ifndef HAN_XIN_H
#define HAN_XIN_H

#include <stddef.h>
#include <stdint.h>

#ifdef __cplusplus
extern "C" {
#endif

/* The version of this library. hx_library_version tells which one was linked. */
#define HX_LIBRARY_MAJOR 0
#define HX_LIBRARY_MINOR 1
#define HX_LIBRARY_PATCH 0
#define HX_LIBRARY_VERSION "0.1.0"

#define HX_SIZE_RECEIPT 12u   /* bytes of a receipt */
#define HX_SIZE_BUFFER 12288u /* bytes that are enough for any payload, and for any script */
#define HX_SIZE_SQUARE 35721u /* bytes that are enough for any square, 189 x 189 */
#define HX_SIZE_QUEUE 12u     /* bytes of a queue */
#define HX_SIZE_STACK 524288u /* bytes of stack that are enough for any call (measured by c/stack.c) */

#define HX_VERSION_MIN 1u /* of marks */
#define HX_VERSION_MAX 84u
#define HX_SIDE(version) (2u * (version) + 21u)

#define HX_HEADS 6u /* heads of a station, 0 to 5 */

/* The bytes of a square. */
enum hx_module {
    HX_MODULE_LIGHT = 0,
    HX_MODULE_DARK = 1,
    HX_MODULE_UNKNOWN = 2 /* for the readings; which modules to set so is said above */
};

/* What the functions return: HX_OK or a refusal. It is printed by "%zu". */
typedef size_t hx_status;

/* What a function returns that answers a number beside the refusal. What the number is stands at the function. */
typedef struct {
    hx_status status; /* HX_OK or a refusal */
    size_t value;     /* what the function answers beside it, 0 after a refusal */
} hx_answer;

/* What a turn returns. Head and side are both 0 if nobody waits, and after a refusal; no square has side 0. */
typedef struct {
    hx_status status; /* HX_OK or a refusal */
    size_t head;      /* the head that is served */
    size_t side;      /* of its square, as it was handed in */
} hx_turn;

/* The refusals, with what hx_refusal_words says of each. Those that apply to a function are tested in the order that stands
 * there, each over the whole input (15 and 6 together, block by block), and the first that applies is given. HX_REFUSED_RANGE is
 * also for a version and level without blocks, of which there are none today. The number 5 belongs to an operation that is not in
 * this interface. */
enum hx_refusal {
    HX_OK = 0,                   /* no refusal */
    HX_REFUSED_RANGE = 1,        /* side, version, level or mask is out of range */
    HX_REFUSED_LENGTH = 2,       /* the receipt is not 12 bytes long, or the square not side x side, or too short for the mark */
    HX_REFUSED_MODULE = 3,       /* a byte of the square is above 2 */
    HX_REFUSED_INFORMATION = 4,  /* more than 10 information modules differ from those of every level and mask */
    HX_REFUSED_BLOCK = 6,        /* a block has more wrong codewords than can be repaired */
    HX_REFUSED_DATA = 7,         /* the data end inside a segment, or contain an unknown mode or value */
    HX_REFUSED_EMPTY = 8,        /* the payload is empty */
    HX_REFUSED_PAYLOAD_FULL = 9, /* the payload is longer than its buffer */
    HX_REFUSED_SCRIPT_FULL = 10, /* the script is longer than its buffer */
    HX_REFUSED_SCRIPT = 11,      /* the script has an unknown command or a bad operand, or does not match the payload's length */
    HX_REFUSED_PAYLOAD = 12,     /* part of the payload cannot be encoded in this mode */
    HX_REFUSED_TOO_LONG = 13,    /* script and payload do not fit this version and level */
    HX_REFUSED_NO_VERSION = 14,  /* script and payload do not fit any version at this level */
    HX_REFUSED_ERASED = 15,      /* a block has more codewords with unknown modules than parity codewords */
    HX_REFUSED_HEAD = 16,        /* the head number is above 5 */
    HX_REFUSED_WAITING = 17      /* the head already waits */
};

/* The commands of a script. */
enum hx_mode {
    HX_MODE_NUMERIC = 1,
    HX_MODE_TEXT = 2,
    HX_MODE_BYTES = 3,
    HX_MODE_REGION_ONE = 4,
    HX_MODE_REGION_TWO = 5,
    HX_MODE_TWO_BYTE = 6,
    HX_MODE_FOUR_BYTE = 7,
    HX_MODE_ECI = 8
};

/* Reads a square: version from its side, level and mask from its information modules.
 *   square, square_length     the modules, side x side bytes, each HX_MODULE_LIGHT, HX_MODULE_DARK or HX_MODULE_UNKNOWN
 *   side                      23 to 189, odd
 *   payload, payload_length   where the payload is written; HX_SIZE_BUFFER bytes are always enough
 *   script, script_length     where the script is written; HX_SIZE_BUFFER bytes are always enough
 *   receipt, receipt_length   where the receipt is written; receipt_length is HX_SIZE_RECEIPT
 * Refusals, in this order: 2 receipt not 12 bytes long; 1 side even or not 23 to 189; 2 square not side x side bytes long; 3; 4;
 * 1 no blocks for this version and level; 15 or 6, whichever the first block that is refused gets; 7; 8; 9; 10. */
hx_status hx_read_square(const uint8_t *square, size_t square_length, size_t side, uint8_t *payload, size_t payload_length,
                         uint8_t *script, size_t script_length, uint8_t *receipt, size_t receipt_length);

/* Reads a square whose version, level and mask are known; its information modules are not looked at. Other parameters as above.
 * Refusals, in this order: 2 receipt not 12 bytes long; 1 version, level or mask out of range; 2 square not side x side bytes
 * long; 3; 1 no blocks for this version and level; 15 or 6, whichever the first block that is refused gets; 7; 8; 9; 10. */
hx_status hx_read_known(const uint8_t *square, size_t square_length, size_t version, size_t level, size_t mask, uint8_t *payload,
                        size_t payload_length, uint8_t *script, size_t script_length, uint8_t *receipt, size_t receipt_length);

/* Writes a mark: all modules of the square. Data modules behind the last codeword, 1 to 7 in each version, are zero bits under the
 * mask; reading ignores them.
 *   version, level, mask      1 to 84, 0 to 3, 0 to 3
 *   script, script_length     the commands
 *   payload, payload_length   the bytes that the commands take
 *   square, square_length     where the modules are written; square_length is HX_SIDE(version) x HX_SIDE(version)
 * Refusals, in this order: 1 version, level or mask out of range, or no blocks for this version and level; 2; 11; 12; 8; 13. */
hx_status hx_write_square(size_t version, size_t level, size_t mask, const uint8_t *script, size_t script_length,
                          const uint8_t *payload, size_t payload_length, uint8_t *square, size_t square_length);

/* Writes the smallest mark: at the lowest version that holds script and payload at this level, the mark that hx_write_square
 * writes there. The value beside HX_OK is this version.
 *   level, mask               0 to 3, 0 to 3
 *   script, script_length     the commands
 *   payload, payload_length   the bytes that the commands take
 *   square, square_length     where the modules are written, in the first HX_SIDE(version) x HX_SIDE(version) bytes; those beyond
 *                             are as they were; HX_SIZE_SQUARE bytes are always enough
 * Refusals, in this order: 1 level or mask out of range; 11; 12; 8; 14; 2 square shorter than the mark. A version without blocks
 * for this level would hold nothing. */
hx_answer hx_write_smallest(size_t level, size_t mask, const uint8_t *script, size_t script_length, const uint8_t *payload,
                            size_t payload_length, uint8_t *square, size_t square_length);

/* Hands in a square: the head waits behind all that wait.
 *   queue, queue_length       the queue; queue_length is HX_SIZE_QUEUE
 *   head                      0 to 5
 *   side                      of its square, 23 to 189, odd
 * Refusals, in this order: 2 queue not 12 bytes long; 16; 17; 1 side even or not 23 to 189. */
hx_status hx_queue_hand_in(uint8_t *queue, size_t queue_length, size_t head, size_t side);

/* Takes a turn: the longest waiting is named and taken off the queue. If nobody waits, the status is HX_OK, the side is 0, and the
 * queue is as it was.
 *   queue, queue_length       as above
 * Refusals: 2 queue not 12 bytes long. */
hx_turn hx_queue_turn(uint8_t *queue, size_t queue_length);

/* The words that stand beside the refusal in this header, or "unknown refusal number". They last as long as the program. */
const char *hx_refusal_words(hx_status status);

/* HX_LIBRARY_VERSION of the library that was linked. */
const char *hx_library_version(void);

/* The fields of a receipt. */
static inline size_t hx_receipt_pair(const uint8_t *receipt, size_t at) { return (size_t)receipt[at] * 256u + receipt[at + 1]; }
static inline hx_status hx_receipt_status(const uint8_t *receipt) { return receipt[0]; }
static inline size_t hx_receipt_version(const uint8_t *receipt) { return receipt[1]; }
static inline size_t hx_receipt_level(const uint8_t *receipt) { return receipt[2]; }
static inline size_t hx_receipt_mask(const uint8_t *receipt) { return receipt[3]; }
static inline size_t hx_receipt_corrected(const uint8_t *receipt) { return hx_receipt_pair(receipt, 4); }
static inline size_t hx_receipt_distance(const uint8_t *receipt) { return receipt[6]; }
static inline size_t hx_receipt_payload_length(const uint8_t *receipt) { return hx_receipt_pair(receipt, 7); }
static inline size_t hx_receipt_script_length(const uint8_t *receipt) { return hx_receipt_pair(receipt, 9); }

/* THE SAME WITH STRUCTS. hx_read, hx_read_as, hx_write, hx_write_fit, hx_hand_in and hx_take_turn call the six functions. The
 * buffers of payload and script are always long enough, and of different types, so a call in which they are swapped does not
 * compile. */
typedef struct {
    size_t length; /* how many of the bytes are the payload */
    uint8_t bytes[HX_SIZE_BUFFER];
} hx_payload;

typedef struct {
    size_t length; /* how many of the bytes are the script */
    uint8_t bytes[HX_SIZE_BUFFER];
} hx_script;

typedef struct {
    hx_status status;
    size_t version, level, mask, corrected, distance, payload_length, script_length;
} hx_receipt;

/* The fields of the 12 bytes of a receipt as numbers. */
static inline hx_receipt hx_receipt_decode(const uint8_t *receipt)
{
    hx_receipt fields;
    fields.status = hx_receipt_status(receipt);
    fields.version = hx_receipt_version(receipt);
    fields.level = hx_receipt_level(receipt);
    fields.mask = hx_receipt_mask(receipt);
    fields.corrected = hx_receipt_corrected(receipt);
    fields.distance = hx_receipt_distance(receipt);
    fields.payload_length = hx_receipt_payload_length(receipt);
    fields.script_length = hx_receipt_script_length(receipt);
    return fields;
}

/* hx_read_square. After a refusal both lengths and all fields but the status are 0, and the bytes are as they were. */
static inline hx_status hx_read(const uint8_t *square, size_t square_length, size_t side, hx_payload *payload, hx_script *script,
                                hx_receipt *receipt)
{
    uint8_t bytes[HX_SIZE_RECEIPT];
    hx_status status = hx_read_square(square, square_length, side, payload->bytes, HX_SIZE_BUFFER, script->bytes, HX_SIZE_BUFFER,
                                      bytes, HX_SIZE_RECEIPT);
    *receipt = hx_receipt_decode(bytes);
    payload->length = receipt->payload_length;
    script->length = receipt->script_length;
    return status;
}

/* hx_read_known: the square is read as one of this version, level and mask. What is left after a refusal is as above. */
static inline hx_status hx_read_as(const uint8_t *square, size_t square_length, size_t version, size_t level, size_t mask,
                                   hx_payload *payload, hx_script *script, hx_receipt *receipt)
{
    uint8_t bytes[HX_SIZE_RECEIPT];
    hx_status status = hx_read_known(square, square_length, version, level, mask, payload->bytes, HX_SIZE_BUFFER, script->bytes,
                                     HX_SIZE_BUFFER, bytes, HX_SIZE_RECEIPT);
    *receipt = hx_receipt_decode(bytes);
    payload->length = receipt->payload_length;
    script->length = receipt->script_length;
    return status;
}

/* hx_write_square. A length above HX_SIZE_BUFFER is refused before all else: 9 the payload's, then 10 the script's. */
static inline hx_status hx_write(size_t version, size_t level, size_t mask, const hx_script *script, const hx_payload *payload,
                                 uint8_t *square, size_t square_length)
{
    if (payload->length > HX_SIZE_BUFFER)
        return HX_REFUSED_PAYLOAD_FULL;
    if (script->length > HX_SIZE_BUFFER)
        return HX_REFUSED_SCRIPT_FULL;
    return hx_write_square(version, level, mask, script->bytes, script->length, payload->bytes, payload->length, square,
                           square_length);
}

/* hx_write_smallest. A length above HX_SIZE_BUFFER is refused as above. */
static inline hx_answer hx_write_fit(size_t level, size_t mask, const hx_script *script, const hx_payload *payload,
                                     uint8_t *square, size_t square_length)
{
    hx_answer answer = {HX_OK, 0};
    if (payload->length > HX_SIZE_BUFFER)
        answer.status = HX_REFUSED_PAYLOAD_FULL;
    else if (script->length > HX_SIZE_BUFFER)
        answer.status = HX_REFUSED_SCRIPT_FULL;
    else
        answer =
            hx_write_smallest(level, mask, script->bytes, script->length, payload->bytes, payload->length, square, square_length);
    return answer;
}

/* A queue. Zeros are the empty one: static hx_queue queue; or hx_queue queue = {{0}}; begins one. */
typedef struct {
    uint8_t bytes[HX_SIZE_QUEUE];
} hx_queue;

/* hx_queue_hand_in. */
static inline hx_status hx_hand_in(hx_queue *queue, size_t head, size_t side)
{
    return hx_queue_hand_in(queue->bytes, HX_SIZE_QUEUE, head, side);
}

/* hx_queue_turn. */
static inline hx_turn hx_take_turn(hx_queue *queue) { return hx_queue_turn(queue->bytes, HX_SIZE_QUEUE); }

/* A pointer to another struct is an error in C++, but only a warning in some C compilers (gcc before 14). Two structs as the ends
 * of a conditional expression are an error in all of them, so each pointer is tried so; sizeof evaluates nothing. */
#ifndef __cplusplus
#define HX_OF_TYPE(type, pointer) ((void)sizeof(1 ? *(pointer) : *(const type *)0), (pointer))
#define hx_read(square, square_length, side, payload, script, receipt) \
    hx_read(square, square_length, side, HX_OF_TYPE(hx_payload, payload), HX_OF_TYPE(hx_script, script), receipt)
#define hx_read_as(square, square_length, version, level, mask, payload, script, receipt) \
    hx_read_as(square, square_length, version, level, mask, HX_OF_TYPE(hx_payload, payload), HX_OF_TYPE(hx_script, script), \
               receipt)
#define hx_write(version, level, mask, script, payload, square, square_length) \
    hx_write(version, level, mask, HX_OF_TYPE(hx_script, script), HX_OF_TYPE(hx_payload, payload), square, square_length)
#define hx_write_fit(level, mask, script, payload, square, square_length) \
    hx_write_fit(level, mask, HX_OF_TYPE(hx_script, script), HX_OF_TYPE(hx_payload, payload), square, square_length)
#endif

#ifdef __cplusplus
}
#endif

#endif
