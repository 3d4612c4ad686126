/* The coupler for C: judging a parameter block, signing, fitting, and replaying a shift book into the caller's buffer.
 *
 * Link libmizkaule.a and after it liblibc_c.a; docs/EMBEDDING.md says how. Call the four functions at the end of this
 * file. They look at pointers and lengths first, and then call the proved functions mizkaule_raw_*, which do not.
 */
#ifndef MIZKAULE_H
#define MIZKAULE_H

#include <stddef.h>
#include <stdint.h>

#ifdef __cplusplus
extern "C" {
#endif

/* ---- figures */

/* What became of a call. */
enum mizkaule_status {
    MIZKAULE_DONE = 0,        /* done */
    MIZKAULE_REFUSED = 1,     /* refused: number, layer and place say why and where */
    MIZKAULE_NO_SUCH = 2,     /* the kind is none of the three, or the number is above FFFFFFh */
    MIZKAULE_NO_MEMORY = 3,   /* malloc or realloc gave no memory; only the replay answers this */
    MIZKAULE_BAD_POINTER = 4  /* a pointer or a length cannot be right: nothing was called */
};

/* The part of the coupler that a refusal comes from. */
enum mizkaule_layer {
    MIZKAULE_LAYER_NONE = 0, /* no refusal */
    MIZKAULE_LAYER_BLOCK = 1,
    MIZKAULE_LAYER_END = 2,
    MIZKAULE_LAYER_BOOK = 3
};

/* The signature kinds. */
enum mizkaule_kind {
    MIZKAULE_S3 = 3,   /* three octets of signature, at most 12 data octets */
    MIZKAULE_S4 = 4,   /* four octets of signature, at most 123 data octets */
    MIZKAULE_C3 = 0xC3 /* three octets, at most 12 data octets; for the test bench only */
};

/* The refusals. These four functions answer 1 to 9 and 13; the others stand in the text of a replay. */
enum mizkaule_refusal {
    MIZKAULE_BLOCK_LENGTH = 1,
    MIZKAULE_BLOCK_SIGNATURE = 2,
    MIZKAULE_BLOCK_FLAGS = 3,
    MIZKAULE_SOURCE_ADDRESS = 4,
    MIZKAULE_DESTINATION_ADDRESS = 5,
    MIZKAULE_OTHER_DESTINATION = 6,
    MIZKAULE_NO_WATCH_TIME = 7,
    MIZKAULE_SIL_RANK = 8,
    MIZKAULE_WIDTH_OR_LIMIT = 9,
    MIZKAULE_FRAME_LENGTH = 10,
    MIZKAULE_VALUES_LENGTH = 11,
    MIZKAULE_INPUT_RANGE = 12,
    MIZKAULE_BUFFER_LENGTH = 13,
    MIZKAULE_NO_PRESS_AWAITED = 14,
    MIZKAULE_BOOK_HEAD = 15,
    MIZKAULE_RECORD_LENGTH = 16,
    MIZKAULE_RECORD_KIND = 17,
    MIZKAULE_RECORD_ORDER = 18
};

/* ---- answers */

/* Number, layer and place are those of a refusal, and 0 with every other status. What size is, each function says. */
struct mizkaule_answer {
    uint8_t status; /* enum mizkaule_status */
    uint8_t number; /* enum mizkaule_refusal, or 0 */
    uint8_t layer;  /* enum mizkaule_layer */
    size_t place;   /* the octet at which the refusal points */
    size_t size;
};

/* The archive is built for machines whose lengths have 64 bits. On others this line does not compile. */
typedef char mizkaule_lengths_have_64_bits[sizeof(size_t) == 8 && sizeof(struct mizkaule_answer) == 24 ? 1 : -1];

/* What a refusal means, in words; for a figure that is no refusal, "no refusal". The text is never freed. */
static inline const char *mizkaule_reason(unsigned number)
{
    static const char *const reasons[] = {
        "no refusal",
        "the parameter block has not ten octets",
        "F_Par_CRC is not the check value of the block",
        "a flag octet has a version, a block kind or a bit that is not allowed",
        "F_Source_Add is 0 or 65535",
        "F_Dest_Add is 0 or 65535",
        "F_Dest_Add is another device's address",
        "F_WD_Time is 0",
        "F_SIL asks for a higher rank than the end has",
        "F_CRC_Length or a data length does not go with the signature kind",
        "the frame has the wrong length",
        "the values have the wrong length",
        "a wish or a reading is above 1, or flags are above 3",
        "the caller's buffer is too short",
        "no press is awaited",
        "the book is empty, above 65535 octets or of another version",
        "a record's length is cut, 0 or past the end of the book",
        "a record's kind is unknown, or its body has the wrong length",
        "a record stands before the accepted block, or a block after it",
    };
    return reasons[number <= MIZKAULE_RECORD_ORDER ? number : 0];
}

/* ---- the proved functions */

/* Each pointer must not be null, also with length 0, and must be good for as many octets as its length says. A buffer
 * that is written must share no octet with one that is read. Nothing here looks whether that is so. */

struct mizkaule_answer mizkaule_raw_judge_block(
    const uint8_t *block, size_t block_size, uint16_t address, uint8_t rank, size_t out_len, size_t in_len,
    uint8_t kind);

struct mizkaule_answer mizkaule_raw_sign(
    uint8_t kind, uint16_t crc, uint32_t number, const uint8_t *octets, size_t octets_size, uint8_t *out,
    size_t out_size);

struct mizkaule_answer mizkaule_raw_fits(
    uint8_t kind, uint16_t crc, uint32_t number, const uint8_t *frame, size_t frame_size);

struct mizkaule_answer mizkaule_raw_replay(
    const uint8_t *book, size_t book_size, uint8_t *text, size_t text_size);

/* ---- what can be seen of pointers and lengths */

static inline struct mizkaule_answer mizkaule_bad_pointer(void)
{
    struct mizkaule_answer answer = { MIZKAULE_BAD_POINTER, 0, 0, 0, 0 };
    return answer;
}

/* Where a null pointer with length 0 points. It is neither read nor written. */
static inline uint8_t *mizkaule_nowhere(void)
{
    static uint8_t octet;
    return &octet;
}

/* Whether so many octets could stand there: length 0, or no null pointer, a length of at most PTRDIFF_MAX, and an end
 * that memory has. */
static inline int mizkaule_could_stand(const uint8_t *start, size_t size)
{
    return size == 0
        || (start != NULL && size <= (size_t)PTRDIFF_MAX && size - 1 <= UINTPTR_MAX - (uintptr_t)start);
}

/* Whether two runs of octets share none. */
static inline int mizkaule_apart(const uint8_t *one, size_t one_size, const uint8_t *other, size_t other_size)
{
    uintptr_t a = (uintptr_t)one;
    uintptr_t b = (uintptr_t)other;
    return one_size == 0 || other_size == 0 || (a <= b ? b - a >= one_size : a - b >= other_size);
}

/* ---- the four calls
 *
 * A null pointer is good for length 0. MIZKAULE_BAD_POINTER is answered, with all other figures 0, if a pointer is null
 * and its length is above 0, if a length is above PTRDIFF_MAX or goes past the end of memory, or if a buffer that is
 * written shares an octet with one that is read. Nothing is called then, and nothing written. That a pointer is good
 * for its length in every other way rests with the caller.
 */

/* Judges a parameter block under a kind, for an end with this address (at a host: its device's) and SIL rank, and with
 * so many data octets out to the device and in to the host.
 *
 * DONE: the block is accepted.
 * REFUSED: number is 1 to 9, the lowest that applies; layer is BLOCK; place is the first octet of the wrong field,
 * counted from the block's first octet.
 * NO_SUCH: there is no such kind.
 *
 * size is always 0. Nothing is written. */
static inline struct mizkaule_answer mizkaule_judge_block(
    const uint8_t *block, size_t block_size, uint16_t address, uint8_t rank, size_t out_len, size_t in_len,
    uint8_t kind)
{
    if (!mizkaule_could_stand(block, block_size)) {
        return mizkaule_bad_pointer();
    }
    return mizkaule_raw_judge_block(
        block == NULL ? mizkaule_nowhere() : block, block_size, address, rank, out_len, in_len, kind);
}

/* Signs octets under a kind, a check value (F_Par_CRC) and a number from 0 to FFFFFFh. A signature has a width of three
 * octets (S3, C3) or four (S4); its highest octet comes first.
 *
 * DONE: the signature stands in the first octets of out, and the rest of out is as it was; size is the width.
 * REFUSED: number is 13, layer is END, place is 0: out is shorter than the width. Size is the width, the octets that
 * out needs. All of out is as it was.
 * NO_SUCH: there is no such kind, or the number is above FFFFFFh. Size is 0, and all of out is as it was. This is
 * answered before 13. */
static inline struct mizkaule_answer mizkaule_sign(
    uint8_t kind, uint16_t crc, uint32_t number, const uint8_t *octets, size_t octets_size, uint8_t *out,
    size_t out_size)
{
    if (!mizkaule_could_stand(octets, octets_size) || !mizkaule_could_stand(out, out_size)
        || !mizkaule_apart(octets, octets_size, out, out_size)) {
        return mizkaule_bad_pointer();
    }
    return mizkaule_raw_sign(
        kind, crc, number, octets == NULL ? mizkaule_nowhere() : octets, octets_size,
        out == NULL ? mizkaule_nowhere() : out, out_size);
}

/* Says whether a frame fits a number under a kind and a check value: its last octets, as many as a signature has, are
 * the signature of the octets before them under that number. A frame that is shorter than a signature fits none.
 *
 * DONE: size is 1 if the frame fits, and 0 if it does not.
 * NO_SUCH: there is no such kind, or the number is above FFFFFFh. Size is 0: look at the status first.
 *
 * Nothing is refused, and nothing written. */
static inline struct mizkaule_answer mizkaule_fits(
    uint8_t kind, uint16_t crc, uint32_t number, const uint8_t *frame, size_t frame_size)
{
    if (!mizkaule_could_stand(frame, frame_size)) {
        return mizkaule_bad_pointer();
    }
    return mizkaule_raw_fits(kind, crc, number, frame == NULL ? mizkaule_nowhere() : frame, frame_size);
}

/* Replays a shift book on a bench and writes the text of it, as the program shiftbook prints it: a line for each record
 * and a last line, each ended by a line feed (docs/OUTPUT.md). No octet 0 is put behind the text. Octets that are no
 * book have a text too: what is refused in a book, or of it, stands in the text and not in the answer.
 *
 * DONE: the whole text stands in the first octets of text, and the rest of text is as it was; size is its length.
 * REFUSED: number is 13, layer is END, place is 0: the text is longer than the buffer. Size is its length, the octets
 * that the buffer needs; with so many the same book is done. All of the buffer is as it was.
 * NO_MEMORY: size is 0, and all of the buffer is as it was.
 *
 * The text is made in memory from malloc and realloc, which is freed before the function returns. */
static inline struct mizkaule_answer mizkaule_replay(
    const uint8_t *book, size_t book_size, uint8_t *text, size_t text_size)
{
    if (!mizkaule_could_stand(book, book_size) || !mizkaule_could_stand(text, text_size)
        || !mizkaule_apart(book, book_size, text, text_size)) {
        return mizkaule_bad_pointer();
    }
    return mizkaule_raw_replay(
        book == NULL ? mizkaule_nowhere() : book, book_size, text == NULL ? mizkaule_nowhere() : text, text_size);
}

#ifdef __cplusplus
}
#endif

#endif
