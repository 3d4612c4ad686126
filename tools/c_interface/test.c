/* The test of the C interface: known figures, limits, refusals, and pointers that are turned down.
 *
 * The last line is "N checks, M failed"; status 1 if M is not 0. With an argument it only prints the eighteen reasons.
 * It is linked with --wrap=malloc, --wrap=realloc and --wrap=free, so that it can count memory and withhold it.
 */
#include "mizkaule.h"

#include <stdio.h>
#include <stdlib.h>
#include <string.h>

static unsigned checks;
static unsigned failed;

static void check(int good, const char *what, int line)
{
    checks++;
    if (!good) {
        failed++;
        printf("line %d, not so: %s\n", line, what);
    }
}

#define CHECK(fact) check((fact), #fact, __LINE__)

/* ---- memory */

static int withheld;
static long asked;
static long held;

void *__real_malloc(size_t size);
void *__real_realloc(void *memory, size_t size);
void __real_free(void *memory);

void *__wrap_malloc(size_t size)
{
    void *memory = withheld ? NULL : __real_malloc(size);
    asked++;
    held += memory != NULL;
    return memory;
}

void *__wrap_realloc(void *memory, size_t size)
{
    void *moved = withheld ? NULL : __real_realloc(memory, size);
    asked++;
    held += memory == NULL && moved != NULL;
    return moved;
}

void __wrap_free(void *memory)
{
    held -= memory != NULL;
    __real_free(memory);
}

/* ---- answers */

static int is(struct mizkaule_answer a, unsigned status, unsigned number, unsigned layer, size_t place, size_t size)
{
    return a.status == status && a.number == number && a.layer == layer && a.place == place && a.size == size;
}

static int done(struct mizkaule_answer a, size_t size)
{
    return is(a, MIZKAULE_DONE, 0, MIZKAULE_LAYER_NONE, 0, size);
}

static int no_such(struct mizkaule_answer a)
{
    return is(a, MIZKAULE_NO_SUCH, 0, MIZKAULE_LAYER_NONE, 0, 0);
}

static int too_short(struct mizkaule_answer a, size_t needed)
{
    return is(a, MIZKAULE_REFUSED, MIZKAULE_BUFFER_LENGTH, MIZKAULE_LAYER_END, 0, needed);
}

static int bad_pointer(struct mizkaule_answer a)
{
    return is(a, MIZKAULE_BAD_POINTER, 0, MIZKAULE_LAYER_NONE, 0, 0);
}

/* Whether octets are all as `fresh` left them. */
static int untouched(const uint8_t *octets, size_t size)
{
    for (size_t i = 0; i < size; i++) {
        if (octets[i] != 0xA5) {
            return 0;
        }
    }
    return 1;
}

static void fresh(uint8_t *octets, size_t size)
{
    memset(octets, 0xA5, size);
}

static void test_figures(void)
{
    CHECK(sizeof(struct mizkaule_answer) == 24);
    CHECK(offsetof(struct mizkaule_answer, status) == 0 && offsetof(struct mizkaule_answer, number) == 1);
    CHECK(offsetof(struct mizkaule_answer, layer) == 2 && offsetof(struct mizkaule_answer, place) == 8);
    CHECK(offsetof(struct mizkaule_answer, size) == 16);
    CHECK(MIZKAULE_DONE == 0 && MIZKAULE_REFUSED == 1 && MIZKAULE_NO_SUCH == 2);
    CHECK(MIZKAULE_NO_MEMORY == 3 && MIZKAULE_BAD_POINTER == 4);
    CHECK(strcmp(mizkaule_reason(1), "the parameter block has not ten octets") == 0);
    CHECK(strcmp(mizkaule_reason(MIZKAULE_BUFFER_LENGTH), "the caller's buffer is too short") == 0);
    CHECK(strcmp(mizkaule_reason(0), "no refusal") == 0 && strcmp(mizkaule_reason(19), "no refusal") == 0);
    CHECK(strcmp(mizkaule_reason(0xFFFFFFFFu), "no refusal") == 0);
}

/* ---- the bit rule, written here once more from docs/SIGNATURES.md */

static uint32_t fed(unsigned bits, uint32_t polynomial, uint32_t reg, uint8_t octet)
{
    for (int i = 7; i >= 0; i--) {
        uint32_t t = (reg >> (bits - 1) & 1) ^ (octet >> i & 1u);
        reg = reg << 1 & 0xFFFFFFFFu >> (32 - bits);
        reg ^= t ? polynomial : 0;
    }
    return reg;
}

static uint16_t par_crc(const uint8_t *octets)
{
    uint32_t reg = 0;
    for (int i = 0; i < 8; i++) {
        reg = fed(16, 0x4EAB, reg, octets[i]);
    }
    return (uint16_t)reg;
}

struct kind {
    uint8_t figure;
    unsigned width;
    uint32_t polynomial;
};

static const struct kind kinds[] = {
    { MIZKAULE_S3, 3, 0x5D6DCB },
    { MIZKAULE_S4, 4, 0xF4ACFB13 },
    { MIZKAULE_C3, 3, 1 },
};

static uint32_t signature(struct kind kind, uint16_t crc, uint32_t number, const uint8_t *octets, size_t size)
{
    unsigned bits = 8 * kind.width;
    uint32_t reg = crc;
    for (int i = 16; i >= 0; i -= 8) {
        reg = fed(bits, kind.polynomial, reg, (uint8_t)(number >> i));
    }
    for (size_t i = 0; i < size; i++) {
        reg = fed(bits, kind.polynomial, reg, octets[i]);
    }
    return reg;
}

static uint32_t numeral(const uint8_t *octets, unsigned width)
{
    uint32_t n = 0;
    for (unsigned i = 0; i < width; i++) {
        n = n << 8 | octets[i];
    }
    return n;
}

/* ---- blocks */

struct block_case {
    const char *what;
    uint8_t octets[8];
    uint16_t damage; /* xored into the check value */
    size_t size;
    uint16_t address;
    uint8_t rank;
    size_t out_len;
    size_t in_len;
    uint8_t kind;
    unsigned number; /* 0: accepted */
    size_t place;
};

static const struct block_case block_cases[] = {
    { "the block of the page", { 0x08, 0x40, 0, 1, 0, 2, 0, 0x64 }, 0, 10, 2, 3, 0, 0, MIZKAULE_S3, 0, 0 },
    { "the same under C3", { 0x08, 0x40, 0, 1, 0, 2, 0, 0x64 }, 0, 10, 2, 3, 12, 12, MIZKAULE_C3, 0, 0 },
    { "check value 0", { 0x08, 0x40, 0, 1, 0, 2, 0xDE, 0x03 }, 0, 10, 2, 3, 0, 0, MIZKAULE_S3, 0, 0 },
    { "12 data octets", { 0x08, 0x40, 0, 1, 0, 2, 0, 0x64 }, 0, 10, 2, 3, 12, 12, MIZKAULE_S3, 0, 0 },
    { "123 under S4", { 0x28, 0x40, 0, 1, 0, 2, 0, 0x64 }, 0, 10, 2, 3, 123, 123, MIZKAULE_S4, 0, 0 },
    { "F_Check_SeqNr", { 0x09, 0x40, 0, 1, 0, 2, 0, 0x64 }, 0, 10, 2, 3, 0, 0, MIZKAULE_S3, 0, 0 },
    { "rank 0", { 0x0C, 0x40, 0, 1, 0, 2, 0, 0x64 }, 0, 10, 2, 0, 0, 0, MIZKAULE_S3, 0, 0 },
    { "own rank 255", { 0x08, 0x40, 0, 1, 0, 2, 0, 0x64 }, 0, 10, 2, 255, 0, 0, MIZKAULE_S3, 0, 0 },
    { "highest addresses", { 0x08, 0x40, 0xFF, 0xFE, 0xFF, 0xFE, 0, 1 }, 0, 10, 0xFFFE, 3, 0, 0, MIZKAULE_S3, 0, 0 },
    { "no octets", { 0x08, 0x40, 0, 1, 0, 2, 0, 0x64 }, 0, 0, 2, 3, 0, 0, MIZKAULE_S3, 1, 0 },
    { "nine octets", { 0x08, 0x40, 0, 1, 0, 2, 0, 0x64 }, 0, 9, 2, 3, 0, 0, MIZKAULE_S3, 1, 0 },
    { "eleven octets", { 0x08, 0x40, 0, 1, 0, 2, 0, 0x64 }, 0, 11, 2, 3, 0, 0, MIZKAULE_S3, 1, 0 },
    { "lowest bit of the check value", { 0x08, 0x40, 0, 1, 0, 2, 0, 0x64 }, 1, 10, 2, 3, 0, 0, MIZKAULE_S3, 2, 8 },
    { "its highest bit", { 0x08, 0x40, 0, 1, 0, 2, 0, 0x64 }, 0x8000, 10, 2, 3, 0, 0, MIZKAULE_S4, 2, 8 },
    { "F_Check_iPar", { 0x0A, 0x40, 0, 1, 0, 2, 0, 0x64 }, 0, 10, 2, 3, 0, 0, MIZKAULE_S3, 3, 0 },
    { "reserved, octet 0, bit 6", { 0x48, 0x40, 0, 1, 0, 2, 0, 0x64 }, 0, 10, 2, 3, 0, 0, MIZKAULE_S3, 3, 0 },
    { "reserved, octet 0, bit 7", { 0x88, 0x40, 0, 1, 0, 2, 0, 0x64 }, 0, 10, 2, 3, 0, 0, MIZKAULE_S3, 3, 0 },
    { "F_Par_Version 00", { 0x08, 0x00, 0, 1, 0, 2, 0, 0x64 }, 0, 10, 2, 3, 0, 0, MIZKAULE_S3, 3, 1 },
    { "F_Par_Version 11", { 0x08, 0xC0, 0, 1, 0, 2, 0, 0x64 }, 0, 10, 2, 3, 0, 0, MIZKAULE_S3, 3, 1 },
    { "F_Block_ID 001", { 0x08, 0x48, 0, 1, 0, 2, 0, 0x64 }, 0, 10, 2, 3, 0, 0, MIZKAULE_S3, 3, 1 },
    { "reserved, octet 1", { 0x08, 0x41, 0, 1, 0, 2, 0, 0x64 }, 0, 10, 2, 3, 0, 0, MIZKAULE_S3, 3, 1 },
    { "both flag octets", { 0x0A, 0x00, 0, 1, 0, 2, 0, 0x64 }, 0, 10, 2, 3, 0, 0, MIZKAULE_S3, 3, 0 },
    { "F_Source_Add 0", { 0x08, 0x40, 0, 0, 0, 2, 0, 0x64 }, 0, 10, 2, 3, 0, 0, MIZKAULE_S3, 4, 2 },
    { "F_Source_Add FFFFh", { 0x08, 0x40, 0xFF, 0xFF, 0, 2, 0, 0x64 }, 0, 10, 2, 3, 0, 0, MIZKAULE_S3, 4, 2 },
    { "F_Dest_Add 0", { 0x08, 0x40, 0, 1, 0, 0, 0, 0x64 }, 0, 10, 0, 3, 0, 0, MIZKAULE_S3, 5, 4 },
    { "F_Dest_Add FFFFh", { 0x08, 0x40, 0, 1, 0xFF, 0xFF, 0, 0x64 }, 0, 10, 0xFFFF, 3, 0, 0, MIZKAULE_S3, 5, 4 },
    { "another destination", { 0x08, 0x40, 0, 1, 0, 2, 0, 0x64 }, 0, 10, 0x0200, 3, 0, 0, MIZKAULE_S3, 6, 4 },
    { "F_WD_Time 0", { 0x08, 0x40, 0, 1, 0, 2, 0, 0 }, 0, 10, 2, 3, 0, 0, MIZKAULE_S3, 7, 6 },
    { "rank 3 at rank 2", { 0x08, 0x40, 0, 1, 0, 2, 0, 0x64 }, 0, 10, 2, 2, 0, 0, MIZKAULE_S3, 8, 0 },
    { "rank 1 at rank 0", { 0x00, 0x40, 0, 1, 0, 2, 0, 0x64 }, 0, 10, 2, 0, 0, 0, MIZKAULE_S3, 8, 0 },
    { "three octets under S4", { 0x08, 0x40, 0, 1, 0, 2, 0, 0x64 }, 0, 10, 2, 3, 0, 0, MIZKAULE_S4, 9, 0 },
    { "four octets under S3", { 0x28, 0x40, 0, 1, 0, 2, 0, 0x64 }, 0, 10, 2, 3, 0, 0, MIZKAULE_S3, 9, 0 },
    { "four octets under C3", { 0x28, 0x40, 0, 1, 0, 2, 0, 0x64 }, 0, 10, 2, 3, 0, 0, MIZKAULE_C3, 9, 0 },
    { "two octets", { 0x18, 0x40, 0, 1, 0, 2, 0, 0x64 }, 0, 10, 2, 3, 0, 0, MIZKAULE_S3, 9, 0 },
    { "no signature", { 0x38, 0x40, 0, 1, 0, 2, 0, 0x64 }, 0, 10, 2, 3, 0, 0, MIZKAULE_S4, 9, 0 },
    { "13 octets out", { 0x08, 0x40, 0, 1, 0, 2, 0, 0x64 }, 0, 10, 2, 3, 13, 0, MIZKAULE_S3, 9, 0 },
    { "13 octets in", { 0x08, 0x40, 0, 1, 0, 2, 0, 0x64 }, 0, 10, 2, 3, 0, 13, MIZKAULE_C3, 9, 0 },
    { "124 octets out", { 0x28, 0x40, 0, 1, 0, 2, 0, 0x64 }, 0, 10, 2, 3, 124, 0, MIZKAULE_S4, 9, 0 },
    { "124 octets in", { 0x28, 0x40, 0, 1, 0, 2, 0, 0x64 }, 0, 10, 2, 3, 0, 124, MIZKAULE_S4, 9, 0 },
    { "2^32 octets out", { 0x28, 0x40, 0, 1, 0, 2, 0, 0x64 }, 0, 10, 2, 3, (size_t)1 << 32, 0, MIZKAULE_S4, 9, 0 },
    { "all octets in", { 0x28, 0x40, 0, 1, 0, 2, 0, 0x64 }, 0, 10, 2, 3, 0, SIZE_MAX, MIZKAULE_S4, 9, 0 },
    { "two faults: 4 and 7", { 0x08, 0x40, 0, 0, 0, 2, 0, 0 }, 0, 10, 2, 3, 0, 0, MIZKAULE_S3, 4, 2 },
    { "two faults: 2 and 3", { 0xFF, 0x40, 0, 1, 0, 2, 0, 0x64 }, 5, 10, 2, 3, 0, 0, MIZKAULE_S3, 2, 8 },
};

static void test_blocks(void)
{
    for (size_t i = 0; i < sizeof block_cases / sizeof *block_cases; i++) {
        const struct block_case *c = &block_cases[i];
        uint8_t block[11] = { 0 };
        uint16_t crc = par_crc(c->octets) ^ c->damage;
        memcpy(block, c->octets, 8);
        block[8] = (uint8_t)(crc >> 8);
        block[9] = (uint8_t)crc;
        struct mizkaule_answer a =
            mizkaule_judge_block(block, c->size, c->address, c->rank, c->out_len, c->in_len, c->kind);
        check(c->number == 0 ? done(a, 0) : is(a, MIZKAULE_REFUSED, c->number, MIZKAULE_LAYER_BLOCK, c->place, 0),
            c->what, __LINE__);
    }
    CHECK(par_crc(block_cases[0].octets) == 0xC357 && par_crc(block_cases[2].octets) == 0);
    CHECK(is(mizkaule_judge_block(NULL, 0, 2, 3, 0, 0, MIZKAULE_S3), MIZKAULE_REFUSED, 1, MIZKAULE_LAYER_BLOCK, 0, 0));
}

/* Of all 256 kinds, only three are any, in each of the functions. */
static void test_kinds(void)
{
    static const uint8_t block[] = { 0x08, 0x40, 0, 1, 0, 2, 0, 0x64, 0xC3, 0x57 };
    int judged = 1, signs = 1, fitted = 1, kept = 1;
    for (unsigned figure = 0; figure < 256; figure++) {
        int known = figure == 3 || figure == 4 || figure == 0xC3;
        uint8_t out[8];
        fresh(out, sizeof out);
        judged &= known != no_such(mizkaule_judge_block(block, sizeof block, 2, 3, 0, 0, (uint8_t)figure));
        signs &= known != no_such(mizkaule_sign((uint8_t)figure, 0xC357, 0, block, 1, out, sizeof out));
        fitted &= known != no_such(mizkaule_fits((uint8_t)figure, 0xC357, 0, block, sizeof block));
        kept &= known != untouched(out, sizeof out);
    }
    CHECK(judged);
    CHECK(signs);
    CHECK(fitted);
    CHECK(kept);
}

/* ---- signatures */

struct sign_case {
    const char *what;
    uint8_t kind;
    uint16_t crc;
    uint32_t number;
    size_t size;
    uint8_t octet;
    unsigned width;
    uint32_t signature;
};

static const struct sign_case sign_cases[] = {
    { "control octet 14h", MIZKAULE_S3, 0xC357, 0, 1, 0x14, 3, 0xBEA31F },
    { "status octet 50h", MIZKAULE_S3, 0xC357, 0, 1, 0x50, 3, 0xA10C1E },
    { "no octets", MIZKAULE_S3, 0xC357, 0, 0, 0, 3, 0x668BDC },
    { "control octet 14h under S4", MIZKAULE_S4, 0xC357, 0, 1, 0x14, 4, 0xF4A2981B },
    { "no octets under S4", MIZKAULE_S4, 0xC357, 0, 0, 0, 4, 0x465107AC },
    { "number 1", MIZKAULE_S3, 0, 1, 1, 0x00, 3, 0xDDD798 },
    { "number 1 under C3", MIZKAULE_C3, 0, 1, 1, 0x00, 3, 0x000100 },
};

static void test_known_signatures(void)
{
    for (size_t i = 0; i < sizeof sign_cases / sizeof *sign_cases; i++) {
        const struct sign_case *c = &sign_cases[i];
        uint8_t frame[5];
        frame[0] = c->octet;
        struct mizkaule_answer a =
            mizkaule_sign(c->kind, c->crc, c->number, frame, c->size, frame + c->size, c->width);
        check(done(a, c->width) && numeral(frame + c->size, c->width) == c->signature, c->what, __LINE__);
        check(done(mizkaule_fits(c->kind, c->crc, c->number, frame, c->size + c->width), 1), c->what, __LINE__);
    }
}

/* Frames of 0 to 130 octets against the bit rule; they fit, but no other number, and not with a bit changed. */
static void test_signatures(struct kind kind)
{
    uint8_t frame[134];
    int signs = 1, fit = 1, other = 1, changed = 1;
    for (size_t size = 0; size <= 130; size++) {
        uint16_t crc = (uint16_t)(size * 40503u);
        uint32_t number = size == 130 ? 0xFFFFFF : (uint32_t)(size * 8389441u) & 0xFFFFFF;
        size_t whole = size + kind.width;
        for (size_t i = 0; i < size; i++) {
            frame[i] = (uint8_t)(size * 31 + i * i * 7 + i);
        }
        uint32_t expected = signature(kind, crc, number, frame, size);
        signs &= done(mizkaule_sign(kind.figure, crc, number, frame, size, frame + size, kind.width), kind.width);
        signs &= numeral(frame + size, kind.width) == expected;
        fit &= done(mizkaule_fits(kind.figure, crc, number, frame, whole), 1);
        other &= done(mizkaule_fits(kind.figure, crc, number ^ 1, frame, whole), 0);
        frame[size / 2] ^= 0x10;
        changed &= done(mizkaule_fits(kind.figure, crc, number, frame, whole), 0);
    }
    CHECK(signs);
    CHECK(fit);
    CHECK(other);
    CHECK(changed);
}

/* Buffers of every length up to twice the width: too short, exact, and longer with the rest untouched. */
static void test_sign_room(struct kind kind)
{
    uint8_t octet = 0x14;
    for (size_t room = 0; room <= 8; room++) {
        uint8_t out[8];
        fresh(out, sizeof out);
        struct mizkaule_answer a = mizkaule_sign(kind.figure, 0xC357, 0, &octet, 1, out, room);
        if (room < kind.width) {
            CHECK(too_short(a, kind.width) && untouched(out, sizeof out));
        } else {
            CHECK(done(a, kind.width) && untouched(out + kind.width, sizeof out - kind.width));
            CHECK(numeral(out, kind.width) == signature(kind, 0xC357, 0, &octet, 1));
        }
    }
    CHECK(too_short(mizkaule_sign(kind.figure, 0xC357, 0, &octet, 1, NULL, 0), kind.width));
    CHECK(too_short(mizkaule_sign(kind.figure, 0xC357, 0, NULL, 0, NULL, 0), kind.width));
}

/* Numbers above FFFFFFh, and frames that are shorter than a signature. */
static void test_numbers(struct kind kind)
{
    uint8_t out[8];
    uint8_t frame[4] = { 0 };
    fresh(out, sizeof out);
    CHECK(no_such(mizkaule_sign(kind.figure, 0, 0x1000000, frame, 1, out, sizeof out)));
    CHECK(no_such(mizkaule_sign(kind.figure, 0, 0xFFFFFFFF, frame, 1, out, sizeof out)));
    CHECK(no_such(mizkaule_sign(kind.figure, 0, 0x1000000, frame, 1, out, 0)));
    CHECK(untouched(out, sizeof out));
    CHECK(done(mizkaule_sign(kind.figure, 0, 0xFFFFFF, frame, 1, out, sizeof out), kind.width));
    CHECK(no_such(mizkaule_fits(kind.figure, 0, 0x1000000, frame, 4)));
    CHECK(no_such(mizkaule_fits(kind.figure, 0, 0xFFFFFFFF, frame, 4)));
    CHECK(done(mizkaule_fits(kind.figure, 0, 0, frame, kind.width), 1)); /* a signature alone: 0 after zeros */
    CHECK(done(mizkaule_fits(kind.figure, 0, 0, frame, kind.width - 1), 0));
    CHECK(done(mizkaule_fits(kind.figure, 0, 0, frame, 0), 0));
    CHECK(done(mizkaule_fits(kind.figure, 0, 0, NULL, 0), 0));
}

/* ---- books */

static const uint8_t worked[] = {
    0x01, 0x00, 0x0D, 0x01, 0x00, 0x00, 0x08, 0x40, 0x00, 0x01, 0x00, 0x02, 0x00, 0x64, 0xC3, 0x57, 0x00, 0x02, 0x02,
    0x00, 0x00, 0x05, 0x03, 0x14, 0xBE, 0xA3, 0x1F, 0x00, 0x02, 0x04, 0x00, 0x00, 0x05, 0x05, 0x50, 0xA1, 0x0C, 0x1E,
};

static const char worked_text[] = "1 block taken R0 W0 FF\n"
                                  "16 host-offer fresh R0 W0 FF\n"
                                  "20 to-device restart R0 N0 FF\n"
                                  "27 device-offer fresh R0 N0 FF\n"
                                  "31 to-host fresh N1 N0 FF\n"
                                  "end 38 5\n";

/* Whether a book is replayed so, or refused by 13 if there is no room; beside the text nothing is written or kept. */
static int replays(const uint8_t *book, size_t size, const char *expected, size_t room)
{
    uint8_t text[512];
    size_t length = strlen(expected);
    long before = held;
    fresh(text, sizeof text);
    struct mizkaule_answer a = mizkaule_replay(book, size, text, room);
    if (held != before) {
        return 0;
    }
    if (room < length) {
        return too_short(a, length) && untouched(text, sizeof text);
    }
    return done(a, length) && memcmp(text, expected, length) == 0 && untouched(text + length, sizeof text - length);
}

struct book_case {
    const char *text;
    size_t size;
    uint8_t octets[8];
};

/* The books of docs/BOOK.md that stop being books, and the least book. */
static const struct book_case book_cases[] = {
    { "refused 15 0\n", 0, { 0 } },
    { "refused 15 0\n", 1, { 0x02 } },
    { "end 1 0\n", 1, { 0x01 } },
    { "refused 16 1\n", 2, { 0x01, 0x00 } },
    { "refused 16 1\n", 3, { 0x01, 0x00, 0x00 } },
    { "refused 16 1\n", 4, { 0x01, 0x00, 0x02, 0x08 } },
    { "1 button refused 18 1\nrefused 17 5\n", 8, { 0x01, 0x00, 0x02, 0x08, 0x01, 0x00, 0x01, 0x08 } },
    { "refused 17 1\n", 4, { 0x01, 0x00, 0x01, 0x09 } },
};

static void test_books(void)
{
    size_t length = strlen(worked_text);
    CHECK(replays(worked, sizeof worked, worked_text, length));
    CHECK(replays(worked, sizeof worked, worked_text, length + 1));
    CHECK(replays(worked, sizeof worked, worked_text, 512));
    CHECK(replays(worked, sizeof worked, worked_text, length - 1));
    CHECK(replays(worked, sizeof worked, worked_text, 1));
    CHECK(replays(worked, sizeof worked, worked_text, 0));
    CHECK(too_short(mizkaule_replay(worked, sizeof worked, NULL, 0), length));
    CHECK(replays(NULL, 0, "refused 15 0\n", 512));
    CHECK(replays(NULL, 0, "refused 15 0\n", 12));
    CHECK(too_short(mizkaule_replay(NULL, 0, NULL, 0), 13));
    for (size_t i = 0; i < sizeof book_cases / sizeof *book_cases; i++) {
        const struct book_case *c = &book_cases[i];
        check(replays(c->octets, c->size, c->text, 512), c->text, __LINE__);
        check(replays(c->octets, c->size, c->text, strlen(c->text) - 1), c->text, __LINE__);
    }
}

/* A book full of frames of no octets, which has a long text; the same with the largest size; and one octet too many. */
static void test_largest_book(void)
{
    static uint8_t book[65536];
    book[0] = 1;
    for (size_t i = 1; i + 3 <= 65535; i += 3) {
        book[i + 1] = 1;
        book[i + 2] = 3;
    }
    struct mizkaule_answer a = mizkaule_replay(book, 65533, NULL, 0);
    CHECK(a.status == MIZKAULE_REFUSED && a.number == MIZKAULE_BUFFER_LENGTH && a.size > 700000 && a.size < 721000);
    uint8_t *text = (uint8_t *)malloc(a.size);
    CHECK(text != NULL && too_short(mizkaule_replay(book, 65533, text, a.size - 1), a.size));
    CHECK(text != NULL && done(mizkaule_replay(book, 65533, text, a.size), a.size));
    CHECK(text != NULL && memcmp(text, "1 to-device refused 18 1\n4 to-device refused 18 4\n", 50) == 0);
    CHECK(text != NULL && memcmp(text + a.size - 16, "end 65533 21844\n", 16) == 0);
    free(text);
    CHECK(too_short(mizkaule_replay(book, 65535, NULL, 0), a.size + 1)); /* "refused 16 65533" in place of the end */
    CHECK(replays(book, 65536, "refused 15 0\n", 512));
    CHECK(held == 0);
}

/* Only the replay asks for memory; without any it says so and writes nothing. */
static void test_memory(void)
{
    uint8_t text[512];
    fresh(text, sizeof text);
    asked = 0;
    mizkaule_judge_block(worked + 6, 10, 2, 3, 0, 0, MIZKAULE_S3);
    mizkaule_sign(MIZKAULE_S4, 0, 0, worked, sizeof worked, text, 4);
    mizkaule_fits(MIZKAULE_S4, 0, 0, worked, sizeof worked);
    CHECK(asked == 0);
    fresh(text, sizeof text);
    withheld = 1;
    struct mizkaule_answer a = mizkaule_replay(worked, sizeof worked, text, sizeof text);
    withheld = 0;
    CHECK(is(a, MIZKAULE_NO_MEMORY, 0, MIZKAULE_LAYER_NONE, 0, 0) && untouched(text, sizeof text));
    CHECK(asked > 0 && held == 0);
    CHECK(replays(worked, sizeof worked, worked_text, 512));
}

/* ---- pointers */

#define HUGE_SIZE ((size_t)PTRDIFF_MAX + 1)

static void test_pointers(void)
{
    uint8_t out[64];
    uint8_t in[8] = { 0 };
    uint8_t *last = (uint8_t *)(UINTPTR_MAX - 3);
    fresh(out, sizeof out);
    asked = 0;
    CHECK(bad_pointer(mizkaule_judge_block(NULL, 10, 2, 3, 0, 0, MIZKAULE_S3)));
    CHECK(bad_pointer(mizkaule_judge_block(in, HUGE_SIZE, 2, 3, 0, 0, MIZKAULE_S3)));
    CHECK(bad_pointer(mizkaule_judge_block(last, 10, 2, 3, 0, 0, MIZKAULE_S3)));
    CHECK(bad_pointer(mizkaule_judge_block(NULL, 1, 2, 3, 0, 0, 0)));
    CHECK(bad_pointer(mizkaule_sign(MIZKAULE_S3, 0, 0, NULL, 1, out, sizeof out)));
    CHECK(bad_pointer(mizkaule_sign(MIZKAULE_S3, 0, 0, in, 1, NULL, 3)));
    CHECK(bad_pointer(mizkaule_sign(MIZKAULE_S3, 0, 0, in, HUGE_SIZE, out, sizeof out)));
    CHECK(bad_pointer(mizkaule_sign(MIZKAULE_S3, 0, 0, in, 1, out, SIZE_MAX)));
    CHECK(bad_pointer(mizkaule_sign(MIZKAULE_S3, 0, 0, last, 5, out, sizeof out)));
    CHECK(bad_pointer(mizkaule_fits(MIZKAULE_S3, 0, 0, NULL, 4)));
    CHECK(bad_pointer(mizkaule_fits(MIZKAULE_S3, 0, 0, in, HUGE_SIZE)));
    CHECK(bad_pointer(mizkaule_fits(MIZKAULE_S3, 0, 0, last, 5)));
    CHECK(bad_pointer(mizkaule_replay(NULL, 1, out, sizeof out)));
    CHECK(bad_pointer(mizkaule_replay(in, 1, NULL, 1)));
    CHECK(bad_pointer(mizkaule_replay(in, SIZE_MAX, out, sizeof out)));
    CHECK(bad_pointer(mizkaule_replay(in, 1, out, HUGE_SIZE)));
    CHECK(bad_pointer(mizkaule_replay(last, 5, out, sizeof out)));
    CHECK(asked == 0 && untouched(out, sizeof out));
}

/* Buffers that share an octet, and such as only touch. */
static void test_overlaps(void)
{
    uint8_t octets[64];
    fresh(octets, sizeof octets);
    CHECK(bad_pointer(mizkaule_sign(MIZKAULE_S3, 0, 0, octets, 8, octets, 8)));
    CHECK(bad_pointer(mizkaule_sign(MIZKAULE_S3, 0, 0, octets, 8, octets + 7, 8)));
    CHECK(bad_pointer(mizkaule_sign(MIZKAULE_S3, 0, 0, octets + 7, 8, octets, 8)));
    CHECK(bad_pointer(mizkaule_sign(MIZKAULE_S3, 0, 0, octets + 2, 1, octets, 8)));
    CHECK(bad_pointer(mizkaule_sign(MIZKAULE_S3, 0, 0, octets, 8, octets + 2, 1)));
    CHECK(bad_pointer(mizkaule_replay(octets, 8, octets + 7, 57)));
    CHECK(bad_pointer(mizkaule_replay(octets + 56, 8, octets, 57)));
    CHECK(bad_pointer(mizkaule_replay(octets, 1, octets, 64)));
    CHECK(untouched(octets, sizeof octets));
    CHECK(done(mizkaule_sign(MIZKAULE_S3, 0, 0, octets, 8, octets + 8, 3), 3));
    CHECK(done(mizkaule_sign(MIZKAULE_S3, 0, 0, octets + 16, 8, octets + 13, 3), 3));
    CHECK(done(mizkaule_sign(MIZKAULE_S3, 0, 0, octets + 30, 0, octets + 29, 3), 3));
    CHECK(done(mizkaule_replay(octets + 63, 0, octets, 64), 13) && memcmp(octets, "refused 15 0\n", 13) == 0);
    CHECK(done(mizkaule_replay(octets, 1, octets + 1, 13), 13) && octets[0] == 'r');
    CHECK(too_short(mizkaule_replay(octets, 1, octets, 0), 13));
}

int main(int count, char **arguments)
{
    (void)arguments;
    if (count > 1) {
        for (unsigned number = 1; number <= 18; number++) {
            puts(mizkaule_reason(number));
        }
        return 0;
    }
    test_figures();
    test_blocks();
    test_kinds();
    test_known_signatures();
    for (size_t i = 0; i < sizeof kinds / sizeof *kinds; i++) {
        test_signatures(kinds[i]);
        test_sign_room(kinds[i]);
        test_numbers(kinds[i]);
    }
    test_books();
    test_largest_book();
    test_memory();
    test_pointers();
    test_overlaps();
    printf("%u checks, %u failed\n", checks, failed);
    return failed == 0 ? 0 : 1;
}
