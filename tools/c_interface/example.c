/* A start for programs in C: judges the block of a shift book, replays the book, and says in words what was refused.
 *
 * usage: example [BOOK]    a file, or else the standard input
 *
 * The text of the replay goes to standard output, all else to standard error. Status 0: the book was replayed, whatever
 * its text says. Status 1: it could not be read, replayed or printed.
 */
#include "mizkaule.h"

#include <stdio.h>
#include <stdlib.h>
#include <string.h>

/* One octet more than the largest book has, so that a book that is too large is seen to be. */
#define MOST 65536

/* Where the parameter block stands in a book whose first record is one, and how many octets it has. */
#define BLOCK_PLACE 6
#define BLOCK_SIZE 10

static int read_book(const char *name, uint8_t *book, size_t *size)
{
    FILE *file = name == NULL ? stdin : fopen(name, "rb");
    if (file == NULL) {
        return 0;
    }
    *size = fread(book, 1, MOST, file);
    int good = !ferror(file);
    if (name != NULL) {
        fclose(file);
    }
    return good;
}

/* Judges the block as the bench of a replay does: at its own destination, for rank 3, under the kind it asks for. */
static void judge_first(const uint8_t *book, size_t size)
{
    static const uint8_t head[] = { 1, 0, 13, 1 }; /* version, a record of 13 octets, kind block */
    if (size < BLOCK_PLACE + BLOCK_SIZE || memcmp(book, head, sizeof head) != 0) {
        fprintf(stderr, "the book does not begin with a block\n");
        return;
    }
    const uint8_t *block = book + BLOCK_PLACE;
    uint16_t address = (uint16_t)(block[4] << 8 | block[5]);
    uint8_t kind = (block[0] & 0x30) == 0x20 ? MIZKAULE_S4 : MIZKAULE_S3;
    struct mizkaule_answer answer = mizkaule_judge_block(block, BLOCK_SIZE, address, 3, book[4], book[5], kind);
    if (answer.status == MIZKAULE_DONE) {
        fprintf(stderr, "the block is accepted\n");
    } else {
        fprintf(stderr, "the block is refused by %u at its octet %zu: %s\n", answer.number, answer.place,
            mizkaule_reason(answer.number));
    }
}

/* The text of the book, to be freed by the caller, or NULL if there is no memory. An octet 0 stands behind it. */
static char *replayed(const uint8_t *book, size_t size, size_t *length)
{
    size_t room = 1024;
    for (;;) {
        uint8_t *text = (uint8_t *)malloc(room + 1);
        if (text == NULL) {
            return NULL;
        }
        struct mizkaule_answer answer = mizkaule_replay(book, size, text, room);
        if (answer.status == MIZKAULE_DONE) {
            *length = answer.size;
            text[answer.size] = 0;
            return (char *)text;
        }
        free(text);
        if (answer.status != MIZKAULE_REFUSED || answer.number != MIZKAULE_BUFFER_LENGTH) {
            return NULL;
        }
        room = answer.size; /* what the text needs */
    }
}

/* Says in words what the lines refuse: "PLACE KIND refused NUMBER OCTET", and at the end "refused NUMBER PLACE". */
static void explain(const char *text)
{
    unsigned number;
    unsigned long octet;
    for (const char *at = strstr(text, "refused "); at != NULL; at = strstr(at + 1, "refused ")) {
        if (sscanf(at, "refused %u %lu", &number, &octet) == 2) {
            fprintf(stderr, "octet %lu: %s\n", octet, mizkaule_reason(number));
        }
    }
}

int main(int count, char **names)
{
    static uint8_t book[MOST];
    size_t size;
    size_t length;
    if (!read_book(count > 1 ? names[1] : NULL, book, &size)) {
        fprintf(stderr, "the book cannot be read\n");
        return 1;
    }
    judge_first(book, size);
    char *text = replayed(book, size, &length);
    if (text == NULL) {
        fprintf(stderr, "there is no memory for the replay\n");
        return 1;
    }
    int printed = fwrite(text, 1, length, stdout) == length && fflush(stdout) == 0;
    explain(text);
    free(text);
    return printed ? 0 : 1;
}
