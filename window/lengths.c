/*
 * Has the planner work sheets into lists of many lengths, and holds what it writes against docs/SHEETS.md, section 7.
 *
 * usage: lengths SHEET..
 *
 * It is built with the sanitizers for addresses and undefined behavior, but the library that it is linked with is not: of
 * what the library does, they see only its calls of functions such as memcpy. So each list is used twice, once where it is a block of exactly
 * its length on the heap, and once where it ends right before a page that nobody may touch. There the processor itself stops
 * a byte that is read or written past the end. The sheet always ends before such a page.
 *
 * Each list is filled before the call, with one byte and then with another, so that no write goes unseen because the byte
 * was there already. What is checked of each call:
 *
 * - refusal and count are those that follow from the answers in a list with room for all of them;
 * - the bytes up to the count are the first ones of those answers;
 * - the bytes after them, the bytes before the list, and the sheet are as they were.
 */
#define _DEFAULT_SOURCE
#include "planner.h"
#include "sheet_file.h"

#include <stdarg.h>
#include <stdio.h>
#include <stdlib.h>
#include <string.h>
#include <sys/mman.h>
#include <unistd.h>

/* A list as long as the first has room for the answers to each of the sheets. Every length is tried where the answers are no
   longer than the second; else each that is a multiple of the third, and those about the end of a line. BEFORE is how many
   bytes before a list are looked at. */
enum { LONGEST = 1 << 20, EVERY = 2000, STEP = 211, BEFORE = 64 };

enum { FIRST_TOO_MANY_DAYS = 1, FIRST_UNKNOWN_CODE = 9, BAD_LINE = 15, ANSWERS_FULL = 16 };

static const uint8_t fillings[] = {0xA5, 0x5A};

struct sheet {
    const char *name;
    const uint8_t *bytes; /* before a page that nobody may touch */
    const uint8_t *kept;  /* the same bytes once more */
    size_t length;
};

/* How carry ended, and how many bytes it has written. */
struct ended {
    uint32_t refusal;
    size_t count;
};

static _Noreturn void fail(const char *form, ...)
{
    va_list given;
    va_start(given, form);
    fputs("lengths: ", stderr);
    vfprintf(stderr, form, given);
    fputc('\n', stderr);
    va_end(given);
    exit(1);
}

/* Room for so many bytes, right before a page that nobody may touch. The answer is where that page begins. */
static uint8_t *fence(size_t length)
{
    size_t page = (size_t)sysconf(_SC_PAGESIZE);
    size_t whole = (length + page - 1) / page * page;
    uint8_t *start = mmap(NULL, whole + page, PROT_READ | PROT_WRITE, MAP_PRIVATE | MAP_ANONYMOUS, -1, 0);
    if (start == MAP_FAILED || mprotect(start + whole, page, PROT_NONE) != 0) {
        fail("there is no memory");
    }
    return start + whole;
}

static struct ended worked(const struct sheet *sheet, uint8_t *list, size_t room)
{
    uint64_t carried = carry(sheet->bytes, sheet->length, list, room);
    return (struct ended){planner_refusal(carried), planner_count(carried)};
}

/* What section 7 says of a list with so much room, where one with room for all the answers ended as `full`. */
static struct ended expected(struct ended full, const uint8_t *answers, size_t room)
{
    size_t count = 0;
    while (count < full.count) {
        const uint8_t *last = memchr(answers + count, '\n', full.count - count);
        if (last == NULL) {
            fail("an answer is not a whole line");
        }
        size_t end = (size_t)(last - answers) + 1;
        if (end > room) {
            /* A fault and a refused first line are the refusal also where their own line does not fit. */
            int is_own = full.refusal == FIRST_TOO_MANY_DAYS || full.refusal == FIRST_UNKNOWN_CODE || full.refusal == BAD_LINE;
            return (struct ended){is_own && end == full.count ? full.refusal : ANSWERS_FULL, count};
        }
        count = end;
    }
    return full;
}

static int is_filled(const uint8_t *from, const uint8_t *to, uint8_t filling)
{
    while (from < to && *from == filling) {
        from++;
    }
    return from == to;
}

/* Works the sheet once, into a filled list, and checks what came of it. */
static void try_list(const struct sheet *sheet, struct ended full, const uint8_t *answers, uint8_t *list, size_t room,
                     uint8_t filling)
{
    memset(list, filling, room);
    struct ended found = worked(sheet, list, room);
    struct ended wanted = expected(full, answers, room);
    if (found.refusal != wanted.refusal || found.count != wanted.count) {
        fail("%s, a list of %zu bytes: refusal %u and %zu bytes, wanted %u and %zu", sheet->name, room,
             (unsigned)found.refusal, found.count, (unsigned)wanted.refusal, wanted.count);
    }
    if (memcmp(list, answers, found.count) != 0) {
        fail("%s, a list of %zu bytes: other answers than in a longer list", sheet->name, room);
    }
    if (!is_filled(list + found.count, list + room, filling)) {
        fail("%s, a list of %zu bytes: a byte after the answers is written", sheet->name, room);
    }
    if (memcmp(sheet->bytes, sheet->kept, sheet->length) != 0) {
        fail("%s, a list of %zu bytes: the sheet is written", sheet->name, room);
    }
}

/* Tries a list of the length with one filling: on the heap, and before the page. */
static void try_room(const struct sheet *sheet, struct ended full, const uint8_t *answers, uint8_t *page, size_t room,
                     uint8_t filling)
{
    /* malloc may answer NULL where nothing is asked for, and carry takes no NULL. */
    uint8_t *block = malloc(room > 0 ? room : 1);
    if (block == NULL) {
        fail("there is no memory");
    }
    try_list(sheet, full, answers, block, room, filling);
    free(block);

    uint8_t *list = page - room;
    memset(list - BEFORE, filling, BEFORE);
    try_list(sheet, full, answers, list, room, filling);
    if (!is_filled(list - BEFORE, list, filling)) {
        fail("%s, a list of %zu bytes: a byte before the list is written", sheet->name, room);
    }
}

/* Whether a line of the answers ends at the length, one byte before it or one after it. */
static int is_about_line_end(const uint8_t *answers, size_t count, size_t room)
{
    for (size_t end = room > 0 ? room - 1 : 0; end <= room + 1; end++) {
        if (end > 0 && end <= count && answers[end - 1] == '\n') {
            return 1;
        }
    }
    return 0;
}

/* The answer is how many lengths are tried. */
static unsigned try_sheet(const struct sheet *sheet, uint8_t *answers, uint8_t *page)
{
    struct ended full = worked(sheet, answers, LONGEST);
    if (full.count > LONGEST || full.refusal == ANSWERS_FULL) {
        fail("%s: the answers do not fit into %d bytes", sheet->name, LONGEST);
    }
    unsigned tried = 0;
    for (size_t room = 0; room <= full.count + 3; room++) {
        if (full.count > EVERY && room % STEP != 0 && !is_about_line_end(answers, full.count, room)) {
            continue;
        }
        for (size_t i = 0; i < sizeof fillings; i++) {
            try_room(sheet, full, answers, page, room, fillings[i]);
        }
        tried++;
    }
    return tried;
}

int main(int argc, char **argv)
{
    static uint8_t kept[SHEET_FILE_BYTES];
    if (argc < 2) {
        fail("usage: lengths SHEET..");
    }
    uint8_t *sheet_page = fence(SHEET_FILE_BYTES);
    uint8_t *list_page = fence(BEFORE + LONGEST + 3);
    uint8_t *answers = malloc(LONGEST);
    if (answers == NULL) {
        fail("there is no memory");
    }
    for (int i = 1; i < argc; i++) {
        long length = read_sheet_file(argv[i], kept);
        if (length < 0) {
            fail("%s cannot be read", argv[i]);
        }
        uint8_t *bytes = sheet_page - length;
        memcpy(bytes, kept, (size_t)length);
        struct sheet sheet = {argv[i], bytes, kept, (size_t)length};
        unsigned tried = try_sheet(&sheet, answers, list_page);
        printf("lengths: %s: lists of %u lengths\n", argv[i], tried);
    }
    free(answers);
    return 0;
}
