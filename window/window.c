/*
 * A small viewer: has the planner work a sheet, shows the answers, and says in words why the work ended.
 *
 * usage: window SHEET [ROOM]
 *
 * SHEET is a file. The answers have room for ROOM bytes, 65,536 where it is not given. They go to standard output. The exit
 * status is the number of the refusal that ended the work, 0 where every line is answered, and 100 where the viewer itself
 * can do nothing.
 */
#include "planner.h"
#include "sheet_file.h"

#include <errno.h>
#include <stdio.h>
#include <stdlib.h>
#include <string.h>

enum { ROOM = 65536, CANNOT = 100 };

/* The refusals of docs/RULES.md, section 8. */
static const char *const in_words[] = {
    [1] = "a plan has 128 days at the most",
    [2] = "a day holds no code",
    [3] = "the plan has no such day",
    [4] = "the plan has no such days",
    [5] = "no days can add up to that",
    [6] = "the book has no room for that",
    [7] = "no rule in force has that number",
    [8] = "a rule in force ends past the days",
    [9] = "there is no such code",
    [10] = "nothing else is left for that day",
    [11] = "the numbers allowed would no longer be consecutive",
    [12] = "the plan is blocked",
    [13] = "the chain has no such link",
    [14] = "the list is not as long as the plan",
    [15] = "no such line can stand there",
    [16] = "the answers do not fit",
};

static int cannot(const char *what)
{
    fprintf(stderr, "window: %s\n", what);
    return CANNOT;
}

/* Whether the text is a number, which goes to `room`. */
static int is_room(const char *text, size_t *room)
{
    char *end;
    errno = 0;
    unsigned long number = strtoul(text, &end, 10);
    *room = number;
    return *text >= '0' && *text <= '9' && *end == '\0' && errno == 0;
}

/* Has the sheet worked, with room for so many bytes of answers, and shows what comes of it. */
static int show(const uint8_t *sheet, size_t length, size_t room)
{
    /* malloc may answer NULL where nothing is asked for, and carry takes no NULL. */
    uint8_t *answers = malloc(room > 0 ? room : 1);
    if (answers == NULL) {
        return cannot("there is no memory for the answers");
    }
    uint64_t carried = carry(sheet, length, answers, room);
    size_t count = planner_count(carried);
    int failed = fwrite(answers, 1, count, stdout) != count || fflush(stdout) != 0;
    free(answers);
    if (failed) {
        return cannot("the answers could not be written out");
    }
    uint32_t refusal = planner_refusal(carried);
    if (refusal >= sizeof in_words / sizeof in_words[0]) {
        return cannot("the planner has answered a refusal that it does not have");
    }
    if (refusal > 0) {
        fprintf(stderr, "window: refused by %u: %s\n", (unsigned)refusal, in_words[refusal]);
    }
    return (int)refusal;
}

int main(int argc, char **argv)
{
    static uint8_t sheet[SHEET_FILE_BYTES];
    size_t room = ROOM;
    if (argc < 2 || argc > 3 || (argc == 3 && !is_room(argv[2], &room))) {
        return cannot("usage: window SHEET [ROOM]");
    }
    long length = read_sheet_file(argv[1], sheet);
    if (length < 0) {
        return cannot(strerror(errno));
    }
    return show(sheet, (size_t)length, room);
}
