/* list SHEET...: joins the sheets named and prints the listing of their plan, or why they are no plan. From a new clone to its output, with the Rattle kit and
 * a C compiler installed, in the folder of the clone; the first command proves the library, which takes some minutes once:
 *
 *     tools/archives
 *     cc -Iinclude examples/list.c target/native/$(uname -m)-unknown-linux-gnu/libtollgilt.a -o target/list
 *     target/list examples/sheet-1.xml examples/sheet-2.xml examples/sheet-3.xml
 *
 * Exit status: 0 a listing, 1 a refusal, 2 a sheet that cannot be read or a listing that cannot be written. */
#include <stdio.h>
#include <stdlib.h>

#include "tollgilt.h"

/* One page more than a plan has and one byte more than a page has, so that it is the library that refuses them. */
enum { MOST_SHEETS = TOLLGILT_PAGES + 1, MOST_BYTES = TOLLGILT_PAGE_BYTES + 1 };

static const char *const reasons[] = {
    [TOLLGILT_NO_ROOM] = "the number of sheets is not 1 to 9",
    [TOLLGILT_PAGE_SIZE] = "the sheet is empty or longer than 1,400 bytes",
    [TOLLGILT_BYTE_REFUSED] = "a byte that is not allowed",
    [TOLLGILT_MALFORMED] = "from here on the sheet is not the XML of a medication plan",
    [TOLLGILT_OUT_OF_PLACE] = "an element unknown, misplaced or one too many, or an attribute unknown or twice",
    [TOLLGILT_OTHER_EDITION] = "the sheet is not of version 2.7",
    [TOLLGILT_BROKEN_VALUE] = "a value breaks the rule of its field",
    [TOLLGILT_INCOMPLETE] = "a field or element is missing, or two fields exclude each other",
    [TOLLGILT_OTHER_HEAD] = "the sheet is of another print than the first one",
    [TOLLGILT_NUMBER_TWICE] = "a sheet with this page number is already there",
    [TOLLGILT_NUMBER_MISSING] = "the sheet with this page number is missing",
    [TOLLGILT_TOO_MANY_ROWS] = "the plan has more than 256 rows",
};

/* Reads a file into lent room and gives its length, cut at what the room holds. */
static size_t read_sheet(const char *name, uint8_t *room, size_t size) {
    FILE *file = fopen(name, "rb");
    size_t length = file == NULL ? 0 : fread(room, 1, size, file);
    if (file == NULL || ferror(file)) {
        perror(name);
        exit(2);
    }
    fclose(file);
    return length;
}

/* The reason of a refusal; a number that the table does not have can come from a later library alone. */
static const char *reason(uint32_t number) {
    const char *words = number < sizeof reasons / sizeof *reasons ? reasons[number] : NULL;
    return words != NULL ? words : "unknown refusal";
}

static int refuse(uint32_t number, uint32_t page, uint32_t place, int count, char **names) {
    fprintf(stderr, "refusal %u, page %u, place %u: %s", (unsigned)number, (unsigned)page, (unsigned)place, reason(number));
    if (page > 0 && page < (uint32_t)count && number != TOLLGILT_NUMBER_MISSING)
        fprintf(stderr, " (%s)", names[page]);
    fputc('\n', stderr);
    return 1;
}

int main(int count, char **names) {
    static uint8_t buffer[MOST_SHEETS * MOST_BYTES], out[TOLLGILT_LISTING_ROOM];
    size_t starts[MOST_SHEETS], lens[MOST_SHEETS], pages = 0, size = 0;
    uint32_t told[3];

    for (int at = 1; at < count && pages < MOST_SHEETS; at++) {
        starts[pages] = size;
        lens[pages] = read_sheet(names[at], buffer + size, MOST_BYTES);
        size += lens[pages++];
    }
    uint32_t number = tollgilt_list(buffer, size, starts, pages, lens, pages, out, sizeof out, told);
    if (number != TOLLGILT_OK)
        return refuse(number, told[1], told[2], count, names);
    if (fwrite(out, 1, told[0], stdout) == told[0] && fflush(stdout) == 0)
        return 0;
    perror("the listing cannot be written");
    return 2;
}
