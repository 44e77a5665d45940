/* tollgilt.h: the sheets of a German medication plan (BMP 2.7) joined, listed, written afresh and asked for a package number or a printed cell, for C programs.
 * This header is the manual of the library's border.
 *
 * A sheet's barcode holds one page: 1 to 1,400 bytes of XML in Latin-1. One to nine pages make a plan. The library joins them by what they say, in
 * whatever order they are handed in, and answers with a listing of the plan, with fresh pages, with the rows that hold a package number or with the text of a
 * printed cell, or with a refusal that names the page and the place.
 *
 * Only numbers and ranges of bytes and numbers cross this border. The library has no state, allocates nothing, writes nothing but what is lent to it for writing, and
 * calls nothing but the C library's memcpy, memmove, memset, memcmp and bcmp. It never fails in another way than by a refusal.
 *
 * To link it, hand the archive to the compiler behind your own files; it needs no other library. From a new clone to a program that runs, with the Rattle
 * kit and a C compiler installed, in the folder of the clone:
 *
 *     tools/archives
 *     cc -Iinclude examples/list.c target/native/$(uname -m)-unknown-linux-gnu/libtollgilt.a -o target/list
 *     target/list examples/sheet-1.xml examples/sheet-2.xml examples/sheet-3.xml
 *
 * The first proves the library, which takes some minutes once, and writes its archives, for this machine and for Android phones (tools/archives says how an
 * app links that). */
#ifndef TOLLGILT_H
#define TOLLGILT_H

#include <stddef.h>
#include <stdint.h>

#ifdef __cplusplus
extern "C" {
#endif

/* The sizes that the paper sets. */
enum {
    TOLLGILT_PAGES = 9,            /* the most pages that a call hands in */
    TOLLGILT_PAGE_BYTES = 1400,    /* the most bytes of a page */
    TOLLGILT_LISTING_ROOM = 25200, /* the room that a listing asks for: it is enough for any plan */
    TOLLGILT_PAGE_ROOM = 12600,    /* the room that fresh pages ask for: it is enough for nine full ones */
    TOLLGILT_ROWS = 256,           /* the most rows of a plan, and the numbers that a list of rows asks for */
    TOLLGILT_CELL_ROOM = 80        /* the room that a cell's text asks for: it is enough for any */
};

/* What a call answers: 0, or the number of a refusal. Beside each stands the page and the place that come with it. A page is counted from 1 in the
 * order in which the pages were handed in; a place is the offset of a byte from the beginning of its page, the first byte being 0.
 *
 * Where several refusals would fit, the lowest of these steps counts: 1; then each page in the order handed in, for 2 to 8 the lowest number of that
 * page, and of that number the lowest place; then 9, 10, 11, 12, 14, and last the 1 of a cell that is not there. (13 is for plans that were not read from
 * pages; it does not occur here.) */
enum {
    TOLLGILT_OK = 0,

    /* 1: the number of pages is not 1 to 9; or starts and lens differ in their counts; or a page does not lie within the buffer; or the room is too
     * small. By tollgilt_cell alone also, once the pages are a plan: it has no such cell. Page 0, place 0. */
    TOLLGILT_NO_ROOM = 1,

    /* 2: the page is empty or has more than 1,400 bytes. Page; place 0. */
    TOLLGILT_PAGE_SIZE = 2,

    /* 3: a byte that is not allowed: allowed are 9, 10, 13, 32 to 126, 160 to 255. Page; place of the first such byte. */
    TOLLGILT_BYTE_REFUSED = 3,

    /* 4: the page is malformed. Page; length of its longest beginning that some well-formed page shares, which is the whole length of a page that
     * only ends too early. */
    TOLLGILT_MALFORMED = 4,

    /* 5: an element is unknown, misplaced or one too many, or an attribute is unknown or there twice. Page; place of the element's '<'. */
    TOLLGILT_OUT_OF_PLACE = 5,

    /* 6: the edition MP.v is not 027, or absent. Page; place of the '<' of MP. */
    TOLLGILT_OTHER_EDITION = 6,

    /* 7: a value breaks the rule of its field, such as a date, a dose or a package number; or a is above z. Page; place of the element's '<'. */
    TOLLGILT_BROKEN_VALUE = 7,

    /* 8: two fields that exclude each other, a missing field or element, a without z or z without a. Page; place of the '<' of the element, of MP
     * where P or A is missing. */
    TOLLGILT_INCOMPLETE = 8,

    /* 9: the head or the number of pages differs from the first page handed in, so that it is of another print. First such page; place 0. */
    TOLLGILT_OTHER_HEAD = 9,

    /* 10: a page number that an earlier page has. First such page; place 0. */
    TOLLGILT_NUMBER_TWICE = 10,

    /* 11: a page is missing. Its page number, the lowest where several are missing; place 0. */
    TOLLGILT_NUMBER_MISSING = 11,

    /* 12: the plan has more than 256 rows. Page 0, place 0. */
    TOLLGILT_TOO_MANY_ROWS = 12,

    /* 14, by tollgilt_fresh alone: the plan does not fit on nine fresh pages, which spell some values longer than the pages read. Page 0; place is the
     * first row, counted from 1, up to which the rows do not fit, or 0 where the head alone is too long. */
    TOLLGILT_NO_CUT = 14
};

/* Lists the plan of some pages as key=value lines, each ended by byte 10, in Latin-1 like the pages, without a zero byte at the end. The date of birth,
 * MP.P.b, is eight digits YYYYMMDD; its day, or its month and day, are 00 where nobody knows them, so that no type for days of the calendar takes every one.
 *
 *   buffer, size          the bytes that the pages lie in. They need not fill it, and may lie in any order.
 *   starts, starts_count  for each page the offset of its first byte in the buffer.
 *   lens, lens_count      for each page its number of bytes; as many as starts.
 *   out, room             the room for the listing: at least TOLLGILT_LISTING_ROOM bytes, whatever the plan needs; less is refused with 1.
 *   told                  three numbers: the length of the listing, and the page and the place of a refusal. All three are written by every call.
 *
 * Answers 0 and fills out with the listing: told is then { its length, 0, 0 }, and the room behind the listing is untouched. Or answers the number
 * of a refusal: told is then { 0, page, place }, and all of out is untouched.
 *
 * Any numbers may stand in starts, lens and the counts: a page that does not lie within the buffer is refused with 1, also where a start and a length
 * add up to more than a size_t holds. What the caller answers for are the pointers:
 *
 *   - Each pointer and its size name memory that is there, for reading or, at out and told, for writing.
 *   - No pointer is NULL, also where its size is 0. Any other aligned address will do for a size of 0; nothing is read or written there.
 *   - starts and lens are aligned as size_t, told as uint32_t.
 *   - out and told overlap neither each other nor buffer, starts or lens. Those three are only read and may overlap.
 *   - Until the call returns no other thread writes to any of this memory, and none reads out or told.
 *
 * Any number of threads may call at once, each with a room of its own. A call uses less than 256 KB of its thread's stack: as compiled today about 200
 * KB on 64-bit Arm. */
uint32_t tollgilt_list(const uint8_t *buffer, size_t size, const size_t *starts, size_t starts_count, const size_t *lens, size_t lens_count,
                       uint8_t *out, size_t room, uint32_t told[3]);

/* Writes the plan of some pages as fresh pages: one spelling for each plan, as few pages as can hold it, each as full as its rows allow. Two sets of pages
 * give the same fresh pages exactly when they are the same plan; and fresh pages, handed in again, give themselves.
 *
 *   buffer, size, starts, starts_count, lens, lens_count   as for tollgilt_list.
 *   out, room   the room for the pages: at least TOLLGILT_PAGE_ROOM bytes, whatever the plan needs; less is refused with 1.
 *   told        twelve numbers: how many pages there are, the page and the place of a refusal, and the lengths of nine pages. All are written by every call.
 *
 * Answers 0 and lays the pages into out one behind the other, from its beginning on: told is then { count, 0, 0, their lengths }, with 0 for each length
 * behind the last page, and the room behind the pages is untouched. Or answers the number of a refusal: told is then { 0, page, place, nine times 0 }, and
 * all of out is untouched. The caller answers for the pointers, and a call uses the stack, as for tollgilt_list. */
uint32_t tollgilt_fresh(const uint8_t *buffer, size_t size, const size_t *starts, size_t starts_count, const size_t *lens, size_t lens_count,
                        uint8_t *out, size_t room, uint32_t told[12]);

/* Finds the rows of a plan that hold a package number (PZN). A row is counted from 1, as in the listing; medication rows alone hold a number. Packages of the
 * same drug can stand in several rows, and each of them is given.
 *
 *   buffer, size, starts, starts_count, lens, lens_count   as for tollgilt_list.
 *   number       the package number, as a number: 02394428 on a box is 2394428. Any number may be asked for: its check digit is not judged, and 0, or one
 *                that no row holds, is in no row.
 *   list, room   the room for the rows: at least TOLLGILT_ROWS numbers, whatever the plan has; less is refused with 1.
 *   told         three numbers: how many rows hold the number, and the page and the place of a refusal. All three are written by every call.
 *
 * Answers 0 and begins list with the rows that hold the number, ascending: told is then { how many, 0, 0 }, with 0 where the number is not on the plan, and
 * the list behind them is untouched. Or answers the number of a refusal: told is then { 0, page, place }, and all of list is untouched. The caller answers
 * for the pointers as for tollgilt_list, list being what out is there, aligned as uint32_t; and a call uses the stack as there. */
uint32_t tollgilt_find(const uint8_t *buffer, size_t size, const size_t *starts, size_t starts_count, const size_t *lens, size_t lens_count,
                       uint32_t number, uint32_t *list, size_t room, uint32_t told[3]);

/* The cells of a medication row. */
enum {
    TOLLGILT_NAME = 1,      /* the trade name, at most 50 bytes */
    TOLLGILT_SUBSTANCE = 2, /* one of up to three substances, at most 80 bytes */
    TOLLGILT_STRENGTH = 3,  /* the strength of one of them, at most 15 bytes */
    TOLLGILT_FORM = 4,      /* the form, at most 7 bytes; a code is no text, so that the catalogue's form takes its place */
    TOLLGILT_MORNING = 5,   /* the doses at four times of day */
    TOLLGILT_MIDDAY = 6,
    TOLLGILT_EVENING = 7,
    TOLLGILT_NIGHT = 8,
    TOLLGILT_FREE_DOSE = 9  /* the dose as free text */
};

/* Where the text of a cell comes from. */
enum {
    TOLLGILT_FROM_NEITHER = 0, /* there is none: the cell is empty */
    TOLLGILT_FROM_PLAN = 1,
    TOLLGILT_FROM_CATALOGUE = 2
};

/* Gives the text of a printed cell, and how much of it was left out: the plan's own text if there is one, else the catalogue's, else none.
 *
 *   buffer, size, starts, starts_count, lens, lens_count   as for tollgilt_list.
 *   catalogue, catalogue_size   the text that a catalogue has for this cell, all of it, in Latin-1, where a character is a byte; any bytes and any length, and
 *                size 0 where it has none.
 *   row          the row, counted from 1 as in the listing.
 *   field        TOLLGILT_NAME to TOLLGILT_FREE_DOSE.
 *   which        for a substance or a strength which of the three, 1 to 3; any number for the others.
 *   out, room    the room for the text: at least TOLLGILT_CELL_ROOM bytes, whatever the text needs; less is refused with 1.
 *   told         seven numbers: the length of the text, the page and the place of a refusal, where the text comes from, 1 if "..." follows it, 1 if 0 is
 *                printed in its place, and how many characters were left out. All seven are written by every call.
 *
 * A text longer than the n bytes of its cell is cut before the last blank among its first n - 3 bytes, if that blank is one of the last ten of them and not the
 * very first byte; otherwise after n - 3 bytes. Then "..." follows, and the number of characters left out, which is 0 for every text that is not cut, goes
 * into the margin: "+12". Nothing is left out of a dose, and the catalogue is not asked for it. An absent time of day is empty; if another time of the row is
 * there, 0 is printed in its place.
 *
 * Answers 0 and lays the text at the beginning of out: told is then { its length, 0, 0, TOLLGILT_FROM_.., 0 or 1, 0 or 1, how many }, and the room behind the
 * text is untouched. Or answers the number of a refusal: told is then { 0, page, place, 0, 0, 0, 0 }, and all of out is untouched. It is 1 where the pages are
 * a plan without this cell: no row has the number, or the row is no medication, or field or which is none of the above. The caller answers for the pointers as
 * for tollgilt_list, the catalogue being one of those that are only read, and told aligned as size_t; and a call uses the stack as there. */
uint32_t tollgilt_cell(const uint8_t *buffer, size_t size, const size_t *starts, size_t starts_count, const size_t *lens, size_t lens_count,
                       const uint8_t *catalogue, size_t catalogue_size, size_t row, uint32_t field, size_t which,
                       uint8_t *out, size_t room, size_t told[7]);

#ifdef __cplusplus
}
#endif

#endif
