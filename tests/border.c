/* The border from C: every refusal with its page and place, sizes at and beyond each edge, empty slices, and what a call may touch.
 *
 * Each range is lent so that it ends where a page of memory ends that may not be touched at all. What the library only reads is lent read-only, and so
 * is the room of a call that is refused; a read or write beside that ends the program. Last line: N passed, M failed. */
#define _GNU_SOURCE
#include <pthread.h>
#include <stdarg.h>
#include <stdio.h>
#include <stdlib.h>
#include <string.h>
#include <sys/mman.h>
#include <unistd.h>

#include "tollgilt.h"

static int passed, failed;

static void fact(const char *name, int holds) {
    if (holds) {
        passed++;
    } else {
        failed++;
        printf("FAILED: %s\n", name);
    }
}

/* ---- lent memory ---- */

struct range {
    void *map;
    size_t map_size;
    uint8_t *bytes;
};

/* Memory of this size that ends at a page which nothing may touch, and begins behind another one. */
static struct range lend(size_t size) {
    size_t unit = (size_t)sysconf(_SC_PAGESIZE);
    size_t inner = (size + unit - 1) / unit * unit;
    struct range r = {0};
    r.map_size = inner + 2 * unit;
    r.map = mmap(NULL, r.map_size, PROT_NONE, MAP_PRIVATE | MAP_ANONYMOUS, -1, 0);
    if (r.map == MAP_FAILED || (inner > 0 && mprotect((uint8_t *)r.map + unit, inner, PROT_READ | PROT_WRITE) != 0)) {
        perror("memory");
        exit(2);
    }
    r.bytes = (uint8_t *)r.map + unit + inner - size;
    return r;
}

/* Lets the memory be read and no longer written. */
static void seal(struct range r) {
    size_t unit = (size_t)sysconf(_SC_PAGESIZE);
    if (r.map_size > 2 * unit && mprotect((uint8_t *)r.map + unit, r.map_size - 2 * unit, PROT_READ) != 0) {
        perror("memory");
        exit(2);
    }
}

static void give_back(struct range r) { munmap(r.map, r.map_size); }

static struct range lend_copy(const void *bytes, size_t size) {
    struct range r = lend(size);
    if (size > 0)
        memcpy(r.bytes, bytes, size);
    seal(r);
    return r;
}

/* ---- calls ---- */

/* A function of the border: what is said of its answer, the size of what it lays into its room, how much room it asks for, counted in these, how many numbers
 * it tells, of which the second and third are the page and the place of a refusal, and the size of such a number. */
struct function {
    const char *name;
    uint32_t (*call)(const uint8_t *, size_t, const size_t *, size_t, const size_t *, size_t, uint8_t *, size_t, void *);
    size_t unit, room, told, wide;
};

static uint32_t list(const uint8_t *buffer, size_t size, const size_t *starts, size_t starts_count, const size_t *lens, size_t lens_count, uint8_t *out,
                     size_t room, void *told) {
    return tollgilt_list(buffer, size, starts, starts_count, lens, lens_count, out, room, told);
}

static uint32_t fresh(const uint8_t *buffer, size_t size, const size_t *starts, size_t starts_count, const size_t *lens, size_t lens_count, uint8_t *out,
                      size_t room, void *told) {
    return tollgilt_fresh(buffer, size, starts, starts_count, lens, lens_count, out, room, told);
}

/* The package number that is looked for. */
static uint32_t asked = 2394428;

static uint32_t find(const uint8_t *buffer, size_t size, const size_t *starts, size_t starts_count, const size_t *lens, size_t lens_count, uint8_t *out,
                     size_t room, void *told) {
    return tollgilt_find(buffer, size, starts, starts_count, lens, lens_count, asked, (uint32_t *)(void *)out, room, told);
}

/* The cell that is asked for, and the catalogue's text for it. */
struct question {
    size_t row;
    uint32_t field;
    size_t which;
    const char *catalogue;
};
static const struct question first_name = {1, TOLLGILT_NAME, 0, "Katalog"};
static struct question question = {1, TOLLGILT_NAME, 0, "Katalog"};

static uint32_t cell(const uint8_t *buffer, size_t size, const size_t *starts, size_t starts_count, const size_t *lens, size_t lens_count, uint8_t *out,
                     size_t room, void *told) {
    struct range c = lend_copy(question.catalogue, strlen(question.catalogue));
    uint32_t number = tollgilt_cell(buffer, size, starts, starts_count, lens, lens_count, c.bytes, strlen(question.catalogue), question.row, question.field, question.which,
                                    out, room, told);
    give_back(c);
    return number;
}

enum { LIST, FRESH, FIND, CELL, FUNCTIONS, TOLD = 12 };

static const struct function functions[FUNCTIONS] = {
    [LIST] = {"listed", list, 1, TOLLGILT_LISTING_ROOM, 3, sizeof(uint32_t)},
    [FRESH] = {"afresh", fresh, 1, TOLLGILT_PAGE_ROOM, TOLD, sizeof(uint32_t)},
    [FIND] = {"found", find, sizeof(uint32_t), TOLLGILT_ROWS, 3, sizeof(uint32_t)},
    [CELL] = {"in a cell", cell, 1, TOLLGILT_CELL_ROOM, 7, sizeof(size_t)},
};

struct answer {
    uint32_t number;
    size_t told[TOLD];
    int rest_untouched;
    uint8_t laid[TOLLGILT_LISTING_ROOM];
};

/* The numbers that a function tells, and 0 behind them. */
static void read_told(const struct function *f, const void *lent, size_t *told) {
    memset(told, 0, TOLD * sizeof *told);
    for (size_t i = 0; i < f->told; i++) {
        const uint8_t *at = (const uint8_t *)lent + i * f->wide;
        uint32_t narrow;
        if (f->wide == sizeof narrow)
            memcpy(&narrow, at, sizeof narrow), told[i] = narrow;
        else
            memcpy(&told[i], at, sizeof *told);
    }
}

/* How many bytes were laid into the room: the length of a listing, of all fresh pages together, of the numbers of rows, or of a cell's text. */
static size_t laid(const struct function *f, const size_t *told) {
    size_t length = 0;
    if (f != &functions[FRESH])
        return told[0] * f->unit;
    for (size_t i = 3; i < f->told; i++)
        length += told[i];
    return length;
}

/* A call whose ranges are all lent as said above; `refused` says that its room is read-only too. The room holds `poison` before. */
static struct answer call(const struct function *f, const uint8_t *buffer, size_t size, const size_t *starts, size_t starts_count, const size_t *lens,
                          size_t lens_count, size_t room, uint8_t poison, int refused) {
    struct range b = lend_copy(buffer, size);
    struct range s = lend_copy(starts, starts_count * sizeof *starts);
    struct range l = lend_copy(lens, lens_count * sizeof *lens);
    struct range o = lend(room * f->unit);
    struct range t = lend(f->told * f->wide);
    static struct answer a;
    memset(o.bytes, poison, room * f->unit);
    memset(t.bytes, 0xA5, f->told * f->wide);
    if (refused)
        seal(o);
    a.number = f->call(b.bytes, size, (const size_t *)(void *)s.bytes, starts_count, (const size_t *)(void *)l.bytes, lens_count, o.bytes, room, t.bytes);
    read_told(f, t.bytes, a.told);
    size_t length = laid(f, a.told) <= room * f->unit ? laid(f, a.told) : 0;
    memcpy(a.laid, o.bytes, length <= sizeof a.laid ? length : 0);
    a.rest_untouched = 1;
    for (size_t i = length; i < room * f->unit; i++)
        a.rest_untouched &= o.bytes[i] == poison;
    give_back(b), give_back(s), give_back(l), give_back(o), give_back(t);
    return a;
}

static void fact_of(const struct function *f, const char *name, int holds) {
    char both[200];
    snprintf(both, sizeof both, "%s, %s", name, f->name);
    fact(both, holds);
}

/* The function refuses the call with these numbers, and its room, which lacks so many bytes or numbers of what it asks for, is untouched. */
static void refused_by(const struct function *f, const char *name, const uint8_t *buffer, size_t size, const size_t *starts, size_t starts_count,
                       const size_t *lens, size_t lens_count, size_t lack, uint32_t number, uint32_t page, uint32_t place) {
    size_t room = lack < f->room ? f->room - lack : 0;
    struct answer a = call(f, buffer, size, starts, starts_count, lens, lens_count, room, 0xA5, 1);
    size_t told[TOLD] = {0, page, place};
    int same = a.number == number && memcmp(a.told, told, sizeof told) == 0;
    if (!same)
        printf("%s: %u, page %zu, place %zu, first number %zu\n", name, (unsigned)a.number, a.told[1], a.told[2], a.told[0]);
    fact_of(f, name, same && a.rest_untouched);
}

/* Each function refuses the call so. */
static void refused_call(const char *name, const uint8_t *buffer, size_t size, const size_t *starts, size_t starts_count, const size_t *lens,
                         size_t lens_count, size_t lack, uint32_t number, uint32_t page, uint32_t place) {
    for (size_t f = 0; f < FUNCTIONS; f++)
        refused_by(&functions[f], name, buffer, size, starts, starts_count, lens, lens_count, lack, number, page, place);
}

/* ---- sheets ---- */

enum { MOST = 12 };

/* Pages one behind the other. */
struct sheets {
    uint8_t buffer[MOST * 2000];
    size_t size, count, starts[MOST], lens[MOST];
};

static void add_bytes(struct sheets *set, const void *bytes, size_t length) {
    memcpy(set->buffer + set->size, bytes, length);
    set->starts[set->count] = set->size;
    set->lens[set->count++] = length;
    set->size += length;
}

/* Adds page a of z of the plan of this person, with these bytes behind the head, and blanks behind it up to so many bytes. Without blanks, and with fresh
 * bytes behind the head, the page is a fresh one. */
static void add(struct sheets *set, const char *person, int a, int z, const char *rest, size_t filled) {
    char page[2000];
    int length = snprintf(page, sizeof page,
                          "<MP v=\"027\" U=\"00112233445566778899AABBCCDDEEFF\" l=\"de-DE\" a=\"%d\" z=\"%d\"><P g=\"%s\" f=\"Kern\" b=\"19510704\"/>"
                          "<A n=\"Praxis Holm\" t=\"2023-03-01T09:30:00\"/>%s</MP>",
                          a, z, person, rest);
    size_t whole = (size_t)length > filled ? (size_t)length : filled;
    memset(page + length, ' ', whole - (size_t)length);
    add_bytes(set, page, whole);
}

static void refused_sheets(const char *name, const struct sheets *set, uint32_t number, uint32_t page, uint32_t place) {
    refused_call(name, set->buffer, set->size, set->starts, set->count, set->lens, set->count, 0, number, page, place);
}

/* For the sheets the function tells these numbers and lays these bytes, in rooms of several sizes and contents, which are untouched behind them. */
static void answered_by(const struct function *f, const char *name, const struct sheets *set, const size_t *told, const void *bytes) {
    const size_t rooms[] = {f->room, f->room + 1, 3 * f->room};
    for (size_t i = 0; i < 6; i++) {
        struct answer a = call(f, set->buffer, set->size, set->starts, set->count, set->lens, set->count, rooms[i / 2], i % 2 ? 0xA5 : 0, 0);
        int same = a.number == 0 && memcmp(a.told, told, f->told * sizeof *told) == 0 && memcmp(a.laid, bytes, laid(f, told)) == 0;
        fact_of(f, name, same && a.rest_untouched);
    }
}

/* The number is in so many rows of the sheets' plan, which are these. */
static void found_rows(const char *name, const struct sheets *set, uint32_t number, size_t held, const uint32_t *rows) {
    size_t told[3] = {held};
    asked = number;
    answered_by(&functions[FIND], name, set, told, rows);
    asked = 2394428;
}

/* The cell of the sheets' plan shows this text, from this source, marked so, and so many characters were left out. */
static void shown_cell(const char *name, const struct sheets *set, struct question at, const char *text, size_t source, size_t zero, size_t left_out) {
    size_t told[7] = {strlen(text), 0, 0, source, left_out > 0, zero, left_out};
    question = at;
    answered_by(&functions[CELL], name, set, told, text);
    question = first_name;
}

/* The sheets' plan has no such cell. */
static void no_cell(const char *name, const struct sheets *set, struct question at) {
    question = at;
    refused_by(&functions[CELL], name, set->buffer, set->size, set->starts, set->count, set->lens, set->count, 0, 1, 0, 0);
    question = first_name;
}

/* The sheets give these lines and these fresh pages, and in no row but this the number that is looked for, in none where it is 0; that row alone is a medication,
 * and has no name. */
static void answered_sheets(const char *name, const struct sheets *set, const char *lines, const struct sheets *pages, uint32_t row) {
    size_t listed[3] = {strlen(lines)}, told[TOLD] = {pages->count};
    struct question unnamed = {row, TOLLGILT_NAME, 0, "Katalog"};
    found_rows(name, set, asked, row > 0, &row);
    if (row > 0)
        shown_cell(name, set, unnamed, "Katalog", TOLLGILT_FROM_CATALOGUE, 0, 0);
    else
        no_cell(name, set, first_name);
    for (size_t i = 0; i < pages->count; i++)
        told[3 + i] = pages->lens[i];
    answered_by(&functions[LIST], name, set, listed, lines);
    answered_by(&functions[FRESH], name, set, told, pages->buffer);
}

#define HEAD_LINES \
    "MP.v=027\nMP.U=00112233445566778899AABBCCDDEEFF\nMP.l=de-DE\nMP.P.g=Ida\nMP.P.f=Kern\nMP.P.b=19510704\nMP.A.n=Praxis Holm\nMP.A.t=2023-03-01T09:30:00\n"

/* ---- the facts ---- */

static void plans(void) {
    static const char example[] =
        "<MP v=\"027\" U=\"00112233445566778899AABBCCDDEEFF\"><P g=\"Ida\" f=\"Kern\" b=\"19510704\"/><A n=\"Praxis Holm\" t=\"2023-03-01T09:30:00\"/>"
        "<S c=\"412\"><M v=\"0,5\" m='1' d=\"0\" p=\"02394428\"/></S></MP>";
    struct sheets one = {0}, nine = {0}, back = {0}, spread = {0}, pages = {0};
    add_bytes(&one, example, sizeof example - 1);
    add(&pages, "Ida", 1, 1, "<S c=\"412\"><M p=\"2394428\" m=\"1\" v=\"0,5\"/></S>", 0);
    answered_sheets("the paper's example", &one, HEAD_LINES "row=H\nMP.S.c=412\nrow=M\nMP.S.M.p=2394428\nMP.S.M.m=1\nMP.S.M.v=0,5\nrows=2\n", &pages, 2);

    char lines[1000] = HEAD_LINES, rows[1000] = "<S>";
    for (int a = 1; a <= 9; a++) {
        char row[50];
        snprintf(row, sizeof row, "<S><X t=\"Zeile %d\"/></S>", a);
        add(&nine, "Ida", a, 9, row, TOLLGILT_PAGE_BYTES);
        snprintf(lines + strlen(lines), sizeof lines - strlen(lines), "row=X\nMP.S.X.t=Zeile %d\n", a);
        snprintf(rows + strlen(rows), sizeof rows - strlen(rows), "<X t=\"Zeile %d\"/>", a);
    }
    strcat(lines, "rows=9\n");
    strcat(rows, "</S>");
    pages = (struct sheets){0}, add(&pages, "Ida", 1, 1, rows, 0);
    fact("nine full pages fill the most that pages can", nine.size == 9 * TOLLGILT_PAGE_BYTES);
    answered_sheets("nine full pages", &nine, lines, &pages, 0);

    back = nine;
    for (int i = 0; i < 9; i++)
        back.starts[i] = nine.starts[8 - i];
    answered_sheets("nine full pages in the other order", &back, lines, &pages, 0);

    memset(spread.buffer, '<', sizeof spread.buffer);
    for (int i = 0; i < 9; i++) {
        spread.starts[i] = (size_t)(8 - i) * 1500 + 77;
        spread.lens[i] = nine.lens[i];
        memcpy(spread.buffer + spread.starts[i], nine.buffer + nine.starts[i], nine.lens[i]);
    }
    spread.count = 9, spread.size = 9 * 1500 + 100;
    answered_sheets("pages that lie apart in their buffer, other bytes between them", &spread, lines, &pages, 0);
}

/* The rows that hold a number, of plans in which some do and all do. */
static void found(void) {
    struct sheets set = {0};
    const uint32_t both[] = {2, 5}, one[] = {4};
    uint32_t all[TOLLGILT_ROWS];
    add(&set, "Ida", 2, 2, "<S><M p=\"02394428\" m=\"1\"/><R t=\"02394428\"/></S>", 0);
    add(&set, "Ida", 1, 2, "<S c=\"412\"><M p=\"2394428\"/><M a=\"2394428\"/><M p=\"00230272\"/></S>", 0);
    found_rows("rows of two pages, handed in the other way round", &set, 2394428, 2, both);
    found_rows("another number of the plan", &set, 230272, 1, one);
    found_rows("a number with a wrong check digit", &set, 2394429, 0, one);
    found_rows("the number 0", &set, 0, 0, one);
    found_rows("the largest number", &set, UINT32_MAX, 0, one);
    found_rows("a number of nine digits whose last eight are on the plan", &set, 102394428, 0, one);

    char rows[1300] = "<S>";
    for (int i = 0; i < 64; i++)
        strcat(rows, "<M p=\"2394428\"/>");
    strcat(rows, "</S>");
    set = (struct sheets){0};
    for (int a = 1; a <= 4; a++)
        add(&set, "Ida", a, 4, rows, 0);
    for (uint32_t i = 0; i < TOLLGILT_ROWS; i++)
        all[i] = i + 1;
    found_rows("256 rows, which all hold the number", &set, 2394428, TOLLGILT_ROWS, all);
    found_rows("256 rows, of which none does", &set, 230272, 0, one);
}

/* A text of a catalogue that is so long: letters, with blanks at two places. */
static const char *letters(size_t length, size_t blank, size_t other) {
    static char text[2000];
    memset(text, 'a', length);
    text[blank] = text[other] = ' ';
    text[length] = 0;
    return text;
}

/* So many bytes of the catalogue's text are shown in this cell. */
static void cut_cell(const char *name, const struct sheets *set, uint32_t field, const char *catalogue, size_t length) {
    struct question at = {2, field, 2, catalogue};
    char text[TOLLGILT_CELL_ROOM + 1] = {0};
    memcpy(text, catalogue, length);
    shown_cell(name, set, at, text, TOLLGILT_FROM_CATALOGUE, 0, strlen(catalogue) - length);
}

/* Cells of a plan of two pages: a heading, a medication with its number and a time alone, a note, and a medication with texts of its own as long as they can be. */
static void cells(void) {
    struct sheets set = {0};
    char own[500], name[51] = {0}, substance[81] = {0};
    memset(name, 'n', 50), memset(substance, 's', 80);
    snprintf(own, sizeof own,
             "<S><X t=\"x\"/><M p=\"2394428\" a=\"%s\" fd=\"Tropfen\" t=\"morgens oder abends1\">"
             "<W w=\"%s\" s=\"sssssssssssssss\"/><W w=\"zwei\" s=\"2 g\"/><W w=\"drei\"/></M></S>",
             name, substance);
    add(&set, "Ida", 2, 2, own, 0);
    add(&set, "Ida", 1, 2, "<S c=\"412\"><M p=\"2394428\" f=\"TAB\" v=\"1/2\"/></S>", 0);
    const char *long_text = letters(1999, 0, 1);
    const struct {
        const char *name;
        struct question at;
        const char *text;
        size_t source, zero;
    } facts[] = {
        {"the plan's own name", {4, TOLLGILT_NAME, 0, long_text}, name, TOLLGILT_FROM_PLAN, 0},
        {"the plan's own form", {4, TOLLGILT_FORM, SIZE_MAX, long_text}, "Tropfen", TOLLGILT_FROM_PLAN, 0},
        {"the plan's own substance", {4, TOLLGILT_SUBSTANCE, 1, long_text}, substance, TOLLGILT_FROM_PLAN, 0},
        {"the plan's own strength", {4, TOLLGILT_STRENGTH, 1, ""}, "sssssssssssssss", TOLLGILT_FROM_PLAN, 0},
        {"its second substance", {4, TOLLGILT_SUBSTANCE, 2, ""}, "zwei", TOLLGILT_FROM_PLAN, 0},
        {"the strength of that", {4, TOLLGILT_STRENGTH, 2, "Katalog"}, "2 g", TOLLGILT_FROM_PLAN, 0},
        {"its third substance", {4, TOLLGILT_SUBSTANCE, 3, "Katalog"}, "drei", TOLLGILT_FROM_PLAN, 0},
        {"a strength that the plan has not", {4, TOLLGILT_STRENGTH, 3, "3 g"}, "3 g", TOLLGILT_FROM_CATALOGUE, 0},
        {"a strength that neither has", {4, TOLLGILT_STRENGTH, 3, ""}, "", TOLLGILT_FROM_NEITHER, 0},
        {"a form that the plan has as a code", {2, TOLLGILT_FORM, 0, "Tabl"}, "Tabl", TOLLGILT_FROM_CATALOGUE, 0},
        {"a code alone", {2, TOLLGILT_FORM, 0, ""}, "", TOLLGILT_FROM_NEITHER, 0},
        {"a free text dose", {4, TOLLGILT_FREE_DOSE, 0, long_text}, "morgens oder abends1", TOLLGILT_FROM_PLAN, 0},
        {"a time beside it", {4, TOLLGILT_MORNING, 0, "2"}, "", TOLLGILT_FROM_NEITHER, 0},
        {"a time of day", {2, TOLLGILT_EVENING, 0, "2"}, "1/2", TOLLGILT_FROM_PLAN, 0},
        {"an absent time in the morning", {2, TOLLGILT_MORNING, 0, "2"}, "", TOLLGILT_FROM_NEITHER, 1},
        {"an absent time at midday", {2, TOLLGILT_MIDDAY, 0, "2"}, "", TOLLGILT_FROM_NEITHER, 1},
        {"an absent time at night", {2, TOLLGILT_NIGHT, 4, long_text}, "", TOLLGILT_FROM_NEITHER, 1},
        {"no free text dose", {2, TOLLGILT_FREE_DOSE, 0, "2"}, "", TOLLGILT_FROM_NEITHER, 0},
    };
    for (size_t i = 0; i < sizeof facts / sizeof *facts; i++)
        shown_cell(facts[i].name, &set, facts[i].at, facts[i].text, facts[i].source, facts[i].zero, 0);

    const struct {
        uint32_t field;
        size_t limit;
    } limits[] = {{TOLLGILT_NAME, 50}, {TOLLGILT_SUBSTANCE, 80}, {TOLLGILT_STRENGTH, 15}, {TOLLGILT_FORM, 7}};
    for (size_t i = 0; i < sizeof limits / sizeof *limits; i++) {
        uint32_t field = limits[i].field;
        size_t n = limits[i].limit, ten = n < 15 ? 1 : n - 13;
        cut_cell("a text as long as its cell", &set, field, letters(n, 0, n - 4), n);
        cut_cell("a byte more, no blank but the first byte", &set, field, letters(n + 1, 0, 0), n - 3);
        cut_cell("a blank before the last ten bytes, or none", &set, field, letters(n + 1, 0, ten - 1), n - 3);
        cut_cell("a blank that is the first of the last ten bytes", &set, field, letters(n + 1, 0, ten), ten);
        cut_cell("a blank that is the last of them", &set, field, letters(n + 20, ten, n - 4), n - 4);
        cut_cell("a blank behind them", &set, field, letters(1999, 0, n - 3), n - 3);
        cut_cell("a blank behind them, and one among them", &set, field, letters(1999, ten, n - 3), ten);
    }
    no_cell("row 0", &set, (struct question){0, TOLLGILT_NAME, 0, "Katalog"});
    no_cell("a heading", &set, (struct question){1, TOLLGILT_NAME, 0, "Katalog"});
    no_cell("a note", &set, (struct question){3, TOLLGILT_NAME, 0, "Katalog"});
    no_cell("a row behind the last", &set, (struct question){5, TOLLGILT_NAME, 0, "Katalog"});
    no_cell("the largest row", &set, (struct question){SIZE_MAX, TOLLGILT_NAME, 0, "Katalog"});
    no_cell("a row whose lowest 32 bits are a medication's", &set, (struct question){SIZE_MAX / UINT32_MAX + 1, TOLLGILT_NAME, 0, "Katalog"});
    const uint32_t fields[] = {0, 10, 256 + TOLLGILT_NAME, UINT32_MAX};
    for (size_t i = 0; i < 4; i++)
        no_cell("no such field", &set, (struct question){2, fields[i], 1, "Katalog"});
    const size_t none[] = {0, 4, SIZE_MAX};
    for (size_t i = 0; i < 6; i++)
        no_cell("none of three", &set, (struct question){2, i % 2 ? TOLLGILT_SUBSTANCE : TOLLGILT_STRENGTH, none[i / 2], "Katalog"});
}

/* A catalogue's text of more bytes than 32 bits can count, all of them 0: so many characters are left out. */
static void long_catalogue(void) {
    struct sheets set = {0};
    size_t size = SIZE_MAX > UINT32_MAX ? (size_t)UINT32_MAX + 100 : 1 << 20, told[7];
    uint8_t out[TOLLGILT_CELL_ROOM];
    const uint8_t *text = mmap(NULL, size, PROT_READ, MAP_PRIVATE | MAP_ANONYMOUS | MAP_NORESERVE, -1, 0);
    add(&set, "Ida", 1, 1, "<S><M p=\"2394428\"/></S>", 0);
    memset(out, 0xA5, sizeof out);
    uint32_t number = text == MAP_FAILED ? UINT32_MAX
                                         : tollgilt_cell(set.buffer, set.size, set.starts, 1, set.lens, 1, text, size, 1, TOLLGILT_NAME, 0, out, sizeof out, told);
    fact("a long catalogue is answered", number == 0 && told[0] == 47 && told[3] == TOLLGILT_FROM_CATALOGUE && told[4] == 1);
    fact("how much of it is left out", number == 0 && told[6] == size - 47);
    fact("its first 47 bytes are laid, and no more", out[46] == 0 && out[47] == 0xA5);
    munmap((void *)(uintptr_t)text, size);
}

/* Five notes of 200 bytes, of which the first ones are this mark: on a fresh page no sixth note of this length fits. */
static void notes(char *rest, size_t size, char quote, char mark) {
    char note[201];
    memset(note, 'a', 200), memset(note, mark, 40), note[200] = 0;
    snprintf(rest, size, "<S>");
    for (int i = 0; i < 5; i++)
        snprintf(rest + strlen(rest), size - strlen(rest), "<X t=%c%s%c/>", quote, note, quote);
    snprintf(rest + strlen(rest), size - strlen(rest), "</S>");
}

/* Nine fresh pages give themselves, in any order. With quote marks, which grow to six bytes, the notes do not fit on nine. */
static void nine_fresh(void) {
    struct sheets pages = {0}, quoted = {0};
    size_t told[TOLD] = {9};
    char rest[1400];
    notes(rest, sizeof rest, '"', 'a');
    for (int a = 1; a <= 9; a++) {
        add(&pages, "Ida", a, 9, rest, 0);
        told[2 + a] = pages.lens[a - 1];
    }
    struct sheets back = pages;
    for (int i = 0; i < 9; i++)
        back.starts[i] = pages.starts[8 - i];
    answered_by(&functions[FRESH], "nine fresh pages", &pages, told, pages.buffer);
    answered_by(&functions[FRESH], "nine fresh pages in the other order", &back, told, pages.buffer);

    notes(rest, sizeof rest, '\'', '"');
    for (int a = 1; a <= 9; a++)
        add(&quoted, "Ida", a, 9, rest, 0);
    refused_by(&functions[FRESH], "14: of 45 notes with quote marks three fit on a page", quoted.buffer, quoted.size, quoted.starts, 9, quoted.lens, 9, 0, 14, 0,
               28);
}

static void refusals(void) {
    struct sheets set = {0};
    refused_sheets("1: no page", &set, 1, 0, 0);
    for (int a = 1; a <= 9; a++)
        add(&set, "Ida", a, 9, "", 0);
    add(&set, "Ida", 9, 9, "", 0);
    refused_sheets("1: ten pages", &set, 1, 0, 0);

    set = (struct sheets){0}, add(&set, "Ida", 1, 2, "", 0), add_bytes(&set, "", 0);
    refused_sheets("2: an empty page", &set, 2, 2, 0);
    set = (struct sheets){0}, add(&set, "Ida", 1, 1, "", 1401);
    refused_sheets("2: a page of 1,401 bytes", &set, 2, 1, 0);
    set = (struct sheets){0}, add(&set, "Ida", 1, 2, "", 0), add(&set, "I\x80", 2, 2, "", 0);
    refused_sheets("3: a byte that is not allowed", &set, 3, 2, 78);
    set = (struct sheets){0}, add_bytes(&set, "<MP v='027'", 11);
    refused_sheets("4: a page that ends too early", &set, 4, 1, 11);
    set = (struct sheets){0}, add_bytes(&set, "<MP><P</MP>", 11);
    refused_sheets("4: a page that is malformed", &set, 4, 1, 6);
    set = (struct sheets){0}, add(&set, "Ida", 1, 1, "<S/><O/>", 0);
    refused_sheets("5: an element behind a later one", &set, 5, 1, 153);
    set = (struct sheets){0}, add_bytes(&set, " <MP v='026'/>", 14);
    refused_sheets("6: another edition", &set, 6, 1, 1);
    set = (struct sheets){0}, add(&set, "Ida", 1, 1, "<S><M p=\"2394429\"/></S>", 0);
    refused_sheets("7: a wrong check digit", &set, 7, 1, 152);
    set = (struct sheets){0}, add(&set, "Ida", 1, 1, "<S><M a=\"A\" m=\"0\" t=\"1\"/></S>", 0);
    refused_sheets("8: two fields that exclude each other", &set, 8, 1, 152);
    set = (struct sheets){0}, add(&set, "Ida", 1, 3, "", 0), add(&set, "Ida", 2, 3, "", 0), add(&set, "Eva", 3, 3, "", 0);
    refused_sheets("9: a page of another person", &set, 9, 3, 0);
    set = (struct sheets){0}, add(&set, "Ida", 2, 3, "", 0), add(&set, "Ida", 2, 3, "", 0);
    refused_sheets("10: a page number twice", &set, 10, 2, 0);
    set = (struct sheets){0}, add(&set, "Ida", 9, 9, "", 0), add(&set, "Ida", 1, 9, "", 0);
    refused_sheets("11: pages missing", &set, 11, 2, 0);

    char rows[1300] = "<S>";
    for (int i = 0; i < 86; i++)
        strcat(rows, "<X t=\"1\"/>");
    strcat(rows, "</S>");
    set = (struct sheets){0};
    for (int a = 1; a <= 3; a++)
        add(&set, "Ida", a, 3, rows, 0);
    refused_sheets("12: 258 rows", &set, 12, 0, 0);
}

/* One page of 5 bytes, which would be refused with 6, and numbers at and beyond each edge. */
static void numbers(void) {
    static const uint8_t page[] = "<MP/>";
    const size_t most = SIZE_MAX, half = SIZE_MAX / 2 + 1;
    static const size_t zeros[300], fives[300] = {5, 5, 5, 5, 5, 5, 5, 5, 5, 5};
    const struct {
        const char *name;
        size_t start, length;
        uint32_t number, page, place;
    } edges[] = {
        {"the page is the buffer", 0, 5, 6, 1, 0},
        {"one byte beyond the buffer", 1, 5, 1, 0, 0},
        {"a length one beyond the buffer", 0, 6, 1, 0, 0},
        {"an empty page at the end of the buffer", 5, 0, 2, 1, 0},
        {"an empty page behind the buffer", 6, 0, 1, 0, 0},
        {"an empty page at the largest start", most, 0, 1, 0, 0},
        {"the largest start, length 1", most, 1, 1, 0, 0},
        {"the largest start, and a sum of 4", most, 5, 1, 0, 0},
        {"a start near the largest, and a sum of 0", most - 4, 5, 1, 0, 0},
        {"the largest start and length", most, most, 1, 0, 0},
        {"start 1 and the largest length", 1, most, 1, 0, 0},
        {"start 5 and a sum of 5", 5, most, 1, 0, 0},
        {"two halves, a sum of 0", half, half, 1, 0, 0},
        {"two halves, a sum of 1", half + 1, half, 1, 0, 0},
    };
    for (size_t i = 0; i < sizeof edges / sizeof *edges; i++)
        refused_call(edges[i].name, page, 5, &edges[i].start, 1, &edges[i].length, 1, 0, edges[i].number, edges[i].page, edges[i].place);

    size_t starts[2] = {0, 6}, lens[2] = {5, 5};
    refused_call("a bad second page comes before a bad first one", page, 5, starts, 2, lens, 2, 0, 1, 0, 0);
    refused_call("two starts and one length", page, 5, zeros, 2, fives, 1, 0, 1, 0, 0);
    refused_call("one start and two lengths", page, 5, zeros, 1, fives, 2, 0, 1, 0, 0);
    refused_call("a start and no length", page, 5, zeros, 1, fives, 0, 0, 1, 0, 0);
    refused_call("no start and a length", page, 5, zeros, 0, fives, 1, 0, 1, 0, 0);
    refused_call("ten pages", page, 5, zeros, 10, fives, 10, 0, 1, 0, 0);
    refused_call("257 pages", page, 5, zeros, 257, zeros, 257, 0, 1, 0, 0);
    refused_call("the same bytes as nine pages", page, 5, zeros, 9, fives, 9, 0, 6, 1, 0);
    refused_call("a room one byte or number too small", page, 5, zeros, 1, fives, 1, 1, 1, 0, 0);
    refused_call("a room of one byte, or another function's, or none", page, 5, zeros, 1, fives, 1, TOLLGILT_PAGE_ROOM - 1, 1, 0, 0);
    refused_call("no room", page, 5, zeros, 1, fives, 1, TOLLGILT_LISTING_ROOM, 1, 0, 0);
}

/* A room one byte or number too small for pages that are a plan. */
static void small_rooms(void) {
    struct sheets set = {0};
    add(&set, "Ida", 1, 1, "<S><M p=\"2394428\"/></S>", 0);
    refused_call("a plan and a room one byte or number too small", set.buffer, set.size, set.starts, 1, set.lens, 1, 1, 1, 0, 0);
    refused_call("a plan and no room", set.buffer, set.size, set.starts, 1, set.lens, 1, TOLLGILT_LISTING_ROOM, 1, 0, 0);
}

/* Empty slices at addresses where there is no memory, as an empty Vec has them. */
static void dangling(const struct function *f) {
    static uint32_t numbers[TOLLGILT_LISTING_ROOM / sizeof(uint32_t)];
    uint8_t *out = (uint8_t *)numbers, *no_bytes = (uint8_t *)(uintptr_t)1, *no_room = (uint8_t *)(uintptr_t)f->unit;
    size_t *no_numbers = (size_t *)(uintptr_t)sizeof(size_t);
    size_t zero = 0;
    size_t lent[TOLD], told[TOLD], none[TOLD] = {0}, page_one[TOLD] = {0, 1};
    memset(lent, 7, sizeof lent);
    fact_of(f, "nothing at all is refused with 1", f->call(no_bytes, 0, no_numbers, 0, no_numbers, 0, no_room, 0, lent) == 1);
    read_told(f, lent, told);
    fact_of(f, "its numbers are 0", memcmp(told, none, sizeof told) == 0);
    fact_of(f, "no page in no buffer is refused with 1", f->call(no_bytes, 0, no_numbers, 0, no_numbers, 0, out, f->room, lent) == 1);
    fact_of(f, "an empty page in no buffer is refused with 2", f->call(no_bytes, 0, &zero, 1, &zero, 1, out, f->room, lent) == 2);
    read_told(f, lent, told);
    fact_of(f, "it is page 1", memcmp(told, page_one, sizeof told) == 0);
}

/* Where the person's name begins in a page that `add` makes, and what stands before it in a listing and on a fresh page. */
enum { PERSON = 77 };
static const char *const before_person[FUNCTIONS] = {[LIST] = "MP.P.g=", [FRESH] = "<P g=\""};

enum { THREADS = 4, TIMES = 500 };

static pthread_barrier_t together;

/* Whether an answer is that of the plan of this person, a digit: a listing or fresh pages in which the digit stands, or as many rows between the first and the
 * one that holds the number, or the digit as the name in the first row. */
static int of_person(size_t function, const uint8_t *out, const size_t *told, uint8_t person) {
    if (function == FIND)
        return told[0] == 1 && *(const uint32_t *)(const void *)out == (uint32_t)(person - '0') + 2;
    if (function == CELL)
        return told[0] == 1 && out[0] == person;
    const char *before = before_person[function];
    const uint8_t *found = memmem(out, laid(&functions[function], told), before, strlen(before));
    return found != NULL && found[strlen(before)] == person;
}

/* Lists one plan, writes it afresh, finds a number in it and shows a cell again and again, beside the other threads, and gives how often the answer was its own. */
static void *answers(void *one) {
    const struct sheets *set = one;
    uint8_t *out = malloc(TOLLGILT_LISTING_ROOM);
    size_t right = 0;
    pthread_barrier_wait(&together);
    for (int i = 0; i < TIMES; i++) {
        const struct function *f = &functions[i % FUNCTIONS];
        size_t lent[TOLD], told[TOLD];
        uint32_t number = f->call(set->buffer, set->size, set->starts, set->count, set->lens, set->count, out, f->room, lent);
        read_told(f, lent, told);
        right += number == 0 && of_person(i % FUNCTIONS, out, told, set->buffer[PERSON]);
    }
    free(out);
    return (void *)right;
}

static void threads(void) {
    static struct sheets sets[THREADS];
    pthread_t running[THREADS];
    pthread_barrier_init(&together, NULL, THREADS);
    for (int i = 0; i < THREADS; i++) {
        char person[2] = {(char)('0' + i), 0};
        char rest[100];
        snprintf(rest, sizeof rest, "<S><M a=\"%s\"/>", person);
        for (int before = 0; before < i; before++)
            strcat(rest, "<X t=\"x\"/>");
        strcat(rest, "<M p=\"2394428\"/></S>");
        add(&sets[i], person, 1, 1, rest, TOLLGILT_PAGE_BYTES);
        pthread_create(&running[i], NULL, answers, &sets[i]);
    }
    for (int i = 0; i < THREADS; i++) {
        void *right;
        pthread_join(running[i], &right);
        fact("a thread among others gets its own answers", (size_t)right == TIMES);
    }
}

int main(void) {
    plans();
    found();
    cells();
    long_catalogue();
    nine_fresh();
    refusals();
    numbers();
    small_rooms();
    for (size_t f = 0; f < FUNCTIONS; f++)
        dangling(&functions[f]);
    threads();
    printf("%d passed, %d failed\n", passed, failed);
    return failed != 0;
}
