/* How much of its thread's stack a call uses. A thread gets a stack filled with a pattern; what no longer has the pattern afterwards, from where the call
 * was made, was used. It prints the most that was seen over plans and refusals of many kinds; last line: N passed, M failed. */
#define _GNU_SOURCE
#include <pthread.h>
#include <stdio.h>
#include <stdlib.h>
#include <string.h>
#include <sys/mman.h>

#include "tollgilt.h"

enum { STACK = 4 << 20, PROMISED = 256 << 10, PATTERN = 0x5C, ROOM = 9 * TOLLGILT_PAGE_BYTES };

static uint8_t buffer[ROOM], out[TOLLGILT_LISTING_ROOM];
static uint32_t list[TOLLGILT_ROWS];
static size_t starts[9], lens[9], pages;
static uint32_t number, told[12];
static uint8_t *top;

/* A function of the border, and the most of the stack that it was seen to use. */
struct function {
    const char *name;
    uint32_t (*call)(const uint8_t *, size_t, const size_t *, size_t, const size_t *, size_t, uint8_t *, size_t, uint32_t *);
    size_t most;
};

/* Finds a package number, in a list of its own. */
static uint32_t find(const uint8_t *bytes, size_t size, const size_t *first, size_t first_count, const size_t *lengths, size_t lengths_count, uint8_t *room, size_t room_size,
                     uint32_t *numbers) {
    (void)room, (void)room_size;
    return tollgilt_find(bytes, size, first, first_count, lengths, lengths_count, 2394428, list, TOLLGILT_ROWS, numbers);
}

/* Shows the name in the second row, the first being a heading, with a catalogue's text that is cut, and tells numbers of its own. */
static uint32_t cell(const uint8_t *bytes, size_t size, const size_t *first, size_t first_count, const size_t *lengths, size_t lengths_count, uint8_t *room, size_t room_size,
                     uint32_t *numbers) {
    static const uint8_t catalogue[] = "METOPROLOLSUCCINAT MUSTER 95 mg/12,5 mg Retardtabl.";
    static size_t wide[7];
    (void)numbers;
    return tollgilt_cell(bytes, size, first, first_count, lengths, lengths_count, catalogue, sizeof catalogue - 1, 2, TOLLGILT_NAME, 0, room, room_size, wide);
}

enum { LIST, FRESH, FIND, CELL, FUNCTIONS };

static struct function functions[FUNCTIONS] = {
    [LIST] = {"tollgilt_list", tollgilt_list, 0}, [FRESH] = {"tollgilt_fresh", tollgilt_fresh, 0}, [FIND] = {"tollgilt_find", find, 0}, [CELL] = {"tollgilt_cell", cell, 0}};

static void *call(void *function) {
    uint8_t here;
    top = &here;
    number = ((struct function *)function)->call(buffer, sizeof buffer, starts, pages, lens, pages, out, sizeof out, told);
    return NULL;
}

/* Bytes of the stack that a call of the function on the pages uses. */
static size_t used(struct function *f) {
    uint8_t *stack = mmap(NULL, STACK, PROT_READ | PROT_WRITE, MAP_PRIVATE | MAP_ANONYMOUS | MAP_STACK, -1, 0);
    pthread_attr_t own;
    pthread_t thread;
    if (stack == MAP_FAILED)
        abort();
    memset(stack, PATTERN, STACK);
    pthread_attr_init(&own);
    if (pthread_attr_setstack(&own, stack, STACK) != 0 || pthread_create(&thread, &own, call, f) != 0 || pthread_join(thread, NULL) != 0)
        abort();
    size_t at = 0;
    while (stack[at] == PATTERN)
        at++;
    size_t deep = (size_t)(top - (stack + at));
    munmap(stack, STACK);
    return deep;
}

/* Page a of z, 1,400 bytes long, filled with rows of this kind. */
static void page(size_t a, size_t z, const char *row) {
    char *text = (char *)buffer + (a - 1) * TOLLGILT_PAGE_BYTES;
    int length = snprintf(text, TOLLGILT_PAGE_BYTES,
                          "<MP v=\"027\" U=\"00112233445566778899AABBCCDDEEFF\" a=\"%zu\" z=\"%zu\"><P g=\"Ida\" f=\"Kern\" b=\"19510704\" s=\"X\" egk=\"A123456789\"/>"
                          "<A lanr=\"123456789\" n=\"Praxis Holm\" t=\"2023-03-01T09:30:00\"/><O ai=\"Pollen\" w=\"81\" h=\"171\" x=\"a~b~c\"/><S c=\"412\">",
                          a, z);
    size_t end = (size_t)length;
    while (end + strlen(row) + strlen("</S></MP>") <= TOLLGILT_PAGE_BYTES && strlen(row) > 0) {
        memcpy(text + end, row, strlen(row));
        end += strlen(row);
    }
    memcpy(text + end, "</S></MP>", strlen("</S></MP>"));
    end += strlen("</S></MP>");
    memset(text + end, ' ', TOLLGILT_PAGE_BYTES - end);
}

static int passed, failed;

/* Each function's call on nine full pages of rows of this kind gets its number, that of fresh pages or of the others, where a row that is no medication has no
 * cell, and stays within what the header promises. */
static void stay(const char *name, const char *row, size_t z, uint32_t listed, uint32_t fresh) {
    const uint32_t no_cell = listed == 0 && strncmp(row, "<M", 2) != 0;
    const uint32_t answers[FUNCTIONS] = {[LIST] = listed, [FRESH] = fresh, [FIND] = listed, [CELL] = no_cell ? TOLLGILT_NO_ROOM : listed};
    for (size_t a = 1; a <= 9; a++)
        page(a, z, row);
    for (size_t i = 0; i < FUNCTIONS; i++) {
        struct function *f = &functions[i];
        size_t deep = used(f);
        if (deep > f->most)
            f->most = deep;
        if (number == answers[i] && deep < PROMISED) {
            passed++;
        } else {
            failed++;
            printf("FAILED: %s, %s: answer %u, %zu bytes of stack\n", name, f->name, (unsigned)number, deep);
        }
    }
}

int main(void) {
    pages = 9;
    for (size_t i = 0; i < 9; i++)
        starts[i] = i * TOLLGILT_PAGE_BYTES, lens[i] = TOLLGILT_PAGE_BYTES;
    stay("medications with three substances", "<M p=\"2394428\" m=\"1\" d=\"1/2\" v=\"0,5\" h=\"2\" du=\"1\" i=\"&lt;&#38;&quot;\"><W w=\"a\" s=\"b\"/><W w=\"c\"/><W w=\"d\"/></M>", 9, 0, 0);
    stay("long notes", "<X t=\"&amp;&#x41;&quot;&gt;&lt;&apos;aaaaaaaaaaaaaaaaaaaaaaaaaaaaaaaaaaaaaaaaaaaaaaaaaaaaa~aaaaaaaaaaaaaaaaaaaaaaaaaaaaaaaaaaaaa\"/>", 9, 0, 0);
    stay("free text doses and recipes", "<M a=\"x\" t=\"nach Bedarf\" dud=\"Stueck\" r=\"Husten und Schnupfen, wenn er nicht weicht\"/><R t=\"y\" x=\"z\"/>", 9, 0, 0);
    stay("notes that grow", "<X t='\"\"\"\"\"\"\"\"\"\"\"\"\"\"\"\"\"\"\"\"\"\"\"\"\"\"\"\"\"\"\"\"\"\"\"\"\"\"\"\"'/>", 9, 0, 14);
    stay("no rows", "", 9, 0, 0);
    stay("more rows than a plan has", "<X t=\"1\"/>", 9, 12, 12);
    stay("a value that breaks its field", "<M p=\"2394429\"/>", 9, 7, 7);
    stay("an unknown element", "<Y/>", 9, 5, 5);
    stay("a page number above the number of pages", "<X t=\"1\"/>", 8, 7, 7);
    stay("elements within elements", "<M a=\"x\"><W w=\"y\"></W></M><S></S>", 9, 5, 5);
    stay("markup that breaks off", "<X t=\"1\"<", 9, 4, 4);
    stay("as many open elements as fit", "<Y>", 9, 4, 4);
    for (size_t i = 0; i < FUNCTIONS; i++)
        printf("the deepest call of %s used %zu bytes of stack\n", functions[i].name, functions[i].most);
    printf("%d passed, %d failed\n", passed, failed);
    return failed != 0;
}
