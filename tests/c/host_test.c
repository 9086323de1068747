/* Asks the three functions of citternblaze_host.h about bundles, and prints a line for each: a name, the refusal, the cells, the edges.
 * Each input lies right before a page that may not be read, so that a read past its end would stop the program. */
#define _DEFAULT_SOURCE
#include "citternblaze_host.h"

#include <stdio.h>
#include <stdlib.h>
#include <string.h>
#include <sys/mman.h>
#include <unistd.h>

#define MANY 5000

static const uint8_t cell[] = {10, 0, 1, 0, 0, 0, 1, 0, 2, 0, 3, 0};
static const uint8_t edge[] = {7, 0, 2, 0, 0, 0, 1, 0, 5};
static const uint8_t wide[] = {8, 0, 4, 0, 0, 0, 2, 0, 0, 1};
static const uint8_t narrow[] = {8, 0, 4, 0, 0, 0, 2, 0, 255, 0};
static const uint8_t look[] = {8, 0, 5, 0, 0, 0, 1, 0, 0, 1};
static const uint8_t turned[] = {8, 0, 5, 0, 1, 0, 0, 0, 0, 1};
static const uint8_t end[] = {2, 0, 3, 0};

static uint8_t input[MANY * sizeof cell + sizeof end];
static size_t used;

static void add(const uint8_t *bytes, size_t length)
{
    memcpy(input + used, bytes, length);
    used += length;
}

static void ask(const char *name, const uint8_t *bytes, size_t length)
{
    printf("%s: refusal %lu, cells %llu, edges %llu\n", name,
           (unsigned long)citternblaze_bundle_refusal(bytes, length),
           (unsigned long long)citternblaze_bundle_cells(bytes, length),
           (unsigned long long)citternblaze_bundle_edges(bytes, length));
}

/* Asks about the first `length` bytes of the input, copied to the end of readable memory. */
static void ask_guarded(const char *name, size_t length)
{
    size_t page = (size_t)sysconf(_SC_PAGESIZE);
    size_t pages = length / page + 1;
    uint8_t *memory = mmap(NULL, (pages + 1) * page, PROT_READ | PROT_WRITE, MAP_PRIVATE | MAP_ANONYMOUS, -1, 0);
    if (memory == MAP_FAILED || mprotect(memory + pages * page, page, PROT_NONE) != 0) {
        perror("host_test");
        exit(1);
    }
    uint8_t *bytes = memory + pages * page - length;
    memcpy(bytes, input, length);
    ask(name, bytes, length);
    munmap(memory, (pages + 1) * page);
}

int main(void)
{
    ask("NULL", NULL, 0);
    ask_guarded("empty", 0);

    used = 0;
    add(end, sizeof end);
    ask_guarded("end only", used);

    used = 0;
    add(cell, sizeof cell);
    add(cell, sizeof cell);
    add(edge, sizeof edge);
    add(wide, sizeof wide);
    add(end, sizeof end);
    ask_guarded("good", used);
    for (size_t length = 1; length < used; length++) {
        char name[32];
        snprintf(name, sizeof name, "cut to %zu", length);
        ask_guarded(name, length);
    }

    input[used++] = 0;
    ask_guarded("overlong by a byte", used);
    used--;
    add(end, sizeof end);
    ask_guarded("overlong by an end", used);

    used = 0;
    add(edge, sizeof edge);
    add(cell, sizeof cell);
    add(end, sizeof end);
    ask_guarded("cell after edge", used);

    used = 0;
    add(wide, sizeof wide);
    add(cell, sizeof cell);
    add(end, sizeof end);
    ask_guarded("cell after edge of kind 4", used);

    used = 0;
    add(cell, sizeof cell);
    add(wide, sizeof wide);
    add(edge, sizeof edge);
    add(wide, sizeof wide);
    add(end, sizeof end);
    ask_guarded("kinds 2 and 4", used);

    used = 0;
    add(cell, sizeof cell);
    add(narrow, sizeof narrow);
    add(end, sizeof end);
    ask_guarded("kind 4 with 255", used);

    used = 0;
    add(cell, sizeof cell);
    add(edge, sizeof edge);
    add(wide, sizeof wide);
    add(look, sizeof look);
    add(look, sizeof look);
    add(end, sizeof end);
    ask_guarded("looks", used);

    used = 0;
    add(cell, sizeof cell);
    add(edge, sizeof edge);
    add(look, sizeof look);
    add(turned, sizeof turned);
    ask_guarded("look for no edge, no end", used);
    add(end, sizeof end);
    ask_guarded("look for no edge", used);
    input[used++] = 0;
    ask_guarded("look for no edge, a byte after the end", used);

    used = 0;
    add(look, sizeof look);
    add(edge, sizeof edge);
    add(end, sizeof end);
    ask_guarded("look before its edge", used);

    used = 0;
    add(edge, sizeof edge);
    add(end, sizeof end);
    add(look, sizeof look);
    ask_guarded("look after the end", used);

    used = 0;
    add(cell, sizeof cell);
    add(end, sizeof end);
    input[0] = 11;
    ask_guarded("wrong length", used);
    input[0] = 10;
    input[2] = 4;
    ask_guarded("kind 4 with the length of a cell", used);
    input[2] = 0;
    ask_guarded("no kind", used);

    used = 0;
    for (int i = 0; i < MANY; i++)
        add(cell, sizeof cell);
    add(end, sizeof end);
    ask_guarded("many cells", used);

    used = 0;
    add(edge, sizeof edge);
    for (int i = 0; i < MANY; i++)
        add(look, sizeof look);
    add(end, sizeof end);
    ask_guarded("many looks", used);
    return 0;
}
