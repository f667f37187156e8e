/* Loads the file that is standard input, previews and replaces sets of name 4, and
 * makes calls that are refused. Prints of each call its number, what stands above
 * it, and whether a byte of the store, or one of those past it, is then another
 * than before. */
#include <stdio.h>
#include <stdlib.h>
#include <string.h>

#include "dispenser.h"

enum { SPARE = 16 };

static uint8_t *store, *before;
static size_t size;

static void tell(const char *call, uint64_t answer) {
    int same = memcmp(before, store, size + SPARE) == 0;
    printf("%s %d %llx %s\n", call, dispenser_refusal(answer),
           (unsigned long long)(answer >> 8), same ? "same" : "altered");
    memcpy(before, store, size + SPARE);
}

static void preview(size_t name, uint8_t unit, const uint8_t *rows, size_t length) {
    tell("preview", dispenser_preview(store, size + SPARE, name, unit, rows, length));
}

static void replace(size_t name, uint8_t unit, const uint8_t *rows, size_t length) {
    tell("replace", dispenser_replace(store, size + SPARE, name, unit, rows, length));
}

int main(void) {
    static uint8_t file[DISPENSER_FILE_MAX + 1];
    static const uint8_t rows[] = {1, 3, 6}, falling[] = {3, 1}, absent[] = {200};
    size_t length = fread(file, 1, sizeof file, stdin);
    size = dispenser_store_size();
    store = malloc(size + SPARE);
    before = malloc(size + SPARE);
    if (!store || !before) return 2;
    memset(store, 0xa7, size + SPARE);
    if (!dispenser_accepted(dispenser_load(file, length, store, size))) return 1;
    memcpy(before, store, size + SPARE);

    preview(4, 1, rows, 3);
    preview(4, 0, rows, 0);
    preview(4, 2, rows, 0);
    replace(4, 255, rows, 2);
    tell("judge", dispenser_judge(store, size));
    replace(4, 0, rows, 0);
    tell("judge", dispenser_judge(store, size));
    replace(4, 1, rows, 0);
    tell("judge", dispenser_judge(store, size));

    replace(7, 1, falling, 2);
    preview(7, 1, falling, 2);
    preview(SIZE_MAX, 1, rows, 3);
    replace(4, 1, falling, 2);
    preview(4, 1, falling, 2);
    replace(4, 0, absent, 1);
    tell("short", dispenser_replace(store, size - 1, 4, 1, rows, 3));
    tell("short", dispenser_preview(store, size - 1, 4, 1, rows, 3));
    memset(store, 0, size);
    memcpy(before, store, size);
    replace(4, 1, rows, 3);
    preview(4, 1, rows, 3);
    free(before);
    free(store);
    return 0;
}
