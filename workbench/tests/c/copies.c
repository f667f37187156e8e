/* Loads the file that is standard input and copies the store to every place of
 * sixteen, and so to odd addresses. Prints how many answers of the copies are those
 * of the store, and how many are not. */
#include <stdio.h>
#include <string.h>

#include "dispenser.h"

enum { PLACES = 16, SIZE = DISPENSER_STORE_SIZE };

static uint8_t file[DISPENSER_FILE_MAX + 1], store[SIZE], room[SIZE + PLACES];
static uint8_t text[DISPENSER_FILE_MAX], other[DISPENSER_FILE_MAX];
static int same, different;

static void compare(int equal) {
    if (equal)
        same++;
    else
        different++;
}

int main(void) {
    static uint8_t inferred_store[SIZE];
    size_t length = fread(file, 1, sizeof file, stdin);
    uint64_t answer = dispenser_load(file, length, store, SIZE);
    unsigned rows = dispenser_rows(answer);
    memcpy(inferred_store, store, SIZE);
    uint64_t inferred = dispenser_infer(inferred_store, SIZE);
    for (int place = 0; place < PLACES; place++) {
        uint8_t *copy = room + place;
        memcpy(copy, store, SIZE);
        compare(dispenser_judge(copy, SIZE) == dispenser_judge(store, SIZE));
        for (unsigned row = 0; row < rows; row++)
            compare(dispenser_verdict(copy, SIZE, row) == dispenser_verdict(store, SIZE, row));
        compare(dispenser_preview(copy, SIZE, 0, 0, NULL, 0) ==
                dispenser_preview(store, SIZE, 0, 0, NULL, 0));
        compare(dispenser_write(copy, SIZE, text, sizeof text) ==
                dispenser_write(store, SIZE, other, sizeof other));
        compare(memcmp(text, other, sizeof text) == 0);
        compare(memcmp(copy, store, SIZE) == 0);
        compare(dispenser_infer(copy, SIZE) == inferred);
        compare(memcmp(copy, inferred_store, SIZE) == 0);
        compare(dispenser_load(file, length, copy, SIZE) == answer);
        compare(memcmp(copy, store, SIZE) == 0);
    }
    printf("%u rows: %d same, %d different\n", rows, same, different);
    return 0;
}
