/* Loads the file that is standard input and prints of each row that has a verdict
 * its five words, read as the header says, and what stands above them. */
#include <stdio.h>
#include <stdlib.h>

#include "dispenser.h"

int main(void) {
    static uint8_t file[DISPENSER_FILE_MAX + 1];
    static const char *const words[] = {"one-shot", "one-to-one", "fan-out", "fan-in", "one-sync"};
    size_t length = fread(file, 1, sizeof file, stdin);
    size_t size = dispenser_store_size();
    uint8_t *store = malloc(size);
    if (!store) return 2;

    uint64_t answer = dispenser_load(file, length, store, size);
    if (!dispenser_accepted(answer)) return 1;
    size_t rows = dispenser_rows(answer);
    for (size_t row = 0; row < rows; row++) {
        answer = dispenser_verdict(store, size, row);
        if (!dispenser_accepted(answer)) continue;
        printf("row %zu:", row);
        for (int word = 0; word < 5; word++)
            if (answer >> (8 + word) & 1) printf(" %s", words[word]);
        printf(" above %d\n", (int)(answer >> 13));
    }
    free(store);
    return 0;
}
