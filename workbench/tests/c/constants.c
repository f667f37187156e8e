/* Prints the header's constants, beside what the library answers where it does, and
 * the text of every number that an answer can begin with. All memory is static. */
#include <stdio.h>

#include "dispenser.h"

static uint8_t file[DISPENSER_FILE_MAX + 1];
static uint8_t store[DISPENSER_STORE_SIZE];
static uint8_t run[DISPENSER_RUN_SIZE];
static uint8_t report[DISPENSER_REPORT_SIZE];
static uint8_t text[DISPENSER_TEXT_MAX];
static struct dispenser_thread threads[DISPENSER_THREADS];

#if DISPENSER_STACK < DISPENSER_STACK_SMALL || DISPENSER_ROWS < 1
#error "the constants are no numbers of the preprocessor"
#endif

int main(void) {
    printf("store %zu %zu\n", sizeof store, dispenser_store_size());
    printf("run %zu %zu\n", sizeof run, dispenser_run_size());
    printf("report %zu %zu\n", sizeof report, dispenser_report_size());
    size_t length = fread(file, 1, sizeof file, stdin);
    printf("load %d\n", dispenser_refusal(dispenser_load(file, length, store, sizeof store)));
    printf("report %d\n", dispenser_refusal(dispenser_report(file, length, store, sizeof store,
                                                             report, sizeof report)));
    printf("write %d\n",
           dispenser_refusal(dispenser_write(store, sizeof store, text, sizeof text)));
    printf("begin %d\n", dispenser_refusal(dispenser_begin(store, sizeof store, run, sizeof run,
                                                           threads, DISPENSER_THREADS)));
    for (int number = -1; number <= 256; number++)
        printf("%d %s\n", number, dispenser_text(number));
    return 0;
}
