/* Loads the file that is standard input, begins a run in 70 records full of other
 * bytes, and makes calls that are refused. Prints each refusal, and whether a byte
 * of the store, the run memory or the records is then another, the byte between
 * the fields of a record included. */
#include <stdio.h>
#include <stdlib.h>
#include <string.h>

#include "dispenser.h"

enum { RECORDS = 70, SPARE = 16 };

static struct dispenser_thread threads[RECORDS], threads_before[RECORDS];
static uint8_t *store, *store_before, *run, *run_before;
static size_t store_size, run_size;

static void keep(void) {
    memcpy(store_before, store, store_size);
    memcpy(run_before, run, run_size + SPARE);
    memcpy(threads_before, threads, sizeof threads);
}

static void tell(const char *call, uint64_t answer) {
    int same = memcmp(store_before, store, store_size) == 0 &&
               memcmp(run_before, run, run_size + SPARE) == 0 &&
               memcmp(threads_before, threads, sizeof threads) == 0;
    printf("%s %d %s\n", call, dispenser_refusal(answer), same ? "same" : "altered");
}

int main(void) {
    static uint8_t file[DISPENSER_FILE_MAX + 1];
    size_t length = fread(file, 1, sizeof file, stdin);
    store_size = dispenser_store_size();
    run_size = dispenser_run_size();
    store = malloc(store_size);
    store_before = malloc(store_size);
    run = malloc(run_size + SPARE);
    run_before = malloc(run_size + SPARE);
    if (!store || !store_before || !run || !run_before) return 2;
    for (size_t at = 0; at < sizeof threads; at++)
        ((uint8_t *)threads)[at] = (uint8_t)(at * 37 + 11);
    memset(run, 0, run_size + SPARE);
    if (!dispenser_accepted(dispenser_load(file, length, store, store_size))) return 1;

    keep();
    tell("not begun", dispenser_move(store, store_size, run, run_size, threads, RECORDS, 0));
    tell("few records", dispenser_begin(store, store_size, run, run_size, threads, 63));
    tell("short run", dispenser_begin(store, store_size, run, run_size - 1, threads, RECORDS));
    tell("short store", dispenser_begin(store, store_size - 1, run, run_size, threads, RECORDS));
    dispenser_begin(store, store_size, run, run_size + SPARE, threads, RECORDS);
    dispenser_move(store, store_size, run, run_size + SPARE, threads, RECORDS, 0);
    keep();
    tell("no such thread", dispenser_move(store, store_size, run, run_size, threads, RECORDS, 1));
    tell("no meeting", dispenser_meet(store, store_size, run, run_size, threads, RECORDS, 0, 0));
    threads[0].cell = 2;
    keep();
    tell("no such cell", dispenser_move(store, store_size, run, run_size, threads, RECORDS, 0));
    free(run_before);
    free(run);
    free(store_before);
    free(store);
    return 0;
}
