/* Loads the file that is standard input and runs its program to the end: in each
 * round every thread moves, if it can, and every two threads meet that can. Prints
 * each move that is accepted, a thread or SENDER+RECEIVER, and in the end the row
 * of each thread. */
#include <stdio.h>
#include <stdlib.h>

#include "dispenser.h"

int main(void) {
    static uint8_t file[DISPENSER_FILE_MAX + 1];
    size_t length = fread(file, 1, sizeof file, stdin);
    size_t store_size = dispenser_store_size();
    size_t run_size = dispenser_run_size();
    uint8_t *store = malloc(store_size);
    uint8_t *run = malloc(run_size);
    struct dispenser_thread threads[DISPENSER_THREADS];
    if (!store || !run) return 2;
    for (size_t at = 0; at < run_size; at++) run[at] = (uint8_t)(at * 7 + 1);

    uint64_t answer = dispenser_load(file, length, store, store_size);
    if (dispenser_accepted(answer))
        answer = dispenser_begin(store, store_size, run, run_size, threads,
                                 DISPENSER_THREADS);
    if (!dispenser_accepted(answer)) {
        printf("refused %d\n", dispenser_refusal(answer));
        return 1;
    }
    size_t count = dispenser_threads_in_use(answer);
    int moved = 1;
    while (moved) {
        moved = 0;
        for (size_t one = 0; one < count; one++) {
            answer = dispenser_move(store, store_size, run, run_size, threads,
                                    DISPENSER_THREADS, one);
            if (dispenser_accepted(answer)) {
                count = dispenser_threads_in_use(answer);
                printf("%zu\n", one);
                moved = 1;
            } else if (dispenser_refusal(answer) != DISPENSER_MOVE_NOT_ALLOWED) {
                printf("refused %d\n", dispenser_refusal(answer));
                return 1;
            }
            for (size_t other = 0; other < count; other++) {
                answer = dispenser_meet(store, store_size, run, run_size,
                                        threads, DISPENSER_THREADS, one, other);
                if (dispenser_accepted(answer)) {
                    printf("%zu+%zu\n", one, other);
                    moved = 1;
                }
            }
        }
    }
    for (size_t one = 0; one < count; one++)
        printf("thread %zu at row %d\n", one, threads[one].row);
    free(run);
    free(store);
    return 0;
}
