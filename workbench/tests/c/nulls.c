/* Calls every function with each choice of its slices empty, once with NULL and once
 * with a pointer to bytes. Prints of each call the refusals, by the choices, and
 * whether an answer or a byte was another with NULL. */
#include <stdio.h>
#include <string.h>

#include "dispenser.h"

/* What is lent; a choice is a sum of these. */
enum { INPUT = 1, STORE = 2, OUT = 4, ROWS = 8, RUN = 16, RECORDS = 32, ALL = 64 };

struct memory {
    uint8_t file[DISPENSER_FILE_MAX + 1], store[DISPENSER_STORE_SIZE];
    uint8_t out[DISPENSER_FILE_MAX], rows[2], run[DISPENSER_RUN_SIZE];
    struct dispenser_thread records[DISPENSER_THREADS];
};

struct lent {
    uint8_t *file, *store, *out, *rows, *run;
    struct dispenser_thread *records;
    size_t file_length, store_length, out_length, rows_length, run_length, records_length;
};

static struct memory begun, with_null, with_pointer;
static size_t length;

static uint64_t load(const struct lent *l) {
    return dispenser_load(l->file, l->file_length, l->store, l->store_length);
}

static uint64_t infer(const struct lent *l) {
    return dispenser_infer(l->store, l->store_length);
}

static uint64_t judge(const struct lent *l) {
    return dispenser_judge(l->store, l->store_length);
}

static uint64_t replace(const struct lent *l) {
    return dispenser_replace(l->store, l->store_length, 4, 0, l->rows, l->rows_length);
}

static uint64_t preview(const struct lent *l) {
    return dispenser_preview(l->store, l->store_length, 4, 1, l->rows, l->rows_length);
}

static uint64_t verdict(const struct lent *l) {
    return dispenser_verdict(l->store, l->store_length, 1);
}

static uint64_t write(const struct lent *l) {
    return dispenser_write(l->store, l->store_length, l->out, l->out_length);
}

static uint64_t report(const struct lent *l) {
    return dispenser_report(l->file, l->file_length, l->store, l->store_length, l->out,
                            l->out_length);
}

static uint64_t begin(const struct lent *l) {
    return dispenser_begin(l->store, l->store_length, l->run, l->run_length, l->records,
                           l->records_length);
}

static uint64_t move(const struct lent *l) {
    return dispenser_move(l->store, l->store_length, l->run, l->run_length, l->records,
                          l->records_length, 0);
}

static uint64_t meet(const struct lent *l) {
    return dispenser_meet(l->store, l->store_length, l->run, l->run_length, l->records,
                          l->records_length, 0, 1);
}

/* Lends a memory, but for what is chosen to be empty. */
static struct lent lend(struct memory *m, int empty, int null) {
    struct lent l = {m->file, m->store, m->out, m->rows, m->run, m->records,
                     length, sizeof m->store, sizeof m->out, sizeof m->rows, sizeof m->run,
                     DISPENSER_THREADS};
    if (empty & INPUT) l.file_length = 0;
    if (empty & STORE) l.store_length = 0;
    if (empty & OUT) l.out_length = 0;
    if (empty & ROWS) l.rows_length = 0;
    if (empty & RUN) l.run_length = 0;
    if (empty & RECORDS) l.records_length = 0;
    if (null && empty & INPUT) l.file = NULL;
    if (null && empty & STORE) l.store = NULL;
    if (null && empty & OUT) l.out = NULL;
    if (null && empty & ROWS) l.rows = NULL;
    if (null && empty & RUN) l.run = NULL;
    if (null && empty & RECORDS) l.records = NULL;
    return l;
}

static void try(const char *name, uint64_t (*call)(const struct lent *), int slices) {
    int differs = 0;
    printf("%s", name);
    for (int empty = 0; empty < ALL; empty++) {
        if (empty & ~slices) continue;
        with_null = with_pointer = begun;
        struct lent null = lend(&with_null, empty, 1), pointer = lend(&with_pointer, empty, 0);
        uint64_t answer = call(&pointer);
        differs |= call(&null) != answer;
        differs |= memcmp(&with_null, &with_pointer, sizeof begun) != 0;
        printf(" %d", dispenser_refusal(answer));
    }
    printf(" %s\n", differs ? "differs" : "same");
}

int main(void) {
    memset(&begun, 0xa7, sizeof begun);
    begun.rows[0] = 3, begun.rows[1] = 6;
    length = fread(begun.file, 1, sizeof begun.file, stdin);
    struct lent all = lend(&begun, 0, 0);
    if (!dispenser_accepted(load(&all)) || !dispenser_accepted(begin(&all))) return 1;
    try("load", load, INPUT | STORE);
    try("infer", infer, STORE);
    try("judge", judge, STORE);
    try("replace", replace, STORE | ROWS);
    try("preview", preview, STORE | ROWS);
    try("verdict", verdict, STORE);
    try("write", write, STORE | OUT);
    try("report", report, INPUT | STORE | OUT);
    try("begin", begin, STORE | RUN | RECORDS);
    try("move", move, STORE | RUN | RECORDS);
    try("meet", meet, STORE | RUN | RECORDS);
    return 0;
}
