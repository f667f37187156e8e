/* Checks a task file with the proved library: check [FILE], or standard input.
 *
 * Prints that the file is accepted, and of each channel with a claim the claim and
 * the verdict; or the refusal, with its line and what it means. Exit status: 0
 * accepted, 1 refused, 2 bad usage or a file that cannot be read. All memory is
 * static. */
#include <stdio.h>
#include <string.h>

#include "dispenser.h"

/* One byte more than a file may have: load tells a longer one by it, and one that is
 * not too long ends in a byte 0. */
static uint8_t file[DISPENSER_FILE_MAX + 1];
static uint8_t store[DISPENSER_STORE_SIZE];

static const char *yes_or_no(int word)
{
    return word ? "yes" : "no";
}

static int refused(uint64_t answer)
{
    int number = dispenser_refusal(answer);
    unsigned line = dispenser_line(answer);
    printf("refused %d", number);
    if (line > 0)
        printf(" at line %u", line);
    printf(": %s\n", dispenser_text(number));
    return 1;
}

/* Loads and judges the file, and prints what is found. */
static int check(size_t length)
{
    uint64_t answer = dispenser_load(file, length, store, sizeof store);
    if (!dispenser_accepted(answer))
        return refused(answer);
    answer = dispenser_judge(store, sizeof store);
    if (!dispenser_accepted(answer))
        return refused(answer);
    printf("accepted, claims that hold: %u\n", dispenser_claims_held(answer));

    /* The file is well-formed, or load had refused it: a claim is a line of its own. */
    const char *at = (const char *)file;
    while ((at = strstr(at, "\n[claim ")) != NULL) {
        unsigned row;
        char word[16];
        if (sscanf(++at, "[claim %u %15[a-z-]", &row, word) != 2)
            return 2;
        uint64_t verdict = dispenser_verdict(store, sizeof store, row);
        if (!dispenser_accepted(verdict))
            return refused(verdict);
        printf("channel %u, claimed %s: one-shot %s, one-to-one %s, fan-out %s, fan-in %s, "
               "one-sync %s\n",
               row, word, yes_or_no(dispenser_one_shot(verdict)),
               yes_or_no(dispenser_one_to_one(verdict)), yes_or_no(dispenser_fan_out(verdict)),
               yes_or_no(dispenser_fan_in(verdict)), yes_or_no(dispenser_one_sync(verdict)));
    }
    return 0;
}

int main(int count, char **words)
{
    if (count > 2) {
        fprintf(stderr, "usage: check [FILE]\n");
        return 2;
    }
    FILE *from = count == 2 ? fopen(words[1], "rb") : stdin;
    size_t length = from ? fread(file, 1, sizeof file, from) : 0;
    if (!from || ferror(from)) {
        perror(count == 2 ? words[1] : "standard input");
        return 2;
    }
    int status = check(length);
    if (fflush(stdout) != 0) {
        perror("standard output");
        return 2;
    }
    return status;
}
