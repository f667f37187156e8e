/* Takes answers apart, each a number on the command line, and prints of each what
 * every function of the header says of it. */
#include <stdio.h>
#include <stdlib.h>

#include "dispenser.h"

int main(int count, char **words) {
    for (int at = 1; at < count; at++) {
        uint64_t a = strtoull(words[at], NULL, 10);
        printf("accepted %d refusal %d line %u", dispenser_accepted(a), dispenser_refusal(a),
               dispenser_line(a));
        printf(" rows %u flows %u comms %u claims %u", dispenser_rows(a), dispenser_flows(a),
               dispenser_comms(a), dispenser_claims(a));
        printf(" held %u", dispenser_claims_held(a));
        printf(" words %d%d%d%d%d", dispenser_one_shot(a), dispenser_one_to_one(a),
               dispenser_fan_out(a), dispenser_fan_in(a), dispenser_one_sync(a));
        printf(" written %zu threads %u\n", dispenser_written(a), dispenser_threads_in_use(a));
    }
    return 0;
}
