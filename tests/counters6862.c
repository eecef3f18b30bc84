/* The counters of the NT6862 called from C, by the header: a field of 2,000 periods is 62.5 Hz, and a refusal leaves the numbers. */
#include "nt6861.h"
#include <stdio.h>
#include <string.h>

static int expect(const char *what, int holds) {
    if (!holds)
        printf("counters from C: %s\n", what);
    return holds;
}

int main(void) {
    uint16_t state[12] = {0};
    uint16_t before[12];
    int good = expect("no state yet", nt6862_counters(state, 12, 3, 1) == 8);
    good &= expect("fresh", nt6862_counters(state, 12, 0, 6862) == 0);
    good &= expect("nothing latched", nt6862_field_rate(state, 12) == 0.0);
    good &= expect("2,000 clocks", nt6862_counters(state, 12, 3, 2000) == 0 && state[5] == 2000);
    good &= expect("VSYNCI low", nt6862_counters(state, 12, 2, 0) == 0);
    good &= expect("VSYNCI high", nt6862_counters(state, 12, 2, 1) == 0 && state[8] == 2000 && state[5] == 0);
    good &= expect("62.5 Hz", nt6862_field_rate(state, 12) == 62.5);
    memcpy(before, state, sizeof state);
    good &= expect("a level of 2", nt6862_counters(state, 12, 1, 2) == 3);
    good &= expect("no such call", nt6862_counters(state, 12, 8, 0) == 1);
    good &= expect("no such chip", nt6862_counters(state, 12, 0, 6863) == 23);
    good &= expect("a length of 11", nt6862_counters(state, 11, 3, 1) == 15 && nt6862_field_rate(state, 11) == -15.0);
    good &= expect("the numbers stay", memcmp(before, state, sizeof state) == 0);
    return good ? 0 : 1;
}
