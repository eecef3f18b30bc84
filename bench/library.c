/* library FILE ROUNDS: the processor seconds of nt6861_run on the words of a file, the best of the rounds, answers in memory that was written to before. */
#define _DEFAULT_SOURCE
#include <stdio.h>
#include <stdlib.h>
#include <time.h>

#include "nt6861.h"

static uint32_t words[4000000], answers[4000000];

int main(int count, char **given)
{
    uint8_t chip[NT6861_AREA];
    FILE *file = count == 3 ? fopen(given[1], "rb") : NULL;
    double best = 1e9;
    size_t n;

    if (!file)
        return 2;
    n = fread(words, 4, sizeof words / sizeof *words, file);
    fclose(file);
    for (int round = atoi(given[2]); round > 0; round--) {
        struct timespec from, to;
        double seconds;

        nt6861_fresh(chip, sizeof chip);
        clock_gettime(CLOCK_PROCESS_CPUTIME_ID, &from);
        if (nt6861_run(chip, sizeof chip, words, n, answers, n) != NT6861_DONE)
            return 1;
        clock_gettime(CLOCK_PROCESS_CPUTIME_ID, &to);
        seconds = (double)(to.tv_sec - from.tv_sec) + (double)(to.tv_nsec - from.tv_nsec) / 1e9;
        if (seconds < best)
            best = seconds;
    }
    printf("%.6f\n", best);
    return 0;
}
