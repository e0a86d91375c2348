/* Prints what a call takes, in microseconds: the least and the median of many.
 *
 *   clock COMMAND SOURCE [BESIDE] [NUMBER] */
#define _POSIX_C_SOURCE 199309L
#include "calls.h"

#include <stdio.h>
#include <stdlib.h>
#include <time.h>

#define CALLS 1001
#define ROOM (1 << 25)

static double now(void) {
    struct timespec time;
    clock_gettime(CLOCK_MONOTONIC, &time);
    return (double)time.tv_sec * 1e6 + (double)time.tv_nsec / 1e3;
}

static int compare(const void *one, const void *other) {
    double a = *(const double *)one, b = *(const double *)other;
    return (a > b) - (a < b);
}

int main(int count, char **words) {
    static unsigned char out[ROOM], err[4096];
    static double taken[CALLS];
    struct texts texts = read_texts(count - 1, words + 1);
    struct buffers buffers = {out, sizeof out, err, sizeof err};
    struct rcap_answer answer;
    for (int i = 0; i < CALLS; i++) {
        double begun = now();
        call(words[1], &texts, &buffers, &answer);
        taken[i] = now() - begun;
    }
    qsort(taken, CALLS, sizeof *taken, compare);
    printf("%.1f %.1f\n", taken[0], taken[CALLS / 2]);
    free(texts.source);
    free(texts.beside);
    return 0;
}
