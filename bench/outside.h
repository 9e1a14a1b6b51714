/* What the programs for other algebra systems share: the formulas, the readings, the clock and the table. C and C++. */
#ifndef OUTSIDE_H
#define OUTSIDE_H

#include <stdio.h>
#include <stdlib.h>
#include <string.h>
#include <time.h>

#include "reeveboom.h"

enum { ROUNDS = 15, BATCH_NANOSECONDS = 30000, MOST_LINE = 2048 };

/* A line of the formulas: a formula, and the variable and the typed sum of its pair. */
typedef struct {
    const char *name, *text, *put;
    int variable;
} Line;

/* The readings and tolerances of bench.c. */
static inline int reading(int v) { return v % 2 ? -(3 + v) : 3 + v; }
static inline int tolerance(int v) { return (void)v, 1; }

static inline int read_line(char *buffer, FILE *file, Line *line) {
    while (fgets(buffer, MOST_LINE, file)) {
        if (buffer[0] == '#' || buffer[0] == '\n') continue;
        line->name = strtok(buffer, " \n");
        line->text = strtok(NULL, " \n");
        char *pair = strtok(NULL, " \n");
        if (!pair || strlen(pair) < 4) exit(1);
        line->variable = pair[0] - 'a';
        line->put = pair + 3;
        return 1;
    }
    return 0;
}

static inline double nanoseconds(void) {
    struct timespec now;
    clock_gettime(CLOCK_MONOTONIC, &now);
    return (double)now.tv_sec * 1e9 + (double)now.tv_nsec;
}

static inline double time_batch(void (*call)(void), long calls) {
    double start = nanoseconds();
    for (long i = 0; i < calls; i++) call();
    return nanoseconds() - start;
}

static inline int by_size(const void *a, const void *b) {
    double x = *(const double *)a, y = *(const double *)b;
    return (x > y) - (x < y);
}

/* Nanoseconds for one call: the median of the rounds, with batches as in bench.c. */
static inline double measure(void (*call)(void)) {
    double times[ROUNDS], taken = time_batch(call, 1);
    long calls = 1;
    for (; taken < BATCH_NANOSECONDS / 2; taken = time_batch(call, calls)) calls *= 2;
    for (int round = 0; round < ROUNDS; round++) times[round] = time_batch(call, calls) / (double)calls;
    qsort(times, ROUNDS, sizeof *times, by_size);
    return times[ROUNDS / 2];
}

/* An operation that a system has too: its name in the table, and a call of it on the line at hand. */
typedef struct {
    const char *name;
    void (*call)(void);
} Timed;

static inline void print_head(const char *system, const Timed *timed, int count) {
    printf("\n%s, nanoseconds\n%-14s%8s", system, "", "terms");
    for (int i = 0; i < count; i++) printf("%14s", timed[i].name);
    printf("\n");
}

static inline void print_times(const char *name, long terms, const Timed *timed, int count) {
    printf("%-14s%8ld", name, terms);
    for (int i = 0; i < count; i++) printf("%14.1f", measure(timed[i].call));
    printf("\n");
}

#endif
