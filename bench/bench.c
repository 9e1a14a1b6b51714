/* Times the library beside plain C programs of the same rules, formula by formula and operation by operation: bench FORMULAS.
 * With more words, bench FORMULAS CONTESTANT OPERATION FORMULA CALLS, it only makes so many calls, for bench/count; the three in the middle are counted from 0.
 * bench --operations prints the names of the operations.
 *
 * The contestants are the library, quick (plain.c) and, with -DOTHER, another program (other.h). All of them work in the same areas, which are lent again for
 * every call, as a router would lend them. Before an operation is timed, the contestants' numbers and every byte that they leave are compared: where two
 * differ, the benchmark ends with 1.
 *
 * One batch is as many calls as take some 30 microseconds. In each of the rounds the contestants take turns, one batch each, so that whatever slows the machine
 * down for a while hits all of them; a contestant's time is the median of its rounds.
 *
 * A further operation is a row of ALL_OPERATIONS, and a function that prepares what it is given, if that is not there yet.
 */
#define _POSIX_C_SOURCE 200809L
#include <inttypes.h>
#include <math.h>
#include <stdio.h>
#include <stdlib.h>
#include <string.h>
#include <time.h>

#include "rules.h"
#include "plain.h"
#include "reeveboom.h"

#ifdef OTHER
#include "other.h"
#endif

#ifndef BENCH_FLAGS
#define BENCH_FLAGS "not told"
#endif

enum { ROUNDS = 15, BATCH_NANOSECONDS = 30000, MOST_FORMULAS = 100, MOST_LINE = 2048 };

/* A formula, and what the operations are given for it. */
typedef struct {
    char name[32], text[MOST_LINE];
    uint8_t sum[REEVEBOOM_RESULT_BYTES], list[REEVEBOOM_RESULT_BYTES + 2];
    uint64_t patterns[REEVEBOOM_TERM_PLACES];
    int64_t coefficients[REEVEBOOM_TERM_PLACES];
    size_t text_length, sum_length, list_length;
    uint64_t terms, variable;
} Formula;

/* The lent areas. */
typedef struct {
    int64_t table[REEVEBOOM_TABLE_PLACES];
    uint64_t work_patterns[REEVEBOOM_WORK_PLACES];
    int64_t work_coefficients[REEVEBOOM_WORK_PLACES];
    uint64_t patterns[REEVEBOOM_TERM_PLACES];
    int64_t coefficients[REEVEBOOM_TERM_PLACES];
    uint8_t result[REEVEBOOM_RESULT_BYTES], answer[REEVEBOOM_ANSWER_BYTES], text[REEVEBOOM_TEXT_BYTES];
} Areas;

static Formula formulas[MOST_FORMULAS];
static const Formula *f; /* the one that is at hand */
static _Alignas(64) Areas lent, kept;
static uint8_t readings[REEVEBOOM_READING_BYTES], tolerances[REEVEBOOM_READING_BYTES];

static void fail(const char *what, const char *which) {
    fprintf(stderr, "bench: %s: %s\n", what, which);
    exit(1);
}

/* ---- What the operations are given: slices with their lengths, and numbers. */

#define TEXT (const uint8_t *)f->text, f->text_length
#define SUM f->sum, f->sum_length
#define LIST f->list, f->list_length
#define TERMS f->patterns, REEVEBOOM_TERM_PLACES, f->coefficients, REEVEBOOM_TERM_PLACES
#define READINGS readings, REEVEBOOM_READING_BYTES, tolerances, REEVEBOOM_READING_BYTES

#define INTO_TABLE lent.table, REEVEBOOM_TABLE_PLACES
#define INTO_TERMS lent.patterns, REEVEBOOM_TERM_PLACES, lent.coefficients, REEVEBOOM_TERM_PLACES
#define INTO_RESULT lent.result, REEVEBOOM_RESULT_BYTES
#define INTO_ANSWER lent.answer, REEVEBOOM_ANSWER_BYTES
#define INTO_TEXT lent.text, REEVEBOOM_TEXT_BYTES
#define IN_WORK lent.work_patterns, REEVEBOOM_WORK_PLACES, lent.work_coefficients, REEVEBOOM_WORK_PLACES

/* A typed formula as a packed sum. */
static size_t packed(const char *text, uint8_t *result) {
    uint64_t nodes = reeveboom_text((const uint8_t *)text, strlen(text), INTO_TABLE);
    if (reeveboom_refusal(nodes)) fail("no formula", text);
    uint64_t length = reeveboom_simplify(lent.table, NODE_NUMBERS * nodes, result, REEVEBOOM_RESULT_BYTES, IN_WORK);
    if (reeveboom_refusal(length)) fail("refused", text);
    return (size_t)length;
}

/* Prepares an operation for a formula, of which the text and the sum are there. Of its line a variable and the sum that is put for it are left. */
typedef void Prepare(Formula *formula, uint64_t variable, const char *put);

static void prepare_nothing(Formula *formula, uint64_t variable, const char *put) { (void)formula, (void)variable, (void)put; }

static void prepare_terms(Formula *formula, uint64_t variable, const char *put) {
    (void)variable, (void)put;
    formula->terms = reeveboom_unpack(formula->sum, formula->sum_length, formula->patterns, REEVEBOOM_TERM_PLACES, formula->coefficients, REEVEBOOM_TERM_PLACES);
}

static void prepare_variable(Formula *formula, uint64_t variable, const char *put) {
    (void)put;
    formula->variable = variable;
}

static void prepare_list(Formula *formula, uint64_t variable, const char *put) {
    formula->list[0] = 1;
    formula->list[1] = (uint8_t)variable;
    formula->list_length = 2 + packed(put, formula->list + 2);
}

/* ---- The operations, a row each: the name, as a word of C and as it is printed; what prepares it; and a call of it, where C is a contestant. */

#define FIRST_OPERATIONS(ROW, C) \
    ROW(C, text, "text+simplify", prepare_nothing, C##_simplify(lent.table, NODE_NUMBERS * C##_text(TEXT, INTO_TABLE), INTO_RESULT, IN_WORK)) \
    ROW(C, unpack, "unpack", prepare_nothing, C##_unpack(SUM, INTO_TERMS)) \
    ROW(C, pack, "pack", prepare_terms, C##_pack(f->terms, TERMS, INTO_RESULT)) \
    ROW(C, slope, "slope", prepare_variable, C##_slope(SUM, f->variable, INTO_RESULT)) \
    ROW(C, substitute, "substitute", prepare_list, C##_substitute(SUM, LIST, INTO_RESULT, IN_WORK)) \
    ROW(C, estimate, "estimate", prepare_nothing, C##_estimate(SUM, READINGS, INTO_ANSWER))

/* Those that another program (other.h) has to have too stand above, and those that it does not have are further rows here. */
#define ALL_OPERATIONS(ROW, C) \
    FIRST_OPERATIONS(ROW, C) \
    ROW(C, write, "write", prepare_nothing, C##_write(SUM, INTO_TEXT))

#define ROW_NAMES(C, operation, printed, prepare, call) { printed, prepare },

static const struct {
    const char *name;
    Prepare *prepare;
} operations[] = { ALL_OPERATIONS(ROW_NAMES, ) };

enum { OPERATIONS = sizeof operations / sizeof *operations };

/* ---- The contestants. Their batches are written out for each, so that nothing stands between the loop and the call. Each gives the number of its last call. */

typedef uint64_t Batch(long calls);

#define BATCH(C, operation, printed, prepare, call) \
    static uint64_t C##_##operation##_batch(long calls) { \
        uint64_t number = 0; \
        while (calls-- > 0) number = call; \
        return number; \
    }
#define BATCH_NAME(C, operation, printed, prepare, call) C##_##operation##_batch,

ALL_OPERATIONS(BATCH, reeveboom)
ALL_OPERATIONS(BATCH, quick)
#ifdef OTHER
FIRST_OPERATIONS(BATCH, other)
#endif

/* A contestant without an operation has no batch for it. */
static const struct {
    const char *name;
    Batch *batches[OPERATIONS];
} contestants[] = {
    { "library", { ALL_OPERATIONS(BATCH_NAME, reeveboom) } },
    { "quick", { ALL_OPERATIONS(BATCH_NAME, quick) } },
#ifdef OTHER
    { "other", { FIRST_OPERATIONS(BATCH_NAME, other) } },
#endif
};

enum { CONTESTANTS = sizeof contestants / sizeof *contestants };

static int takes_part(int c, int operation) { return contestants[c].batches[operation] != NULL; }

/* Nanoseconds for one call; the library's time over every other's; and the refusal, where the answer is one. Who does not take part has no number there. */
typedef struct {
    double times[CONTESTANTS], ratios[CONTESTANTS];
    unsigned refusal;
} Row;

static Row rows[OPERATIONS][MOST_FORMULAS];

/* ---- The formulas. */

static void read_line(char *line, Formula *formula) {
    const char *name = strtok(line, " \n"), *text = strtok(NULL, " \n"), *pair = strtok(NULL, " \n");
    if (!pair || strlen(name) >= sizeof formula->name || pair[0] < 'a' || pair[0] >= 'a' + VARIABLES || strncmp(pair + 1, ":=", 2) != 0)
        fail("not a line of formulas", name);
    strcpy(formula->name, name);
    strcpy(formula->text, text);
    formula->text_length = strlen(text);
    formula->sum_length = packed(text, formula->sum);
    for (int o = 0; o < OPERATIONS; o++) operations[o].prepare(formula, (uint64_t)(pair[0] - 'a'), pair + 3);
}

static int read_formulas(const char *path) {
    char line[MOST_LINE];
    int count = 0;
    FILE *file = fopen(path, "r");
    if (!file) fail("cannot be read", path);
    while (fgets(line, sizeof line, file)) {
        if (line[0] == '#' || line[0] == '\n') continue;
        if (count == MOST_FORMULAS) fail("too many formulas", path);
        read_line(line, &formulas[count++]);
    }
    fclose(file);
    return count;
}

/* ---- One formula and one operation. */

/* Lets every contestant answer once, in areas that were filled alike, and compares. Gives the library's number. */
static uint64_t compare(int operation) {
    uint64_t expected = 0;
    for (int c = 0; c < CONTESTANTS; c++) {
        if (!takes_part(c, operation)) continue;
        memset(&lent, 0x55, sizeof lent);
        uint64_t number = contestants[c].batches[operation](1);
        if (c == 0) {
            expected = number;
            kept = lent;
        } else if (number != expected || memcmp(&lent, &kept, sizeof lent) != 0) {
            fprintf(stderr, "bench: %s of %s: %s differs from the library\n", operations[operation].name, f->name, contestants[c].name);
            exit(1);
        }
    }
    return expected;
}

static double nanoseconds(void) {
    struct timespec now;
    clock_gettime(CLOCK_MONOTONIC, &now);
    return (double)now.tv_sec * 1e9 + (double)now.tv_nsec;
}

static double time_batch(Batch *batch, long calls) {
    double start = nanoseconds();
    batch(calls);
    return nanoseconds() - start;
}

/* The shortest of three: one that was interrupted would make the batches far too short. */
static double best_time(Batch *batch, long calls) {
    double best = time_batch(batch, calls);
    for (int i = 0; i < 2; i++) {
        double taken = time_batch(batch, calls);
        best = taken < best ? taken : best;
    }
    return best;
}

/* How many calls make a batch. */
static long calibrate(Batch *batch) {
    long calls = 1;
    double taken = best_time(batch, calls);
    while (taken < BATCH_NANOSECONDS / 2) {
        calls *= 2;
        taken = best_time(batch, calls);
    }
    calls = (long)((double)calls * BATCH_NANOSECONDS / taken);
    return calls > 0 ? calls : 1;
}

static int by_size(const void *a, const void *b) {
    double x = *(const double *)a, y = *(const double *)b;
    return (x > y) - (x < y);
}

static double median(double *values, int count) {
    qsort(values, (size_t)count, sizeof *values, by_size);
    return count % 2 ? values[count / 2] : (values[count / 2 - 1] + values[count / 2]) / 2;
}

static void measure(int operation, Row *row) {
    double times[CONTESTANTS][ROUNDS];
    long calls[CONTESTANTS];
    uint64_t number = compare(operation);
    row->refusal = reeveboom_refusal(number);
    for (int c = 0; c < CONTESTANTS; c++) calls[c] = takes_part(c, operation) ? calibrate(contestants[c].batches[operation]) : 0;
    for (int round = 0; round < ROUNDS; round++) {
        for (int turn = 0; turn < CONTESTANTS; turn++) {
            int c = (turn + round) % CONTESTANTS;
            times[c][round] = calls[c] ? time_batch(contestants[c].batches[operation], calls[c]) / (double)calls[c] : NAN;
        }
    }
    for (int c = 0; c < CONTESTANTS; c++) {
        row->times[c] = median(times[c], ROUNDS);
        row->ratios[c] = row->times[0] / row->times[c];
    }
}

/* ---- What is printed. */

static void print_machine(int count) {
    char line[256], when[64];
    time_t now = time(NULL);
    FILE *file = fopen("/proc/cpuinfo", "r");
    strftime(when, sizeof when, "%Y-%m-%d %H:%M UTC", gmtime(&now));
    printf("date      %s\n", when);
    while (file && fgets(line, sizeof line, file)) {
        if (strncmp(line, "model name", 10) != 0) continue;
        printf("CPU      %s", strchr(line, ':') ? strchr(line, ':') + 1 : "\n");
        break;
    }
    if (file) fclose(file);
#ifdef __clang__
    printf("compiler  " __VERSION__ "\n");
#else
    printf("compiler  gcc " __VERSION__ "\n");
#endif
    printf("flags     " BENCH_FLAGS "\n");
    printf("method    %d formulas; medians of %d rounds, with batches of some %d microseconds\n", count, ROUNDS, BATCH_NANOSECONDS / 1000);
    printf("readings ");
    for (int v = 0; v < VARIABLES; v++) printf(" %c=%d", 'a' + v, (int8_t)readings[2 * v]);
    printf(", tolerances 1\n");
}

static void print_head(const char *first) {
    printf("%-14s", first);
    for (int c = 0; c < CONTESTANTS; c++) printf("%12s", contestants[c].name);
    for (int c = 1; c < CONTESTANTS; c++) printf("   library/%-6s", contestants[c].name);
    printf("\n");
}

/* The median ratio and the largest. */
static void ratios_of(int operation, int count, int c, double *middle, double *largest) {
    double ratios[MOST_FORMULAS];
    for (int i = 0; i < count; i++) ratios[i] = rows[operation][i].ratios[c];
    *middle = median(ratios, count);
    *largest = ratios[count - 1];
}

static void print_table(int operation, int count) {
    printf("\n%s, nanoseconds\n", operations[operation].name);
    print_head("");
    for (int i = 0; i < count; i++) {
        const Row *row = &rows[operation][i];
        printf("%-14s", formulas[i].name);
        for (int c = 0; c < CONTESTANTS; c++) printf("%12.1f", row->times[c]);
        for (int c = 1; c < CONTESTANTS; c++) printf("%17.2f", row->ratios[c]);
        if (row->refusal) printf("  refused %u%s", row->refusal, row->refusal == REEVEBOOM_RANGE ? " (RANGE)" : "");
        printf("\n");
    }
    for (int c = 1; c < CONTESTANTS; c++) {
        double middle, largest;
        ratios_of(operation, count, c, &middle, &largest);
        printf("library/%s: median %.2f, largest %.2f\n", contestants[c].name, middle, largest);
    }
}

static void print_summary(int count) {
    printf("\nsummary%8s", "");
    for (int c = 1; c < CONTESTANTS; c++) printf("  library/%-6s median largest", contestants[c].name);
    printf("\n");
    for (int o = 0; o < OPERATIONS; o++) {
        printf("%-15s", operations[o].name);
        for (int c = 1; c < CONTESTANTS; c++) {
            double middle, largest;
            ratios_of(o, count, c, &middle, &largest);
            printf("%23.2f %7.2f", middle, largest);
        }
        printf("\n");
    }
}

/* So many calls of one operation, and nothing else. */
static int only(int count, char **words) {
    int c = atoi(words[0]), operation = atoi(words[1]), formula = atoi(words[2]);
    if (c < 0 || c >= CONTESTANTS || operation < 0 || operation >= OPERATIONS || formula < 0 || formula >= count || !takes_part(c, operation)) return 2;
    f = &formulas[formula];
    contestants[c].batches[operation](atol(words[3]));
    return 0;
}

static void set_readings(void) {
    for (int v = 0; v < VARIABLES; v++) {
        int reading = v % 2 ? -(3 + v) : 3 + v;
        readings[2 * v] = (uint8_t)(reading & 255);
        readings[2 * v + 1] = (uint8_t)(reading >> 8 & 255);
        tolerances[2 * v] = 1;
    }
}

int main(int argc, char **argv) {
    if (argc != 2 && argc != 6) {
        fprintf(stderr, "usage: bench FORMULAS [CONTESTANT OPERATION FORMULA CALLS] | bench --operations\n");
        return 2;
    }
    if (strcmp(argv[1], "--operations") == 0) {
        for (int o = 0; o < OPERATIONS; o++) printf("%s\n", operations[o].name);
        return 0;
    }
    int count = read_formulas(argv[1]);
    if (count == 0) fail("no formulas", argv[1]);
    set_readings();
    if (argc == 6) return only(count, argv + 2);
    print_machine(count);
    for (int o = 0; o < OPERATIONS; o++) {
        for (int i = 0; i < count; i++) {
            f = &formulas[i];
            measure(o, &rows[o][i]);
        }
        print_table(o, count);
        fflush(stdout);
    }
    print_summary(count);
    return 0;
}
