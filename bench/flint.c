/* Times FLINT's sums (fmpz_mpoly) with the benchmark's formulas: flint FORMULAS.
 *
 * FLINT's integers have no limit and there is no spread, no refusal and no packing, so its times are for orientation. The estimate is three evaluations: the sum
 * at the readings, and the sum of absolute coefficients at the readings without signs and at the raised ones. That second sum is made beforehand.
 */
#define _POSIX_C_SOURCE 200809L
#include <flint/fmpz.h>
#include <flint/fmpz_mpoly.h>

#include "outside.h"

static char names[REEVEBOOM_VARIABLES][2];
static const char *letters[REEVEBOOM_VARIABLES];
static fmpz_mpoly_ctx_t ctx;
static fmpz_mpoly_t sum, signless, result, putting[REEVEBOOM_VARIABLES];
static fmpz_mpoly_struct *put[REEVEBOOM_VARIABLES];
static fmpz numbers[3][REEVEBOOM_VARIABLES], value;
static fmpz *at[3][REEVEBOOM_VARIABLES]; /* the readings, these without signs, the raised ones */
static Line line;

static void text(void) {
    if (fmpz_mpoly_set_str_pretty(sum, line.text, letters, ctx) != 0) exit(1);
}

static void slope(void) { fmpz_mpoly_derivative(result, sum, line.variable, ctx); }

static void substitute(void) {
    if (!fmpz_mpoly_compose_fmpz_mpoly(result, sum, put, ctx, ctx)) exit(1);
}

static void estimate(void) {
    int done = fmpz_mpoly_evaluate_all_fmpz(&value, sum, at[0], ctx);
    for (int i = 1; i < 3; i++) done = done && fmpz_mpoly_evaluate_all_fmpz(&value, signless, at[i], ctx);
    if (!done) exit(1);
}

static const Timed timed[] = { { "text", text }, { "slope", slope }, { "substitute", substitute }, { "estimate", estimate } };

enum { TIMED = sizeof timed / sizeof *timed };

/* Sets up what the operations need for a line. */
static void prepare(void) {
    fmpz_t coefficient;
    text();
    fmpz_init(coefficient);
    fmpz_mpoly_set(signless, sum, ctx);
    for (slong i = 0; i < fmpz_mpoly_length(sum, ctx); i++) {
        fmpz_mpoly_get_term_coeff_fmpz(coefficient, sum, i, ctx);
        fmpz_abs(coefficient, coefficient);
        fmpz_mpoly_set_term_coeff_fmpz(signless, i, coefficient, ctx);
    }
    fmpz_clear(coefficient);
    for (int v = 0; v < REEVEBOOM_VARIABLES; v++) fmpz_mpoly_gen(putting[v], v, ctx);
    if (fmpz_mpoly_set_str_pretty(putting[line.variable], line.put, letters, ctx) != 0) exit(1);
}

static void set_up(void) {
    fmpz_mpoly_ctx_init(ctx, REEVEBOOM_VARIABLES, ORD_DEGLEX);
    fmpz_mpoly_init(sum, ctx);
    fmpz_mpoly_init(signless, ctx);
    fmpz_mpoly_init(result, ctx);
    fmpz_init(&value);
    for (int v = 0; v < REEVEBOOM_VARIABLES; v++) {
        int size = reading(v) < 0 ? -reading(v) : reading(v);
        names[v][0] = (char)('a' + v);
        letters[v] = names[v];
        fmpz_mpoly_init(putting[v], ctx);
        put[v] = putting[v];
        for (int i = 0; i < 3; i++) {
            fmpz_init_set_si(&numbers[i][v], i == 0 ? reading(v) : i == 1 ? size : size + tolerance(v));
            at[i][v] = &numbers[i][v];
        }
    }
}

int main(int argc, char **argv) {
    char buffer[MOST_LINE];
    FILE *file = argc == 2 ? fopen(argv[1], "r") : NULL;
    if (!file) return 2;
    set_up();
    print_head("FLINT " FLINT_VERSION, timed, TIMED);
    while (read_line(buffer, file, &line)) {
        prepare();
        print_times(line.name, (long)fmpz_mpoly_length(sum, ctx), timed, TIMED);
    }
    fclose(file);
    return 0;
}
