/* Times PARI's polynomials with the benchmark's formulas: pari FORMULAS.
 *
 * PARI nests a polynomial by its variables. Its integers have no limit and there is no spread, no refusal and no packing, so its times are for orientation. The estimate is three evaluations: the sum
 * at the readings, and the sum of absolute coefficients at the readings without signs and at the raised ones. That second sum is made beforehand.
 */
#define _POSIX_C_SOURCE 200809L
#include <pari/pari.h>

#include "outside.h"

static GEN sum, signless, put, numbers[3][REEVEBOOM_VARIABLES]; /* the readings, these without signs, the raised ones */
static long variables[REEVEBOOM_VARIABLES];
static Line line;

/* What an operation makes is thrown away. */
#define THROWN(name, made) \
    static void name(void) { \
        pari_sp before = avma; \
        (void)(made); \
        set_avma(before); \
    }

static GEN value(GEN x, int i) {
    for (int v = 0; v < REEVEBOOM_VARIABLES; v++) x = gsubst(x, variables[v], numbers[i][v]);
    return x;
}

THROWN(text, gp_read_str(line.text))
THROWN(slope, deriv(sum, variables[line.variable]))
THROWN(substitute, gsubst(sum, variables[line.variable], put))
THROWN(estimate, (value(sum, 0), value(signless, 1), value(signless, 2)))

static const Timed timed[] = { { "text", text }, { "slope", slope }, { "substitute", substitute }, { "estimate", estimate } };

enum { TIMED = sizeof timed / sizeof *timed };

/* A polynomial with absolute coefficients, and the number of its terms. */
static GEN without_signs(GEN x, long *terms) {
    if (typ(x) != t_POL) {
        *terms += !gequal0(x);
        return gabs(x, DEFAULTPREC);
    }
    GEN y = cgetg(lg(x), t_POL);
    y[1] = x[1];
    for (long i = 2; i < lg(x); i++) gel(y, i) = without_signs(gel(x, i), terms);
    return y;
}

/* Sets up what the operations need for a line. */
static long prepare(void) {
    long terms = 0;
    pari_sp before = avma;
    sum = gclone(gp_read_str(line.text));
    put = gclone(gp_read_str(line.put));
    signless = gclone(without_signs(sum, &terms));
    set_avma(before);
    return terms;
}

static void set_up(void) {
    pari_init(64000000, 2);
    for (int v = 0; v < REEVEBOOM_VARIABLES; v++) {
        char letter[2] = { (char)('a' + v), 0 };
        int size = reading(v) < 0 ? -reading(v) : reading(v);
        variables[v] = fetch_user_var(letter);
        for (int i = 0; i < 3; i++) numbers[i][v] = gclone(stoi(i == 0 ? reading(v) : i == 1 ? size : size + tolerance(v)));
    }
}

int main(int argc, char **argv) {
    char buffer[MOST_LINE];
    FILE *file = argc == 2 ? fopen(argv[1], "r") : NULL;
    if (!file) return 2;
    set_up();
    GEN version = pari_version();
    char system[64];
    snprintf(system, sizeof system, "PARI %ld.%ld.%ld", itos(gel(version, 1)), itos(gel(version, 2)), itos(gel(version, 3)));
    print_head(system, timed, TIMED);
    while (read_line(buffer, file, &line)) {
        long terms = prepare();
        print_times(line.name, terms, timed, TIMED);
    }
    fclose(file);
    return 0;
}
