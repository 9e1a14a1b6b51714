// Times GiNaC with the benchmark's formulas: ginac FORMULAS.
//
// GiNaC's expressions have no order of terms, no limits and no packing, so its times are for orientation. Text is its parser and expand. The estimate is three
// evaluations: the sum at the readings, and the sum of absolute coefficients at the readings without signs and at the raised ones. That second sum is made
// beforehand.
#include <ginac/ginac.h>

#include "outside.h"

using namespace GiNaC;

static symtab letters;
static symbol variables[REEVEBOOM_VARIABLES];
static exmap at[3]; // the readings, these without signs, the raised ones
static ex sum, signless, put, result;
static Line line;

static ex parsed(const char *typed) {
    parser reader(letters, true);
    return reader(std::string(typed)).expand();
}

static void text() { result = parsed(line.text); }
static void slope() { result = sum.diff(variables[line.variable]); }
static void substitute() { result = sum.subs(variables[line.variable] == put).expand(); }

static void estimate() {
    result = sum.subs(at[0]);
    result = signless.subs(at[1]);
    result = signless.subs(at[2]);
}

static const Timed timed[] = { { "text", text }, { "slope", slope }, { "substitute", substitute }, { "estimate", estimate } };

enum { TIMED = sizeof timed / sizeof *timed };

// A term with the size of its coefficient.
static ex without_sign(const ex &term) {
    lst all;
    for (const symbol &v : variables) all.append(v == 1);
    return term.subs(all).info(info_flags::negative) ? -term : term;
}

static size_t prepare() {
    sum = parsed(line.text);
    put = parsed(line.put);
    if (!is_a<add>(sum)) {
        signless = without_sign(sum);
        return sum.is_zero() ? 0 : 1;
    }
    signless = 0;
    for (const ex &term : sum) signless += without_sign(term);
    return sum.nops();
}

static void set_up() {
    for (int v = 0; v < REEVEBOOM_VARIABLES; v++) {
        int size = abs(reading(v));
        variables[v] = symbol(std::string(1, char('a' + v)));
        letters[variables[v].get_name()] = variables[v];
        at[0][variables[v]] = reading(v);
        at[1][variables[v]] = size;
        at[2][variables[v]] = size + tolerance(v);
    }
}

int main(int argc, char **argv) {
    char buffer[MOST_LINE];
    FILE *file = argc == 2 ? fopen(argv[1], "r") : nullptr;
    if (!file) return 2;
    set_up();
    char title[32];
    snprintf(title, sizeof title, "GiNaC %d.%d.%d", GINACLIB_MAJOR_VERSION, GINACLIB_MINOR_VERSION, GINACLIB_MICRO_VERSION);
    print_head(title, timed, TIMED);
    while (read_line(buffer, file, &line)) {
        size_t terms = prepare();
        print_times(line.name, (long)terms, timed, TIMED);
    }
    fclose(file);
    return 0;
}
