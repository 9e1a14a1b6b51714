/* Every function of libhost.a, called from C: the scope's cases that are proved, some that are only run, the refusals of each operation with their places, and
 * what every lent area holds afterwards.
 *
 *   ./test-host
 *
 * An operation is a row of `operations`, and a case names a row, what is given and what comes out. Every case is called in several ways (all_ways): in areas
 * that just do and in longer ones, with slices that share their bytes, and where there is no room. So a further operation is a row, its call, and its cases.
 *
 * All cases run twice. First each slice is a block of the heap of just its own size: an address sanitizer sees what this program, memcpy, memmove and memset do past
 * it. It does not see what the library's own code does there, since that is compiled without it. So then each slice ends where a page begins that nobody may touch,
 * those that are lent to be read can only be read, and what stands before them is looked at.
 */
#define _DEFAULT_SOURCE
#include <inttypes.h>
#include <stdio.h>
#include <stdlib.h>
#include <string.h>
#include <sys/mman.h>
#include <unistd.h>

#include "rules.h"
#include "reeveboom.h"

/* ---- Counting checks. */

static int checks, failures;
static const char *about = "", *way = "";

static void check(int holds, const char *what) {
    checks++;
    if (!holds) {
        failures++;
        printf("host: %s%s: %s\n", about, way, what);
    }
}

static void needs(int holds, const char *what) {
    if (!holds) {
        printf("host: %s%s: %s\n", about, way, what);
        exit(1);
    }
}

static void number_is(uint64_t got, uint64_t wanted) {
    check(got == wanted, "the number");
    if (got != wanted) printf("      %" PRIu64 ", and not %" PRIu64 "\n", got, wanted);
    /* done, there is no refusal, and the place is the number */
    if (wanted < 65536u) check(reeveboom_refusal(got) == 0 && reeveboom_place(got) == got, "the parts of a number that is returned");
}

/* Every number that a case asks for is taken apart again. */
static uint64_t taken_apart(uint64_t number, unsigned refusal, uint32_t place) {
    check(reeveboom_refusal(number) == refusal, "the refusal of a number");
    check(reeveboom_place(number) == place, "the place of a number");
    return number;
}

/* By how many bits a refusal stands above its place: in what the estimate returns, and every other function. */
enum { NARROW = 16, WIDE = 32 };

static uint64_t refused(unsigned unit, unsigned refusal, uint32_t place) { return taken_apart(((uint64_t)refusal << unit) + place, refusal, place); }

static int is_refusal(uint64_t number) { return reeveboom_refusal(number) != 0; }

/* ---- Slices. Every byte of an area that is lent holds a mark before. */

static const uint8_t MARK = 0xa5;

static int marked(const void *area, size_t from, size_t to) {
    for (size_t i = from; i < to; i++) if (((const uint8_t *)area)[i] != MARK) return 0;
    return 1;
}

static int zero(const void *area, size_t to) {
    for (size_t i = 0; i < to; i++) if (((const uint8_t *)area)[i] != 0) return 0;
    return 1;
}

/* Where slices stand: on the heap, or right before a page that nobody may touch. */
static enum { ON_THE_HEAP, AT_THE_EDGE } standing;

/* The slices that stand at an edge: some pages, of which the slice is the end. */
enum { MOST_EDGES = 8 };

static struct {
    void *slice;
    uint8_t *pages;
    size_t length, before;
} edges[MOST_EDGES];

static size_t edge_of(const void *slice) {
    size_t i = 0;
    while (i < MOST_EDGES && edges[i].slice != slice) i++;
    needs(i < MOST_EDGES, "no such slice");
    return i;
}

static void *at_edge(size_t bytes) {
    size_t page = (size_t)sysconf(_SC_PAGESIZE), length = (bytes / page + 1) * page, i = edge_of(NULL);
    uint8_t *pages = mmap(NULL, length + page, PROT_READ | PROT_WRITE, MAP_PRIVATE | MAP_ANONYMOUS, -1, 0);
    needs(pages != MAP_FAILED, "no memory");
    needs(mprotect(pages + length, page, PROT_NONE) == 0, "no page to be left alone");
    memset(pages, MARK, length);
    edges[i].slice = pages + length - bytes;
    edges[i].pages = pages;
    edges[i].length = length;
    edges[i].before = length - bytes;
    return edges[i].slice;
}

/* A slice that is lent to be written to. */
static void *block(size_t bytes) {
    void *p;
    if (standing == AT_THE_EDGE) return at_edge(bytes);
    p = malloc(bytes == 0 ? 1 : bytes);
    needs(p != NULL, "no memory");
    memset(p, MARK, bytes == 0 ? 1 : bytes);
    return p;
}

/* A slice that is lent to be read. */
static void *copy(const void *from, size_t bytes) {
    void *p = block(bytes);
    if (bytes != 0) memcpy(p, from, bytes);
    if (standing == AT_THE_EDGE) {
        size_t i = edge_of(p);
        needs(mprotect(edges[i].pages, edges[i].length, PROT_READ) == 0, "no pages that can only be read");
    }
    return p;
}

static void release(void *p) {
    if (standing == AT_THE_EDGE) {
        size_t i = edge_of(p), page = (size_t)sysconf(_SC_PAGESIZE);
        /* in pages that can only be read it does: writing there ends the program */
        check(marked(edges[i].pages, 0, edges[i].before), "what stands before a slice");
        needs(munmap(edges[i].pages, edges[i].length + page) == 0, "pages that are not given back");
        edges[i].slice = NULL;
    } else {
        free(p);
    }
}

/* ---- Bytes that are put together. What an operation is given and what it gives is all held like this, a number and elements of eight bytes too. */

typedef struct {
    uint8_t bytes[8192];
    size_t length;
} Bytes;

static void add(Bytes *b, unsigned byte) {
    needs(b->length < sizeof b->bytes, "too many bytes");
    b->bytes[b->length++] = (uint8_t)byte;
}

static void add_times(Bytes *b, int times, unsigned byte) {
    while (times-- > 0) add(b, byte);
}

static Bytes none(void) {
    Bytes b;
    b.length = 0;
    return b;
}

static Bytes of(const void *from, size_t length) {
    Bytes b = none();
    for (size_t i = 0; i < length; i++) add(&b, ((const uint8_t *)from)[i]);
    return b;
}

#define BYTES(...) of((const uint8_t[]){ __VA_ARGS__ }, sizeof((const uint8_t[]){ __VA_ARGS__ }))
#define NUMBERS(...) of((const int64_t[]){ __VA_ARGS__ }, sizeof((const int64_t[]){ __VA_ARGS__ }))
#define WORDS(...) of((const uint64_t[]){ __VA_ARGS__ }, sizeof((const uint64_t[]){ __VA_ARGS__ }))

static Bytes number(uint64_t n) { return of(&n, sizeof n); }
static Bytes typed(const char *text) { return of(text, strlen(text)); }

static void add_all(Bytes *b, Bytes more) {
    for (size_t i = 0; i < more.length; i++) add(b, more.bytes[i]);
}

static Bytes with(Bytes b, unsigned byte) {
    add(&b, byte);
    return b;
}

static Bytes cut(Bytes b, size_t length) {
    b.length = length;
    return b;
}

/* ---- The operations. */

enum { TEXT, SIMPLIFY, UNPACK, PACK, SLOPE, SUBSTITUTE, WRITE, ESTIMATE, OPERATIONS };

enum { MOST_INPUTS = 4, MOST_AREAS = 4 };

/* What is given: a number, or a slice of elements of one byte or of eight. */
typedef enum { NO_INPUT, A_NUMBER, OF_BYTES, OF_WORDS } Input;

/* What is lent to be written to. */
typedef struct {
    enum { NO_AREA, RESULT, WORK } kind;
    size_t places, size; /* how many it must have at least, and the bytes of each */
    size_t each;         /* of a result: how many are written for each that the returned number counts */
} Area;

/* An argument of a call. */
typedef struct {
    void *slice;
    size_t length;
    uint64_t number; /* of an input that is one */
    int own;         /* whether an input stands in no other one */
} Lent;

typedef uint64_t Call(const Lent *in, const Lent *out);

typedef struct {
    const char *name;
    Call *call;
    unsigned unit;
    Input inputs[MOST_INPUTS];
    Area areas[MOST_AREAS];
} Operation;

#define IN(i) in[i].slice, in[i].length
#define OUT(i) out[i].slice, out[i].length

static uint64_t call_text(const Lent *in, const Lent *out) { return reeveboom_text(IN(0), OUT(0)); }
static uint64_t call_simplify(const Lent *in, const Lent *out) { return reeveboom_simplify(IN(0), OUT(0), OUT(1), OUT(2)); }
static uint64_t call_unpack(const Lent *in, const Lent *out) { return reeveboom_unpack(IN(0), OUT(0), OUT(1)); }
static uint64_t call_pack(const Lent *in, const Lent *out) { return reeveboom_pack(in[0].number, IN(1), IN(2), OUT(0)); }
static uint64_t call_slope(const Lent *in, const Lent *out) { return reeveboom_slope(IN(0), in[1].number, OUT(0)); }
static uint64_t call_substitute(const Lent *in, const Lent *out) { return reeveboom_substitute(IN(0), IN(1), OUT(0), OUT(1), OUT(2)); }
static uint64_t call_write(const Lent *in, const Lent *out) { return reeveboom_write(IN(0), OUT(0)); }
static uint64_t call_estimate(const Lent *in, const Lent *out) { return reeveboom_estimate(IN(0), IN(1), IN(2), OUT(0)); }

#define PACKED { RESULT, REEVEBOOM_RESULT_BYTES, sizeof(uint8_t), 1 }
#define WORKED { WORK, REEVEBOOM_WORK_PLACES, sizeof(uint64_t), 0 }

static const Operation operations[OPERATIONS] = {
    [TEXT] = { "text", call_text, WIDE, { OF_BYTES }, { { RESULT, REEVEBOOM_TABLE_PLACES, sizeof(int64_t), NODE_NUMBERS } } },
    [SIMPLIFY] = { "simplify", call_simplify, WIDE, { OF_WORDS }, { PACKED, WORKED, WORKED } },
    [UNPACK] = { "unpack", call_unpack, WIDE, { OF_BYTES },
                 { { RESULT, REEVEBOOM_TERM_PLACES, sizeof(uint64_t), 1 }, { RESULT, REEVEBOOM_TERM_PLACES, sizeof(int64_t), 1 } } },
    [PACK] = { "pack", call_pack, WIDE, { A_NUMBER, OF_WORDS, OF_WORDS }, { PACKED } },
    [SLOPE] = { "slope", call_slope, WIDE, { OF_BYTES, A_NUMBER }, { PACKED } },
    [SUBSTITUTE] = { "substitute", call_substitute, WIDE, { OF_BYTES, OF_BYTES }, { PACKED, WORKED, WORKED } },
    [WRITE] = { "write", call_write, WIDE, { OF_BYTES }, { { RESULT, REEVEBOOM_TEXT_BYTES, sizeof(uint8_t), 1 } } },
    [ESTIMATE] = { "estimate", call_estimate, NARROW, { OF_BYTES, OF_BYTES, OF_BYTES }, { { RESULT, REEVEBOOM_ANSWER_BYTES, sizeof(uint8_t), 1 } } },
};

/* How many cases of each there were that are done, and that are refused. */
static int done_cases[OPERATIONS], refused_cases[OPERATIONS];

static size_t inputs_of(const Operation *o) {
    size_t n = 0;
    while (n < MOST_INPUTS && o->inputs[n] != NO_INPUT) n++;
    return n;
}

static size_t areas_of(const Operation *o) {
    size_t n = 0;
    while (n < MOST_AREAS && o->areas[n].kind != NO_AREA) n++;
    return n;
}

/* Results come before work areas. */
static size_t results_of(const Operation *o) {
    size_t n = 0;
    while (n < MOST_AREAS && o->areas[n].kind == RESULT) n++;
    return n;
}

static size_t element(Input input) { return input == OF_BYTES ? sizeof(uint8_t) : sizeof(uint64_t); }

/* ---- What an operation is given and lent. Slices that are only read may overlap. */

typedef enum { APART, SHARED } Sharing;

/* Whether some bytes stand in others, after a number of whole elements, and where. */
static int within(const Bytes *part, const Bytes *whole, size_t size, size_t *at) {
    for (*at = 0; *at + part->length <= whole->length; *at += size) {
        if (memcmp(whole->bytes + *at, part->bytes, part->length) == 0) return 1;
    }
    return 0;
}

/* The longest slice that has the bytes of this one, and where they stand in it. Of slices that are the same it is the first; it can be this one itself. */
static size_t home_of(const Operation *o, const Bytes *given, size_t input, size_t *at) {
    size_t home = input, here;
    *at = 0;
    for (size_t i = 0; o->inputs[input] != A_NUMBER && i < inputs_of(o); i++) {
        int better = given[i].length > given[home].length || (given[i].length == given[home].length && i < home);
        if (o->inputs[i] != o->inputs[input] || !better || !within(&given[input], &given[i], element(o->inputs[i]), &here)) continue;
        home = i;
        *at = here;
    }
    return home;
}

static int can_share(const Operation *o, const Bytes *given) {
    size_t at;
    for (size_t i = 0; i < inputs_of(o); i++) if (home_of(o, given, i, &at) != i) return 1;
    return 0;
}

/* Slices that are at home are lent first, and then those inside them. */
static void lend_inputs(const Operation *o, const Bytes *given, Sharing sharing, Lent *in) {
    size_t homes[MOST_INPUTS], at[MOST_INPUTS];
    for (size_t i = 0; i < inputs_of(o); i++) {
        homes[i] = home_of(o, given, i, &at[i]);
        in[i].own = o->inputs[i] != A_NUMBER && (sharing == APART || homes[i] == i);
        in[i].length = given[i].length / element(o->inputs[i]);
        if (in[i].own) in[i].slice = copy(given[i].bytes, given[i].length);
    }
    for (size_t i = 0; i < inputs_of(o); i++) {
        if (o->inputs[i] == A_NUMBER) memcpy(&in[i].number, given[i].bytes, sizeof in[i].number);
        else if (!in[i].own) in[i].slice = (uint8_t *)in[homes[i]].slice + at[i];
    }
}

static void lend_areas(const Operation *o, const size_t *lengths, Lent *out) {
    for (size_t i = 0; i < areas_of(o); i++) {
        out[i].length = lengths[i];
        out[i].slice = block(lengths[i] * o->areas[i].size);
    }
}

static void take_back(const Operation *o, const Lent *in, const Lent *out) {
    for (size_t i = 0; i < areas_of(o); i++) release(out[i].slice);
    for (size_t i = 0; i < inputs_of(o); i++) if (in[i].own) release(in[i].slice);
}

/* ---- What it leaves. */

/* A result area: what was to be written, if anything was, and then marks. */
static void result_is(const Area *area, const Lent *lent, uint64_t got, const Bytes *wanted) {
    size_t written = is_refusal(got) ? 0 : (size_t)got * area->each * area->size, all = lent->length * area->size;
    if (wanted == NULL) {
        check(written == 0, "nothing was to be written");
    } else {
        check(written == wanted->length && written <= all && memcmp(lent->slice, wanted->bytes, written) == 0, "what is written to the result area");
    }
    check(written <= all && marked(lent->slice, written, all), "the rest of the result area");
}

/* A work area: after ROOM marks, else zeros as far as it has to reach, and then marks. */
static void work_is(const Area *area, const Lent *lent, uint64_t got) {
    size_t cleared = reeveboom_refusal(got) == REEVEBOOM_ROOM ? 0 : area->places * area->size, all = lent->length * area->size;
    check(cleared <= all && zero(lent->slice, cleared), "the first places of a work area are zero");
    check(cleared <= all && marked(lent->slice, cleared, all), "the other places of a work area stay");
}

/* ---- A case, in all ways. */

/* One call, with areas of these lengths. A refusal has no results. */
static void call_in(const Operation *o, const Bytes *given, Sharing sharing, const size_t *lengths, uint64_t wanted, const Bytes *results) {
    Lent in[MOST_INPUTS], out[MOST_AREAS];
    uint64_t got;
    lend_inputs(o, given, sharing, in);
    lend_areas(o, lengths, out);
    got = o->call(in, out);
    number_is(got, wanted);
    for (size_t i = 0; i < areas_of(o); i++) {
        if (o->areas[i].kind == RESULT) result_is(&o->areas[i], &out[i], got, results == NULL ? NULL : &results[i]);
        else work_is(&o->areas[i], &out[i], got);
    }
    take_back(o, in, out);
}

/* A call whose answer is not known beforehand, in areas that just do. They are to be taken back. */
static uint64_t called(const Operation *o, const Bytes *given, Lent *in, Lent *out) {
    size_t lengths[MOST_AREAS];
    for (size_t i = 0; i < areas_of(o); i++) lengths[i] = o->areas[i].places;
    lend_inputs(o, given, APART, in);
    lend_areas(o, lengths, out);
    return o->call(in, out);
}

/* How many places longer areas have more; and how often slices were lent that share their bytes. */
enum { SPARE = 7 };

static int shared_calls;

static void all_ways(const Operation *o, const Bytes *given, uint64_t wanted, const Bytes *results) {
    size_t just[MOST_AREAS], longer[MOST_AREAS], nothing[MOST_AREAS] = { 0 };
    uint64_t room = refused(o->unit, REEVEBOOM_ROOM, 0);

    for (size_t i = 0; i < areas_of(o); i++) {
        just[i] = o->areas[i].places;
        longer[i] = o->areas[i].places + SPARE + i;
    }
    way = ", in areas that just do";
    call_in(o, given, APART, just, wanted, results);
    way = ", in longer areas";
    call_in(o, given, APART, longer, wanted, results);
    way = ", with slices that share their bytes";
    if (can_share(o, given)) {
        call_in(o, given, SHARED, just, wanted, results);
        shared_calls++;
    }
    way = ", with an area that is a place too short";
    for (size_t i = 0; i < areas_of(o); i++) {
        just[i]--;
        call_in(o, given, APART, just, room, NULL);
        just[i]++;
    }
    way = ", with areas that have no place";
    call_in(o, given, APART, nothing, room, NULL);
    way = "";
}

/* What is given, and what the results are: gives(SLOPE, FROM(sum, number(0)), TO(slope)). */
#define ALL(...) (const Bytes[]){ __VA_ARGS__ }, sizeof((const Bytes[]){ __VA_ARGS__ }) / sizeof(Bytes)
#define FROM(...) ALL(__VA_ARGS__)
#define TO(...) ALL(__VA_ARGS__)

static void gives(int operation, const Bytes *given, size_t inputs, const Bytes *results, size_t outputs) {
    const Operation *o = &operations[operation];
    needs(inputs == inputs_of(o) && outputs == results_of(o), "a case with too few slices or too many");
    done_cases[operation]++;
    all_ways(o, given, results[0].length / o->areas[0].size / o->areas[0].each, results);
}

static void refuses(int operation, const Bytes *given, size_t inputs, unsigned refusal, size_t place) {
    const Operation *o = &operations[operation];
    needs(inputs == inputs_of(o), "a case with too few slices or too many");
    refused_cases[operation]++;
    all_ways(o, given, refused(o->unit, refusal, (uint32_t)place), NULL);
}

/* A row without cases would be tried by nothing. */
static void each_was_tried(void) {
    for (int i = 0; i < OPERATIONS; i++) {
        about = operations[i].name;
        check(done_cases[i] != 0, "no case that is done");
        check(refused_cases[i] != 0, "no case that is refused");
    }
}

/* ---- Sums, lists and readings for the cases. */

static const int64_t MOST_WEIGHT = (int64_t)1 << 62;

/* The bytes of a term whose coefficient takes one, and of a term whose coefficient takes ten, which is as many as any. */
enum { TERM_BYTES = 1 + VARIABLES, LONGEST_TERM_BYTES = 10 + VARIABLES };

/* A term of powers of the first letters, a digit for each, with a coefficient's code of one byte: 2n for n from 0 up, and -2n - 1 for n below. */
static void add_powers(Bytes *b, unsigned code, const char *powers) {
    add(b, code);
    for (size_t v = 0; v < VARIABLES; v++) add(b, v < strlen(powers) ? (unsigned)(powers[v] - '0') : 0);
}

/* Powers of a and b after a coefficient. */
static void add_a_b(Bytes *b, unsigned a_power, unsigned b_power) {
    add(b, a_power);
    add(b, b_power);
    add_times(b, VARIABLES - 2, 0);
}

static void add_term(Bytes *b, unsigned code, unsigned a_power, unsigned b_power) {
    add(b, code);
    add_a_b(b, a_power, b_power);
}

/* A power of one letter. */
static void add_letter(Bytes *b, int letter, unsigned power) {
    add(b, 2);
    for (int v = 0; v < VARIABLES; v++) add(b, v == letter ? power : 0);
}

/* The code of 2^62, in ten groups. */
static void add_heaviest(Bytes *b) {
    add_times(b, 9, 128);
    add(b, 1);
}

/* The code of a number below 0. */
static void add_negative(Bytes *b, uint64_t size) {
    uint64_t code = 2 * size - 1;
    for (; code >= 128; code >>= 7) add(b, (unsigned)(code & 127u) + 128);
    add(b, (unsigned)code);
}

static Bytes one_term(unsigned code, unsigned a_power, unsigned b_power) {
    Bytes b = BYTES(1);
    add_term(&b, code, a_power, b_power);
    return b;
}

static Bytes two_terms(unsigned code, unsigned a_power, unsigned b_power, unsigned code2, unsigned a_power2, unsigned b_power2) {
    Bytes b = BYTES(2);
    add_term(&b, code, a_power, b_power);
    add_term(&b, code2, a_power2, b_power2);
    return b;
}

/* A term whose coefficient has a code of several bytes. */
static Bytes coded_term(Bytes code, unsigned a_power) {
    Bytes b = BYTES(1);
    add_all(&b, code);
    add_a_b(&b, a_power, 0);
    return b;
}

/* 2^62 times a power of a. */
static Bytes heaviest(unsigned a_power) {
    Bytes code = none();
    add_heaviest(&code);
    return coded_term(code, a_power);
}

/* (a+b)^2-b^2, which is a^2 + 2ab */
static Bytes square(void) { return two_terms(2, 2, 0, 4, 1, 1); }

enum { SQUARE_BYTES = 1 + 2 * TERM_BYTES };

/* The word of a pattern: a power of one letter, a's in the highest bits. */
static uint64_t word(int letter, uint64_t power) { return power << (64 / VARIABLES * (VARIABLES - 1 - letter)); }

/* The bits of a number. */
static unsigned bits_of(unsigned n) { return n == 0 ? 0 : (n & 1u) + bits_of(n >> 1); }

/* 2^55 times a to the given power times (1+b)(1+c)..(1+h): as many terms as there may be, each coefficient in nine groups, and a weight of 2^62. No accepted sum
 * takes more bytes. (A result area is as long as terms with coefficients of ten groups would need, and only 2^62 itself, which leaves room for no other term,
 * has one.) */
enum { DOUBLED = 7, LONGEST_BYTES = 2 + MOST_TERMS * (9 + VARIABLES) };

static Bytes longest(unsigned a_power) {
    Bytes b = BYTES(128, 1);
    for (unsigned degree = DOUBLED + 1; degree-- > 0;) {
        for (unsigned letters = MOST_TERMS; letters-- > 0;) {
            if (bits_of(letters) != degree) continue;
            add_times(&b, 8, 128);
            add(&b, 1);
            add(&b, a_power);
            for (int v = DOUBLED; v-- > 0;) add(&b, letters >> v & 1u);
            add_times(&b, VARIABLES - 1 - DOUBLED, 0);
        }
    }
    return b;
}

/* What longest(1) is written as. */
static Bytes text_of_longest(void) {
    Bytes b = none();
    for (unsigned degree = DOUBLED + 1; degree-- > 0;) {
        for (unsigned letters = MOST_TERMS; letters-- > 0;) {
            if (bits_of(letters) != degree) continue;
            add_all(&b, typed(b.length == 0 ? "36028797018963968*a" : "+36028797018963968*a"));
            for (int v = DOUBLED; v-- > 0;) {
                if ((letters >> v & 1u) == 0) continue;
                add(&b, '*');
                add(&b, (unsigned)('a' + DOUBLED - v));
            }
        }
    }
    return b;
}

/* As many bytes as a result area has: the first coefficient is 2^62, and the second one is too much. */
static Bytes too_heavy(void) {
    Bytes b = BYTES(128, 1);
    for (int i = 0; i < MOST_TERMS; i++) {
        add_heaviest(&b);
        add_times(&b, VARIABLES, 0);
    }
    return b;
}

/* A sum, and the text that it is written as. */
typedef struct {
    Bytes sum, text;
    int terms;
} Spelled;

/* A further term, below 0, of powers that are all 2 or more. */
static void spell_term(Spelled *s, int64_t size, const int *powers) {
    char part[32];
    add_negative(&s->sum, (uint64_t)size);
    sprintf(part, "-%" PRId64, size);
    add_all(&s->text, typed(part));
    for (int v = 0; v < VARIABLES; v++) {
        add(&s->sum, (unsigned)powers[v]);
        sprintf(part, "*%c^%d", 'a' + v, powers[v]);
        add_all(&s->text, typed(part));
    }
    s->terms++;
}

/* The longest text: as many terms as there may be, all with a minus. The letters of each take 37 bytes, which is the most that a degree of 60 allows: five powers of
 * two digits, and three of one. The coefficients have 17 digits each, and 37 of them one more; a further digit would bring the weight above 2^62. */
enum { WITH_A_DIGIT_MORE = 37, LONGEST_TEXT = MOST_TERMS * (1 + 17 + 37) + WITH_A_DIGIT_MORE };

/* The terms that have the given powers before a variable, in order. The degree that is left goes to the powers from there on: all of it to the first, and then
 * less and less. */
static void spell_from(Spelled *s, int *powers, int variable, int left) {
    const int least = variable < 5 ? 10 : 2;
    if (variable == VARIABLES - 1) {
        powers[variable] = least + left;
        spell_term(s, s->terms < WITH_A_DIGIT_MORE ? INT64_C(100000000000000000) : INT64_C(10000000000000000), powers);
        return;
    }
    for (int more = left; more >= 0 && s->terms < MOST_TERMS; more--) {
        powers[variable] = least + more;
        spell_from(s, powers, variable + 1, left - more);
    }
}

static Spelled longest_text(void) {
    int powers[VARIABLES];
    Spelled s = { BYTES(128, 1), none(), 0 };
    spell_from(&s, powers, 0, MOST_DEGREE - 5 * 10 - 3 * 2);
    return s;
}

/* A list that puts one sum for one variable. */
static Bytes put_for(unsigned variable, Bytes sum) {
    Bytes b = BYTES(1);
    add(&b, variable);
    add_all(&b, sum);
    return b;
}

/* Readings or tolerances of a and b, and the same for all others. */
static Bytes measured_all(int a, int b, int others) {
    Bytes bytes = none();
    for (int v = 0; v < VARIABLES; v++) {
        unsigned bits = (unsigned)(v == 0 ? a : v == 1 ? b : others) & 65535u;
        add(&bytes, bits & 255u);
        add(&bytes, bits >> 8);
    }
    return bytes;
}

static Bytes measured(int a, int b) { return measured_all(a, b, 0); }

/* What the estimate answers: two numbers, low byte first. */
static Bytes answer(int64_t estimate, int64_t margin) {
    Bytes b = none();
    for (int k = 0; k < 8; k++) add(&b, (unsigned)((uint64_t)estimate >> 8 * k & 255u));
    for (int k = 0; k < 8; k++) add(&b, (unsigned)((uint64_t)margin >> 8 * k & 255u));
    return b;
}

/* The table of a text that is a formula. */
static Bytes table_of(const char *text) {
    int64_t table[REEVEBOOM_TABLE_PLACES];
    uint64_t nodes = reeveboom_text((const uint8_t *)text, strlen(text), table, REEVEBOOM_TABLE_PLACES);
    about = text;
    check(nodes <= MOST_NODES, "it is a formula");
    return of(table, nodes <= MOST_NODES ? NODE_NUMBERS * (size_t)nodes * sizeof *table : 0);
}

/* The packed sum of a text that is accepted. */
static Bytes sum_of(const char *text) {
    Bytes table = table_of(text), sum;
    Lent in[MOST_INPUTS], out[MOST_AREAS];
    uint64_t length = called(&operations[SIMPLIFY], &table, in, out);
    check(!is_refusal(length), "it has a sum");
    sum = of(out[0].slice, is_refusal(length) ? 0 : (size_t)length);
    take_back(&operations[SIMPLIFY], in, out);
    return sum;
}

/* The text of a packed sum. */
static Bytes text_of(Bytes sum) {
    Bytes text;
    Lent in[MOST_INPUTS], out[MOST_AREAS];
    uint64_t length = called(&operations[WRITE], &sum, in, out);
    check(!is_refusal(length), "it has a text");
    text = of(out[0].slice, is_refusal(length) ? 0 : (size_t)length);
    take_back(&operations[WRITE], in, out);
    return text;
}

/* ---- The cases. */

/* Kinds of nodes. */
enum { INTEGER, VARIABLE, SUM, PRODUCT, POWER };

static void text_gives(const char *text, Bytes nodes) {
    about = text;
    gives(TEXT, FROM(typed(text)), TO(nodes));
}

static void text_refuses(const char *text, size_t place) {
    about = text;
    refuses(TEXT, FROM(typed(text)), REEVEBOOM_TEXT, place);
}

/* So many brackets around an a. */
static Bytes in_brackets(int deep) {
    Bytes b = none();
    add_times(&b, deep, '(');
    add(&b, 'a');
    add_times(&b, deep, ')');
    return b;
}

/* a+a+a.., so many bytes of it. */
static Bytes many_sums(size_t length) {
    Bytes b = none();
    for (size_t i = 0; i < length; i++) add(&b, i % 2 == 0 ? 'a' : '+');
    return b;
}

/* A table in which a's are taken together from the left, up to so many nodes: after what there is, an a and a node of it and the one before, and so on. */
static Bytes one_by_one(Bytes table, int64_t kind, int64_t nodes) {
    for (int64_t n = (int64_t)(table.length / sizeof(int64_t) / NODE_NUMBERS); n < nodes; n += 2) {
        add_all(&table, NUMBERS(VARIABLE, 0, 0));
        add_all(&table, NUMBERS(kind, n - 1, n));
    }
    return table;
}

static void texts(void) {
    static const char formula[] = "(a+b)^2-b^2";
    const char no_letter[] = { 'a' + VARIABLES, '\0' };
    Bytes product = typed("a^2"), blanks = none();

    text_gives(formula, NUMBERS(VARIABLE, 0, 0,
                                VARIABLE, 1, 0,
                                SUM, 0, 1,
                                POWER, 2, 2,
                                VARIABLE, 1, 0,
                                POWER, 4, 2,
                                INTEGER, -1, 0,
                                PRODUCT, 6, 5,
                                SUM, 3, 7));
    text_gives("a^60", NUMBERS(VARIABLE, 0, 0, POWER, 0, 60));
    text_gives("a^60*a", NUMBERS(VARIABLE, 0, 0, POWER, 0, 60, VARIABLE, 0, 0, PRODUCT, 1, 2));
    text_gives("4611686018427387904", NUMBERS(INTEGER, MOST_WEIGHT, 0));

    text_refuses("a^61", 3);
    text_refuses("4611686018427387905", 18);
    text_refuses("", 0);
    text_refuses("a+", 2);
    text_refuses("a*(b+c", 6);
    text_refuses(no_letter, 0);
    about = "as many brackets as there may be, and one more";
    gives(TEXT, FROM(in_brackets(MOST_BRACKETS)), TO(NUMBERS(VARIABLE, 0, 0)));
    refuses(TEXT, FROM(in_brackets(MOST_BRACKETS + 1)), REEVEBOOM_TEXT, MOST_BRACKETS);

    about = "as many nodes as there may be, one less, and one more";
    for (int n = 2; n < MOST_NODES; n += 2) add_all(&product, typed("*a"));
    gives(TEXT, FROM(many_sums(MOST_NODES - 1)), TO(one_by_one(NUMBERS(VARIABLE, 0, 0), SUM, MOST_NODES - 1)));
    gives(TEXT, FROM(product), TO(one_by_one(NUMBERS(VARIABLE, 0, 0, POWER, 0, 2), PRODUCT, MOST_NODES)));
    refuses(TEXT, FROM(many_sums(MOST_NODES + 1)), REEVEBOOM_NODES, 0);
    about = "as many bytes as there may be, one less, and one more";
    add_times(&blanks, MOST_TEXT + 1, ' ');
    refuses(TEXT, FROM(many_sums(MOST_TEXT - 1)), REEVEBOOM_NODES, 0);
    refuses(TEXT, FROM(many_sums(MOST_TEXT)), REEVEBOOM_TEXT, MOST_TEXT);
    refuses(TEXT, FROM(cut(blanks, MOST_TEXT)), REEVEBOOM_TEXT, 0);
    refuses(TEXT, FROM(blanks), REEVEBOOM_TEXT, MOST_TEXT);
    about = "a letter";
    gives(TEXT, FROM(typed("a")), TO(NUMBERS(VARIABLE, 0, 0)));
}

/* A text, read and simplified: the bytes, or the refusal of its table. */
static void formula_gives(const char *text, Bytes bytes) { gives(SIMPLIFY, FROM(table_of(text)), TO(bytes)); }
static void formula_refuses(const char *text, unsigned refusal, size_t node) { refuses(SIMPLIFY, FROM(table_of(text)), refusal, node); }

static void table_refuses(Bytes table, unsigned refusal, size_t node) { refuses(SIMPLIFY, FROM(table), refusal, node); }

static void tables(void) {
    Bytes zero_sum = BYTES(0), one = one_term(2, 0, 0), source = BYTES(3), many = none();

    add_powers(&source, 2, "4444");
    add_powers(&source, 12, "222222");
    add_powers(&source, 2, "000044");

    formula_gives("0^0", one);
    formula_gives("(a-a)^0", one);
    formula_gives("a-a", zero_sum);
    formula_gives("(a+b)^2-b^2", square());
    formula_refuses("4611686018427387904+1-1", REEVEBOOM_WEIGHT, 2);
    formula_gives("0*4611686018427387904", zero_sum);
    formula_gives("a^60", one_term(2, MOST_DEGREE, 0));
    formula_refuses("a^60*a", REEVEBOOM_DEGREE, 3);
    formula_gives("4611686018427387904", coded_term(BYTES(128, 128, 128, 128, 128, 128, 128, 128, 128, 1), 0));
    formula_gives("-4611686018427387904", coded_term(BYTES(255, 255, 255, 255, 255, 255, 255, 255, 127), 0));
    formula_gives("(a*b*c*d-e*f)^4+4*a*b*c*d*e*f*(e^2*f^2+a^2*b^2*c^2*d^2)", source);
    formula_refuses("(a+b+c+d+e+f+g+h)^4", REEVEBOOM_SPREAD, 15);

    about = "tables of no shape";
    for (int n = 0; n <= MOST_NODES; n++) add_all(&many, NUMBERS(INTEGER, 1, 0));
    table_refuses(none(), REEVEBOOM_SHAPE, 0);
    table_refuses(cut(many, 4 * sizeof(int64_t)), REEVEBOOM_SHAPE, 0);
    table_refuses(many, REEVEBOOM_SHAPE, 0);
    about = "as many nodes as there may be";
    gives(SIMPLIFY, FROM(cut(many, NODE_NUMBERS * MOST_NODES * sizeof(int64_t))), TO(one));
    about = "one node";
    gives(SIMPLIFY, FROM(cut(many, NODE_NUMBERS * sizeof(int64_t))), TO(one));
    about = "nodes that break their rules";
    table_refuses(NUMBERS(5, 0, 0), REEVEBOOM_NODE, 0);
    table_refuses(NUMBERS(-1, 0, 0), REEVEBOOM_NODE, 0);
    table_refuses(NUMBERS(INTEGER, 1, 0, VARIABLE, VARIABLES, 0), REEVEBOOM_NODE, 1);
    table_refuses(NUMBERS(INTEGER, 1, 0, SUM, 0, 1), REEVEBOOM_NODE, 1);
    table_refuses(NUMBERS(INTEGER, 1, 1), REEVEBOOM_NODE, 0);
    table_refuses(NUMBERS(INTEGER, 1, 0, POWER, 0, MOST_DEGREE + 1), REEVEBOOM_NODE, 1);
    table_refuses(NUMBERS(INTEGER, INT64_MIN, 0), REEVEBOOM_WEIGHT, 0);
}

/* Unpacked and packed again, a sum has the same bytes. */
static void comes_back(Bytes sum, uint64_t terms) {
    const size_t all = REEVEBOOM_TERM_PLACES * sizeof(uint64_t), written = (size_t)terms * sizeof(uint64_t);
    Lent in[MOST_INPUTS], out[MOST_AREAS];
    Bytes patterns, coefficients;
    number_is(called(&operations[UNPACK], &sum, in, out), terms);
    patterns = of(out[0].slice, all);
    coefficients = of(out[1].slice, all);
    take_back(&operations[UNPACK], in, out);
    gives(PACK, FROM(number(terms), cut(patterns, written), cut(coefficients, written)), TO(sum));
    gives(PACK, FROM(number(terms), patterns, coefficients), TO(sum));
}

/* Two areas of which a count of terms is packed. */
static void pack_refuses(uint64_t count, Bytes patterns, Bytes coefficients, unsigned refusal, size_t term) {
    refuses(PACK, FROM(number(count), patterns, coefficients), refusal, term);
}

static void packed_sums(void) {
    Bytes words = WORDS(word(0, 2), word(0, 1) + word(1, 1)), numbers = NUMBERS(1, 2), three_words = words, three_numbers = numbers;
    Bytes three = square(), no_words = none(), ones = none(), cube;
    const size_t most = MOST_TERMS * sizeof(uint64_t);

    three.bytes[0] = 3;
    add_term(&three, 5, 0, 0);
    add_all(&three_words, WORDS(0));
    add_all(&three_numbers, NUMBERS(-3));

    about = "unpack";
    gives(UNPACK, FROM(square()), TO(words, numbers));
    gives(UNPACK, FROM(three), TO(three_words, three_numbers));
    gives(UNPACK, FROM(BYTES(0)), TO(none(), none()));
    about = "unpack: sums at fault";
    refuses(UNPACK, FROM(none()), REEVEBOOM_SUM, 0);
    refuses(UNPACK, FROM(cut(square(), SQUARE_BYTES - 1)), REEVEBOOM_SUM, SQUARE_BYTES - 1);
    refuses(UNPACK, FROM(with(square(), 0)), REEVEBOOM_SUM, SQUARE_BYTES);
    refuses(UNPACK, FROM(BYTES(129, 1)), REEVEBOOM_SUM, 0);
    refuses(UNPACK, FROM(BYTES(1, 0)), REEVEBOOM_SUM, 1);
    refuses(UNPACK, FROM(BYTES(1, 130, 0, 0)), REEVEBOOM_SUM, 1);
    refuses(UNPACK, FROM(BYTES(1, 2, 60, 1)), REEVEBOOM_SUM, 3);
    refuses(UNPACK, FROM(two_terms(2, 0, 0, 2, 1, 0)), REEVEBOOM_SUM, 1 + TERM_BYTES);

    about = "pack what was unpacked";
    comes_back(BYTES(0), 0);
    comes_back(square(), 2);
    comes_back(three, 3);
    cube = sum_of("(a+b+c+d+e+f+g+h)^3");
    check(cube.length == 1 + 120 * TERM_BYTES, "its length");
    comes_back(cube, 120);

    about = "pack: no shape";
    for (int i = 0; i <= MOST_TERMS; i++) add_all(&no_words, WORDS(0));
    for (int i = 0; i <= MOST_TERMS; i++) add_all(&ones, NUMBERS(1));
    pack_refuses(MOST_TERMS + 1, no_words, ones, REEVEBOOM_SHAPE, 0);
    pack_refuses(UINT64_MAX, no_words, ones, REEVEBOOM_SHAPE, 0);
    pack_refuses((uint64_t)1 << 32, no_words, ones, REEVEBOOM_SHAPE, 0);
    pack_refuses(MOST_TERMS + 1, none(), none(), REEVEBOOM_SHAPE, 0);
    pack_refuses(2, cut(words, sizeof(uint64_t)), numbers, REEVEBOOM_SHAPE, 0);
    pack_refuses(2, words, cut(numbers, sizeof(int64_t)), REEVEBOOM_SHAPE, 0);
    about = "pack: bad terms";
    pack_refuses(MOST_TERMS, cut(no_words, most), cut(ones, most), REEVEBOOM_SUM, 1);
    pack_refuses(1, WORDS(0), NUMBERS(0), REEVEBOOM_SUM, 0);
    pack_refuses(1, WORDS(0), NUMBERS(INT64_MIN), REEVEBOOM_SUM, 0);
    pack_refuses(2, words, NUMBERS(MOST_WEIGHT, -1), REEVEBOOM_SUM, 1);
    pack_refuses(1, WORDS(word(0, MOST_DEGREE) + word(VARIABLES - 1, 1)), NUMBERS(1), REEVEBOOM_SUM, 0);
    pack_refuses(2, WORDS(word(VARIABLES - 1, 1), word(0, 1)), NUMBERS(1, 1), REEVEBOOM_SUM, 1);
}

static void slopes(void) {
    about = "slope";
    gives(SLOPE, FROM(square(), number(0)), TO(two_terms(4, 1, 0, 4, 0, 1)));
    gives(SLOPE, FROM(square(), number(2)), TO(BYTES(0)));
    gives(SLOPE, FROM(square(), number(1)), TO(one_term(4, 1, 0)));
    gives(SLOPE, FROM(one_term(2, 2, 0), number(1)), TO(BYTES(0)));
    gives(SLOPE, FROM(heaviest(2), number(1)), TO(BYTES(0)));
    about = "slope: refusals";
    refuses(SLOPE, FROM(with(square(), 0), number(VARIABLES)), REEVEBOOM_SUM, SQUARE_BYTES);
    refuses(SLOPE, FROM(none(), number(0)), REEVEBOOM_SUM, 0);
    refuses(SLOPE, FROM(none(), number(VARIABLES + 1)), REEVEBOOM_SUM, 0);
    refuses(SLOPE, FROM(square(), number(VARIABLES)), REEVEBOOM_VARIABLE, 0);
    refuses(SLOPE, FROM(square(), number(UINT64_MAX)), REEVEBOOM_VARIABLE, 0);
    refuses(SLOPE, FROM(heaviest(2), number(0)), REEVEBOOM_WEIGHT, 0);
}

static void substitute_gives(Bytes sum, Bytes list, Bytes bytes) { gives(SUBSTITUTE, FROM(sum, list), TO(bytes)); }
static void substitute_refuses(Bytes sum, Bytes list, unsigned refusal, size_t place) { refuses(SUBSTITUTE, FROM(sum, list), refusal, place); }

static void lists(void) {
    Bytes a = one_term(2, 1, 0), a_squared = one_term(2, 2, 0), no_b = BYTES(1, 1, 0), wide = BYTES(2 * VARIABLES), two_pairs, list;

    for (int v = 0; v < VARIABLES; v++) add_letter(&wide, v, 3);
    for (int v = 0; v < VARIABLES; v++) add_letter(&wide, v, 1);

    about = "substitute";
    substitute_gives(square(), no_b, a_squared);
    substitute_gives(square(), BYTES(0), square());
    /* a := b and then b := a: a + 2b is 3b, and then 3a */
    two_pairs = put_for(0, one_term(2, 0, 1));
    two_pairs.bytes[0] = 2;
    add(&two_pairs, 1);
    add_all(&two_pairs, a);
    substitute_gives(two_terms(2, 1, 0, 4, 0, 1), two_pairs, one_term(6, 1, 0));
    substitute_gives(sum_of("a+b+c"), put_for(0, sum_of("b+c")), sum_of("2*b+2*c"));

    about = "substitute: the sum at fault";
    substitute_refuses(with(square(), 0), none(), REEVEBOOM_SUM, SQUARE_BYTES);
    substitute_refuses(none(), no_b, REEVEBOOM_SUM, 0);
    substitute_refuses(none(), none(), REEVEBOOM_SUM, 0);
    about = "substitute: the list at fault";
    substitute_refuses(square(), none(), REEVEBOOM_LIST, 0);
    substitute_refuses(square(), BYTES(MOST_PAIRS + 1), REEVEBOOM_LIST, 0);
    substitute_refuses(square(), BYTES(128, 0), REEVEBOOM_LIST, 0);
    substitute_refuses(square(), BYTES(1), REEVEBOOM_LIST, 1);
    substitute_refuses(square(), BYTES(1, 1, 1, 2), REEVEBOOM_LIST, 4);
    substitute_refuses(square(), BYTES(1, 1, 1, 0), REEVEBOOM_LIST, 3);
    substitute_refuses(square(), with(no_b, 5), REEVEBOOM_LIST, 3);
    substitute_refuses(square(), BYTES(1, VARIABLES), REEVEBOOM_VARIABLE, 1);
    substitute_refuses(square(), BYTES(2, 1, 0, VARIABLES, 0), REEVEBOOM_VARIABLE, 3);
    about = "substitute: a pair that is refused";
    substitute_refuses(a_squared, put_for(0, one_term(2, 0, MOST_DEGREE / 2 + 1)), REEVEBOOM_DEGREE, 0);
    substitute_refuses(a_squared, put_for(0, heaviest(0)), REEVEBOOM_WEIGHT, 0);
    substitute_refuses(a_squared, put_for(0, wide), REEVEBOOM_SPREAD, 0);
    list = BYTES(2, 1, 0, 0);
    add_all(&list, wide);
    substitute_refuses(a_squared, list, REEVEBOOM_SPREAD, 1);
}

static void write_gives(Bytes sum, const char *text) {
    about = text;
    gives(WRITE, FROM(sum), TO(typed(text)));
}

/* A text that is written as it is typed. */
static void same_text(const char *text) { write_gives(sum_of(text), text); }

/* Written, read and simplified, a sum has the same bytes. */
static void reads_back(const char *formula) {
    static Bytes text; /* what a case is about stays after it */
    Bytes sum = sum_of(formula);
    text = with(text_of(sum), '\0');
    formula_gives((const char *)text.bytes, sum);
}

/* Numbers about the powers of ten, where they have a digit more. */
static void digits(void) {
    static char text[64];
    for (int64_t ten = 10; ten <= MOST_WEIGHT / 10; ten *= 10) {
        sprintf(text, "%" PRId64 "*a^2-%" PRId64 "*a+%" PRId64, ten - 1, ten, ten + 1);
        same_text(text);
        reads_back(text);
    }
}

static void written_texts(void) {
    Bytes all = BYTES(1), minus = BYTES(1), minus_a;

    add_powers(&all, 2, "11111111");
    add_negative(&minus, (uint64_t)MOST_WEIGHT);
    minus_a = minus;
    add_a_b(&minus, 0, 0);
    add_a_b(&minus_a, 1, 0);

    write_gives(square(), "a^2+2*a*b");
    write_gives(BYTES(0), "0");
    write_gives(one_term(2, 0, 0), "1");
    write_gives(one_term(1, 0, 0), "-1");
    write_gives(one_term(2, 1, 0), "a");
    write_gives(one_term(1, 1, 0), "-a");
    write_gives(one_term(3, 1, 0), "-2*a");
    write_gives(two_terms(3, 1, 0, 2, 0, 1), "-2*a+b");
    write_gives(two_terms(2, 2, 0, 3, 1, 0), "a^2-2*a");
    write_gives(two_terms(1, 0, 1, 1, 0, 0), "-b-1");
    write_gives(one_term(2, MOST_DEGREE, 0), "a^60");
    write_gives(one_term(1, 0, MOST_DEGREE), "-b^60");
    write_gives(heaviest(0), "4611686018427387904");
    write_gives(heaviest(1), "4611686018427387904*a");
    write_gives(minus, "-4611686018427387904");
    write_gives(minus_a, "-4611686018427387904*a");
    write_gives(all, "a*b*c*d*e*f*g*h");
}

/* More of them, whose sums come from texts; and what is read back. */
static void texts_again(void) {
    static const char *const same[] = {
        "h", "-h^2", "c*h", "9*b^9", "10*b^10", "99*b^11*g^49", "a^2-2*a*b+b^2-1", "a*h^59-3*b*c^19*d^20*e^20+b^2-f*g-2*h+1",
        "a^10*b^10*c^10*d^10*e^10*f^4*g^3*h^3", "-4611686018427387904*a^10*b^10*c^10*d^10*e^10*f^4*g^3*h^3", "4611686018427387903*a-1"
    };
    static const char *const others[] = {
        "a-a", "(a+b)^2-b^2", "(a*b*c*d-e*f)^4+4*a*b*c*d*e*f*(e^2*f^2+a^2*b^2*c^2*d^2)", "(2*a-1)^6", "1-(a+b+c)^2-(d*e*f*g*h)^12"
    };
    Bytes many = text_of(sum_of("(a+b)^20")), too_long = text_of(sum_of("(2*a+3*b-5*c+7*d-11*e+13*f-17*g+19*h)^3"));

    digits();
    for (size_t i = 0; i < sizeof same / sizeof *same; i++) {
        same_text(same[i]);
        reads_back(same[i]);
    }
    for (size_t i = 0; i < sizeof others / sizeof *others; i++) reads_back(others[i]);

    about = "texts that are written and not read: too many nodes, and too many bytes";
    check(many.length <= MOST_TEXT && too_long.length > MOST_TEXT, "their lengths");
    refuses(TEXT, FROM(many), REEVEBOOM_NODES, 0);
    refuses(TEXT, FROM(too_long), REEVEBOOM_TEXT, MOST_TEXT);
}

static void write_refuses(Bytes sum, size_t place) { refuses(WRITE, FROM(sum), REEVEBOOM_SUM, place); }

static void unwritten(void) {
    about = "write: sums at fault";
    write_refuses(none(), 0);
    write_refuses(cut(square(), 1), 1);
    write_refuses(cut(square(), 1 + TERM_BYTES), 1 + TERM_BYTES);
    write_refuses(cut(square(), SQUARE_BYTES - 1), SQUARE_BYTES - 1);
    write_refuses(with(square(), 0), SQUARE_BYTES);
    write_refuses(BYTES(0, 0), 1);
    write_refuses(BYTES(129, 1), 0);
    write_refuses(BYTES(128, 0), 0);
    write_refuses(one_term(0, 1, 0), 1);
    write_refuses(one_term(2, MOST_DEGREE + 1, 0), 2);
    write_refuses(one_term(2, MOST_DEGREE, 1), 3);
    write_refuses(with(heaviest(0), 0), 1 + LONGEST_TERM_BYTES);
    write_refuses(two_terms(2, 1, 0, 2, 1, 0), 1 + TERM_BYTES);
    write_refuses(two_terms(2, 1, 0, 0, 0, 1), 1 + TERM_BYTES);
}

static int64_t power(int64_t base, int exponent) { return exponent == 0 ? 1 : base * power(base, exponent - 1); }

static void estimate_gives(Bytes sum, Bytes readings, Bytes tolerances, int64_t estimate, int64_t margin) {
    gives(ESTIMATE, FROM(sum, readings, tolerances), TO(answer(estimate, margin)));
}

static void estimate_refuses(Bytes sum, Bytes readings, Bytes tolerances, unsigned refusal, size_t place) {
    refuses(ESTIMATE, FROM(sum, readings, tolerances), refusal, place);
}

static void estimates(void) {
    Bytes a_squared = one_term(2, 2, 0), large = sum_of("4294967296*a^2"), larger = sum_of("4294967296*a^2+1"), third = measured(0, 0), last = measured(0, 0);
    const int64_t plain = (int64_t)4294967296 * 32767 * 32767;

    third.bytes[2 * 2 + 1] = 128;
    last.bytes[REEVEBOOM_READING_BYTES - 2] = 255;
    last.bytes[REEVEBOOM_READING_BYTES - 1] = 255;

    about = "estimate";
    estimate_gives(square(), measured(10, 3), measured(1, 2), 160, 71);
    estimate_gives(square(), measured(11, 5), measured(0, 0), 231, 0);
    estimate_gives(a_squared, measured(-3, 0), measured(1, 0), 9, 7);
    estimate_gives(large, measured(32767, 0), measured(1, 0), plain, MOST_WEIGHT - plain);
    estimate_gives(BYTES(0), measured(-32768, 0), measured(32767, 0), 0, 0);
    about = "estimate: high powers, many terms, and values below 0";
    estimate_gives(sum_of("-3*a^8*b^9"), measured(-2, 1), measured(1, 0), -768, 3 * power(3, 8) - 768);
    estimate_gives(sum_of("(a+b)^20"), measured(2, 1), measured(1, 0), power(3, 20), power(4, 20) - power(3, 20));
    estimate_gives(sum_of("(a-b)^20"), measured(1, 3), measured(1, 2), power(2, 20), power(7, 20) - power(4, 20));
    estimate_gives(sum_of("(a-b)^21"), measured(1, 3), measured(1, 2), -power(2, 21), power(7, 21) - power(4, 21));
    estimate_gives(sum_of("(a-b)^60"), measured(1, 0), measured(0, 1), 1, power(2, 60) - 1);
    about = "estimate: refusals";
    estimate_refuses(larger, measured(32767, 0), measured(1, 0), REEVEBOOM_RANGE, 0);
    estimate_refuses(with(square(), 0), none(), none(), REEVEBOOM_SUM, SQUARE_BYTES);
    estimate_refuses(none(), none(), none(), REEVEBOOM_SUM, 0);
    estimate_refuses(none(), measured(0, 0), measured(0, 0), REEVEBOOM_SUM, 0);
    estimate_refuses(square(), with(measured(0, 0), 0), measured(0, 0), REEVEBOOM_READING, 0);
    estimate_refuses(square(), measured(0, 0), none(), REEVEBOOM_READING, 0);
    estimate_refuses(square(), measured(0, 0), third, REEVEBOOM_READING, 2);
    estimate_refuses(square(), measured(0, 0), last, REEVEBOOM_READING, VARIABLES - 1);
}

/* The scope's main case, one operation after another. */
static void one_after_another(void) {
    Bytes sum = sum_of("(a+b)^2-b^2");

    about = "(a+b)^2-b^2, from its text on";
    check(sum.length == SQUARE_BYTES, "its length");
    comes_back(sum, 2);
    gives(SLOPE, FROM(sum, number(0)), TO(two_terms(4, 1, 0, 4, 0, 1)));
    substitute_gives(sum, BYTES(1, 1, 0), one_term(2, 2, 0));
    estimate_gives(sum, measured(10, 3), measured(1, 2), 160, 71);
    write_gives(sum, "a^2+2*a*b");
}

/* The largest sum, in every operation. */
static void largest_sums(void) {
    static const char text[] = "36028797018963968*a*(1+b)*(1+c)*(1+d)*(1+e)*(1+f)*(1+g)*(1+h)";
    Bytes sum = longest(1), slope_by_a = longest(0), heavy = too_heavy(), ones = measured_all(1, 1, 1), minus_a = measured_all(-1, 1, 1), cut_off, list;
    Bytes patterns = none(), coefficients = none();

    formula_gives(text, sum);
    about = "the longest sum";
    check(sum.length == LONGEST_BYTES, "its length");
    comes_back(sum, MOST_TERMS);
    gives(SLOPE, FROM(sum, number(0)), TO(slope_by_a));
    gives(SLOPE, FROM(slope_by_a, number(0)), TO(BYTES(0)));
    list = put_for(0, one_term(2, 0, 0));
    substitute_gives(sum, list, slope_by_a);
    substitute_gives(slope_by_a, list, slope_by_a);
    estimate_gives(sum, ones, measured(0, 0), MOST_WEIGHT, 0);
    estimate_gives(sum, minus_a, measured(0, 0), -MOST_WEIGHT, 0);
    estimate_refuses(sum, ones, measured(1, 0), REEVEBOOM_RANGE, 0);
    about = "one byte less, and one more";
    cut_off = cut(sum, LONGEST_BYTES - 1);
    refuses(UNPACK, FROM(cut_off), REEVEBOOM_SUM, LONGEST_BYTES - 1);
    write_refuses(cut_off, LONGEST_BYTES - 1);
    estimate_refuses(cut_off, ones, ones, REEVEBOOM_SUM, LONGEST_BYTES - 1);
    refuses(UNPACK, FROM(with(sum, 0)), REEVEBOOM_SUM, LONGEST_BYTES);
    write_refuses(with(sum, 0), LONGEST_BYTES);
    estimate_refuses(with(sum, 0), ones, ones, REEVEBOOM_SUM, LONGEST_BYTES);

    about = "as many bytes as a result area has";
    check(heavy.length == REEVEBOOM_RESULT_BYTES, "their number");
    refuses(UNPACK, FROM(heavy), REEVEBOOM_SUM, 2 + LONGEST_TERM_BYTES);
    refuses(SLOPE, FROM(heavy, number(0)), REEVEBOOM_SUM, 2 + LONGEST_TERM_BYTES);
    substitute_refuses(heavy, BYTES(0), REEVEBOOM_SUM, 2 + LONGEST_TERM_BYTES);
    write_refuses(heavy, 2 + LONGEST_TERM_BYTES);
    estimate_refuses(heavy, ones, ones, REEVEBOOM_SUM, 2 + LONGEST_TERM_BYTES);
    for (int i = 0; i < MOST_TERMS; i++) {
        add_all(&patterns, WORDS(0));
        add_all(&coefficients, NUMBERS(MOST_WEIGHT));
    }
    pack_refuses(MOST_TERMS, patterns, coefficients, REEVEBOOM_SUM, 1);
}

/* The text of the longest sum, and the longest text. */
static void largest_texts(void) {
    Bytes text = text_of_longest();
    Spelled most = longest_text();

    about = "the text of the longest sum";
    gives(WRITE, FROM(longest(1)), TO(text));
    refuses(TEXT, FROM(text), REEVEBOOM_TEXT, MOST_TEXT);
    about = "the longest text";
    check(most.text.length == LONGEST_TEXT, "its length");
    gives(WRITE, FROM(most.sum), TO(most.text));
    write_refuses(cut(most.sum, most.sum.length - 1), most.sum.length - 1);
    write_refuses(with(most.sum, 0), most.sum.length);
}

/* Slices that are only read may overlap: each of these cases is called that way too. */
static void overlaps(void) {
    Bytes sum = square(), wanted = sum_of("2*a^3+4*a^2*b+a^2"), both = measured(10, 3), a_alone = WORDS(word(0, 1));
    int before = shared_calls;

    /* the sum that is put for b is the very one that it is put into */
    about = "a sum inside the list";
    substitute_gives(sum, put_for(1, sum), wanted);
    /* two pairs: c, whose sum has two terms, of coefficients 0 and so on */
    about = "a list that is the sum";
    substitute_refuses(sum, sum, REEVEBOOM_LIST, 3);
    about = "readings that are the tolerances";
    estimate_gives(sum, both, both, 160, 640 - 160);
    /* ten terms, of which the first has the coefficient 0 */
    about = "a sum that is the readings and the tolerances";
    estimate_refuses(both, both, both, REEVEBOOM_SUM, 1);
    about = "patterns that are the coefficients";
    gives(PACK, FROM(number(1), a_alone, a_alone), TO(coded_term(BYTES(128, 128, 128, 128, 128, 128, 128, 128, 2), 1)));

    about = "overlaps";
    check(shared_calls == before + 5, "each was lent as one slice");
}

/* Each refusal has a name, and a sentence of its own. */
static void refusals(void) {
    static const char *const names[] = { "DONE", "ROOM", "SHAPE", "NODE", "DEGREE", "WEIGHT", "SPREAD", "SUM", "LIST", "VARIABLE", "READING", "RANGE", "TEXT", "NODES" };
    enum { NAMES = sizeof names / sizeof *names };
    static const unsigned unknown[] = { NAMES, NAMES + 1, 65535, 4294967295u };

    about = "names and sentences";
    for (unsigned r = 0; r < NAMES; r++) {
        check(strcmp(reeveboom_refusal_name(r), names[r]) == 0, names[r]);
        for (unsigned q = 0; q < r; q++) check(strcmp(reeveboom_refusal_sentence(r), reeveboom_refusal_sentence(q)) != 0, names[r]);
    }
    for (size_t i = 0; i < sizeof unknown / sizeof *unknown; i++) {
        check(strcmp(reeveboom_refusal_name(unknown[i]), "UNKNOWN") == 0, "a number that is no refusal");
        check(strcmp(reeveboom_refusal_sentence(unknown[i]), "there is no such refusal") == 0, "its sentence");
    }
    about = "the parts of any number";
    taken_apart(0, 0, 0);
    taken_apart(65535, 0, 65535);
    taken_apart(65536, REEVEBOOM_ROOM, 0);
    refused(NARROW, REEVEBOOM_SUM, 65535);
    refused(NARROW, REEVEBOOM_NODES, 65535);
    refused(WIDE, REEVEBOOM_ROOM, 0);
    refused(WIDE, REEVEBOOM_TEXT, MOST_TEXT);
    refused(WIDE, REEVEBOOM_NODES, 4294967295u);
    check(REEVEBOOM_VERSION == 402, "the version");
}

static void all(void) {
    texts();
    tables();
    packed_sums();
    slopes();
    lists();
    written_texts();
    texts_again();
    unwritten();
    estimates();
    one_after_another();
    largest_sums();
    largest_texts();
    overlaps();
}

int main(void) {
    refusals();
    standing = ON_THE_HEAP;
    all();
    standing = AT_THE_EDGE;
    all();
    each_was_tried();
    if (failures != 0) {
        printf("host: %d of %d checks failed\n", failures, checks);
        return 1;
    }
    printf("host: %d checks passed\n", checks);
    return 0;
}
