/* The limits of the rules that include/reeveboom.h has no names for: the tests reach them, and the benchmark's programs keep them. */
#ifndef RULES_H
#define RULES_H

#include "reeveboom.h"

enum {
    VARIABLES = REEVEBOOM_VARIABLES,
    MOST_TERMS = REEVEBOOM_TERM_PLACES,
    NODE_NUMBERS = 3,
    MOST_NODES = REEVEBOOM_TABLE_PLACES / NODE_NUMBERS,
    MOST_DEGREE = 60,
    MOST_TEXT = 1024,
    MOST_BRACKETS = 16,
    MOST_PAIRS = 8
};

#endif
