/* Checks, evaluates and writes call lists longer than the tables that the entries have of their own, with and without lent tables: a chain, a
   fan, and a list whose records refer to terms anywhere before them. The sorts and numbers of the terms and the script are worked out here; the
   places of faults put into the last records are known. It says how long each entry takes. */
#include <stdarg.h>
#include <stdio.h>
#include <stdlib.h>
#include <string.h>
#include <time.h>
#include "../include/virginalmimas.h"

#define HEAD(op, count) ((VM_KIND_HEAD << 29) + (op) + 32u * (count))
#define NUMBER(n) ((VM_KIND_NUMBER << 29) + (n))
#define TERM(k) ((VM_KIND_TERM << 29) + (uint32_t)(k))
enum { EQUAL = 5, ITE = 6, CONCAT = 7, EXTRACT = 8, BVNOT = 9, BVAND = 10, BVADD = 13, DECLARE = 21, ASSERT = 22 };
#define MOST_WORDS ((size_t)1 << 20)
#define MOST_TERMS (MOST_WORDS / 2)
#define MOST_BYTES (64 * MOST_WORDS)

static uint32_t *calls, *places, *of_sort[65], state;
static uint64_t *values, *expected, *bits;
static uint8_t *sorts, *table, *names, *text;
static char *script;
static int64_t *name_of;
static size_t words, terms, declared, falses, bytes, many[65];

static double now(void) {
    struct timespec t;
    clock_gettime(CLOCK_PROCESS_CPUTIME_ID, &t);
    return t.tv_sec + t.tv_nsec * 1e-9;
}

static uint32_t below(uint32_t bound) {
    state = state * 1664525u + 1013904223u;
    return (uint32_t)(((uint64_t)state * bound) >> 32);
}

static uint64_t low(uint64_t value, unsigned width) { return width < 64 ? value & (((uint64_t)1 << width) - 1) : value; }

static void put(uint32_t word) { calls[words++] = word; }

/* More of the script. */
static void say(const char *format, ...) {
    va_list arguments;
    va_start(arguments, format);
    bytes += (size_t)vsprintf(script + bytes, format, arguments);
    va_end(arguments);
}

/* A term in the script: a declared one by its name, any other by its number. */
static void say_term(uint32_t k) {
    if (name_of[k] < 0) say(" k%u", k);
    else say(" t%lld", (long long)name_of[k]);
}

/* The line that defines the next term, of a sort, by an operation and n terms. */
static void define(unsigned sort, const char *operation, unsigned n, uint32_t a, uint32_t b, uint32_t c) {
    const uint32_t arguments[] = {a, b, c};
    say("(define-fun k%zu () ", terms);
    if (sort) say("(_ BitVec %u)", sort);
    else say("Bool");
    say(" (%s", operation);
    for (unsigned i = 0; i < n; i++) say_term(arguments[i]);
    say("))\n");
    name_of[terms] = -1;
}

static void made(unsigned sort, uint64_t value) {
    of_sort[sort][many[sort]++] = (uint32_t)terms;
    sorts[terms] = (uint8_t)sort;
    expected[terms++] = sort ? low(value, sort) : value;
}

static void declare(unsigned width, uint64_t value) {
    put(HEAD(DECLARE, 4)), put(NUMBER(2)), put(NUMBER((uint32_t)declared)), put(NUMBER(0)), put(NUMBER(width));
    say("(declare-const t%zu (_ BitVec %u))\n", declared, width);
    name_of[terms] = (int64_t)declared;
    bits[declared++] = low(value, width);
    made(width, value);
}

static void binary(unsigned op, uint32_t a, uint32_t b) {
    uint64_t s = expected[a], t = expected[b];
    const char *name = op == EQUAL ? "=" : op == CONCAT ? "concat" : op == BVADD ? "bvadd" : "bvand";
    put(HEAD(op, 2)), put(TERM(a)), put(TERM(b));
    define(op == EQUAL ? 0 : op == CONCAT ? sorts[a] + sorts[b] : sorts[a], name, 2, a, b, 0);
    if (op == EQUAL) made(0, s == t);
    else if (op == CONCAT) made(sorts[a] + sorts[b], (s << sorts[b]) | t);
    else made(sorts[a], op == BVADD ? s + t : s & t);
}

static void assert_term(uint32_t k) {
    put(HEAD(ASSERT, 1)), put(TERM(k));
    say("(assert"), say_term(k), say(")\n");
    falses += expected[k] == 0;
}

static void start(void) {
    words = terms = declared = falses = bytes = 0;
    memset(many, 0, sizeof many);
    state = 1;
    say("(set-option :produce-models true)\n(set-logic QF_BV)\n");
}

/* A chain: sums, each of the term before and the name. */
static void chain(size_t length) {
    declare(32, 0x9E3779B9);
    while (terms < length) binary(BVADD, (uint32_t)terms - 1, 0);
}

/* A fan: equations of the first name with every other. */
static void fan(size_t length) {
    for (size_t k = 0; k < length / 2; k++) declare(1, k % 3 == 0);
    for (uint32_t k = 0; terms < length; k++) binary(EQUAL, 0, k % (uint32_t)(length / 2));
    assert_term((uint32_t)terms - 1), assert_term((uint32_t)length / 2);
}

/* One of the terms of a sort: half the time of the latest, else any. */
static uint32_t any(unsigned sort) {
    size_t n = many[sort], near = n < 50 ? n : 50;
    return of_sort[sort][below(2) ? n - 1 - below((uint32_t)near) : below((uint32_t)n)];
}

static void spread_one(void) {
    static const unsigned widths[] = {1, 4, 16, 32, 33, 64};
    unsigned width = widths[below(6)], other;
    uint32_t a = any(width);
    switch (below(7)) {
    case 0: put(HEAD(BVNOT, 1)), put(TERM(a)), define(width, "bvnot", 1, a, 0, 0), made(width, ~expected[a]); break;
    case 1: binary(BVAND, a, any(width)); break;
    case 2: binary(BVADD, a, any(width)); break;
    case 3: binary(EQUAL, a, any(width)); break;
    case 4: {
        uint32_t i = any(0), b = any(width);
        put(HEAD(ITE, 3)), put(TERM(i)), put(TERM(a)), put(TERM(b));
        define(width, "ite", 3, i, a, b);
        made(width, expected[expected[i] ? a : b]);
        break;
    }
    case 5: binary(CONCAT, of_sort[32][below((uint32_t)many[32])], of_sort[below(2) ? 1 : 32][0]); break;
    default:
        other = widths[below(4)];
        if (other <= width) {
            char extract[32];
            sprintf(extract, "(_ extract %u %u)", width - 1, width - other);
            put(HEAD(EXTRACT, 3)), put(NUMBER(width - 1)), put(NUMBER(width - other)), put(TERM(a));
            define(other, extract, 1, a, 0, 0);
            made(other, expected[a] >> (width - other));
        }
    }
    if (below(64) == 0) assert_term(any(0));
}

static void spread(size_t length) {
    static const unsigned widths[] = {1, 4, 16, 32, 33, 64};
    for (unsigned i = 0; i < 6; i++) declare(widths[i], 0x0123456789ABCDEFull * (i + 1));
    binary(EQUAL, 0, 0);
    while (terms < length) spread_one();
}

static void fail(const char *what, uint64_t packed) {
    printf("ffi_long: %s: number %llu, value %llu\n", what, (unsigned long long)VM_NUMBER(packed), (unsigned long long)VM_VALUE(packed));
    exit(1);
}

static void same(const char *what, uint64_t packed) {
    if (VM_NUMBER(packed) || VM_VALUE(packed) != falses) fail(what, packed);
    if (memcmp(values, expected, terms * sizeof *values)) fail(what, packed);
    memset(values, 0xFF, terms * sizeof *values);
}

static void same_text(const char *what, uint64_t packed) {
    if (VM_NUMBER(packed) || VM_VALUE(packed) != bytes || memcmp(text, script, bytes)) fail(what, packed);
    memset(text, 0, bytes);
}

static void refused(const char *what, uint64_t packed, size_t place) {
    if (VM_NUMBER(packed) != 19 || VM_VALUE(packed) != place) fail(what, packed);
}

static void run(const char *shape, void (*make)(size_t), size_t length, double most) {
    uint64_t sizes[2], packed;
    double times[6], begin;
    start(), make(length), say("; nothing asked\n");
    begin = now();
    if (VM_NUMBER(packed = vm_check(calls, words, sizes, 2)) || sizes[0] != terms || sizes[1] != declared) fail("vm_check", packed);
    times[0] = now() - begin, begin = now();
    packed = vm_check_with(calls, words, sizes, 2, table, MOST_TERMS, names, 9 * MOST_TERMS);
    if (VM_NUMBER(packed) || sizes[0] != terms || sizes[1] != declared) fail("vm_check_with", packed);
    times[1] = now() - begin, begin = now();
    same("vm_evaluate", vm_evaluate(calls, words, bits, declared, values, terms));
    times[2] = now() - begin, begin = now();
    same("vm_evaluate_with", vm_evaluate_with(calls, words, bits, declared, values, terms, table, MOST_TERMS, names, 9 * MOST_TERMS));
    times[3] = now() - begin, begin = now();
    same_text("vm_script", vm_script(calls, words, NULL, 0, text, MOST_BYTES));
    times[4] = now() - begin, begin = now();
    packed = vm_script_with(calls, words, NULL, 0, text, MOST_BYTES, places, MOST_TERMS, table, MOST_TERMS, names, 9 * MOST_TERMS);
    same_text("vm_script_with", packed);
    times[5] = now() - begin;
    printf("ffi_long: %-6s %7zu terms, %7zu words: check %.1f ms (lent tables: %.1f), evaluate %.1f ms (%.1f), write %.1f ms (%.1f)\n", shape,
           terms, words, times[0] * 1e3, times[1] * 1e3, times[2] * 1e3, times[3] * 1e3, times[4] * 1e3, times[5] * 1e3);
    if (times[0] > most || times[2] > most || times[4] > most) fail("too slow", 0);
    /* Tables that are too short. */
    same_text("short tables", vm_script_with(calls, words, NULL, 0, text, MOST_BYTES, places, 1000, table, 1000, names, 900));
    /* A last record that refers to itself, to a Bool past the tables where a vector belongs, or has terms of two sorts. */
    size_t end = words;
    put(HEAD(BVNOT, 1)), put(TERM(terms));
    refused("own term", vm_check(calls, words, sizes, 2), end + 1);
    words = end;
    binary(EQUAL, (uint32_t)terms - 1, (uint32_t)terms - 1);
    put(HEAD(BVNOT, 1)), put(TERM(terms - 1));
    refused("a Bool", vm_check(calls, words, sizes, 2), end + 4);
    refused("a Bool", vm_evaluate(calls, words, bits, declared, values, terms), end + 4);
    words = end + 3;
    put(HEAD(BVADD, 2)), put(TERM(0)), put(TERM(terms - 1));
    refused("two sorts", vm_check(calls, words, sizes, 2), end + 5);
}

int main(void) {
    calls = malloc(MOST_WORDS * 4), values = malloc(MOST_TERMS * 8), expected = malloc(MOST_TERMS * 8), bits = malloc(MOST_TERMS * 8);
    text = malloc(MOST_BYTES), script = malloc(MOST_BYTES), places = malloc(MOST_TERMS * 4), name_of = malloc(MOST_TERMS * 8);
    sorts = malloc(MOST_TERMS), table = malloc(MOST_TERMS), names = malloc(9 * MOST_TERMS);
    for (unsigned i = 0; i < 65; i++) of_sort[i] = malloc(MOST_TERMS * 4);
    run("chain", chain, 65531, 1.0);
    run("chain", chain, 262144, 1.0);
    run("fan", fan, 65531, 1.0);
    run("fan", fan, 131072, 1.0);
    run("spread", spread, 45000, 5.0);
    run("spread", spread, 65531, 5.0);
    run("spread", spread, 131072, 20.0);
    return 0;
}
