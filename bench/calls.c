/* Times the call side: checking, evaluating and writing call lists of growing length, chains and fans, with tables that the caller lends, and
   checking and evaluating with the entries' own tables. For each it prints the nanoseconds a word (evaluating: also a term), the growth from the
   length before for each doubling, and for writing the time against a copy of the same text. A second table has the evaluator's products. */
#include <stdio.h>
#include <stdlib.h>
#include <string.h>
#include <time.h>
#include "../include/virginalmimas.h"

#define HEAD(op, count) ((VM_KIND_HEAD << 29) + (op) + 32u * (count))
#define NUMBER(n) ((VM_KIND_NUMBER << 29) + (n))
#define TERM(k) ((VM_KIND_TERM << 29) + (k))
enum { EQUAL = 5, BVADD = 13, BVNOT = 9, AND = 3, BVMUL = 20, DECLARE = 21, ASSERT = 22 };

/* Processor time, so that other work on the machine counts little. */
static double now(void) {
    struct timespec t;
    clock_gettime(CLOCK_PROCESS_CPUTIME_ID, &t);
    return t.tv_sec + t.tv_nsec * 1e-9;
}

static void *room(size_t bytes) {
    void *got = malloc(bytes ? bytes : 1);
    if (!got) {
        fprintf(stderr, "bench: no memory for %zu bytes\n", bytes);
        exit(2);
    }
    memset(got, 0, bytes);
    return got;
}

static size_t declare(uint32_t *calls, size_t at, uint32_t letter, uint32_t index, uint32_t suffix, uint32_t width) {
    const uint32_t record[] = {HEAD(DECLARE, 4), NUMBER(letter), NUMBER(index), NUMBER(suffix), NUMBER(width)};
    memcpy(calls + at, record, sizeof record);
    return at + 5;
}

/* One name, then results of an operation, each of the name and the term before. */
static size_t results(uint32_t *calls, size_t words, uint32_t op, uint32_t width) {
    size_t at = declare(calls, 0, 2, 0, 0, width);
    for (uint32_t k = 0; at + 3 <= words; k++, at += 3) {
        calls[at] = HEAD(op, 2);
        calls[at + 1] = TERM(0);
        calls[at + 2] = TERM(k);
    }
    return at;
}

/* A chain: sums of 32 bits. */
static size_t chain(uint32_t *calls, size_t words) {
    return results(calls, words, BVADD, 32);
}

/* A fan: names of one bit in ascending order, each equated with the first, and an and of all the equations, which is asserted. */
static size_t fan(uint32_t *calls, size_t words) {
    uint32_t names = (uint32_t)((words - 3) / 9), k;
    size_t at = 0;
    if (names > 400000) names = 400000; /* a head counts at most 2^24 - 1 arguments; equations then go on without the and */
    for (k = 0; k < names; k++) at = declare(calls, at, 2, k, 0, 1);
    for (k = 0; k < names; k++, at += 3) {
        calls[at] = HEAD(EQUAL, 2);
        calls[at + 1] = TERM(0);
        calls[at + 2] = TERM(k);
    }
    calls[at++] = HEAD(AND, names);
    for (k = 0; k < names; k++) calls[at++] = TERM(names + k);
    calls[at++] = HEAD(ASSERT, 1);
    calls[at++] = TERM(2 * names);
    for (k = 0; at + 3 <= words; k++, at += 3) {
        calls[at] = HEAD(EQUAL, 2);
        calls[at + 1] = TERM(0);
        calls[at + 2] = TERM(k % names);
    }
    return at;
}

/* The lent tables, for n words of calls. */
struct tables { uint32_t *places; uint8_t *sorts, *names; size_t terms, name_bytes; };

static uint64_t check(const uint32_t *calls, size_t n, struct tables *t, uint64_t *sizes) {
    return vm_check_with(calls, n, sizes, 2, t->sorts, t->terms, t->names, t->name_bytes);
}

static void fail(const char *what, uint64_t packed) {
    fprintf(stderr, "bench: %s answered %llu at %llu\n", what, (unsigned long long)VM_NUMBER(packed), (unsigned long long)VM_VALUE(packed));
    exit(1);
}

/* The best time of a few runs of a statement. */
#define BEST(result, statement)                                                                                                            \
    do {                                                                                                                                   \
        result = 1e9;                                                                                                                      \
        double spent = 0;                                                                                                                  \
        for (int run = 0; run < 20 && spent < 1.0; run++) {                                                                                \
            double start = now();                                                                                                          \
            statement;                                                                                                                     \
            double took = now() - start;                                                                                                   \
            spent += took;                                                                                                                 \
            if (took < result) result = took;                                                                                              \
        }                                                                                                                                  \
    } while (0)

/* The longest list that is checked and evaluated with the entries' own tables. */
#define OWN_TABLES 1100000

struct row { double check, evaluate, write, own_check, own_evaluate; size_t words; };

static struct row measure(const char *shape, size_t (*make)(uint32_t *, size_t), size_t words, struct row before) {
    uint32_t *calls = room(words * sizeof *calls);
    size_t n = make(calls, words), text_bytes;
    struct tables t = {room(n * 4), room(n), room(n * 9 / 8 * 9), n, n * 9 / 8 * 9};
    uint64_t sizes[2], packed;
    struct row row = {0, 0, 0, 0, 0, n};
    BEST(row.check, if (VM_NUMBER(packed = check(calls, n, &t, sizes))) fail("check", packed));
    uint64_t *bits = room(sizes[1] * 8), *values = room(sizes[0] * 8);
    BEST(row.evaluate, if (VM_NUMBER(packed = vm_evaluate_with(calls, n, bits, sizes[1], values, sizes[0], t.sorts, t.terms, t.names, t.name_bytes)))
                           fail("evaluate", packed));
    if (n <= OWN_TABLES) {
        BEST(row.own_check, if (VM_NUMBER(packed = vm_check(calls, n, sizes, 2))) fail("check, own tables", packed));
        BEST(row.own_evaluate, if (VM_NUMBER(packed = vm_evaluate(calls, n, bits, sizes[1], values, sizes[0]))) fail("evaluate, own tables", packed));
    }
    packed = vm_script_with(calls, n, NULL, 0, NULL, 0, t.places, t.terms, t.sorts, t.terms, t.names, t.name_bytes);
    if (VM_NUMBER(packed) != 15) fail("script", packed);
    text_bytes = VM_VALUE(packed);
    uint8_t *text = room(text_bytes), *copy = room(text_bytes);
    BEST(row.write, if (VM_NUMBER(packed = vm_script_with(calls, n, NULL, 0, text, text_bytes, t.places, t.terms, t.sorts, t.terms, t.names, t.name_bytes)))
                        fail("script", packed));
    double copied;
    BEST(copied, memcpy(copy, text, text_bytes));
    double doublings = 0;
    for (double ratio = before.words ? (double)n / before.words : 1; ratio > 1.01; ratio /= 2) doublings += ratio < 2 ? ratio - 1 : 1;
    printf("| %s | %zu | %.1f | %.1f | %.1f |", shape, n, row.check / n * 1e9, row.evaluate / n * 1e9, row.evaluate / sizes[0] * 1e9);
    if (n <= OWN_TABLES) printf(" %.1f | %.1f |", row.own_check / n * 1e9, row.own_evaluate / n * 1e9);
    else printf(" | |");
    printf(" %.1f | %.1f |", row.write / n * 1e9, row.write / copied);
    if (before.words) {
        double per = 1 / doublings, c = row.check / before.check, e = row.evaluate / before.evaluate, w = row.write / before.write;
        printf(" %.2f, %.2f, %.2f |\n", __builtin_pow(c, per), __builtin_pow(e, per), __builtin_pow(w, per));
    } else {
        printf(" |\n");
    }
    fflush(stdout);
    free(calls), free(t.places), free(t.sorts), free(t.names), free(bits), free(values), free(text), free(copy);
    return row;
}

/* The nanoseconds a term that evaluating a chain of one operation takes. The name is odd, so that products do not come to 0, and half of its bits
   are 1. */
static double term_time(uint32_t op, uint32_t width) {
    size_t words = 131072;
    uint32_t *calls = room(words * sizeof *calls);
    size_t n = results(calls, words, op, width);
    struct tables t = {room(n * 4), room(n), room(n * 9 / 8 * 9), n, n * 9 / 8 * 9};
    uint64_t sizes[2], packed, bits = 0x9e3779b97f4a7c15u >> (64 - width) | 1;
    if (VM_NUMBER(packed = check(calls, n, &t, sizes))) fail("check", packed);
    uint64_t *values = room(sizes[0] * 8);
    double best;
    BEST(best, if (VM_NUMBER(packed = vm_evaluate_with(calls, n, &bits, 1, values, sizes[0], t.sorts, t.terms, t.names, t.name_bytes)))
                   fail("evaluate", packed));
    free(calls), free(t.places), free(t.sorts), free(t.names), free(values);
    return best / sizes[0] * 1e9;
}

int main(int argc, char **argv) {
    const size_t lengths[] = {16384, 131072, 1048576, 33554432};
    size_t most = argc > 1 ? strtoull(argv[1], NULL, 10) : 4;
    printf("| list | words | check, ns a word | evaluate, ns a word | ns a term | check, own tables | evaluate, own tables | write, ns a word "
           "| against a copy | growth per doubling: check, evaluate, write |\n|---|---|---|---|---|---|---|---|---|---|\n");
    for (int fans = 0; fans < 2; fans++) {
        struct row before = {0};
        for (size_t i = 0; i < 4 && i < most; i++) before = measure(fans ? "fan" : "chain", fans ? fan : chain, lengths[i], before);
    }
    const uint32_t widths[] = {1, 17, 64};
    printf("\n| width | evaluate a chain of sums, ns a term | of products, ns a term |\n|---|---|---|\n");
    for (size_t i = 0; i < 3; i++) printf("| %u | %.1f | %.1f |\n", widths[i], term_time(BVADD, widths[i]), term_time(BVMUL, widths[i]));
    return 0;
}
