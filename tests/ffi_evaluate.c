/* Evaluates call lists through vm_evaluate; exits with 1 where one is not as the header says. */
#include <stdio.h>
#include <string.h>
#include "../include/virginalmimas.h"

#define HEAD(op, count) ((2u << 29) + (op) + 32u * (count))
#define NUMBER(n) ((3u << 29) + (n))
#define TERM(k) ((4u << 29) + (k))

static int failed = 0;

static void expect(const char *what, int holds) {
    if (!holds) {
        printf("%s: not as expected\n", what);
        failed = 1;
    }
}

/* The four divisions of the least signed number, by minus one and by zero; no operation after them is known. */
static void divisions(void) {
    uint32_t calls[] = {HEAD(21, 4), NUMBER(2), NUMBER(0), NUMBER(0), NUMBER(64),
                        HEAD(21, 4), NUMBER(2), NUMBER(1), NUMBER(0), NUMBER(64), HEAD(24, 2), TERM(0), TERM(1),
                        HEAD(25, 2), TERM(0),   TERM(1),   HEAD(26, 2), TERM(0), TERM(1), HEAD(27, 2), TERM(0), TERM(1)};
    const uint64_t ones = ~(uint64_t)0, least = (uint64_t)1 << 63, fault = (uint64_t)1 << 48;
    const uint64_t by_minus_one[] = {least, ones, 0, least, least, 0}, by_zero[] = {least, 0, ones, least, 1, least};
    uint64_t values[6];
    size_t n = sizeof calls / sizeof *calls;
    expect("by minus one", vm_evaluate(calls, n, by_minus_one, 2, values, 6) == 0);
    expect("its values", memcmp(values, by_minus_one, sizeof values) == 0);
    expect("by zero", vm_evaluate(calls, n, by_zero, 2, values, 6) == 0 && memcmp(values, by_zero, sizeof values) == 0);
    for (uint32_t op = 28; op < 32; op++) {
        calls[19] = HEAD(op, 2);
        expect("no operation", vm_evaluate(calls, n, by_minus_one, 2, values, 6) == 19 * fault + 19);
    }
    expect("values of before", memcmp(values, by_zero, sizeof values) == 0);
}

int main(void) {
    /* t0 and t1 of 64 bits, their sum, and two assertions: the sum is t0, the sum is the sum */
    const uint32_t calls[] = {HEAD(21, 4), NUMBER(2), NUMBER(0), NUMBER(0), NUMBER(64),
                              HEAD(21, 4), NUMBER(2), NUMBER(1), NUMBER(0), NUMBER(64), HEAD(13, 2), TERM(0), TERM(1),
                              HEAD(5, 2),  TERM(2),   TERM(0),   HEAD(22, 1), TERM(3), HEAD(5, 2), TERM(2), TERM(2),
                              HEAD(22, 1), TERM(4),   HEAD(23, 0)};
    const uint64_t ones = ~(uint64_t)0, fault = (uint64_t)1 << 48, bits[] = {ones, 1};
    const uint64_t after[] = {ones, 1, 0, 0, 1, 7};
    uint64_t values[6] = {7, 7, 7, 7, 7, 7};
    size_t n = sizeof calls / sizeof *calls;
    expect("room", vm_evaluate(calls, n, bits, 2, values, 4) == 20 * fault + 4 && values[0] == 7);
    expect("bits", vm_evaluate(calls, n, bits, 1, values, 6) == 20 * fault + 1 && values[0] == 7);
    expect("malformed", vm_evaluate(calls, n - 2, bits, 2, values, 6) == 19 * fault + 21 && values[0] == 7);
    expect("values", vm_evaluate(calls, n, bits, 2, values, 6) == 1 && memcmp(values, after, sizeof after) == 0);
    divisions();
    printf(failed ? "ffi_evaluate: failed\n" : "ffi_evaluate: ok\n");
    return failed;
}
