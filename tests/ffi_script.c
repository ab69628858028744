/* Writes a script through vm_script and reads an answer through vm_answer; exits with 1 where one is not as the header says. */
#include <stdio.h>
#include <string.h>
#include "../include/virginalmimas.h"

#define HEAD(op, count) ((2u << 29) + (op) + 32u * (count))
#define NUMBER(n) ((3u << 29) + (n))
#define TERM(k) ((4u << 29) + (k))

static int failed = 0;

static void expect(const char *what, int holds) {
    if (!holds) {
        printf("%s: not as expected\n", what);
        failed = 1;
    }
}

/* A name of 8 bits divided by itself in four ways; no operation after these is known. */
static void divisions(void) {
    uint32_t calls[] = {HEAD(21, 4), NUMBER(2), NUMBER(0), NUMBER(0), NUMBER(8), HEAD(24, 2), TERM(0), TERM(0),
                        HEAD(25, 2), TERM(0),   TERM(0),   HEAD(26, 2), TERM(0), TERM(0), HEAD(27, 2), TERM(0), TERM(0)};
    const char *script = "(set-option :produce-models true)\n(set-logic QF_BV)\n(declare-const t0 (_ BitVec 8))\n"
                         "(define-fun k1 () (_ BitVec 8) (bvudiv t0 t0))\n(define-fun k2 () (_ BitVec 8) (bvurem t0 t0))\n"
                         "(define-fun k3 () (_ BitVec 8) (bvsdiv t0 t0))\n(define-fun k4 () (_ BitVec 8) (bvsrem t0 t0))\n"
                         "; nothing asked\n";
    uint8_t text[512];
    size_t n = strlen(script);
    expect("divisions", vm_script(calls, 17, NULL, 0, text, sizeof text) == n && memcmp(text, script, n) == 0);
    for (uint32_t op = 28; op < 32; op++) {
        calls[14] = HEAD(op, 2);
        expect("no operation", vm_script(calls, 17, NULL, 0, text, sizeof text) == 19 * ((uint64_t)1 << 48) + 14);
    }
}

int main(void) {
    const uint32_t calls[] = {HEAD(21, 4), NUMBER(0), NUMBER(0), NUMBER(1), NUMBER(1),
                              HEAD(21, 4), NUMBER(0), NUMBER(0), NUMBER(2), NUMBER(1), HEAD(23, 0)};
    const char *script = "(set-option :produce-models true)\n(set-logic QF_BV)\n(declare-const n0x (_ BitVec 1))\n"
                         "(declare-const n0y (_ BitVec 1))\n(check-sat)\n(get-value (n0x n0y))\n";
    const char *answer = "sat\n((n0x #b0)\n (n0y #b1))\n";
    const uint8_t marks[] = {1}, above[] = {0, 3};
    const uint64_t fault = (uint64_t)1 << 48;
    uint8_t text[256], trits[2] = {9, 9};
    size_t n = strlen(script);
    memset(text, '.', sizeof text);
    expect("script", vm_script(calls, 11, marks, 1, text, n) == n && memcmp(text, script, n) == 0 && text[n] == '.');
    memset(text, '.', sizeof text);
    expect("room", vm_script(calls, 11, marks, 1, text, n - 1) == 15 * fault + n && text[0] == '.');
    expect("mark", vm_script(calls, 11, above, 2, text, n) == 2 * fault + 1 && text[0] == '.');
    expect("malformed", vm_script(calls, 4, marks, 1, text, n) == 19 * fault && text[0] == '.');
    expect("unsat", vm_answer((const uint8_t *)"unsat", 5, marks, 1, trits, 2) == 0 && trits[0] == 9);
    expect("unknown", vm_answer((const uint8_t *)"unknown", 7, marks, 1, trits, 2) == 18 * fault && trits[0] == 9);
    expect("sat", vm_answer((const uint8_t *)answer, strlen(answer), marks, 1, trits, 2) == 1 && trits[0] == 1 && trits[1] == 9);
    expect("table", vm_answer((const uint8_t *)answer, strlen(answer), marks, 1, trits, 0) == 15 * fault + 1);
    divisions();
    printf(failed ? "ffi_script: failed\n" : "ffi_script: ok\n");
    return failed;
}
