/* Orders lists through vm_order; exits with 1 where an answer or a slice is not as the header says. Small lists have their
   order or loop written beside them; others are made at random and held to the rule as it is worked out here. */
#include <stdio.h>
#include <string.h>
#include "../include/virginalmimas.h"

#define NET(p) ((uint32_t)(p))
#define SLOT(i) NET(2 + (i))
#define INVERTED(i) ((1u << 29) + SLOT(i))
#define HEAD(op, count) ((2u << 29) + (op) + 32u * (count))
#define NUM(n) ((3u << 29) + (uint32_t)(n))
#define FAULT(number, place) (((uint64_t)(number) << 48) | (uint64_t)(place))
#define LOOP ((uint64_t)1 << 47)
#define WORDS(list) (sizeof(list) / sizeof *(list))

/* Cells of one bit. */
#define VOID HEAD(0, 0)
#define BUF(a) HEAD(1, 2), NUM(1), a
#define NOT(a) HEAD(2, 2), NUM(1), a
#define AND(a, b) HEAD(3, 3), NUM(1), a, b
#define AIG(a, b) HEAD(8, 2), a, b
#define DFF(clock, data) HEAD(19, 9), NUM(1), NUM(0), clock, NET(0), NET(0), NET(1), data, NET(0x1FFFFFFF), NET(0x1FFFFFFF)
#define IOBUF HEAD(20, 1), NUM(1)
#define INPUT HEAD(21, 1), NUM(1)

enum { SLOTS = 4096, MOST = 16384, ROOM = SLOTS + 4, SMALL = 12 };

static int failed = 0;
static uint32_t slots[ROOM], filled[ROOM], many[MOST + 1];

static void expect(const char *what, int holds) {
    if (!holds) {
        printf("%s: not as expected\n", what);
        failed = 1;
    }
}

static int untouched(void) { return memcmp(slots, filled, sizeof slots) == 0; }

/* The answer, with the slots at the start of the slice; what stands past them stays. */
static int answers(const uint32_t *list, size_t n, size_t s, uint64_t answer, const uint32_t *want, size_t length) {
    memcpy(slots, filled, sizeof slots);
    return vm_order(list, n, slots, s) == (answer | length) && VM_LENGTH(answer | length) == length
        && memcmp(slots, want, length * sizeof *slots) == 0
        && memcmp(slots + length, filled + length, (ROOM - length) * sizeof *slots) == 0;
}

static void refused(const char *what, const uint32_t *list, size_t n, size_t s, uint64_t want) {
    memcpy(slots, filled, sizeof slots);
    expect(what, vm_order(list, n, slots, s) == want && untouched());
}

/* A list with its order or loop, in a slice with a word for each slot and in longer ones; in a shorter one it is 14. */
#define GIVES(what, answer, list, ...)                                                                                   \
    do {                                                                                                                 \
        const uint32_t want[] = {__VA_ARGS__};                                                                           \
        const size_t total = VM_VALUE(vm_read(list, WORDS(list)));                                                       \
        for (size_t s = total; s < total + 3; s++) expect(what, answers(list, WORDS(list), s, answer, want, WORDS(want))); \
        for (size_t s = 0; s < total; s++) refused(what, list, WORDS(list), s, FAULT(14, total));                        \
        refused(what, list, WORDS(list) - 1, total, vm_read(list, WORDS(list) - 1));                                     \
    } while (0)
#define ORDERS(what, list, ...) GIVES(what, 0, list, __VA_ARGS__)
#define LOOPS(what, list, ...) GIVES(what, LOOP, list, __VA_ARGS__)

static void orders(void) {
    const uint32_t chain[] = {NUM(4), NUM(0), NUM(0), NUM(0), INPUT, BUF(SLOT(0)), NOT(SLOT(1)), BUF(SLOT(2))};
    const uint32_t turned[] = {NUM(4), NUM(0), NUM(0), NUM(0), BUF(SLOT(1)), NOT(SLOT(2)), BUF(SLOT(3)), INPUT};
    const uint32_t lowest[] = {NUM(4), NUM(0), NUM(0), NUM(0), INPUT, BUF(SLOT(2)), BUF(SLOT(0)), BUF(SLOT(0))};
    const uint32_t constants[] = {NUM(2), NUM(0), NUM(0), NUM(0), AND(NET(0), NET(1)), BUF(NET(0x1FFFFFFF))};
    const uint32_t given[] = {NUM(4), NUM(0), NUM(0), NUM(0), AND(SLOT(1), SLOT(2)), IOBUF, INPUT, AIG(SLOT(0), INVERTED(1))};
    const uint32_t wide[] = {NUM(6), NUM(0), NUM(0), NUM(0), INPUT, HEAD(1, 3), NUM(2), SLOT(3), SLOT(0), /* s1 s2 */
                             HEAD(1, 3), NUM(2), SLOT(0), SLOT(5), /* s3 s4 */ NOT(SLOT(0))};
    const uint32_t no_width[] = {NUM(3), NUM(0), NUM(0), NUM(0), HEAD(1, 1), NUM(0), HEAD(22, 0), BUF(NET(1))};
    const uint32_t flip_flop[] = {NUM(3), NUM(0), NUM(0), NUM(0), INPUT, NOT(SLOT(2)), DFF(SLOT(0), SLOT(1))};
    const uint32_t replaced_void[] = {NUM(2), NUM(1), NUM(0), NUM(1), INPUT, BUF(SLOT(2)), VOID, SLOT(2), SLOT(0)};
    const uint32_t left_void[] = {NUM(2), NUM(1), NUM(0), NUM(0), INPUT, BUF(SLOT(2)), VOID};
    const uint32_t replaced_cell[] = {NUM(3), NUM(0), NUM(1), NUM(0), INPUT, BUF(SLOT(0)), NOT(SLOT(1)), NUM(1), BUF(SLOT(2))};
    const uint32_t replaced_net[] = {NUM(3), NUM(0), NUM(0), NUM(1), INPUT, BUF(SLOT(0)), NOT(SLOT(1)), SLOT(1), SLOT(2)};
    const uint32_t pattern[] = {NUM(2), NUM(0), NUM(0), NUM(0), /* s0 is Match: its position that reads s1 is not compared */
                                HEAD(17, 6), NUM(1), NUM(1), NET(1), SLOT(1), NUM(1), NET(0x1FFFFFFF), BUF(SLOT(0))};
    ORDERS("a chain", chain, 1, 2, 3);
    ORDERS("a chain from its end", turned, 2, 1, 0);
    ORDERS("the lowest ready one next", lowest, 2, 1, 3);
    ORDERS("constants", constants, 0, 1);
    ORDERS("Input and IoBuf left out", given, 0, 3);
    ORDERS("cells by their first slots", wide, 5, 3, 1);
    ORDERS("cells of no width left out", no_width, 2);
    ORDERS("a flip-flop of the base is read past", flip_flop, 1, 2);
    ORDERS("a replaced Void", replaced_void, 2, 1);
    ORDERS("a Void left out", left_void, 1);
    ORDERS("a cell replacement reads nothing", replaced_cell, 1, 2);
    ORDERS("nor does a net replacement", replaced_net, 1, 2);
    ORDERS("a position not compared", pattern, 0, 1);
}

static void loops(void) {
    const uint32_t itself[] = {NUM(2), NUM(0), NUM(0), NUM(0), INPUT, NOT(SLOT(1))};
    const uint32_t two[] = {NUM(5), NUM(0), NUM(0), NUM(0), INPUT, BUF(SLOT(2)), BUF(SLOT(1)), BUF(SLOT(4)), BUF(SLOT(3))};
    /* The lowest slot is on no loop, and reads the higher one of two. */
    const uint32_t second[] = {NUM(5), NUM(0), NUM(0), NUM(0), BUF(SLOT(3)), BUF(SLOT(2)), BUF(SLOT(1)), BUF(SLOT(4)), BUF(SLOT(3))};
    /* s0 is on two loops: s0 s3 s1 and s0 s2. */
    const uint32_t lowest[] = {NUM(4), NUM(0), NUM(0), NUM(0), AND(SLOT(3), SLOT(2)), BUF(SLOT(0)), BUF(SLOT(0)), BUF(SLOT(1))};
    const uint32_t first_met[] = {NUM(4), NUM(0), NUM(0), NUM(0), INPUT, BUF(SLOT(3)), BUF(SLOT(3)), BUF(SLOT(2))};
    const uint32_t tail[] = {NUM(5), NUM(0), NUM(0), NUM(0), BUF(SLOT(1)), BUF(SLOT(4)), BUF(SLOT(3)), BUF(SLOT(4)), BUF(SLOT(2))};
    const uint32_t got_ready[] = {NUM(4), NUM(0), NUM(0), NUM(0), INPUT, BUF(SLOT(0)), AND(SLOT(1), SLOT(3)), AIG(SLOT(0), INVERTED(2))};
    const uint32_t behind[] = {NUM(3), NUM(0), NUM(0), NUM(0), NOT(SLOT(0)), BUF(SLOT(0)), BUF(SLOT(1))};
    const uint32_t wide[] = {NUM(4), NUM(0), NUM(0), NUM(0), HEAD(1, 3), NUM(2), NET(0), SLOT(3), HEAD(1, 3), NUM(2), NET(0), SLOT(1)};
    const uint32_t of_void[] = {NUM(2), NUM(1), NUM(0), NUM(1), INPUT, BUF(SLOT(2)), VOID, SLOT(2), SLOT(1)};
    const uint32_t added[] = {NUM(1), NUM(2), NUM(0), NUM(0), INPUT, NOT(SLOT(2)), DFF(SLOT(0), SLOT(1))};
    const uint32_t pattern[] = {NUM(2), NUM(0), NUM(0), NUM(0), /* as in orders, and compared */
                                HEAD(17, 6), NUM(1), NUM(1), NET(1), SLOT(1), NUM(1), NET(1), BUF(SLOT(0))};
    LOOPS("an inverter fed by itself", itself, 1);
    LOOPS("two loops", two, 1, 2);
    LOOPS("the loop that the lowest slot comes to", second, 3, 4);
    LOOPS("to the lowest slot read", lowest, 0, 2);
    LOOPS("from the first met again", first_met, 3, 2);
    LOOPS("a tail left out", tail, 4, 2, 3);
    LOOPS("a slot that got ready is passed over", got_ready, 2, 3);
    LOOPS("what reads a loop is not on it", behind, 0);
    LOOPS("loops by first slots", wide, 0, 2);
    LOOPS("a replaced Void", of_void, 1, 2);
    LOOPS("an added flip-flop is read current", added, 1, 2);
    LOOPS("a position compared", pattern, 0, 1);
}

static void refusals(void) {
    const uint32_t itself[] = {NUM(2), NUM(0), NUM(0), NUM(0), INPUT, NOT(SLOT(1))};
    const uint32_t beyond[] = {NUM(2), NUM(0), NUM(0), NUM(0), INPUT, NOT(SLOT(2))};
    const uint32_t reads_void[] = {NUM(2), NUM(0), NUM(0), NUM(0), VOID, BUF(SLOT(0))};
    const uint32_t empty[] = {NUM(0), NUM(0), NUM(0), NUM(0)};
    refused("a list fault before 14", itself, 8, 0, FAULT(1, 8));
    refused("no slot, before 14", beyond, 9, 1, FAULT(6, 8));
    refused("names a Void, before 14", reads_void, 8, 1, FAULT(10, 7));
    refused("14 at the slots, not at the length", itself, 9, 1, FAULT(14, 2));
    expect("no slice", vm_order(itself, 9, NULL, 0) == FAULT(14, 2));
    expect("no list and no slice", vm_order(NULL, 0, NULL, 0) == FAULT(1, 0));
    expect("no slot and no slice", vm_order(empty, 4, NULL, 0) == 0);
    expect("no slot", answers(empty, 4, ROOM, 0, filled, 0));
    expect("a list too long", vm_order(many, MOST + 1, NULL, 0) == FAULT(4, MOST));
}

/* As many cells as there may be, each reading the next: the last reads a constant, itself, or the first. */
static void largest(void) {
    uint32_t want[SLOTS], n = 4;
    many[0] = NUM(SLOTS), many[1] = many[2] = many[3] = NUM(0);
    for (uint32_t i = 0; i < SLOTS; i++, n += 3) {
        many[n] = HEAD(1, 2), many[n + 1] = NUM(1), many[n + 2] = SLOT(i + 1);
        want[i] = SLOTS - 1 - i;
    }
    many[n - 1] = NET(0);
    expect("the longest chain", answers(many, n, SLOTS, 0, want, SLOTS));
    many[n - 1] = SLOT(SLOTS - 1);
    expect("the longest tail", answers(many, n, SLOTS, LOOP, want, 1));
    many[n - 1] = SLOT(0);
    for (uint32_t i = 0; i < SLOTS; i++) want[i] = i;
    expect("the longest loop", answers(many, n, ROOM, LOOP, want, SLOTS));
    refused("one word short", many, n, SLOTS - 1, FAULT(14, SLOTS));
}

static uint32_t state = 1;

static uint32_t below(uint32_t bound) {
    state = state * 1664525u + 1013904223u;
    return (uint32_t)(((uint64_t)state * bound) >> 32);
}

/* Lists of cells of one bit that read any slots, by the rule as it stands in the header. */
static void any_lists(void) {
    int looped = 0, rounds = 20000;
    for (int round = 0; round < rounds; round++) {
        uint32_t total = 1 + below(SMALL), n = 4, reads[SMALL][2], left[SMALL], met[SMALL], want[SMALL], length = 0;
        many[0] = NUM(total), many[1] = many[2] = many[3] = NUM(0);
        for (uint32_t i = 0; i < total; i++) {
            uint32_t given = below(3) == 0;
            left[i] = !given;
            for (int r = 0; r < 2; r++) reads[i][r] = below(total + total / 2);
            many[n] = given ? HEAD(21 - below(2), 1) : HEAD(8, 2);
            many[n + 1] = given ? NUM(1) : reads[i][0] < total ? SLOT(reads[i][0]) : NET(0);
            many[n + 2] = reads[i][1] < total ? INVERTED(reads[i][1]) : NET(1);
            n += given ? 2 : 3;
        }
        for (uint32_t i = 0; i < total;) {
            int ready = left[i];
            for (int r = 0; r < 2; r++) ready = ready && !(reads[i][r] < total && left[reads[i][r]]);
            if (ready) want[length++] = i, left[i] = 0, i = 0;
            else i++;
        }
        uint32_t at = 0, steps = 0;
        uint64_t loop = 0;
        while (at < total && !left[at]) at++;
        if (at < total) {
            memset(met, 0, sizeof met);
            for (; !met[at]; steps++) {
                uint32_t to = total;
                want[steps] = at, met[at] = steps + 1;
                for (int r = 0; r < 2; r++) if (reads[at][r] < to && left[reads[at][r]]) to = reads[at][r];
                at = to;
            }
            loop = LOOP, length = steps + 1 - met[at];
            memmove(want, want + met[at] - 1, length * sizeof *want);
            looped++;
        }
        expect("any list", answers(many, n, total + below(3), loop, want, length));
    }
    expect("both kinds", looped > rounds / 10 && looped < rounds - rounds / 10);
}

int main(void) {
    memset(filled, 0xa5, sizeof filled);
    orders();
    loops();
    refusals();
    largest();
    any_lists();
    printf(failed ? "ffi_order: failed\n" : "ffi_order: ok\n");
    return failed;
}
