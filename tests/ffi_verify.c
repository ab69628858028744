/* Verifies lists through vm_verify and counts them through vm_counts, and both in every mode; exits with 1 where an
   answer or a slice is not as the header says. */
#include <stdio.h>
#include <string.h>
#include "../include/virginalmimas.h"

#define NET(p) ((uint32_t)(p))
#define SLOT(i) NET(2 + (i))
#define HEAD(op, count) ((2u << 29) + (op) + 32u * (count))
#define NUM(n) ((3u << 29) + (uint32_t)(n))
#define TERM(k) ((4u << 29) + (uint32_t)(k))
#define FAULT(number, place) (((uint64_t)(number) << 48) | (uint64_t)(place))
#define ASKED ((uint64_t)1 << 47)

enum { ROOM = 1200, SLOTS = 8 };

static int failed = 0;
static uint32_t calls[ROOM], filled[ROOM];
static uint8_t recorded[SLOTS], blank[SLOTS];

static void expect(const char *what, int holds) {
    if (!holds) {
        printf("%s: not as expected\n", what);
        failed = 1;
    }
}

/* Both slices as they were. */
static int untouched(void) {
    return memcmp(calls, filled, sizeof calls) == 0 && memcmp(recorded, blank, sizeof recorded) == 0;
}

static void fresh(void) {
    memcpy(calls, filled, sizeof calls);
    memcpy(recorded, blank, sizeof recorded);
}

/* vm_verify, held to what the two modes do with the same list and slices: the lists that come here have no net of a Dff
   replaced by a Dff's. In no other mode is the list looked at. */
static uint64_t verified(const uint32_t *list, size_t len, size_t c, size_t r) {
    uint32_t words[ROOM];
    uint8_t marks[SLOTS];
    uint64_t answer = vm_verify(list, len, calls, c, recorded, r);
    for (uint32_t mode = 0; mode < 2; mode++) {
        memcpy(words, filled, sizeof words);
        memcpy(marks, blank, sizeof marks);
        expect("no mode", vm_verify_mode(mode + 2, list, len, words, c, marks, r) == FAULT(VM_NO_MODE, 0));
        expect("the last number", vm_verify_mode(UINT32_MAX - mode, list, len, words, c, marks, r) == FAULT(VM_NO_MODE, 0));
        expect("slices stay", !memcmp(words, filled, sizeof words) && !memcmp(marks, blank, sizeof marks));
        expect("in a mode", vm_verify_mode(mode, list, len, words, c, marks, r) == answer);
        expect("word for word, mark for mark", !memcmp(words, calls, sizeof words) && !memcmp(marks, recorded, sizeof marks));
    }
    return answer;
}

/* vm_counts, held to the two modes in the same way. */
static uint64_t counted(const uint32_t *list, size_t len, uint64_t *counts, size_t c) {
    uint64_t same[4], before[4];
    memcpy(before, counts, sizeof before);
    uint64_t answer = vm_counts(list, len, counts, c);
    for (uint32_t mode = 0; mode < 2; mode++) {
        memcpy(same, before, sizeof same);
        expect("counts, no mode", vm_counts_mode(mode + 2, list, len, same, c) == FAULT(VM_NO_MODE, 0));
        expect("counts stay", memcmp(same, before, sizeof same) == 0);
        expect("counts in a mode", vm_counts_mode(mode, list, len, same, c) == answer);
        expect("the same counts", memcmp(same, counts, sizeof same) == 0);
    }
    return answer;
}

static void refused(const char *what, const uint32_t *list, size_t len, size_t c, size_t r, uint64_t want) {
    fresh();
    expect(what, verified(list, len, c, r) == want && untouched());
}

/* Document 01's example, as its script shows it, record by record. */
static const uint32_t script[] = {
    HEAD(21, 4), NUM(0), NUM(0), NUM(1), NUM(1),           /* k0 n0x */
    HEAD(21, 4), NUM(0), NUM(0), NUM(2), NUM(1),           /* k1 n0y */
    HEAD(9, 1),  TERM(1),                                  /* k2 bvnot */
    HEAD(21, 4), NUM(0), NUM(1), NUM(1), NUM(1),           /* k3 n1x */
    HEAD(21, 4), NUM(0), NUM(1), NUM(2), NUM(1),           /* k4 n1y */
    HEAD(5, 2),  TERM(3), TERM(0),                         /* k5 = */
    HEAD(5, 2),  TERM(4), TERM(2),                         /* k6 = */
    HEAD(3, 2),  TERM(5), TERM(6),                         /* k7 and */
    HEAD(22, 1), TERM(7),                                  /* assert */
    HEAD(9, 1),  TERM(3),                                  /* k8 bvnot */
    HEAD(10, 2), TERM(0), TERM(3),                         /* k9 bvand */
    HEAD(5, 2),  TERM(0), TERM(9),                         /* k10 = */
    HEAD(10, 2), TERM(8), TERM(4),                         /* k11 bvand */
    HEAD(10, 2), TERM(8), TERM(1),                         /* k12 bvand */
    HEAD(5, 2),  TERM(11), TERM(12),                       /* k13 = */
    HEAD(3, 2),  TERM(10), TERM(13),                       /* k14 and */
    HEAD(3, 1),  TERM(14),                                 /* k15 and */
    HEAD(2, 1),  TERM(15),                                 /* k16 not */
    HEAD(22, 1), TERM(16),                                 /* assert */
    HEAD(23, 0)                                            /* check */
};

/* The calls of two Inputs of a bit and a division of the first by the second; its operation is put at DIVIDES. */
enum { DIVIDES = 56 };
static uint32_t division[] = {
    HEAD(21, 4), NUM(0), NUM(0), NUM(1), NUM(1),           /* k0 n0x */
    HEAD(21, 4), NUM(0), NUM(0), NUM(2), NUM(1),           /* k1 n0y */
    HEAD(21, 4), NUM(0), NUM(1), NUM(1), NUM(1),           /* k2 n1x */
    HEAD(21, 4), NUM(0), NUM(1), NUM(2), NUM(1),           /* k3 n1y */
    HEAD(4, 2),  NUM(1), NUM(0),                           /* k4 0 */
    HEAD(5, 2),  TERM(0), TERM(4),                         /* k5 = */
    HEAD(4, 2),  NUM(1), NUM(0),                           /* k6 0 */
    HEAD(5, 2),  TERM(2), TERM(6),                         /* k7 = */
    HEAD(3, 2),  TERM(5), TERM(7),                         /* k8 and: no X */
    HEAD(4, 2),  NUM(1), NUM(0),                           /* k9 0 */
    HEAD(5, 2),  TERM(3), TERM(9),                         /* k10 =: the divisor is zero */
    HEAD(2, 1),  TERM(10),                                 /* k11 not */
    HEAD(3, 2),  TERM(8), TERM(11),                        /* k12 and */
    HEAD(4, 2),  NUM(1), NUM(0),                           /* k13 0 */
    HEAD(4, 2),  NUM(1), NUM(1),                           /* k14 1 */
    HEAD(6, 3),  TERM(12), TERM(13), TERM(14),             /* k15 ite */
    0,           TERM(1), TERM(3),                         /* k16 */
    HEAD(21, 4), NUM(0), NUM(2), NUM(1), NUM(1),           /* k17 n2x */
    HEAD(21, 4), NUM(0), NUM(2), NUM(2), NUM(1),           /* k18 n2y */
    HEAD(5, 2),  TERM(17), TERM(15),                       /* k19 = */
    HEAD(5, 2),  TERM(18), TERM(16),                       /* k20 = */
    HEAD(3, 2),  TERM(19), TERM(20),                       /* k21 and */
    HEAD(22, 1), TERM(21)                                  /* assert */
};

/* Operations 23 to 26, of which the unsigned two make no call at width 0, and 27 to 31, which are none. */
static void divisions(void) {
    uint32_t list[] = {NUM(3), NUM(0), NUM(0), NUM(0), HEAD(21, 1), NUM(1), HEAD(21, 1), NUM(1), 0, NUM(1), SLOT(0),
                       SLOT(1)};
    uint32_t empty[] = {NUM(1), NUM(0), NUM(0), NUM(0), 0, NUM(0)};
    const size_t n = sizeof division / sizeof *division;
    for (uint32_t op = 23; op < 27; op++) {
        list[8] = HEAD(op, 3);
        empty[4] = HEAD(op, 1);
        division[DIVIDES] = HEAD(op + 1, 2);
        fresh();
        if (op < 25) expect("of no width", verified(empty, 6, 0, 1) == 0);
        else refused("signed, of no width", empty, 6, ROOM, SLOTS, FAULT(7, 5));
        fresh();
        expect("division", verified(list, 12, n, 3) == n && memcmp(calls, division, sizeof division) == 0);
    }
    for (uint32_t op = 27; op < 32; op++) {
        list[8] = HEAD(op, 3);
        refused("no operation", list, 12, ROOM, SLOTS, FAULT(3, 8));
    }
}

/* Twins: two flip-flops with the same data, and the net of the second replaced by that of the first. In document 01's
   notation: #4 #0 #0 #1, Input #1, Input #1, Dff #1 #0 s0 0 0 1 s1 X X, Dff #1 #0 s0 0 0 1 s1 X X, s3 s2.

   After the calls of the cells, which the list without its pair makes alone, come these, t being the terms so far; p2 and
   p3 are the pasts of s2 and s3, n2 and n3 their current nets, all of them declared by the cells. In mode 0 the ordinary
   obligation is made too: the current net of s3 against s2 as it is read, its past. It is 7 records of 20 words, and one
   argument more of the query's and. In mode 1 s2 is read current last, so its mark is 1; in mode 0 it is 2. The
   last read of the clock, s0, is its past in both. */
enum { TWINS = 30, ALONE = TWINS - 2, ORDINARY = 20 };
static const uint32_t twins[TWINS] = {
    NUM(4), NUM(0), NUM(0), NUM(1), HEAD(21, 1), NUM(1), HEAD(21, 1), NUM(1),
    HEAD(19, 9), NUM(1), NUM(0), SLOT(0), NET(0), NET(0), NET(1), SLOT(1), NET(0x1FFFFFFF), NET(0x1FFFFFFF),
    HEAD(19, 9), NUM(1), NUM(0), SLOT(0), NET(0), NET(0), NET(1), SLOT(1), NET(0x1FFFFFFF), NET(0x1FFFFFFF),
    SLOT(3), SLOT(2)
};

/* The term of a name that the first n words declare, by its letter, slot and suffix; t is set to their terms. */
static uint32_t term_of(size_t n, uint32_t letter, uint32_t slot, uint32_t suffix, uint32_t *t) {
    uint32_t found = UINT32_MAX;
    *t = 0;
    for (size_t at = 0; at < n; at += 1 + (calls[at] & 0x1FFFFFFF) / 32) {
        uint32_t op = calls[at] & 31;
        if (op == 21 && calls[at + 1] == NUM(letter) && calls[at + 2] == NUM(slot) && calls[at + 3] == NUM(suffix)) found = *t;
        *t += op != 22 && op != 23;
    }
    return found;
}

static void twin_flip_flops(void) {
    uint32_t alone[ALONE], t;
    uint64_t counts[4] = {9, 9, 9, 9};
    memcpy(alone, twins, sizeof alone);
    alone[3] = NUM(0);
    fresh();
    const size_t cells = VM_WORDS(verified(alone, ALONE, ROOM, SLOTS));
    uint32_t before[ROOM];
    memcpy(before, calls, sizeof before);
    const uint32_t p2x = TERM(term_of(cells, 1, 2, 1, &t)), p2y = TERM(term_of(cells, 1, 2, 2, &t));
    const uint32_t p3x = TERM(term_of(cells, 1, 3, 1, &t)), p3y = TERM(term_of(cells, 1, 3, 2, &t));
    const uint32_t n2x = TERM(term_of(cells, 0, 2, 1, &t)), n2y = TERM(term_of(cells, 0, 2, 2, &t));
    const uint32_t n3x = TERM(term_of(cells, 0, 3, 1, &t)), n3y = TERM(term_of(cells, 0, 3, 2, &t));
    const uint32_t step[] = {
        HEAD(5, 2),  p3x, p2x,                             /* t     = */
        HEAD(5, 2),  p3y, p2y,                             /* t + 1 = */
        HEAD(3, 2),  TERM(t), TERM(t + 1),                 /* t + 2 and */
        HEAD(22, 1), TERM(t + 2),                          /* assert: the pasts are joined */
        HEAD(9, 1),  n3x,                                  /* t + 3 bvnot */
        HEAD(10, 2), n2x, n3x,                             /* t + 4 bvand */
        HEAD(5, 2),  n2x, TERM(t + 4),                     /* t + 5 = */
        HEAD(10, 2), TERM(t + 3), n3y,                     /* t + 6 bvand */
        HEAD(10, 2), TERM(t + 3), n2y,                     /* t + 7 bvand */
        HEAD(5, 2),  TERM(t + 6), TERM(t + 7),             /* t + 8 = */
        HEAD(3, 2),  TERM(t + 5), TERM(t + 8)              /* t + 9 and: current to current */
    };
    const uint32_t inductive[] = {
        HEAD(3, 1),  TERM(t + 9),                          /* t + 10 and */
        HEAD(2, 1),  TERM(t + 10),                         /* t + 11 not */
        HEAD(22, 1), TERM(t + 11),                         /* assert */
        HEAD(23, 0)                                        /* check */
    };
    const uint32_t ported[] = {
        HEAD(9, 1),  n3x,                                  /* t + 10 bvnot */
        HEAD(10, 2), p2x, n3x,                             /* t + 11 bvand */
        HEAD(5, 2),  p2x, TERM(t + 11),                    /* t + 12 = */
        HEAD(10, 2), TERM(t + 10), n3y,                    /* t + 13 bvand */
        HEAD(10, 2), TERM(t + 10), p2y,                    /* t + 14 bvand */
        HEAD(5, 2),  TERM(t + 13), TERM(t + 14),           /* t + 15 = */
        HEAD(3, 2),  TERM(t + 12), TERM(t + 15),           /* t + 16 and: the ordinary obligation */
        HEAD(3, 2),  TERM(t + 9), TERM(t + 16),            /* t + 17 and */
        HEAD(2, 1),  TERM(t + 17),                         /* t + 18 not */
        HEAD(22, 1), TERM(t + 18),                         /* assert */
        HEAD(23, 0)                                        /* check */
    };
    const size_t induction = sizeof step / sizeof *step, n0 = cells + induction + sizeof ported / sizeof *ported;
    const size_t n1 = cells + induction + sizeof inductive / sizeof *inductive;
    const uint64_t wanted[2] = {ASKED | n0, ASKED | n1};
    const uint32_t *const tails[2] = {ported, inductive};
    const uint8_t marks[2][4] = {{2, 1, 2, 1}, {2, 1, 1, 1}};

    expect("twins without their pair", cells == 1012 && t == 270);
    expect("an obligation and its argument", n0 == n1 + ORDINARY + 1);
    for (uint32_t mode = 0; mode < 2; mode++) {
        const size_t n = VM_WORDS(wanted[mode]);
        fresh();
        expect("twins, one word short", vm_verify_mode(mode, twins, TWINS, calls, n - 1, recorded, 0) == FAULT(14, n));
        expect("twins, one mark short", vm_verify_mode(mode, twins, TWINS, calls, n, recorded, 3) == FAULT(14, 4));
        expect("twins, cut short", vm_verify_mode(mode, twins, TWINS - 1, calls, ROOM, recorded, SLOTS) == FAULT(1, TWINS - 1));
        expect("no mode for twins", vm_verify_mode(2 + mode, twins, TWINS, calls, ROOM, recorded, SLOTS) == FAULT(23, 0));
        expect("slices stay", untouched());
        expect("twins", vm_verify_mode(mode, twins, TWINS, calls, n, recorded, 4) == wanted[mode]);
        expect("the cells", memcmp(calls, before, cells * sizeof *calls) == 0);
        expect("the induction step", memcmp(calls + cells, step, sizeof step) == 0);
        expect("the rest", memcmp(calls + cells + induction, tails[mode], (n - cells - induction) * sizeof *calls) == 0);
        expect("words past them", memcmp(calls + n, filled + n, (ROOM - n) * sizeof *calls) == 0);
        expect("its marks", memcmp(recorded, marks[mode], 4) == 0 && memcmp(recorded + 4, blank + 4, SLOTS - 4) == 0);
        expect("counts of twins", vm_counts_mode(mode, twins, TWINS, counts, 3) == wanted[mode]);
        expect("their numbers", counts[0] == t + (mode ? 12 : 19) && counts[2] == n && counts[3] == 9);
        expect("counts of two numbers", vm_counts_mode(mode, twins, TWINS, counts, 2) == FAULT(14, 3));
    }
    fresh();
    expect("mode 0 in the room of mode 1", vm_verify(twins, TWINS, calls, n1, recorded, 4) == FAULT(14, n0) && untouched());
    expect("vm_verify", vm_verify(twins, TWINS, calls, n0, recorded, 4) == wanted[0]);
    expect("is mode 0", memcmp(calls + cells + induction, ported, sizeof ported) == 0 && memcmp(recorded, marks[0], 4) == 0);
    expect("vm_counts", vm_counts(twins, TWINS, counts, 3) == wanted[0]);

    expect("no mode, no list", vm_verify_mode(2, NULL, 0, NULL, 0, NULL, 0) == FAULT(23, 0));
    expect("nor counts", vm_counts_mode(UINT32_MAX, NULL, 0, NULL, 0) == FAULT(23, 0));
    expect("no list", vm_verify_mode(1, NULL, 0, NULL, 0, NULL, 0) == FAULT(1, 0));
    expect("nor counts", vm_counts_mode(1, NULL, 0, NULL, 0) == FAULT(1, 0));
}

int main(void) {
    const uint32_t example[] = {NUM(2), NUM(0), NUM(0), NUM(1), HEAD(21, 1), NUM(1), HEAD(2, 2), NUM(1), SLOT(0),
                                SLOT(1), SLOT(0)};
    const uint32_t unchanged[] = {NUM(2), NUM(0), NUM(0), NUM(0), HEAD(21, 1), NUM(1), HEAD(2, 2), NUM(1), SLOT(0)};
    const uint32_t wide[] = {NUM(64), NUM(0), NUM(0), NUM(0), HEAD(21, 1), NUM(64)};
    const uint32_t reads_void[] = {NUM(2), NUM(0), NUM(0), NUM(0), HEAD(0, 0), HEAD(1, 2), NUM(1), SLOT(0)};
    const size_t n = sizeof script / sizeof *script;
    uint64_t counts[4] = {9, 9, 9, 9};
    uint8_t text[2048];

    memset(filled, 0xa5, sizeof filled);
    memset(blank, 0x5a, sizeof blank);

    refused("cut short", example, 10, ROOM, SLOTS, FAULT(1, 10));
    refused("above a bound", wide, 6, ROOM, SLOTS, FAULT(4, 5));
    refused("names a Void", reads_void, 8, ROOM, SLOTS, FAULT(10, 7));
    refused("calls one short", example, 11, n - 1, SLOTS, FAULT(14, n));
    refused("calls before marks", example, 11, n - 1, 0, FAULT(14, n));
    refused("marks one short", example, 11, n, 1, FAULT(14, 2));

    expect("counts cut short", counted(example, 10, counts, 0) == FAULT(1, 10));
    expect("counts of two numbers", counted(example, 11, counts, 2) == FAULT(14, 3));
    expect("they stay", counts[0] == 9 && counts[1] == 9);
    expect("counts", counted(example, 11, counts, 4) == (ASKED | n));
    expect("terms, temporaries, words", counts[0] == 17 && counts[1] == 0 && counts[2] == n && counts[3] == 9);
    expect("counts, nothing asked", counted(unchanged, 9, counts, 3) == 33);
    expect("its counts", counts[0] == 8 && counts[1] == 0 && counts[2] == 33);

    fresh();
    expect("example", verified(example, 11, n, 2) == (ASKED | n));
    expect("its calls", memcmp(calls, script, sizeof script) == 0);
    expect("words past them", memcmp(calls + n, filled + n, sizeof filled - sizeof script) == 0);
    expect("its marks", recorded[0] == 1 && recorded[1] == 1 && memcmp(recorded + 2, blank + 2, SLOTS - 2) == 0);
    expect("its script", vm_script(calls, n, recorded, 2, text, sizeof text) >> 48 == 0);

    fresh();
    expect("nothing asked", verified(unchanged, 9, ROOM, SLOTS) == 33);
    expect("its calls", memcmp(calls, script, 33 * sizeof *calls) == 0);
    expect("words past them", memcmp(calls + 33, filled + 33, (ROOM - 33) * sizeof *calls) == 0);
    expect("its marks", recorded[0] == 1 && recorded[1] == 1 && memcmp(recorded + 2, blank + 2, SLOTS - 2) == 0);

    divisions();
    twin_flip_flops();
    printf(failed ? "ffi_verify: failed\n" : "ffi_verify: ok\n");
    return failed;
}
