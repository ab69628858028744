/* Times vm_order on lists of growing length, of four shapes and with as many nodes as slots: for each the nanoseconds a list word, those of vm_read
   on the same list, and the growth from the length before for each doubling of the nodes. A time is the least of many runs, in rounds in which the
   lists take turns. */
#include <stdio.h>
#include <stdlib.h>
#include <time.h>
#include "../include/virginalmimas.h"

#define HEAD(op, count) ((VM_KIND_HEAD << 29) + (op) + 32u * (count))
#define NUMBER(n) ((VM_KIND_NUMBER << 29) + (n))
#define SLOT(i) (2 + (uint32_t)(i))
enum { BUF = 1, AIG = 8, MOST = 4096 };

static uint32_t list[4 + 3 * MOST], slots[MOST];

/* By the clock: the least of many short runs has no other work in it. Processor time tells too little for some of them. */
static double now(void) {
    struct timespec t;
    clock_gettime(CLOCK_MONOTONIC, &t);
    return t.tv_sec + t.tv_nsec * 1e-9;
}

static size_t header(uint32_t nodes) {
    list[0] = NUMBER(nodes), list[1] = list[2] = list[3] = NUMBER(0);
    return 4;
}

static size_t buf(size_t at, uint32_t net) {
    list[at] = HEAD(BUF, 2), list[at + 1] = NUMBER(1), list[at + 2] = net;
    return at + 3;
}

/* A chain: each Buf reads the next one, the last a constant. The order runs from the last to the first. */
static size_t chain(uint32_t nodes) {
    size_t at = header(nodes);
    for (uint32_t i = 0; i < nodes; i++) at = buf(at, i + 1 < nodes ? SLOT(i + 1) : 0);
    return at;
}

/* A fan: every Buf reads the last one, which reads a constant. */
static size_t fan(uint32_t nodes) {
    size_t at = header(nodes);
    for (uint32_t i = 0; i < nodes; i++) at = buf(at, i + 1 < nodes ? SLOT(nodes - 1) : 0);
    return at;
}

/* A ladder: each Aig reads the two before it, the first two constants. */
static size_t ladder(uint32_t nodes) {
    size_t at = header(nodes);
    for (uint32_t i = 0; i < nodes; i++, at += 3) {
        list[at] = HEAD(AIG, 2);
        list[at + 1] = i < 2 ? 0 : SLOT(i - 2);
        list[at + 2] = i < 2 ? 1 : SLOT(i - 1);
    }
    return at;
}

/* A loop: each Buf reads the next one, the last the first. */
static size_t loop(uint32_t nodes) {
    size_t at = header(nodes);
    for (uint32_t i = 0; i < nodes; i++) at = buf(at, SLOT((i + 1) % nodes));
    return at;
}

/* Takes the time of a few runs of an entry, where it is less than the least so far. */
#define LESSEN(least, wanted, call)                                                                                                        \
    for (int run = 0; run < 100; run++) {                                                                                                  \
        double start = now();                                                                                                              \
        uint64_t packed = call;                                                                                                            \
        double took = now() - start;                                                                                                       \
        if (took < least) least = took;                                                                                                    \
        if (packed != (wanted)) {                                                                                                          \
            fprintf(stderr, "bench: answered %llx\n", (unsigned long long)packed);                                                         \
            exit(1);                                                                                                                       \
        }                                                                                                                                  \
    }

enum { SHAPES = 4, SIZES = 3, ROUNDS = 40 };

int main(void) {
    const struct { const char *name; size_t (*make)(uint32_t); } shapes[SHAPES] = {{"chain", chain}, {"fan", fan}, {"ladder", ladder}, {"loop", loop}};
    const uint32_t sizes[SIZES] = {256, 1024, 4096};
    double order[SHAPES][SIZES], read[SHAPES][SIZES];
    for (int round = 0; round < ROUNDS; round++) {
        for (size_t i = 0; i < SHAPES; i++) {
            for (size_t k = 0; k < SIZES; k++) {
                size_t n = shapes[i].make(sizes[k]);
                if (round == 0) order[i][k] = read[i][k] = 1e9;
                LESSEN(order[i][k], ((uint64_t)(shapes[i].make == loop) << 47) | sizes[k], vm_order(list, n, slots, MOST));
                LESSEN(read[i][k], sizes[k], vm_read(list, n));
            }
        }
    }
    printf("| list | nodes | words | vm_order, us | ns a word | vm_read, ns a word | growth per doubling |\n|---|---|---|---|---|---|---|\n");
    for (size_t i = 0; i < SHAPES; i++) {
        for (size_t k = 0; k < SIZES; k++) {
            size_t n = shapes[i].make(sizes[k]);
            printf("| %s | %u | %zu | %.1f | %.1f | %.1f |", shapes[i].name, sizes[k], n, order[i][k] * 1e6, order[i][k] / n * 1e9, read[i][k] / n * 1e9);
            if (k > 0) printf(" %.2f |\n", __builtin_sqrt(order[i][k] / order[i][k - 1]));
            else printf(" |\n");
        }
    }
    return 0;
}
