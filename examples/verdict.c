/* From a design list to a verdict on one step: little-endian words from a file, the script to a solver, its reply read
   back. Whether edits that hold for one step stand when they are applied is told by vm check (docs/UNSAT.md).

       (cd crates/virginalmimas && rt lib)
       cc -O2 -o verdict examples/verdict.c crates/virginalmimas/out/libvirginalmimas.a
       ./verdict FILE [SOLVER]        the solver is a command that takes a script's name: z3 if none is named */
#define _POSIX_C_SOURCE 200809L
#include <stdio.h>
#include <stdlib.h>
#include <unistd.h>
#include "../include/virginalmimas.h"

static void *room(size_t bytes) {
    void *got = calloc(bytes ? bytes : 1, 1);
    if (!got) exit(2);
    return got;
}

/* The solver's reply to a script, and its length. */
static uint8_t *reply_to(const char *solver, const uint8_t *script, size_t bytes, size_t *length) {
    char name[] = "/tmp/verdict-XXXXXX", command[512];
    int file = mkstemp(name);
    uint8_t *reply = room(1 << 20);
    if (file < 0 || write(file, script, bytes) != (ssize_t)bytes) exit(2);
    close(file);
    snprintf(command, sizeof command, "%s %s", solver, name);
    FILE *pipe = popen(command, "r");
    if (!pipe) exit(2);
    *length = fread(reply, 1, 1 << 20, pipe);
    pclose(pipe);
    unlink(name);
    return reply;
}

int main(int argc, char **argv) {
    FILE *file = argc > 1 ? fopen(argv[1], "rb") : NULL;
    if (!file) {
        fprintf(stderr, "usage: verdict FILE [SOLVER]\n");
        return 2;
    }
    uint32_t *list = room(4 * 16385);
    size_t got = fread(list, 1, 4 * 16385, file), len = (got + 3) / 4;
    if (got % 4 && len <= 16384) { /* a broken last word; past 16,384 words the list is refused as too long */
        printf("refused 1 at %zu\n", got / 4);
        return 1;
    }

    uint64_t counts[3], answer = vm_counts(list, len, counts, 3);
    if (VM_NUMBER(answer)) {
        printf("refused %llu at %llu\n", (unsigned long long)VM_NUMBER(answer), (unsigned long long)VM_VALUE(answer));
        return 1;
    }
    if (!VM_ASKED(answer)) {
        printf("nothing asked: the list has no obligation, and nothing is proved\n");
        return 3;
    }
    size_t words = counts[2], terms = counts[0], slots = VM_VALUE(vm_read(list, len)), bytes = 9 * (words / 5), length;
    uint32_t *calls = room(4 * words), *places = room(4 * terms), *nodes = room(4 * slots);
    uint8_t *recorded = room(slots), *sorts = room(terms), *names = room(bytes), *trits = room(slots);
    vm_verify(list, len, calls, words, recorded, slots);
    uint64_t ordered = vm_order(list, len, nodes, slots);

    answer = vm_script_with(calls, words, recorded, slots, NULL, 0, places, terms, sorts, terms, names, bytes);
    size_t needed = VM_VALUE(answer); /* fault 15 tells the room */
    uint8_t *script = room(needed);
    vm_script_with(calls, words, recorded, slots, script, needed, places, terms, sorts, terms, names, bytes);

    uint8_t *reply = reply_to(argc > 2 ? argv[2] : "z3", script, needed, &length);
    answer = vm_answer(reply, length, recorded, slots, trits, slots);
    if (VM_NUMBER(answer)) {
        printf("no verdict: fault %llu at byte %llu of the reply\n", (unsigned long long)VM_NUMBER(answer), (unsigned long long)VM_VALUE(answer));
        return 5;
    }
    if (VM_VALUE(answer) == 0 && VM_LOOPED(ordered)) {
        printf("loop");
        for (size_t i = 0; i < VM_LENGTH(ordered); i++) printf(" s%u", (unsigned)nodes[i]);
        printf(": with a current loop unsat proves nothing\n");
        return 7;
    }
    if (VM_VALUE(answer) == 0) {
        printf("holds for one step: every choice of the sources keeps every obligation\n");
        return 0;
    }
    printf("broken, for example here:\n");
    for (size_t slot = 0; slot < slots; slot++) printf("  s%zu %c\n", slot, "01X-"[trits[slot]]);
    return 4;
}
