/* Measures the stack that each entry needs, in a thread whose stack was filled with a pattern first, and holds it to what the header says. */
#include <pthread.h>
#include <stdio.h>
#include <stdlib.h>
#include <string.h>
#include "../include/virginalmimas.h"

#define HEAD(op, count) ((VM_KIND_HEAD << 29) + (op) + 32u * (count))
#define NUMBER(n) ((VM_KIND_NUMBER << 29) + (n))
#define SLOT(i) ((VM_KIND_NET << 29) + 2 + (i))
#define STACK ((size_t)8 << 20)

/* Document 01's example. */
static const uint32_t list[] = {NUMBER(2), NUMBER(0), NUMBER(0), NUMBER(1), HEAD(21, 1), NUMBER(1), HEAD(2, 2), NUMBER(1), SLOT(0), SLOT(1), SLOT(0)};
/* An Input, and a Not that reads itself. */
static const uint32_t looped[] = {NUMBER(2), NUMBER(0), NUMBER(0), NUMBER(0), HEAD(21, 1), NUMBER(1), HEAD(2, 2), NUMBER(1), SLOT(1)};
static uint32_t calls[64], places[64], slots[2];
static uint8_t recorded[2], text[1024], trits[2], sorts[64], names[64];
static uint64_t counts[3], sizes[2], bits[64], values[64];
static const char *answer = "sat ((n0x #b0) (n0y #b0) (n1x #b0) (n1y #b1))";

static void nothing(void) {}
static void read_list(void) { vm_read(list, 11); }
static void verify(void) { vm_verify(list, 11, calls, 64, recorded, 2); }
static void count(void) { vm_counts(list, 11, counts, 3); }
static void verify_mode(void) { vm_verify_mode(VM_MODE_INDUCTIVE, list, 11, calls, 64, recorded, 2); }
static void count_mode(void) { vm_counts_mode(VM_MODE_INDUCTIVE, list, 11, counts, 3); }
static void order(void) { vm_order(list, 11, slots, 2); }
static void name_loop(void) { vm_order(looped, 9, slots, 2); }
static void check(void) { vm_check(calls, 60, sizes, 2); }
static void evaluate(void) { vm_evaluate(calls, 60, bits, 64, values, 64); }
static void script(void) { vm_script(calls, 60, recorded, 2, text, 1024); }
static void read_answer(void) { vm_answer((const uint8_t *)answer, strlen(answer), recorded, 2, trits, 2); }
static void check_with(void) { vm_check_with(calls, 60, sizes, 2, sorts, 64, names, 64); }
static void evaluate_with(void) { vm_evaluate_with(calls, 60, bits, 64, values, 64, sorts, 64, names, 64); }
static void script_with(void) { vm_script_with(calls, 60, recorded, 2, text, 1024, places, 64, sorts, 64, names, 64); }

static void *call(void *entry) {
    ((void (*)(void))entry)();
    return NULL;
}

/* How many bytes of a thread's stack a call touches. */
static size_t touched(void (*entry)(void)) {
    unsigned char *stack;
    pthread_attr_t attributes;
    pthread_t thread;
    size_t low = 0;
    if (posix_memalign((void **)&stack, 4096, STACK)) exit(2);
    memset(stack, 0xA5, STACK);
    pthread_attr_init(&attributes);
    pthread_attr_setstack(&attributes, stack, STACK);
    if (pthread_create(&thread, &attributes, call, (void *)entry)) exit(2);
    pthread_join(thread, NULL);
    while (low < STACK && stack[low] == 0xA5) low++;
    free(stack);
    return STACK - low;
}

int main(void) {
    const struct { const char *name; void (*entry)(void); size_t most; } entries[] = {
        {"vm_read", read_list, 32}, {"vm_verify", verify, 192}, {"vm_counts", count, 192},
        {"vm_verify_mode", verify_mode, 192}, {"vm_counts_mode", count_mode, 192}, {"vm_order", order, 256},
        {"vm_order, of a loop", name_loop, 256}, {"vm_check", check, 128},
        {"vm_evaluate", evaluate, 128}, {"vm_script", script, 160}, {"vm_answer", read_answer, 32},
        {"vm_check_with", check_with, 4}, {"vm_evaluate_with", evaluate_with, 4}, {"vm_script_with", script_with, 4}};
    size_t before = touched(nothing), failed = 0;
    for (size_t i = 0; i < sizeof entries / sizeof *entries; i++) {
        size_t bytes = touched(entries[i].entry) - before;
        printf("%s: %zu bytes of stack, at most %zu KB\n", entries[i].name, bytes, entries[i].most);
        failed |= bytes > entries[i].most * 1024 || entries[i].most * 1024 > VM_STACK;
    }
    printf(failed ? "ffi_stack: failed\n" : "ffi_stack: ok\n");
    return failed;
}
