/* Calls vm_read through the C interface on lists whose answers document 01 gives, and says how many were right. */
#include <stdio.h>
#include <string.h>
#include "../include/virginalmimas.h"

#define KIND(k, p) (((uint32_t)(k) << 29) | (uint32_t)(p))
#define NET(p) KIND(0, p)
#define SLOT(i) KIND(0, 2 + (i))
#define HEAD(op, count) KIND(2, (op) + 32 * (count))
#define NUM(n) KIND(3, n)
#define FAULT(number, place) (((uint64_t)(number) << 48) | (uint64_t)(place))

static int right, wrong;

static void expect(const char *name, const uint32_t *list, size_t len, uint64_t want)
{
    uint32_t before[64];
    memcpy(before, list, len * sizeof *list);
    uint64_t got = vm_read(list, len);
    if (got == want && memcmp(before, list, len * sizeof *list) == 0) {
        right++;
    } else {
        wrong++;
        printf("%s: got %llx, want %llx\n", name, (unsigned long long)got, (unsigned long long)want);
    }
}

static uint32_t many[16385];

int main(void)
{
    const uint32_t example[] = { NUM(2), NUM(0), NUM(0), NUM(1), HEAD(21, 1), NUM(1), HEAD(2, 2), NUM(1), SLOT(0), SLOT(1), SLOT(0) };
    const uint32_t last[] = { NUM(1), NUM(0), NUM(0), NUM(0), HEAD(26, 3), NUM(1), NET(1), NET(1) };
    const uint32_t unknown[] = { NUM(1), NUM(0), NUM(0), NUM(0), HEAD(27, 0) };
    const uint32_t beyond[] = { NUM(1), NUM(0), NUM(0), NUM(0), HEAD(1, 2), NUM(1), SLOT(1) };
    const uint32_t wide[] = { NUM(64), NUM(0), NUM(0), NUM(0), HEAD(21, 1), NUM(64) };

    expect("document 01's example", example, 11, 2);
    expect("empty list", example, 0, FAULT(1, 0));
    expect("cut short", example, 10, FAULT(1, 10));
    expect("operation 26", last, 8, 1);
    expect("operation 27", unknown, 5, FAULT(3, 4));
    expect("slot beyond the total", beyond, 7, FAULT(6, 6));
    expect("Input #64", wide, 6, FAULT(4, 5));
    if (vm_read(many, 16385) == FAULT(4, 16384)) right++; else wrong++;
    if (vm_read(many, 16384) == FAULT(2, 0)) right++; else wrong++;
    printf("%d right, %d wrong\n", right, wrong);
    return wrong != 0;
}
