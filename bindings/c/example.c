/* Lists the facts of a plan, applies predicates to those of another operator, and evaluates an expression on a row. */
#include "mossladder.h"

#include <stdio.h>

/* x and y, Int32 columns of a table; e0 x, e1 y, e2 x = y, e3 7, e4 y < 7, e5 e2 AND e4; a Scan and a Selection */
static const uint8_t plan[] = {
    0x01, 0, 0, 2, 0x01, 0, 1, 2, 0x20, 0, 0, 0x20, 0, 1, 0x22, 0, 0, 0, 0, 1, 0x12, 0, 0, 0, 7, 0x22, 2, 0, 1, 0, 3,
    0x23, 0, 0, 2, 0x24, 0, 2, 0x24, 0, 4, 0x30, 0, 0, 0, 2, 0x40, 0, 0, 0x40, 0, 1, 0x33, 0, 5, 0, 0,
};

static uint8_t out[MOSSLADDER_OUT];

static void print(const char *what, size_t length) {
    printf("%s: %u %u\n", what, out[0], out[8]);
    fwrite(out + MOSSLADDER_HEAD, 1, length - MOSSLADDER_HEAD, stdout);
}

int main(void) {
    const uint16_t predicates[] = {2, 4};
    const uint8_t kinds[] = {0x12, 0x12}, codes[] = {0, 0};
    const uint64_t payloads[] = {6, 6};

    print("facts", mossladder_facts(plan, sizeof plan, out, sizeof out));
    print("apply", mossladder_apply(plan, sizeof plan, 0, predicates, 2, out, sizeof out));
    print("no such operator", mossladder_derive(plan, sizeof plan, 2, out, sizeof out));
    print("simplify", mossladder_simplify(plan, 0, 0, out, sizeof out));
    print("cut", mossladder_read(plan, 3, out, sizeof out));
    print("truth", mossladder_evaluate(plan, sizeof plan, 5, kinds, 2, codes, 2, payloads, 2, out, sizeof out));
    return 0;
}
