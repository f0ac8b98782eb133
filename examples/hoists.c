/* Register A of document 01 from C, the whole way: three hoists, two passed hooks and a failed one are put into a register,
 * it is condensed, and the hoists over a failed hook are listed from the summary alone. hoists.rs is the same in Rust. */
#include "hestovane.h"

#include <stdio.h>
#include <stdlib.h>

/* Mark k is the bit worth 2^(k - 1). */
#define MARK(k) ((uint32_t)1 << ((k) - 1))
#define HOIST MARK(1)
#define HOOK MARK(2)
#define PASSED MARK(3)
#define FAILED MARK(4)

/* The label from a hoist to the hook that hangs from it. */
#define CARRIES 0

/* Numbers stand most significant byte first. Each of these gives the place behind what it put. */
static uint8_t *put_two(uint8_t *at, unsigned number) {
    at[0] = (uint8_t)(number >> 8);
    at[1] = (uint8_t)number;
    return at + 2;
}

static uint8_t *put_four(uint8_t *at, uint32_t number) {
    return put_two(put_two(at, number >> 16), number & 0xffff);
}

static uint8_t *put_header(uint8_t *at, unsigned items, unsigned links) {
    unsigned marks_at = 12, links_at = marks_at + 4 * items, total = links_at + 6 * links;
    at = put_two(put_two(at, items), links);
    at = put_two(put_two(at, marks_at), links_at);
    return put_two(put_two(at, total), 0);
}

static uint8_t *put_link(uint8_t *at, unsigned source, unsigned label, unsigned target) {
    return put_two(put_two(put_two(at, source), label), target);
}

/* Hoists 0, 1 and 2 carry the hooks 3, 4 and 5. Gives the length. */
static size_t put_register_a(uint8_t *reg) {
    const uint32_t marks[6] = {HOIST, HOIST, HOIST, HOOK | PASSED, HOOK | PASSED, HOOK | FAILED};
    uint8_t *at = put_header(reg, 6, 3);
    for (int item = 0; item < 6; item++) {
        at = put_four(at, marks[item]);
    }
    at = put_link(at, 0, CARRIES, 3);
    at = put_link(at, 1, CARRIES, 4);
    at = put_link(at, 2, CARRIES, 5);
    return (size_t)(at - reg);
}

/* A hoist over a failed hook: a hoist, and at least one of what it carries has failed. */
static const uint8_t question[] = {
    3, 0, 0, 0,            /* and, of the two that follow: */
    1, 1, 0, 0,            /* mark 1, hoist, is on the item */
    16 + CARRIES, 1, 0, 0, /* at least 1 outgoing neighbour, by that label, satisfies: */
    1, 4, 0, 0,            /* mark 4, failed, is on it */
};

/* The answer of a call, or the end where it refused: a refusal is no answer. */
static size_t answered(const char *call, int32_t answer) {
    if (answer < 0) {
        fprintf(stderr, "%s: refused %d\n", call, (int)-answer);
        exit(EXIT_FAILURE);
    }
    return (size_t)answer;
}

int main(void) {
    static uint8_t reg[HESTOVANE_REGISTER_MOST], summary[HESTOVANE_SUMMARY_MOST], items[HESTOVANE_LIST_MOST];

    size_t reg_len = put_register_a(reg);
    printf("register A has %zu bytes\n", reg_len);

    size_t length = answered("condense", hestovane_condense(1, 1, 1, reg, reg_len, summary, sizeof summary));
    printf("its summary at 1 1 1 has %zu bytes\n", length);

    size_t sound = answered("check", hestovane_check(reg, reg_len, summary, length));
    printf("an abstraction of it: %s\n", sound ? "yes" : "no");

    size_t listed = answered("list", hestovane_list(summary, length, question, sizeof question, items, sizeof items));
    for (size_t at = 0; at < listed; at += 2) {
        printf("hoist over a failed hook: item %d\n", items[at] << 8 | items[at + 1]);
    }
    return 0;
}
