#include "orders.h"

#include <stdio.h>
#include <stdlib.h>
#include <string.h>

static uint8_t roots[CARD_ROOTS][16];

static size_t root_length(size_t root)
{
    return root % 2 == 0 ? 4 : 16;
}

static uint8_t *put(uint8_t *at, size_t number, int octets)
{
    for (int i = octets - 1; i >= 0; i--)
        *at++ = (uint8_t)(number >> (8 * i));
    return at;
}

/* A generic LSP identifier, its octets before the last four zeros; the short one tells trees apart by its type. */
static uint8_t *put_value(uint8_t *at, struct tree_name name)
{
    if (name.value == SHORT_VALUE)
        return put(put(at, 1 + name.tree, 1), 0, 2);
    at = put(put(at, 1, 1), name.value - SHORT_VALUE, 2);
    memset(at, 0, name.value - LSP_VALUE);
    return put(at + name.value - LSP_VALUE, name.tree, 4);
}

struct message message_of(enum message_kind kind, struct tree_name name, uint32_t label)
{
    struct message m;
    size_t n = root_length(name.root);
    m.element_length = 6 + n + name.value;
    m.length = ELEMENT_AT + m.element_length + 8;
    uint8_t *at = put(m.octets, kind, 2);
    at = put(at, m.length - 4, 2);
    at = put(at, name.tree, 4);
    at = put(at, 0x0100, 2);
    at = put(at, m.element_length, 2);
    at = put(at, 6, 1);
    at = put(at, n == 4 ? 1 : 2, 2);
    at = put(at, n, 1);
    memcpy(at, roots[name.root], n);
    at = put_value(put(at + n, name.value, 2), name);
    at = put(at, 0x0200, 2);
    at = put(at, 4, 2);
    put(at, label, 4);
    return m;
}

void name_roots(void)
{
    for (size_t r = 0; r < CARD_ROOTS; r++) {
        memset(roots[r], 0, sizeof roots[r]);
        memcpy(roots[r], root_length(r) == 4 ? "\xC0\x00\x02\x00" : "\x20\x01\x0D\xB8", 4);
        roots[r][root_length(r) - 1] = (uint8_t)(r + 1);
    }
}

struct order take_order(uint32_t from, const struct message *m)
{
    return (struct order){TAKE, 0, from, m->octets, m->length};
}

struct order element_order(enum order_kind kind, const struct message *m)
{
    return (struct order){kind, 0, 0, m->octets + ELEMENT_AT, m->element_length};
}

struct order route_order(size_t root, uint32_t to)
{
    return (struct order){ROUTE, 0, to, roots[root], root_length(root)};
}

void give_for(struct bench *b, struct order o, uint32_t answer)
{
    obey(b, &o);
    if (b->answer != answer) {
        printf("%s: an order of the benchmark was answered %u, not %u\n", b->side->name, b->answer, answer);
        exit(1);
    }
}

void give(struct bench *b, struct order o)
{
    give_for(b, o, CARD_ACCEPTED);
}

uint32_t upstream_of(size_t root)
{
    return (uint32_t)(root % CARD_NEIGHBOURS);
}

uint32_t branch_of(size_t root)
{
    return (uint32_t)((root + CARD_NEIGHBOURS / 2) % CARD_NEIGHBOURS);
}
