/* Orders of the benchmark's own. */
#ifndef ORDERS_H
#define ORDERS_H

#include "side.h"

enum { LSP_VALUE = 7, SHORT_VALUE = 3, MESSAGE_MOST = 8 + 4 + CARD_ELEMENT_MOST + 8, ELEMENT_AT = 12 };

enum message_kind { MAPPING = 0x0400, WITHDRAW = 0x0402, RELEASE = 0x0403 };

struct message {
    uint8_t octets[MESSAGE_MOST];
    size_t length, element_length;
};

/* A tree by its root's number, its own, and how many octets its opaque value has: SHORT_VALUE, or LSP_VALUE and more. */
struct tree_name {
    size_t root, tree, value;
};

struct message message_of(enum message_kind kind, struct tree_name name, uint32_t label);

/* Before any of these. */
void name_roots(void);

struct order take_order(uint32_t from, const struct message *m);
struct order element_order(enum order_kind kind, const struct message *m);
struct order route_order(size_t root, uint32_t to);

/* The order, which is to be answered so: the program ends where it is not. */
void give(struct bench *b, struct order o);
void give_for(struct bench *b, struct order o, uint32_t answer);

/* A neighbour that is never the upstream of a root that is given a route below: its branches are not held. */
uint32_t branch_of(size_t root);
uint32_t upstream_of(size_t root);

enum { NEW_ROUTE = 5 }; /* an upstream of none of the roots that the work below moves */

#endif
