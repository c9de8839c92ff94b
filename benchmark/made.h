/*
 * Days that are made on a card itself: neighbours map and withdraw branches, leaves join and leave, roots move, and each
 * label that the card withdraws is released. What is drawn does not depend on the labels that a card gives, so cards of
 * different rules for these have the same day but for the labels in its Releases.
 */
#ifndef MADE_H
#define MADE_H

#include "orders.h"

struct made_plan {
    size_t trees, value, events; /* how many names there are, how many octets their opaque values have */
};

struct made_day {
    struct order *orders;
    size_t count;
    uint64_t answers;   /* of all orders together: the same for cards that answer alike */
    size_t most_trees;  /* that stood at once */
};

/* On the bench's card, which is left as the day ends. */
struct made_day make_day(struct bench *b, struct made_plan plan);

#endif
