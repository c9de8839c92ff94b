/* Route orders by how many trees their root has and how many labels are free: what the counts of each root spare. */
#include "work.h"

enum { LONE_ROOT = CARD_ROOTS - 1, TURNS = 64, THEIR_LABEL = 1000 };

static size_t root_of(const struct work *w, size_t tree)
{
    if (w->route.trees != 1)
        return 0;
    return tree == CARD_TREES - 1 ? LONE_ROOT : tree % LONE_ROOT;
}

static void move_all(struct bench *b, uint32_t step)
{
    for (size_t r = 0; r < CARD_ROOTS; r++)
        give(b, route_order(r, (upstream_of(r) + step) % CARD_NEIGHBOURS));
}

/* 64 trees, each with a branch or two. Where labels are to be few, all trees have moved until none is free. */
static void make(struct bench *b, const struct work *w)
{
    give(b, (struct order){START, 0, CARD_BASE_LEAST, NULL, 0});
    move_all(b, 0);
    for (size_t t = 0; t < CARD_TREES; t++) {
        struct message m = message_of(MAPPING, (struct tree_name){root_of(w, t), t, LSP_VALUE}, THEIR_LABEL);
        for (uint32_t k = 0; k < w->route.branches; k++)
            give(b, take_order((branch_of(root_of(w, t)) + k) % CARD_NEIGHBOURS, &m));
    }
    for (uint32_t step = 1; w->route.few && step < CARD_LABELS / CARD_TREES; step++)
        move_all(b, step);
}

/* A refused order changes nothing, and a root of one tree has labels for many moves to and fro. */
static size_t run(struct bench *b, const struct work *w, bool cleared)
{
    size_t root = root_of(w, CARD_TREES - 1), turns = w->route.trees == 1 || w->route.answer != CARD_ACCEPTED ? TURNS : 1;
    for (size_t i = 0; i < turns; i++)
        do_order(b, cleared, route_order(root, i % 2 == 0 ? w->route.to : NEW_ROUTE), w->route.answer);
    return turns;
}

#define ROUTE_TO(said, ...) {.what = said, .make = make, .run = run, .route = {__VA_ARGS__}}

static const struct work works[] = {
    ROUTE_TO("1 tree, labels are plenty: moved", 1, 1, false, NEW_ROUTE + 1, CARD_ACCEPTED),
    ROUTE_TO("1 tree of one branch, no label is free: refused 12", 1, 1, true, NEW_ROUTE, CARD_LABELS_SHORT),
    ROUTE_TO("1 tree of two branches, no label is free: refused 12", 1, 2, true, NEW_ROUTE, CARD_LABELS_SHORT),
    ROUTE_TO("64 trees, labels are plenty: moved", 64, 1, false, NEW_ROUTE, CARD_ACCEPTED),
    ROUTE_TO("64 trees of one branch, no label is free: refused 12", 64, 1, true, NEW_ROUTE, CARD_LABELS_SHORT),
    ROUTE_TO("64 trees of one branch, no label is free, none is needed: moved", 64, 1, true, 8, CARD_ACCEPTED),
    ROUTE_TO("64 trees of two branches, no label is free: refused 12", 64, 2, true, NEW_ROUTE, CARD_LABELS_SHORT),
};

const struct work_group route_works = {"a route order for a root of", works, sizeof works / sizeof works[0]};
