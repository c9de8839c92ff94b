#include "made.h"

#include <stdio.h>
#include <stdlib.h>
#include <string.h>

/* The neighbours of a tree, and how many labels may await release before one is released. */
enum { NEIGHBOURS = 3, AWAITED_MOST = CARD_TREES, FIRST_LABEL = 1000, RECORD_MESSAGE = 4 };

struct awaited {
    uint32_t neighbour, label;
    size_t tree;
};

struct world {
    struct bench *b;
    struct made_plan plan;
    struct made_day day;
    uint32_t state;
    bool branch[CARD_TREES][NEIGHBOURS], leaf[CARD_TREES];
    struct awaited awaited[CARD_LABELS];
    size_t awaited_count;
    struct message mapping[CARD_TREES][NEIGHBOURS], withdraw[CARD_TREES][NEIGHBOURS];
    struct message release[CARD_TREES][CARD_LABELS];
};

static size_t draw(struct world *w, size_t below)
{
    w->state = w->state * 1664525 + 1013904223;
    return (size_t)((uint64_t)w->state * below >> 32);
}

static size_t root_count(const struct world *w)
{
    size_t count = (w->plan.trees + 1) / 2;
    return count < CARD_ROOTS ? count : CARD_ROOTS;
}

static struct tree_name name_of(const struct world *w, size_t tree)
{
    return (struct tree_name){tree % root_count(w), tree, w->plan.value};
}

static uint32_t neighbour_of(size_t tree, size_t k)
{
    return (uint32_t)((tree + 5 * k) % CARD_NEIGHBOURS);
}

static void make_all_messages(struct world *w)
{
    for (size_t t = 0; t < w->plan.trees; t++)
        for (size_t k = 0; k < NEIGHBOURS; k++) {
            uint32_t label = FIRST_LABEL + (uint32_t)(NEIGHBOURS * t + k);
            w->mapping[t][k] = message_of(MAPPING, name_of(w, t), label);
            w->withdraw[t][k] = message_of(WITHDRAW, name_of(w, t), label);
        }
}

/* ---- what the card sends */

static uint32_t number_at(const uint8_t *s, size_t octets)
{
    uint32_t number = 0;
    for (size_t i = 0; i < octets; i++)
        number = number << 8 | s[i];
    return number;
}

static size_t tree_named(const struct world *w, const uint8_t *element, size_t length)
{
    size_t t = 0;
    while (t < w->plan.trees && (w->mapping[t][0].element_length != length ||
                                 memcmp(w->mapping[t][0].octets + ELEMENT_AT, element, length) != 0))
        t++;
    return t;
}

static void read_records(struct world *w)
{
    const uint8_t *s = w->b->out, *end = s + w->b->written;
    while (s < end) {
        const uint8_t *m = s + RECORD_MESSAGE;
        size_t length = RECORD_MESSAGE + number_at(m + 2, 2);
        if (number_at(m, 2) == WITHDRAW)
            w->awaited[w->awaited_count++] =
                (struct awaited){number_at(s + 2, 2), number_at(m + length - 4, 4),
                                 tree_named(w, m + ELEMENT_AT, number_at(m + ELEMENT_AT - 2, 2))};
        s = m + length;
    }
}

/* Whether it was accepted. */
static bool obeyed(struct world *w, struct order o)
{
    obey(w->b, &o);
    w->day.orders[w->day.count++] = o;
    w->day.answers = w->day.answers * 31 + w->b->answer;
    read_records(w);
    return w->b->answer == CARD_ACCEPTED;
}

/* ---- what comes */

static void map(struct world *w)
{
    size_t t = draw(w, w->plan.trees), k = draw(w, NEIGHBOURS);
    if (obeyed(w, take_order(neighbour_of(t, k), &w->mapping[t][k])))
        w->branch[t][k] = true;
}

static void withdraw(struct world *w)
{
    size_t t = 0, k = 0;
    for (int tries = 0; tries < 8; tries++) {
        t = draw(w, w->plan.trees);
        k = draw(w, NEIGHBOURS);
        if (w->branch[t][k])
            break;
    }
    if (obeyed(w, take_order(neighbour_of(t, k), &w->withdraw[t][k])))
        w->branch[t][k] = false;
}

/* The oldest. */
static void release(struct world *w)
{
    struct awaited a = w->awaited[0];
    struct message *m = &w->release[a.tree][a.label - CARD_BASE_LEAST];
    if (m->length == 0)
        *m = message_of(RELEASE, name_of(w, a.tree), a.label);
    w->awaited_count--;
    memmove(w->awaited, w->awaited + 1, w->awaited_count * sizeof a);
    obeyed(w, take_order(a.neighbour, m));
}

static void join(struct world *w)
{
    size_t t = draw(w, w->plan.trees);
    if (obeyed(w, element_order(JOIN, &w->mapping[t][0])))
        w->leaf[t] = true;
}

static void leave(struct world *w)
{
    size_t t = 0;
    for (int tries = 0; tries < 8; tries++) {
        t = draw(w, w->plan.trees);
        if (w->leaf[t])
            break;
    }
    if (obeyed(w, element_order(LEAVE, &w->mapping[t][0])))
        w->leaf[t] = false;
}

static void move_root(struct world *w)
{
    size_t r = draw(w, root_count(w)), to = draw(w, CARD_NEIGHBOURS + 3);
    obeyed(w, route_order(r, to <= CARD_NO_ROUTE ? (uint32_t)to : CARD_NO_ROUTE));
}

/* As often as on an ordinary day of the second program. */
static void step(struct world *w)
{
    size_t drawn = draw(w, 90);
    if (w->awaited_count > AWAITED_MOST || (drawn < 16 && w->awaited_count != 0))
        release(w);
    else if (drawn < 33)
        withdraw(w);
    else if (drawn < 41)
        join(w);
    else if (drawn < 48)
        leave(w);
    else if (drawn < 63)
        move_root(w);
    else
        map(w);
}

static size_t standing(const struct world *w)
{
    size_t count = 0;
    for (size_t t = 0; t < w->plan.trees; t++)
        count += w->leaf[t] || w->branch[t][0] || w->branch[t][1] || w->branch[t][2];
    return count;
}

struct made_day make_day(struct bench *b, struct made_plan plan)
{
    struct world *w = calloc(1, sizeof *w);
    struct order *orders = calloc(plan.events, sizeof *orders);
    if (w == NULL || orders == NULL) {
        fprintf(stderr, "no memory for a day\n");
        exit(2);
    }
    w->b = b;
    w->plan = plan;
    w->day.orders = orders;
    w->state = 1;
    make_all_messages(w);
    obeyed(w, (struct order){START, 0, CARD_BASE_LEAST, NULL, 0});
    for (size_t r = 0; r < root_count(w); r++)
        obeyed(w, route_order(r, upstream_of(r)));
    while (w->day.count < plan.events) {
        step(w);
        size_t now = standing(w);
        w->day.most_trees = now > w->day.most_trees ? now : w->day.most_trees;
    }
    return w->day; /* its orders point into the world, which stays */
}
