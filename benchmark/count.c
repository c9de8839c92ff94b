/*
 * count SIDE card|box DAY: each piece of work once on one card, for a counter that sees where `work_begins` and `work_ends`
 * are called (count.py). Writes a line for each: what it did, on what card, and how many times.
 */
#include "work.h"

#include <stdio.h>
#include <string.h>

/* Not alike, so that a compiler makes two of them. */
__attribute__((noinline)) void work_begins(void)
{
    __asm__ volatile("# begins");
}

__attribute__((noinline)) void work_ends(void)
{
    __asm__ volatile("# ends");
}

static void say(const char *row, const char *column, size_t done)
{
    printf("%s\t%s\t%zu\n", row, column, done);
}

static void count_work(struct bench *b, const struct work *w, const char *column)
{
    if (!is_able(b->side, w) || w->plan.events > LONG_DAY)
        return;
    prepare(b, w);
    work_begins();
    size_t done = w->run(b, w, false);
    work_ends();
    say(w->what, column, done);
}

static void count_group(struct bench *b, const struct work_group *g, const char *column)
{
    for (size_t i = 0; i < g->count; i++)
        count_work(b, &g->works[i], column);
}

/* ---- the cost as the work grows: one order on a card of so many trees, whose values have so many octets */

struct growth {
    size_t trees, value;
    const char *column;
};

static const struct growth growths[] = {
    {1, LSP_VALUE, "1 tree"},        {8, LSP_VALUE, "8 trees"}, {64, LSP_VALUE, "64 trees"},
    {8, SHORT_VALUE, "3 octets"}, {8, 32, "32 octets"},    {8, CARD_OPAQUE_MOST, "128 octets"},
};

enum { LONE_ROOT = CARD_ROOTS - 1, THEIR_LABEL = 1000 };

static struct bench image;

/* The last tree alone is of the lone root. */
static struct tree_name name_in(const struct growth *g, size_t tree)
{
    return (struct tree_name){tree == g->trees - 1 ? LONE_ROOT : tree % LONE_ROOT, tree, g->value};
}

static void count_order(struct bench *b, const struct growth *g, const char *what, struct order o)
{
    b->answer = CARD_ACCEPTED;
    work_begins();
    obey(b, &o);
    work_ends();
    if (b->answer != CARD_ACCEPTED)
        printf("%s: refused %u\n", what, b->answer);
    say(what, g->column, 1);
}

/* On the card of the image. */
static void count_anew(struct bench *b, const struct growth *g, const char *what, struct order o)
{
    *b = image;
    count_order(b, g, what, o);
}

static void open_card(struct bench *b, size_t roots)
{
    give(b, (struct order){START, 0, CARD_BASE_LEAST, NULL, 0});
    for (size_t r = 0; r < roots; r++)
        give(b, route_order(r, upstream_of(r)));
}

static void add_tree(struct bench *b, struct tree_name name)
{
    struct message m = message_of(MAPPING, name, THEIR_LABEL);
    give(b, take_order(branch_of(name.root), &m));
}

/* Each tree but the last is of one of 31 roots: what touches one tree. */
static void count_one_tree(struct bench *b, const struct growth *g)
{
    struct tree_name last_name = name_in(g, g->trees - 1), first_name = name_in(g, 0);
    struct message last = message_of(MAPPING, last_name, THEIR_LABEL);
    struct message gone = message_of(WITHDRAW, first_name, THEIR_LABEL);
    struct message released = message_of(RELEASE, first_name, CARD_BASE_LEAST);
    open_card(b, CARD_ROOTS);
    for (size_t t = 0; t + 1 < g->trees; t++)
        add_tree(b, name_in(g, t));
    count_order(b, g, "a Mapping that makes the last tree", take_order(branch_of(LONE_ROOT), &last));
    image = *b;
    count_anew(b, g, "a Mapping that adds a branch to the last tree", take_order(branch_of(LONE_ROOT) + 1, &last));
    count_anew(b, g, "a leaf joins the last tree", element_order(JOIN, &last));
    count_order(b, g, "a leaf leaves the last tree", element_order(LEAVE, &last));
    count_anew(b, g, "a Withdraw that ends the first tree", take_order(branch_of(first_name.root), &gone));
    count_order(b, g, "the Release that answers it", take_order(upstream_of(first_name.root), &released));
    count_anew(b, g, "a route order that moves the last tree alone", route_order(LONE_ROOT, NEW_ROUTE));
    count_anew(b, g, "a lookup of the last tree by name", element_order(TREE, &last));
    count_anew(b, g, "a lookup of the last tree by label",
               (struct order){LABEL, 0, CARD_BASE_LEAST + (uint32_t)g->trees - 1, NULL, 0});
}

/* All trees are of one root. */
static void count_all_trees(struct bench *b, const struct growth *g)
{
    open_card(b, 1);
    for (size_t t = 0; t < g->trees; t++)
        add_tree(b, (struct tree_name){0, t, g->value});
    image = *b;
    count_anew(b, g, "a route order that moves every tree", route_order(0, NEW_ROUTE));
    count_anew(b, g, "a loss that ends every tree", (struct order){LOST, 0, branch_of(0), NULL, 0});
}

/* Where they were given. */
extern const struct side older_1 __attribute__((weak));
extern const struct side older_2 __attribute__((weak));

static const struct side *side_named(const char *name)
{
    return strcmp(name, "proved") == 0    ? &proved
           : strcmp(name, "plain") == 0   ? &plain
           : strcmp(name, "older 1") == 0 ? &older_1
           : strcmp(name, "older 2") == 0 ? &older_2
                                          : NULL;
}

int main(int count, char **words)
{
    static struct bench bench;
    const struct side *side = count != 4 ? NULL : side_named(words[1]);
    if (side == NULL) {
        fprintf(stderr, "usage: count proved|plain|'older 1'|'older 2' card|box DAY\n");
        return 2;
    }
    open_work(words[3]);
    open_bench(&bench, side);
    if (strcmp(words[2], "box") == 0) {
        count_group(&bench, &box_works, "box");
        return 0;
    }
    count_group(&bench, &main_works, "");
    count_group(&bench, &route_works, "routes");
    count_group(&bench, &made_works, "made");
    for (size_t i = 0; side->lost != NULL && i < sizeof growths / sizeof growths[0]; i++) {
        count_one_tree(&bench, &growths[i]);
        count_all_trees(&bench, &growths[i]);
    }
    return 0;
}
