/*
 * check FILE..: runs each day on both cards. After every order the answers, the whole output buffers, the lookup of
 * every label of the block and its edges, and the number of free labels must be the same.
 */
#include "side.h"

#include <stdio.h>
#include <stdlib.h>
#include <string.h>

static struct bench ours, theirs;

static void differ(const char *file, const struct order *o, const char *what)
{
    printf("%s, line %zu, %s: %s differs\n", file, o->line, order_word(o->kind), what);
    exit(1);
}

/* Where the block may begin: the last base that was taken. */
static uint32_t base_of(uint32_t base, const struct order *o)
{
    if (o->kind != START)
        return base;
    return o->number < CARD_BASE_LEAST || o->number > CARD_BASE_MOST ? CARD_BASE_LEAST : o->number;
}

static bool same_feeds(void)
{
    return ours.leaf == theirs.leaf && memcmp(ours.branches, theirs.branches, sizeof ours.branches) == 0;
}

static bool same_labels(uint32_t base)
{
    for (uint32_t label = base - 1; label <= base + CARD_LABELS; label++) {
        struct order look = {LABEL, 0, label, NULL, 0};
        obey(&ours, &look);
        obey(&theirs, &look);
        if (!same_feeds())
            return false;
    }
    return true;
}

static void compare(const char *file, const struct order *o, uint32_t base)
{
    struct order count = {FREE, 0, 0, NULL, 0};
    if (ours.answer != theirs.answer)
        differ(file, o, "the answer");
    if (ours.written != theirs.written)
        differ(file, o, "the number of octets");
    if (memcmp(ours.out, theirs.out, sizeof ours.out) != 0)
        differ(file, o, "the output buffer");
    if (!same_feeds())
        differ(file, o, "the lookup");
    if (!same_labels(base))
        differ(file, o, "the lookup of a label");
    obey(&ours, &count);
    obey(&theirs, &count);
    if (ours.answer != theirs.answer)
        differ(file, o, "the number of free labels");
}

static size_t check_day(const char *file)
{
    struct day day = read_day(file);
    size_t count = day.count;
    uint32_t base = CARD_BASE_LEAST;
    open_bench(&ours, &proved);
    open_bench(&theirs, &plain);
    for (size_t i = 0; i < count; i++) {
        const struct order *o = &day.orders[i];
        memset(ours.out, 0xA5, sizeof ours.out);
        memset(theirs.out, 0xA5, sizeof theirs.out);
        obey(&ours, o);
        obey(&theirs, o);
        base = base_of(base, o);
        compare(file, o, base);
    }
    free_day(&day);
    return count;
}

int main(int count, char **words)
{
    size_t orders = 0;
    for (int i = 1; i < count; i++)
        orders += check_day(words[i]);
    printf("%zu orders on both cards, no difference\n", orders);
    return 0;
}
