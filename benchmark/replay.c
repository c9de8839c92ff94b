/* replay proved|plain FILE: the bench program over one of the two cards. */
#include "side.h"

#include <stdio.h>
#include <string.h>

static void print_feed(const struct bench *b)
{
    bool any = b->leaf;
    if (b->leaf)
        printf(" leaf");
    for (unsigned n = 0; n < CARD_NEIGHBOURS; n++) {
        if (b->branches[n] != 0)
            printf(" %u:%llu", n, (unsigned long long)b->branches[n]);
        any |= b->branches[n] != 0;
    }
    if (!any)
        printf(" nothing");
}

static void print_records(const struct bench *b)
{
    if (b->written != 0)
        putchar(' ');
    for (size_t i = 0; i < b->written; i++)
        printf("%02x", b->out[i]);
}

static void print_line(const struct bench *b, const struct order *o)
{
    printf("%s", order_word(o->kind));
    if (o->kind == BAD)
        printf(" %zu", o->line);
    else if (o->kind == ROOM)
        printf(" %u", o->number);
    else if (o->kind == LABEL || o->kind == TREE)
        print_feed(b);
    else {
        printf(" %u", b->answer);
        print_records(b);
    }
    putchar('\n');
}

int main(int count, char **words)
{
    static struct bench bench;
    if (count != 3 || (strcmp(words[1], "proved") != 0 && strcmp(words[1], "plain") != 0)) {
        fprintf(stderr, "usage: replay proved|plain FILE\n");
        return 2;
    }
    struct day day = read_day(words[2]);
    open_bench(&bench, strcmp(words[1], "plain") == 0 ? &plain : &proved);
    for (size_t i = 0; i < day.count; i++) {
        obey(&bench, &day.orders[i]);
        print_line(&bench, &day.orders[i]);
    }
    free_day(&day);
    return 0;
}
