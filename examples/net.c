/*
 * A net of cards through the library: eight boxes, messages and packets under way on lines that are quick or slow, and any orders in any order.
 * Counts the packets that are handed to leaves, and among them the barks: packets that are heard as another tree's, or by a leaf that has not joined.
 *
 *     net TURNS [SEED]          this card: the count of barks is 0 (docs/NO-BARK.md has what is assumed of the lines)
 *     net TURNS SEED slip       a card that frees a label at its own Withdraw, as if the Release were there already
 *     net TURNS SEED [slip] watch   and a line for each bark
 *
 * Ends with 1 where this card barks.
 */
#include "card.h"

#include <stdio.h>
#include <stdlib.h>
#include <string.h>

enum { BOXES = 8, TREES = 6, ROOTS = 3, ELEMENT = 17, MESSAGE = 8 + 4 + ELEMENT + 8, RECORD = 4 + MESSAGE };
enum { MAPPING = 0x0400, WITHDRAW = 0x0402, RELEASE = 0x0403 };
enum { HOPS = 12, PACKETS_MOST = 200, SLOW_REST = 20000, SLOW_BURST = 4000 };

/* What is under way: a message, or a packet on a label. The tree of a packet is for the count alone; no card sees it. */
struct item {
    bool is_packet;
    uint32_t label, tree, hops;
    uint8_t message[MESSAGE];
};

struct line {
    struct item *items;
    size_t first, count, room, packets;
};

struct box {
    uint64_t numbers[CARD_NUMBERS];
    uint8_t names[CARD_NAMES];
    bool joined[TREES];
    uint32_t given[CARD_LABELS]; /* for which tree each label was given last */
    struct line from[BOXES];     /* box j is neighbour j */
};

static struct box boxes[BOXES];
static uint8_t out[CARD_OUT_MOST];
static uint64_t state;
static bool slip, watch;
static unsigned long heard, barks;

static uint32_t any(uint32_t under)
{
    state ^= state << 13;
    state ^= state >> 7;
    state ^= state << 17;
    return (uint32_t)((state >> 32) % under);
}

/* Any neighbour of box i: a ring, and the box opposite. */
static uint32_t neighbour(uint32_t i)
{
    static const uint32_t apart[3] = {1, BOXES - 1, BOXES / 2};
    return (i + apart[any(3)]) % BOXES;
}

/* On the lines of box 0 what is under way waits long. */
static bool is_slow(uint32_t i, uint32_t j)
{
    return i == 0 || j == 0;
}

static uint32_t number(const uint8_t *at, int octets)
{
    uint32_t n = 0;
    for (int i = 0; i < octets; i++)
        n = n << 8 | at[i];
    return n;
}

/* Root 192.0.2.r, opaque 01 00 04 00 00 00 t. */
static void element(uint8_t *at, uint32_t tree)
{
    static const uint8_t like[ELEMENT] = {6, 0, 1, 4, 192, 0, 2, 0, 0, 7, 1, 0, 4, 0, 0, 0, 0};
    memcpy(at, like, ELEMENT);
    at[7] = (uint8_t)(tree % ROOTS);
    at[16] = (uint8_t)tree;
}

static void push(struct line *l, const struct item *x)
{
    if (l->first + l->count == l->room) {
        memmove(l->items, l->items + l->first, l->count * sizeof *l->items);
        l->first = 0;
        if (l->count * 2 >= l->room) {
            l->room = l->room * 2 + 64;
            l->items = realloc(l->items, l->room * sizeof *l->items);
            if (l->items == NULL)
                exit(2);
        }
    }
    l->items[l->first + l->count++] = *x;
    l->packets += x->is_packet;
}

static struct item pop(struct line *l)
{
    struct item x = l->items[l->first++];
    l->count--;
    l->packets -= x.is_packet;
    return x;
}

static void hear(uint32_t i, uint32_t from, const uint8_t *message);

/* What a call of box i wrote: each record goes to the end of its line. A slip hears its Release at once. */
static void send(uint32_t i, size_t written)
{
    uint8_t records[CARD_OUT_MOST];
    memcpy(records, out, written);
    for (size_t at = 0; at < written; at += RECORD) {
        uint32_t to = number(records + at + 2, 2), kind = number(records + at + 4, 2);
        struct item x = {0};
        memcpy(x.message, records + at + 4, MESSAGE);
        if (kind == MAPPING)
            boxes[i].given[number(x.message + MESSAGE - 4, 4) - CARD_BASE_LEAST] = x.message[8 + 4 + ELEMENT - 1];
        push(&boxes[to].from[i], &x);
        if (slip && kind == WITHDRAW) {
            x.message[1] = RELEASE & 0xff;
            hear(i, to, x.message);
        }
    }
}

static void hear(uint32_t i, uint32_t from, const uint8_t *message)
{
    uint32_t answer = 0;
    send(i, card_receive(boxes[i].numbers, boxes[i].names, from, message, MESSAGE, out, sizeof out, &answer));
}

static void hand(uint32_t i, uint32_t tree, uint32_t as_which)
{
    heard++;
    if (tree != as_which || !boxes[i].joined[tree]) {
        barks++;
        if (watch)
            printf("bark: box %u hears a packet of tree %u as tree %u\n", i, tree, as_which);
    }
}

static void forward(uint32_t i, uint32_t tree, uint32_t hops, const uint64_t *branches)
{
    for (uint32_t n = 0; n < BOXES; n++)
        if (branches[n] != 0 && hops > 0 && boxes[n].from[i].packets < PACKETS_MOST)
            push(&boxes[n].from[i], &(struct item){.is_packet = true, .label = (uint32_t)branches[n], .tree = tree, .hops = hops - 1});
}

/* Box i takes what is next from box j. */
static void take(uint32_t i, uint32_t j)
{
    if (boxes[i].from[j].count == 0)
        return;
    struct item x = pop(&boxes[i].from[j]);
    if (!x.is_packet) {
        hear(i, j, x.message);
        return;
    }
    uint64_t branches[CARD_NEIGHBOURS] = {0};
    if (card_lookup_label(boxes[i].numbers, x.label, branches))
        hand(i, x.tree, boxes[i].given[x.label - CARD_BASE_LEAST]);
    forward(i, x.tree, x.hops, branches);
}

static void put_in(uint32_t i, uint32_t tree)
{
    uint8_t name[ELEMENT];
    uint64_t branches[CARD_NEIGHBOURS] = {0};
    element(name, tree);
    if (card_lookup_name(boxes[i].numbers, boxes[i].names, name, sizeof name, branches))
        hand(i, tree, tree);
    forward(i, tree, HOPS, branches);
}

static void change_leaf(uint32_t i, uint32_t tree)
{
    uint8_t name[ELEMENT];
    uint32_t answer = 0;
    bool joins = !boxes[i].joined[tree];
    element(name, tree);
    size_t written = (joins ? card_join : card_leave)(boxes[i].numbers, boxes[i].names, name, sizeof name, out, sizeof out, &answer);
    if (answer == CARD_ACCEPTED)
        boxes[i].joined[tree] = joins;
    send(i, written);
}

static void change_route(uint32_t i, uint32_t root)
{
    uint8_t octets[4] = {192, 0, 2, (uint8_t)root};
    uint32_t answer = 0, via = any(4) == 0 ? CARD_THIS_NODE + any(2) : neighbour(i);
    send(i, card_route(boxes[i].numbers, boxes[i].names, octets, sizeof octets, via, out, sizeof out, &answer));
}

/* Two neighbours on a line change places, but for messages among themselves, and for a Release behind a packet on its label. */
static void overtake(struct line *l)
{
    if (l->count < 2)
        return;
    struct item *x = l->items + l->first + any((uint32_t)l->count - 1), *y = x + 1;
    if (!x->is_packet && !y->is_packet)
        return;
    if (x->is_packet && !y->is_packet && number(y->message, 2) == RELEASE && number(y->message + MESSAGE - 4, 4) == x->label)
        return;
    struct item z = *x;
    *x = *y;
    *y = z;
}

/* Both boxes lose the session, and all that is under way on the line is gone. */
static void cut(uint32_t i, uint32_t j)
{
    uint32_t ends[2][2] = {{i, j}, {j, i}}, answer = 0;
    for (int k = 0; k < 2; k++)
        send(ends[k][0], card_lost(boxes[ends[k][0]].numbers, boxes[ends[k][0]].names, ends[k][1], out, sizeof out, &answer));
    for (int k = 0; k < 2; k++) {
        struct line *l = &boxes[ends[k][0]].from[ends[k][1]];
        l->first = l->count = l->packets = 0;
    }
}

static void turn(unsigned long now)
{
    uint32_t i = any(BOXES), j = neighbour(i), what = any(100);
    if (what < 55) {
        if (!is_slow(i, j) || now % SLOW_REST < SLOW_BURST)
            take(i, j);
    } else if (what < 70)
        put_in(i, any(TREES));
    else if (what < 82)
        change_leaf(i, any(TREES));
    else if (what < 94)
        change_route(i, any(ROOTS));
    else if (what < 99)
        overtake(&boxes[i].from[j]);
    else if (any(50) == 0)
        cut(i, j);
}

int main(int words, char **word)
{
    unsigned long turns = words > 1 ? strtoul(word[1], NULL, 10) : 100000;
    state = 88172645463325252u + (words > 2 ? strtoul(word[2], NULL, 10) : 1) * 2654435761u;
    for (int i = 3; i < words; i++) {
        slip |= strcmp(word[i], "slip") == 0;
        watch |= strcmp(word[i], "watch") == 0;
    }
    for (uint32_t i = 0; i < BOXES; i++)
        card_start(boxes[i].numbers, CARD_BASE_LEAST);
    for (unsigned long now = 0; now < turns; now++)
        turn(now);
    printf("%lu turns, %lu packets handed to leaves, %lu barks\n", turns, heard, barks);
    return !slip && barks != 0;
}
