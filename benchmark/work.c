#include "work.h"

#include <stdio.h>
#include <stdlib.h>
#include <string.h>

enum { LOOKUPS = 4096 };

static struct day day;
static struct message over_roots[CARD_TREES], of_one_root[CARD_TREES];
static uint32_t labels[LOOKUPS];
uint64_t work_sink;

/* A card with 64 trees, spread over so many roots. */
static void fill(struct bench *b, const struct message *messages, size_t root_count)
{
    give(b, (struct order){START, 0, CARD_BASE_LEAST, NULL, 0});
    for (size_t r = 0; r < root_count; r++)
        give(b, route_order(r, upstream_of(r)));
    for (size_t t = 0; t < CARD_TREES; t++)
        give(b, take_order(branch_of(t % root_count), &messages[t]));
}

static void make_messages(struct message *messages, size_t root_count)
{
    for (size_t t = 0; t < CARD_TREES; t++)
        messages[t] = message_of(MAPPING, (struct tree_name){t % root_count, t, LSP_VALUE}, 1000 + (uint32_t)t);
}

/* ---- cards as they were made the first time */

enum { IMAGES = 256 };

struct image {
    const struct side *side;
    const struct work *work;
    uint64_t numbers[CARD_NUMBERS];
    uint8_t names[CARD_NAMES];
    uint64_t stream[CARD_STREAM_NUMBERS];
    uint8_t buffer[CARD_STREAM_OCTETS];
    struct kept kept;
};

static struct image *images[IMAGES];

static struct image *image_of(const struct bench *b, const struct work *w)
{
    size_t i = 0;
    while (i < IMAGES && images[i] != NULL && (images[i]->side != b->side || images[i]->work != w))
        i++;
    if (i < IMAGES && images[i] == NULL)
        images[i] = calloc(1, sizeof *images[i]);
    if (i == IMAGES || images[i] == NULL) {
        fprintf(stderr, "no memory for a card\n");
        exit(2);
    }
    return images[i];
}

static void keep_image(struct image *i, const struct bench *b, const struct work *w)
{
    i->side = b->side;
    i->work = w;
    memcpy(i->numbers, b->numbers, sizeof i->numbers);
    memcpy(i->names, b->names, sizeof i->names);
    memcpy(i->stream, b->stream, sizeof i->stream);
    memcpy(i->buffer, b->buffer, sizeof i->buffer);
}

struct kept *laid;

void prepare(struct bench *b, const struct work *w)
{
    struct image *i = image_of(b, w);
    laid = &i->kept;
    if (i->side == NULL) {
        open_bench(b, b->side);
        w->make(b, w);
        keep_image(i, b, w);
    }
    memcpy(b->numbers, i->numbers, sizeof b->numbers);
    memcpy(b->names, i->names, sizeof b->names);
    if (w->asks == SERVE) {
        memcpy(b->stream, i->stream, sizeof b->stream);
        memcpy(b->buffer, i->buffer, sizeof b->buffer);
    }
}

/* ---- the work */

void fill_card(struct bench *b)
{
    fill(b, over_roots, CARD_ROOTS);
}

static void make_fresh(struct bench *b, const struct work *w)
{
    (void)w;
    give(b, (struct order){START, 0, CARD_BASE_LEAST, NULL, 0});
}

/* 64 trees over 32 roots; each root has moved until no label is free, so the mapped labels are the last 64. */
static void make_full(struct bench *b, const struct work *w)
{
    (void)w;
    fill(b, over_roots, CARD_ROOTS);
    for (uint32_t move = 1; move < CARD_LABELS / CARD_TREES; move++)
        for (size_t r = 0; r < CARD_ROOTS; r++)
            give(b, route_order(r, (uint32_t)((r + move) % CARD_NEIGHBOURS)));
}

static void make_saved(struct bench *b, const struct work *w)
{
    make_full(b, w);
    give(b, (struct order){SAVE, 0, 0, NULL, 0});
    memcpy(laid->save, b->out, b->written);
    laid->save_length = b->written;
}

static void make_one_root(struct bench *b, const struct work *w)
{
    (void)w;
    fill(b, of_one_root, 1);
}

static size_t do_lookups(struct bench *b, const struct work *w, bool cleared)
{
    (void)w;
    uint64_t sum = 0;
    for (size_t i = 0; i < LOOKUPS; i++) {
        if (cleared)
            memset(b->branches, 0, sizeof b->branches);
        sum += b->side->lookup_label(b->numbers, labels[i], b->branches) + b->branches[i % CARD_NEIGHBOURS];
    }
    work_sink += sum;
    return LOOKUPS;
}

static bool is_event(enum order_kind kind)
{
    return kind == START || kind == TAKE || kind == JOIN || kind == LEAVE || kind == ROUTE || kind == LOST;
}

static size_t do_day(struct bench *b, const struct work *w, bool cleared)
{
    (void)w;
    size_t events = 0;
    for (size_t i = 0; i < day.count; i++) {
        if (!is_event(day.orders[i].kind))
            continue;
        if (cleared)
            memset(b->out, 0, CARD_OUT_MOST);
        obey(b, &day.orders[i]);
        work_sink += b->written + b->answer;
        events++;
    }
    return events;
}

static size_t do_set_up(struct bench *b, const struct work *w, bool cleared)
{
    (void)w;
    if (cleared) {
        memset(b->out, 0, CARD_OUT_MOST);
        memset(b->numbers, 0, sizeof b->numbers);
        memset(b->names, 0, sizeof b->names);
    }
    fill(b, over_roots, CARD_ROOTS);
    return 1;
}

bool is_able(const struct side *s, const struct work *w)
{
    return (w->asks != LOST || s->lost != NULL) && (w->asks != SAVE || s->save != NULL) &&
           (w->asks != RESTORE || s->restore != NULL) && (w->asks != SERVE || s->serve != NULL);
}

size_t do_order(struct bench *b, bool cleared, struct order o, uint32_t answer)
{
    if (cleared)
        memset(b->out, 0, o.kind == SAVE ? CARD_SAVE_MOST : CARD_OUT_MOST);
    give_for(b, o, answer);
    work_sink += b->written + 1;
    return 1;
}

static size_t do_move(struct bench *b, const struct work *w, bool cleared)
{
    (void)w;
    return do_order(b, cleared, route_order(0, NEW_ROUTE), CARD_ACCEPTED);
}

/* Each tree of the move's card has that neighbour's branch alone, so each goes, and its label is withdrawn. */
static size_t do_loss(struct bench *b, const struct work *w, bool cleared)
{
    (void)w;
    return do_order(b, cleared, (struct order){LOST, 0, branch_of(0), NULL, 0}, CARD_ACCEPTED);
}

static size_t do_save(struct bench *b, const struct work *w, bool cleared)
{
    (void)w;
    return do_order(b, cleared, (struct order){SAVE, 0, 0, NULL, 0}, CARD_ACCEPTED);
}

static size_t do_restore(struct bench *b, const struct work *w, bool cleared)
{
    (void)w;
    if (cleared) {
        memset(b->numbers, 0, sizeof b->numbers);
        memset(b->names, 0, sizeof b->names);
    }
    give(b, (struct order){RESTORE, 0, 0, laid->save, laid->save_length});
    return 1;
}

static const struct work works[] = {
    {.what = "a lookup by label on a full card", .make = make_full, .run = do_lookups, .at_most = 1.15},
    {.what = "an event of an ordinary day", .make = make_fresh, .run = do_day, .at_most = 1.25},
    {.what = "the set-up of a full card of 64 trees", .make = make_fresh, .run = do_set_up, .at_most = 1.15},
    {.what = "a route order that moves 64 trees", .make = make_one_root, .run = do_move, .at_most = 1.4},
    {.what = "a loss that ends 64 branches", .make = make_one_root, .run = do_loss, .at_most = 1.5, .asks = LOST},
    {.what = "a save of a full card", .make = make_full, .run = do_save, .at_most = 1.5, .asks = SAVE},
    {.what = "a restore of a full card", .make = make_saved, .run = do_restore, .at_most = 1.5, .asks = RESTORE},
};

const struct work_group main_works = {"measured", works, sizeof works / sizeof works[0]};

static void choose_labels(void)
{
    uint32_t state = 1;
    for (size_t i = 0; i < LOOKUPS; i++) {
        state = state * 1664525 + 1013904223;
        labels[i] = CARD_BASE_LEAST + CARD_LABELS - CARD_TREES + (state >> 16) % CARD_TREES;
    }
}

void open_work(const char *day_file)
{
    day = read_day(day_file);
    name_roots();
    make_messages(over_roots, CARD_ROOTS);
    make_messages(of_one_root, 1);
    choose_labels();
}
