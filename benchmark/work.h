/* The work that is measured and counted: what the cards do with orders. */
#ifndef WORK_H
#define WORK_H

#include "made.h"
#include "stream.h"

/* How a stream is cut, and a piece of it, on which so many calls are made. */
enum cut { PDUS, MESSAGES, OCTETS };

struct piece {
    size_t at, length, calls;
};

struct work {
    const char *what;
    /* The card, once for each side; it is laid back before each turn. */
    void (*make)(struct bench *, const struct work *);
    size_t (*run)(struct bench *, const struct work *, bool cleared); /* how many times it did what is said */
    double at_most;        /* of a ratio of times; 0: none is set */
    enum order_kind asks;  /* for a call that not every side has */
    struct made_plan plan; /* of a made day */
    struct {
        size_t trees, branches; /* of the root; of each of its trees */
        bool few;               /* no label is free */
        uint32_t to, answer;
    } route;
    struct {
        void (*make)(struct stream_text *);
        enum cut cut;
        size_t from, count; /* of octets one at a time */
    } box;
};

struct work_group {
    const char *name;
    const struct work *works;
    size_t count;
};

extern const struct work_group main_works, route_works, made_works, box_works;

enum { LONG_DAY = 100000 }; /* events; longer ones are done less often */

/* Whether the side has the call that the work asks for. */
bool is_able(const struct side *s, const struct work *w);

extern uint64_t work_sink;

/* Reads the ordinary day; before anything else here. */
void open_work(const char *day_file);

void prepare(struct bench *b, const struct work *w);

/* What else is kept with the card that was laid last. */
struct kept {
    uint8_t save[CARD_SAVE_MOST];
    size_t save_length;
    struct made_day day;
    struct kept_stream {
        struct stream_text text;
        struct piece *pieces;
        size_t count;
    } stream;
};

extern struct kept *laid;

/* 64 trees over 32 roots. */
void fill_card(struct bench *b);

size_t do_order(struct bench *b, bool cleared, struct order o, uint32_t answer);

#endif
