/* Days that are made on the card itself: as the trees grow in number, the names in length, the day in events. */
#include "work.h"

#include <string.h>

static void make(struct bench *b, const struct work *w)
{
    laid->day = make_day(b, w->plan);
}

static size_t run(struct bench *b, const struct work *w, bool cleared)
{
    const struct made_day *day = &laid->day;
    (void)w;
    for (size_t i = 0; i < day->count; i++) {
        if (cleared)
            memset(b->out, 0, CARD_OUT_MOST);
        obey(b, &day->orders[i]);
        work_sink += b->written + b->answer;
    }
    return day->count;
}

enum { EVENTS = 20000, MANY_EVENTS = 1000000 };

#define DAY(said, trees, value, events) {.what = said, .make = make, .run = run, .plan = {trees, value, events}}

static const struct work works[] = {
    DAY("1 tree, names of 7 octets", 1, LSP_VALUE, EVENTS),
    DAY("8 trees, names of 7 octets", 8, LSP_VALUE, EVENTS),
    DAY("64 trees, names of 7 octets", 64, LSP_VALUE, EVENTS),
    DAY("64 trees, names of 3 octets", 64, SHORT_VALUE, EVENTS),
    DAY("64 trees, names of 32 octets", 64, 32, EVENTS),
    DAY("64 trees, names of 128 octets", 64, CARD_OPAQUE_MOST, EVENTS),
    DAY("64 trees, names of 7 octets, 10^6 events", 64, LSP_VALUE, MANY_EVENTS),
};

const struct work_group made_works = {"an event of a made day", works, sizeof works / sizeof works[0]};
