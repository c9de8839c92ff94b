#include "side.h"

#include <string.h>

const struct side proved = SIDE("proved", card);

void open_bench(struct bench *b, const struct side *side)
{
    memset(b, 0, sizeof *b);
    b->side = side;
    b->room = CARD_SAVE_MOST;
    side->start(b->numbers, CARD_BASE_LEAST);
}

static void obey_event(struct bench *b, const struct order *o)
{
    const struct side *s = b->side;
    size_t room = b->room < CARD_OUT_MOST ? b->room : CARD_OUT_MOST;
    if (o->kind == TAKE)
        b->written = s->receive(b->numbers, b->names, o->number, o->octets, o->length, b->out, room, &b->answer);
    else if (o->kind == JOIN)
        b->written = s->join(b->numbers, b->names, o->octets, o->length, b->out, room, &b->answer);
    else if (o->kind == LEAVE)
        b->written = s->leave(b->numbers, b->names, o->octets, o->length, b->out, room, &b->answer);
    else if (o->kind == ROUTE)
        b->written = s->route(b->numbers, b->names, o->octets, o->length, o->number, b->out, room, &b->answer);
    else if (o->kind == LOST)
        b->written = s->lost(b->numbers, b->names, o->number, b->out, room, &b->answer);
}

void obey(struct bench *b, const struct order *o)
{
    const struct side *s = b->side;
    b->written = 0;
    b->answer = 0;
    if (o->kind == START)
        b->answer = s->start(b->numbers, o->number);
    else if (o->kind == ROOM)
        b->room = o->number < CARD_SAVE_MOST ? o->number : CARD_SAVE_MOST;
    else if (o->kind == LABEL)
        b->leaf = s->lookup_label(b->numbers, o->number, b->branches);
    else if (o->kind == TREE)
        b->leaf = s->lookup_name(b->numbers, b->names, o->octets, o->length, b->branches);
    else if (o->kind == FREE)
        b->answer = s->free_labels(b->numbers);
    else if (o->kind == SAVE)
        b->written = s->save(b->numbers, b->names, b->out, b->room, &b->answer);
    else if (o->kind == RESTORE)
        b->answer = s->restore(b->numbers, b->names, o->octets, o->length, b->spare_numbers, b->spare_names,
                               b->spare_save);
    else
        obey_event(b, o);
}
