/* Octets through the session box: by what comes, and how it is cut. */
#include "work.h"

#include <stdio.h>
#include <stdlib.h>
#include <string.h>

enum { PDU_COUNT = 16, PDU_HEAD = 10, LONG_MESSAGE = 4086, SOME = 512, THEIR_LABEL = 1000, OTHER_TYPE = 0x0201 };

static struct message message_for(enum message_kind kind, size_t tree)
{
    return message_of(kind, (struct tree_name){tree % CARD_ROOTS, tree, LSP_VALUE}, THEIR_LABEL + (uint32_t)tree);
}

static void add(struct stream_text *s, enum message_kind kind, size_t tree)
{
    struct message m = message_for(kind, tree);
    add_message(s, m.octets, m.length);
}

/* Mappings that stand already. */
static void make_standing(struct stream_text *s)
{
    for (size_t t = 0; s->length < PDU_COUNT * PDU_MOST; t++)
        add(s, MAPPING, t % CARD_TREES);
}

/* Each Mapping adds a branch, which the Withdraw behind it takes away. */
static void make_changing(struct stream_text *s)
{
    for (size_t t = 0; s->length < PDU_COUNT * PDU_MOST; t++) {
        add(s, WITHDRAW, t % CARD_TREES);
        add(s, MAPPING, t % CARD_TREES);
    }
}

/* A message as long as a PDU allows, of a type that the card refuses. */
static void make_long(struct stream_text *s)
{
    uint8_t m[LONG_MESSAGE] = {OTHER_TYPE >> 8, OTHER_TYPE & 0xff, (LONG_MESSAGE - 4) >> 8, (LONG_MESSAGE - 4) & 0xff};
    for (size_t i = 0; i < PDU_COUNT; i++)
        add_message(s, m, sizeof m);
}

/* ---- how it is cut */

static size_t number_at(const uint8_t *s)
{
    return (size_t)s[0] << 8 | s[1];
}

static void add_piece(struct kept_stream *k, struct piece p)
{
    k->pieces[k->count++] = p;
}

/* From the message at `at` to the PDU's end; the first piece begins at `from`. */
static void cut_pdu(struct kept_stream *k, enum cut cut, size_t from, size_t at, size_t end)
{
    struct piece whole = {from, end - from, 0};
    for (; at < end; whole.calls++) {
        size_t next = at + 4 + number_at(k->text.octets + at + 2);
        if (cut == MESSAGES)
            add_piece(k, (struct piece){from, next - from, 1});
        from = at = next;
    }
    if (cut == PDUS)
        add_piece(k, whole);
}

static void cut_stream(struct kept_stream *k, const struct work *w)
{
    size_t length = k->text.length;
    k->count = 0;
    k->pieces = calloc(length, sizeof k->pieces[0]);
    if (k->pieces == NULL) {
        fprintf(stderr, "no memory for a stream\n");
        exit(2);
    }
    for (size_t at = w->box.from; w->box.cut == OCTETS && at < length && at < w->box.from + w->box.count; at++)
        add_piece(k, (struct piece){at, 1, 1});
    for (size_t at = 0; w->box.cut != OCTETS && at < length;) {
        size_t end = at + 4 + number_at(k->text.octets + at + 2);
        cut_pdu(k, w->box.cut, at, at + PDU_HEAD, end);
        at = end;
    }
}

/* As many calls as the piece has messages. */
static void serve(struct bench *b, const uint8_t *octets, struct piece p)
{
    size_t eaten = 0, end = p.at + p.length;
    for (size_t at = p.at; p.calls != 0; p.calls--, at += eaten) {
        b->written = b->side->serve(b->numbers, b->names, b->stream, b->buffer, sizeof b->buffer, STREAM_NEIGHBOUR,
                                    stream_identifier, octets + at, end - at, b->out, CARD_SERVE_ROOM, &b->answer, &eaten);
        work_sink += b->written + b->answer + eaten;
    }
}

/* The neighbour has a branch of each of 64 trees, and another has one too. What lies before the first piece was read. */
static void make(struct bench *b, const struct work *w)
{
    fill_card(b);
    for (size_t t = 0; t < CARD_TREES; t++) {
        struct message m = message_for(MAPPING, t);
        give(b, take_order(STREAM_NEIGHBOUR, &m));
        give(b, take_order(STREAM_NEIGHBOUR - 1, &m));
    }
    w->box.make(&laid->stream.text);
    cut_stream(&laid->stream, w);
    serve(b, laid->stream.text.octets, (struct piece){0, w->box.from, w->box.from == 0 ? 0 : 1});
}

static size_t run(struct bench *b, const struct work *w, bool cleared)
{
    const struct kept_stream *k = &laid->stream;
    size_t octets = 0;
    (void)w;
    for (size_t i = 0; i < k->count; i++) {
        if (cleared)
            memset(b->out, 0, CARD_SERVE_ROOM);
        serve(b, k->text.octets, k->pieces[i]);
        octets += k->pieces[i].length;
    }
    if (b->stream[0] != 0) {
        printf("%s: the stream of the benchmark has stopped\n", b->side->name);
        exit(1);
    }
    return octets;
}

#define BOX(said, ...) {.what = said, .make = make, .run = run, .asks = SERVE, .box = {__VA_ARGS__}}

static const struct work works[] = {
    BOX("Mappings that stand, whole PDUs", make_standing, PDUS, 0, 0),
    BOX("Mappings that stand, a message at a time", make_standing, MESSAGES, 0, 0),
    BOX("Mappings that stand, an octet at a time", make_standing, OCTETS, 0, SIZE_MAX),
    BOX("Withdraws and Mappings in turns, whole PDUs", make_changing, PDUS, 0, 0),
    BOX("Withdraws and Mappings in turns, an octet at a time", make_changing, OCTETS, 0, SIZE_MAX),
    BOX("messages of 4086 octets that are refused, whole PDUs", make_long, PDUS, 0, 0),
    BOX("octets 20 to 531 of one, an octet at a time", make_long, OCTETS, 20, SOME),
    BOX("octets 3564 to 4075 of one, an octet at a time", make_long, OCTETS, 3564, SOME),
};

const struct work_group box_works = {"an octet through the box", works, sizeof works / sizeof works[0]};
