/*
 * check_box SEEDS: streams of a neighbour, some of them damaged, cut at random, on both session boxes. After every call the
 * answer, the octets eaten, the output buffer and whether the stream has stopped must be the same; in the end the
 * lookup of every label.
 */
#include "stream.h"

#include <stdio.h>
#include <stdlib.h>
#include <string.h>

enum { MESSAGES = 400, LONGEST_OTHER = 3000, OTHER_TYPE = 0x0201, TREES = 20, SPOILT_MOST = 100, SEEN = 1024, CALLS_MOST = 1000000 };

static struct bench ours, theirs;
static uint32_t state;

static size_t draw(size_t below)
{
    state = state * 1664525 + 1013904223;
    return (size_t)((uint64_t)state * below >> 32);
}

static void differ(const char *what)
{
    printf("check_box: %s differs\n", what);
    exit(1);
}

static void both(struct order o)
{
    obey(&ours, &o);
    obey(&theirs, &o);
}

static void open_boxes(void)
{
    open_bench(&ours, &proved);
    open_bench(&theirs, &plain);
    for (size_t r = 0; r < TREES / 2; r++)
        both(route_order(r, upstream_of(r)));
}

static void add_drawn(struct stream_text *s)
{
    static const enum message_kind kinds[] = {MAPPING, MAPPING, MAPPING, WITHDRAW, WITHDRAW, RELEASE};
    uint8_t other[4 + LONGEST_OTHER] = {OTHER_TYPE >> 8, OTHER_TYPE & 0xff};
    size_t t = draw(TREES), length = draw(LONGEST_OTHER);
    struct message m =
        message_of(kinds[draw(6)], (struct tree_name){t % (TREES / 2), t, LSP_VALUE + draw(2) * 90}, 16 + (uint32_t)draw(40));
    other[2] = (uint8_t)(length >> 8);
    other[3] = (uint8_t)length;
    if (draw(12) == 0)
        open_pdu(s);
    if (draw(15) == 0)
        add_message(s, other, 4 + length);
    else
        add_message(s, m.octets, m.length);
}

/* Half of the streams have spoilt octets: in a head they stop the stream, or its reader goes astray and stops later. */
static struct stream_text drawn_stream(void)
{
    struct stream_text s = {NULL, 0, 0, 0};
    for (int i = 0; i < MESSAGES; i++)
        add_drawn(&s);
    for (size_t spoilt = draw(2) * draw(SPOILT_MOST); spoilt != 0; spoilt--)
        s.octets[draw(s.length)] ^= (uint8_t)(1 << draw(8));
    return s;
}

static size_t serve(struct bench *b, uint32_t from, const uint8_t *octets, size_t length, size_t room)
{
    size_t eaten = 0;
    memset(b->out, 0xA5, SEEN);
    b->written = b->side->serve(b->numbers, b->names, b->stream, b->buffer, sizeof b->buffer, from, stream_identifier, octets,
                                length, b->out, room, &b->answer, &eaten);
    return eaten;
}

static size_t serve_both(uint32_t from, const uint8_t *octets, size_t length, size_t room)
{
    size_t eaten = serve(&ours, from, octets, length, room);
    if (serve(&theirs, from, octets, length, room) != eaten)
        differ("the number of octets eaten");
    if (ours.answer != theirs.answer || ours.written != theirs.written)
        differ("the answer");
    if (memcmp(ours.out, theirs.out, SEEN) != 0)
        differ("the output buffer");
    if ((ours.stream[0] != 0) != (theirs.stream[0] != 0))
        differ("whether the stream has stopped");
    return eaten;
}

static void same_lookups(void)
{
    for (uint32_t label = 0; label < CARD_LABELS; label++) {
        both((struct order){LABEL, 0, CARD_BASE_LEAST + label, NULL, 0});
        if (ours.leaf != theirs.leaf || memcmp(ours.branches, theirs.branches, sizeof ours.branches) != 0)
            differ("a lookup");
    }
}

/* Pieces of 0 to 4199 octets, or of 0 to 3; some calls are refused. */
static size_t check_stream(void)
{
    struct stream_text s = drawn_stream();
    size_t calls = 0, most = draw(2) == 0 ? 4 : 4200;
    for (size_t at = 0, still = 0; calls < CALLS_MOST && still < 200; calls++) {
        size_t left = s.length - at, length = draw(most);
        size_t room = draw(50) == 0 ? draw(CARD_SERVE_ROOM) : CARD_SERVE_ROOM;
        uint32_t from = draw(60) == 0 ? CARD_NEIGHBOURS : STREAM_NEIGHBOUR;
        size_t eaten = serve_both(from, s.octets + at, length < left ? length : left, room);
        at += eaten;
        still = at == s.length ? still + 1 : 0;
    }
    same_lookups();
    free(s.octets);
    return calls;
}

int main(int count, char **words)
{
    size_t calls = 0, stopped = 0;
    unsigned long seeds = count == 2 ? strtoul(words[1], NULL, 10) : 0;
    name_roots();
    for (state = 1; state <= seeds; state++) {
        uint32_t seed = state;
        open_boxes();
        calls += check_stream();
        stopped += ours.stream[0] != 0;
        state = seed;
    }
    printf("%zu calls on both boxes, %zu of %lu streams stopped, no difference\n", calls, stopped, seeds);
    return seeds == 0;
}
