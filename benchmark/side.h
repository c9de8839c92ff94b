/* The cards that are compared, under one set of calls. */
#ifndef SIDE_H
#define SIDE_H

#include "day.h"
#include "plain.h"

struct side {
    const char *name;
    uint32_t (*start)(uint64_t *, uint32_t);
    size_t (*receive)(uint64_t *, uint8_t *, uint32_t, const uint8_t *, size_t, uint8_t *, size_t, uint32_t *);
    size_t (*join)(uint64_t *, uint8_t *, const uint8_t *, size_t, uint8_t *, size_t, uint32_t *);
    size_t (*leave)(uint64_t *, uint8_t *, const uint8_t *, size_t, uint8_t *, size_t, uint32_t *);
    size_t (*route)(uint64_t *, uint8_t *, const uint8_t *, size_t, uint32_t, uint8_t *, size_t, uint32_t *);
    size_t (*lost)(uint64_t *, uint8_t *, uint32_t, uint8_t *, size_t, uint32_t *);
    bool (*lookup_label)(const uint64_t *, uint32_t, uint64_t *);
    bool (*lookup_name)(const uint64_t *, const uint8_t *, const uint8_t *, size_t, uint64_t *);
    uint32_t (*free_labels)(const uint64_t *);
    size_t (*save)(const uint64_t *, const uint8_t *, uint8_t *, size_t, uint32_t *);
    uint32_t (*restore)(uint64_t *, uint8_t *, const uint8_t *, size_t, uint64_t *, uint8_t *, uint8_t *);
    size_t (*serve)(uint64_t *, uint8_t *, uint64_t *, uint8_t *, size_t, uint32_t, const uint8_t *, const uint8_t *, size_t,
                    uint8_t *, size_t, uint32_t *, size_t *);
};

#define SIDE(name, prefix)                                                                                             \
    {                                                                                                                  \
        name, prefix##_start, prefix##_receive, prefix##_join, prefix##_leave, prefix##_route, prefix##_lost,          \
            prefix##_lookup_label, prefix##_lookup_name, prefix##_free_labels, prefix##_save, prefix##_restore,         \
            prefix##_serve                                                                                             \
    }

extern const struct side proved, plain;

enum { CACHE_LINE = 64 };

/* A card with what its calls are lent, and what they came back with. */
struct bench {
    const struct side *side;
    _Alignas(CACHE_LINE) uint64_t numbers[CARD_NUMBERS];
    _Alignas(CACHE_LINE) uint8_t names[CARD_NAMES];
    _Alignas(CACHE_LINE) uint8_t out[CARD_SAVE_MOST]; /* of which an event is lent CARD_OUT_MOST */
    size_t room;
    uint32_t answer;
    size_t written;
    bool leaf;
    uint64_t stream[CARD_STREAM_NUMBERS]; /* of one neighbour */
    _Alignas(CACHE_LINE) uint8_t buffer[CARD_STREAM_OCTETS];
    _Alignas(CACHE_LINE) uint64_t branches[CARD_NEIGHBOURS];
    _Alignas(CACHE_LINE) uint64_t spare_numbers[CARD_NUMBERS];
    _Alignas(CACHE_LINE) uint8_t spare_names[CARD_NAMES];
    _Alignas(CACHE_LINE) uint8_t spare_save[CARD_SAVE_MOST];
};

void open_bench(struct bench *b, const struct side *side);
void obey(struct bench *b, const struct order *o);

#endif
