/* A plain C session box over the plain card, written for speed: document 02, [12]. */
#include "plain.h"

#include <string.h>

enum { PDU_HEAD = 10, LEAST_LENGTH = 14, MOST_LENGTH = 4096, MESSAGE_HEAD = 4 };

/* How many octets are left of the PDU, from the first that is held on; where in the buffer that lies, and how many are held. */
struct stream {
    uint64_t stopped, left, place, count;
};

_Static_assert(sizeof(struct stream) == CARD_STREAM_NUMBERS * sizeof(uint64_t), "a stream is the lent numbers");

static uint32_t two_at(const uint8_t *s)
{
    uint16_t x;
    memcpy(&x, s, 2);
    return __builtin_bswap16(x);
}

/* Each field as soon as its octets are there. */
static bool is_bad_head(const uint8_t *held, size_t count, const uint8_t *expected)
{
    if (count >= 2 && two_at(held) != 1)
        return true;
    if (count >= 4 && (two_at(held + 2) < LEAST_LENGTH || two_at(held + 2) > MOST_LENGTH))
        return true;
    return count == PDU_HEAD && memcmp(held + 4, expected, CARD_IDENTIFIER_OCTETS) != 0;
}

/* Whether a message with `count` of its octets there runs past what is left of the PDU. */
static inline bool is_past(const uint8_t *message, size_t count, size_t left)
{
    return left < MESSAGE_HEAD || (count >= MESSAGE_HEAD && MESSAGE_HEAD + two_at(message + 2) > left);
}

static size_t stop(struct stream *s, size_t eaten)
{
    *s = (struct stream){1, 0, 0, 0};
    return eaten;
}

static inline size_t copy(uint8_t *to, const uint8_t *from, size_t space, size_t length)
{
    size_t n = space < length ? space : length;
    if (n == 1)
        *to = *from;
    else
        memcpy(to, from, n);
    return n;
}

/* Octets of a PDU's head: how many were eaten. Behind a whole one the messages lie from the buffer's front on. */
static size_t read_head(struct stream *s, uint8_t *buffer, const uint8_t *expected, const uint8_t *offered, size_t length)
{
    size_t n = copy(buffer + s->count, offered, PDU_HEAD - s->count, length);
    s->count += n;
    if (is_bad_head(buffer, s->count, expected))
        return stop(s, length);
    if (s->count == PDU_HEAD)
        *s = (struct stream){0, two_at(buffer + 2) - CARD_IDENTIFIER_OCTETS, 0, 0};
    return n;
}

struct call {
    uint64_t *numbers;
    uint8_t *names;
    uint32_t neighbour;
    uint8_t *out;
    uint32_t *answer;
};

/* A whole message goes to the card, and the stream on behind it. */
static size_t hand_on(struct stream *s, const uint8_t *buffer, size_t size, struct call c)
{
    size_t written = plain_receive(c.numbers, c.names, c.neighbour, buffer + s->place, size, c.out, CARD_SERVE_ROOM, c.answer);
    s->left -= size;
    s->place += size;
    s->count -= size;
    if (s->left == 0)
        s->place = 0;
    else if (is_past(buffer + s->place, s->count, s->left))
        stop(s, 0);
    return written;
}

size_t plain_serve(uint64_t *numbers, uint8_t *names, uint64_t *stream, uint8_t *buffer, size_t buffer_length,
                   uint32_t neighbour, const uint8_t *expected, const uint8_t *offered, size_t offered_length,
                   uint8_t *out, size_t out_length, uint32_t *answer, size_t *eaten)
{
    struct stream *s = (struct stream *)stream;
    size_t n = 0, written = 0;
    *eaten = 0;
    if (neighbour >= CARD_NEIGHBOURS || out_length < CARD_SERVE_ROOM || buffer_length < CARD_STREAM_OCTETS) {
        *answer = neighbour >= CARD_NEIGHBOURS ? CARD_NO_SUCH_NEIGHBOUR : CARD_SESSION_SHORT;
        return 0;
    }
    *answer = CARD_ACCEPTED;
    if (s->left == 0 && !s->stopped)
        n = read_head(s, buffer, expected, offered, offered_length);
    if (s->left != 0) {
        uint8_t *message = buffer + s->place;
        size_t more = copy(message + s->count, offered + n, s->left - s->count, offered_length - n), count = s->count + more;
        n += more;
        s->count = count;
        if (count >= MESSAGE_HEAD) {
            size_t size = MESSAGE_HEAD + two_at(message + 2);
            if (size > s->left)
                stop(s, 0);
            else if (size <= count)
                written = hand_on(s, buffer, size, (struct call){numbers, names, neighbour, out, answer});
        }
    }
    *eaten = s->stopped ? offered_length : n;
    return written;
}
