#include "stream.h"

#include <stdio.h>
#include <stdlib.h>
#include <string.h>

enum { PDU_HEAD = 10, LENGTH_AT = 2 };

const uint8_t stream_identifier[CARD_IDENTIFIER_OCTETS] = {192, 0, 2, 15, 0, 0};

static uint8_t *grow(struct stream_text *s, size_t length)
{
    if (s->length + length > s->room) {
        s->room = 2 * (s->length + length);
        s->octets = realloc(s->octets, s->room);
        if (s->octets == NULL) {
            fprintf(stderr, "no memory for a stream\n");
            exit(2);
        }
    }
    s->length += length;
    return s->octets + s->length - length;
}

static void set_length(struct stream_text *s)
{
    size_t length = s->length - s->pdu - LENGTH_AT - 2;
    s->octets[s->pdu + LENGTH_AT] = (uint8_t)(length >> 8);
    s->octets[s->pdu + LENGTH_AT + 1] = (uint8_t)length;
}

void open_pdu(struct stream_text *s)
{
    s->pdu = s->length;
    uint8_t *head = grow(s, PDU_HEAD);
    memcpy(head, "\x00\x01\x00\x00", 4);
    memcpy(head + 4, stream_identifier, sizeof stream_identifier);
    set_length(s);
}

void add_message(struct stream_text *s, const uint8_t *octets, size_t length)
{
    if (s->length == 0 || s->length - s->pdu + length > PDU_MOST)
        open_pdu(s);
    memcpy(grow(s, length), octets, length);
    set_length(s);
}
