/* Streams of one neighbour's PDUs, for the session box. */
#ifndef STREAM_H
#define STREAM_H

#include "orders.h"

enum { PDU_MOST = 4100, STREAM_NEIGHBOUR = 15 };

extern const uint8_t stream_identifier[CARD_IDENTIFIER_OCTETS];

struct stream_text {
    uint8_t *octets;
    size_t length, room;
    size_t pdu; /* where the open one begins */
};

/* A PDU's head; its length field is right after each message. */
void open_pdu(struct stream_text *s);
/* Into the open PDU, or a new one where it is full. */
void add_message(struct stream_text *s, const uint8_t *octets, size_t length);

#endif
