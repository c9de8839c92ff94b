/* A plain C card with the calls of card.h, on the same lent memory, which it lays out in its own way. */
#ifndef PLAIN_H
#define PLAIN_H

#include "card.h"

uint32_t plain_start(uint64_t *numbers, uint32_t base);
size_t plain_receive(uint64_t *numbers, uint8_t *names, uint32_t neighbour, const uint8_t *message,
                     size_t message_length, uint8_t *out, size_t out_length, uint32_t *answer);
size_t plain_join(uint64_t *numbers, uint8_t *names, const uint8_t *element, size_t element_length, uint8_t *out,
                  size_t out_length, uint32_t *answer);
size_t plain_leave(uint64_t *numbers, uint8_t *names, const uint8_t *element, size_t element_length, uint8_t *out,
                   size_t out_length, uint32_t *answer);
size_t plain_route(uint64_t *numbers, uint8_t *names, const uint8_t *root, size_t root_length, uint32_t route,
                   uint8_t *out, size_t out_length, uint32_t *answer);
size_t plain_lost(uint64_t *numbers, uint8_t *names, uint32_t neighbour, uint8_t *out, size_t out_length,
                  uint32_t *answer);
bool plain_lookup_label(const uint64_t *numbers, uint32_t label, uint64_t *branches);
bool plain_lookup_name(const uint64_t *numbers, const uint8_t *names, const uint8_t *element, size_t element_length,
                       uint64_t *branches);
uint32_t plain_free_labels(const uint64_t *numbers);
size_t plain_save(const uint64_t *numbers, const uint8_t *names, uint8_t *out, size_t out_length, uint32_t *answer);
uint32_t plain_restore(uint64_t *numbers, uint8_t *names, const uint8_t *octets, size_t octets_length,
                       uint64_t *spare_numbers, uint8_t *spare_names, uint8_t *spare_save);

/* The session box over it: plain_box.c. */
size_t plain_serve(uint64_t *numbers, uint8_t *names, uint64_t *stream, uint8_t *buffer, size_t buffer_length,
                   uint32_t neighbour, const uint8_t *expected, const uint8_t *offered, size_t offered_length,
                   uint8_t *out, size_t out_length, uint32_t *answer, size_t *eaten);

#endif
