/* A day: the orders of a file in the line form of the bench program. */
#ifndef DAY_H
#define DAY_H

#include <stddef.h>
#include <stdint.h>

enum order_kind { BAD, START, ROOM, TAKE, JOIN, LEAVE, ROUTE, LOST, LABEL, TREE, FREE, SAVE, RESTORE, SERVE };

struct order {
    enum order_kind kind;
    size_t line;            /* from 1 */
    uint32_t number;        /* base, room, neighbour, route or label */
    const uint8_t *octets;
    size_t length;
};

struct day {
    struct order *orders;
    size_t count;
    uint8_t *text;
};

/* Ends the program with a message where the file cannot be read. */
struct day read_day(const char *file);
void free_day(struct day *day);

const char *order_word(enum order_kind kind);

#endif
