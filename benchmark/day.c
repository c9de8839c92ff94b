#include "day.h"

#include "card.h"

#include <stdbool.h>
#include <stdio.h>
#include <stdlib.h>
#include <string.h>

enum { LONGEST_LINE = 131072, LONGEST_HEX = 4096, MOST_WORDS = 4 };

struct word {
    uint8_t *at;
    size_t length;
};

struct form {
    const char *word;
    enum order_kind kind;
    const char *takes;      /* n: a number, h: hex, s: hex of a save */
};

static const struct form forms[] = {
    {"start", START, "n"}, {"room", ROOM, "n"},    {"take", TAKE, "nh"}, {"join", JOIN, "h"}, {"leave", LEAVE, "h"},
    {"route", ROUTE, "hn"}, {"lost", LOST, "n"},   {"label", LABEL, "n"}, {"tree", TREE, "h"},  {"free", FREE, ""},
    {"save", SAVE, ""},     {"restore", RESTORE, "s"},
};

enum { FORMS = sizeof forms / sizeof forms[0] };

const char *order_word(enum order_kind kind)
{
    for (size_t i = 0; i < FORMS; i++)
        if (forms[i].kind == kind)
            return forms[i].word;
    return "?";
}

static void *need(void *memory)
{
    if (memory == NULL) {
        fprintf(stderr, "no memory\n");
        exit(2);
    }
    return memory;
}

static uint8_t *read_file(const char *file, size_t *length)
{
    FILE *in = fopen(file, "rb");
    uint8_t *text = NULL;
    size_t room = 0;
    *length = 0;
    if (in == NULL) {
        perror(file);
        exit(2);
    }
    do {
        room = 2 * room + 65536;
        text = need(realloc(text, room));
        *length += fread(text + *length, 1, room - *length, in);
    } while (*length == room);
    fclose(in);
    return text;
}

static bool read_number(struct word w, uint32_t *number)
{
    uint64_t n = 0;
    for (size_t i = 0; i < w.length; i++) {
        if (w.at[i] < '0' || w.at[i] > '9')
            return false;
        n = 10 * n + (uint64_t)(w.at[i] - '0');
        if (n > UINT32_MAX)
            return false;
    }
    *number = (uint32_t)n;
    return true;
}

static int hex_digit(uint8_t c)
{
    if (c >= '0' && c <= '9')
        return c - '0';
    c |= 0x20;
    return c >= 'a' && c <= 'f' ? c - 'a' + 10 : -1;
}

/* The octets take the place of their digits. */
static bool read_hex(struct word w, size_t longest, struct order *o)
{
    o->octets = w.at;
    o->length = w.length / 2;
    if (w.length == 1 && w.at[0] == '-')
        return true;
    if (w.length % 2 != 0 || o->length > longest)
        return false;
    for (size_t i = 0; i < o->length; i++) {
        int high = hex_digit(w.at[2 * i]), low = hex_digit(w.at[2 * i + 1]);
        if (high < 0 || low < 0)
            return false;
        w.at[i] = (uint8_t)(16 * high + low);
    }
    return true;
}

/* At most MOST_WORDS: no order has so many. */
static size_t split(uint8_t *line, size_t length, struct word *words)
{
    size_t count = 0, i = 0;
    while (i < length && line[i] != '#' && count < MOST_WORDS) {
        if (line[i] == ' ' || line[i] == '\t') {
            i++;
            continue;
        }
        size_t start = i;
        while (i < length && line[i] != ' ' && line[i] != '\t' && line[i] != '#')
            i++;
        words[count++] = (struct word){line + start, i - start};
    }
    return count;
}

static bool read_word(struct word w, char form, struct order *o)
{
    if (form == 'n')
        return read_number(w, &o->number);
    return read_hex(w, form == 's' ? CARD_SAVE_MOST : LONGEST_HEX, o);
}

static bool read_order(const struct word *words, size_t count, struct order *o)
{
    for (size_t i = 0; i < FORMS; i++) {
        const struct form *f = &forms[i];
        if (strlen(f->word) != words[0].length || memcmp(f->word, words[0].at, words[0].length) != 0)
            continue;
        if (count != 1 + strlen(f->takes))
            return false;
        for (size_t k = 0; k + 1 < count; k++)
            if (!read_word(words[k + 1], f->takes[k], o))
                return false;
        o->kind = f->kind;
        return true;
    }
    return false;
}

/* Whether the line has an order, good or bad. */
static bool read_line(uint8_t *line, size_t length, struct order *o)
{
    struct word words[MOST_WORDS];
    o->kind = BAD;
    if (length > LONGEST_LINE)
        return true;
    size_t count = split(line, length, words);
    if (count == 0)
        return false;
    if (!read_order(words, count, o))
        o->kind = BAD;
    return true;
}

struct day read_day(const char *file)
{
    struct day day = {NULL, 0, NULL};
    size_t length, room = 0, line = 0;
    day.text = read_file(file, &length);
    for (size_t at = 0; at < length; line++) {
        uint8_t *end = memchr(day.text + at, '\n', length - at);
        size_t size = end == NULL ? length - at : (size_t)(end - (day.text + at));
        if (day.count == room) {
            room = 2 * room + 1024;
            day.orders = need(realloc(day.orders, room * sizeof day.orders[0]));
        }
        struct order *o = &day.orders[day.count];
        *o = (struct order){BAD, line + 1, 0, day.text, 0};
        if (read_line(day.text + at, size, o))
            day.count++;
        at += size + 1;
    }
    return day;
}

void free_day(struct day *day)
{
    free(day->orders);
    free(day->text);
    *day = (struct day){NULL, 0, NULL};
}
