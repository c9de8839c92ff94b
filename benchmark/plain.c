/*
 * A plain C card, written for speed. A tree stays in its slot while it stands, and a root while it has a route; `order`
 * and `root_order` have the slots, oldest first. Free labels are bits, and a mapped label knows its tree's slot. A tree
 * knows its root's slot, and so its route, by which its branch from the upstream is held: that one is left out of
 * lookups, and alone it makes no label due. Which branches stand are bits too. Names and roots have tags of one octet,
 * compared eight at a time before any name is. With each root stand the counts of its trees.
 */
#include "side.h"

#include <string.h>

enum { NO_LABEL = CARD_LABELS, NAME_SLOT = 1 + CARD_ELEMENT_MOST, ROOT_SLOT = 17, RECORD_HEAD = 24 };

enum { MAPPING = 0x0400, WITHDRAW = 0x0402, RELEASE = 0x0403 };

/* A label's mark: 0 free, 1 to 16 mapped to a neighbour, 17 to 32 awaiting release from one; its tree's slot above. */
enum { MAPPED = 1, AWAITING = 17, MARK = 0xff, SLOT_SHIFT = 8 };

/* A root's route; how many of its trees stand; how many of them have one branch, held or not, and no leaf. */
struct entry {
    uint8_t via, trees, lone;
};

/* The slot of a root that has no route. What is counted there says nothing. */
enum { NO_ENTRY = CARD_ROOTS };

struct table {
    uint64_t base, next_id, route_count, tree_count;
    uint64_t used_slots, used_roots, leaves;
    uint64_t turn; /* the place after that of the last label given */
    uint64_t free_count;
    uint64_t free_labels[CARD_LABELS / 64];
    uint64_t order[CARD_TREES / 8];
    uint64_t root_order[CARD_ROOTS / 8];
    uint64_t tree_tag[CARD_TREES / 8];
    uint64_t tree_root[CARD_TREES / 8]; /* the slot of its root */
    uint64_t tree_root_tag[CARD_TREES / 8];
    uint64_t root_tag[CARD_ROOTS / 8];
    struct entry roots[CARD_ROOTS + 1];
    uint8_t standing[CARD_TREES][2]; /* a bit for each neighbour whose branch stands */
    uint64_t own_label[CARD_TREES];
    uint64_t branches[CARD_TREES][CARD_NEIGHBOURS];
    uint64_t mark[CARD_LABELS];
};

/* A name or a root: its length, and then its octets. */
struct texts {
    uint8_t tree[CARD_TREES][NAME_SLOT];
    uint8_t label[CARD_LABELS][NAME_SLOT];
    uint8_t root[CARD_ROOTS][ROOT_SLOT];
};

_Static_assert(sizeof(struct table) <= CARD_NUMBERS * sizeof(uint64_t), "the table fits the lent numbers");
_Static_assert(sizeof(struct texts) <= CARD_NAMES, "the texts fit the lent names");

struct card {
    struct table *table;
    struct texts *texts;
};

struct text {
    const uint8_t *octets;
    size_t length;
};

struct message {
    uint32_t kind, label;
    struct text name;
};

struct output {
    uint8_t *octets;
    size_t room, written;
};

static struct card card_in(uint64_t *numbers, uint8_t *names)
{
    return (struct card){(struct table *)numbers, (struct texts *)names};
}

static uint8_t *octets_of(uint64_t *column)
{
    return (uint8_t *)column;
}

/* ---- octets */

static uint32_t two_at(const uint8_t *s)
{
    uint16_t x;
    memcpy(&x, s, 2);
    return __builtin_bswap16(x);
}

static uint32_t four_at(const uint8_t *s)
{
    uint32_t x;
    memcpy(&x, s, 4);
    return __builtin_bswap32(x);
}

static void put_two(uint8_t *s, uint32_t x)
{
    uint16_t swapped = __builtin_bswap16((uint16_t)x);
    memcpy(s, &swapped, 2);
}

static void put_four(uint8_t *s, uint32_t x)
{
    uint32_t swapped = __builtin_bswap32(x);
    memcpy(s, &swapped, 4);
}

static bool holds(const uint8_t *slot, struct text t)
{
    return slot[0] == t.length && memcmp(slot + 1, t.octets, t.length) == 0;
}

/* At least 8 octets, as every name has. Most have at most 32. */
static void copy_name(uint8_t *to, const uint8_t *from, size_t length)
{
    uint64_t low[2], high[2];
    if (length > 32) {
        memcpy(to, from, length);
    } else if (length > 16) {
        memcpy(low, from, 16);
        memcpy(high, from + length - 16, 16);
        memcpy(to, low, 16);
        memcpy(to + length - 16, high, 16);
    } else {
        memcpy(low, from, 8);
        memcpy(high, from + length - 8, 8);
        memcpy(to, low, 8);
        memcpy(to + length - 8, high, 8);
    }
}

static void keep(uint8_t *slot, struct text name)
{
    slot[0] = (uint8_t)name.length;
    copy_name(slot + 1, name.octets, name.length);
}

static struct text kept(const uint8_t *slot)
{
    return (struct text){slot + 1, slot[0]};
}

/* ---- a message in */

/* Whether elements fill an opaque value: type 1 octet, length 2, value; or type 255, extended type 2, length 2, value. */
static bool is_filled(struct text o)
{
    size_t at = 0;
    while (at < o.length) {
        size_t head = o.octets[at] == 255 ? 5 : 3;
        if (o.length - at < head)
            return false;
        at += head + two_at(o.octets + at + head - 2);
    }
    return at == o.length;
}

static uint32_t element_refusal(struct text e)
{
    if (e.length < 4 || e.octets[0] != 6)
        return CARD_BAD_ELEMENT;
    uint32_t family = two_at(e.octets + 1);
    size_t n = family == 1 ? 4 : family == 2 ? 16 : 0;
    if (n == 0 || e.octets[3] != n || e.length < 6 + n)
        return CARD_BAD_ELEMENT;
    size_t k = two_at(e.octets + 4 + n);
    if (e.length != 6 + n + k)
        return CARD_BAD_ELEMENT;
    if (k == 0 || k > CARD_OPAQUE_MOST)
        return CARD_BAD_OPAQUE;
    return is_filled((struct text){e.octets + 6 + n, k}) ? CARD_ACCEPTED : CARD_MALFORMED_OPAQUE;
}

/* The places of the first two TLVs, how many there are, and whether a further one has its U bit clear. */
struct framing {
    size_t at[2];
    size_t count;
    bool unknown;
};

static bool read_framing(const uint8_t *m, size_t n, struct framing *f)
{
    *f = (struct framing){{0, 0}, 0, false};
    for (size_t at = 8; at < n; at += 4 + two_at(m + at + 2)) {
        if (n - at < 4 || n - at - 4 < two_at(m + at + 2))
            return false;
        if (f->count < 2)
            f->at[f->count] = at;
        else if (m[at] < 0x80)
            f->unknown = true;
        f->count++;
    }
    return true;
}

static uint32_t read_message(const uint8_t *m, size_t n, struct message *read)
{
    struct framing f;
    if (n < 8 || 4 + (size_t)two_at(m + 2) != n)
        return CARD_BAD_LENGTH;
    read->kind = two_at(m);
    if (read->kind != MAPPING && read->kind != WITHDRAW && read->kind != RELEASE)
        return CARD_BAD_TYPE;
    if (!read_framing(m, n, &f))
        return CARD_TLV_OVERRUN;
    if (f.count < 2 || two_at(m + f.at[0]) != 0x0100 || two_at(m + f.at[1]) != 0x0200)
        return CARD_BAD_TLV_ORDER;
    read->name = (struct text){m + f.at[0] + 4, two_at(m + f.at[0] + 2)};
    uint32_t refusal = element_refusal(read->name);
    if (refusal != CARD_ACCEPTED)
        return refusal;
    if (two_at(m + f.at[1] + 2) != 4)
        return CARD_BAD_LABEL;
    read->label = four_at(m + f.at[1] + 4);
    if (read->label < CARD_LABEL_LEAST || read->label > CARD_LABEL_MOST)
        return CARD_BAD_LABEL;
    return f.unknown ? CARD_UNKNOWN_TLV : CARD_ACCEPTED;
}

/* ---- records out */

static void send(struct card c, struct output *o, uint32_t to, uint32_t kind, struct text name, uint32_t label)
{
    uint8_t *s = o->octets + o->written;
    s[0] = 0x4C;
    s[1] = 0x44;
    put_two(s + 2, to);
    put_two(s + 4, kind);
    put_two(s + 6, 16 + (uint32_t)name.length);
    put_four(s + 8, (uint32_t)c.table->next_id++);
    put_two(s + 12, 0x0100);
    put_two(s + 14, (uint32_t)name.length);
    copy_name(s + 16, name.octets, name.length);
    s += 16 + name.length;
    put_two(s, 0x0200);
    put_two(s + 2, 4);
    put_four(s + 4, label);
    o->written += RECORD_HEAD + name.length;
}

/* ---- the table */

/* Which of the first `count` octets of a column are the tag, as bits; perhaps some behind them. */
static uint64_t places_of(const uint64_t *column, size_t count, uint8_t tag)
{
    const uint64_t ones = 0x0101010101010101, low = 0x7f * ones;
    uint64_t found = 0;
    for (size_t w = 0; 8 * w < count; w++) {
        uint64_t x = column[w] ^ tag * ones;
        uint64_t same = ~(((x & low) + low) | x | low) >> 7;
        found |= (same * 0x0102040810204080 >> 56) << 8 * w;
    }
    return found;
}

static struct text root_of(struct text name)
{
    return (struct text){name.octets + 4, name.octets[3]};
}

static uint8_t tag_of_root(struct text root)
{
    return root.octets[root.length - 1];
}

/* Of the end of the name, and the end of its root. */
static uint8_t name_tag(struct text name)
{
    uint64_t behind;
    memcpy(&behind, name.octets + name.length - 8, 8);
    return (uint8_t)((behind * 0x9E3779B97F4A7C15 >> 56) + tag_of_root(root_of(name)));
}

static size_t slots_in_use(const struct table *t)
{
    return t->used_slots == 0 ? 0 : 64 - (size_t)__builtin_clzll(t->used_slots);
}

/* Names of one root differ behind, so the last eight octets are compared first. */
static size_t find_tree(const struct table *t, const struct texts *x, struct text name)
{
    const uint8_t *behind = name.octets + name.length - 8;
    uint64_t left = t->used_slots & places_of(t->tree_tag, slots_in_use(t), name_tag(name));
    for (; left != 0; left &= left - 1) {
        size_t slot = (size_t)__builtin_ctzll(left);
        const uint8_t *s = x->tree[slot];
        if (s[0] == name.length && memcmp(s + 1 + name.length - 8, behind, 8) == 0 &&
            memcmp(s + 1, name.octets, name.length - 8) == 0)
            return slot;
    }
    return CARD_TREES;
}

static bool same_root(const uint8_t *octets, size_t length, struct text root)
{
    return length == root.length && memcmp(octets, root.octets, 4) == 0 &&
           (length == 4 || memcmp(octets + 4, root.octets + 4, 12) == 0);
}

/* The slot of a root that has a route, or NO_ENTRY. */
static size_t find_root(struct card c, struct text root)
{
    const struct table *t = c.table;
    uint64_t left = t->used_roots & places_of(t->root_tag, CARD_ROOTS, tag_of_root(root));
    for (; left != 0; left &= left - 1) {
        size_t r = (size_t)__builtin_ctzll(left);
        if (same_root(c.texts->root[r] + 1, c.texts->root[r][0], root))
            return r;
    }
    return NO_ENTRY;
}

static size_t root_slot(const struct table *t, size_t slot)
{
    return ((const uint8_t *)t->tree_root)[slot];
}

static uint32_t route_of(const struct table *t, size_t slot)
{
    return t->roots[root_slot(t, slot)].via;
}

/* The first free label after the last given, going round the block; some label is free. */
static size_t take_next_free(struct table *t)
{
    size_t w = t->turn / 64 % (CARD_LABELS / 64);
    uint64_t here = t->free_labels[w] & ~0ull << t->turn % 64;
    while (here == 0) {
        w = (w + 1) % (CARD_LABELS / 64);
        here = t->free_labels[w];
    }
    size_t p = w * 64 + (size_t)__builtin_ctzll(here);
    t->free_labels[w] &= ~(1ull << p % 64);
    t->free_count--;
    t->turn = (p + 1) % CARD_LABELS;
    return p;
}

static bool is_leaf(const struct table *t, size_t slot)
{
    return t->leaves >> slot & 1;
}

static uint32_t standing_in(const struct table *t, size_t slot)
{
    uint16_t bits;
    memcpy(&bits, t->standing[slot], 2);
    return bits;
}

static bool is_bare(const struct table *t, size_t slot)
{
    return standing_in(t, slot) == 0 && !is_leaf(t, slot);
}

static bool is_lone(const struct table *t, size_t slot)
{
    uint32_t bits = standing_in(t, slot);
    return bits != 0 && (bits & (bits - 1)) == 0 && !is_leaf(t, slot);
}

/* After a change of the tree, by what it was before. */
static void recount(struct table *t, size_t slot, bool was_lone)
{
    t->roots[root_slot(t, slot)].lone += (uint8_t)(is_lone(t, slot) - was_lone);
}

static void set_branch(struct table *t, size_t slot, uint32_t neighbour, uint32_t label)
{
    uint32_t others = standing_in(t, slot) & ~(1u << neighbour);
    uint16_t bits = (uint16_t)(others | (uint32_t)(label != 0) << neighbour);
    t->branches[slot][neighbour] = label;
    memcpy(t->standing[slot], &bits, 2);
}

/* Whether the tree needs a label under that route: it has a leaf, or a branch that is not held. */
static bool needs_label(const struct table *t, size_t slot, uint32_t route)
{
    return route < CARD_NEIGHBOURS && (is_leaf(t, slot) || (standing_in(t, slot) & ~(1u << route)) != 0);
}

/* The tree is given the next free label, and the neighbour is told. */
static void give_label(struct card c, struct output *o, size_t slot, uint32_t to)
{
    struct table *t = c.table;
    size_t p = take_next_free(t);
    t->mark[p] = (MAPPED + to) | slot << SLOT_SHIFT;
    t->own_label[slot] = p;
    keep(c.texts->label[p], kept(c.texts->tree[slot]));
    send(c, o, to, MAPPING, kept(c.texts->tree[slot]), (uint32_t)(t->base + p));
}

static void give_up_label(struct card c, struct output *o, size_t slot)
{
    struct table *t = c.table;
    size_t p = t->own_label[slot];
    uint32_t to = (uint32_t)(t->mark[p] & MARK) - MAPPED;
    send(c, o, to, WITHDRAW, kept(c.texts->tree[slot]), (uint32_t)(t->base + p));
    t->mark[p] = AWAITING + to;
    t->own_label[slot] = NO_LABEL;
}

static size_t enter_tree(struct card c, struct text name, size_t root)
{
    struct table *t = c.table;
    size_t slot = (size_t)__builtin_ctzll(~t->used_slots);
    t->used_slots |= 1ull << slot;
    octets_of(t->order)[t->tree_count++] = (uint8_t)slot;
    t->own_label[slot] = NO_LABEL;
    t->roots[root].trees++;
    octets_of(t->tree_root)[slot] = (uint8_t)root;
    octets_of(t->tree_tag)[slot] = name_tag(name);
    octets_of(t->tree_root_tag)[slot] = tag_of_root(root_of(name));
    memset(t->standing[slot], 0, 2);
    memset(t->branches[slot], 0, sizeof t->branches[slot]);
    keep(c.texts->tree[slot], name);
    return slot;
}

/* From its order, which has so many. */
static void remove_slot(uint8_t *order, size_t count, size_t slot)
{
    uint8_t *at = memchr(order, (int)slot, count);
    memmove(at, at + 1, (size_t)(order + count - (at + 1)));
}

static void remove_tree(struct card c, size_t slot)
{
    struct table *t = c.table;
    remove_slot(octets_of(t->order), t->tree_count--, slot);
    t->roots[root_slot(t, slot)].trees--;
    t->used_slots &= ~(1ull << slot);
}

/* The slots among these, oldest first; how many. */
static size_t oldest_first(const struct table *t, uint64_t among, uint8_t slots[CARD_TREES])
{
    const uint8_t *order = (const uint8_t *)t->order;
    size_t count = 0;
    if (among == t->used_slots) {
        memcpy(slots, order, t->tree_count);
        return t->tree_count;
    }
    if ((among & (among - 1)) == 0) {
        slots[0] = (uint8_t)(among == 0 ? 0 : __builtin_ctzll(among));
        return among != 0;
    }
    for (size_t i = 0; i < t->tree_count; i++) {
        slots[count] = order[i];
        count += among >> order[i] & 1;
    }
    return count;
}

/* ---- events of one tree */

/*
 * A branch from a neighbour, or a leaf (from CARD_NEIGHBOURS), is to grow on the tree in the slot, or on a new one
 * (CARD_TREES): its slot, with the label that it then needs; or CARD_TREES and a refusal.
 */
static size_t make_ready(struct card c, size_t slot, struct text name, uint32_t from, struct output *o,
                         uint32_t *answer)
{
    struct table *t = c.table;
    bool stands = slot != CARD_TREES;
    size_t root = stands ? root_slot(t, slot) : find_root(c, root_of(name));
    uint32_t route = t->roots[root].via;
    bool lacking = !stands || t->own_label[slot] == NO_LABEL;
    bool labelled = lacking && route < CARD_NEIGHBOURS && from != route;
    if (!stands && t->tree_count == CARD_TREES)
        *answer = CARD_TREES_FULL;
    else if (labelled && t->free_count == 0)
        *answer = CARD_LABELS_SHORT;
    else if (labelled && o->room < RECORD_HEAD + name.length)
        *answer = CARD_NO_ROOM;
    else {
        if (!stands)
            slot = enter_tree(c, name, root);
        if (labelled)
            give_label(c, o, slot, route);
        *answer = CARD_ACCEPTED;
        return slot;
    }
    return CARD_TREES;
}

static void on_mapping(struct card c, uint32_t from, const struct message *m, struct output *o, uint32_t *answer)
{
    struct table *t = c.table;
    size_t slot = find_tree(t, c.texts, m->name);
    if (slot != CARD_TREES && t->branches[slot][from] != 0) {
        *answer = t->branches[slot][from] == m->label ? CARD_ACCEPTED : CARD_OTHER_LABEL;
        return;
    }
    slot = make_ready(c, slot, m->name, from, o, answer);
    if (slot == CARD_TREES)
        return;
    bool was_lone = is_lone(t, slot);
    set_branch(t, slot, from, m->label);
    recount(t, slot, was_lone);
}

/* What goes with a branch or a leaf that has gone: a label that is not needed any more, a tree with neither. */
struct ending {
    bool label, tree;
};

static struct ending ending_of(const struct table *t, size_t slot)
{
    bool label = t->own_label[slot] != NO_LABEL && !needs_label(t, slot, route_of(t, slot));
    return (struct ending){label, is_bare(t, slot)};
}

static void let_go(struct card c, size_t slot, struct ending e, struct output *o)
{
    if (e.label)
        give_up_label(c, o, slot);
    if (e.tree)
        remove_tree(c, slot);
}

static void on_withdraw(struct card c, uint32_t from, const struct message *m, struct output *o, uint32_t *answer)
{
    struct table *t = c.table;
    struct ending e = {false, false};
    size_t slot = find_tree(t, c.texts, m->name);
    size_t size = RECORD_HEAD + m->name.length;
    bool branch = slot != CARD_TREES && t->branches[slot][from] == m->label;
    bool was_lone = branch && is_lone(t, slot);
    if (branch) {
        set_branch(t, slot, from, 0);
        e = ending_of(t, slot);
    }
    if (o->room < (e.label ? 2 * size : size)) {
        if (branch)
            set_branch(t, slot, from, m->label);
        *answer = CARD_NO_ROOM;
        return;
    }
    send(c, o, from, RELEASE, m->name, m->label);
    if (branch) {
        recount(t, slot, was_lone);
        let_go(c, slot, e, o);
    }
    *answer = CARD_ACCEPTED;
}

static void on_release(struct card c, uint32_t from, const struct message *m, uint32_t *answer)
{
    struct table *t = c.table;
    uint64_t p = m->label - t->base;
    if (p >= CARD_LABELS || t->mark[p] != AWAITING + from || !holds(c.texts->label[p], m->name)) {
        *answer = CARD_NOT_AWAITED;
        return;
    }
    t->mark[p] = 0;
    t->free_labels[p / 64] |= 1ull << p % 64;
    t->free_count++;
    *answer = CARD_ACCEPTED;
}

size_t plain_receive(uint64_t *numbers, uint8_t *names, uint32_t neighbour, const uint8_t *message,
                     size_t message_length, uint8_t *out, size_t out_length, uint32_t *answer)
{
    struct card c = card_in(numbers, names);
    struct output o = {out, out_length, 0};
    struct message m;
    if (neighbour >= CARD_NEIGHBOURS) {
        *answer = CARD_NO_SUCH_NEIGHBOUR;
        return 0;
    }
    *answer = read_message(message, message_length, &m);
    if (*answer != CARD_ACCEPTED)
        return 0;
    if (m.kind == MAPPING)
        on_mapping(c, neighbour, &m, &o, answer);
    else if (m.kind == WITHDRAW)
        on_withdraw(c, neighbour, &m, &o, answer);
    else
        on_release(c, neighbour, &m, answer);
    return o.written;
}

size_t plain_join(uint64_t *numbers, uint8_t *names, const uint8_t *element, size_t element_length, uint8_t *out,
                  size_t out_length, uint32_t *answer)
{
    struct card c = card_in(numbers, names);
    struct output o = {out, out_length, 0};
    struct text name = {element, element_length};
    *answer = element_refusal(name);
    if (*answer != CARD_ACCEPTED)
        return 0;
    size_t slot = make_ready(c, find_tree(c.table, c.texts, name), name, CARD_NEIGHBOURS, &o, answer);
    if (slot != CARD_TREES) {
        bool was_lone = is_lone(c.table, slot);
        c.table->leaves |= 1ull << slot;
        recount(c.table, slot, was_lone);
    }
    return o.written;
}

size_t plain_leave(uint64_t *numbers, uint8_t *names, const uint8_t *element, size_t element_length, uint8_t *out,
                   size_t out_length, uint32_t *answer)
{
    struct card c = card_in(numbers, names);
    struct table *t = c.table;
    struct output o = {out, out_length, 0};
    struct text name = {element, element_length};
    *answer = element_refusal(name);
    if (*answer != CARD_ACCEPTED)
        return 0;
    size_t slot = find_tree(t, c.texts, name);
    if (slot == CARD_TREES || !is_leaf(t, slot)) {
        *answer = CARD_NOT_A_LEAF;
        return 0;
    }
    t->leaves ^= 1ull << slot;
    struct ending e = ending_of(t, slot);
    if (e.label && out_length < RECORD_HEAD + name.length) {
        t->leaves ^= 1ull << slot;
        *answer = CARD_NO_ROOM;
        return 0;
    }
    recount(t, slot, false);
    let_go(c, slot, e, &o);
    return o.written;
}

/* ---- route orders */

/* A route order: the slot of the root, or NO_ENTRY, its trees, oldest first, and where they go. */
struct move {
    size_t root;
    uint32_t route;
    uint8_t slots[CARD_TREES];
    size_t count;
};

/* The trees of a root: by its slot, or where it has none by its octets. */
static uint64_t trees_of(struct card c, size_t r, struct text root)
{
    const struct table *t = c.table;
    uint64_t found = t->used_slots & places_of(t->tree_root, slots_in_use(t), (uint8_t)r);
    if (r != NO_ENTRY)
        return found;
    found &= places_of(t->tree_root_tag, slots_in_use(t), tag_of_root(root));
    for (uint64_t left = found; left != 0; left &= left - 1) {
        const uint8_t *name = c.texts->tree[__builtin_ctzll(left)] + 1;
        if (!same_root(name + 4, name[3], root))
            found ^= left & -left;
    }
    return found;
}

/* What a move takes: labels, and octets of its records. */
struct need {
    size_t labels, octets;
};

static struct need need_of(struct card c, const struct move *m)
{
    const struct table *t = c.table;
    struct need n = {0, 0};
    for (size_t k = 0; k < m->count; k++) {
        size_t slot = m->slots[k];
        bool needs = needs_label(t, slot, m->route);
        size_t records = (size_t)(t->own_label[slot] != NO_LABEL) + needs;
        n.labels += needs;
        n.octets += records * (RECORD_HEAD + c.texts->tree[slot][0]);
    }
    return n;
}

/* By the counts where they say enough: the walk is for between, and for a room that might be too short. */
static uint32_t move_refusal(struct card c, const struct move *m, size_t room)
{
    size_t free = c.table->free_count;
    if (m->count <= free && room >= m->count * 2 * CARD_RECORD_MOST)
        return CARD_ACCEPTED;
    struct need n = need_of(c, m);
    return n.labels > free ? CARD_LABELS_SHORT : n.octets > room ? CARD_NO_ROOM : CARD_ACCEPTED;
}

static void move_tree(struct card c, size_t slot, uint32_t route, struct output *o)
{
    if (c.table->own_label[slot] != NO_LABEL)
        give_up_label(c, o, slot);
    if (needs_label(c.table, slot, route))
        give_label(c, o, slot, route);
}

static size_t enter_root(struct card c, struct text root, uint32_t route)
{
    struct table *t = c.table;
    size_t r = (size_t)__builtin_ctzll(~t->used_roots);
    t->used_roots |= 1ull << r;
    octets_of(t->root_order)[t->route_count++] = (uint8_t)r;
    octets_of(t->root_tag)[r] = tag_of_root(root);
    c.texts->root[r][0] = (uint8_t)root.length;
    memcpy(c.texts->root[r] + 1, root.octets, root.length);
    t->roots[r] = (struct entry){(uint8_t)route, 0, 0};
    return r;
}

static void remove_root(struct table *t, size_t r)
{
    remove_slot(octets_of(t->root_order), t->route_count--, r);
    t->used_roots &= ~(1ull << r);
}

/* Trees that had no route get one. */
static void count_trees(struct table *t, size_t r, const struct move *m)
{
    for (size_t k = 0; k < m->count; k++) {
        octets_of(t->tree_root)[m->slots[k]] = (uint8_t)r;
        t->roots[r].lone += is_lone(t, m->slots[k]);
    }
    t->roots[r].trees = (uint8_t)m->count;
}

static void set_route(struct card c, struct text root, const struct move *m)
{
    struct table *t = c.table;
    if (m->root == NO_ENTRY) {
        count_trees(t, enter_root(c, root, m->route), m);
    } else if (m->route == CARD_NO_ROUTE) {
        for (size_t k = 0; k < m->count; k++)
            octets_of(t->tree_root)[m->slots[k]] = NO_ENTRY;
        remove_root(t, m->root);
    } else {
        t->roots[m->root].via = (uint8_t)m->route;
    }
}

/* Whether the counts alone tell that labels do not suffice. */
static bool is_short_by_counts(const struct table *t, const struct entry *e, uint32_t route)
{
    return route < CARD_NEIGHBOURS && (size_t)(e->trees - e->lone) > t->free_count;
}

static uint32_t change_route(struct card c, struct text root, uint32_t route, struct output *o)
{
    struct table *t = c.table;
    struct move m = {find_root(c, root), route, {0}, 0};
    const struct entry *e = &t->roots[m.root];
    if (e->via == route)
        return CARD_ACCEPTED;
    if (m.root == NO_ENTRY && t->route_count == CARD_ROOTS)
        return CARD_ROOTS_FULL;
    if (m.root != NO_ENTRY && is_short_by_counts(t, e, route))
        return CARD_LABELS_SHORT;
    if (m.root == NO_ENTRY || e->trees != 0)
        m.count = oldest_first(t, trees_of(c, m.root, root), m.slots);
    uint32_t refusal = move_refusal(c, &m, o->room);
    if (refusal != CARD_ACCEPTED)
        return refusal;
    for (size_t k = 0; k < m.count; k++)
        move_tree(c, m.slots[k], route, o);
    set_route(c, root, &m);
    return CARD_ACCEPTED;
}

size_t plain_route(uint64_t *numbers, uint8_t *names, const uint8_t *root, size_t root_length, uint32_t route,
                   uint8_t *out, size_t out_length, uint32_t *answer)
{
    struct output o = {out, out_length, 0};
    if (route > CARD_NO_ROUTE)
        *answer = CARD_NO_SUCH_NEIGHBOUR;
    else if (root_length != 4 && root_length != 16)
        *answer = CARD_BAD_ELEMENT;
    else
        *answer = change_route(card_in(numbers, names), (struct text){root, root_length}, route, &o);
    return o.written;
}

/* ---- a neighbour's session is lost */

/* The neighbour, the slots of the trees that it touches, oldest first: with a branch of its own, or a route through it. */
struct loss {
    uint32_t gone;
    uint8_t slots[CARD_TREES];
    size_t count;
};

static void plan_loss(const struct table *t, uint32_t gone, struct loss *l)
{
    const uint8_t *order = (const uint8_t *)t->order;
    l->gone = gone;
    l->count = 0;
    for (size_t i = 0; i < t->tree_count; i++) {
        l->slots[l->count] = order[i];
        l->count += (standing_in(t, order[i]) >> gone & 1) | (route_of(t, order[i]) == gone);
    }
}

/* Whether the tree, without that neighbour's branch, withdraws its label from another. */
static bool withdraws(const struct table *t, size_t slot, uint32_t gone)
{
    uint32_t route = route_of(t, slot);
    if (t->own_label[slot] == NO_LABEL || route == gone || is_leaf(t, slot))
        return false;
    return (standing_in(t, slot) & ~(1u << gone) & ~(1u << route)) == 0;
}

static size_t loss_size(struct card c, const struct loss *l)
{
    size_t size = 0;
    for (size_t k = 0; k < l->count; k++)
        if (withdraws(c.table, l->slots[k], l->gone))
            size += RECORD_HEAD + c.texts->tree[l->slots[k]][0];
    return size;
}

static void free_labels_of(struct table *t, uint32_t gone)
{
    for (size_t w = 0; w < CARD_LABELS / 64; w++)
        for (uint64_t left = ~t->free_labels[w]; left != 0; left &= left - 1) {
            size_t p = w * 64 + (size_t)__builtin_ctzll(left);
            uint64_t use = t->mark[p] & MARK;
            if (use == MAPPED + gone || use == AWAITING + gone) {
                t->mark[p] = 0;
                t->free_labels[w] |= left & -left;
                t->free_count++;
            }
        }
}

/* Its branches, its labels, mapped or awaiting, and the routes through it. */
static void part_from(struct table *t, const struct loss *l)
{
    for (size_t k = 0; k < l->count; k++) {
        size_t slot = l->slots[k];
        bool was_lone = is_lone(t, slot);
        set_branch(t, slot, l->gone, 0);
        recount(t, slot, was_lone);
        if (route_of(t, slot) == l->gone) {
            octets_of(t->tree_root)[slot] = NO_ENTRY;
            t->own_label[slot] = NO_LABEL;
        }
    }
    free_labels_of(t, l->gone);
    for (uint64_t left = t->used_roots; left != 0; left &= left - 1)
        if (t->roots[__builtin_ctzll(left)].via == l->gone)
            remove_root(t, (size_t)__builtin_ctzll(left));
}

/* Trees that are bare go all at once. */
static void sweep(struct table *t, const struct loss *l)
{
    uint8_t *order = octets_of(t->order);
    size_t count = 0;
    for (size_t k = 0; k < l->count; k++)
        if (is_bare(t, l->slots[k])) {
            t->roots[root_slot(t, l->slots[k])].trees--;
            t->used_slots &= ~(1ull << l->slots[k]);
        }
    for (size_t i = 0; i < t->tree_count; i++) {
        uint8_t slot = order[i];
        order[count] = slot;
        count += t->used_slots >> slot & 1;
    }
    t->tree_count = count;
}

size_t plain_lost(uint64_t *numbers, uint8_t *names, uint32_t neighbour, uint8_t *out, size_t out_length,
                  uint32_t *answer)
{
    struct card c = card_in(numbers, names);
    struct output o = {out, out_length, 0};
    struct loss l;
    if (neighbour >= CARD_NEIGHBOURS) {
        *answer = CARD_NO_SUCH_NEIGHBOUR;
        return 0;
    }
    plan_loss(c.table, neighbour, &l);
    if (out_length < l.count * CARD_RECORD_MOST && out_length < loss_size(c, &l)) {
        *answer = CARD_NO_ROOM;
        return 0;
    }
    part_from(c.table, &l);
    for (size_t k = 0; k < l.count; k++)
        if (ending_of(c.table, l.slots[k]).label)
            give_up_label(c, &o, l.slots[k]);
    sweep(c.table, &l);
    *answer = CARD_ACCEPTED;
    return o.written;
}

/* ---- start and lookups */

uint32_t plain_start(uint64_t *numbers, uint32_t base)
{
    struct table *t = (struct table *)numbers;
    bool taken = base >= CARD_BASE_LEAST && base <= CARD_BASE_MOST;
    t->base = taken ? base : CARD_BASE_LEAST;
    t->next_id = 1;
    t->turn = 0;
    t->route_count = t->tree_count = t->used_slots = t->used_roots = t->leaves = 0;
    t->roots[NO_ENTRY].via = CARD_NO_ROUTE;
    t->free_count = CARD_LABELS;
    memset(t->free_labels, 0xff, sizeof t->free_labels);
    memset(t->mark, 0, sizeof t->mark);
    return taken ? CARD_ACCEPTED : CARD_BAD_BASE;
}

static bool found(const struct table *t, size_t slot, uint32_t route, uint64_t *branches)
{
    memcpy(branches, t->branches[slot], sizeof t->branches[slot]);
    if (route < CARD_NEIGHBOURS)
        branches[route] = 0;
    return is_leaf(t, slot);
}

static bool nothing(uint64_t *branches)
{
    memset(branches, 0, CARD_NEIGHBOURS * sizeof branches[0]);
    return false;
}

bool plain_lookup_label(const uint64_t *numbers, uint32_t label, uint64_t *branches)
{
    const struct table *t = (const struct table *)numbers;
    uint64_t p = label - t->base;
    if (p >= CARD_LABELS)
        return nothing(branches);
    uint64_t mark = t->mark[p];
    if (mark == 0 || (mark & MARK) >= AWAITING)
        return nothing(branches);
    return found(t, mark >> SLOT_SHIFT, (uint32_t)(mark & MARK) - MAPPED, branches);
}

bool plain_lookup_name(const uint64_t *numbers, const uint8_t *names, const uint8_t *element, size_t element_length,
                       uint64_t *branches)
{
    const struct table *t = (const struct table *)numbers;
    struct text name = {element, element_length};
    if (element_refusal(name) != CARD_ACCEPTED)
        return nothing(branches);
    size_t slot = find_tree(t, (const struct texts *)names, name);
    return slot == CARD_TREES ? nothing(branches) : found(t, slot, route_of(t, slot), branches);
}

uint32_t plain_free_labels(const uint64_t *numbers)
{
    return (uint32_t)((const struct table *)numbers)->free_count;
}

/* ---- the save and the way back */

enum { HEAD_KIND = 1, ROUTE_KIND, TREE_KIND, LABEL_KIND };

enum {
    SAVE_HEAD = 15,
    SAVE_ROUTE = 21,
    SAVE_TREE = 118,
    SAVE_LABEL = 59,
    ROOT_SPACE = 16,
    VALUE_SPACE = 32,
    NAME_SPACE = 1 + ROOT_SPACE + 1 + VALUE_SPACE
};

/* In a label's record. */
enum { STATE_MAPPED = 1, STATE_AWAITING = 2 };

static uint8_t *put_kind(uint8_t *s, uint8_t kind)
{
    s[0] = 0x4C;
    s[1] = 0x53;
    s[2] = kind;
    return s + 3;
}

static bool has_kind(const uint8_t *s, uint8_t kind)
{
    return s[0] == 0x4C && s[1] == 0x53 && s[2] == kind;
}

static struct text value_of(struct text name)
{
    size_t head = 6 + (size_t)name.octets[3];
    return (struct text){name.octets + head, name.length - head};
}

/* From its middle less n on, a mask of n octets. */
static const uint64_t masks[2 * VALUE_SPACE / 8] = {~0ull, ~0ull, ~0ull, ~0ull};

static uint64_t eight_at(const uint8_t *s)
{
    uint64_t x;
    memcpy(&x, s, 8);
    return x;
}

/* The text and zeros behind it, or whether zeros stand behind it. As many octets as the space has can be read there. */
static inline void put_space(uint8_t *s, size_t space, struct text t)
{
    const uint8_t *mask = (const uint8_t *)masks + VALUE_SPACE - t.length;
    for (size_t i = 0; i < space; i += 8) {
        uint64_t x = eight_at(t.octets + i) & eight_at(mask + i);
        memcpy(s + i, &x, 8);
    }
}

static inline bool is_clear_behind(const uint8_t *s, size_t space, size_t length)
{
    const uint8_t *mask = (const uint8_t *)masks + VALUE_SPACE - length;
    uint64_t behind = 0;
    for (size_t i = 0; i < space; i += 8)
        behind |= eight_at(s + i) & ~eight_at(mask + i);
    return behind == 0;
}

/* Roots and names stand in their slots, which are longer than these spaces. */
static void put_root(uint8_t *s, struct text root)
{
    s[0] = (uint8_t)root.length;
    put_space(s + 1, ROOT_SPACE, root);
}

static void put_name(uint8_t *s, struct text name)
{
    struct text value = value_of(name);
    put_root(s, root_of(name));
    s += 1 + ROOT_SPACE;
    s[0] = (uint8_t)value.length;
    put_space(s + 1, VALUE_SPACE, value);
}

static size_t save_size(size_t routes, size_t trees, size_t labels)
{
    return SAVE_HEAD + routes * SAVE_ROUTE + trees * SAVE_TREE + labels * SAVE_LABEL;
}

static bool is_short(const uint8_t *slot)
{
    return value_of(kept(slot)).length <= VALUE_SPACE;
}

/* Whether every name, a tree's or one that a label in use remembers, has a value that its space takes. */
static bool fits_save(const struct table *t, const struct texts *x)
{
    for (uint64_t left = t->used_slots; left != 0; left &= left - 1)
        if (!is_short(x->tree[__builtin_ctzll(left)]))
            return false;
    for (size_t w = 0; w < CARD_LABELS / 64; w++)
        for (uint64_t left = ~t->free_labels[w]; left != 0; left &= left - 1)
            if (!is_short(x->label[w * 64 + (size_t)__builtin_ctzll(left)]))
                return false;
    return true;
}

static uint8_t *save_route(uint8_t *s, uint8_t via, const uint8_t *root)
{
    uint8_t *at = put_kind(s, ROUTE_KIND);
    at[0] = via;
    put_root(at + 1, kept(root));
    return s + SAVE_ROUTE;
}

static uint8_t *save_tree(uint8_t *s, const struct table *t, const struct texts *x, size_t slot)
{
    uint8_t *at = put_kind(s, TREE_KIND);
    put_name(at, kept(x->tree[slot]));
    at += NAME_SPACE;
    *at++ = is_leaf(t, slot);
    for (size_t n = 0; n < CARD_NEIGHBOURS; n++)
        put_four(at + 4 * n, (uint32_t)t->branches[slot][n]);
    return s + SAVE_TREE;
}

static uint8_t *save_label(uint8_t *s, const struct table *t, const struct texts *x, size_t p)
{
    uint8_t *at = put_kind(s, LABEL_KIND);
    uint32_t use = (uint32_t)(t->mark[p] & MARK);
    bool awaits = use >= AWAITING;
    put_four(at, (uint32_t)(t->base + p));
    at[4] = awaits ? STATE_AWAITING : STATE_MAPPED;
    at[5] = (uint8_t)(use - (awaits ? AWAITING : MAPPED));
    put_name(at + 6, kept(x->label[p]));
    return s + SAVE_LABEL;
}

static uint8_t *save_head(uint8_t *s, const struct table *t, size_t labels)
{
    uint8_t *at = put_kind(s, HEAD_KIND);
    put_four(at, (uint32_t)t->base);
    put_four(at + 4, (uint32_t)t->next_id);
    at[8] = (uint8_t)t->route_count;
    at[9] = (uint8_t)t->tree_count;
    put_two(at + 10, (uint32_t)labels);
    return s + SAVE_HEAD;
}

static void write_save(uint8_t *s, const struct table *t, const struct texts *x, size_t labels)
{
    const uint8_t *order = (const uint8_t *)t->order, *root_order = (const uint8_t *)t->root_order;
    s = save_head(s, t, labels);
    for (size_t i = 0; i < t->route_count; i++)
        s = save_route(s, t->roots[root_order[i]].via, x->root[root_order[i]]);
    for (size_t i = 0; i < t->tree_count; i++)
        s = save_tree(s, t, x, order[i]);
    for (size_t w = 0; w < CARD_LABELS / 64; w++)
        for (uint64_t left = ~t->free_labels[w]; left != 0; left &= left - 1)
            s = save_label(s, t, x, w * 64 + (size_t)__builtin_ctzll(left));
}

size_t plain_save(const uint64_t *numbers, const uint8_t *names, uint8_t *out, size_t out_length, uint32_t *answer)
{
    const struct table *t = (const struct table *)numbers;
    const struct texts *x = (const struct texts *)names;
    size_t labels = CARD_LABELS - t->free_count;
    size_t size = save_size(t->route_count, t->tree_count, labels);
    if (!fits_save(t, x))
        *answer = CARD_BAD_SAVE;
    else if (out_length < size)
        *answer = CARD_NO_ROOM;
    else {
        write_save(out, t, x, labels);
        *answer = CARD_ACCEPTED;
        return size;
    }
    return 0;
}

/* A root from its space: 4 octets with zeros behind, or 16. */
static bool read_root(const uint8_t *s, struct text *root)
{
    *root = (struct text){s + 1, s[0]};
    return (s[0] == 4 || s[0] == ROOT_SPACE) && is_clear_behind(s + 1, ROOT_SPACE, s[0]);
}

/* A name from its space, laid out as an element in a slot. */
static bool read_name(const uint8_t *s, uint8_t *slot, struct text *name)
{
    struct text root, value = {s + 2 + ROOT_SPACE, s[1 + ROOT_SPACE]};
    uint8_t *element = slot + 1;
    if (!read_root(s, &root) || value.length == 0 || value.length > VALUE_SPACE)
        return false;
    if (!is_clear_behind(value.octets, VALUE_SPACE, value.length) || !is_filled(value))
        return false;
    element[0] = 6;
    put_two(element + 1, root.length == 4 ? 1 : 2);
    element[3] = (uint8_t)root.length;
    memcpy(element + 4, root.octets, ROOT_SPACE);
    put_two(element + 4 + root.length, (uint32_t)value.length);
    memcpy(element + 6 + root.length, value.octets, VALUE_SPACE);
    slot[0] = (uint8_t)(6 + root.length + value.length);
    *name = kept(slot);
    return true;
}

static bool read_route(struct card c, const uint8_t *s)
{
    struct text root;
    if (!has_kind(s, ROUTE_KIND) || s[3] > CARD_THIS_NODE || !read_root(s + 4, &root) || find_root(c, root) != NO_ENTRY)
        return false;
    enter_root(c, root, s[3]);
    return true;
}

static bool read_branches(struct table *t, size_t slot, const uint8_t *s)
{
    for (uint32_t n = 0; n < CARD_NEIGHBOURS; n++) {
        uint32_t label = four_at(s + 4 * n);
        if (label == 0)
            continue;
        if (label < CARD_LABEL_LEAST || label > CARD_LABEL_MOST)
            return false;
        set_branch(t, slot, n, label);
    }
    return true;
}

static bool read_tree(struct card c, const uint8_t *s)
{
    uint8_t read[NAME_SLOT];
    struct text name;
    const uint8_t *leaf = s + 3 + NAME_SPACE;
    if (!has_kind(s, TREE_KIND) || *leaf > 1 || !read_name(s + 3, read, &name))
        return false;
    if (find_tree(c.table, c.texts, name) != CARD_TREES)
        return false;
    size_t slot = enter_tree(c, name, find_root(c, root_of(name)));
    c.table->leaves |= (uint64_t)*leaf << slot;
    if (!read_branches(c.table, slot, leaf + 1))
        return false;
    recount(c.table, slot, false);
    return !is_bare(c.table, slot);
}

/* A label's mark: a mapped one is its tree's, which has none yet. */
static bool read_use(struct card c, size_t p, const uint8_t *s, struct text name)
{
    struct table *t = c.table;
    uint32_t neighbour = s[1];
    if (neighbour >= CARD_NEIGHBOURS || (s[0] != STATE_MAPPED && s[0] != STATE_AWAITING))
        return false;
    if (s[0] == STATE_AWAITING) {
        t->mark[p] = AWAITING + neighbour;
        return true;
    }
    size_t slot = find_tree(t, c.texts, name);
    if (slot == CARD_TREES || t->own_label[slot] != NO_LABEL || route_of(t, slot) != neighbour)
        return false;
    t->mark[p] = (MAPPED + neighbour) | slot << SLOT_SHIFT;
    t->own_label[slot] = p;
    return true;
}

/* Labels rise, so one at or above the turn is new. The turn is the last label's: what was given last is not saved. */
static bool read_label(struct card c, const uint8_t *s, uint64_t *turn)
{
    struct text name;
    uint64_t p = four_at(s + 3) - c.table->base;
    if (!has_kind(s, LABEL_KIND) || p < *turn || p >= CARD_LABELS || !read_name(s + 9, c.texts->label[p], &name))
        return false;
    if (!read_use(c, p, s + 7, name))
        return false;
    c.table->free_labels[p / 64] &= ~(1ull << p % 64);
    c.table->free_count--;
    *turn = p + 1;
    return true;
}

/* Each tree that needs a label has one. Whether it is the right neighbour's was asked when it was read. */
static bool labels_are_due(const struct table *t)
{
    for (uint64_t left = t->used_slots; left != 0; left &= left - 1) {
        size_t slot = (size_t)__builtin_ctzll(left);
        if ((t->own_label[slot] != NO_LABEL) != needs_label(t, slot, route_of(t, slot)))
            return false;
    }
    return true;
}

struct counts {
    size_t routes, trees, labels;
};

static bool read_head(struct card c, const uint8_t *s, size_t length, struct counts *n)
{
    if (length < SAVE_HEAD || !has_kind(s, HEAD_KIND))
        return false;
    *n = (struct counts){s[11], s[12], two_at(s + 13)};
    if (n->routes > CARD_ROOTS || n->trees > CARD_TREES || n->labels > CARD_LABELS)
        return false;
    if (length != save_size(n->routes, n->trees, n->labels))
        return false;
    if (plain_start((uint64_t *)c.table, four_at(s + 3)) != CARD_ACCEPTED)
        return false;
    c.table->next_id = four_at(s + 7);
    return true;
}

static bool read_save(struct card c, const uint8_t *s, size_t length)
{
    struct counts n;
    uint64_t turn = 0;
    if (!read_head(c, s, length, &n))
        return false;
    s += SAVE_HEAD;
    for (size_t i = 0; i < n.routes; i++, s += SAVE_ROUTE)
        if (!read_route(c, s))
            return false;
    for (size_t i = 0; i < n.trees; i++, s += SAVE_TREE)
        if (!read_tree(c, s))
            return false;
    for (size_t i = 0; i < n.labels; i++, s += SAVE_LABEL)
        if (!read_label(c, s, &turn))
            return false;
    c.table->turn = turn % CARD_LABELS;
    return labels_are_due(c.table);
}

uint32_t plain_restore(uint64_t *numbers, uint8_t *names, const uint8_t *octets, size_t octets_length,
                       uint64_t *spare_numbers, uint8_t *spare_names, uint8_t *spare_save)
{
    (void)spare_save;
    if (!read_save(card_in(spare_numbers, spare_names), octets, octets_length))
        return CARD_BAD_SAVE;
    memcpy(numbers, spare_numbers, sizeof(struct table));
    memcpy(names, spare_names, sizeof(struct texts));
    return CARD_ACCEPTED;
}

const struct side plain = SIDE("plain", plain);
