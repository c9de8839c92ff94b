/*
 * Cases 1 to 7 of the card's paper, through the library; then a notice, a save that is restored on another card, a plan for the
 * line to a neighbour, which is carried out, and a name that is wrapped and unwrapped.
 * Prints what was written; ends with 1 at the first answer, octet or lookup that is not as it must be.
 */
#include "card.h"

#include <stdio.h>
#include <stdlib.h>
#include <string.h>

enum kind { MAPPING = 0x0400, REQUEST = 0x0401, WITHDRAW = 0x0402, RELEASE = 0x0403 };

/* Tree A: root 192.0.2.1, opaque 01 00 04 00 00 00 07. */
static const uint8_t root_of_a[4] = {192, 0, 2, 1};
static const uint8_t a[17] = {6, 0, 1, 4, 192, 0, 2, 1, 0, 7, 1, 0, 4, 0, 0, 0, 7};

/* The record of case 1 as the paper has it. */
static const uint8_t first_record[] = {
    0x4C, 0x44, 0x00, 0x00, 0x04, 0x00, 0x00, 0x21, 0x00, 0x00, 0x00, 0x01, 0x01, 0x00, 0x00, 0x11, 0x06, 0x00, 0x01, 0x04, 0xC0,
    0x00, 0x02, 0x01, 0x00, 0x07, 0x01, 0x00, 0x04, 0x00, 0x00, 0x00, 0x07, 0x02, 0x00, 0x00, 0x04, 0x00, 0x00, 0x00, 0x10,
};

/* A as a provider sees it whose root is 198.51.100.1, and what stands round it in turn in the VPN 65000:5 of 2001:db8::9. */
static const uint8_t root_of_provider[4] = {198, 51, 100, 1};
static const uint8_t wrapped_a[30] = {6, 0, 1, 4, 198, 51, 100, 1, 0, 20, 7, 0, 17, 6, 0,
                                      1, 4, 192, 0, 2, 1, 0, 7, 1, 0, 4, 0, 0, 0, 7};
static const uint8_t root_of_vpn[16] = {0x20, 0x01, 0x0d, 0xb8, 0, 0, 0, 0, 0, 0, 0, 0, 0, 0, 0, 9};
static const uint8_t vpn[CARD_EIGHT_OCTETS] = {0, 0, 0xfd, 0xe8, 0, 0, 0, 5};

enum { MESSAGE = 8 + 4 + sizeof a + 8, RECORD = 4 + MESSAGE };

struct record {
    uint32_t neighbour, kind, id, label;
};

static uint64_t numbers[CARD_NUMBERS];
static uint8_t names[CARD_NAMES];
static uint8_t out[CARD_OUT_MOST];

/* The card that takes the first one's place, what a restore is lent, and two saves. */
static uint64_t new_numbers[CARD_NUMBERS], spare_numbers[CARD_NUMBERS];
static uint8_t new_names[CARD_NAMES], spare_names[CARD_NAMES];
static uint8_t spare_save[CARD_SAVE_MOST], save[CARD_SAVE_MOST], save_again[CARD_SAVE_MOST];

static uint8_t *put(uint8_t *at, uint32_t number, int octets)
{
    for (int i = octets - 1; i >= 0; i--)
        *at++ = (uint8_t)(number >> (8 * i));
    return at;
}

/* An LDP message <A, label>. */
static void put_message(uint8_t *at, uint32_t kind, uint32_t id, uint32_t label)
{
    at = put(at, kind, 2);
    at = put(at, MESSAGE - 4, 2);
    at = put(at, id, 4);
    at = put(at, 0x0100, 2);
    at = put(at, sizeof a, 2);
    memcpy(at, a, sizeof a);
    at = put(at + sizeof a, 0x0200, 2);
    at = put(at, 4, 2);
    put(at, label, 4);
}

static void put_record(uint8_t *at, struct record r)
{
    at = put(at, 0x4C44, 2);
    at = put(at, r.neighbour, 2);
    put_message(at, r.kind, r.id, r.label);
}

static void fail(const char *what)
{
    printf("  DIFFERS: %s\n", what);
    exit(1);
}

/* Records of one length each, a line for each. */
static void show(size_t written, size_t length)
{
    printf("  %zu octets\n", written);
    for (size_t i = 0; i < written; i++)
        printf("%s%02X%s", i % length == 0 ? "    " : " ", out[i], (i + 1) % length == 0 ? "\n" : "");
}

/* What a call answered and wrote, against the answer and the records that the paper has. */
static void compare(uint32_t answer, size_t written, uint32_t expected, size_t count, const struct record *records)
{
    uint8_t octets[2 * RECORD];
    printf("  answer %u,", answer);
    show(written, RECORD);
    if (answer != expected)
        fail("the answer");
    if (written != count * RECORD)
        fail("the number of octets");
    for (size_t i = 0; i < count; i++)
        put_record(octets + i * RECORD, records[i]);
    if (memcmp(out, octets, written) != 0)
        fail("an octet");
}

static void receive(const char *title, uint32_t from, uint32_t kind, uint32_t label, uint32_t expected, size_t count,
                    const struct record *records)
{
    uint8_t message[MESSAGE];
    uint32_t answer = 0;
    put_message(message, kind, 77, label);
    printf("%s\n", title);
    size_t written = card_receive(numbers, names, from, message, sizeof message, out, sizeof out, &answer);
    compare(answer, written, expected, count, records);
}

static void route(const char *title, uint32_t to, size_t count, const struct record *records)
{
    uint32_t answer = 0;
    printf("%s\n", title);
    size_t written = card_route(numbers, names, root_of_a, sizeof root_of_a, to, out, sizeof out, &answer);
    compare(answer, written, CARD_ACCEPTED, count, records);
}

/* The lookup of a label: one branch, or nothing where its label is 0. */
static void look(uint32_t label, uint32_t neighbour, uint64_t branch)
{
    uint64_t branches[CARD_NEIGHBOURS] = {0};
    bool leaf = card_lookup_label(numbers, label, branches);
    printf("  label %u:", label);
    for (uint32_t n = 0; n < CARD_NEIGHBOURS; n++) {
        if (branches[n] != 0)
            printf(" %u:%llu", n, (unsigned long long)branches[n]);
        if (branches[n] != (n == neighbour ? branch : 0))
            fail("a branch");
    }
    printf("%s\n", branch == 0 ? " nothing" : "");
    if (leaf)
        fail("the leaf mark");
}

static void count_free(uint32_t expected)
{
    uint32_t free_labels = card_free_labels(numbers);
    printf("  free: %u\n", free_labels);
    if (free_labels != expected)
        fail("the number of free labels");
}

static void cases_1_to_4(void)
{
    receive("1. Mapping <A, 100> from 1", 1, MAPPING, 100, CARD_ACCEPTED, 1, (struct record[]){{0, MAPPING, 1, 16}});
    if (memcmp(out, first_record, sizeof first_record) != 0)
        fail("an octet of case 1");
    receive("2. Mapping <A, 200> from 2", 2, MAPPING, 200, CARD_ACCEPTED, 0, NULL);
    receive("3. Withdraw <A, 100> from 1", 1, WITHDRAW, 100, CARD_ACCEPTED, 1, (struct record[]){{1, RELEASE, 2, 100}});
    look(16, 2, 200);
    receive("4. Withdraw <A, 200> from 2", 2, WITHDRAW, 200, CARD_ACCEPTED, 2,
            (struct record[]){{2, RELEASE, 3, 200}, {0, WITHDRAW, 4, 16}});
    look(16, 0, 0);
    count_free(255);
}

static void cases_5_to_7(void)
{
    receive("5. Mapping <A, 300> from 1", 1, MAPPING, 300, CARD_ACCEPTED, 1, (struct record[]){{0, MAPPING, 5, 17}});
    receive("6. Release <A, 16> from 3", 3, RELEASE, 16, CARD_NOT_AWAITED, 0, NULL);
    receive("   Release <A, 16> from 0", 0, RELEASE, 16, CARD_ACCEPTED, 0, NULL);
    receive("   Release <A, 16> from 0 again", 0, RELEASE, 16, CARD_NOT_AWAITED, 0, NULL);
    route("7. Route of A's root to neighbour 3", 3, 2, (struct record[]){{0, WITHDRAW, 6, 17}, {3, MAPPING, 7, 18}});
    look(18, 1, 300);
    look(17, 0, 0);
    count_free(254);
}

/* A Label Request is refused 3, and neighbour 4 is told so, with the next identifier. */
static void tell(void)
{
    static const uint32_t said[CARD_FIELDS] = {4, 8, 0x04, 77, REQUEST};
    uint32_t answer = 0, fields[CARD_FIELDS] = {0};
    uint8_t message[MESSAGE];
    receive("Request <A, 500> from 4", 4, REQUEST, 500, CARD_BAD_TYPE, 0, NULL);
    put_message(message, REQUEST, 77, 500);
    printf("Notice to 4\n");
    size_t written = card_notice(numbers, 4, CARD_BAD_TYPE, message, sizeof message, out, sizeof out, &answer);
    printf("  answer %u,", answer);
    show(written, CARD_NOTICE_OCTETS);
    if (answer != CARD_ACCEPTED || written != CARD_NOTICE_OCTETS)
        fail("the notice");
    if (card_read_notice(out, written, fields) != CARD_ACCEPTED || memcmp(fields, said, sizeof said) != 0)
        fail("what the notice says");
    printf("  read: to %u, identifier %u, status %u, of message %u, type %04X\n", fields[CARD_FIELD_NEIGHBOUR],
           fields[CARD_FIELD_ID], fields[CARD_FIELD_STATUS], fields[CARD_FIELD_COPIED_ID],
           fields[CARD_FIELD_COPIED_TYPE]);
    if (card_read_notice(out, written - 1, fields) != CARD_BAD_NOTICE || memcmp(fields, said, sizeof said) != 0)
        fail("a notice cut short");
}

/* The table as octets, and back on another card: its save is the same, and octets that are no save change nothing. */
static void swap(void)
{
    uint32_t answer = 0;
    size_t saved = card_save(numbers, names, save, sizeof save, &answer);
    printf("Save\n  answer %u,  %zu octets\n", answer, saved);
    if (answer != CARD_ACCEPTED)
        fail("the save");
    card_start(new_numbers, 1024);
    answer = card_restore(new_numbers, new_names, save, saved, spare_numbers, spare_names, spare_save);
    printf("Restore\n  answer %u\n", answer);
    if (answer != CARD_ACCEPTED)
        fail("the restore");
    if (card_restore(new_numbers, new_names, save, saved - 1, spare_numbers, spare_names, spare_save) != CARD_BAD_SAVE)
        fail("a save cut short");
    size_t again = card_save(new_numbers, new_names, save_again, sizeof save_again, &answer);
    if (again != saved || memcmp(save, save_again, saved) != 0)
        fail("the save of what was restored");
    memcpy(numbers, new_numbers, sizeof numbers);
    memcpy(names, new_names, sizeof names);
    look(18, 1, 300);
    count_free(254);
}

/* A's root may have the neighbours of a set: 1 << 5 permits neighbour 5. */
static void permit(uint8_t sets[CARD_SET_OCTETS], uint32_t neighbours)
{
    memset(sets, 0, CARD_SET_OCTETS);
    put(sets, neighbours, 2);
    sets[2] = sizeof root_of_a;
    memcpy(sets + 3, root_of_a, sizeof root_of_a);
}

/* A plan for the line to neighbour 3, which feeds A: accepted, carried out, and nothing is left of that line. */
static void clear_line_to_3(void)
{
    uint8_t sets[CARD_SET_OCTETS], list[CARD_LIST_MOST] = {0};
    uint32_t answer = 77;
    size_t entries = 77;
    permit(sets, 1 << 1 | 1 << 3 | 1 << 5);
    printf("Plan for neighbour 3\n");
    if (!card_plan(numbers, names, 3, sets, sizeof sets, list, &entries, &answer) || answer != CARD_ACCEPTED)
        fail("the plan");
    printf("  %zu entry, over neighbour %u\n", entries, list[0]);
    /* 1 needs no label: A's only branch comes from there, and would be held */
    if (entries != 1 || list[0] != 1 || list[1] != sizeof root_of_a || memcmp(list + 2, root_of_a, list[1]) != 0)
        fail("the entry");
    if (!card_check_list(numbers, names, 3, sets, sizeof sets, list, CARD_ENTRY_OCTETS, &answer))
        fail("a list of the planner's");
    route("Carried out", list[0], 1, (struct record[]){{3, WITHDRAW, 9, 18}});
    if (!card_plan(numbers, names, 3, sets, sizeof sets, list, &entries, &answer) || entries != 0)
        fail("a line that nothing goes over");
}

/* Before it is carried out: a list with 3 itself, one with the root left out, one for a neighbour that there is not; no plan. */
static void refuse_plans(void)
{
    uint8_t sets[CARD_SET_OCTETS], entry[CARD_ENTRY_OCTETS] = {3, sizeof root_of_a, 192, 0, 2, 1}, list[CARD_LIST_MOST] = {77};
    uint32_t answer = 77;
    size_t entries = 77;
    permit(sets, 1 << 3);
    if (card_check_list(numbers, names, 3, sets, sizeof sets, entry, sizeof entry, &answer) || answer != CARD_ACCEPTED)
        fail("a list with the neighbour itself");
    if (card_check_list(numbers, names, 3, sets, sizeof sets, entry, 0, &answer) || answer != CARD_ACCEPTED)
        fail("a list without the root");
    if (card_check_list(numbers, names, 16, sets, sizeof sets, entry, sizeof entry, &answer) || answer != CARD_NO_SUCH_NEIGHBOUR)
        fail("a list for neighbour 16");
    if (card_plan(numbers, names, 3, sets, sizeof sets, list, &entries, &answer) || answer != CARD_ACCEPTED || entries != 0)
        fail("a plan where there is none");
    if (list[0] != 77)
        fail("a list where there is none");
}

/* Wraps a name in place. */
static size_t wrap(uint8_t *name, size_t length, size_t room, const uint8_t *root, size_t root_length, size_t eight,
                   uint32_t expected)
{
    uint32_t answer = 0;
    size_t written = card_wrap(root, root_length, vpn, eight, name, length, out, room, &answer);
    printf("Wrap\n  answer %u,", answer);
    show(written, written);
    if (answer != expected || (answer == CARD_ACCEPTED && written != 9 + root_length + eight + length))
        fail("the wrapping");
    if (answer != CARD_ACCEPTED && written != 0)
        fail("a refused wrapping");
    memcpy(name, out, written);
    return written == 0 ? length : written;
}

/* Takes a layer off in place: the name inside, and which octets of it the layer had. */
static size_t unwrap(uint8_t *name, size_t length, uint64_t root, uint64_t eight, uint32_t expected)
{
    uint64_t lengths[CARD_OUTER_LENGTHS] = {77, 77};
    uint32_t answer = 0;
    size_t written = card_unwrap(name, length, out, CARD_ELEMENT_MOST, lengths, &answer);
    printf("Unwrap\n  answer %u,", answer);
    show(written, written);
    if (answer != expected || lengths[CARD_OUTER_ROOT] != root || lengths[CARD_OUTER_EIGHT] != eight)
        fail("the unwrapping");
    memcpy(name, out, written);
    return written;
}

/* A layer begins at `start`; its root is this one, and the name inside begins `inner` behind it. */
static void layer(const uint8_t *name, size_t length, size_t down, size_t start, const uint8_t *root,
                  size_t root_length, size_t eight, size_t inner)
{
    const uint64_t has[CARD_LAYER_FIELDS] = {start, root_length, eight, inner};
    uint64_t fields[CARD_LAYER_FIELDS] = {0};
    if (card_layer(name, length, down, fields) != CARD_ACCEPTED || memcmp(fields, has, sizeof has) != 0)
        fail("a layer's fields");
    if (memcmp(name + start + 4, root, root_length) != 0)
        fail("a layer's root");
    if (eight != 0 && memcmp(name + start + 9 + root_length, vpn, eight) != 0)
        fail("a layer's eight octets");
    printf("  layer %zu at %zu: root of %zu octets, %zu before the name inside\n", down, start, root_length, eight);
}

/* Three layers, from the outside in. */
static void read_layers(const uint8_t *name, size_t length)
{
    uint64_t fields[CARD_LAYER_FIELDS] = {0};
    uint32_t answer = CARD_BAD_ELEMENT;
    size_t count = card_layers(name, length, &answer);
    printf("Layers\n  answer %u,  %zu layers\n", answer, count);
    if (answer != CARD_ACCEPTED || count != 3)
        fail("the number of layers");
    layer(name, length, 0, 0, root_of_vpn, sizeof root_of_vpn, sizeof vpn, 33);
    layer(name, length, 1, 33, root_of_provider, sizeof root_of_provider, 0, 13);
    layer(name, length, 2, 46, root_of_a, sizeof root_of_a, 0, 0);
    if (card_layer(name, length, 3, fields) != CARD_LAST_LAYER)
        fail("a layer below the innermost");
    if (card_layers(name, length - 1, &answer) != 0 || answer != CARD_BAD_ELEMENT)
        fail("a name cut short");
}

static void wrap_and_unwrap(void)
{
    uint8_t name[CARD_ELEMENT_MOST];
    memcpy(name, a, sizeof a);
    size_t length = wrap(name, sizeof a, CARD_ELEMENT_MOST, root_of_provider, sizeof root_of_provider, 0, CARD_ACCEPTED);
    if (length != sizeof wrapped_a || memcmp(name, wrapped_a, length) != 0)
        fail("the wrapped name");
    length = wrap(name, length, CARD_ELEMENT_MOST, root_of_vpn, sizeof root_of_vpn, sizeof vpn, CARD_ACCEPTED);
    read_layers(name, length);
    length = unwrap(name, length, sizeof root_of_vpn, sizeof vpn, CARD_ACCEPTED);
    if (length != sizeof wrapped_a || memcmp(name, wrapped_a, length) != 0)
        fail("the unwrapped name");
    length = unwrap(name, length, sizeof root_of_provider, 0, CARD_ACCEPTED);
    if (length != sizeof a || memcmp(name, a, length) != 0)
        fail("the innermost name");
    unwrap(name, length, 0, 0, CARD_LAST_LAYER);
    wrap(name, length, sizeof wrapped_a - 1, root_of_provider, sizeof root_of_provider, 0, CARD_NO_ROOM);
    wrap(name, length, CARD_ELEMENT_MOST, root_of_provider, sizeof root_of_provider, 1, CARD_BAD_ELEMENT);
    for (int layers = 1; layers < CARD_LAYERS_MOST; layers++)
        length = wrap(name, length, CARD_ELEMENT_MOST, root_of_provider, sizeof root_of_provider, 0, CARD_ACCEPTED);
    wrap(name, length, CARD_ELEMENT_MOST, root_of_provider, sizeof root_of_provider, 0, CARD_BAD_OPAQUE);
}

int main(void)
{
    if (card_start(numbers, 16) != CARD_ACCEPTED)
        fail("the start");
    route("Route of A's root to neighbour 0", 0, 0, NULL);
    cases_1_to_4();
    cases_5_to_7();
    tell();
    swap();
    refuse_plans();
    clear_line_to_3();
    wrap_and_unwrap();
    printf("as the paper has it\n");
    return 0;
}
