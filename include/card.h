/*
 * The label card for LDP point-to-multipoint trees (RFC 5036, RFC 6388), as a library for x86-64.
 *
 * The card keeps nothing of its own. The caller lends it memory, two arrays for each card:
 *
 *     static uint64_t numbers[CARD_NUMBERS];
 *     static uint8_t names[CARD_NAMES];
 *     static uint8_t out[CARD_OUT_MOST];
 *     uint32_t answer = 0;
 *     card_start(numbers, 16);
 *     size_t written = card_receive(numbers, names, 1, message, length, out, sizeof out, &answer);
 *
 * card_start makes a fresh card whatever the arrays held. From then on only the calls below write to them. A card may
 * be copied or moved as its two arrays.
 *
 * What the caller owes at every call, since nothing can test it:
 *   - No pointer is null, also where a length is 0.
 *   - An array has at least the elements that its parameter names; a pointer followed by a length has that many octets.
 *   - A pointer is aligned as its type asks: to 8 octets for uint64_t, to 4 for uint32_t. Octets may begin anywhere.
 *   - All that is lent was set before, to anything: what is lent for writing alone (`out`, `answer`, `branches`,
 *     `fields`, `lengths`, `list`, `entries`, `eaten`, `spare_..`) too. A static array is set; a local without an initialiser is
 *     not.
 *   - What one call is lent for writing shares no octet with anything else that the same call is lent.
 *   - Nobody else reads or writes during a call what it is lent for writing, or writes what it is lent as const.
 *     Lookups, card_free_labels, card_save, card_save2, card_check_list and card_plan are lent the card as const: several
 *     may run at once on one card, each with `branches`, `out`, `list`, `entries` and `answer` of its own.
 *
 * A call takes no lock, asks for no memory, calls nothing outside the library but memcpy and memset, and ends.
 *
 * The most stack that each call takes, in octets, its return address counted and its arguments not. It is read from
 * the object code, over every path (tools/stack), and memcpy and memset come on top:
 *
 *     card_start          8     card_notice        40     card_layers        56     card_serve         296
 *     card_receive      344     card_read_notice   32     card_layer         88     card_is_stopped      8
 *     card_join         200     card_save         232     card_wrap         136     card_holds_message  16
 *     card_leave        312     card_save2        232     card_unwrap       120     card_lose          216
 *     card_route        312     card_restore      920                               card_pack          128
 *     card_lost         216     card_restore2     920     card_check_list   296
 *     card_lookup_label   8     card_newer        920     card_plan         840
 *     card_lookup_name  136     card_older        920
 *     card_free_labels    8
 */
#ifndef CARD_H
#define CARD_H

#include <stdbool.h>
#include <stddef.h>
#include <stdint.h>

#ifdef __cplusplus
extern "C" {
#endif

enum {
    CARD_NUMBERS = 1449,        /* elements of `numbers` */
    CARD_NAMES = 48864,         /* octets of `names` */
    CARD_NEIGHBOURS = 16,       /* neighbours are 0 to 15; elements of `branches` */
    CARD_TREES = 64,            /* most trees */
    CARD_ROOTS = 32,            /* most roots with a route */
    CARD_LABELS = 256,          /* the block is base to base + 255 */
    CARD_BASE_LEAST = 16,
    CARD_BASE_MOST = 1048320,
    CARD_LABEL_LEAST = 16,      /* labels that a neighbour may give */
    CARD_LABEL_MOST = 1048575,
    CARD_OPAQUE_MOST = 128,     /* octets of an opaque value */
    CARD_ELEMENT_MOST = 150,    /* octets of the longest element that is taken */
    CARD_RECORD_MOST = 174,     /* octets of the longest record */
    CARD_OUT_MOST = 22272,      /* most octets that one event writes */
    CARD_NOTICE_OCTETS = 26,    /* octets of the record of a notice */
    CARD_SAVE_MOST = 55667,     /* octets of the longest save of either form */
    CARD_LAYERS_MOST = 10,      /* most layers of a name */
    CARD_EIGHT_OCTETS = 8,      /* octets before the name that a layer of type 8 holds, its route distinguisher */
    CARD_SET_OCTETS = 19,       /* octets of a root's permitted set */
    CARD_ENTRY_OCTETS = 18,     /* octets of an entry of a list */
    CARD_LIST_MOST = 576,       /* octets of the longest list that card_plan makes */
    CARD_STREAM_NUMBERS = 4,    /* elements of `stream` */
    CARD_STREAM_OCTETS = 4100,  /* octets of a stream's `buffer` */
    CARD_SERVE_ROOM = 348,      /* octets of `out` that are enough for card_serve */
    CARD_IDENTIFIER_OCTETS = 6  /* octets of an LDP identifier */
};

/* A route: a neighbour's number, or one of these. */
enum {
    CARD_THIS_NODE = 16,
    CARD_NO_ROUTE = 17
};

/*
 * Answers. A call that is refused writes no octet of `out` and changes nothing; card_start alone differs. (What
 * the calls on saves are lent as spare may hold anything afterwards, also where they refuse.)
 */
enum card_answer {
    CARD_ACCEPTED = 0,
    CARD_NO_SUCH_NEIGHBOUR = 1, /* neighbour above 15; in a route order, a route above 17 */
    CARD_BAD_LENGTH = 2,        /* under 8 octets, or length field not octets - 4 */
    CARD_BAD_TYPE = 3,          /* neither Label Mapping nor Label Withdraw nor Label Release */
    CARD_TLV_OVERRUN = 4,       /* a TLV's head or value runs past the message */
    CARD_BAD_TLV_ORDER = 5,     /* the first TLV is not FEC, or the second not Generic Label, or absent */
    CARD_BAD_ELEMENT = 6,       /* not exactly one P2MP element; route, wrap: a root not of 4 or 16 octets; wrap: between root and name neither 0 nor 8 octets */
    CARD_BAD_OPAQUE = 7,        /* opaque length 0 or above 128; wrap: also of the name that would be made */
    CARD_BAD_LABEL = 8,         /* Label TLV length not 4, or label under 16 or above 1048575 */
    CARD_UNKNOWN_TLV = 9,       /* a further TLV with U bit clear */
    CARD_OTHER_LABEL = 10,      /* Mapping: that branch stands with another label */
    CARD_TREES_FULL = 11,       /* a new tree while 64 stand */
    CARD_LABELS_SHORT = 12,     /* fewer free labels than the event needs */
    CARD_NOT_AWAITED = 13,      /* Release: that label awaits none from this neighbour for this name */
    CARD_NOT_A_LEAF = 14,       /* leave: not a leaf */
    CARD_ROOTS_FULL = 15,       /* a new root's route while 32 stand */
    CARD_NO_ROOM = 16,          /* output shorter than the event's records, the notice's record, the save, the name or the PDUs */
    CARD_BAD_BASE = 17,         /* start: base under 16 or above 1048320 */
    CARD_MALFORMED_OPAQUE = 18, /* elements do not fill the opaque value; tested after 7 and before 8 */
    CARD_BAD_SAVE = 19,         /* save, older: a value exceeds 32 octets; restore, newer, older: not the save, in that form, of a table that keeps the rules in force */
    CARD_SESSION_SHORT = 20,    /* serve: `out` under 348 octets, or `buffer` under 4100 */
    CARD_BAD_NOTICE = 21,       /* read_notice: octets that are not one record which card_notice could write */
    CARD_LAST_LAYER = 22        /* unwrap: nothing is inside; layer: the name has no layer so far down */
};

/*
 * Makes a fresh card with the label block base to base + 255. Only `numbers` is written. Returns CARD_ACCEPTED; or
 * CARD_BAD_BASE, and the card is a fresh one of base 16.
 */
uint32_t card_start(uint64_t numbers[CARD_NUMBERS], uint32_t base);

/*
 * The five events. Each is lent the card, what came, an output buffer and a place for the answer. It sets *answer to a
 * number of enum card_answer and returns how many octets of `out` it wrote, from its front; the rest of `out` keeps its
 * octets. They are records, one behind the other, each a message to send:
 *
 *     4C 44, the neighbour's number in two octets, and the LDP message, whose length field is its octets - 4
 *
 * all numbers big-endian. A buffer of CARD_OUT_MOST octets is never too short; a shorter one is taken too, and answered
 * CARD_NO_ROOM where the records do not fit.
 */

/* An LDP message from a neighbour. */
size_t card_receive(uint64_t numbers[CARD_NUMBERS], uint8_t names[CARD_NAMES], uint32_t neighbour,
                    const uint8_t *message, size_t message_length, uint8_t *out, size_t out_length, uint32_t *answer);

/*
 * The local leaf joins or leaves the tree that is named by the octets of one P2MP element: 06, address family (2),
 * address length (1), root address, opaque length (2), opaque value.
 */
size_t card_join(uint64_t numbers[CARD_NUMBERS], uint8_t names[CARD_NAMES], const uint8_t *element,
                 size_t element_length, uint8_t *out, size_t out_length, uint32_t *answer);
size_t card_leave(uint64_t numbers[CARD_NUMBERS], uint8_t names[CARD_NAMES], const uint8_t *element,
                  size_t element_length, uint8_t *out, size_t out_length, uint32_t *answer);

/* From now on the route of a root, 4 or 16 octets, is a neighbour, CARD_THIS_NODE or CARD_NO_ROUTE. */
size_t card_route(uint64_t numbers[CARD_NUMBERS], uint8_t names[CARD_NAMES], const uint8_t *root, size_t root_length,
                  uint32_t route, uint8_t *out, size_t out_length, uint32_t *answer);

/*
 * A neighbour's session is lost: its branches go, its labels are free at once, and routes through it become "no route".
 * Nothing is sent to it; others are sent Withdraws, at most one for each tree. The caller vouches that the lost
 * neighbour has stopped using the labels that it was given.
 */
size_t card_lost(uint64_t numbers[CARD_NUMBERS], uint8_t names[CARD_NAMES], uint32_t neighbour, uint8_t *out,
                 size_t out_length, uint32_t *answer);

/*
 * Lookups, by a label of ours or by the octets of one element. All of `branches` is written: at each neighbour's number
 * the label of its branch, or 0 for none; the branch of the neighbour that feeds the tree is held, and 0 too. Returns the
 * leaf mark. Where nothing is found, all is 0 and false, and so it is for a tree that has no branch but a held one.
 */
bool card_lookup_label(const uint64_t numbers[CARD_NUMBERS], uint32_t label, uint64_t branches[CARD_NEIGHBOURS]);
bool card_lookup_name(const uint64_t numbers[CARD_NUMBERS], const uint8_t names[CARD_NAMES], const uint8_t *element,
                      size_t element_length, uint64_t branches[CARD_NEIGHBOURS]);

/* How many labels of the block are free: 0 to 256. */
uint32_t card_free_labels(const uint64_t numbers[CARD_NUMBERS]);

/*
 * Tells a neighbour by which number of enum card_answer its octets were refused. It is lent the card's numbers alone,
 * those octets, an output buffer and a place for the answer; it answers and returns as an event does. The record has
 * CARD_NOTICE_OCTETS octets, and its identifier is the card's next. Of 0, 1, 10, 13 and above, and of 3 where the U bit
 * of the type is set, there is none: accepted, 0 octets. Number and octets are taken as they are given.
 */
size_t card_notice(uint64_t numbers[CARD_NUMBERS], uint32_t neighbour, uint32_t number, const uint8_t *octets,
                   size_t octets_length, uint8_t *out, size_t out_length, uint32_t *answer);

/* What such a record says, at these places of `fields`. */
enum {
    CARD_FIELD_NEIGHBOUR = 0,   /* 0 to 15 */
    CARD_FIELD_ID = 1,          /* the record's identifier */
    CARD_FIELD_STATUS = 2,      /* its status data, without the E and F bits */
    CARD_FIELD_COPIED_ID = 3,   /* identifier and type of the refused octets; both 0 where those were under 8 */
    CARD_FIELD_COPIED_TYPE = 4,
    CARD_FIELDS = 5             /* elements of `fields` */
};

/*
 * Reads the record of a notice. Returns CARD_ACCEPTED, with all of `fields` written; or CARD_BAD_NOTICE, with `fields`
 * as it was. It is lent no card.
 */
uint32_t card_read_notice(const uint8_t *octets, size_t octets_length, uint32_t fields[CARD_FIELDS]);

/*
 * The table as octets, for a card swap: docs/SAVE.md draws both forms. card_save writes the old form, card_save2 the new
 * one, which carries names of any length and the last label given. The card stays as it is. Each sets *answer to
 * CARD_ACCEPTED, CARD_NO_ROOM or (card_save alone) CARD_BAD_SAVE and returns how many octets of `out` it wrote, from its
 * front; the rest of `out` keeps its octets. A buffer of CARD_SAVE_MOST octets is never too short.
 */
size_t card_save(const uint64_t numbers[CARD_NUMBERS], const uint8_t names[CARD_NAMES], uint8_t *out,
                 size_t out_length, uint32_t *answer);
size_t card_save2(const uint64_t numbers[CARD_NUMBERS], const uint8_t names[CARD_NAMES], uint8_t *out,
                  size_t out_length, uint32_t *answer);

/*
 * Takes back a save of the old form, or of the new one (card_restore2). Returns CARD_ACCEPTED, and its table stands in
 * the place of the card's; or CARD_BAD_SAVE, and the card is as it was. The octets are read into the spare memory first,
 * which has the sizes of a card and of the longest save, and may hold anything before and after. What the card promises
 * of its labels goes on where no event and no notice came between the save and its restore: labels that an older save
 * has free may be in a neighbour's use.
 */
uint32_t card_restore(uint64_t numbers[CARD_NUMBERS], uint8_t names[CARD_NAMES], const uint8_t *octets,
                      size_t octets_length, uint64_t spare_numbers[CARD_NUMBERS], uint8_t spare_names[CARD_NAMES],
                      uint8_t spare_save[CARD_SAVE_MOST]);
uint32_t card_restore2(uint64_t numbers[CARD_NUMBERS], uint8_t names[CARD_NAMES], const uint8_t *octets,
                       size_t octets_length, uint64_t spare_numbers[CARD_NUMBERS], uint8_t spare_names[CARD_NAMES],
                       uint8_t spare_save[CARD_SAVE_MOST]);

/*
 * A save from the old form to the new one (card_newer), and the way back (card_older): octets to octets, with no card.
 * Each sets *answer to CARD_ACCEPTED, CARD_BAD_SAVE or CARD_NO_ROOM and returns how many octets of `out` it wrote, from
 * its front; the rest of `out` keeps its octets. The spare memory is as in card_restore.
 */
size_t card_newer(const uint8_t *octets, size_t octets_length, uint64_t spare_numbers[CARD_NUMBERS],
                  uint8_t spare_names[CARD_NAMES], uint8_t spare_save[CARD_SAVE_MOST], uint8_t *out,
                  size_t out_length, uint32_t *answer);
size_t card_older(const uint8_t *octets, size_t octets_length, uint64_t spare_numbers[CARD_NUMBERS],
                  uint8_t spare_names[CARD_NAMES], uint8_t spare_save[CARD_SAVE_MOST], uint8_t *out,
                  size_t out_length, uint32_t *answer);

/*
 * Names inside names (RFC 6512). A name is the octets of one P2MP element. Where its opaque value is one element of type 7
 * or type 8 alone, that holds a name in turn, behind eight octets in type 8. So a name has layers: the outermost is
 * layer 0, the innermost holds no name. None of these calls is lent a card.
 */

/*
 * How many layers a name has, the innermost counted: 1 to CARD_LAYERS_MOST. Sets *answer to CARD_ACCEPTED; or to
 * CARD_BAD_ELEMENT, CARD_BAD_OPAQUE or CARD_MALFORMED_OPAQUE, and returns 0.
 */
size_t card_layers(const uint8_t *name, size_t name_length, uint32_t *answer);

/* What a layer has, at these places of `fields`. The octets themselves stand in the caller's `name`. */
enum {
    CARD_LAYER_START = 0,       /* where in `name` this layer begins; from here to the end it is a name */
    CARD_LAYER_ROOT = 1,        /* octets of its root, 4 or 16, which stand 4 behind START */
    CARD_LAYER_EIGHT = 2,       /* 8 for type 8, whose octets stand 9 + ROOT behind START; 0 for type 7 and the innermost */
    CARD_LAYER_INNER = 3,       /* how far behind START the name inside begins; 0 for the innermost */
    CARD_LAYER_FIELDS = 4       /* elements of `fields` */
};

/*
 * Layer `down` of a name. Returns CARD_ACCEPTED, with all of `fields` written; or, with `fields` as it was, a refusal as
 * card_layers has it, or CARD_LAST_LAYER where the name has no more than `down` layers.
 */
uint32_t card_layer(const uint8_t *name, size_t name_length, size_t down, uint64_t fields[CARD_LAYER_FIELDS]);

/*
 * Wraps a name in a layer with this root, 4 or 16 octets: of type 7 where `eight_length` is 0, of type 8 where it is
 * CARD_EIGHT_OCTETS. Sets *answer to CARD_ACCEPTED, CARD_BAD_ELEMENT, CARD_BAD_OPAQUE, CARD_MALFORMED_OPAQUE or
 * CARD_NO_ROOM and returns how many octets of `out` it wrote, from its front; the rest of `out` keeps its octets. A buffer
 * of CARD_ELEMENT_MOST octets is never too short.
 */
size_t card_wrap(const uint8_t *root, size_t root_length, const uint8_t *eight, size_t eight_length,
                 const uint8_t *name, size_t name_length, uint8_t *out, size_t out_length, uint32_t *answer);

/* The octets of the outer layer in `name`, at these places of `lengths`; both are 0 where the call is refused. */
enum {
    CARD_OUTER_ROOT = 0,        /* of its root, which stands from octet 4 on */
    CARD_OUTER_EIGHT = 1,       /* 8 or 0, from octet 9 + ROOT on */
    CARD_OUTER_LENGTHS = 2      /* elements of `lengths` */
};

/*
 * Takes the outermost layer off: the name inside is written to the front of `out`, as card_wrap writes. *answer is
 * CARD_LAST_LAYER where nothing is inside, or as card_wrap sets it.
 */
size_t card_unwrap(const uint8_t *name, size_t name_length, uint8_t *out, size_t out_length,
                   uint64_t lengths[CARD_OUTER_LENGTHS], uint32_t *answer);

/*
 * A plan for a line that is to be taken down: the roots that are routed through a neighbour, each with a new one. Both calls
 * read the card and leave it as it is. They are lent
 *
 *     sets: for each root CARD_SET_OCTETS: the permitted neighbours in two octets, bit v for neighbour v; the root's length;
 *           the root in a space of 16 octets. A root of which there is none may have no neighbour; of two the first counts
 *     list: for each entry CARD_ENTRY_OCTETS: the new neighbour; the root's length; the root in a space of 16 octets
 *
 * and set *answer to CARD_ACCEPTED, or for a neighbour above 15 to CARD_NO_SUCH_NEIGHBOUR and return false.
 */

/*
 * Whether a list may be carried out, whoever made it: every root that is routed through the neighbour is listed once, no
 * other is, each new neighbour is permitted and another one, and the list needs no more labels than are free. Then
 * card_route is not refused for any of its entries, one after the other with no event between and CARD_OUT_MOST octets of
 * room each time, and no route through the neighbour is left.
 */
bool card_check_list(const uint64_t numbers[CARD_NUMBERS], const uint8_t names[CARD_NAMES], uint32_t neighbour,
                     const uint8_t *sets, size_t sets_length, const uint8_t *list, size_t list_length,
                     uint32_t *answer);

/*
 * Makes such a list: true, with *entries entries at the front of `list`, shorter roots first and each by rising address,
 * where card_check_list would accept any list; of these it needs the fewest labels. Otherwise false, with *entries 0. The
 * rest of `list` keeps its octets. Where no root is routed through the neighbour the list has 0 entries.
 */
bool card_plan(const uint64_t numbers[CARD_NUMBERS], const uint8_t names[CARD_NAMES], uint32_t neighbour,
               const uint8_t *sets, size_t sets_length, uint8_t list[CARD_LIST_MOST], size_t *entries,
               uint32_t *answer);

/*
 * The session box: the octets that TCP brings of a neighbour, as they come, read as LDP PDUs (RFC 5036). For each neighbour
 * the caller lends a stream and a buffer. A stream of zeros is an empty one, whatever the buffer holds; from then on only
 * the calls below write to both.
 *
 *     static uint64_t stream[CARD_STREAM_NUMBERS];
 *     static uint8_t buffer[CARD_STREAM_OCTETS];
 *     size_t at = 0, eaten = 0;
 *     do {
 *         written = card_serve(numbers, names, stream, buffer, sizeof buffer, 1, expected, came + at, count - at,
 *                              out, sizeof out, &answer, &eaten);
 *         at += eaten;
 *     } while (at < count || card_holds_message(stream, buffer, sizeof buffer));
 *
 * Made so, calls end; and however what comes is cut, the records, the card and the stream are the same in the end where no
 * other event came between. examples/box.c is a box of four neighbours.
 */

/*
 * Octets of a neighbour, whose LDP identifier is `expected`. *eaten is set to how many of them were eaten, from their front;
 * the caller offers the rest again. A call eats no further than the end of a PDU and hands at most one message to the card.
 * It returns how many octets of `out` it wrote, records as an event writes them. *answer is set to
 *
 *     CARD_NO_SUCH_NEIGHBOUR   the neighbour is above 15; nothing was eaten
 *     CARD_SESSION_SHORT       `out` has under CARD_SERVE_ROOM octets or `buffer` under CARD_STREAM_OCTETS; nothing was eaten
 *     what card_receive says   where a message was handed on: it is eaten, refused or not, and the next one may be read
 *     CARD_ACCEPTED            where none was
 *
 * A version other than 1, a length field under 14 or above 4096, another identifier, or a message that runs past its PDU
 * stops the stream: what was offered is eaten and dropped, and all that comes later, until card_lose.
 */
size_t card_serve(uint64_t numbers[CARD_NUMBERS], uint8_t names[CARD_NAMES], uint64_t stream[CARD_STREAM_NUMBERS],
                  uint8_t *buffer, size_t buffer_length, uint32_t neighbour,
                  const uint8_t expected[CARD_IDENTIFIER_OCTETS], const uint8_t *offered, size_t offered_length,
                  uint8_t *out, size_t out_length, uint32_t *answer, size_t *eaten);

/* Whether a stream has stopped. */
bool card_is_stopped(const uint64_t stream[CARD_STREAM_NUMBERS]);

/* Whether a stream holds a whole message that no call has handed on: card_serve then goes on with nothing offered too. */
bool card_holds_message(const uint64_t stream[CARD_STREAM_NUMBERS], const uint8_t *buffer, size_t buffer_length);

/* card_lost for a neighbour with a stream: where *answer is CARD_ACCEPTED the stream is empty, and reads again. */
size_t card_lose(uint64_t numbers[CARD_NUMBERS], uint8_t names[CARD_NAMES], uint64_t stream[CARD_STREAM_NUMBERS],
                 uint32_t neighbour, uint8_t *out, size_t out_length, uint32_t *answer);

/*
 * The messages to a neighbour among these records, in order, in PDUs of the sender `id`, each as full of whole messages as
 * 4096 octets allow. Sets *answer to CARD_ACCEPTED, CARD_NO_SUCH_NEIGHBOUR or CARD_NO_ROOM and returns how many octets of
 * `out` it wrote, from its front; the rest of `out` keeps its octets. No message makes no PDU. Twice the octets of the
 * records are never too short. No card is lent.
 */
size_t card_pack(const uint8_t *records, size_t records_length, uint32_t neighbour,
                 const uint8_t id[CARD_IDENTIFIER_OCTETS], uint8_t *out, size_t out_length, uint32_t *answer);

#ifdef __cplusplus
}
#endif

#endif
