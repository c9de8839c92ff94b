/*
 * A session box over TCP, through the library. It listens on the loopback for neighbours 0 to 3; neighbour N comes from the
 * address 127.0.2.N, and its LDP identifier is 192.0.2.N:0. What recv gives is offered to the card as it comes, and what
 * the card writes goes back in PDUs of 192.0.2.254:0 to the neighbours that it is for.
 *
 *     box [ROOT:NEIGHBOUR]..      roots in hex with their routes, such as c0000201:0
 *
 * It prints `port P`, and then what it does, a line each:
 *
 *     came N                              neighbour N is connected
 *     octets N ANSWER:EATEN[:RECORDS]..   recv gave octets of N; each call that was made on them, records in hex
 *     stopped N                           the stream of N has stopped: what still comes is dropped until N is lost
 *     save2 0 TABLE                       N's connection has ended: the table as it stood then, as card_save2 writes it,
 *     lost N ANSWER [RECORDS]             and the loss
 *
 * It ends by itself, with the table, when the last connection has; with 1 where nothing comes for thirty seconds.
 */
#include "card.h"

#include <arpa/inet.h>
#include <netinet/in.h>
#include <poll.h>
#include <stdio.h>
#include <stdlib.h>
#include <sys/socket.h>
#include <unistd.h>

enum { NEIGHBOURS = 4, BASE = 16, PIECE = 4096, PATIENCE = 30000, NO_SOCKET = -1 };
enum { FIRST_ADDRESS = 0x7F000200 };

static const uint8_t own_identifier[CARD_IDENTIFIER_OCTETS] = {192, 0, 2, 254, 0, 0};

struct neighbour {
    int socket;
    bool told; /* that its stream has stopped */
    uint64_t stream[CARD_STREAM_NUMBERS];
    uint8_t buffer[CARD_STREAM_OCTETS];
};

static struct neighbour neighbours[NEIGHBOURS];
static uint64_t numbers[CARD_NUMBERS];
static uint8_t names[CARD_NAMES];
static uint8_t records[CARD_OUT_MOST];
static size_t gathered; /* octets of `records` that are to be sent */
static uint8_t pdus[2 * CARD_OUT_MOST]; /* more than any records come to: the head of a PDU has 10 octets, that of a record 4 */
static uint8_t save[CARD_SAVE_MOST];

static void fail(const char *what)
{
    fprintf(stderr, "box: %s\n", what);
    exit(1);
}

static void print_octets(const char *before, const uint8_t *octets, size_t count)
{
    if (count != 0)
        printf("%s", before);
    for (size_t i = 0; i < count; i++)
        printf("%02x", octets[i]);
}

/* ---- what goes out */

/* A neighbour that is gone does not get it: recv will say that it is. */
static void send_all(int socket, const uint8_t *octets, size_t count)
{
    while (count > 0) {
        ssize_t sent = send(socket, octets, count, MSG_NOSIGNAL);
        if (sent <= 0)
            return;
        octets += sent;
        count -= (size_t)sent;
    }
}

static void send_gathered(void)
{
    for (uint32_t n = 0; n < NEIGHBOURS; n++) {
        uint32_t answer = 0;
        size_t packed = card_pack(records, gathered, n, own_identifier, pdus, sizeof pdus, &answer);
        if (answer != CARD_ACCEPTED)
            fail("the records cannot be packed");
        if (neighbours[n].socket != NO_SOCKET)
            send_all(neighbours[n].socket, pdus, packed);
    }
    gathered = 0;
}

/* ---- what comes in */

/* One call. Returns how many octets it ate. */
static size_t serve(uint32_t n, const uint8_t *octets, size_t count)
{
    const uint8_t expected[CARD_IDENTIFIER_OCTETS] = {192, 0, 2, (uint8_t)n, 0, 0};
    struct neighbour *from = &neighbours[n];
    uint32_t answer = 0;
    size_t eaten = 0;
    if (sizeof records - gathered < CARD_SERVE_ROOM)
        send_gathered();
    size_t written = card_serve(numbers, names, from->stream, from->buffer, sizeof from->buffer, n, expected, octets, count,
                                records + gathered, sizeof records - gathered, &answer, &eaten);
    if (answer == CARD_SESSION_SHORT)
        fail("the card was lent too little");
    printf(" %u:%zu", answer, eaten);
    print_octets(":", records + gathered, written);
    gathered += written;
    return eaten;
}

/* Calls go on until all is eaten and no whole message is held. */
static void feed(uint32_t n, const uint8_t *octets, size_t count)
{
    struct neighbour *from = &neighbours[n];
    size_t at = 0;
    printf("octets %u", n);
    do
        at += serve(n, octets + at, count - at);
    while (at < count || card_holds_message(from->stream, from->buffer, sizeof from->buffer));
    printf("\n");
    send_gathered();
    if (card_is_stopped(from->stream) && !from->told) {
        printf("stopped %u\n", n);
        from->told = true;
    }
}

static void print_table(void)
{
    uint32_t answer = 0;
    size_t saved = card_save2(numbers, names, save, sizeof save, &answer);
    printf("save2 %u", answer);
    print_octets(" ", save, saved);
    printf("\n");
}

static void lose(uint32_t n)
{
    uint32_t answer = 0;
    print_table();
    gathered = card_lose(numbers, names, neighbours[n].stream, n, records, sizeof records, &answer);
    printf("lost %u %u", n, answer);
    print_octets(" ", records, gathered);
    printf("\n");
    close(neighbours[n].socket);
    neighbours[n].socket = NO_SOCKET;
    neighbours[n].told = false;
    send_gathered();
}

static void take_in(uint32_t n)
{
    static uint8_t octets[PIECE];
    ssize_t count = recv(neighbours[n].socket, octets, sizeof octets, 0);
    if (count > 0)
        feed(n, octets, (size_t)count);
    else
        lose(n);
}

/* ---- connections */

static int listen_on_loopback(void)
{
    struct sockaddr_in here = {.sin_family = AF_INET, .sin_addr.s_addr = htonl(INADDR_LOOPBACK)};
    socklen_t size = sizeof here;
    int listener = socket(AF_INET, SOCK_STREAM, 0);
    if (listener < 0 || bind(listener, (struct sockaddr *)&here, size) != 0 || listen(listener, NEIGHBOURS) != 0 ||
        getsockname(listener, (struct sockaddr *)&here, &size) != 0)
        fail("it cannot listen");
    printf("port %u\n", ntohs(here.sin_port));
    return listener;
}

/* Who has no number, or is here already, is sent away. */
static void welcome(int listener)
{
    struct sockaddr_in from = {0};
    socklen_t size = sizeof from;
    int socket = accept(listener, (struct sockaddr *)&from, &size);
    uint32_t n = ntohl(from.sin_addr.s_addr) - FIRST_ADDRESS;
    if (socket < 0)
        fail("it cannot accept");
    if (n >= NEIGHBOURS || neighbours[n].socket != NO_SOCKET) {
        close(socket);
        return;
    }
    neighbours[n].socket = socket;
    printf("came %u\n", n);
}

static bool anyone_here(void)
{
    for (uint32_t n = 0; n < NEIGHBOURS; n++)
        if (neighbours[n].socket != NO_SOCKET)
            return true;
    return false;
}

/* Waits for what comes next, and takes it in. */
static void turn(int listener)
{
    struct pollfd watched[NEIGHBOURS + 1];
    for (uint32_t n = 0; n < NEIGHBOURS; n++)
        watched[n] = (struct pollfd){.fd = neighbours[n].socket, .events = POLLIN};
    watched[NEIGHBOURS] = (struct pollfd){.fd = listener, .events = POLLIN};
    if (poll(watched, NEIGHBOURS + 1, PATIENCE) <= 0)
        fail("nothing has come for a while");
    for (uint32_t n = 0; n < NEIGHBOURS; n++)
        if (watched[n].revents != 0)
            take_in(n);
    if (watched[NEIGHBOURS].revents != 0)
        welcome(listener);
}

/* ---- ROOT:NEIGHBOUR */

static void route(const char *word)
{
    uint8_t root[16] = {0};
    size_t octets = 0;
    uint32_t answer = 0;
    while (octets < sizeof root && sscanf(word + 2 * octets, "%2hhx", &root[octets]) == 1)
        octets++;
    if (word[2 * octets] != ':')
        fail("usage: box [ROOT:NEIGHBOUR]..");
    uint32_t neighbour = (uint32_t)strtoul(word + 2 * octets + 1, NULL, 10);
    card_route(numbers, names, root, octets, neighbour, records, sizeof records, &answer);
    if (answer != CARD_ACCEPTED)
        fail("a route is refused");
}

int main(int count, char **words)
{
    setvbuf(stdout, NULL, _IOLBF, 0);
    card_start(numbers, BASE);
    for (int i = 1; i < count; i++)
        route(words[i]);
    for (uint32_t n = 0; n < NEIGHBOURS; n++)
        neighbours[n].socket = NO_SOCKET;
    int listener = listen_on_loopback();
    do
        turn(listener);
    while (anyone_here());
    print_table();
    return 0;
}
