/*
 * A campaign of random bytes through the C interface, to be run under a memory checker.
 *
 *     campaign CALLS SEED FOLDER..
 *
 * It starts from the files of the site folders, changes them at random (a byte, a few bytes cut out,
 * doubled or put in, two files spliced, cut short or made longer) and calls every function on them. A
 * change whose answer was not seen before is kept and changed further, so that the campaign works its
 * way into the depths of card and plan. Each list is handed over in a heap block of exactly its
 * length, so that a read or write one byte outside is an error to the checker.
 *
 * It also holds each answer to what the header promises: no row of a card has a server that is not
 * there or its own, a refused card's are empty, a printed card has the links of its rows in order, is
 * read as the same rows and stays as it is when printed again, the quick test answers exactly the cards
 * whose links all have a return, by its numbers and as the split test does, a card with an accepted plan
 * has no bad split and servers enough, a plan is written exactly where no split is bad, is accepted, and is
 * the same into a buffer of just its length, separate routes keep the rules, and where there are too few no
 * route is left without the servers that are shown, the load is refused as the plan check refuses, and else
 * adds up to the relaying places of the plan's bytes, no lent byte past what is written is changed, a refused call
 * changes none, the bits of the servers that are not faulty are equal and some such server's input, and a
 * server's start, asks and commits refuse what they should and else lead from kind to kind, with no value
 * sent but its own.
 */
#include "agreement.h"

#include <inttypes.h>
#include <stdio.h>
#include <stdlib.h>
#include <string.h>

enum { MOST = 70000, POOL = 2048, LENT_MOST = 16, UNTOUCHED = 0xA5, CLEAN_MOST = AGREEMENT_CLEAN_CARD_LIMIT + 20 };
enum { VALUES_MOST = AGREEMENT_VALUES_LIMIT + 4, ARRIVED_MOST = 12, TURNS = 6 };
enum { FILL = 0xFF, ROUTES_MOST = AGREEMENT_ROUTES * AGREEMENT_ROUTE_BYTES + 4 };
/* To write a plan takes much longer than all the rest, so that most rounds go without. */
enum { ROUNDS_WITHOUT_PLAN = 64 };

static uint64_t state;

static uint64_t draw(uint64_t below)
{
    state ^= state << 13;
    state ^= state >> 7;
    state ^= state << 17;
    return below == 0 ? 0 : state % below;
}

struct list {
    uint8_t *bytes;
    size_t length;
};

/* A heap block of exactly this length; malloc(0) may be null, which the interface does not take. */
static struct list list_of(const uint8_t *bytes, size_t length)
{
    struct list list = {malloc(length == 0 ? 1 : length), length};
    if (list.bytes == NULL) {
        fputs("out of memory\n", stderr);
        exit(2);
    }
    if (length > 0)
        memcpy(list.bytes, bytes, length);
    return list;
}

/* A list of no bytes in a block of none: a pointer just past a block of one byte. */
static uint8_t *start_of(struct list list)
{
    return list.length == 0 ? list.bytes + 1 : list.bytes;
}

struct files {
    struct list card, plan, run_in;
};

static struct files pool[POOL];
static size_t pooled;

static struct list read_list(const char *folder, const char *name)
{
    static uint8_t bytes[MOST];
    char path[4096];
    size_t length = 0;
    snprintf(path, sizeof path, "%s/%s", folder, name);
    FILE *stream = fopen(path, "rb");
    if (stream != NULL) {
        length = fread(bytes, 1, sizeof bytes, stream);
        fclose(stream);
    }
    return list_of(bytes, length);
}

static uint8_t any_byte(void)
{
    /* mostly bytes that mean something in a card or a plan */
    static const uint8_t likely[] = {0, 1, 2, 3, 4, 5, 6, 7, 8, 9, 0x10, 0x11, 0x12, 0x13, 0x14, 0x15, 0xFF};
    return draw(4) == 0 ? (uint8_t)draw(256) : likely[draw(sizeof likely)];
}

static struct list changed(struct list old, struct list other)
{
    static uint8_t bytes[2 * MOST];
    size_t length = old.length;
    size_t at, count;
    memcpy(bytes, old.bytes, old.length);
    switch (draw(7)) {
    case 0: /* a byte */
        if (length > 0)
            bytes[draw(length)] = any_byte();
        break;
    case 1: /* cut out */
        if (length > 0) {
            at = draw(length);
            count = 1 + draw(length - at < 12 ? length - at : 12);
            memmove(bytes + at, bytes + at + count, length - at - count);
            length -= count;
        }
        break;
    case 2: /* put in */
        at = draw(length + 1);
        count = 1 + draw(12);
        memmove(bytes + at + count, bytes + at, length - at);
        for (size_t i = 0; i < count; i++)
            bytes[at + i] = any_byte();
        length += count;
        break;
    case 3: /* doubled */
        if (length > 0) {
            at = draw(length);
            count = 1 + draw(length - at < 40 ? length - at : 40);
            memmove(bytes + at + count, bytes + at, length - at);
            length += count;
        }
        break;
    case 4: /* spliced */
        at = draw(length + 1);
        count = draw(other.length + 1);
        memcpy(bytes + at, other.bytes + count, other.length - count);
        length = at + other.length - count;
        break;
    case 5: /* cut short */
        length = draw(length + 1);
        break;
    default: /* longer */
        count = draw(20);
        for (size_t i = 0; i < count; i++)
            bytes[length + i] = any_byte();
        length += count;
        break;
    }
    return list_of(bytes, length > MOST ? MOST : length);
}

static unsigned char seen[1 << 16];

static int is_new(const uint64_t answer[4], unsigned function)
{
    uint64_t hash = function;
    for (int i = 0; i < 4; i++)
        hash = (hash ^ answer[i]) * UINT64_C(0x9E3779B97F4A7C15) >> 7;
    hash &= sizeof seen - 1;
    int fresh = !seen[hash];
    seen[hash] = 1;
    return fresh;
}

static void fail(const char *what)
{
    printf("campaign: %s\n", what);
    exit(1);
}

static void hold_card(const uint64_t answer[12])
{
    uint64_t n = answer[0] == AGREEMENT_ANSWERED ? answer[1] : 0;
    for (unsigned u = 0; u < AGREEMENT_SERVERS; u++) {
        uint64_t row = answer[4 + u];
        if (u >= n ? row != 0 : row >> n != 0 || row >> u & 1)
            fail("a row has a link that cannot be");
    }
}

/* The card that the rows of a network stand for, with its links ascending; its length. */
static size_t clean_card(const uint64_t network[12], uint8_t clean[CLEAN_MOST])
{
    size_t length = 0;
    clean[length++] = 0x01;
    clean[length++] = (uint8_t)network[1];
    clean[length++] = (uint8_t)network[2];
    for (uint8_t u = 0; u < AGREEMENT_SERVERS; u++)
        for (uint8_t v = 0; v < AGREEMENT_SERVERS; v++)
            if (network[4 + u] >> v & 1) {
                clean[length++] = 0x02;
                clean[length++] = u;
                clean[length++] = v;
            }
    clean[length++] = 0x03;
    return length;
}

/* A refused call to print: the card's own refusal, or a short buffer. */
static void hold_not_printed(const uint64_t answer[4], const uint64_t network[12], int is_short)
{
    const uint64_t refused[4] = {AGREEMENT_REFUSED, AGREEMENT_CALL, AGREEMENT_SHORT_BUFFER, 0};
    if (network[0] == AGREEMENT_ANSWERED && !is_short)
        fail("a card was not printed into a buffer with room for it");
    if (memcmp(answer, network[0] == AGREEMENT_ANSWERED ? refused : network, sizeof refused) != 0)
        fail("a card that was not printed has another refusal than it should");
}

static void hold_printed(const uint64_t network[12], const uint8_t *clean, size_t length)
{
    const uint64_t expected[4] = {AGREEMENT_ANSWERED, length, 0, 0};
    struct list card = list_of(clean, length), lent = list_of(clean, length);
    uint64_t again[12], answer[4];
    agreement_read_card(card.bytes, card.length, again);
    if (memcmp(again, network, sizeof again) != 0)
        fail("a printed card is not read as the same network");
    memset(lent.bytes, UNTOUCHED, lent.length);
    agreement_print_card(card.bytes, card.length, lent.bytes, lent.length, answer);
    if (memcmp(answer, expected, sizeof answer) != 0 || memcmp(lent.bytes, clean, length) != 0)
        fail("a printed card does not stay as it is");
    free(card.bytes);
    free(lent.bytes);
}

/* Prints a card that was read with this answer, into a buffer of a length about the right one or any. */
static void call_print(struct list card, const uint64_t network[12], uint64_t answer[4])
{
    static uint8_t untouched[CLEAN_MOST];
    uint8_t clean[CLEAN_MOST];
    size_t due = clean_card(network, clean);
    memset(untouched, UNTOUCHED, sizeof untouched);
    struct list lent = list_of(untouched, draw(2) == 0 ? draw(CLEAN_MOST) : due - 2 + draw(5));
    agreement_print_card(start_of(card), card.length, start_of(lent), lent.length, answer);
    size_t written = answer[0] == AGREEMENT_ANSWERED ? answer[1] : 0;
    if (answer[0] != AGREEMENT_ANSWERED)
        hold_not_printed(answer, network, lent.length < due);
    else if (network[0] != AGREEMENT_ANSWERED || answer[1] != due || answer[2] != 0 || answer[3] != 0)
        fail("a card was printed that should not be, or with another length");
    if (memcmp(lent.bytes, clean, written) != 0)
        fail("a printed card is not its network with the links ascending");
    if (memcmp(lent.bytes + written, untouched, lent.length - written) != 0)
        fail("a byte was written that is not the printed card's");
    if (written > 0)
        hold_printed(network, lent.bytes, written);
    free(lent.bytes);
}

/* The quick test of a card that was read, and split, with these answers: the reader's refusal, 15
   exactly if some link has no return, and else yes exactly if the split test says none. */
static void hold_quick(const uint64_t answer[4], const uint64_t network[12], const uint64_t split[5])
{
    const uint64_t refused[4] = {AGREEMENT_REFUSED, AGREEMENT_CALL, AGREEMENT_ONE_WAY, 0};
    int one_way = 0;
    for (unsigned u = 0; u < AGREEMENT_SERVERS; u++)
        for (unsigned v = 0; v < AGREEMENT_SERVERS; v++)
            one_way |= (network[4 + u] >> v & 1) && !(network[4 + v] >> u & 1);
    if (network[0] != AGREEMENT_ANSWERED || one_way) {
        if (memcmp(answer, network[0] == AGREEMENT_ANSWERED ? refused : network, sizeof refused) != 0)
            fail("a card without a quick test has another refusal than it should");
        return;
    }
    if (answer[0] != AGREEMENT_ANSWERED || answer[2] != network[1] || answer[3] >= answer[2])
        fail("a two-way card's quick test has numbers that cannot be");
    if (answer[1] != (answer[2] >= 3 * network[2] + 1 && answer[3] >= 2 * network[2] + 1))
        fail("the older rule does not follow from its numbers");
    if (answer[1] != (split[0] == AGREEMENT_ANSWERED))
        fail("quick test and split test do not agree");
}

/* The plan check of a card that was read, and split, with these answers: an accepted plan shows a good
   network. */
static void hold_plan(const uint64_t answer[4], const uint64_t network[12], const uint64_t split[5])
{
    static const uint64_t none[5];
    if (answer[0] != AGREEMENT_ANSWERED)
        return;
    if (memcmp(split, none, sizeof none) != 0)
        fail("a plan is accepted for a card with a bad split");
    if (network[1] < 3 * network[2] + 1)
        fail("a plan is accepted for too few servers");
}

/* How many plans were written, and how many calls found separate routes. */
static uint64_t plans, separate;

/* Writes the plan into a buffer of this length, with this answer; what it wrote, in a block of its own. */
static struct list write_into(struct list card, size_t length, uint64_t answer[8])
{
    static uint8_t untouched[AGREEMENT_PLAN_LIMIT];
    if (untouched[0] != UNTOUCHED) /* a megabyte, and once is enough */
        memset(untouched, UNTOUCHED, sizeof untouched);
    struct list lent = list_of(untouched, length);
    agreement_write_plan(start_of(card), card.length, start_of(lent), lent.length, answer);
    size_t written = answer[0] == AGREEMENT_ANSWERED ? (size_t)answer[1] : 0;
    if (written > length)
        fail("a plan is longer than the buffer that it was written into");
    if (memcmp(start_of(lent) + written, untouched, length - written) != 0)
        fail("a byte was written that is not the plan's");
    struct list plan = list_of(lent.bytes, written);
    free(lent.bytes);
    return plan;
}

/* A plan that was written for the card: accepted, the same into a buffer of just its length, and 18 into
   one that is a byte shorter. */
static void hold_written(struct list card, struct list plan)
{
    const uint64_t too_long[8] = {AGREEMENT_REFUSED, AGREEMENT_CALL, AGREEMENT_SHORT_FOR_PLAN};
    const uint64_t again[8] = {AGREEMENT_ANSWERED, plan.length};
    uint64_t answer[8];
    agreement_check_plan(start_of(card), card.length, plan.bytes, plan.length, answer);
    if (answer[0] != AGREEMENT_ANSWERED)
        fail("a plan that was written is refused");
    struct list same = write_into(card, plan.length, answer);
    if (memcmp(answer, again, sizeof again) != 0 || memcmp(same.bytes, plan.bytes, plan.length) != 0)
        fail("a plan is another one in another buffer");
    free(same.bytes);
    free(write_into(card, plan.length - 1, answer).bytes);
    if (memcmp(answer, too_long, sizeof too_long) != 0)
        fail("a plan that is a byte too long has another refusal than it should");
}

/* The plan writer on a card that was read, and split, with these answers. */
static void call_write(struct list card, const uint64_t network[12], const uint64_t split[5], uint64_t answer[8])
{
    uint64_t due[8] = {AGREEMENT_REFUSED, AGREEMENT_CALL};
    int has_plan = split[0] == AGREEMENT_ANSWERED;
    struct list plan = write_into(card, has_plan ? AGREEMENT_PLAN_LIMIT : draw(40), answer);
    if (network[0] != AGREEMENT_ANSWERED)
        memcpy(due, network, 4 * sizeof *due);
    else if (!has_plan) {
        due[2] = AGREEMENT_NO_PLAN;
        memcpy(due + 4, split + 1, 4 * sizeof *due);
    }
    if (has_plan) {
        if (answer[0] != AGREEMENT_ANSWERED)
            fail("no plan is written where no split is bad");
        hold_written(card, plan);
        plans++;
    } else if (memcmp(answer, due, sizeof due) != 0) {
        fail("a card without a plan has another refusal than it should");
    }
    free(plan.bytes);
}

/* A way that routes may take: from these servers to that one, without the faulty ones. */
struct way {
    uint8_t faults, sources, receiver;
};

static int size_of(uint64_t set)
{
    int size = 0;
    for (; set != 0; set &= set - 1)
        size++;
    return size;
}

/* Whether every server of a way is there, and no more than f of them fail. */
static int is_way(struct way way, const uint64_t network[12])
{
    uint64_t strangers = (uint64_t)(way.faults | way.sources) >> network[1];
    return strangers == 0 && way.receiver < network[1] && (uint64_t)size_of(way.faults) <= network[2];
}

/* Routes that were found: each by itself, and that they share nothing but the receiver. */
static void hold_routes(const uint8_t *routes, size_t count, struct way way, const uint64_t network[12])
{
    uint64_t met = way.faults | UINT64_C(1) << way.receiver;
    for (size_t i = 0; i < count; i++, routes += AGREEMENT_ROUTE_BYTES) {
        size_t last = 0;
        while (last + 1 < AGREEMENT_ROUTE_BYTES && routes[last + 1] != FILL)
            last++;
        if (last == 0 || routes[last] != way.receiver || routes[0] >= network[1] || !(way.sources >> routes[0] & 1))
            fail("a separate route has another end than it should");
        for (size_t at = 0; at < last; at++) {
            if (routes[at] >= network[1] || met >> routes[at] & 1 || !(network[4 + routes[at]] >> routes[at + 1] & 1))
                fail("separate routes share a server, or meet a faulty one, or lack a link");
            met |= UINT64_C(1) << routes[at];
        }
        for (size_t at = last + 1; at < AGREEMENT_ROUTE_BYTES; at++)
            if (routes[at] != FILL)
                fail("a byte follows the fill of a route");
    }
}

/* Whether some source has a route to the receiver that meets none of these servers. */
static int is_reached(struct way way, uint64_t without, const uint64_t network[12])
{
    uint64_t allowed = ~(without | way.faults), reached = way.sources & allowed & ~(UINT64_C(1) << way.receiver);
    for (unsigned round = 0; round < AGREEMENT_SERVERS; round++)
        for (unsigned u = 0; u < AGREEMENT_SERVERS; u++)
            if (reached >> u & 1)
                reached |= network[4 + u] & allowed;
    return reached >> way.receiver & 1;
}

/* Separate routes over a card that was read with this answer, by any way, mostly one that can be. */
static void call_routes(struct list card, const uint64_t network[12], uint64_t answer[4])
{
    uint64_t due[4] = {AGREEMENT_REFUSED, AGREEMENT_CALL, AGREEMENT_BAD_FAULTY_SET};
    uint64_t n = network[0] == AGREEMENT_ANSWERED ? network[1] : AGREEMENT_SERVERS;
    int any = draw(8) == 0;
    struct way way = {(uint8_t)(any ? draw(256) : draw(2) << draw(n)), (uint8_t)draw(any ? 256 : UINT64_C(1) << n),
                      (uint8_t)draw(any ? 256 : n)};
    static uint8_t untouched[ROUTES_MOST];
    memset(untouched, UNTOUCHED, sizeof untouched);
    struct list lent = list_of(untouched, draw(4) == 0 ? draw(ROUTES_MOST) : ROUTES_MOST);
    agreement_separate_routes(start_of(card), card.length, way.faults, way.sources, way.receiver, start_of(lent),
                              lent.length, answer);
    size_t count = (size_t)network[2] + 1, written = 0;
    if (network[0] != AGREEMENT_ANSWERED || !is_way(way, network)) {
        if (network[0] != AGREEMENT_ANSWERED)
            memcpy(due, network, sizeof due);
        if (memcmp(answer, due, sizeof due) != 0)
            fail("a way that cannot be has another refusal than it should");
    } else if (answer[0] == AGREEMENT_REFUSED) {
        due[2] = AGREEMENT_SHORT_BUFFER;
        if (memcmp(answer, due, sizeof due) != 0 || lent.length >= count * AGREEMENT_ROUTE_BYTES)
            fail("separate routes are refused that should not be");
    } else if (answer[1] == 1) {
        written = count * AGREEMENT_ROUTE_BYTES;
        if (answer[0] != AGREEMENT_ANSWERED || answer[2] != count || answer[3] != 0 || written > lent.length)
            fail("separate routes are another number than they should be");
        hold_routes(lent.bytes, count, way, network);
        separate++;
    } else {
        if (answer[0] != AGREEMENT_ANSWERED || answer[1] != 0 || (uint64_t)size_of(answer[2]) != answer[3] ||
            answer[3] >= count || answer[2] >> way.receiver & 1)
            fail("the servers that every route meets cannot be these");
        if (is_reached(way, answer[2], network))
            fail("some route meets none of the servers that every route meets");
    }
    if (memcmp(start_of(lent) + written, untouched, lent.length - written) != 0)
        fail("a byte was written that is not a route's");
    free(lent.bytes);
}

/* The relaying places of an accepted plan: for each route, its bytes before the fill less two. */
static uint64_t relaying_places(struct list plan)
{
    uint64_t places = 0;
    for (size_t at = 0; plan.bytes[at] != 0x15;) {
        if (plan.bytes[at] == 0x10) {
            at += 4;
        } else if (plan.bytes[at] == 0x14) {
            at += 3;
        } else {
            size_t servers = 0;
            while (servers < 8 && plan.bytes[at + 1 + servers] != 0xFF)
                servers++;
            places += servers - 2;
            at += 9;
        }
    }
    return places;
}

/* The load of a plan that was checked with this answer. */
static void hold_load(const uint64_t answer[9], struct list plan, const uint64_t network[12],
                      const uint64_t checked[4])
{
    static const uint64_t zeros[5];
    if (checked[0] != AGREEMENT_ANSWERED) {
        if (memcmp(answer, checked, 4 * sizeof *answer) != 0 || memcmp(answer + 4, zeros, sizeof zeros) != 0)
            fail("a load has another refusal than the plan check");
        return;
    }
    uint64_t sum = 0;
    for (unsigned i = 0; i < AGREEMENT_SERVERS; i++) {
        sum += answer[1 + i];
        if (i >= network[1] && answer[1 + i] != 0)
            fail("a server relays that is not there");
    }
    if (answer[0] != AGREEMENT_ANSWERED || sum != relaying_places(plan))
        fail("a load does not add up to the relaying places");
}

static void hold_run(const uint64_t answer[4], const uint8_t *lent, size_t size, const uint8_t *inputs,
                     uint64_t n, uint8_t faulty)
{
    size_t written = answer[0] == AGREEMENT_ANSWERED ? (size_t)n : 0;
    for (size_t i = written; i < size; i++)
        if (lent[i] != UNTOUCHED)
            fail("a byte was written that is not an answer's");
    if (answer[0] != AGREEMENT_ANSWERED)
        return;
    int bit = -1, valid = 0;
    for (unsigned i = 0; i < n; i++) {
        if (faulty >> i & 1) {
            if (lent[i] != 2)
                fail("a faulty server has a bit");
            continue;
        }
        if (bit >= 0 && lent[i] != bit)
            fail("two sound servers decided differently");
        bit = lent[i];
    }
    for (unsigned i = 0; i < n; i++)
        valid |= !(faulty >> i & 1) && inputs[i] == bit;
    if (!valid)
        fail("the bit is no sound server's input");
}

/* A server with its card and plan, and what the plan check says of these. */
struct server {
    struct list card, plan;
    const uint64_t *network, *checked;
    uint8_t number;
};

static int is_there(struct server server)
{
    return server.number < server.network[1];
}

/* Whether a server can be in a state of these words: block, kind, v, t, open. */
static int is_state(struct server server, const uint64_t words[AGREEMENT_STATE_WORDS])
{
    uint64_t blocks = server.checked[1];
    if (words[2] > 1 || words[3] > 2 || words[4] > 1)
        return 0;
    if (words[1] == AGREEMENT_END)
        return words[0] == blocks && words[4] == 0;
    return words[0] < blocks && words[1] >= AGREEMENT_TO_QUORUM && words[1] <= AGREEMENT_REPORTS;
}

/* Holds a call for a server to the refusal that is due: the site's, or else the call's of this number,
   or none where that is 0. Says whether there is one. */
static int hold_refused(struct server server, const uint64_t *answer, size_t words, uint64_t number)
{
    uint64_t due[7] = {AGREEMENT_REFUSED, AGREEMENT_CALL, number};
    int of_site = server.checked[0] != AGREEMENT_ANSWERED;
    if (of_site)
        memcpy(due, server.checked, 4 * sizeof *due);
    if (!of_site && number == 0) {
        if (answer[0] != AGREEMENT_ANSWERED)
            fail("a call for a server is refused that should not be");
        return 0;
    }
    if (memcmp(answer, due, words * sizeof *due) != 0)
        fail("a call for a server has another refusal than it should");
    return 1;
}

/* How many asks and commits were answered. */
static uint64_t turns;

static void call_start(struct server server, uint64_t answer[6])
{
    uint8_t input = (uint8_t)draw(draw(8) == 0 ? 256 : 2);
    agreement_start(start_of(server.card), server.card.length, start_of(server.plan), server.plan.length,
                    server.number, input, answer);
    const uint64_t first[6] = {AGREEMENT_ANSWERED, 0, AGREEMENT_TO_QUORUM, input, 2, 0};
    uint64_t number = input > 1 ? AGREEMENT_BAD_INPUTS : is_there(server) ? 0 : AGREEMENT_BAD_FAULTY_SET;
    if (!hold_refused(server, answer, 6, number) && memcmp(answer, first, sizeof first) != 0)
        fail("a server does not start at the start");
}

/* Asks in a state that lies in a block of just its words, with any number of bytes lent. */
static void call_ask(struct server server, const uint64_t *words, uint64_t answer[7])
{
    static uint8_t untouched[VALUES_MOST];
    memset(untouched, UNTOUCHED, sizeof untouched);
    struct list lent = list_of(untouched, draw(2) == 0 ? AGREEMENT_VALUES_LIMIT + draw(4) : draw(10));
    agreement_ask(start_of(server.card), server.card.length, start_of(server.plan), server.plan.length,
                  server.number, words, start_of(lent), lent.length, answer);
    int is_end = words[1] == AGREEMENT_END, is_short = answer[2] == AGREEMENT_SHORT_BUFFER;
    uint64_t number = 0;
    if (!is_there(server) || !is_state(server, words))
        number = AGREEMENT_BAD_FAULTY_SET;
    else if (answer[0] == AGREEMENT_REFUSED && is_short && lent.length < (is_end ? 1 : AGREEMENT_SERVERS))
        number = AGREEMENT_SHORT_BUFFER; /* there is at most one value for each other server */
    else if (words[4] == 1)
        number = AGREEMENT_OUT_OF_TURN;
    size_t written = 0;
    if (!hold_refused(server, answer, 7, number)) {
        const uint64_t asked[5] = {words[0], words[1], words[2], words[3], !is_end};
        int sends_t = words[1] == AGREEMENT_WITHIN_QUORUM || words[1] == AGREEMENT_FROM_QUORUM;
        written = (size_t)answer[6];
        if (memcmp(answer + 1, asked, sizeof asked) != 0)
            fail("an ask changed more than its mark");
        if (written > lent.length || (is_end && written != 1))
            fail("an ask gave another number of values than it can");
        for (size_t i = 0; i < written; i++)
            if (lent.bytes[i] != words[sends_t ? 3 : 2])
                fail("a server sends what it does not hold");
        turns++;
    }
    if (memcmp(start_of(lent) + written, untouched, lent.length - written) != 0)
        fail("a byte was written that is no value");
    free(lent.bytes);
}

/* Commits any arrivals in a state that lies in a block of just its words. */
static void call_commit(struct server server, const uint64_t *words, uint64_t answer[6])
{
    uint8_t bytes[ARRIVED_MOST];
    for (size_t i = 0; i < sizeof bytes; i++)
        bytes[i] = draw(8) == 0 ? any_byte() : (uint8_t)draw(2);
    struct list arrived = list_of(bytes, draw(sizeof bytes));
    agreement_commit(start_of(server.card), server.card.length, start_of(server.plan), server.plan.length,
                     server.number, words, start_of(arrived), arrived.length, answer);
    free(arrived.bytes);
    uint64_t number = 0;
    if (!is_there(server) || !is_state(server, words))
        number = AGREEMENT_BAD_FAULTY_SET;
    else if (words[4] == 0)
        number = AGREEMENT_OUT_OF_TURN;
    if (hold_refused(server, answer, 6, number))
        return;
    turns++;
    const uint64_t *next = answer + 1;
    int is_last = words[1] == AGREEMENT_REPORTS, is_end = next[0] == server.checked[1];
    if (next[0] != words[0] + is_last ||
        next[1] != (!is_last ? words[1] + 1 : is_end ? AGREEMENT_END : AGREEMENT_TO_QUORUM))
        fail("a commit does not lead to the kind that follows");
    if (!is_state(server, next) || next[4] != 0)
        fail("a commit leads to a state that cannot be");
    if ((words[1] < AGREEMENT_FROM_QUORUM && next[2] != words[2]) || (is_last && next[3] != words[3]))
        fail("a commit changed a value that its steps do not");
}

/* A state of any kind of any block or at the end, now and then with a word that is any. */
static void any_state(struct server server, uint64_t words[AGREEMENT_STATE_WORDS])
{
    uint64_t blocks = server.checked[0] == AGREEMENT_ANSWERED ? server.checked[1] : draw(60);
    words[0] = draw(blocks + 1);
    words[1] = words[0] == blocks ? AGREEMENT_END : AGREEMENT_TO_QUORUM + draw(4);
    words[2] = draw(2);
    words[3] = draw(3);
    words[4] = words[0] == blocks ? 0 : draw(2);
    if (draw(4) == 0)
        words[draw(AGREEMENT_STATE_WORDS)] = draw(2) == 0 ? draw(30) : draw(UINT64_MAX);
}

/* The part of one server: its start, and some turns from there or from any state. */
static void call_own(struct files files, const uint64_t network[12], const uint64_t checked[4])
{
    uint64_t n = network[0] == AGREEMENT_ANSWERED ? network[1] : AGREEMENT_SERVERS;
    uint8_t number = (uint8_t)draw(draw(4) == 0 ? 256 : n);
    struct server server = {files.card, files.plan, network, checked, number};
    uint64_t answer[7];
    /* Apart from all else, so that a word too many that is read is an error. */
    uint64_t *words = malloc(AGREEMENT_STATE_WORDS * sizeof *words);
    if (words == NULL)
        exit(2);
    call_start(server, answer);
    if (answer[0] == AGREEMENT_ANSWERED && draw(2) == 0)
        memcpy(words, answer + 1, AGREEMENT_STATE_WORDS * sizeof *words);
    else
        any_state(server, words);
    for (int turn = 0; turn < TURNS; turn++) {
        /* Mostly in turn. */
        if (draw(6) == 0 ? draw(2) == 0 : words[4] == 0)
            call_ask(server, words, answer);
        else
            call_commit(server, words, answer);
        if (answer[0] == AGREEMENT_ANSWERED)
            memcpy(words, answer + 1, AGREEMENT_STATE_WORDS * sizeof *words);
    }
    free(words);
}

/* How many runs were answered, how many cards printed, how many found two-way, and how many loads had relays. */
static uint64_t answered, cards, two_way, relayed;

/* Calls every function on the files; says whether an answer was new. */
static int call_all(struct files files)
{
    const uint8_t *card = start_of(files.card), *plan = start_of(files.plan);
    uint64_t network[12], printed[4], split[5], quick[4], checked[4], routes[4], write[8], load[9], ran[4];
    int fresh = 0;
    agreement_read_card(card, files.card.length, network);
    fresh |= is_new(network, 0);
    hold_card(network);
    call_print(files.card, network, printed);
    fresh |= is_new(printed, 4);
    cards += printed[0] == AGREEMENT_ANSWERED;
    agreement_split_test(card, files.card.length, split);
    fresh |= is_new(split, 1);
    agreement_quick_test(card, files.card.length, quick);
    fresh |= is_new(quick, 5);
    hold_quick(quick, network, split);
    two_way += quick[0] == AGREEMENT_ANSWERED;
    agreement_check_plan(card, files.card.length, plan, files.plan.length, checked);
    fresh |= is_new(checked, 2);
    hold_plan(checked, network, split);
    call_routes(files.card, network, routes);
    fresh |= is_new(routes, 9);
    if (split[0] != AGREEMENT_ANSWERED || draw(ROUNDS_WITHOUT_PLAN) == 0) {
        call_write(files.card, network, split, write);
        fresh |= is_new(write, 10);
        fresh |= is_new(write + 4, 11);
    }
    agreement_load(card, files.card.length, plan, files.plan.length, load);
    fresh |= is_new(load, 6);
    fresh |= is_new(load + 4, 7);
    fresh |= is_new(load + 5, 8);
    hold_load(load, files.plan, network, checked);
    relayed += load[0] == AGREEMENT_ANSWERED && relaying_places(files.plan) > 0;
    call_own(files, network, checked);

    uint64_t n = network[0] == AGREEMENT_ANSWERED ? network[1] : draw(10);
    uint8_t faulty = files.run_in.length > 0 ? files.run_in.bytes[0] : 0;
    size_t after = files.run_in.length > 0 ? files.run_in.length - 1 : 0;
    size_t count = after < n ? after : (size_t)n;
    struct list inputs = list_of(files.run_in.bytes + (files.run_in.length > 0), count);
    struct list table = list_of(files.run_in.bytes + (files.run_in.length > 0) + count, after - count);
    static uint8_t untouched[LENT_MOST];
    memset(untouched, UNTOUCHED, sizeof untouched);
    struct list lent = list_of(untouched, draw(4) == 0 ? draw(LENT_MOST) : AGREEMENT_SERVERS + draw(3));
    agreement_run(card, files.card.length, plan, files.plan.length, start_of(inputs), inputs.length, faulty,
                  start_of(table), table.length, start_of(lent), lent.length, ran);
    fresh |= is_new(ran, 3);
    hold_run(ran, lent.bytes, lent.length, inputs.bytes, n, faulty);
    answered += ran[0] == AGREEMENT_ANSWERED;
    free(inputs.bytes);
    free(table.bytes);
    free(lent.bytes);
    return fresh;
}

int main(int argc, char **argv)
{
    if (argc < 4) {
        fputs("usage: campaign CALLS SEED FOLDER..\n", stderr);
        return 2;
    }
    uint64_t calls = strtoull(argv[1], NULL, 10);
    state = strtoull(argv[2], NULL, 10) * 2 + 1;
    for (int i = 3; i < argc && pooled < POOL; i++) {
        struct files files = {read_list(argv[i], "network.card"), read_list(argv[i], "network.plan"),
                              read_list(argv[i], "run.in")};
        pool[pooled++] = files;
        call_all(files);
    }
    for (uint64_t k = 0; k < calls; k++) {
        /* Every other round keeps the card and plan of a site, so that many runs are answered. */
        int only_run = draw(2) == 0;
        struct files old = pool[only_run ? draw((uint64_t)argc - 3) : draw(pooled)], other = pool[draw(pooled)];
        struct files files = {list_of(old.card.bytes, old.card.length), list_of(old.plan.bytes, old.plan.length),
                              list_of(old.run_in.bytes, old.run_in.length)};
        struct list *parts[] = {&files.card, &files.plan, &files.run_in};
        struct list *others[] = {&other.card, &other.plan, &other.run_in};
        for (uint64_t changes = 1 + draw(3); changes > 0; changes--) {
            uint64_t which = only_run ? 2 : draw(3);
            struct list next = changed(*parts[which], *others[draw(8) == 0 ? draw(3) : which]);
            free(parts[which]->bytes);
            *parts[which] = next;
        }
        if (call_all(files) && pooled < POOL) {
            pool[pooled++] = files;
        } else {
            free(files.card.bytes);
            free(files.plan.bytes);
            free(files.run_in.bytes);
        }
    }
    printf("campaign: %" PRIu64 " rounds, %" PRIu64 " cards printed, %" PRIu64 " two-way, %" PRIu64
           " plans written, %" PRIu64 " with separate routes, %" PRIu64 " loads with relays, %" PRIu64
           " runs answered, %" PRIu64 " turns, %zu kept\n",
           calls, cards, two_way, plans, separate, relayed, answered, turns, pooled);
    for (size_t i = 0; i < pooled; i++) {
        free(pool[i].card.bytes);
        free(pool[i].plan.bytes);
        free(pool[i].run_in.bytes);
    }
    return 0;
}
