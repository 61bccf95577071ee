/*
 * Every refusal, met once for each file that has it, and the other answers beside them.
 *
 * The words of each answer are compared with the names of the header, never with numbers written
 * here: so that each name has the library's number is seen as a C compiler sees it. A word past the
 * answer must stay as it was, and so must the lent bytes of a refused call and a server's state.
 *
 * Prints each answer that is another. Status 1 if there is one.
 */
#include "agreement.h"

#include <inttypes.h>
#include <stdio.h>
#include <string.h>

enum { UNTOUCHED = 0xA5, FILL = 0xFF, ROUTE_BYTES = AGREEMENT_ROUTE_BYTES, LENT = AGREEMENT_SERVERS + 1 };
enum { ROUTES_LENT = AGREEMENT_ROUTES * AGREEMENT_ROUTE_BYTES + 1 };
enum { CLEAN_LENT = AGREEMENT_CLEAN_CARD_LIMIT + 1, VALUES_LENT = AGREEMENT_VALUES_LIMIT + 1 };
enum { HEAD = 0x01, LINK, CARD_END };
enum { BLOCK = 0x10, TO_S, WITHIN_S, FROM_S, REPORT, PLAN_END };

struct list {
    const uint8_t *bytes;
    size_t length;
};

#define BYTES(...) ((const uint8_t[]){__VA_ARGS__})
#define LIST(...) ((struct list){BYTES(__VA_ARGS__), sizeof BYTES(__VA_ARGS__)})
/* A route of two servers. */
#define DIRECT(source, receiver) source, receiver, FILL, FILL, FILL, FILL, FILL, FILL

/* More zeros than a card or a plan may have. */
static uint8_t zeros[AGREEMENT_PLAN_LIMIT + 1];

static struct list zeros_of(size_t length)
{
    return (struct list){zeros, length};
}

static int status;

/* Holds an answer of so many words to the expected ones, and the word after it. */
static void hold(const char *function, const char *what, const uint64_t *answer,
                 const uint64_t *expected, size_t words)
{
    if (memcmp(answer, expected, words * sizeof *answer) == 0 && answer[words] == UNTOUCHED)
        return;
    printf("refusals: %s on %s answered", function, what);
    for (size_t i = 0; i < words; i++)
        printf(" %" PRIu64, answer[i]);
    fputs(", and by the header", stdout);
    for (size_t i = 0; i < words; i++)
        printf(" %" PRIu64, expected[i]);
    puts(answer[words] == UNTOUCHED ? "" : "; it wrote past its answer");
    status = 1;
}

/* What a call answers: up to twelve words, and one that it must leave alone. */
struct answer {
    uint64_t words[13];
};

static struct answer blank(void)
{
    struct answer answer;
    for (size_t i = 0; i < sizeof answer.words / sizeof *answer.words; i++)
        answer.words[i] = UNTOUCHED;
    return answer;
}

static void read_card(const char *what, struct list card, const uint64_t expected[12])
{
    struct answer answer = blank();
    agreement_read_card(card.bytes, card.length, answer.words);
    hold("agreement_read_card", what, answer.words, expected, 12);
}

/* Holds the lent bytes: what was to be written first, then as they were. */
static void hold_lent(const char *function, const char *what, const uint8_t *lent, size_t size,
                      struct list written)
{
    for (size_t i = 0; i < size; i++) {
        if (lent[i] != (i < written.length ? written.bytes[i] : UNTOUCHED)) {
            printf("refusals: %s on %s: lent byte %zu is %u\n", function, what, i, lent[i]);
            status = 1;
        }
    }
}

/* Prints into so many bytes. */
static void print_card(const char *what, struct list card, size_t length,
                       const uint64_t expected[4], struct list clean)
{
    struct answer answer = blank();
    uint8_t lent[CLEAN_LENT];
    memset(lent, UNTOUCHED, sizeof lent);
    agreement_print_card(card.bytes, card.length, lent, length, answer.words);
    hold("agreement_print_card", what, answer.words, expected, 4);
    hold_lent("agreement_print_card", what, lent, sizeof lent, clean);
}

static void split_test(const char *what, struct list card, const uint64_t expected[5])
{
    struct answer answer = blank();
    agreement_split_test(card.bytes, card.length, answer.words);
    hold("agreement_split_test", what, answer.words, expected, 5);
}

static void quick_test(const char *what, struct list card, const uint64_t expected[4])
{
    struct answer answer = blank();
    agreement_quick_test(card.bytes, card.length, answer.words);
    hold("agreement_quick_test", what, answer.words, expected, 4);
}

static void check_plan(const char *what, struct list card, struct list plan,
                       const uint64_t expected[4])
{
    struct answer answer = blank();
    agreement_check_plan(card.bytes, card.length, plan.bytes, plan.length, answer.words);
    hold("agreement_check_plan", what, answer.words, expected, 4);
}

/* Writes the plan into so many bytes. */
static void write_plan(const char *what, struct list card, size_t length, const uint64_t expected[8],
                       struct list plan)
{
    static uint8_t lent[AGREEMENT_PLAN_LIMIT + 1];
    struct answer answer = blank();
    memset(lent, UNTOUCHED, sizeof lent);
    agreement_write_plan(card.bytes, card.length, lent, length, answer.words);
    hold("agreement_write_plan", what, answer.words, expected, 8);
    hold_lent("agreement_write_plan", what, lent, sizeof lent, plan);
}

/* From where, to where, and without whom. */
struct way {
    uint8_t faults, sources, receiver;
};

/* Looks for separate routes with so many bytes lent. */
static void separate_routes(const char *what, struct list card, struct way way, size_t length,
                            const uint64_t expected[4], struct list routes)
{
    struct answer answer = blank();
    uint8_t lent[ROUTES_LENT];
    memset(lent, UNTOUCHED, sizeof lent);
    agreement_separate_routes(card.bytes, card.length, way.faults, way.sources, way.receiver, lent,
                              length, answer.words);
    hold("agreement_separate_routes", what, answer.words, expected, 4);
    hold_lent("agreement_separate_routes", what, lent, sizeof lent, routes);
}

static void load(const char *what, struct list card, struct list plan, const uint64_t expected[9])
{
    struct answer answer = blank();
    agreement_load(card.bytes, card.length, plan.bytes, plan.length, answer.words);
    hold("agreement_load", what, answer.words, expected, 9);
}

/* A call to run without its card and plan. */
struct call {
    struct list inputs;
    uint8_t faulty;
    size_t lent;
};

/* Runs, and holds the lent bytes: so many are written, and no others. */
static void run(const char *what, struct list card, struct list plan, struct call call,
                const uint64_t expected[4], size_t written)
{
    struct answer answer = blank();
    uint8_t lent[LENT];
    memset(lent, UNTOUCHED, sizeof lent);
    agreement_run(card.bytes, card.length, plan.bytes, plan.length, call.inputs.bytes,
                  call.inputs.length, call.faulty, zeros, 0, lent, call.lent, answer.words);
    hold("agreement_run", what, answer.words, expected, 4);
    for (size_t i = 0; i < sizeof lent; i++) {
        if ((lent[i] != UNTOUCHED) != (i < written)) {
            printf("refusals: agreement_run on %s: lent byte %zu is %u\n", what, i, lent[i]);
            status = 1;
        }
    }
}

static const uint64_t no_relays[9] = {AGREEMENT_ANSWERED};

static const struct call two_servers = {{(const uint8_t[]){1, 0}, 2}, 0, AGREEMENT_SERVERS};

static void start(const char *what, struct list card, struct list plan, uint8_t server,
                  uint8_t input, const uint64_t expected[6])
{
    struct answer answer = blank();
    agreement_start(card.bytes, card.length, plan.bytes, plan.length, server, input, answer.words);
    hold("agreement_start", what, answer.words, expected, 6);
}

/* A server and its state: block, kind, v, t, open. */
struct own {
    uint8_t server;
    uint64_t state[AGREEMENT_STATE_WORDS];
};

static void hold_state(const char *function, const char *what, struct own own,
                       const uint64_t before[AGREEMENT_STATE_WORDS])
{
    if (memcmp(own.state, before, sizeof own.state) == 0)
        return;
    printf("refusals: %s on %s changed the state that it was given\n", function, what);
    status = 1;
}

/* Asks with so many bytes lent. */
static void ask(const char *what, struct list card, struct list plan, struct own own, size_t length,
                const uint64_t expected[7], struct list values)
{
    struct answer answer = blank();
    struct own lent_own = own;
    uint8_t lent[VALUES_LENT];
    memset(lent, UNTOUCHED, sizeof lent);
    agreement_ask(card.bytes, card.length, plan.bytes, plan.length, own.server, lent_own.state, lent,
                  length, answer.words);
    hold("agreement_ask", what, answer.words, expected, 7);
    hold_lent("agreement_ask", what, lent, sizeof lent, values);
    hold_state("agreement_ask", what, lent_own, own.state);
}

static void commit(const char *what, struct list card, struct list plan, struct own own,
                   struct list arrived, const uint64_t expected[6])
{
    struct answer answer = blank();
    struct own lent_own = own;
    agreement_commit(card.bytes, card.length, plan.bytes, plan.length, own.server, lent_own.state,
                     arrived.bytes, arrived.length, answer.words);
    hold("agreement_commit", what, answer.words, expected, 6);
    hold_state("agreement_commit", what, lent_own, own.state);
}

/* No server of any network, at no place of any plan, with nothing right. */
static const struct own nobody = {AGREEMENT_SERVERS, {UINT64_MAX, 0, 2, 3, 2}};

/* A site that is refused for its card or plan is so for a server's calls, whatever they are. */
static void site_refused(const char *what, struct list card, struct list plan,
                         const uint64_t expected[7])
{
    start(what, card, plan, nobody.server, 2, expected);
    ask(what, card, plan, nobody, 0, expected, zeros_of(0));
    commit(what, card, plan, nobody, zeros_of(0), expected);
}

static void card_refused(const char *what, struct list card, uint64_t number, uint64_t place)
{
    const uint64_t expected[12] = {AGREEMENT_REFUSED, AGREEMENT_CARD, number, place};
    read_card(what, card, expected);
    /* Its refusal comes before that of a short buffer. */
    print_card(what, card, CLEAN_LENT, expected, zeros_of(0));
    print_card(what, card, 0, expected, zeros_of(0));
    split_test(what, card, expected);
    quick_test(what, card, expected);
    check_plan(what, card, zeros_of(0), expected);
    write_plan(what, card, 0, expected, zeros_of(0));
    write_plan(what, card, AGREEMENT_PLAN_LIMIT, expected, zeros_of(0));
    separate_routes(what, card, (struct way){FILL, FILL, FILL}, 0, expected, zeros_of(0));
    load(what, card, zeros_of(0), expected);
    run(what, card, zeros_of(0), two_servers, expected, 0);
    site_refused(what, card, zeros_of(0), expected);
}

static void plan_refused(const char *what, struct list card, struct list plan, uint64_t number,
                         uint64_t place)
{
    const uint64_t expected[9] = {AGREEMENT_REFUSED, AGREEMENT_PLAN, number, place};
    check_plan(what, card, plan, expected);
    load(what, card, plan, expected);
    run(what, card, plan, two_servers, expected, 0);
    site_refused(what, card, plan, expected);
}

static void call_refused(const char *what, struct list card, struct list plan, struct call call,
                         uint64_t number)
{
    const uint64_t expected[4] = {AGREEMENT_REFUSED, AGREEMENT_CALL, number, 0};
    run(what, card, plan, call, expected, 0);
}

static int has(unsigned set, unsigned server)
{
    return set >> server & 1;
}

/* The lowest servers of a set, so many of them. */
static unsigned lowest(unsigned set, unsigned count)
{
    unsigned found = 0;
    for (unsigned server = 0; count > 0 && server < AGREEMENT_SERVERS; server++)
        if (has(set, server)) {
            found |= 1u << server;
            count--;
        }
    return found;
}

/* A card with all links. */
static struct list complete_card(uint8_t n, uint8_t f)
{
    static uint8_t bytes[AGREEMENT_CARD_LIMIT];
    size_t length = 0;
    bytes[length++] = HEAD;
    bytes[length++] = n;
    bytes[length++] = f;
    for (uint8_t u = 0; u < n; u++)
        for (uint8_t v = 0; v < n; v++)
            if (u != v) {
                bytes[length++] = LINK;
                bytes[length++] = u;
                bytes[length++] = v;
            }
    bytes[length++] = CARD_END;
    return (struct list){bytes, length};
}

/* A plan being written. */
static uint8_t plan_bytes[AGREEMENT_PLAN_LIMIT];
static size_t plan_length;

static void put_routes(uint8_t command, unsigned sources, unsigned receiver)
{
    for (unsigned source = 0; source < AGREEMENT_SERVERS; source++)
        if (has(sources, source)) {
            plan_bytes[plan_length++] = command;
            memset(plan_bytes + plan_length, FILL, ROUTE_BYTES);
            plan_bytes[plan_length] = (uint8_t)source;
            plan_bytes[plan_length + 1] = (uint8_t)receiver;
            plan_length += ROUTE_BYTES;
        }
}

/* A block in which S is A. */
static void put_block(unsigned f, unsigned fault, unsigned rest, unsigned a)
{
    const uint8_t opening[] = {BLOCK, (uint8_t)fault, (uint8_t)a, (uint8_t)a};
    memcpy(plan_bytes + plan_length, opening, sizeof opening);
    plan_length += sizeof opening;
    for (unsigned receiver = 0; receiver < AGREEMENT_SERVERS; receiver++)
        if (has(a, receiver))
            put_routes(WITHIN_S, a & ~(1u << receiver), receiver);
    for (unsigned receiver = 0; receiver < AGREEMENT_SERVERS; receiver++)
        if (has(rest & ~a, receiver))
            put_routes(FROM_S, lowest(a, f + 1), receiver);
    for (unsigned k = 0; k < AGREEMENT_SERVERS; k++)
        if (has(fault, k)) {
            plan_bytes[plan_length++] = REPORT;
            plan_bytes[plan_length++] = (uint8_t)k;
            plan_bytes[plan_length++] = (uint8_t)lowest(rest, f + 1);
        }
}

/* A plan for all links with direct routes; counts its blocks. */
static struct list direct_plan(unsigned n, unsigned f, uint64_t *blocks)
{
    unsigned all = (1u << n) - 1;
    plan_length = 0;
    *blocks = 0;
    for (unsigned fault = 0; fault <= all; fault++) {
        if (lowest(fault, f) != fault)
            continue;
        unsigned rest = all & ~fault;
        for (unsigned part = 1; part < rest; part++) {
            if ((part & ~rest) != 0 || (part & lowest(rest, 1)) == 0)
                continue;
            /* The routes of one receiver have f+1 sources. */
            put_block(f, fault, rest, lowest(part, f) == part ? rest & ~part : part);
            ++*blocks;
        }
    }
    plan_bytes[plan_length++] = PLAN_END;
    return (struct list){plan_bytes, plan_length};
}

static void cards(void)
{
    card_refused("a long card", zeros_of(AGREEMENT_CARD_LIMIT + 1), AGREEMENT_TOO_LONG, 0);
    card_refused("a card at the limit", zeros_of(AGREEMENT_CARD_LIMIT), AGREEMENT_CUT_OFF, 0);
    card_refused("an empty card", zeros_of(0), AGREEMENT_CUT_OFF, 0);
    card_refused("a card with more after its end", LIST(HEAD, 2, 0, CARD_END, 0),
                 AGREEMENT_TRAILING_BYTES, 4);
    card_refused("a card without a head", LIST(CARD_END), AGREEMENT_BAD_HEAD, 0);
    card_refused("one server more than there can be",
                 LIST(HEAD, AGREEMENT_SERVERS + 1, 0, CARD_END), AGREEMENT_OUT_OF_RANGE, 0);
    card_refused("a link to itself after a link given twice",
                 LIST(HEAD, 2, 0, LINK, 0, 1, LINK, 0, 1, LINK, 0, 0), AGREEMENT_OUT_OF_RANGE, 9);
}

static const uint8_t small_card[] = {HEAD, 2, 0, LINK, 0, 1, CARD_END};
static const uint8_t small_plan[] = {BLOCK, 0, 1, 1, FROM_S, DIRECT(0, 1), PLAN_END};

static void plans(struct list card)
{
    plan_refused("a long plan", card, zeros_of(AGREEMENT_PLAN_LIMIT + 1), AGREEMENT_TOO_LONG, 0);
    plan_refused("a plan at the limit", card, zeros_of(AGREEMENT_PLAN_LIMIT), AGREEMENT_CUT_OFF,
                 0);
    plan_refused("a route cut off", card, LIST(FROM_S, 0, 1), AGREEMENT_CUT_OFF, 0);
    plan_refused("a plan with more after its end", card,
                 LIST(BLOCK, 0, 1, 1, FROM_S, DIRECT(0, 1), PLAN_END, 0),
                 AGREEMENT_TRAILING_BYTES, sizeof small_plan);
    plan_refused("a plan without blocks", card, LIST(PLAN_END), AGREEMENT_NOT_DUE, 0);
    plan_refused("an empty S", card, LIST(BLOCK, 0, 1, 0), AGREEMENT_BAD_QUORUM, 0);
    plan_refused("a route without a link", card, LIST(BLOCK, 0, 2, 2, FROM_S, DIRECT(1, 0)),
                 AGREEMENT_BAD_ROUTE, 4);
    struct list three = LIST(HEAD, 3, 1, LINK, 0, 1, LINK, 0, 2, LINK, 2, 1, CARD_END);
    plan_refused("two routes from one source", three,
                 LIST(BLOCK, 0, 1, 1, FROM_S, DIRECT(0, 1), FROM_S, DIRECT(0, 1)),
                 AGREEMENT_SHARED_SERVER, 13);
    uint64_t blocks;
    struct list four = complete_card(4, 1), plan = direct_plan(4, 1, &blocks);
    /* The last report stands before the end. */
    plan_bytes[plan.length - 2] = 0;
    plan_refused("a report of no server", four, plan, AGREEMENT_BAD_REPORT, plan.length - 4);
}

static void calls(struct list card, struct list plan)
{
    struct call call = two_servers;
    call.inputs = LIST(1, 2);
    call_refused("an input of 2", card, plan, call, AGREEMENT_BAD_INPUTS);
    call = two_servers;
    call.faulty = 1;
    call_refused("a fault too many", card, plan, call, AGREEMENT_BAD_FAULTY_SET);
    call = two_servers;
    call.lent = 1;
    call_refused("one byte lent to two servers", card, plan, call, AGREEMENT_SHORT_BUFFER);
}

/* A card is printed into buffers with room for its clean card, and refused 14 for shorter ones. */
static void printed(const char *what, struct list card, struct list clean)
{
    const uint64_t expected[4] = {AGREEMENT_ANSWERED, clean.length, 0, 0};
    const uint64_t refused[4] = {AGREEMENT_REFUSED, AGREEMENT_CALL, AGREEMENT_SHORT_BUFFER, 0};
    print_card(what, card, clean.length, expected, clean);
    print_card(what, card, CLEAN_LENT, expected, clean);
    print_card(what, card, clean.length - 1, refused, zeros_of(0));
    print_card(what, card, 0, refused, zeros_of(0));
}

static void prints(void)
{
    struct list clean = LIST(HEAD, 3, 1, LINK, 0, 1, LINK, 0, 2, LINK, 2, 1, CARD_END);
    printed("a clean card", clean, clean);
    printed("links in another order, and one given again",
            LIST(HEAD, 3, 1, LINK, 2, 1, LINK, 0, 2, LINK, 0, 1, LINK, 2, 1, CARD_END), clean);
    clean = LIST(HEAD, 2, 0, CARD_END);
    printed("a card without links", clean, clean);
}

/* Two-way networks, where the rule holds, where n, the other number and both fall short, and a link
   without a return. */
static void quick_tests(void)
{
    const uint64_t one_way[4] = {AGREEMENT_REFUSED, AGREEMENT_CALL, AGREEMENT_ONE_WAY, 0};
    const uint64_t row[4] = {AGREEMENT_ANSWERED, 1, 3, 1};
    const uint64_t apart[4] = {AGREEMENT_ANSWERED, 0, 2, 0};
    const uint64_t four[4] = {AGREEMENT_ANSWERED, 1, 4, 3};
    const uint64_t three[4] = {AGREEMENT_ANSWERED, 0, 3, 2};
    const uint64_t six[4] = {AGREEMENT_ANSWERED, 0, 6, 5};
    quick_test("three servers in a row",
               LIST(HEAD, 3, 0, LINK, 0, 1, LINK, 1, 0, LINK, 1, 2, LINK, 2, 1, CARD_END), row);
    quick_test("three servers in a row, one return missing",
               LIST(HEAD, 3, 0, LINK, 0, 1, LINK, 1, 0, LINK, 1, 2, CARD_END), one_way);
    quick_test("no links", LIST(HEAD, 2, 0, CARD_END), apart);
    quick_test("four servers with all links", complete_card(4, 1), four);
    quick_test("three servers with all links", complete_card(3, 1), three);
    quick_test("six servers with all links", complete_card(6, 2), six);
}

/* A route over one relay, and one over all servers that there can be. */
#define RELAYED(source, relay, receiver) source, relay, receiver, FILL, FILL, FILL, FILL, FILL
#define ALONG 0, 1, 2, 3, 4, 5, 6, 7

/* Three servers in a row, with a relay in each of three blocks, and a route over all of eight. */
static void loads(void)
{
    const uint64_t one[9] = {AGREEMENT_ANSWERED, 0, 3};
    load("three servers in a row", LIST(HEAD, 3, 0, LINK, 0, 1, LINK, 1, 2, CARD_END),
         LIST(BLOCK, 0, 1, 1, FROM_S, DIRECT(0, 1), FROM_S, RELAYED(0, 1, 2),
              BLOCK, 0, 3, 1, FROM_S, DIRECT(0, 1), FROM_S, RELAYED(0, 1, 2),
              BLOCK, 0, 5, 1, FROM_S, DIRECT(0, 1), FROM_S, RELAYED(0, 1, 2), PLAN_END),
         one);
    /* The last route of the first block over all servers, in place of a direct one. */
    const uint64_t along[9] = {AGREEMENT_ANSWERED, 0, 1, 1, 1, 1, 1, 1, 0};
    const uint8_t route[] = {FROM_S, ALONG};
    uint64_t blocks;
    struct list card = complete_card(AGREEMENT_SERVERS, 0);
    struct list plan = direct_plan(AGREEMENT_SERVERS, 0, &blocks);
    memcpy(plan_bytes + 4 + 6 * sizeof route, route, sizeof route);
    load("a route over all servers", card, plan, along);
}

static struct own closed(struct own own)
{
    own.state[4] = 0;
    return own;
}

/* An ask in this state, none being open, gives these values; with a byte less it is refused. */
static void asked(const char *what, struct list card, struct list plan, struct own own,
                  struct list values)
{
    const uint64_t *s = own.state, open = s[1] != AGREEMENT_END;
    const uint64_t expected[7] = {AGREEMENT_ANSWERED, s[0], s[1], s[2], s[3], open, values.length};
    const uint64_t refused[7] = {AGREEMENT_REFUSED, AGREEMENT_CALL, AGREEMENT_SHORT_BUFFER};
    ask(what, card, plan, closed(own), values.length, expected, values);
    ask(what, card, plan, closed(own), AGREEMENT_VALUES_LIMIT, expected, values);
    if (values.length > 0)
        ask(what, card, plan, closed(own), values.length - 1, refused, zeros_of(0));
}

/* In this state neither call is answered. */
static void bad_state(const char *what, struct list card, struct list plan, struct own own)
{
    const uint64_t refused[7] = {AGREEMENT_REFUSED, AGREEMENT_CALL, AGREEMENT_BAD_FAULTY_SET};
    ask(what, card, plan, own, 0, refused, zeros_of(0));
    commit(what, card, plan, own, zeros_of(0), refused);
}

/* The part of server 1 of the small site, which enters 0 and hears 1. */
static void own_part(struct list card, struct list plan)
{
    const uint64_t bad_input[6] = {AGREEMENT_REFUSED, AGREEMENT_CALL, AGREEMENT_BAD_INPUTS};
    const uint64_t bad_server[6] = {AGREEMENT_REFUSED, AGREEMENT_CALL, AGREEMENT_BAD_FAULTY_SET};
    const uint64_t out_of_turn[7] = {AGREEMENT_REFUSED, AGREEMENT_CALL, AGREEMENT_OUT_OF_TURN};
    /* Its states while it waits for what is due. */
    const struct own waiting[] = {{1, {0, AGREEMENT_TO_QUORUM, 0, 2, 1}},
                                  {1, {0, AGREEMENT_WITHIN_QUORUM, 0, 2, 1}},
                                  {1, {0, AGREEMENT_FROM_QUORUM, 0, 2, 1}},
                                  {1, {0, AGREEMENT_REPORTS, 1, 1, 1}}};
    const struct own end = {1, {1, AGREEMENT_END, 1, 1, 0}};
    const size_t kinds = sizeof waiting / sizeof *waiting;
    const uint64_t begin[6] = {AGREEMENT_ANSWERED, 0, AGREEMENT_TO_QUORUM, 0, 2, 0};
    start("a server", card, plan, 1, 0, begin);
    start("an input of 2, of no server", card, plan, 2, 2, bad_input);
    start("a server that is not there", card, plan, 2, 0, bad_server);
    for (size_t i = 0; i < kinds; i++) {
        const uint64_t *s = (i + 1 < kinds ? waiting[i + 1] : end).state;
        const uint64_t next[6] = {AGREEMENT_ANSWERED, s[0], s[1], s[2], s[3], 0};
        asked("a server with nothing to send", card, plan, waiting[i], zeros_of(0));
        ask("an open ask", card, plan, waiting[i], 0, out_of_turn, zeros_of(0));
        commit("what arrived, and more", card, plan, waiting[i], LIST(1, 0), next);
        commit("no open ask", card, plan, closed(waiting[i]), LIST(1), out_of_turn);
    }
    asked("the end", card, plan, end, LIST(1));
    commit("the end", card, plan, end, LIST(1), out_of_turn);
    asked("the source of the only route", card, plan,
          (struct own){0, {0, AGREEMENT_FROM_QUORUM, 1, 0, 0}}, LIST(0));
    /* A missing arrival is open, one that is no bit leaves it unsure. */
    const uint64_t open[6] = {AGREEMENT_ANSWERED, 0, AGREEMENT_REPORTS, 0, 0, 0};
    const uint64_t unsure[6] = {AGREEMENT_ANSWERED, 0, AGREEMENT_REPORTS, 0, 2, 0};
    commit("nothing that arrived", card, plan, waiting[2], zeros_of(0), open);
    commit("an arrival that is no bit", card, plan, waiting[2], LIST(2), unsure);
    commit("the last byte that is no bit", card, plan, waiting[2], LIST(255), unsure);
}

/* One word after the other that a state cannot have. */
static void bad_states(struct list card, struct list plan)
{
    static const struct own states[] = {
        {2, {0, AGREEMENT_TO_QUORUM, 0, 2, 0}},     {1, {1, AGREEMENT_TO_QUORUM, 0, 2, 0}},
        {1, {0, AGREEMENT_TO_QUORUM - 1, 0, 2, 0}}, {1, {0, AGREEMENT_END + 1, 0, 2, 0}},
        {1, {0, AGREEMENT_END, 0, 2, 0}},           {1, {2, AGREEMENT_END, 0, 2, 0}},
        {1, {1, AGREEMENT_END, 0, 2, 1}},           {1, {0, AGREEMENT_TO_QUORUM, 2, 2, 0}},
        {1, {0, AGREEMENT_TO_QUORUM, 0, 3, 0}},     {1, {0, AGREEMENT_TO_QUORUM, 0, 2, 2}},
        {1, {UINT64_C(1) << 32, AGREEMENT_TO_QUORUM, 0, 2, 0}}};
    for (size_t i = 0; i < sizeof states / sizeof *states; i++)
        bad_state("a state that cannot be", card, plan, states[i]);
}

/* The plan of the small site is written into every buffer that has room for it. */
static void writes(struct list card, struct list plan)
{
    const uint64_t written[8] = {AGREEMENT_ANSWERED, plan.length};
    const uint64_t too_short[8] = {AGREEMENT_REFUSED, AGREEMENT_CALL, AGREEMENT_SHORT_FOR_PLAN};
    const uint64_t no_plan[8] = {AGREEMENT_REFUSED, AGREEMENT_CALL, AGREEMENT_NO_PLAN, 0, 0, 1, 0, 2};
    for (size_t length = 0; length < plan.length; length++)
        write_plan("a buffer too short for the plan", card, length, too_short, zeros_of(0));
    write_plan("a buffer of the plan's length", card, plan.length, written, plan);
    write_plan("a buffer of a plan's limit", card, AGREEMENT_PLAN_LIMIT, written, plan);
    /* A bad split comes before a short buffer. */
    write_plan("no links", LIST(HEAD, 2, 0, CARD_END), 0, no_plan, zeros_of(0));
    write_plan("no links", LIST(HEAD, 2, 0, CARD_END), AGREEMENT_PLAN_LIMIT, no_plan, zeros_of(0));
}

/* Servers 0, 1 and 2 with links to 3, which has one to 4; one may fail. */
static void routes(void)
{
    struct list card = LIST(HEAD, 5, 1, LINK, 0, 3, LINK, 1, 3, LINK, 2, 3, LINK, 3, 4, CARD_END);
    const uint64_t found[4] = {AGREEMENT_ANSWERED, 1, 2, 0};
    const uint64_t met[4] = {AGREEMENT_ANSWERED, 0, 1 << 3, 1};
    const uint64_t no_route[4] = {AGREEMENT_ANSWERED, 0, 0, 0};
    const uint64_t too_short[4] = {AGREEMENT_REFUSED, AGREEMENT_CALL, AGREEMENT_SHORT_BUFFER, 0};
    const uint64_t cannot_be[4] = {AGREEMENT_REFUSED, AGREEMENT_CALL, AGREEMENT_BAD_FAULTY_SET, 0};
    const struct way to_3 = {1 << 0, 1 << 0 | 1 << 1 | 1 << 2 | 1 << 3, 3}, to_4 = {0, 1 << 1 | 1 << 2, 4};
    separate_routes("two routes", card, to_3, 2 * ROUTE_BYTES, found, LIST(DIRECT(1, 3), DIRECT(2, 3)));
    separate_routes("two routes", card, to_3, ROUTES_LENT, found, LIST(DIRECT(1, 3), DIRECT(2, 3)));
    separate_routes("a buffer too short", card, to_3, 2 * ROUTE_BYTES - 1, too_short, zeros_of(0));
    separate_routes("routes that all meet 3", card, to_4, 0, met, zeros_of(0));
    separate_routes("no route", card, (struct way){0, 1 << 4, 3}, 0, no_route, zeros_of(0));
    static const struct way ways[] = {{1 << 0 | 1 << 1, 0, 0}, {1 << 5, 0, 0}, {0, 1 << 5, 0}, {0, 0, 5}, {0, 0, FILL}};
    for (size_t i = 0; i < sizeof ways / sizeof *ways; i++)
        separate_routes("a way that cannot be", card, ways[i], 0, cannot_be, zeros_of(0));
}

/* Two servers with a link from 0 to 1, the smallest site. */
static void small_site(const char *what, struct list card, struct list plan)
{
    const uint64_t network[12] = {AGREEMENT_ANSWERED, 2, 0, 0, 2};
    const uint64_t none[5] = {AGREEMENT_ANSWERED};
    const uint64_t totals[4] = {AGREEMENT_ANSWERED, 1, 1, 0};
    read_card(what, card, network);
    printed(what, card, (struct list){small_card, sizeof small_card});
    split_test(what, card, none);
    check_plan(what, card, plan, totals);
    load(what, card, plan, no_relays);
    run(what, card, plan, two_servers, totals, 2);
    own_part(card, plan);
    bad_states(card, plan);
}

/* The same link as often as a card has room for it: one link. */
static void twin_cables(struct list plan)
{
    static uint8_t bytes[AGREEMENT_CARD_LIMIT] = {HEAD, 2, 0};
    for (size_t place = 3; place < sizeof bytes - 1; place += 3) {
        bytes[place] = LINK;
        bytes[place + 1] = 0;
        bytes[place + 2] = 1;
    }
    bytes[sizeof bytes - 1] = CARD_END;
    small_site("a link given again up to the limit", (struct list){bytes, sizeof bytes}, plan);
}

static void bad_split(void)
{
    const uint64_t split[5] = {AGREEMENT_BAD_SPLIT, 0, 1, 0, 2};
    split_test("no links", LIST(HEAD, 2, 0, CARD_END), split);
}

/* As many servers as there can be: they are read, and a buffer of so many bytes is enough for a run.
   With all their links the clean card takes its limit. */
static void most_servers(void)
{
    const uint64_t all = (1u << AGREEMENT_SERVERS) - 1;
    /* Longer than the answer, so that there is room for a name that is too large. */
    uint64_t network[12 + AGREEMENT_SERVERS] = {AGREEMENT_ANSWERED, AGREEMENT_SERVERS};
    for (unsigned u = 0; u < AGREEMENT_SERVERS; u++)
        network[4 + u] = all & ~(UINT64_C(1) << u);
    uint64_t totals[4] = {AGREEMENT_ANSWERED};
    struct list card = complete_card(AGREEMENT_SERVERS, 0);
    struct list plan = direct_plan(AGREEMENT_SERVERS, 0, &totals[1]);
    /* Without faults each route is a carriage, and there is nothing else but openings. */
    totals[2] = (plan.length - 1 - 4 * totals[1]) / (1 + ROUTE_BYTES);
    struct call call = {zeros_of(AGREEMENT_SERVERS), 0, AGREEMENT_SERVERS};
    read_card("all servers", card, network);
    if (card.length == AGREEMENT_CLEAN_CARD_LIMIT) {
        printed("all servers", card, card);
    } else {
        printf("refusals: the longest clean card has %zu bytes\n", card.length);
        status = 1;
    }
    check_plan("all servers", card, plan, totals);
    load("all servers", card, plan, no_relays);
    run("all servers", card, plan, call, totals, AGREEMENT_SERVERS);
    /* A buffer of the limit is enough for every ask of every server. */
    for (uint64_t block = 0; block < totals[1]; block++)
        for (uint64_t kind = AGREEMENT_TO_QUORUM; kind < AGREEMENT_END; kind++)
            for (uint8_t server = 0; server < AGREEMENT_SERVERS; server++) {
                struct answer answer = blank();
                uint8_t lent[AGREEMENT_VALUES_LIMIT];
                const uint64_t state[AGREEMENT_STATE_WORDS] = {block, kind, 0, 0, 0};
                agreement_ask(card.bytes, card.length, plan.bytes, plan.length, server, state, lent,
                              sizeof lent, answer.words);
                if (answer.words[0] != AGREEMENT_ANSWERED) {
                    printf("refusals: agreement_ask refused %" PRIu64 "\n", answer.words[2]);
                    status = 1;
                }
            }
    call.lent--;
    call_refused("all servers and a byte too few", card, plan, call, AGREEMENT_SHORT_BUFFER);
}

int main(void)
{
    struct list card = {small_card, sizeof small_card}, plan = {small_plan, sizeof small_plan};
    cards();
    plans(card);
    calls(card, plan);
    prints();
    quick_tests();
    loads();
    writes(card, plan);
    routes();
    small_site("the small site", card, plan);
    twin_cables(plan);
    bad_split();
    most_servers();
    return status;
}
