/*
 * How deep each function of the C interface goes into its stack.
 *
 *     stack FOLDER..
 *
 * Every call runs on a painted stack of its own, on the files of the site folders and on damaged
 * versions of them: cut short at every place, and with every byte changed in three ways. What has
 * lost its paint was used. A call that leaves the stack meets a page that it may not touch. The
 * figures count from the calling function's frame on, so that the call's own arguments are in them.
 *
 * Status 1 where a function uses more than AGREEMENT_STACK.
 */
#define _GNU_SOURCE
#include "agreement.h"

#include <stdio.h>
#include <stdlib.h>
#include <string.h>
#include <sys/mman.h>
#include <ucontext.h>
#include <unistd.h>

/* Four times what a call may use, so that one that uses more is seen and not only stopped. */
enum { SIZE = 4 * AGREEMENT_STACK, PAINT = 0xA5, FILE_MOST = 70000 };

enum function {
    VERSION, READ_CARD, PRINT_CARD, SPLIT_TEST, QUICK_TEST, CHECK_PLAN, WRITE_PLAN, SEPARATE_ROUTES, LOAD, RUN,
    START, ASK, COMMIT, FUNCTIONS
};

static const char *const names[FUNCTIONS] = {
    "agreement_version", "agreement_read_card", "agreement_print_card", "agreement_split_test",
    "agreement_quick_test", "agreement_check_plan", "agreement_write_plan", "agreement_separate_routes",
    "agreement_load", "agreement_run", "agreement_start", "agreement_ask", "agreement_commit"};

struct list {
    uint8_t bytes[FILE_MOST];
    size_t length;
};

/* What a call hands over. It is static, so that the calling function has next to no frame. */
static struct list card, plan, run_in;
static const uint8_t *inputs, *table;
static size_t inputs_length, table_length, lent_length, clean_length;
static uint8_t faulty, lent[2 * AGREEMENT_SERVERS], clean[AGREEMENT_CLEAN_CARD_LIMIT];
static uint8_t server, input, values[AGREEMENT_VALUES_LIMIT];
static uint8_t written[AGREEMENT_PLAN_LIMIT], routes[AGREEMENT_ROUTES * AGREEMENT_ROUTE_BYTES];
static uint8_t faults, sources, receiver;
static uint64_t state[AGREEMENT_STATE_WORDS];
static uint64_t answer[12];
static enum function function;

static ucontext_t caller, callee;
static uint8_t *stacks[FUNCTIONS];
static const uint8_t *frames[FUNCTIONS];

static void call(void)
{
    frames[function] = __builtin_frame_address(0);
    switch (function) {
    case VERSION:
        answer[0] = agreement_version();
        break;
    case READ_CARD:
        agreement_read_card(card.bytes, card.length, answer);
        break;
    case PRINT_CARD:
        agreement_print_card(card.bytes, card.length, clean, clean_length, answer);
        break;
    case SPLIT_TEST:
        agreement_split_test(card.bytes, card.length, answer);
        break;
    case QUICK_TEST:
        agreement_quick_test(card.bytes, card.length, answer);
        break;
    case CHECK_PLAN:
        agreement_check_plan(card.bytes, card.length, plan.bytes, plan.length, answer);
        break;
    case WRITE_PLAN:
        agreement_write_plan(card.bytes, card.length, written, sizeof written, answer);
        break;
    case SEPARATE_ROUTES:
        agreement_separate_routes(card.bytes, card.length, faults, sources, receiver, routes, sizeof routes,
                                  answer);
        break;
    case LOAD:
        agreement_load(card.bytes, card.length, plan.bytes, plan.length, answer);
        break;
    case RUN:
        agreement_run(card.bytes, card.length, plan.bytes, plan.length, inputs, inputs_length,
                      faulty, table, table_length, lent, lent_length, answer);
        break;
    case START:
        agreement_start(card.bytes, card.length, plan.bytes, plan.length, server, input, answer);
        break;
    case ASK:
        agreement_ask(card.bytes, card.length, plan.bytes, plan.length, server, state, values,
                      sizeof values, answer);
        break;
    default:
        /* what arrived is any bytes */
        agreement_commit(card.bytes, card.length, plan.bytes, plan.length, server, state,
                         run_in.bytes, run_in.length, answer);
        break;
    }
}

static void fail(const char *what)
{
    perror(what);
    exit(2);
}

static void call_apart(enum function which)
{
    function = which;
    if (getcontext(&callee) != 0)
        fail("getcontext");
    callee.uc_stack.ss_sp = stacks[which];
    callee.uc_stack.ss_size = SIZE;
    callee.uc_link = &caller;
    makecontext(&callee, call, 0);
    if (swapcontext(&caller, &callee) != 0)
        fail("swapcontext");
}

/* A painted stack that grows down to a page that may not be touched. */
static uint8_t *painted_stack(void)
{
    size_t page = (size_t)sysconf(_SC_PAGESIZE);
    uint8_t *guard =
        mmap(NULL, page + SIZE, PROT_READ | PROT_WRITE, MAP_PRIVATE | MAP_ANONYMOUS, -1, 0);
    if (guard == MAP_FAILED || mprotect(guard, page, PROT_NONE) != 0)
        fail("a stack");
    return memset(guard + page, PAINT, SIZE);
}

static size_t used(enum function which)
{
    const uint8_t *lowest = stacks[which];
    while (*lowest == PAINT)
        lowest++;
    return (size_t)(frames[which] - lowest);
}

/* run.in is the faulty set, the n inputs and the message table. */
static void call_run(void)
{
    call_apart(READ_CARD);
    uint64_t n = answer[0] == AGREEMENT_ANSWERED ? answer[1] : 0;
    faulty = run_in.length > 0 ? run_in.bytes[0] : 0;
    size_t after = run_in.length > 0 ? run_in.length - 1 : 0;
    inputs = run_in.bytes + (run_in.length > 0);
    inputs_length = after < n ? after : (size_t)n;
    table = inputs + inputs_length;
    table_length = after - inputs_length;
    call_apart(RUN);
}

/* Every way to every server: each set of sources, without any server or without one. */
static void call_every_way(void)
{
    for (unsigned way = 0; way < 256 * AGREEMENT_SERVERS * (AGREEMENT_SERVERS + 1); way++) {
        sources = (uint8_t)(way % 256);
        receiver = (uint8_t)(way / 256 % AGREEMENT_SERVERS);
        faults = (uint8_t)(1u << way / 256 / AGREEMENT_SERVERS >> 1);
        call_apart(SEPARATE_ROUTES);
    }
}

/* Asks and commits at a kind of a block, as one server. */
static void call_own(uint64_t block, uint64_t kind)
{
    const uint64_t words[AGREEMENT_STATE_WORDS] = {block, kind, 0, 1, 0};
    memcpy(state, words, sizeof state);
    call_apart(ASK);
    state[4] = 1;
    call_apart(COMMIT);
}

static void call_all(void)
{
    /* The kinds, and the servers with them, take turns. */
    static uint64_t turn;
    sources = (uint8_t)~(1u << turn % AGREEMENT_SERVERS);
    receiver = (uint8_t)(turn % AGREEMENT_SERVERS);
    call_apart(SEPARATE_ROUTES);
    call_apart(VERSION);
    call_apart(PRINT_CARD);
    call_apart(SPLIT_TEST);
    call_apart(QUICK_TEST);
    call_apart(CHECK_PLAN);
    call_apart(LOAD);
    call_run();
    turn++;
    server = turn / 4 % AGREEMENT_SERVERS;
    call_apart(START);
    call_own(0, AGREEMENT_TO_QUORUM + turn % 4);
}

/* Every kind of every block, and the end, as every server. */
static void call_every_turn(void)
{
    call_apart(CHECK_PLAN);
    uint64_t blocks = answer[0] == AGREEMENT_ANSWERED ? answer[1] : 0;
    for (server = 0; server < AGREEMENT_SERVERS; server++) {
        for (uint64_t block = 0; block < blocks; block++)
            for (uint64_t kind = AGREEMENT_TO_QUORUM; kind < AGREEMENT_END; kind++)
                call_own(block, kind);
        call_own(blocks, AGREEMENT_END);
    }
}

/* A plan is written by the card alone, and takes longer than all other calls. */
static void call_damaged(const struct list *file)
{
    call_all();
    if (file == &card)
        call_apart(WRITE_PLAN);
}

/* Damages one file in every way, with the others as they are. */
static void damage(struct list *file)
{
    size_t length = file->length;
    for (file->length = 0; file->length < length; file->length++)
        call_damaged(file);
    for (size_t i = 0; i < length; i++) {
        uint8_t old = file->bytes[i];
        const uint8_t changed[] = {0xFF, (uint8_t)(old + 1), (uint8_t)(old ^ 0x10)};
        for (size_t k = 0; k < sizeof changed; k++) {
            file->bytes[i] = changed[k];
            call_damaged(file);
        }
        file->bytes[i] = old;
    }
}

/* A file that is not there counts as empty, but a site has a card. */
static void read_list(struct list *list, const char *folder, const char *name)
{
    char path[4096];
    snprintf(path, sizeof path, "%s/%s", folder, name);
    FILE *stream = fopen(path, "rb");
    list->length = 0;
    if (stream != NULL) {
        list->length = fread(list->bytes, 1, sizeof list->bytes, stream);
        fclose(stream);
    } else if (list == &card) {
        fail(path);
    }
}

int main(int argc, char **argv)
{
    if (argc < 2) {
        fputs("usage: stack FOLDER..\n", stderr);
        return 2;
    }
    for (int i = 0; i < FUNCTIONS; i++)
        stacks[i] = painted_stack();
    for (int i = 1; i < argc; i++) {
        read_list(&card, argv[i], "network.card");
        read_list(&plan, argv[i], "network.plan");
        read_list(&run_in, argv[i], "run.in");
        for (clean_length = 0; clean_length < sizeof clean; clean_length++)
            call_apart(PRINT_CARD);
        for (lent_length = 0; lent_length < sizeof lent; lent_length++)
            call_all();
        call_every_turn();
        call_apart(WRITE_PLAN);
        call_every_way();
        damage(&card);
        damage(&plan);
        damage(&run_in);
    }
    int over = 0;
    for (int i = 0; i < FUNCTIONS; i++) {
        size_t bytes = used((enum function)i);
        printf("%-25s uses %4zu bytes of stack\n", names[i], bytes);
        over |= bytes > AGREEMENT_STACK;
    }
    if (over)
        printf("stack: more than AGREEMENT_STACK, %d bytes\n", AGREEMENT_STACK);
    return over;
}
