/*
 * The agreement library for x86-64 Linux (System V ABI): card reader, card printed back, split
 * test, quick test for two-way sites, plan check, plan writer, separate routes, load on each relay,
 * run, and a server's own part in a live network.
 *
 * The library is written in Rattle and proved: every function below meets the contract that is
 * written above it, for all arguments. It allocates nothing, keeps no state and calls nothing but
 * memset of the C library, so any number of threads may call it at the same time.
 *
 * What a caller hands over
 *
 *   - A byte list is a pointer and a length. The pointer is not null, also where the length is 0,
 *     and `length` bytes can be read there (from `lent`: read and written).
 *   - `answer` points to 4, 5, 6, 7, 8, 9 or 12 words, as the declaration says, which the call
 *     fills. `state` points to 5 words, which it only reads.
 *   - The bytes and words that a call writes (`lent`, `answer`) lie apart from each other and from
 *     everything that it reads.
 *   - AGREEMENT_STACK bytes of stack are left.
 *   These are all the demands. Bytes and words may have any values and lists any length.
 *
 * docs/FORMATS.md says what a card, a plan, a faulty set and a message table are. In short: servers
 * are 0 to n-1, n from 2 to 8; f, from 0 to 2, bounds how many are faulty; a set of servers is one
 * byte, server i standing for 2^i.
 *
 * Answers
 *
 *   The first word says what the others are.
 *     AGREEMENT_ANSWERED (0)    the answer; each function says which words
 *     AGREEMENT_BAD_SPLIT (1)   of the split test only: F, L, C, R
 *     AGREEMENT_REFUSED (2)     what is at fault, the refusal's number, its place; then zeros but
 *                               for 17, which has F, L, C, R
 *   What is at fault is AGREEMENT_CARD (0), AGREEMENT_PLAN (1) or AGREEMENT_CALL (2). The place is
 *   that of the command byte at fault in card or plan; a call's refusal has place 0.
 *
 *   number  when
 *    1      card or plan over its length (1,024 and 1,048,576 bytes), place 0
 *    2      unknown command, or a command or its operands cut off; where no command is left, the
 *           place is the length of the file
 *    3      bytes follow the end command; the place is that of the first of them
 *    4      card: the first command is not 01, or 01 again
 *    5      card: n, f or a server out of range, or a link from a server to itself
 *    6      no longer given: a link given again is one link
 *    7      plan: the command, or the F and A of a block, is not the one due
 *    8      plan: S is empty or not within V-F
 *    9      plan: a route breaks a rule on its own
 *   10      plan: a route shares a server, the receiver aside, with an earlier one of its f+1
 *   11      plan: k is not the one due, or N breaks its rule
 *   12      call: inputs not n bytes of 0 or 1; to start: the server's own input above 1
 *   13      call: faulty set over f servers, or a server not in V; separate routes: a source or the
 *           receiver not in V too; a server's own part: the server not in V, or a state at no kind
 *           of a block nor the end of this plan, or at the end with an ask open, or with v above 1,
 *           t above 2 or open above 1
 *   14      call: lent buffer under n bytes; to print a card: shorter than the card to be written;
 *           to ask: shorter than the values due; separate routes: shorter than those found
 *   15      call: quick test: some link has no return
 *   16      call: a second ask while one is open, or a commit with none open
 *   17      call: plan writer: the network has a bad split, which comes with the refusal
 *   18      call: plan writer: lent buffer shorter than the plan
 *   The card's refusal comes before the plan's, and that before the call's 12, 13, 14, 15, 16, 17,
 *   18.
 *
 * A server's own part
 *
 *   A server in a live network knows only itself. agreement_start gives it the state to start in.
 *   Then, for each block of the plan in turn and in each block for the kinds 11, 12, 13 and 14 of
 *   carriages in turn, those too that are empty or none of its business, it asks and commits:
 *   agreement_ask says what it sends as source, agreement_commit takes in what arrived for it as
 *   receiver. At the end agreement_ask gives the decided bit. Carrying the values, and waiting for
 *   those due, is the caller's part; a value that does not come counts as 0.
 *
 *   The library keeps nothing between two calls: the state is the caller's own, who keeps it, may
 *   store it, and hands it to the next call. Its words are
 *     state[0]  block   counted from 0; at the end the number of blocks
 *     state[1]  kind    of carriages, the plan's command for them, or AGREEMENT_END
 *     state[2]  v       the server's value, 0 or 1
 *     state[3]  t       its working value: 0, 1, or 2 for unsure
 *     state[4]  open    1 while an ask is open, that is, between an ask and its commit; else 0
 *   The words answer[1] to answer[5] of an answered call are the state for the next one, which has
 *   to fill another `answer`. A refused call changes nothing, and the state that it was given is as
 *   good as before.
 *
 *   Suppose that all servers are stepped so, side by side over one card and plan, each from its own
 *   input; that a carriage with no faulty server before its receiver brings what its source's ask
 *   gave for it; and that any other brings the byte of its number in a message table. Then the one
 *   value that a server shows at the end is, unless it is faulty, its byte after agreement_run with
 *   the same card, plan, inputs, faulty set and table. So the servers that are not faulty show one
 *   bit, and at least one of them has it as its input, whatever the faulty ones send.
 */
#ifndef AGREEMENT_H
#define AGREEMENT_H

#include <stddef.h>
#include <stdint.h>

#ifdef __cplusplus
extern "C" {
#endif

/* The version of this header. */
#define AGREEMENT_VERSION_MAJOR 0
#define AGREEMENT_VERSION_MINOR 8
#define AGREEMENT_VERSION_PATCH 0
#define AGREEMENT_VERSION \
    (UINT64_C(1000000) * AGREEMENT_VERSION_MAJOR + UINT64_C(1000) * AGREEMENT_VERSION_MINOR + \
     AGREEMENT_VERSION_PATCH)

enum {
    AGREEMENT_ANSWERED = 0,
    AGREEMENT_BAD_SPLIT = 1,
    AGREEMENT_REFUSED = 2
};

enum {
    AGREEMENT_CARD = 0,
    AGREEMENT_PLAN = 1,
    AGREEMENT_CALL = 2
};

/* The refusals' numbers; the table above says when. */
enum {
    AGREEMENT_TOO_LONG = 1,
    AGREEMENT_CUT_OFF = 2,        /* an unknown command too */
    AGREEMENT_TRAILING_BYTES = 3,
    AGREEMENT_BAD_HEAD = 4,       /* 01 is not first, or not the only one */
    AGREEMENT_OUT_OF_RANGE = 5,   /* a link from a server to itself too */
    AGREEMENT_NOT_DUE = 7,        /* a command, or the F and A of a block */
    AGREEMENT_BAD_QUORUM = 8,     /* the S of a block */
    AGREEMENT_BAD_ROUTE = 9,
    AGREEMENT_SHARED_SERVER = 10, /* between two routes to one receiver */
    AGREEMENT_BAD_REPORT = 11,    /* its k or its N */
    AGREEMENT_BAD_INPUTS = 12,    /* a server's own input too */
    AGREEMENT_BAD_FAULTY_SET = 13, /* a source or receiver; a server's own part: it or its state */
    AGREEMENT_SHORT_BUFFER = 14,  /* `lent` */
    AGREEMENT_ONE_WAY = 15,       /* a link without a return */
    AGREEMENT_OUT_OF_TURN = 16,   /* an ask while one is open, a commit while none is */
    AGREEMENT_NO_PLAN = 17,       /* the network has a bad split */
    AGREEMENT_SHORT_FOR_PLAN = 18 /* `lent` */
};

/* The kinds of carriages of a block, by the plan's commands, and the end, for state[1]. */
enum {
    AGREEMENT_TO_QUORUM = 0x11,     /* routes from A to S-A */
    AGREEMENT_WITHIN_QUORUM = 0x12, /* routes among S */
    AGREEMENT_FROM_QUORUM = 0x13,   /* routes from S to V-F-S */
    AGREEMENT_REPORTS = 0x14,       /* from the N of a k in F */
    AGREEMENT_END = 0x15            /* after the last block */
};

/* The largest n: agreement_run never refuses 14 for a buffer of so many bytes. */
#define AGREEMENT_SERVERS 8

/* The words of a state. */
#define AGREEMENT_STATE_WORDS 5

/*
 * The most carriages that one kind of a block can have: agreement_ask never refuses 14 for a buffer
 * of so many bytes.
 */
#define AGREEMENT_VALUES_LIMIT 56

/* The longest clean card: agreement_print_card never refuses 14 for a buffer of so many bytes. */
#define AGREEMENT_CLEAN_CARD_LIMIT 172

/* A route as a plan has it: its servers from source to receiver, then FF. */
#define AGREEMENT_ROUTE_BYTES 8

/* The most f+1: agreement_separate_routes never refuses 14 for a buffer of so many routes. */
#define AGREEMENT_ROUTES 3

/*
 * The most bytes that a card and a plan may have; longer ones are refused 1. No plan that is written
 * is longer: agreement_write_plan never refuses 18 for a buffer of so many bytes.
 */
#define AGREEMENT_CARD_LIMIT 1024
#define AGREEMENT_PLAN_LIMIT 1048576

/*
 * The bytes of stack that a call needs at most. The frames along the calls in the archive add up to
 * 5,488 bytes at the deepest, in agreement_write_plan: with them goes what a first call of memset
 * may take of the stack. The search for separate routes calls itself, with an allowance that falls
 * at each call, and the bound counts as many frames as the allowance has. agreement_separate_routes
 * needs 3,672 bytes, the other calls a fifth of the deepest or less. No call on the example sites or
 * on damaged versions of them was measured to use more. `sh tools/stack` does both again, for each
 * call.
 */
#define AGREEMENT_STACK 12288

/*
 * The version of the library that is linked, 1,000,000 * major + 1,000 * minor + patch. Where it is
 * not AGREEMENT_VERSION, the library is not the one that this header describes.
 */
uint64_t agreement_version(void);

/*
 * Reads a network card.
 * answer: 0, n, f, 0 and eight rows. Row u, the word answer[4 + u], is the set of servers that u
 * has a link to: server v is in it exactly if the card has a link from u to v, given once or more
 * often. So it has servers of the network only, u is not in it, and it is 0 where u is no server.
 * Or answer: 2, AGREEMENT_CARD, number, place and eight zeros.
 */
void agreement_read_card(const uint8_t *card, size_t card_length, uint64_t answer[12]);

/*
 * Prints the card back, clean: 01 n f, then 02 u v for each link, once, ascending by u, then by v,
 * then 03. That is 4 bytes and 3 for each link.
 * answer: 0, bytes, 0, 0. Then the first `bytes` bytes of `lent` are the clean card, and its later
 * bytes are as they were. Reading the clean card gives the same network, and printing it gives the
 * same bytes.
 * Or answer: 2, what is at fault, number, place: the card's refusal, or 14 where `lent` is shorter
 * than the clean card. Then every byte of `lent` is as it was.
 */
void agreement_print_card(const uint8_t *card, size_t card_length, uint8_t *lent,
                          size_t lent_length, uint64_t answer[4]);

/*
 * The split test: can the servers of this network agree, whichever f of them fail?
 * answer: 0, 0, 0, 0, 0 if they can, which is so exactly if the network meets Theorem 1 of Tseng
 * and Vaidya; 1, F, L, C, R, the first split that breaks it, in the order of F, then L, then R; or
 * 2, AGREEMENT_CARD, number, place, 0.
 */
void agreement_split_test(const uint8_t *card, size_t card_length, uint64_t answer[5]);

/*
 * The quick test for two-way sites, where each link has a return, by the older rule: n is at least
 * 3f+1, and at least 2f+1 servers must be taken away before the rest falls apart, that is, into two
 * parts that are not empty, with no link between them.
 * answer: 0, 1 if the rule holds and 0 if not, n, least. `least` is the least number of servers that
 * must be taken away, 0 where the network is apart as it is; n-1 where no number is enough, as every
 * two servers are linked. The rule holds exactly if the split test answers 0, 0, 0, 0, 0.
 * Or answer: 2, what is at fault, number, place: the card's refusal, or 15 where some link has no
 * return.
 */
void agreement_quick_test(const uint8_t *card, size_t card_length, uint64_t answer[4]);

/*
 * The plan check: does the plan meet the route rules for the card's network?
 * answer: 0, blocks, carriages, 0 exactly if it does; or 2, AGREEMENT_CARD or AGREEMENT_PLAN,
 * number, place.
 * An accepted plan shows a good network, so one check is enough: wherever some plan is answered 0,
 * blocks, carriages, 0, agreement_split_test answers 0, 0, 0, 0, 0 for the same card, and n is at
 * least 3f+1. A refused plan says nothing about the network.
 */
void agreement_check_plan(const uint8_t *card, size_t card_length, const uint8_t *plan,
                          size_t plan_length, uint64_t answer[4]);

/*
 * The plan writer: a plan for the card's network.
 * answer: 0, bytes, 0, 0, 0, 0, 0, 0. Then the first `bytes` bytes of `lent` are the plan, and its
 * later bytes are as they were. agreement_check_plan accepts the plan, and no plan that it accepts
 * for this card is shorter. It is the same into every buffer that has room for it.
 * Or answer: 2, AGREEMENT_CALL, 17, 0, F, L, C, R exactly if agreement_split_test answers 1, F, L,
 * C, R; or 2, what is at fault, number, place, 0, 0, 0, 0: the card's refusal or, where the card is
 * read and no split is bad, 18 if `lent` is shorter than the plan. Then every byte of `lent` is as
 * it was.
 */
void agreement_write_plan(const uint8_t *card, size_t card_length, uint8_t *lent,
                          size_t lent_length, uint64_t answer[8]);

/*
 * Separate routes: f+1 routes, each from a server of `sources` to `receiver` and with no server of
 * `faults`, that share nothing but the receiver, or else the servers that stand in their way. A
 * source that is faulty, or is the receiver, counts as none. No route leads to a faulty receiver.
 * answer: 0, 1, f+1, 0 if there are so many routes. Then they stand in the first bytes of `lent`,
 * AGREEMENT_ROUTE_BYTES for each, and its later bytes are as they were.
 * Else answer: 0, 0, servers, count. `servers` is a set of `count` servers, at most f, and the
 * receiver is not in it. Every route meets one of them, a source counting as met. Then every byte of
 * `lent` is as it was.
 * Or answer: 2, what is at fault, number, place: the card's refusal; 13 where `faults` has more than
 * f servers, or a server of `faults`, of `sources` or the receiver is not in V; or 14 where there
 * are f+1 routes and `lent` is shorter than they are. Then every byte of `lent` is as it was.
 */
void agreement_separate_routes(const uint8_t *card, size_t card_length, uint8_t faults,
                               uint8_t sources, uint8_t receiver, uint8_t *lent,
                               size_t lent_length, uint64_t answer[4]);

/*
 * The load on each relay: how many of the plan's routes does each server relay? A server relays a
 * route if it stands on it as neither source nor receiver. Routes are those of the commands 11, 12
 * and 13; a member of an N tells k its value over a link, with no relay.
 * answer: 0 and eight counts. The word answer[1 + i] is the number of routes that server i relays,
 * and it is 0 where i is no server. The eight counts add up to the relaying places over all routes,
 * as the plan's bytes have them: for each route, its bytes before the fill less two.
 * Or answer: 2, AGREEMENT_CARD or AGREEMENT_PLAN, number, place and five zeros: the refusal of
 * agreement_check_plan, exactly where that refuses.
 */
void agreement_load(const uint8_t *card, size_t card_length, const uint8_t *plan,
                    size_t plan_length, uint64_t answer[9]);

/*
 * The run: Algorithm BC with the plan's choices. It plays the whole network at once, with what the
 * faulty servers do as an argument. That is for rehearsals, comparisons and drills: a server in a
 * live network takes its own part by agreement_start, agreement_ask and agreement_commit.
 *
 * `inputs` has each server's bit, `faulty` the servers that fail, and `table` what arrives by each
 * carriage that a faulty server has spoiled: the byte of the carriage's number, 0 or 1, any other
 * counting as unsure and a missing one as 0: no word from an office means that the recap is open.
 *
 * answer: 0, blocks, carriages, 0. Then the first n bytes of `lent` are the decided bits, 2 for a
 * faulty server, and its later bytes are as they were. The bits of all servers that are not faulty
 * are equal, and at least one of these servers has that bit as its input, whatever the card, the
 * plan, the inputs, the faulty set and the table are.
 * Or answer: 2, what is at fault, number, place. Then every byte of `lent` is as it was.
 * Card and plan are checked in every call.
 */
void agreement_run(const uint8_t *card, size_t card_length, const uint8_t *plan, size_t plan_length,
                   const uint8_t *inputs, size_t inputs_length, uint8_t faulty,
                   const uint8_t *table, size_t table_length, uint8_t *lent, size_t lent_length,
                   uint64_t answer[4]);

/*
 * Where a server starts, with its own bit as `input`: at kind 11 of block 0, v its input, t unsure,
 * no ask open.
 * answer: 0, block, kind, v, t, open: that is 0, 0, AGREEMENT_TO_QUORUM, input, 2, 0.
 * Or answer: 2, what is at fault, number, place, 0, 0: the refusal of card or plan, 12 where the
 * input is above 1, or else 13 where the server is not in V.
 */
void agreement_start(const uint8_t *card, size_t card_length, const uint8_t *plan,
                     size_t plan_length, uint8_t server, uint8_t input, uint64_t answer[6]);

/*
 * Asks what a server sends as source in its state's kind of its block.
 * answer: 0, block, kind, v, t, open, values. The state is as it was, but that `open` is now 1.
 * `values` is the number of the kind's carriages whose source is this server, and may be 0. The
 * first `values` bytes of `lent` are what it sends by each of them, in plan order: v in the kinds
 * 11 and 14, t, which may be 2, in the kinds 12 and 13. A 2 has to be sent too: one that does not
 * come counts as 0. Later bytes of `lent` are as they were.
 * At the end the one value is v, the decided bit, as often as it is asked, and `open` stays 0.
 * Or answer: 2, what is at fault, number, place, 0, 0, 0: the refusal of card or plan, 13 for the
 * server or its state, 14 where `lent` is shorter than the values due, or else 16 where an ask is
 * open already. Then every byte of `lent` is as it was.
 * Card and plan are checked in every call.
 */
void agreement_ask(const uint8_t *card, size_t card_length, const uint8_t *plan, size_t plan_length,
                   uint8_t server, const uint64_t state[5], uint8_t *lent, size_t lent_length,
                   uint64_t answer[7]);

/*
 * Commits what arrived for a server as receiver in its state's kind of its block, and moves on.
 * Byte i of `arrived` came by the carriage that is number i, from 0, of the kind's carriages whose
 * receiver is this server, in plan order: 0 or 1, any other counting as unsure and a missing one as
 * 0, as in the run. So 0 stands for one that did not come while a later one did. Bytes beyond those
 * due have no effect.
 * answer: 0, block, kind, v, t, open: the state after the server's steps of the kind, which are 1
 * and 2 in the kind 11, 3 in 12, 4 and 5 in 13, 6 in 14 (docs/FORMATS.md has the steps). It is at
 * the next kind of the block, at kind 11 of the next block or at the end, and no ask is open.
 * Or answer: 2, what is at fault, number, place, 0, 0: the refusal of card or plan, 13 for the
 * server or its state, or else 16 where no ask is open, as at the end.
 * Card and plan are checked in every call.
 */
void agreement_commit(const uint8_t *card, size_t card_length, const uint8_t *plan,
                      size_t plan_length, uint8_t server, const uint64_t state[5],
                      const uint8_t *arrived, size_t arrived_length, uint64_t answer[6]);

#ifdef __cplusplus
}
#endif

#endif
