/*
 * A site's network in words, from its card, plan and run.in: can its offices agree, is the plan
 * accepted, and what does each office show?
 *
 *     site FOLDER
 */
#include "agreement.h"

#include <inttypes.h>
#include <stdio.h>
#include <stdlib.h>

/* A file of a site; one that is not there counts as empty. */
struct file {
    uint8_t *bytes;
    size_t length;
};

static struct file read_file(const char *folder, const char *name)
{
    enum { MOST = 2 * 1024 * 1024 };
    struct file file = {malloc(MOST), 0};
    char path[4096];
    if (file.bytes == NULL) {
        fputs("out of memory\n", stderr);
        exit(2);
    }
    int written = snprintf(path, sizeof path, "%s/%s", folder, name);
    FILE *stream = written > 0 && (size_t)written < sizeof path ? fopen(path, "rb") : NULL;
    if (stream != NULL) {
        file.length = fread(file.bytes, 1, MOST, stream);
        fclose(stream);
    }
    return file;
}

static void print_set(uint64_t set)
{
    if (set == 0)
        fputs(" none", stdout);
    for (unsigned i = 0; i < AGREEMENT_SERVERS; i++)
        if (set >> i & 1)
            printf(" %u", i);
}

static void print_refusal(const uint64_t answer[])
{
    static const char *const whose[] = {"card", "plan", "call"};
    printf("refused %s %" PRIu64, whose[answer[1]], answer[2]);
    if (answer[1] != AGREEMENT_CALL)
        printf(" %" PRIu64, answer[3]);
    putchar('\n');
}

/* Servers outside the set and outside F that have a link into it. */
static uint64_t heard_by(const uint64_t rows[], uint64_t set, uint64_t fault)
{
    uint64_t sources = 0;
    for (unsigned u = 0; u < AGREEMENT_SERVERS; u++)
        if (!((set | fault) >> u & 1) && (rows[u] & set) != 0)
            sources |= UINT64_C(1) << u;
    return sources;
}

static void explain_side(const uint64_t rows[], uint64_t side, uint64_t fault, uint64_t f)
{
    fputs("  offices", stdout);
    print_set(side);
    fputs(" hear, of the others, only", stdout);
    print_set(heard_by(rows, side, fault));
    printf(": no more than %" PRIu64 ", so that all they hear may be false\n", f);
}

static void explain_split(const uint64_t rows[], const uint64_t split[], uint64_t f)
{
    fputs("bad split: offices", stdout);
    print_set(split[2]);
    fputs(" and offices", stdout);
    print_set(split[4]);
    fputs(" could be split, with", stdout);
    print_set(split[1]);
    puts(" failing");
    explain_side(rows, split[2], split[1], f);
    explain_side(rows, split[4], split[1], f);
}

/* What the library says of a site; the first refusal or bad split is the last word. */
static void show(struct file card, struct file plan, struct file run_in)
{
    uint64_t network[12];
    agreement_read_card(card.bytes, card.length, network);
    if (network[0] == AGREEMENT_REFUSED) {
        print_refusal(network);
        return;
    }
    uint64_t n = network[1];
    uint64_t f = network[2];
    const uint64_t *rows = network + 4;
    printf("%" PRIu64 " offices, at most %" PRIu64 " failing\n", n, f);

    uint64_t split[5];
    agreement_split_test(card.bytes, card.length, split);
    if (split[0] == AGREEMENT_BAD_SPLIT) {
        explain_split(rows, split, f);
        return;
    }
    puts("no bad split: the offices can agree");

    uint64_t checked[4];
    agreement_check_plan(card.bytes, card.length, plan.bytes, plan.length, checked);
    if (checked[0] == AGREEMENT_REFUSED) {
        print_refusal(checked);
        return;
    }
    printf("plan accepted: %" PRIu64 " blocks, %" PRIu64 " carriages\n", checked[1], checked[2]);

    uint8_t faulty = run_in.length > 0 ? run_in.bytes[0] : 0;
    size_t after = run_in.length > 0 ? run_in.length - 1 : 0;
    size_t inputs = after < n ? after : (size_t)n;
    const uint8_t *first = run_in.length > 0 ? run_in.bytes + 1 : run_in.bytes;
    uint8_t lent[AGREEMENT_SERVERS];
    uint64_t ran[4];
    agreement_run(card.bytes, card.length, plan.bytes, plan.length, first, inputs, faulty,
                  first + inputs, after - inputs, lent, sizeof lent, ran);
    if (ran[0] == AGREEMENT_REFUSED) {
        print_refusal(ran);
        return;
    }
    for (uint64_t i = 0; i < n; i++)
        printf("office %" PRIu64 " %s\n", i,
               lent[i] == 2 ? "fails" : lent[i] == 1 ? "shows closed" : "shows open");
}

int main(int argc, char **argv)
{
    if (argc != 2) {
        fputs("usage: site FOLDER\n", stderr);
        return 2;
    }
    if (agreement_version() != AGREEMENT_VERSION) {
        fputs("agreement.h and libagreement.a are not of one version\n", stderr);
        return 2;
    }
    struct file card = read_file(argv[1], "network.card");
    struct file plan = read_file(argv[1], "network.plan");
    struct file run_in = read_file(argv[1], "run.in");
    show(card, plan, run_in);
    free(card.bytes);
    free(plan.bytes);
    free(run_in.bytes);
    return 0;
}
