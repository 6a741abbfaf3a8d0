/* Measures how much stack a check, a list of faults, a plan and a settling of a sound machine use, and what it starts from:
   pciplan_stack_test DUMP PROBE. Each runs on a stack of its own, whose bytes were painted before. */
#define _XOPEN_SOURCE 700
#include <stdio.h>
#include <stdlib.h>
#include <string.h>
#include <ucontext.h>

#include "pciplan.h"

enum { STACK = 512 * 1024, TEXT = 1 << 22, WRITES = 4096, PAINT = 0xa5 };

/* What pciplan.h says that they need at most. */
#define CHECK_NEEDS (32 * 1024)
#ifndef PLAN_NEEDS
#define PLAN_NEEDS (32 * 1024)
#endif
#ifndef FAULTS_NEEDS
#define FAULTS_NEEDS (64 * 1024)
#endif
#ifndef SETTLE_NEEDS
#define SETTLE_NEEDS (240 * 1024)
#endif

static _Alignas(16) uint8_t stack[STACK];
static uint8_t dump[TEXT], probe[TEXT], line[PCIPLAN_LINE], list[1 << 16];
static struct pciplan_write writes[WRITES];
static size_t dump_len, probe_len;
static const uint8_t root[] = {0};
static const struct pciplan_pools pools = {0x1000, 0xffff, 0x80000000, 0xfebfffff, 0x100000000, 0xffffffffff};
static uint8_t status;
static ucontext_t caller, callee;

static void stop(const char *why)
{
    fprintf(stderr, "%s\n", why);
    exit(1);
}

static size_t text_of(const char *path, uint8_t *text)
{
    FILE *file = fopen(path, "rb");
    size_t used;

    if (file == NULL)
        stop(path);
    used = fread(text, 1, TEXT, file);
    fclose(file);
    return used;
}

static void check(void)
{
    size_t used;
    status = pciplan_check(dump, dump_len, probe, probe_len, root, sizeof root, line, sizeof line, &used);
}

#define TEXT_OF(words) {(const uint8_t *)words, sizeof words - 1}

/* Where the host sends no memory, each BAR and ROM that decodes memory is a fault, with its reason. */
static void faults(void)
{
    const struct pciplan_faults_words given = {TEXT_OF("all"), TEXT_OF("0-ffff"), TEXT_OF("none"), 1};
    size_t used;
    status = pciplan_faults(dump, dump_len, probe, probe_len, root, sizeof root, &given, list, sizeof list, &used);
}

static void plan(void)
{
    size_t count, safe_from, used;
    status = pciplan_plan(dump, dump_len, probe, probe_len, root, sizeof root, &pools, writes, WRITES, &count, &safe_from,
                          line, sizeof line, &used);
}

static void settle_as(struct pciplan_text also, uint8_t anew)
{
    const struct pciplan_settle_words asked = {TEXT_OF("1000-ffff"), TEXT_OF("80000000-febfffff"),
                                               TEXT_OF("100000000-ffffffffff"), TEXT_OF("00:00.0"), TEXT_OF(""), TEXT_OF(""),
                                               also, anew};
    struct pciplan_denied denied[1];
    size_t count, safe_from, none, used;
    status = pciplan_settle(dump, dump_len, probe, probe_len, root, sizeof root, &asked, writes, WRITES, &count, &safe_from,
                            denied, 1, &none, line, sizeof line, &used);
}

static const struct pciplan_text untold = TEXT_OF("");

static void settle(void)
{
    settle_as(untold, 0);
}

static void settle_anew(void)
{
    settle_as(untold, 1);
}

static void settle_told(void)
{
    const struct pciplan_text told = TEXT_OF("00:07.0 mem 00000000fea30000-00000000fea33fff always\n");
    settle_as(told, 0);
}

static void start(void)
{
    size_t count;
    status = pciplan_start(dump, dump_len, writes, WRITES, &count);
}

/* The bytes of the stack that a call used, which has to answer this. */
static size_t stack_of(void (*call)(void), uint8_t answer)
{
    size_t untouched = 0;

    memset(stack, PAINT, STACK);
    if (getcontext(&callee) != 0)
        stop("no context");
    callee.uc_stack.ss_sp = stack;
    callee.uc_stack.ss_size = STACK;
    callee.uc_link = &caller;
    makecontext(&callee, call, 0);
    if (swapcontext(&caller, &callee) != 0)
        stop("no context");
    if (status != answer)
        stop("another answer");
    while (untouched < STACK && stack[untouched] == PAINT)
        untouched++;
    return STACK - untouched;
}

int main(int count, char **words)
{
    size_t of_check, of_faults, of_plan, of_settle, of_anew, of_told, of_start;

    if (count != 3)
        stop("usage: pciplan_stack_test DUMP PROBE");
    dump_len = text_of(words[1], dump);
    probe_len = text_of(words[2], probe);
    of_check = stack_of(check, PCIPLAN_YES);
    of_faults = stack_of(faults, PCIPLAN_NO);
    of_plan = stack_of(plan, PCIPLAN_YES);
    of_settle = stack_of(settle, PCIPLAN_YES);
    of_anew = stack_of(settle_anew, PCIPLAN_YES);
    of_told = stack_of(settle_told, PCIPLAN_YES);
    of_start = stack_of(start, PCIPLAN_YES);
    printf("a check used %zu bytes of stack, a list of faults %zu, a plan %zu, a settling %zu, one of all anew %zu, ",
           of_check, of_faults, of_plan, of_settle, of_anew);
    printf("one beside a told range %zu, a start %zu\n", of_told, of_start);
    return of_check > CHECK_NEEDS || of_faults > FAULTS_NEEDS || of_plan > PLAN_NEEDS || of_settle > SETTLE_NEEDS ||
           of_anew > SETTLE_NEEDS || of_told > SETTLE_NEEDS || of_start > CHECK_NEEDS;
}
