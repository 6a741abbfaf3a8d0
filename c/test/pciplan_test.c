/* Calls the library on texts of emulated machines, and refuses it each growth in turn. Linked with
   -Wl,--wrap=rattle_alloc,--wrap=rattle_realloc; built and run by c/test.sh. */
#include "pciplan.h"

#include <stdio.h>
#include <stdlib.h>
#include <string.h>

#define COUNT(xs) (sizeof(xs) / sizeof((xs)[0]))

/* ---- growths, of which one may be refused */

struct pciplan_tried __real_rattle_alloc(size_t n, size_t align);
struct pciplan_tried __real_rattle_realloc(void *at, size_t kept, size_t n, size_t align);

static size_t growths; /* since the call began */
static size_t refuse;  /* which of them is refused, counted from 1; 0: none */

static int is_refused(void)
{
    growths++;
    return growths == refuse;
}

static struct pciplan_tried no_memory(void)
{
    static uint8_t none;
    struct pciplan_tried t = {0, &none};
    return t;
}

struct pciplan_tried __wrap_rattle_alloc(size_t n, size_t align)
{
    return is_refused() ? no_memory() : __real_rattle_alloc(n, align);
}

struct pciplan_tried __wrap_rattle_realloc(void *at, size_t kept, size_t n, size_t align)
{
    return is_refused() ? no_memory() : __real_rattle_realloc(at, kept, n, align);
}

/* ---- texts */

struct text {
    uint8_t *bytes;
    size_t len;
};

static void fail(const char *what, const char *which)
{
    printf("FAILED: %s: %s\n", what, which);
    exit(1);
}

static struct text text_of(const char *path)
{
    FILE *file = fopen(path, "rb");
    if (file == NULL || fseek(file, 0, SEEK_END) != 0)
        fail("no file", path);
    long len = ftell(file);
    struct text t = {malloc((size_t)len), (size_t)len};
    rewind(file);
    if (t.bytes == NULL || fread(t.bytes, 1, t.len, file) != t.len)
        fail("not read", path);
    fclose(file);
    return t;
}

/* Where these bytes stand in a text. */
static uint8_t *at_text(struct text t, const char *bytes)
{
    size_t len = strlen(bytes);
    for (size_t i = 0; i + len <= t.len; i++)
        if (memcmp(t.bytes + i, bytes, len) == 0)
            return t.bytes + i;
    fail("not found", bytes);
    return NULL;
}

/* ---- calls */

struct call {
    const char *name;
    const char *dump;
    size_t dump_cut; /* so many of its last bytes are left away */
    const char *probe;
    size_t probe_cut;
    uint8_t roots[2];
    size_t roots_len;
    size_t line_len;
    uint8_t status;
    const char *line; /* at SHORT the line for which there is no room */
};

static const struct call calls[] = {
    {"yes", "old.dump", 0, "old.probe", 0, {0}, 1, PCIPLAN_LINE, PCIPLAN_YES, "yes\n"},
    {"no", "desk.dump", 0, "desk.probe", 0, {0}, 1, PCIPLAN_LINE, PCIPLAN_NO, "no 52 VgaEnable 00:02.0\n"},
    {"other slots", "old.dump", 0, "desk.probe", 0, {0}, 1, PCIPLAN_LINE, PCIPLAN_NO, "no 30 SlotsDiffer 00:01.0\n"},
    {"two roots", "roots.dump", 0, "roots.probe", 0, {0x00, 0x40}, 2, PCIPLAN_LINE, PCIPLAN_YES, "yes\n"},
    {"roots that fall", "roots.dump", 0, "roots.probe", 0, {0x40, 0x00}, 2, PCIPLAN_LINE, PCIPLAN_REFUSED, "root"},
    {"no roots", "roots.dump", 0, "roots.probe", 0, {0}, 0, PCIPLAN_LINE, PCIPLAN_REFUSED, "root"},
    {"cut dump", "old.dump", 1, "old.probe", 0, {0}, 1, PCIPLAN_LINE, PCIPLAN_REFUSED, "dump: 9 Ended 198"},
    {"cut probe", "old.dump", 0, "old.probe", 2, {0}, 1, PCIPLAN_LINE, PCIPLAN_REFUSED, "probe: 9 Ended 197"},
    {"both cut", "old.dump", 1, "old.probe", 2, {0}, 1, PCIPLAN_LINE, PCIPLAN_REFUSED, "dump: 9 Ended 198"},
    {"just room", "old.dump", 0, "old.probe", 0, {0}, 1, 4, PCIPLAN_YES, "yes\n"},
    {"a byte too short", "old.dump", 0, "old.probe", 0, {0}, 1, 3, PCIPLAN_SHORT, "yes\n"},
    {"a message too long", "old.dump", 1, "old.probe", 0, {0}, 1, 16, PCIPLAN_SHORT, "dump: 9 Ended 198"},
    {"no line", "old.dump", 0, "old.probe", 0, {0}, 1, 0, PCIPLAN_SHORT, "yes\n"},
};

enum { FILLED = 0xa5, UNTOLD = 12345 };

/* Makes a call, and sees to the line and its length whatever the status. The answer is the status. */
static uint8_t made(const struct call *c, struct text dump, struct text probe, size_t refused)
{
    uint8_t line[PCIPLAN_LINE];
    size_t used = UNTOLD;
    memset(line, FILLED, sizeof line);
    growths = 0;
    refuse = refused;
    uint8_t status = pciplan_check(dump.bytes, dump.len - c->dump_cut, probe.bytes,
                                   probe.len - c->probe_cut, c->roots, c->roots_len, line, c->line_len, &used);
    size_t len = strlen(c->line);
    size_t put = status == PCIPLAN_MEMORY || status == PCIPLAN_SHORT ? 0 : len;
    if (put != 0 && memcmp(line, c->line, len) != 0)
        fail("another line", c->name);
    for (size_t i = put; i < sizeof line; i++)
        if (line[i] != FILLED)
            fail("bytes behind the line were changed", c->name);
    if (used != (status == PCIPLAN_MEMORY ? UNTOLD : len))
        fail("another length", c->name);
    return status;
}

/* Makes all calls for verdicts. The answer is how many growths were refused. */
static size_t verdicts(void)
{
    size_t refusals = 0;
    for (size_t i = 0; i < COUNT(calls); i++) {
        const struct call *c = &calls[i];
        struct text dump = text_of(c->dump);
        struct text probe = text_of(c->probe);
        if (made(c, dump, probe, 0) != c->status)
            fail("another status", c->name);
        size_t all = growths;
        for (size_t n = 1; n <= all; n++) {
            if (made(c, dump, probe, n) != PCIPLAN_MEMORY)
                fail("a refused growth isn't told", c->name);
            refusals++;
        }
        free(dump.bytes);
        free(probe.bytes);
    }
    return refusals;
}

/* ---- plans of a board that was never set up */

#define BARE "../crates/pciplan/data/bare.txt"
#define BARE_PROBE "../crates/pciplan/data/bare_probe.txt"

static const struct pciplan_pools pools = {0x1000, 0xffff, 0xe0000000, 0xe02fffff, 0x100000000, 0x1ffffffff};
static const struct pciplan_pools small = {0x1000, 0xffff, 0xe0000000, 0xe01fffff, 0x100000000, 0x1ffffffff};
static const struct pciplan_pools bad = {0x1000, 0x0fff, 0xe0000000, 0xe02fffff, 0x100000000, 0x1ffffffff};

static const struct pciplan_write writes[] = {
    {0x00, 0x01, 0, 0x20, 4, 0xe010e000}, {0x00, 0x02, 0, 0x10, 4, 0xe0200000},
    {0x01, 0x00, 0, 0x10, 4, 0xe0000000}, {0x01, 0x00, 0, 0x14, 4, 0xe0100000},
    {0x00, 0x01, 0, 0x04, 2, 0x0002},     {0x00, 0x02, 0, 0x04, 2, 0x0002},
    {0x01, 0x00, 0, 0x04, 2, 0x0002},
};

enum { ROOM = 16, ALL = COUNT(writes) };

struct plan_call {
    const char *name;
    const struct pciplan_pools *pools;
    size_t dump_cut;
    size_t roots_len;
    size_t writes_len;
    size_t line_len;
    uint8_t status;
    size_t writes_used;
    const char *line;
};

static const struct plan_call plan_calls[] = {
    {"plan", &pools, 0, 1, ROOM, PCIPLAN_LINE, PCIPLAN_YES, ALL, ""},
    {"plan with just room", &pools, 0, 1, ALL, 0, PCIPLAN_YES, ALL, ""},
    {"too few writes", &pools, 0, 1, ALL - 1, PCIPLAN_LINE, PCIPLAN_SHORT, ALL, ""},
    {"no room", &small, 0, 1, ROOM, PCIPLAN_LINE, PCIPLAN_NO, 0, "no 72 NoRoom mem\n"},
    {"bad pools", &bad, 0, 1, ROOM, PCIPLAN_LINE, PCIPLAN_NO, 0, "no 70 BadPools\n"},
    {"plan without roots", &pools, 0, 0, ROOM, PCIPLAN_LINE, PCIPLAN_REFUSED, 0, "root"},
    {"plan of a cut dump", &pools, 1, 1, ROOM, PCIPLAN_LINE, PCIPLAN_REFUSED, 0, "dump: 9 Ended 54"},
    {"line too short", &small, 0, 1, ROOM, 16, PCIPLAN_SHORT, 0, "no 72 NoRoom mem\n"},
};

static int is_write(struct pciplan_write w, struct pciplan_write v)
{
    return w.bus == v.bus && w.device == v.device && w.function == v.function && w.offset == v.offset &&
           w.width == v.width && w.value == v.value;
}

/* What a call leaves in memory of the caller's. */
struct left {
    struct pciplan_write put[ROOM];
    uint8_t line[PCIPLAN_LINE];
    size_t writes_used, safe_from, line_used;
};

static const struct pciplan_write none = {FILLED, FILLED, FILLED, FILLED, FILLED, FILLED};

/* What stands there before a call. */
static struct left nothing_left(void)
{
    struct left left = {.writes_used = UNTOLD, .safe_from = UNTOLD, .line_used = UNTOLD};
    for (size_t i = 0; i < ROOM; i++)
        left.put[i] = none;
    memset(left.line, FILLED, sizeof left.line);
    return left;
}

/* Sees that a call with this status left just these writes and this line, or what it needs of them. */
static void is_left(const char *name, const struct left *left, uint8_t status, const struct pciplan_write *made,
                    size_t count, size_t safe_from, const char *line)
{
    int held_back = status == PCIPLAN_MEMORY || status == PCIPLAN_SHORT;
    int told = status != PCIPLAN_MEMORY;
    size_t len = strlen(line);
    for (size_t i = 0; i < ROOM; i++)
        if (!is_write(left->put[i], status == PCIPLAN_YES && i < count ? made[i] : none))
            fail("another write", name);
    for (size_t i = 0; i < sizeof left->line; i++)
        if (left->line[i] != (!held_back && i < len ? (uint8_t)line[i] : FILLED))
            fail("another line", name);
    if (left->writes_used != (told ? count : UNTOLD) || left->line_used != (told ? len : UNTOLD) ||
        left->safe_from != (status == PCIPLAN_YES ? safe_from : UNTOLD))
        fail("another number", name);
}

/* Makes a call, and sees to all that it leaves whatever the status. The answer is the status. */
static uint8_t planned(const struct plan_call *c, struct text dump, struct text probe, size_t refused)
{
    static const uint8_t host = 0;
    struct left left = nothing_left();
    growths = 0;
    refuse = refused;
    uint8_t status = pciplan_plan(dump.bytes, dump.len - c->dump_cut, probe.bytes, probe.len, &host, c->roots_len,
                                  c->pools, left.put, c->writes_len, &left.writes_used, &left.safe_from, left.line,
                                  c->line_len, &left.line_used);
    is_left(c->name, &left, status, writes, c->writes_used, 0, c->line);
    return status;
}

/* Makes all calls for plans. The answer is how many growths were refused. */
static size_t plans(void)
{
    struct text dump = text_of(BARE);
    struct text probe = text_of(BARE_PROBE);
    size_t refusals = 0;
    for (size_t i = 0; i < COUNT(plan_calls); i++) {
        const struct plan_call *c = &plan_calls[i];
        if (planned(c, dump, probe, 0) != c->status)
            fail("another status", c->name);
        size_t all = growths;
        for (size_t n = 1; n <= all; n++) {
            if (planned(c, dump, probe, n) != PCIPLAN_MEMORY)
                fail("a refused growth isn't told", c->name);
            refusals++;
        }
    }
    free(dump.bytes);
    free(probe.bytes);
    return refusals;
}

/* ---- settlings of a board that runs, where a card was plugged in */

#define PLUGGED "../crates/pciplan/data/plugged.txt"
#define PLUGGED_PROBE "../crates/pciplan/data/plugged_probe.txt"

/* A device on the root bus, which stands behind both windows. */
#define DEVICE "10: 00 00 20 e0"

static const struct pciplan_write card[] = {
    {0x02, 0x00, 0, 0x10, 4, 0xe0100000}, {0x02, 0x00, 0, 0x04, 2, 0x0002},
};

/* The device stands on a window, and goes. */
static const struct pciplan_write moved[] = {
    {0x00, 0x1f, 0, 0x04, 2, 0x0004},     {0x00, 0x1f, 0, 0x10, 4, 0xe0200000},
    {0x02, 0x00, 0, 0x10, 4, 0xe0100000}, {0x00, 0x1f, 0, 0x04, 2, 0x0006},
    {0x02, 0x00, 0, 0x04, 2, 0x0002},
};

#define MEM "e0000000-e02fffff"

struct settle_call {
    const char *name;
    const char *mem, *fixed;
    const char *device; /* the register of the device, where it isn't as in the text */
    size_t roots_len;
    size_t writes_len;
    size_t line_len;
    uint8_t status;
    const struct pciplan_write *writes;
    size_t writes_used, safe_from;
    const char *line;
};

static const struct settle_call settle_calls[] = {
    {"card", MEM, "", NULL, 1, ROOM, PCIPLAN_LINE, PCIPLAN_YES, card, COUNT(card), 0, ""},
    {"card, all else fixed", MEM, "00:01.0,00:02.0,00:1f.0,01:00.0", NULL, 1, COUNT(card), 0, PCIPLAN_YES, card,
     COUNT(card), 0, ""},
    {"card and device", MEM, "", "10: 00 00 00 e0", 1, ROOM, PCIPLAN_LINE, PCIPLAN_YES, moved, COUNT(moved), 1, ""},
    {"too few writes for the card", MEM, "", NULL, 1, 1, PCIPLAN_LINE, PCIPLAN_SHORT, card, COUNT(card), 0, ""},
    {"card fixed", MEM, "02:00.0", NULL, 1, ROOM, PCIPLAN_LINE, PCIPLAN_NO, NULL, 0, 0, "no 74 Fixed 02:00.0 10\n"},
    {"no ranges", "none", "", NULL, 1, ROOM, PCIPLAN_LINE, PCIPLAN_NO, NULL, 0, 0,
     "no 72 NoRoom mem 00:01.0 20 100000 100000\n"},
    {"no list", "e0000000-", "02", NULL, 1, ROOM, PCIPLAN_LINE, PCIPLAN_REFUSED, NULL, 0, 0, "pool mem"},
    {"no slots", MEM, "02:00.0,", NULL, 1, ROOM, PCIPLAN_LINE, PCIPLAN_REFUSED, NULL, 0, 0, "fixed"},
    {"settled without roots", "", "", NULL, 0, ROOM, PCIPLAN_LINE, PCIPLAN_REFUSED, NULL, 0, 0, "root"},
    {"line too short for a fault", MEM, "02:00.0", NULL, 1, ROOM, 22, PCIPLAN_SHORT, NULL, 0, 0,
     "no 74 Fixed 02:00.0 10\n"},
};

struct spare_call {
    struct settle_call call;
    const char *spare, *slots;
    size_t denied_len;
    const struct pciplan_denied *denied;
    size_t denied_used;
};

/* The window of the card's bridge, which can't end later, as the device stands behind it. */
static const struct pciplan_denied blocked[] = {{0x00, 0x02, 0, 0x20}};

#define CARD MEM, "", NULL, 1, ROOM, PCIPLAN_LINE, PCIPLAN_YES, card, COUNT(card), 0, ""
#define NO_WORD MEM, "", NULL, 1, ROOM, PCIPLAN_LINE, PCIPLAN_REFUSED, NULL, 0, 0
#define SPARE "mem:100000"

static const struct spare_call spare_calls[] = {
    {{"no spare", CARD}, SPARE, "00:02.0", ROOM, blocked, COUNT(blocked)},
    {{"no slot", CARD}, SPARE, "", 0, NULL, 0},
    {{"no bridge", CARD}, SPARE, "00:1f.0,00:1f.1", 0, NULL, 0},
    {{"no room for what is denied", MEM, "", NULL, 1, 0, PCIPLAN_LINE, PCIPLAN_SHORT, NULL, 0, 0, ""}, SPARE, "00:02.0", 0,
     NULL, COUNT(blocked)},
    {{"no spares", NO_WORD, "spare"}, SPARE ",", "00", 0, NULL, 0},
    {{"no list of slots", NO_WORD, "slots"}, SPARE, "00:02.0,", 0, NULL, 0},
    {{"slots without spares", NO_WORD, "slots"}, "", "00:02.0", 0, NULL, 0},
};

/* A call with a text of told ranges. */
struct told_call {
    struct settle_call call;
    const char *also;
    uint8_t anew;
};

/* The card keeps off the beginning of its window. */
static const struct pciplan_write off[] = {
    {0x02, 0x00, 0, 0x10, 4, 0xe0104000}, {0x02, 0x00, 0, 0x04, 2, 0x0002},
};

/* The device and the card, which are placed anew, keep off it. */
static const struct pciplan_write off_anew[] = {
    {0x00, 0x1f, 0, 0x04, 2, 0x0004},     {0x00, 0x02, 0, 0x20, 4, 0x0000fff0}, {0x00, 0x02, 0, 0x20, 4, 0xe020e020},
    {0x00, 0x1f, 0, 0x10, 4, 0xe0100000}, {0x02, 0x00, 0, 0x10, 4, 0xe0200000}, {0x00, 0x1f, 0, 0x04, 2, 0x0006},
    {0x02, 0x00, 0, 0x04, 2, 0x0002},
};

#define SETTLED MEM, "", NULL, 1, ROOM, PCIPLAN_LINE
#define BEHIND " mem 00000000e0100000-00000000e0103fff "
#define OUTSIDE " mem 00000000e0200000-00000000e0203fff "

static const struct told_call told_calls[] = {
    {{"card off a told range", SETTLED, PCIPLAN_YES, off, COUNT(off), 0, ""}, "02:01.0" BEHIND "held\n", 0},
    {{"card behind what is told", SETTLED, PCIPLAN_YES, card, COUNT(card), 0, ""},
     "01:00.0 mem 00000000e0004000-00000000e000bfff always vf0\n", 0},
    {{"told range that isn't reached", SETTLED, PCIPLAN_NO, NULL, 0, 0, "no 75 Told 01:00.0 +2\n"},
     "00:1f.0 mem 00000000e0280000-00000000e0283fff always\n01:00.0" OUTSIDE "always\n", 0},
    {{"told slot that isn't listed", SETTLED, PCIPLAN_NO, NULL, 0, 0, "no 34 NotListed 03:00.0\n"},
     "03:00.0" OUTSIDE "command\n", 0},
    {{"told bus to which nothing leads", SETTLED, PCIPLAN_NO, NULL, 0, 0, "no 58 Orphan 03:00.0\n"},
     "03:00.0" OUTSIDE "held\n", 0},
    {{"bad line of a told range", SETTLED, PCIPLAN_REFUSED, NULL, 0, 0, "also: 5 BadLine 1"}, "02:01.0 mem e0100000\n", 0},
    {{"cut told range", SETTLED, PCIPLAN_REFUSED, NULL, 0, 0, "also: 9 Ended 1"}, "02:01.0" BEHIND, 0},
    {{"line too short for a told range", MEM, "", NULL, 1, ROOM, 21, PCIPLAN_SHORT, NULL, 0, 0, "no 75 Told 01:00.0 +1\n"},
     "01:00.0" OUTSIDE "always\n", 0},
    {{"all anew off a held range", SETTLED, PCIPLAN_YES, off_anew, COUNT(off_anew), 0, ""}, "02:01.0" BEHIND "held\n", 1},
    {{"all anew but the window over a told range", SETTLED, PCIPLAN_YES, off, COUNT(off), 0, ""},
     "02:00.0" BEHIND "always vf0\n", 1},
    {{"told range that isn't reached, all anew", SETTLED, PCIPLAN_NO, NULL, 0, 0, "no 75 Told 01:00.0 +1\n"},
     "01:00.0" OUTSIDE "always\n", 1},
};

static struct pciplan_text word(const char *text)
{
    struct pciplan_text t = {(const uint8_t *)text, strlen(text)};
    return t;
}

/* What stands in denied before a call. */
static const struct pciplan_denied unfilled = {FILLED, FILLED, FILLED, FILLED};

static int is_denied(struct pciplan_denied one, struct pciplan_denied other)
{
    return one.bus == other.bus && one.device == other.device && one.function == other.function &&
           one.offset == other.offset;
}

/* Sees that a call with this status left just these windows, or what it needs of them. */
static void are_denied(const struct spare_call *c, uint8_t status, const struct pciplan_denied *put, size_t used)
{
    for (size_t i = 0; i < ROOM; i++)
        if (!is_denied(put[i], status == PCIPLAN_YES && i < c->denied_used ? c->denied[i] : unfilled))
            fail("another window", c->call.name);
    if (used != (status == PCIPLAN_MEMORY ? UNTOLD : c->denied_used))
        fail("another number of windows", c->call.name);
}

/* Makes a call, and sees to all that it leaves whatever the status. The answer is the status. */
static uint8_t settled(const struct spare_call *s, const char *also, uint8_t anew, struct text dump, struct text probe,
                       size_t refused)
{
    static const uint8_t host = 0;
    const struct settle_call *c = &s->call;
    struct pciplan_settle_words words = {word("none"), word(c->mem), word("none"), word(c->fixed), word(s->spare),
                                         word(s->slots), word(also), anew};
    struct left left = nothing_left();
    struct pciplan_denied denied[ROOM];
    size_t denied_used = UNTOLD;
    for (size_t i = 0; i < ROOM; i++)
        denied[i] = unfilled;
    growths = 0;
    refuse = refused;
    uint8_t status = pciplan_settle(dump.bytes, dump.len, probe.bytes, probe.len, &host, c->roots_len, &words, left.put,
                                    c->writes_len, &left.writes_used, &left.safe_from, denied, s->denied_len,
                                    &denied_used, left.line, c->line_len, &left.line_used);
    is_left(c->name, &left, status, c->writes, c->writes_used, c->safe_from, c->line);
    are_denied(s, status, denied, denied_used);
    return status;
}

/* Makes a call with each growth refused in turn, too. The answer is how many were. */
static size_t settled_or_refused(const struct spare_call *s, const char *also, uint8_t anew, struct text dump,
                                 struct text probe)
{
    const struct settle_call *c = &s->call;
    uint8_t *device = at_text(dump, DEVICE);
    if (c->device != NULL)
        memcpy(device, c->device, strlen(c->device));
    if (settled(s, also, anew, dump, probe, 0) != c->status)
        fail("another status", c->name);
    size_t all = growths;
    for (size_t n = 1; n <= all; n++)
        if (settled(s, also, anew, dump, probe, n) != PCIPLAN_MEMORY)
            fail("a refused growth isn't told", c->name);
    memcpy(device, DEVICE, strlen(DEVICE));
    return all;
}

/* Makes all calls for settlings. The answer is how many growths were refused. */
static size_t settlings(void)
{
    struct text dump = text_of(PLUGGED);
    struct text probe = text_of(PLUGGED_PROBE);
    size_t refusals = 0;
    for (size_t i = 0; i < COUNT(settle_calls); i++) {
        struct spare_call plain = {settle_calls[i], "", "", 0, NULL, 0};
        refusals += settled_or_refused(&plain, "", 0, dump, probe);
    }
    for (size_t i = 0; i < COUNT(spare_calls); i++)
        refusals += settled_or_refused(&spare_calls[i], "", 0, dump, probe);
    for (size_t i = 0; i < COUNT(told_calls); i++) {
        struct spare_call plain = {told_calls[i].call, "", "", 0, NULL, 0};
        refusals += settled_or_refused(&plain, told_calls[i].also, told_calls[i].anew, dump, probe);
    }
    free(dump.bytes);
    free(probe.bytes);
    return refusals;
}

int main(void)
{
    size_t refusals = verdicts() + plans() + settlings();
    printf("%zu calls answered as they should be, %zu growths refused in turn\n",
           COUNT(calls) + COUNT(plan_calls) + COUNT(settle_calls) + COUNT(spare_calls) + COUNT(told_calls), refusals);
    return 0;
}
