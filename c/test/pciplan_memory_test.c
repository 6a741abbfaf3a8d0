/* Sees that a check of 512 functions and plans of 128 fit the array of pciplan_fixed_memory.c, and measures how much of it
   they use. Linked with -Wl,--wrap=rattle_alloc,--wrap=rattle_realloc; built and run by c/test.sh. With a folder as its
   argument it makes no call, and writes the texts there. */
#include <stdio.h>
#include <stdlib.h>
#include <string.h>

#include "pciplan.h"

enum { CHECKED = 512, PLANNED = 128, BLOCK = 841, TEXT = CHECKED * BLOCK, WRITES = PLANNED * 11 };
enum { BEHIND = 15, PER_DEVICE = 8, IMAGE = 256 };

static void stop(const char *why, const char *which)
{
    printf("FAILED: %s: %s\n", why, which);
    exit(1);
}

/* ---- how far the array is used */

/* What stands before a block in the array, and what a block's length is a multiple of. */
enum { STEP = 16 };

struct pciplan_tried __real_rattle_alloc(size_t n, size_t align);
struct pciplan_tried __real_rattle_realloc(void *at, size_t kept, size_t n, size_t align);

static const uint8_t *front; /* of the array: the first block that is asked for stands there */
static size_t used;          /* the end of the last block of the array that was had, from its front on */

static struct pciplan_tried noted(struct pciplan_tried t, size_t n)
{
    if (!t.ok)
        return t;
    if (front == NULL)
        front = (const uint8_t *)t.at - STEP;
    size_t steps = n / STEP + (n % STEP != 0 || n == 0);
    size_t end = (size_t)((const uint8_t *)t.at - front) + steps * STEP;
    if (used < end)
        used = end;
    return t;
}

struct pciplan_tried __wrap_rattle_alloc(size_t n, size_t align)
{
    return noted(__real_rattle_alloc(n, align), n);
}

struct pciplan_tried __wrap_rattle_realloc(void *at, size_t kept, size_t n, size_t align)
{
    return noted(__real_rattle_realloc(at, kept, n, align), n);
}

/* ---- texts */

struct function {
    uint8_t image[IMAGE], sizes[IMAGE]; /* what its registers show, and what they read back after ones */
};

static char dump[TEXT], probe[TEXT];
static size_t length; /* of either */

static void put(uint8_t *bytes, unsigned offset, unsigned width, uint32_t value)
{
    for (unsigned i = 0; i < width; i++)
        bytes[offset + i] = (uint8_t)(value >> 8 * i);
}

static void add_block(char *at, unsigned bus, unsigned place, const uint8_t *bytes)
{
    at += sprintf(at, "%02x:%02x.%x\n", bus, place / 8, place % 8);
    for (unsigned row = 0; row < IMAGE; row += 16) {
        at += sprintf(at, "%02x:", row);
        for (unsigned i = row; i < row + 16; i++)
            at += sprintf(at, " %02x", bytes[i]);
        *at++ = '\n';
    }
    *at = '\n';
}

static void add(unsigned bus, unsigned place, const struct function *f)
{
    if (length + BLOCK > TEXT)
        stop("no room", "texts");
    add_block(dump + length, bus, place, f->image);
    add_block(probe + length, bus, place, f->sizes);
    length += BLOCK;
}

/* ---- functions */

enum { COMMAND = 0x04, IO_ON = 0x01, MEMORY_ON = 0x02, LAYOUT = 0x0e, MANY = 0x80 };
enum { ROM = 0x30, BRIDGE_ROM = 0x38, ROM_ON = 0x01 };

/* A function whose registers show 0, but for what says what it is. */
static struct function blank(uint8_t layout)
{
    struct function f;
    memset(&f, 0, sizeof f);
    put(f.image, 0x00, 4, 0x56781234);
    f.image[LAYOUT] = layout;
    return f;
}

/* A bridge with windows of all three kinds, which begin at 0 and are of the least width. */
static struct function bridge(unsigned primary, unsigned secondary, unsigned subordinate)
{
    struct function f = blank(1);
    put(f.image, 0x18, 3, primary | secondary << 8 | subordinate << 16);
    put(f.sizes, 0x1c, 2, 0xf0f0);
    put(f.sizes, 0x20, 4, 0xfff0fff0);
    put(f.image, 0x24, 4, 0x00010001);
    put(f.sizes, 0x24, 4, 0xfff1fff1);
    put(f.sizes, 0x28, 4, 0xffffffff);
    put(f.sizes, 0x2c, 4, 0xffffffff);
    return f;
}

/* A function with a memory BAR, from 1 on also one of 64 bits, from 2 on also an I/O BAR, at 3 also a ROM. */
static struct function with_bars(unsigned kind)
{
    struct function f = blank(0);
    put(f.sizes, 0x10, 4, 0xffff0000);
    if (kind >= 1) {
        f.image[0x14] = 0x0c;
        put(f.sizes, 0x14, 4, 0xfff0000c);
        put(f.sizes, 0x18, 4, 0xffffffff);
    }
    if (kind >= 2) {
        f.image[0x1c] = 0x01;
        put(f.sizes, 0x1c, 4, 0xffffffe1);
    }
    if (kind == 3)
        put(f.sizes, ROM, 4, 0xffff0000);
    return f;
}

/* A function with a BAR of each class: 256 ports, and the most of both kinds of memory that the pools have room for. */
static struct function wide(void)
{
    struct function f = blank(0);
    f.image[COMMAND] = IO_ON | MEMORY_ON;
    f.image[0x10] = 0x01;
    put(f.sizes, 0x10, 4, 0xffffff01);
    put(f.sizes, 0x14, 4, 0xc0000000);
    f.image[0x18] = 0x0c;
    put(f.sizes, 0x18, 4, 0x0000000c);
    put(f.sizes, 0x1c, 4, 0xffffff80);
    return f;
}

static uint32_t window_of(unsigned secondary)
{
    return 0x80000000 + secondary * 0x100000;
}

/* ---- boards */

/* Bridges with 15 functions behind each, each with two memory BARs; all is set up and on. */
static void set_up(void)
{
    for (unsigned n = 1; n <= CHECKED / (BEHIND + 1); n++) {
        struct function f = bridge(0, n, n);
        uint32_t page = window_of(n) >> 16;
        f.image[COMMAND] = MEMORY_ON;
        put(f.image, 0x1c, 2, 0x00f0);
        put(f.image, 0x20, 4, page << 16 | page);
        put(f.image, 0x24, 4, 0x0001fff1);
        add(0, (n - 1) * PER_DEVICE, &f);
    }
    for (unsigned n = 1; n <= CHECKED / (BEHIND + 1); n++)
        for (unsigned device = 0; device < BEHIND; device++) {
            struct function f = blank(0);
            f.image[COMMAND] = MEMORY_ON;
            put(f.image, 0x10, 4, window_of(n) + device * 0x10000);
            put(f.sizes, 0x10, 4, 0xffff0000);
            put(f.image, 0x14, 4, window_of(n) + 0xf0000 + device * 0x1000);
            put(f.sizes, 0x14, 4, 0xfffff000);
            add(n, device * PER_DEVICE, &f);
        }
}

/* Bridges with 15 functions behind each: in turn with a memory BAR, also one of 64 bits, also an I/O BAR, also a ROM. */
static void plain(void)
{
    for (unsigned n = 1; n <= PLANNED / (BEHIND + 1); n++) {
        struct function f = bridge(0, n, n);
        add(0, (n - 1) * PER_DEVICE, &f);
    }
    for (unsigned n = 1; n <= PLANNED / (BEHIND + 1); n++)
        for (unsigned device = 0; device < BEHIND; device++) {
            struct function f = with_bars(device % 4);
            add(n, device * PER_DEVICE, &f);
        }
}

/* All functions on one bus, each with six BARs and a ROM that is on. */
static void one_bus(void)
{
    for (unsigned place = 0; place < PLANNED; place++) {
        struct function f = blank(MANY);
        for (unsigned at = 0x10; at < 0x28; at += 4)
            put(f.sizes, at, 4, 0xfffffff0);
        f.image[ROM] = ROM_ON;
        put(f.sizes, ROM, 4, 0xfffff800);
        add(0, place, &f);
    }
}

/* Bridges in a row, one function at its end, and all that gets there through windows of all of them, which are open. */
static void row(void)
{
    for (unsigned n = 1; n < PLANNED; n++) {
        struct function f = bridge(n - 1, n, PLANNED - 1);
        f.image[COMMAND] = IO_ON | MEMORY_ON;
        add(n - 1, 0, &f);
    }
    struct function f = wide();
    add(PLANNED - 1, 0, &f);
}

/* Bridges on one bus with nothing behind them, each with two BARs, a ROM that is on and windows that are open far away,
   so that a plan writes to each of their registers. */
static void changed(void)
{
    for (unsigned place = 0; place < PLANNED; place++) {
        struct function f = bridge(0, place + 1, place + 1);
        f.image[LAYOUT] |= MANY;
        f.image[COMMAND] = IO_ON | MEMORY_ON;
        put(f.sizes, 0x10, 4, 0xffff0000);
        put(f.sizes, 0x14, 4, 0xffff0000);
        put(f.image, 0x1c, 2, 0x0101);
        put(f.sizes, 0x1c, 2, 0xf1f1);
        put(f.image, 0x28, 4, 1);
        put(f.image, 0x2c, 4, 1);
        put(f.image, 0x30, 4, 0x00010001);
        put(f.sizes, 0x30, 4, 0xffffffff);
        f.image[BRIDGE_ROM] = ROM_ON;
        put(f.sizes, BRIDGE_ROM, 4, 0xfffff800);
        add(0, place, &f);
    }
}

/* ---- calls */

static const uint8_t root[] = {0x00};
static const struct pciplan_pools pools = {0x1000, 0xffff, 0x80000000, 0xfebfffff, 0x100000000, 0xffffffffff};
static struct pciplan_write writes[WRITES];
static uint8_t line[PCIPLAN_LINE];

static uint8_t check(size_t *line_used)
{
    return pciplan_check((const uint8_t *)dump, length, (const uint8_t *)probe, length, root, sizeof root, line, sizeof line,
                         line_used);
}

static uint8_t plan(size_t *line_used)
{
    size_t count, safe_from;
    return pciplan_plan((const uint8_t *)dump, length, (const uint8_t *)probe, length, root, sizeof root, &pools, writes,
                        WRITES, &count, &safe_from, line, sizeof line, line_used);
}

struct board {
    const char *name, *file;
    void (*make)(void);
    uint8_t (*call)(size_t *line_used);
    size_t functions;
};

static const struct board boards[] = {
    {"a check of 512 functions", "check", set_up, check, CHECKED},
    {"a plan of 128", "plain", plain, plan, PLANNED},
    {"a plan of 128 on one bus, each with six BARs and a ROM", "one_bus", one_bus, plan, PLANNED},
    {"a plan of 128 in a row of bridges, all windows open", "row", row, plan, PLANNED},
    {"a plan of 128 bridges on one bus, each of them changed", "changed", changed, plan, PLANNED},
};

enum { BOARDS = sizeof boards / sizeof boards[0] };

/* The bytes of the array that a call uses, which has to answer YES. */
static size_t used_by(const struct board *b)
{
    size_t line_used = 0;

    used = 0;
    uint8_t status = b->call(&line_used);
    if (status == PCIPLAN_MEMORY)
        stop("no memory", b->name);
    if (status != PCIPLAN_YES) {
        printf("%.*s", (int)line_used, (const char *)line);
        stop("another answer than yes", b->name);
    }
    return used;
}

static void write_text(const char *folder, const char *name, const char *ending, const char *text)
{
    char path[4096];
    snprintf(path, sizeof path, "%s/%s.%s", folder, name, ending);
    FILE *file = fopen(path, "wb");
    if (file == NULL || fwrite(text, 1, length, file) != length || fclose(file) != 0)
        stop("not written", path);
}

int main(int count, char **words)
{
    size_t bytes[BOARDS];
    for (size_t i = 0; i < BOARDS; i++) {
        length = 0;
        boards[i].make();
        if (length != boards[i].functions * BLOCK)
            stop("another number of functions", boards[i].name);
        if (count == 2) {
            write_text(words[1], boards[i].file, "dump", dump);
            write_text(words[1], boards[i].file, "probe", probe);
        } else {
            bytes[i] = used_by(&boards[i]);
        }
    }
    for (size_t i = 0; i < BOARDS && count != 2; i++)
        printf("%s used %zu bytes of the array\n", boards[i].name, bytes[i]);
    return 0;
}
