/* Brings up a board in memory by the example, from all registers 0: a bridge with a device behind it, and a device beside
   it. Then a board with two root buses, and boards on which that can't be done. */
#include <stdio.h>
#include <stdlib.h>
#include <string.h>

#include "pciplan.h"
#include "pciplan_board.h"
#include "pciplan_capture.h"

const char *pciplan_bring_up(const uint8_t *roots, size_t roots_len, const struct pciplan_pools *pools);

static struct board board;
static uint8_t writable[NODES][256];
static uint8_t wired; /* bits of the last node's Command that stay set */

static void stop(const char *why)
{
    fprintf(stderr, "%s\n", why);
    exit(1);
}

static struct node *answering(uint8_t bus, uint8_t device, uint8_t function)
{
    int index;

    if (board_answers(&board, bus, device * 8u + function, &index, 1) != 1)
        return NULL;
    return &board.nodes[index];
}

uint32_t pciplan_config_read(uint8_t bus, uint8_t device, uint8_t function, uint8_t offset, uint8_t width)
{
    const struct node *n = answering(bus, device, function);
    uint32_t value = 0;

    for (unsigned i = 0; i < width; i++)
        value |= (uint32_t)(n != NULL ? n->image[offset + i] : 0xff) << 8 * i;
    return value;
}

void pciplan_config_write(uint8_t bus, uint8_t device, uint8_t function, uint8_t offset, uint8_t width, uint32_t value)
{
    struct node *n = answering(bus, device, function);

    if (n == NULL)
        stop("a write that nothing answers");
    for (unsigned at = offset; at < offset + (unsigned)width; at++, value >>= 8) {
        uint8_t mask = writable[n - board.nodes][at];
        n->image[at] = (uint8_t)((value & mask) | (n->image[at] & ~mask));
    }
    if (n - board.nodes == board.count - 1)
        n->image[0x04] |= wired;
}

static void let_write(int index, unsigned offset, unsigned width, uint32_t mask)
{
    for (unsigned i = 0; i < width; i++)
        writable[index][offset + i] = (uint8_t)(mask >> 8 * i);
}

/* A function whose BAR at 10h has this read back. */
static int device_on(int bus, unsigned place, uint32_t read_back)
{
    int index = board_add(&board, bus, place, 0);
    let_write(index, 0x04, 2, 0x0007);
    let_write(index, 0x10, 4, read_back);
    return index;
}

/* A bridge, and a device behind it whose BAR at 10h has this read back. */
static int bridge_on(int bus, unsigned place, uint32_t read_back)
{
    int bridge = board_add(&board, bus, place, 1);
    let_write(bridge, 0x04, 2, 0x0007);
    let_write(bridge, 0x18, 3, 0xffffff);
    let_write(bridge, 0x20, 4, 0xfff0fff0);
    device_on(bridge, 0 * 8, read_back);
    return bridge;
}

/* Without a function: every register reads ones. */
static void make_empty(void)
{
    memset(writable, 0, sizeof writable);
    wired = 0;
    board_empty(&board);
    board_add_root(&board, 0x00);
}

static int make(void)
{
    int bridge;

    make_empty();
    bridge = bridge_on(-2, 1 * 8, 0xfffff000);
    device_on(-2, 2 * 8, 0xfff00000);
    return bridge;
}

/* With a second root bus, 40, and there a bridge with a device behind it. */
static void make_two(void)
{
    make();
    board_add_root(&board, 0x40);
    bridge_on(-3, 1 * 8, 0xffffe000);
}

static uint32_t bar_of(uint8_t bus, uint8_t device)
{
    return pciplan_config_read(bus, device, 0, 0x10, 4);
}

static void says_of(const char *wanted, const uint8_t *roots, size_t roots_len, const struct pciplan_pools *pools)
{
    const char *got = pciplan_bring_up(roots, roots_len, pools);

    if (got == NULL ? wanted != NULL : wanted == NULL || strcmp(got, wanted) != 0)
        stop(got != NULL ? got : "all went well");
}

static void says(const char *wanted, const struct pciplan_pools *pools)
{
    const uint8_t root = 0x00;

    says_of(wanted, &root, 1, pools);
}

int main(void)
{
    const uint8_t two_roots[] = {0x00, 0x40}, turned[] = {0x40, 0x00};
    const char *no_list = "the list of root buses is empty or doesn't rise";
    const struct pciplan_pools pools = {0x1000, 0xffff, 0xe0000000, 0xe02fffff, 0x100000000, 0x1ffffffff};
    const struct pciplan_pools small = {0x1000, 0xffff, 0xe0000000, 0xe00fffff, 0x100000000, 0x1ffffffff};
    int bridge = make();

    says(NULL, &pools);
    if (bar_of(0x01, 0) != 0xe0000000 || bar_of(0x00, 2) != 0xe0100000)
        stop("a device isn't at its place");

    make_two();
    says_of(NULL, two_roots, 2, &pools);
    if (bar_of(0x01, 0) != 0xe0000000 || bar_of(0x00, 2) != 0xe0100000 || bar_of(0x41, 0) != 0xe0200000)
        stop("a device of two roots isn't at its place");

    make_empty();
    says("no function answers: each Vendor ID reads FFFFh", &pools);

    make_two();
    says_of(no_list, turned, 2, &pools);
    says_of(no_list, two_roots, 0, &pools);
    if (pciplan_config_read(0x00, 1, 0, 0x18, 4) != 0)
        stop("a bridge was numbered by no list of roots");

    make();
    says("no 72 NoRoom mem\n", &small);

    bridge = make();
    let_write(bridge, 0x18, 3, 0xff00ff);
    says("a bridge has no bus numbers", &pools);

    make();
    wired = 2;
    board.nodes[board.count - 1].image[0x04] = wired;
    says("a function goes on decoding while it is sized", &pools);
    puts("two bare boards: from no bus numbers to addresses; five that can't be brought up");
    return 0;
}
