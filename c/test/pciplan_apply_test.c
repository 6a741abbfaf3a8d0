/* Puts a plan onto functions in memory: a bridge with a device behind it, and a device beside it, from all registers 0. It
   goes through; then each register that is compared shows another value, each write in turn doesn't stay, and a function
   goes before each access to it. */
#include <stdio.h>
#include <stdlib.h>
#include <string.h>

#include "pciplan_apply.h"
#include "pciplan_capture.h"

enum { FUNCTIONS = 3, REGISTERS = 64, WRITES = 16, TEXT = FUNCTIONS * PCIPLAN_CAPTURED };

struct function {
    uint8_t bus, device, gone;
    uint8_t image[256], writable[256];
};

static struct function functions[FUNCTIONS];
static unsigned accesses, last_access; /* those but of Vendor ID, and at which one the last function goes */
static int stuck = -1;                 /* the write that doesn't stay */
static int writes_made;

static uint8_t text_of[2][TEXT];
static size_t used[2];
static int which;

static void stop(const char *why)
{
    fprintf(stderr, "%s\n", why);
    exit(1);
}

static struct function *at(uint8_t bus, uint8_t device, uint8_t number)
{
    for (int i = 0; i < FUNCTIONS; i++)
        if (functions[i].bus == bus && functions[i].device == device && number == 0 && !functions[i].gone)
            return &functions[i];
    return NULL;
}

uint32_t pciplan_config_read(uint8_t bus, uint8_t device, uint8_t number, uint8_t offset, uint8_t width)
{
    const struct function *f;
    uint32_t value = 0;

    if (offset == 0 && width == 2 && accesses++ == last_access)
        functions[FUNCTIONS - 1].gone = 1;
    f = at(bus, device, number);
    for (unsigned i = 0; i < width; i++)
        value |= (uint32_t)(f != NULL ? f->image[offset + i] : 0xff) << 8 * i;
    return value;
}

void pciplan_config_write(uint8_t bus, uint8_t device, uint8_t number, uint8_t offset, uint8_t width, uint32_t value)
{
    struct function *f = at(bus, device, number);

    if (f == NULL)
        stop("a write that nothing answers");
    if (writes_made++ == stuck)
        return;
    for (unsigned i = offset; i < offset + (unsigned)width; i++, value >>= 8)
        f->image[i] = (uint8_t)((value & f->writable[i]) | (f->image[i] & ~f->writable[i]));
}

void pciplan_put(char character)
{
    if (used[which] == TEXT)
        stop("the text is too long");
    text_of[which][used[which]++] = (uint8_t)character;
}

static void let_write(struct function *f, unsigned offset, unsigned width, uint32_t mask)
{
    for (unsigned i = 0; i < width; i++)
        f->writable[offset + i] = (uint8_t)(mask >> 8 * i);
}

static void function_at(struct function *f, uint8_t bus, uint8_t device, uint32_t read_back)
{
    memset(f, 0, sizeof *f);
    f->bus = bus;
    f->device = device;
    f->image[0x00] = 0x34;
    f->image[0x01] = 0x12;
    let_write(f, 0x04, 2, 0x0007);
    let_write(f, 0x10, 4, read_back);
}

static void make(void)
{
    accesses = 0;
    last_access = ~0u;
    stuck = -1;
    writes_made = 0;
    function_at(&functions[0], 0, 1, 0);
    functions[0].image[0x0e] = 1;
    functions[0].image[0x19] = functions[0].image[0x1a] = 1;
    let_write(&functions[0], 0x20, 4, 0xfff0fff0);
    function_at(&functions[1], 0, 2, 0xfff00000);
    function_at(&functions[2], 1, 0, 0xfffff000);
}

static void is(struct pciplan_applied got, uint8_t status, const struct pciplan_write *at, size_t made)
{
    struct pciplan_write none = {0};

    if (at == NULL)
        at = &none;
    if (got.status != status || got.bus != at->bus || got.device != at->device || got.function != at->function ||
        got.offset != at->offset || got.made != made || (size_t)writes_made != made) {
        fprintf(stderr, "%u at %02x:%02x.%u %02x with %zu writes, made %d\n", got.status, got.bus, got.device,
                got.function, got.offset, got.made, writes_made);
        stop("an answer that isn't the one that is due");
    }
}

static struct pciplan_write registers[REGISTERS], writes[WRITES];
static size_t compared, of_writes;

static void plan(void)
{
    static const uint8_t roots[] = {0};
    const struct pciplan_pools pools = {0x1000, 0xffff, 0xe0000000, 0xe02fffff, 0x100000000, 0x1ffffffff};
    size_t safe_from, length;
    uint8_t line[PCIPLAN_LINE];

    make();
    which = 0;
    pciplan_capture_dump(0, 1);
    which = 1;
    pciplan_capture_probe(0, 1);
    if (pciplan_plan(text_of[0], used[0], text_of[1], used[1], roots, 1, &pools, writes, WRITES, &of_writes, &safe_from,
                     line, sizeof line, &length) != PCIPLAN_YES)
        stop("there is no plan");
}

static struct pciplan_applied applied(void)
{
    return pciplan_apply(text_of[0], used[0], registers, REGISTERS, writes, of_writes);
}

/* What is compared is 10 registers of a bridge and 8 of each device. */
static void start(void)
{
    if (pciplan_start(text_of[0], used[0], registers, 25, &compared) != PCIPLAN_SHORT || compared != 26)
        stop("26 registers have room in 25");
    if (pciplan_start(text_of[0], 20, registers, REGISTERS, &compared) != PCIPLAN_REFUSED || compared != 0)
        stop("a beginning of the dump's text isn't refused");
    if (pciplan_start(text_of[0], used[0], registers, REGISTERS, &compared) != PCIPLAN_YES || compared != 26)
        stop("there aren't 26 registers");
    if (registers[0].offset != 0x04 || registers[0].width != 2 || registers[9].offset != 0x38 || registers[10].device != 2)
        stop("the registers aren't in their order");
}

static void goes_through(void)
{
    make();
    is(applied(), PCIPLAN_YES, NULL, of_writes);
    if (accesses != compared + 2 * of_writes)
        stop("an access too many");
    for (size_t i = 0; i < of_writes; i++)
        if (pciplan_config_read(writes[i].bus, writes[i].device, 0, writes[i].offset, writes[i].width) != writes[i].value)
            stop("a write isn't there");
}

static void stops_at_each(void)
{
    make();
    is(pciplan_apply(text_of[0], used[0], registers, 25, writes, of_writes), PCIPLAN_SHORT, NULL, 0);
    for (size_t i = 0; i < compared; i++) {
        struct pciplan_write r = registers[i];
        make();
        at(r.bus, r.device, r.function)->image[r.offset] ^= 1;
        is(applied(), PCIPLAN_FAULT_CHANGED, &r, 0);
    }
    for (size_t i = 0; i < of_writes; i++) {
        make();
        stuck = (int)i;
        is(applied(), PCIPLAN_FAULT_STUCK, &writes[i], i + 1);
    }
}

/* The function on bus 1 goes right before each access to it. How many there are. */
static size_t goes_missing(void)
{
    struct pciplan_access access;
    size_t tried = 0;

    for (size_t n = 0; n < compared + 2 * of_writes; n++) {
        make();
        last_access = (unsigned)n;
        if (!pciplan_step(registers, compared, writes, of_writes, n, &access) || access.at.bus == 0)
            continue;
        is(applied(), PCIPLAN_FAULT_PORT, &access.at, access.done);
        tried++;
    }
    return tried;
}

int main(void)
{
    size_t missing;

    plan();
    start();
    goes_through();
    stops_at_each();
    missing = goes_missing();
    printf("a plan of %zu writes: put in %zu accesses; stopped by each of %zu registers and writes, and %zu times by a "
           "function that goes\n", of_writes, compared + 2 * of_writes, compared + of_writes, missing);
    return 0;
}
