/* Captures a machine that is made of a dump and its probe, and compares the texts: pciplan_capture_test DUMP PROBE. Then it
   wires Command bit 1 of each function in turn, and finds that this one isn't sized. */
#include <stdio.h>
#include <stdlib.h>
#include <string.h>

#include "pciplan_capture.h"

enum { FUNCTIONS = 256 * 256, TEXT = 1 << 22 };

struct space {
    int is_there;
    uint8_t wired; /* bits of Command that stay set */
    uint8_t now[256], before[256], probe[256];
};

static struct space spaces[FUNCTIONS];
static char wanted[TEXT], got[TEXT];
static size_t got_used;

static void stop(const char *why)
{
    fprintf(stderr, "%s\n", why);
    exit(1);
}

static struct space *space_at(uint8_t bus, uint8_t device, uint8_t function)
{
    return &spaces[bus * 256 + device * 8 + function];
}

/* Bits of a register that its encoding fixes: of a BAR, where `offset` is its first byte, and of a window's base and limit. */
static uint8_t fixed_bits(const struct space *s, unsigned offset)
{
    int is_bridge = s->before[0x0e] % 0x80 == 1;
    unsigned end_of_bars = is_bridge ? 0x18 : 0x28;

    for (unsigned bar = 0x10; bar < end_of_bars; bar += 4) {
        if (bar == offset)
            return s->before[bar] & 1 ? 0x03 : 0x0f;
        if (s->before[bar] % 8 == 4)
            bar += 4;
    }
    if (is_bridge && (offset == 0x1c || offset == 0x1d || (offset >= 0x20 && offset < 0x28 && offset % 2 == 0)))
        return 0x0f;
    return 0;
}

uint32_t pciplan_config_read(uint8_t bus, uint8_t device, uint8_t function, uint8_t offset, uint8_t width)
{
    const struct space *s = space_at(bus, device, function);
    uint32_t value = 0;

    for (unsigned i = 0; i < width; i++)
        value |= (uint32_t)(s->is_there ? s->now[offset + i] : 0xff) << 8 * i;
    return value;
}

void pciplan_config_write(uint8_t bus, uint8_t device, uint8_t function, uint8_t offset, uint8_t width, uint32_t value)
{
    struct space *s = space_at(bus, device, function);

    if (offset != 0x04 && (s->now[0x04] & 3) != 0)
        stop("an address register is written while the function decodes");
    for (unsigned i = 0; i < width; i++) {
        unsigned at = offset + i;
        uint8_t writable = at < 0x08 ? 0xff : s->probe[at] & ~fixed_bits(s, at);
        s->now[at] = (uint8_t)((value >> 8 * i & writable) | (s->now[at] & ~writable) | (at == 0x04 ? s->wired : 0));
    }
}

void pciplan_put(char character)
{
    if (got_used + 1 < TEXT)
        got[got_used++] = character;
}

/* Reads a text into `wanted`, and its blocks into the dump's or the probe's bytes of each function. */
static void read_text(const char *path, int is_probe)
{
    FILE *file = fopen(path, "rb");
    struct space *s = NULL;
    char line[300];

    if (file == NULL)
        stop(path);
    memset(wanted, 0, TEXT);
    if (fread(wanted, 1, TEXT - 1, file) == TEXT - 1)
        stop("the text is too long");
    rewind(file);
    while (fgets(line, sizeof line, file) != NULL) {
        unsigned bus, device, function, offset;
        if (sscanf(line, "%2x:%2x.%1u", &bus, &device, &function) == 3) {
            s = space_at((uint8_t)bus, (uint8_t)device, (uint8_t)function);
            s->is_there = 1;
        } else if (s != NULL && sscanf(line, "%2x:", &offset) == 1) {
            for (unsigned i = 0; i < 16; i++)
                (is_probe ? s->probe : s->now)[offset + i] = (uint8_t)strtoul(line + 4 + 3 * i, NULL, 16);
        }
    }
    fclose(file);
}

static void compare(const char *path, struct pciplan_unsized (*capture)(void))
{
    got_used = 0;
    memset(got, 0, TEXT);
    if (capture().count != 0 || strcmp(got, wanted) != 0)
        stop(path);
}

static struct pciplan_unsized dump(void)
{
    struct pciplan_unsized none = {0, 0, 0, 0};
    pciplan_capture_dump(0, 255);
    return none;
}

static struct pciplan_unsized probe(void)
{
    return pciplan_capture_probe(0, 255);
}

static void is_as_it_was(void)
{
    for (unsigned i = 0; i < FUNCTIONS; i++)
        if (memcmp(spaces[i].before, spaces[i].now, 256) != 0)
            stop("a register isn't as it was");
}

/* Where a function's decoding stays on, none of its address registers is written, and it is named. */
static void wire(unsigned number)
{
    struct space *s = &spaces[number];
    struct pciplan_unsized left;
    uint8_t command = s->now[0x04];

    s->wired = 2;
    s->now[0x04] |= s->wired;
    left = pciplan_capture_probe((uint8_t)(number / 256), (uint8_t)(number / 256));
    if (left.count != 1 || left.bus * 256u + left.device * 8u + left.function != number)
        stop("a function that goes on decoding isn't named");
    s->wired = 0;
    s->now[0x04] = command;
}

int main(int count, char **words)
{
    if (count != 3)
        stop("usage: pciplan_capture_test DUMP PROBE");
    read_text(words[2], 1);
    read_text(words[1], 0);
    for (unsigned i = 0; i < FUNCTIONS; i++)
        memcpy(spaces[i].before, spaces[i].now, 256);
    compare(words[1], dump);
    read_text(words[2], 1);
    compare(words[2], probe);
    is_as_it_was();
    for (unsigned i = 0; i < FUNCTIONS; i++)
        if (spaces[i].is_there)
            wire(i);
    is_as_it_was();
    puts("captured as it is");
    return 0;
}
