#include "pciplan_capture.h"

/* Registers and bits of the standard's header (PCI 3.0, 6.1; Bridge 1.2, 3.2). */
enum { VENDOR_ID = 0x00, COMMAND = 0x04, HEADER_TYPE = 0x0e, NO_VENDOR = 0xffff, DECODE_ENABLES = 0x3, MULTI_FUNCTION = 0x80 };

struct address_register {
    uint8_t offset, width;
    uint32_t ones;
};

/* By layout: the BARs, of a bridge the windows too, and the ROM, whose enable bit isn't set. */
static const struct address_register of_device[] = {
    {0x10, 4, 0xffffffff}, {0x14, 4, 0xffffffff}, {0x18, 4, 0xffffffff}, {0x1c, 4, 0xffffffff},
    {0x20, 4, 0xffffffff}, {0x24, 4, 0xffffffff}, {0x30, 4, 0xfffff800}, {0, 0, 0},
};
static const struct address_register of_bridge[] = {
    {0x10, 4, 0xffffffff}, {0x14, 4, 0xffffffff}, {0x1c, 2, 0xffff},     {0x20, 4, 0xffffffff}, {0x24, 4, 0xffffffff},
    {0x28, 4, 0xffffffff}, {0x2c, 4, 0xffffffff}, {0x30, 4, 0xffffffff}, {0x38, 4, 0xfffff800}, {0, 0, 0},
};
static const struct address_register of_others[] = {{0, 0, 0}};

struct slot {
    uint8_t bus, device, function;
};

static uint32_t read_register(struct slot s, uint8_t offset, uint8_t width)
{
    return pciplan_config_read(s.bus, s.device, s.function, offset, width);
}

static void write_register(struct slot s, uint8_t offset, uint8_t width, uint32_t value)
{
    pciplan_config_write(s.bus, s.device, s.function, offset, width, value);
}

static void put_digit(unsigned number)
{
    pciplan_put("0123456789abcdef"[number % 16]);
}

static void put_byte(unsigned number)
{
    put_digit(number / 16);
    put_digit(number);
}

static void put_block(struct slot s, const uint8_t bytes[256])
{
    put_byte(s.bus);
    pciplan_put(':');
    put_byte(s.device);
    pciplan_put('.');
    put_digit(s.function);
    for (unsigned offset = 0; offset < 256; offset++) {
        if (offset % 16 == 0) {
            pciplan_put('\n');
            put_byte(offset);
            pciplan_put(':');
        }
        pciplan_put(' ');
        put_byte(bytes[offset]);
    }
    pciplan_put('\n');
    pciplan_put('\n');
}

static int read_image(struct slot s, uint8_t bytes[256])
{
    for (unsigned offset = 0; offset < 256; offset++)
        bytes[offset] = (uint8_t)read_register(s, (uint8_t)offset, 1);
    return 1;
}

/* Whether the function could be sized. */
static int read_back(struct slot s, uint8_t bytes[256])
{
    unsigned layout = read_register(s, HEADER_TYPE, 1) % MULTI_FUNCTION;
    const struct address_register *r = layout == 0 ? of_device : layout == 1 ? of_bridge : of_others;
    uint32_t command = read_register(s, COMMAND, 2);
    int is_off;

    for (unsigned offset = 0; offset < 256; offset++)
        bytes[offset] = 0;
    write_register(s, COMMAND, 2, command & ~(uint32_t)DECODE_ENABLES);
    is_off = !(read_register(s, COMMAND, 2) & DECODE_ENABLES);
    for (; is_off && r->width != 0; r++) {
        uint32_t value = read_register(s, r->offset, r->width), back;
        write_register(s, r->offset, r->width, r->ones);
        back = read_register(s, r->offset, r->width);
        write_register(s, r->offset, r->width, value);
        for (unsigned i = 0; i < r->width; i++)
            bytes[r->offset + i] = (uint8_t)(back >> 8 * i);
    }
    write_register(s, COMMAND, 2, command);
    return is_off;
}

static int is_there(struct slot s)
{
    return read_register(s, VENDOR_ID, 2) != NO_VENDOR;
}

/* A device of one function may answer as any of the eight (PCI 3.0, 3.2.2.3.4). */
static int has_one_function(struct slot s)
{
    s.function = 0;
    return is_there(s) && !(read_register(s, HEADER_TYPE, 1) & MULTI_FUNCTION);
}

/* The functions of which no block could be made as it should be. */
static struct pciplan_unsized capture(uint8_t first, uint8_t last, int (*of)(struct slot, uint8_t[256]))
{
    struct pciplan_unsized left = {0, 0, 0, 0};
    uint8_t bytes[256];

    for (unsigned number = first * 256u; number < (last + 1u) * 256u; number++) {
        struct slot s = {(uint8_t)(number / 256), (uint8_t)(number / 8 % 32), (uint8_t)(number % 8)};
        if (!is_there(s) || (s.function != 0 && has_one_function(s)))
            continue;
        if (!of(s, bytes) && left.count++ == 0) {
            left.bus = s.bus;
            left.device = s.device;
            left.function = s.function;
        }
        put_block(s, bytes);
    }
    return left;
}

void pciplan_capture_dump(uint8_t first, uint8_t last)
{
    capture(first, last, read_image);
}

struct pciplan_unsized pciplan_capture_probe(uint8_t first, uint8_t last)
{
    return capture(first, last, read_back);
}
