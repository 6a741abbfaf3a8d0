/* The firmware of an emulated PC: it brings up the board by c/example, prints where each BAR came to stand, and uses an `edu`
   device at its place. What it prints goes to the serial line; it ends QEMU with status 1 where all went well, else 3. */
#include <stddef.h>
#include <stdint.h>

#include "pciplan.h"
#include "pciplan_capture.h"

const char *pciplan_bring_up(const uint8_t *roots, size_t roots_len, const struct pciplan_pools *pools);

/* ---- ports */

enum { CONFIG_ADDRESS = 0xcf8, CONFIG_DATA = 0xcfc, SERIAL = 0x3f8, END_OF_RUN = 0xf4 };

static void out8(uint16_t port, uint8_t value)
{
    __asm__ volatile("outb %0, %1" : : "a"(value), "Nd"(port));
}

static void out16(uint16_t port, uint16_t value)
{
    __asm__ volatile("outw %0, %1" : : "a"(value), "Nd"(port));
}

static void out32(uint16_t port, uint32_t value)
{
    __asm__ volatile("outl %0, %1" : : "a"(value), "Nd"(port));
}

static uint8_t in8(uint16_t port)
{
    uint8_t value;
    __asm__ volatile("inb %1, %0" : "=a"(value) : "Nd"(port));
    return value;
}

static uint16_t in16(uint16_t port)
{
    uint16_t value;
    __asm__ volatile("inw %1, %0" : "=a"(value) : "Nd"(port));
    return value;
}

static uint32_t in32(uint16_t port)
{
    uint32_t value;
    __asm__ volatile("inl %1, %0" : "=a"(value) : "Nd"(port));
    return value;
}

/* ---- configuration space, by mechanism 1 (PCI 3.0, 3.2.2.3.2) */

static uint16_t data_port(uint8_t bus, uint8_t device, uint8_t function, uint8_t offset)
{
    out32(CONFIG_ADDRESS, 0x80000000u | (uint32_t)bus << 16 | (uint32_t)device << 11 | (uint32_t)function << 8 |
                              (offset & 0xfcu));
    return (uint16_t)(CONFIG_DATA + offset % 4);
}

uint32_t pciplan_config_read(uint8_t bus, uint8_t device, uint8_t function, uint8_t offset, uint8_t width)
{
    uint16_t port = data_port(bus, device, function, offset);
    return width == 1 ? in8(port) : width == 2 ? in16(port) : in32(port);
}

void pciplan_config_write(uint8_t bus, uint8_t device, uint8_t function, uint8_t offset, uint8_t width, uint32_t value)
{
    uint16_t port = data_port(bus, device, function, offset);
    if (width == 1)
        out8(port, (uint8_t)value);
    else if (width == 2)
        out16(port, (uint16_t)value);
    else
        out32(port, value);
}

/* ---- the serial line */

static void put(char character)
{
    while (!(in8(SERIAL + 5) & 0x20))
        ;
    out8(SERIAL, (uint8_t)character);
}

static void say(const char *text)
{
    while (*text != '\0')
        put(*text++);
}

static void say_hex(uint64_t number, unsigned digits)
{
    while (digits-- > 0)
        put("0123456789abcdef"[number >> 4 * digits & 15]);
}

static _Noreturn void end(int is_well)
{
    out8(END_OF_RUN, is_well ? 0 : 1);
    for (;;)
        __asm__ volatile("hlt");
}

/* ---- the board */

enum { EDU = 0x11e81234, EDU_IDENTIFICATION = 0x010000ed };

static void say_slot(uint8_t bus, uint8_t device, uint8_t function)
{
    say_hex(bus, 2);
    put(':');
    say_hex(device, 2);
    put('.');
    say_hex(function, 1);
    put(' ');
}

static void say_bars(uint8_t bus, uint8_t device, uint8_t function)
{
    unsigned is_bridge = pciplan_config_read(bus, device, function, 0x0e, 1) % 0x80;
    uint8_t end_of_bars = is_bridge ? 0x18 : 0x28;

    for (uint8_t offset = 0x10; offset < end_of_bars; offset += 4) {
        uint64_t value = pciplan_config_read(bus, device, function, offset, 4);
        uint8_t at = offset;
        if (value % 8 == 4) {
            offset += 4;
            value |= (uint64_t)pciplan_config_read(bus, device, function, offset, 4) << 32;
        }
        if (value == 0)
            continue;
        say_slot(bus, device, function);
        say_hex(at, 2);
        say(value & 1 ? " io " : " mem ");
        say_hex(value & 1 ? value & ~3ull : value & ~15ull, 16);
        put('\n');
    }
}

/* Whether the device answers at its place: its identification is at the first address of its BAR. */
static int is_in_use(uint8_t bus, uint8_t device, uint8_t function)
{
    uint32_t first = pciplan_config_read(bus, device, function, 0x10, 4) & ~15u;
    return *(volatile uint32_t *)(uintptr_t)first == EDU_IDENTIFICATION;
}

/* The functions on the first sixteen buses. How many of them are `edu` devices that answer at their places, less 100 for each
   that doesn't. */
static int look_around(void)
{
    int well = 0;

    for (unsigned number = 0; number < 16 * 256; number++) {
        uint8_t bus = (uint8_t)(number / 256), device = (uint8_t)(number / 8 % 32), function = (uint8_t)(number % 8);
        uint32_t id = pciplan_config_read(bus, device, function, 0x00, 4);
        if (id % 0x10000 == 0xffff)
            continue;
        say_bars(bus, device, function);
        if (id == EDU)
            well += is_in_use(bus, device, function) ? 1 : -100;
    }
    return well;
}

void firmware(void)
{
    /* I/O above the ports of the chipset; memory below the interrupt controllers; prefetchable memory above all RAM. */
    static const struct pciplan_pools pools = {0x1000, 0x9fff, 0xc0000000, 0xfebfffff, 0x400000000, 0x7ffffffff};
    static const uint8_t roots[] = {0x00};
    const char *fault;

    out8(SERIAL + 3, 0x03);
    fault = pciplan_bring_up(roots, sizeof roots, &pools);
    if (fault != NULL) {
        say(fault);
        put('\n');
        end(0);
    }
    if (look_around() <= 0) {
        say("no device answers at its place\n");
        end(0);
    }
    say("the devices answer at their places\n");
    end(1);
}

/* ---- what the compiler and the library call */

void *memcpy(void *restrict to, const void *restrict from, size_t count)
{
    void *start = to;
    __asm__ volatile("rep movsb" : "+D"(to), "+S"(from), "+c"(count) : : "memory");
    return start;
}

void *memmove(void *to, const void *from, size_t count)
{
    uint8_t *t = to;
    const uint8_t *f = from;

    if (t <= f || f + count <= t)
        return memcpy(to, from, count);
    while (count-- > 0)
        *(volatile uint8_t *)(t + count) = f[count];
    return to;
}

void *memset(void *to, int byte, size_t count)
{
    void *start = to;
    __asm__ volatile("rep stosb" : "+D"(to), "+c"(count) : "a"(byte) : "memory");
    return start;
}
