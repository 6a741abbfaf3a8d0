#include "pciplan_number.h"

#include "pciplan_capture.h"

/* Registers and bits of the standard's header (PCI 3.0, 6.1; Bridge 1.2, 3.2), of capabilities (PCI 3.0, 6.7; PCI Express
   Base 3.0, 7.8; SHPC 1.0). */
enum {
    VENDOR_ID = 0x00, STATUS = 0x06, HEADER_TYPE = 0x0e, PRIMARY = 0x18, SECONDARY = 0x19, SUBORDINATE = 0x1a,
    CAPABILITIES = 0x34, NO_VENDOR = 0xffff, HAS_CAPABILITIES = 0x10, MULTI_FUNCTION = 0x80,
    HOT_PLUG_CONTROLLER = 0x0c, EXPRESS = 0x10, EXPRESS_FLAGS = 0x02, SLOT_IMPLEMENTED = 0x100,
    SLOT_CAPABILITIES = 0x14, HOT_PLUG_CAPABLE = 0x40, MOST_CAPABILITIES = 48
};

/* Of a bus: 32 devices of 8 functions. */
enum { PLACES = 256 };

struct bridge {
    uint8_t bus, place;
};

static uint32_t read_at(uint8_t bus, unsigned place, uint8_t offset, uint8_t width)
{
    return pciplan_config_read(bus, (uint8_t)(place / 8), (uint8_t)(place % 8), offset, width);
}

static int is_there(uint8_t bus, unsigned place)
{
    return read_at(bus, place, VENDOR_ID, 2) != NO_VENDOR;
}

/* A device of one function may answer as any of the eight, so function 0 says whether there are more. */
static int is_bridge(uint8_t bus, unsigned place)
{
    unsigned function_0 = place - place % 8;

    if (!is_there(bus, function_0))
        return 0;
    if (place != function_0 && !(read_at(bus, function_0, HEADER_TYPE, 1) & MULTI_FUNCTION))
        return 0;
    return is_there(bus, place) && read_at(bus, place, HEADER_TYPE, 1) % MULTI_FUNCTION == 1;
}

/* The first bridge at this place or behind it, else PLACES. */
static unsigned next_bridge(uint8_t bus, unsigned place)
{
    while (place < PLACES && !is_bridge(bus, place))
        place++;
    return place;
}

/* Whether the port of a PCI Express capability has a slot, and that is Hot-Plug Capable. */
static int has_hot_plug(struct bridge b, unsigned at)
{
    return at + SLOT_CAPABILITIES < 256 &&
           (read_at(b.bus, b.place, (uint8_t)(at + EXPRESS_FLAGS), 2) & SLOT_IMPLEMENTED) != 0 &&
           (read_at(b.bus, b.place, (uint8_t)(at + SLOT_CAPABILITIES), 4) & HOT_PLUG_CAPABLE) != 0;
}

static int has_hot_plug_slot(struct bridge b)
{
    unsigned at = 0;

    if (read_at(b.bus, b.place, STATUS, 2) & HAS_CAPABILITIES)
        at = read_at(b.bus, b.place, CAPABILITIES, 1) & 0xfc;
    for (unsigned n = 0; at >= 0x40 && n < MOST_CAPABILITIES; n++) {
        uint32_t id = read_at(b.bus, b.place, (uint8_t)at, 1);
        if (id == HOT_PLUG_CONTROLLER || (id == EXPRESS && has_hot_plug(b, at)))
            return 1;
        at = read_at(b.bus, b.place, (uint8_t)(at + 1), 1) & 0xfc;
    }
    return 0;
}

/* Writes a number where it isn't there already. Whether it is there then; else the answer says which bridge didn't. */
static int put(struct pciplan_numbered *answer, struct bridge b, uint8_t offset, uint8_t number)
{
    if (read_at(b.bus, b.place, offset, 1) == number)
        return 1;
    pciplan_config_write(b.bus, b.place / 8, b.place % 8, offset, 1, number);
    answer->writes++;
    if (read_at(b.bus, b.place, offset, 1) == number)
        return 1;
    answer->status = PCIPLAN_STUCK;
    answer->bus = b.bus;
    answer->device = b.place / 8;
    answer->function = b.place % 8;
    return 0;
}

/* Makes the bridges of a bus forward nothing. The subordinate number goes first: with it, a secondary number of 0 would
   forward every bus up to it. */
static int hush(struct pciplan_numbered *answer, uint8_t bus)
{
    for (unsigned place = next_bridge(bus, 0); place < PLACES; place = next_bridge(bus, place + 1)) {
        struct bridge b = {bus, (uint8_t)place};
        if (!put(answer, b, SUBORDINATE, 0) || !put(answer, b, SECONDARY, 0) || !put(answer, b, PRIMARY, 0))
            return 0;
    }
    return 1;
}

/* Gives a bridge the next number, for one bus alone until the bridges there forward nothing: two of them could hold the
   same old numbers. Then what comes next is behind it. */
static int open_bridge(struct pciplan_numbered *answer, struct bridge b, uint8_t last)
{
    uint8_t bus = ++answer->highest;

    return put(answer, b, PRIMARY, b.bus) && put(answer, b, SECONDARY, bus) && put(answer, b, SUBORDINATE, bus) &&
           hush(answer, bus) && (next_bridge(bus, 0) == PLACES || put(answer, b, SUBORDINATE, last));
}

/* What comes next isn't behind this bridge any more. */
static int close_bridge(struct pciplan_numbered *answer, struct bridge b, uint8_t last, uint8_t spare)
{
    if (spare != 0 && has_hot_plug_slot(b)) {
        uint8_t left = (uint8_t)(last - answer->highest);
        answer->highest = (uint8_t)(answer->highest + (spare < left ? spare : left));
    }
    return put(answer, b, SUBORDINATE, answer->highest);
}

static void tell_no_bus(struct pciplan_numbered *answer, struct bridge b)
{
    if (answer->status == PCIPLAN_NO_BUS)
        return;
    answer->status = PCIPLAN_NO_BUS;
    answer->bus = b.bus;
    answer->device = b.place / 8;
    answer->function = b.place % 8;
}

struct pciplan_numbered pciplan_number(uint8_t root, uint8_t last, uint8_t spare)
{
    struct bridge above[256]; /* by bus: the bridge that leads there */
    struct pciplan_numbered answer = {PCIPLAN_NUMBERED, root, 0, 0, 0, 0, 0};
    uint8_t bus = root;
    unsigned place = 0;
    int hushed = hush(&answer, root);

    answer.safe_from = (uint16_t)(answer.writes + !hushed);
    if (!hushed)
        return answer;
    for (;;) {
        place = next_bridge(bus, place);
        struct bridge b = {bus, (uint8_t)place};
        if (place < PLACES && answer.highest >= last) {
            tell_no_bus(&answer, b);
            place++;
        } else if (place < PLACES) {
            if (!open_bridge(&answer, b, last))
                return answer;
            bus = answer.highest;
            above[bus] = b;
            place = 0;
        } else if (bus != root) {
            b = above[bus];
            if (!close_bridge(&answer, b, last, spare))
                return answer;
            bus = b.bus;
            place = b.place + 1u;
        } else {
            return answer;
        }
    }
}
