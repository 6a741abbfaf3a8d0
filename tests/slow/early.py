"""Faults that are looked for before judging: 20 to 34 and 50 to 58, of docs/FORMATS.md.

`early_lines(functions, roots, held)` is the list of the earliest phase that has any fault. `held` has the slots of which
a held range is told.
"""

from model import bit, bar_mask, is_wide_bar, number_at, rom_mask, slot_text, starting_registers
from model import CAPABILITIES, CLASS, STATUS, VENDOR, WINDOW_REGISTER, WINDOWS, address_registers, window_bounds

POWER_MANAGEMENT = 1
MSI = 5


def runs_from(mask, low, top):
    """The lowest bit k from which the ones of a read back, from bit `low` up, are one run up to `top`; or None."""
    ones = [i for i in range(low, 64) if bit(mask, i)]
    for k in ones[:1]:
        if ones == list(range(k, top + 1)):
            return k
    return None


def has_bar_size(mask, whole):
    """Whether the whole read back is that of a BAR of some size, of the kind that its lower register shows."""
    if bit(mask, 0):
        return any(runs_from(whole, 2, top) in range(2, 9) for top in (31, 15))
    if is_wide_bar(mask):
        return runs_from(whole, 4, 63) in range(4, 64)
    return runs_from(whole, 4, 31) in range(4, 32)


def bar_fault(f, n):
    """The first rule that the BAR breaks which register n starts: the fault's words, or None."""
    register = 0x10 + 4 * n
    mask, value = bar_mask(f, n), number_at(f.image, register, 4)
    low = 3 if bit(mask, 0) else 15
    if mask == 0:
        return '23 BarMask' if value else None
    if value & low != mask & low:
        return '23 BarMask'
    if bit(mask, 0) and bit(mask, 1):
        return '23 BarMask'
    if not bit(mask, 0) and bit(mask, 1):
        return '22 BarType'
    if is_wide_bar(mask) and n == f.bar_count - 1:
        return '24 BarPair'
    width = 8 if is_wide_bar(mask) else 4
    if not has_bar_size(mask, number_at(f.probe, register, width)):
        return '23 BarMask'
    if number_at(f.image, register, width) & ~number_at(f.probe, register, width):
        return '23 BarMask'
    return None


def has_rom_fault(f):
    """Whether a ROM is there whose read back is of no size, or whose value has another one than it and bit 0."""
    value, mask = number_at(f.image, f.rom_register, 4), rom_mask(f)
    if value == 0 and mask == 0:
        return False
    return runs_from(mask, 0, 31) not in range(11, 25) or value & ~mask & ~1 != 0


def has_window_fault(f, kind):
    """Whether values and read backs of a window are none that the table of docs/REGISTERS.md allows."""
    values, masks = window_bounds(f.image, kind), window_bounds(f.probe, kind)
    if kind != 'mem' and not any(values) and not any(masks):
        return False
    page = 0xF0 if kind == 'io' else 0xFFF0
    upper = {'io': 0xFFFF, 'mem': 0, 'pref': 0xFFFFFFFF}[kind]
    for nibble in (0,) if kind == 'mem' else (0, 1):
        if masks == (page + nibble, page + nibble, nibble * upper, nibble * upper):
            shown = values[0] & 15 == nibble and values[1] & 15 == nibble
            return not (shown and (nibble == 1 or values[2:] == (0, 0)))
    return True


def body_length(image, place):
    """How many bytes a capability has."""
    if image[place] == POWER_MANAGEMENT:
        return 8
    if image[place] == MSI:
        control = number_at(image, place + 2, 2)
        return (24 if bit(control, 7) else 20) if bit(control, 8) else (14 if bit(control, 7) else 10)
    return 4


def list_fault(image):
    """The first fault along the capabilities list, with its place; or None."""
    met = set()
    place = image[CAPABILITIES] & 0xFC if bit(number_at(image, STATUS, 2), 4) else 0
    while place != 0:
        if place < 0x40:
            return '27 CapRange', place
        if place in met:
            return '28 CapLoop', place
        if place + body_length(image, place) > 256:
            return '29 CapCut', place
        met.add(place)
        place = image[place + 1] & 0xFC
    return None


def identity_lines(f):
    """The first of 20, 21 and 31 of a function."""
    name = slot_text(f.slot)
    if number_at(f.image, VENDOR, 2) == 0xFFFF:
        return ['20 NoVendor ' + name]
    if f.layout > 1:
        return ['21 HeaderKind ' + name]
    inside = {at for offset, width in address_registers(f) for at in range(offset, offset + width)}
    for offset in range(256):
        if f.probe[offset] and offset not in inside:
            return ['31 StrayProbe %s %02x' % (name, offset)]
    return []


def decoding_lines(f):
    """The faults of a function's registers, and the first of its list."""
    name = slot_text(f.slot)
    lines = []
    for n in starting_registers(f):
        fault = bar_fault(f, n)
        if fault:
            lines.append('%s %s %02x' % (fault, name, 0x10 + 4 * n))
    if has_rom_fault(f):
        lines.append('25 RomMask %s %02x' % (name, f.rom_register))
    if f.is_bridge:
        lines += ['26 WindowMask %s %02x' % (name, WINDOW_REGISTER[kind])
                  for kind in WINDOWS if has_window_fault(f, kind)]
    fault = list_fault(f.image)
    if fault:
        lines.append('%s %s %02x' % (fault[0], name, fault[1]))
    return lines


def is_asleep(image):
    """Whether a power management capability of the list shows another state than D0."""
    met = set()
    place = image[CAPABILITIES] & 0xFC if bit(number_at(image, STATUS, 2), 4) else 0
    while place != 0 and place not in met:
        if image[place] == POWER_MANAGEMENT and number_at(image, place + 4, 2) & 3:
            return True
        met.add(place)
        place = image[place + 1] & 0xFC
    return False


def profile_lines(f):
    """What is set of a function that changes what it decodes."""
    control = f.bridge_control if f.is_bridge else 0
    there = [
        ('51 PaletteSnoop', bit(f.command, 5)),
        ('52 VgaEnable', bit(control, 3)),
        ('53 IsaEnable', bit(control, 2)),
        ('54 Subtractive', f.is_bridge and number_at(f.image, CLASS, 3) == 0x060401),
        ('55 InReset', bit(control, 6)),
        ('56 PowerState', is_asleep(f.image)),
    ]
    return ['%s %s' % (fault, slot_text(f.slot)) for fault, is_there in there if is_there]


def buses_behind(bridge):
    """The buses of a bridge's range; none where its ends are crossed."""
    return set(range(bridge.secondary, bridge.subordinate + 1))


def has_lawful_buses(functions, roots, b):
    """Whether a bridge's numbers fit its own bus, the bridges beside and above it, and the roots."""
    bus = b.slot[0]
    if not (b.primary == bus and bus < b.secondary <= b.subordinate):
        return False
    for c in functions:
        beside = c.slot[0] == bus or (bus in roots and c.slot[0] in roots)
        if c.is_bridge and beside and c.slot < b.slot and buses_behind(b) & buses_behind(c):
            return False
        above = c.is_bridge and c.secondary == bus and bus not in roots
        if above and not (c.secondary <= b.secondary and b.subordinate <= c.subordinate):
            return False
    return not buses_behind(b) & set(roots)


def orphan_lines(functions, roots, slot):
    """58 of a slot whose bus is no root, and to which no bridge leads."""
    if slot[0] in roots or any(g.is_bridge and g.secondary == slot[0] for g in functions):
        return []
    return ['58 Orphan ' + slot_text(slot)]


def place_lines(functions, roots, f):
    """The faults of a function's place among the others."""
    bus, device, number = f.slot
    name = slot_text(f.slot)
    lines = []
    if number > 0 and not any(g.slot == (bus, device, 0) for g in functions):
        lines.append('50 LoneFunction ' + name)
    lines += orphan_lines(functions, roots, f.slot)
    if f.is_bridge and not has_lawful_buses(functions, roots, f):
        lines.append('57 BusRange ' + name)
    return lines


def of_one(f):
    """The faults of one function by itself, phase by phase: identity, decoding, profile."""
    return [identity_lines(f), decoding_lines(f), profile_lines(f)]


def slot_lines(slots, probe_slots):
    """Each slot that one of the two texts alone lists."""
    return ['30 SlotsDiffer ' + slot_text(slot) for slot in sorted(set(slots) ^ set(probe_slots))]


def unlisted_lines(slots, to_list):
    """34: each slot that has to be listed, as a range of its function is told, and isn't."""
    return ['34 NotListed ' + slot_text(slot) for slot in sorted(set(to_list) - set(slots))]


def all_place_lines(functions, roots, held):
    """The faults of place, by slot, and of the slots of held ranges that aren't listed."""
    found = {f.slot: place_lines(functions, roots, f) for f in functions}
    for slot in held:
        if slot not in found:
            found[slot] = orphan_lines(functions, roots, slot)
    return [line for slot in sorted(found) for line in found[slot]]


def early_lines(functions, roots, held=()):
    """All faults of the earliest phase before judging that has any; both texts list the functions."""
    for phase in (identity_lines, decoding_lines, profile_lines):
        lines = [line for f in functions for line in phase(f)]
        if lines:
            return lines
    return all_place_lines(functions, roots, held)
