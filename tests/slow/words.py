"""The words of `--model`: how functions are taken by a user's words, and what bridges do by them."""

from early import decoding_lines, has_window_fault, identity_lines, is_asleep, profile_lines
from model import (BRIDGE_CONTROL, CLASS, COMMAND, HEADER, STATUS, IO, WINDOWS, bit, number_at, put_bounds,
                   put_number, window_bounds)

NAMES = ('cardbus', 'ide', 'isa', 'power', 'reset', 'snoop', 'subtractive', 'unclaimed', 'unnumbered', 'vga', 'vga16',
         'windows')
SUBTRACTIVE = 0x060401
PLAIN_BRIDGE = 0x060400


def names_of(words):
    """The names that the words of `--model` are: `all` is each but `vga16`."""
    if words is None:
        return set()
    return set(NAMES) - {'vga16'} if words == 'all' else set(words.split(','))


def has_vga_enable(f):
    """Whether it is a bridge with VGA Enable."""
    return f.is_bridge and bit(f.bridge_control, 3)


def legacy_parts(functions, names):
    """The slots of bridges with legacy parts, and whether each decodes 16 bits of a port."""
    if not names & {'vga', 'vga16'}:
        return {}
    return {f.slot: 'vga16' in names or bit(f.bridge_control, 4) for f in functions if has_vga_enable(f)}


def has_isa_enable(f):
    """Whether it is a bridge with ISA Enable."""
    return f.is_bridge and bit(f.bridge_control, 2)


def isa_bridges(functions, names):
    """The slots of bridges with ISA Enable, where the word for it counts."""
    return {f.slot for f in functions if has_isa_enable(f)} if 'isa' in names else set()


def is_anyone_behind(functions, b):
    """Whether a function is listed on a bus of a bridge's range."""
    return any(b.secondary <= f.slot[0] <= b.subordinate for f in functions)


def is_subtractive(f):
    """Whether it is a bridge of the class of subtractive decode."""
    return f.is_bridge and number_at(f.image, CLASS, 3) == SUBTRACTIVE


def unclaimed_bridges(functions, names):
    """`unclaimed`: the slots of bridges alone of the class on their bus, but those that `subtractive` is about."""
    if 'unclaimed' not in names:
        return set()
    alone = set()
    for b in functions:
        beside = [f for f in functions if is_subtractive(f) and f.slot[0] == b.slot[0]]
        if is_subtractive(b) and len(beside) == 1:
            alone.add(b.slot)
    if 'subtractive' in names:
        alone = {b.slot for b in functions if b.slot in alone and is_anyone_behind(functions, b)}
    return alone


def has_snooping(f):
    """Whether it is a bridge with palette snooping."""
    return f.is_bridge and bit(f.command, 5)


def palette_parts(functions, names):
    """`snoop`: the slots of bridges with palette parts, and whether each decodes 16 bits of a port."""
    if 'snoop' not in names:
        return {}
    return {f.slot: 'vga16' in names or bit(f.bridge_control, 4) for f in functions if has_snooping(f)}


def clear(image, offset, width):
    """Clears some bytes."""
    image[offset:offset + width] = bytes(width)


def take_socket(f):
    """`cardbus`: a function of header layout 2 is a device without address registers and without a list."""
    f.image[HEADER] &= 0x80
    f.image[STATUS] &= ~0x10 & 0xFF
    for image in (f.image, f.probe):
        clear(image, 0x10, 24)
        clear(image, 0x30, 4)


def shown_nibble(bounds, kind):
    """The low nibble of base and limit, if what a window shows goes with it; else None."""
    base, limit = bounds[:2]
    if base & 15 != limit & 15:
        return None
    if base & 15 == 1:
        return None if kind == 'mem' else 1
    return 0 if base & 15 == 0 and bounds[2:] == (0, 0) else None


def take_window(f, kind):
    """`windows`: a window with a 26 is the one that it shows, or a closed one where nothing of it is there."""
    shown, reads = window_bounds(f.image, kind), window_bounds(f.probe, kind)
    nibble = shown_nibble(shown, kind)
    if nibble is None or not has_window_fault(f, kind):
        return
    if kind == 'mem' and shown == reads == (0, 0, 0, 0):
        put_bounds(f.image, kind, (0xFFF0, 0, 0, 0))
    page = 0xF0 if kind == 'io' else 0xFFF0
    upper = {'io': 0xFFFF, 'mem': 0, 'pref': 0xFFFFFFFF}[kind] if nibble else 0
    put_bounds(f.probe, kind, (page | nibble, page | nibble, upper, upper))


def take_registers(f, names):
    """`cardbus` and `windows`: what the registers of a function decode."""
    if 'cardbus' in names and f.layout == 2:
        take_socket(f)
    if 'windows' in names and f.is_bridge:
        for kind in WINDOWS:
            take_window(f, kind)


def is_taken_asleep(f, names):
    """Whether `power` takes a function as asleep, whose registers are as `cardbus` and `windows` leave them."""
    return 'power' in names and not identity_lines(f) and not decoding_lines(f) and is_asleep(f.image)


def sleepers(functions, names):
    """The slots of functions that `power` takes as asleep."""
    found = set()
    for listed in functions:
        f = listed.copy()
        take_registers(f, names)
        if is_taken_asleep(f, names):
            found.add(f.slot)
    return found


def take_sleeping(f, names):
    """`power`: what sleeps decodes nothing, and has no list of capabilities."""
    if is_taken_asleep(f, names):
        f.image[COMMAND] &= ~3 & 0xFF
        f.image[STATUS] &= ~0x10 & 0xFF


def take_bridge(functions, f, names):
    """`reset` and `subtractive`: of a bridge with nothing listed behind it."""
    if not f.is_bridge or is_anyone_behind(functions, f):
        return
    if 'reset' in names:
        f.image[BRIDGE_CONTROL] &= ~0x40 & 0xFF
    if 'subtractive' in names and is_subtractive(f):
        f.image[CLASS] = 0


def take_channels(f):
    """`ide`: the BARs of channels in compatibility mode are left out."""
    interface = f.image[CLASS]
    for bar in f.bars():
        first_channel = bar.register < 0x18 and not bit(interface, 0)
        second_channel = 0x18 <= bar.register < 0x20 and not bit(interface, 2)
        if first_channel or second_channel:
            width = 8 if bar.wide else 4
            clear(f.image, bar.register, width)
            clear(f.probe, bar.register, width)


def is_unnumbered(f, has_legacy, has_palette):
    """Whether a bridge has no bus numbers, claims nothing by a window or such a part, and has its ROM off."""
    if not f.is_bridge or f.primary or f.secondary or f.subordinate:
        return False
    if any(window.enabled and not window.is_closed for window in f.windows()):
        return False
    if has_legacy and (f.is_on(IO) or f.is_on('mem')):
        return False
    if has_palette and f.is_on(IO):
        return False
    return not any(bit(rom.value, 0) for rom in f.rom())


def take_unnumbered(f):
    """`unnumbered`: the bridge is a device with its two BARs."""
    f.image[HEADER] &= 0x80
    clear(f.image, 0x18, 0x1C)
    clear(f.probe, 0x18, 0x1C)
    clear(f.probe, 0x38, 4)


def taken(functions, names):
    """The functions as the words take them."""
    all_taken = []
    unclaimed = unclaimed_bridges(functions, names)
    for listed in functions:
        f = listed.copy()
        has_legacy = bool(names & {'vga', 'vga16'}) and has_vga_enable(f)
        if has_legacy:
            f.image[BRIDGE_CONTROL] &= ~8 & 0xFF
        if 'isa' in names and has_isa_enable(f):
            f.image[BRIDGE_CONTROL] &= ~4 & 0xFF
        if 'snoop' in names:
            f.image[COMMAND] &= ~0x20 & 0xFF
        if f.slot in unclaimed:
            put_number(f.image, CLASS, 3, PLAIN_BRIDGE)
        take_registers(f, names)
        take_sleeping(f, names)
        take_bridge(functions, f, names)
        if not identity_lines(f) and not decoding_lines(f) and not profile_lines(f):
            if 'ide' in names and f.layout == 0 and number_at(f.image, CLASS + 1, 2) == 0x0101:
                take_channels(f)
            elif 'unnumbered' in names and is_unnumbered(
                    f, has_legacy, 'snoop' in names and has_snooping(listed)):
                take_unnumbered(f)
        all_taken.append(f)
    return all_taken
