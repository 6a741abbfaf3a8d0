"""What is made wrong on a board: registers, read backs, lists, bus numbers, missing functions."""

from model import (BRIDGE_CONTROL, CAPABILITIES, CLASS, COMMAND, HEADER, IO, PAGE, STATUS, WINDOW_REGISTER,
                   address_registers, close_window, number_at, put_bar, put_bounds, put_number, put_rom, put_window,
                   window_bounds)


def move_part(draw, board, f):
    """A BAR or ROM goes to another one's place, or a step aside."""
    parts = f.bars() + f.rom()
    if not parts:
        return
    part = draw.choice(parts)
    others = [other for g in board.functions for other in g.parts() if other.space == part.space]
    aim = draw.choice(others + [part])
    address = draw.choice((aim.first, aim.last + 1, aim.first - part.size, part.first + part.size, part.first - 1))
    ones = part.shown(f.probe) & ~(part.size - 1)
    if part.kind == 'bar':
        put_bar(f, part, address & ones)
    else:
        put_rom(f, address & ones, draw.randrange(3) > 0)


def move_window(draw, board, f):
    """A window begins or ends a page aside, closes, or takes another one's place."""
    windows = f.windows()
    if not windows:
        return
    window = draw.choice(windows)
    kind, page = window.window, PAGE[window.window]
    first, last = window.first, window.last
    change = draw.randrange(7)
    if change == 0:
        close_window(f, kind)
        return
    others = [w for g in board.functions for w in g.windows() if w.window == kind]
    other = draw.choice(others)
    ends = ((first + page, last), (first - page, last), (first, last + page), (first, last - page),
            (other.first, other.last), (first, other.last))
    first, last = ends[change - 1]
    end = (1 << 16 if kind == 'io' else 1 << 32) if not window.wide else (1 << 32 if kind == 'io' else 1 << 64)
    put_window(f, kind, max(first, 0) % end, max(last, 0) % end)


def change_upper_half(draw, board, f):
    """An upper half of a window or BAR changes by a bit."""
    places = [(0x28, 4), (0x2C, 4), (0x30, 2), (0x32, 2)] if f.is_bridge else []
    places += [(bar.register + 4, 4) for bar in f.bars() if bar.wide and bar.register < 0x24]
    if places:
        offset, width = draw.choice(places)
        put_number(f.image, offset, width, number_at(f.image, offset, width) ^ (1 << draw.choice((0, 0, 1, 15))))


def change_command(draw, board, f):
    """A space is switched."""
    f.image[COMMAND] ^= draw.choice((1, 2, 3))


def switch_rom(draw, board, f):
    """A ROM's enable bit changes."""
    if f.rom():
        f.image[f.rom_register] ^= 1


def snoop(draw, board, f):
    """Palette snooping."""
    f.image[COMMAND] |= 0x20


def change_control(draw, board, f):
    """Bits of Bridge Control, or of the same bytes of a device."""
    f.image[BRIDGE_CONTROL] |= draw.choice((0x04, 0x08, 0x10, 0x18, 0x40, 0x48, 0x4C))


def mix_profile(draw, board, f):
    """Several of a function that change what it decodes."""
    f.image[BRIDGE_CONTROL] |= draw.choice((0x0C, 0x4C, 0x44, 0x48, 0))
    for change in draw.sample((snoop, change_class, put_to_sleep, change_control), draw.randrange(1, 4)):
        change(draw, board, f)


def change_class(draw, board, f):
    """A subtractive bridge, or an IDE controller."""
    put_number(f.image, CLASS, 3, 0x060401 if draw.randrange(2) == 0 else 0x010100 + draw.choice((0, 1, 4, 5, 0x85)))


def clear_buses(draw, board, f):
    """All bus numbers of a bridge are 0, mostly with its windows closed."""
    if not f.is_bridge:
        return
    f.image[0x18:0x1B] = bytes(3)
    if draw.randrange(3) > 0:
        for window in f.windows():
            close_window(f, window.window)
        f.image[0x38] &= 0xFE


def change_buses(draw, board, f):
    """A bus number of a bridge changes, mostly by one or to a number of another bridge."""
    bridges = [g for g in board.functions if g.is_bridge]
    if not bridges:
        return
    bridge = draw.choice(bridges)
    at = draw.choice((0x18, 0x19, 0x1A, 0x1A))
    number = bridge.image[at]
    others = [other for g in bridges for other in (g.secondary, g.subordinate, g.subordinate + 1)]
    bridge.image[at] = draw.choice([0, 255, number - 1, number + 1, number + 1, f.slot[0]] + others) % 256


def change_roots(draw, board, f):
    """A root bus more or less."""
    roots = set(board.roots) ^ {draw.choice((0, 0x40, f.slot[0], f.secondary))}
    if roots:
        board.roots = sorted(roots)
        for name in ('host_io', 'host_mem'):
            ranges = getattr(board, name)
            if ranges is not None:
                setattr(board, name, [(to if to in roots else None, first, last) for to, first, last in ranges])


def change_identity(draw, board, f):
    """Vendor, header type, a byte of the probe outside the address registers, or several of these."""
    changes = draw.choice(((0,), (1,), (2,), (0, 1), (1, 2), (0, 1, 2)))
    if 0 in changes:
        put_number(f.image, 0, 2, draw.choice((0xFFFF, 0xFFFF, 0xFF, 0xFF00)))
    if 1 in changes:
        f.image[HEADER] = draw.choice((2, 0x82, 0x7F, 0x81, 0x80, 0, 1))
    if 2 in changes:
        f.probe[draw.choice((0, 4, 0x0F, 0x18, 0x1E, 0x1F, 0x28, 0x2F, 0x34, 0x37, 0x38, 0x3C, 0x3E, 0xFF))] ^= 0x11


def flip_bit(draw, board, f):
    """A bit of an address register, in one of the texts or both."""
    registers = address_registers(f) if f.layout < 2 else [(0x10, 4)]
    offset, width = draw.choice(registers)
    at = offset + draw.randrange(width)
    flipped = 1 << draw.randrange(8)
    images = draw.choice(((f.image,), (f.probe,), (f.image, f.probe)))
    for image in images:
        image[at] ^= flipped


def change_read_back(draw, board, f):
    """A read back of a BAR, ROM or window that standards don't know, or at the edge of what they know."""
    offset, width = draw.choice(address_registers(f) if f.layout < 2 else [(0x10, 4)])
    value = draw.choice((0, 0xFFFFFFFF, 0xFFFFFFF1, 0xFFFFFE01, 0xFFFFFF01, 0xFFFFFFFD, 0xFFFFFFFC, 0xFFFFFFF4,
                         0xFFFFF801, 0xFFFFF800, 0xFF000000, 0xFE000000, 0x80000000, 0x80000001, 0xFFFFFFF2,
                         0xFFFFFFF6, 0xFFF0FFF0, 0xFFF1FFF1, 0xFFF1FFF0, 0xF0F0, 0xF1F1, 0xFFFFFC00, 0xFFFC0001))
    put_number(f.probe, offset, width, value % (1 << 8 * width))
    if draw.randrange(2) == 0:
        low = 3 if value & 1 else 15
        put_number(f.image, offset, width, value & low)


def change_list(draw, board, f):
    """A capabilities list with a pointer, an ID or a body that may be wrong."""
    image = f.image
    if not image[STATUS] & 0x10 or draw.randrange(3) == 0:
        image[STATUS] |= 0x10
        image[CAPABILITIES] = draw.choice((0x40, 0x43, 0x3C, 0x04, 0xFC, 0xF8, 0xF9, 0xF4, 0xF0, 0xEC, 0xE8, 0))
    place = draw.choice((image[CAPABILITIES] & 0xFC, image[CAPABILITIES] & 0xFC, 0x40, 0x58, 0xF8, 0xFC))
    if place < 0x40:
        return
    image[place] = draw.choice((1, 1, 5, 5, 0x10))
    image[place + 1] = draw.choice((0, 0x40, place, 0x58, 0x3C, 0xFC, 0xF8, 1, 0xFF))
    if place < 0xFC:
        put_number(image, place + 2, 2, draw.choice((0, 0x80, 0x100, 0x180)))
        put_number(image, place + 4, 2, draw.choice((0, 1, 2, 3, 4, 0x103)))


def change_encoding(draw, board, f):
    """An encoding bit of a BAR, mostly in both texts."""
    bars = f.bars()
    if bars:
        register, flipped = draw.choice(bars).register, draw.choice((1, 2, 2, 4, 8))
        f.probe[register] ^= flipped
        if draw.randrange(4) > 0:
            f.image[register] = f.image[register] & 0xF0 | f.probe[register] & 0x0F


def lose_upper_half(draw, board, f):
    """The last BAR register says that a 64-bit BAR starts there."""
    if any(bar.wide and bar.register + 4 == 0x10 + 4 * (f.bar_count - 1) for bar in f.bars()):
        return
    last = 0x10 + 4 * (f.bar_count - 1)
    put_number(f.probe, last, 4, 0xFFFF0004)
    put_number(f.image, last, 4, 0x00000004)


def put_to_sleep(draw, board, f):
    """A power management capability that shows another state than D0."""
    f.image[STATUS] |= 0x10
    f.image[CAPABILITIES] = 0x50
    f.image[0x50:0x58] = bytes((1, 0, 3, 0, draw.randrange(1, 4), 0, 0, 0))


def drop_function(draw, board, f):
    """A function isn't listed, or in one text alone."""
    change = draw.randrange(4)
    if change == 0:
        board.only_in_dump.add(f.slot)
    elif change == 1:
        board.only_in_probe.add(f.slot)
    else:
        board.functions = [g for g in board.functions if g is not f]


def hide_function_zero(draw, board, f):
    """Function 0 of a device isn't listed, though another one of it is."""
    others = [g for g in board.functions if g.slot[2] > 0]
    if others:
        bus, device, _ = draw.choice(others).slot
        board.functions = [g for g in board.functions if g.slot != (bus, device, 0)]
    elif not f.is_bridge:
        f.slot = (f.slot[0], f.slot[1], draw.randrange(8))


def clear_optional_window(draw, board, f):
    """A window's read backs or values are gone."""
    kind = draw.choice(sorted(WINDOW_REGISTER))
    if f.is_bridge and any(window_bounds(f.probe, kind)):
        for image in draw.choice(((f.probe,), (f.image,), (f.probe, f.image))):
            put_bounds(image, kind, (0, 0, 0, 0))


def say_word(draw, board, word):
    """Says a word of `--model`, mostly."""
    words = board.words.split(',') if board.words else []
    if draw.randrange(4) > 0 and 'all' not in words and word not in words:
        board.words = ','.join(words + [word])


def make_socket(draw, board, f):
    """A CardBus bridge: header layout 2, with registers and a list of its own."""
    say_word(draw, board, 'cardbus')
    f.image[HEADER] = draw.choice((2, 2, 0x82))
    f.image[0x10:0x40] = bytes(draw.choice((0, 0, 1, 0x41, 0xE0, 0xFF)) for _ in range(0x30))
    f.image[STATUS] = draw.choice((0, 0x10, 0x10, 0xB0))
    f.image[CAPABILITIES] = draw.choice((0, 0x14, 0x40, 0x40))
    f.image[0x40:0x48] = bytes((1, 0, 3, 0, draw.randrange(4), 0, 0, 0))
    for offset in draw.choice(((), (0x10,), (0x10, 0x24), (0x10, 0x30), (0x10, 0x2C), (0x34,))):
        put_number(f.probe, offset, 4, draw.choice((0xFFFFF000, 0xFFFFFFFD, 0xFFFFFFFF)))


def fix_window(draw, board, f):
    """A window whose read backs are none: what is shown, nothing, or those of another window."""
    if not f.is_bridge:
        return
    say_word(draw, board, 'windows')
    kind = draw.choice(sorted(WINDOW_REGISTER))
    shown = list(window_bounds(f.image, kind))
    change = draw.randrange(6)
    if change == 1:
        shown[draw.randrange(2)] ^= draw.choice((1, 2, 8))
    elif change == 2:
        nibble = draw.choice((0, 1, 1, 2))
        shown[:2] = [end & 0xFFF0 | nibble for end in shown[:2]]
    elif change == 3 and kind != 'mem':
        shown[draw.choice((2, 3))] ^= 1
    elif change == 4:
        shown = [0, 0, 0, 0]
    put_bounds(f.image, kind, shown)
    nothing, page = (0, 0, 0, 0), 0xF0 if kind == 'io' else 0xFFF0
    put_bounds(f.probe, kind, draw.choice((nothing, nothing, tuple(shown), (page, 0, 0, 0), (page | 2, page | 2, 0, 0),
                                           (page, page, 0, 0), (page | 1, page | 1, 0, 0))))


COMMON = (move_part, move_part, move_part, move_window, move_window, move_window, change_upper_half, change_command,
          change_command, switch_rom)
RARE = (snoop, change_control, mix_profile, mix_profile, change_class, clear_buses, change_buses, change_buses,
        change_buses, change_buses, change_roots, change_roots, change_identity, change_identity, flip_bit,
        change_read_back, change_encoding, change_list, change_list, change_list, lose_upper_half, put_to_sleep,
        drop_function, drop_function, hide_function_zero, hide_function_zero, clear_optional_window, make_socket, make_socket, fix_window, fix_window,
        fix_window)


def spoil(draw, board):
    """Makes some things wrong on most boards."""
    is_rare = draw.randrange(2) == 0
    for _ in range(draw.choice((0, 0, 1, 1, 1, 2, 3, 6))):
        if board.functions:
            f = draw.choice(board.functions)
            change = draw.choice(RARE if is_rare and draw.randrange(4) > 0 else COMMON)
            if f.layout < 2 or change in (change_identity, drop_function):
                change(draw, board, f)
