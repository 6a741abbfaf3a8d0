"""Texts, functions and their registers: what the slow judge, planner and settler start from.

It is read off docs/FORMATS.md and docs/REGISTERS.md (PCI Local Bus Specification 3.0, chapter 6; PCI-to-PCI Bridge
Architecture Specification 1.2, chapters 3 and 4; Power Management 1.2).

What there is:

- `IO`, `MEM`: the two spaces. `WINDOWS`: the kinds of window, `io`, `mem` and `pref`.
- `number_at(image, offset, width)`, `put_number(image, offset, width, value)`, `bit(number, i)`.
- A slot is a tuple (bus, device, function). `slot_text(slot)`, `slot_of(text)`.
- `Function`: `slot`, `image`, `probe` (two bytearrays of 256), `titles` (of dump and probe, '' where there is none);
  `command`, `layout`, `is_bridge`, `primary`, `secondary`, `subordinate`, `bridge_control`, `is_on(space)`, `copy()`,
  `bars()`, `rom()`, `windows()`, `parts()`: what is implemented, by rising register.
- `Part`, of a function: `kind` (`bar`, `rom`, or `window`), `register`, `n` (number of a BAR), `window` (kind of a
  window), `space`, `prefetchable`, `wide` (64 bits of memory, or upper halves), `value`, `first`, `last`, `size`,
  `is_closed`, `enabled`, `decodes(address)`, `claims(space, address)`.
  Its decoding is right where the function has none of the faults 20 to 26.
- `bar_mask`, `rom_mask`, `window_bounds(image, kind)`, `page_size`: the registers behind these parts.
- `capabilities(image)`: the places of the walk, up to where it ends or repeats.
- `put_window(f, kind, first, last)`, `close_window(f, kind)`, `put_bar(f, part, address)`, `put_rom(f, address, on)`.
- `address_registers(f)`: (offset, width) of each, by rising offset.
- `write(f, offset, width, value)`: what a write to the register machine changes.
- `dump_text(functions)`, `probe_text(functions)`, `write_text(slot, offset, width, value)`.
- `blocks(text)`: (slot, title, image) of each block of a good text. `functions_of(dump, probe)` joins two good texts of
  the same slots.
- `assumed(f)`: the offsets that the probe's title names.
"""

import re

IO = 'io'
MEM = 'mem'
WINDOWS = ('io', 'mem', 'pref')

VENDOR = 0x00
COMMAND = 0x04
STATUS = 0x06
CLASS = 0x09
HEADER = 0x0E
CAPABILITIES = 0x34
INTERRUPT_LINE = 0x3C
BRIDGE_CONTROL = 0x3E
WINDOW_REGISTER = {'io': 0x1C, 'mem': 0x20, 'pref': 0x24}
PAGE = {'io': 0x1000, 'mem': 0x100000, 'pref': 0x100000}
WIDTH = {IO: 32, MEM: 64}


def number_at(image, offset, width):
    """The number of so many bytes at an offset, the low byte first."""
    return int.from_bytes(image[offset:offset + width], 'little')


def put_number(image, offset, width, value):
    """Puts a number of so many bytes at an offset."""
    image[offset:offset + width] = value.to_bytes(width, 'little')


def bit(number, i):
    """Whether bit i of a number is set."""
    return number >> i & 1 == 1


def slot_text(slot):
    """A slot as `bb:dd.f`."""
    return '%02x:%02x.%x' % slot


def slot_of(text):
    """The slot that `bb:dd.f` says."""
    return int(text[0:2], 16), int(text[3:5], 16), int(text[6], 16)


def page_size(kind):
    """The addresses of a page of a window."""
    return PAGE[kind]


def window_bounds(image, kind):
    """Base, limit and their upper halves, which are 0 where there are none."""
    if kind == 'io':
        return (image[0x1C], image[0x1D], number_at(image, 0x30, 2), number_at(image, 0x32, 2))
    if kind == 'mem':
        return (number_at(image, 0x20, 2), number_at(image, 0x22, 2), 0, 0)
    return (number_at(image, 0x24, 2), number_at(image, 0x26, 2),
            number_at(image, 0x28, 4), number_at(image, 0x2C, 4))


def bar_mask(f, n):
    """What register n of the BARs reads back."""
    return number_at(f.probe, 0x10 + 4 * n, 4)


def rom_mask(f):
    """What the ROM's register reads back."""
    return number_at(f.probe, f.rom_register, 4)


def is_wide_bar(mask):
    """Whether this read back is that of the lower half of a 64-bit BAR."""
    return not bit(mask, 0) and mask >> 1 & 3 == 2


def starting_registers(f):
    """The numbers of the registers that start a BAR, implemented or not."""
    numbers, n = [], 0
    while n < f.bar_count:
        numbers.append(n)
        n += 2 if is_wide_bar(bar_mask(f, n)) else 1
    return numbers


class Part:
    """A BAR, a ROM or a window of a function."""

    def __init__(self, function, kind, register, n=None, window=None):
        self.function = function
        self.kind = kind
        self.register = register
        self.n = n
        self.window = window
        mask = bar_mask(function, n) if kind == 'bar' else 0
        if kind == 'window':
            self.space = IO if window == 'io' else MEM
            self.prefetchable = False
            self.wide = window_bounds(function.probe, window)[0] & 15 == 1
        else:
            self.space = IO if bit(mask, 0) else MEM
            self.prefetchable = self.space == MEM and bit(mask, 3)
            self.wide = is_wide_bar(mask)

    def shown(self, image):
        """The number that the registers of a BAR or ROM show, with the upper half where there is one."""
        return number_at(image, self.register, 8 if self.wide else 4)

    @property
    def value(self):
        """What the registers of a BAR or ROM hold."""
        return self.shown(self.function.image)

    @property
    def lowest_bit(self):
        """k, where a BAR or ROM has 2^k addresses: the lowest one of its read back that is no encoding bit."""
        if self.kind == 'rom':
            from_bit = 0
        else:
            from_bit = 2 if self.space == IO else 4
        mask = self.shown(self.function.probe)
        k = from_bit
        while k < 63 and not bit(mask, k):
            k += 1
        return k

    def pages(self):
        """The first and the last page number of a window."""
        base, limit, base_upper, limit_upper = window_bounds(self.function.image, self.window)
        pages = 16 if self.window == 'io' else 4096
        return base_upper * pages + base // 16, limit_upper * pages + limit // 16

    @property
    def is_closed(self):
        """Whether it is a window whose base is above its limit."""
        return self.kind == 'window' and self.pages()[0] > self.pages()[1]

    @property
    def first(self):
        """The first address."""
        if self.kind == 'window':
            return self.pages()[0] * PAGE[self.window]
        return self.value >> self.lowest_bit << self.lowest_bit

    @property
    def last(self):
        """The last address."""
        if self.kind == 'window':
            return (self.pages()[1] + 1) * PAGE[self.window] - 1
        return self.first + self.size - 1

    @property
    def size(self):
        """How many addresses it has; 0 of a closed window."""
        if self.kind == 'window':
            return 0 if self.is_closed else self.last + 1 - self.first
        return 1 << self.lowest_bit

    @property
    def enabled(self):
        """Whether Command enables its space, and a ROM its own bit 0."""
        if not self.function.is_on(self.space):
            return False
        return self.kind != 'rom' or bit(self.value, 0)

    def decodes(self, address):
        """Whether it answers an address once it is enabled."""
        if self.kind == 'window':
            low, high = self.pages()
            return low <= address // PAGE[self.window] <= high
        k = self.lowest_bit
        return address >> k == self.value >> k

    def claims(self, space, address):
        """Whether it is enabled and answers an address of a space."""
        return (self.space == space and self.enabled and 0 <= address < 1 << WIDTH[space]
                and self.decodes(address))


class Function:
    """A function: its slot, its configuration space, and what each address register reads back."""

    def __init__(self, slot, image=None, probe=None, titles=('', '')):
        self.slot = slot
        self.image = bytearray(256) if image is None else bytearray(image)
        self.probe = bytearray(256) if probe is None else bytearray(probe)
        self.titles = titles

    def copy(self):
        """The same, with images of its own."""
        return Function(self.slot, self.image, self.probe, self.titles)

    @property
    def command(self):
        """Command."""
        return number_at(self.image, COMMAND, 2)

    @property
    def layout(self):
        """Bits 6:0 of Header Type."""
        return self.image[HEADER] & 0x7F

    @property
    def is_bridge(self):
        """Whether it is a PCI-to-PCI bridge."""
        return self.layout == 1

    @property
    def primary(self):
        """Primary Bus Number."""
        return self.image[0x18]

    @property
    def secondary(self):
        """Secondary Bus Number."""
        return self.image[0x19]

    @property
    def subordinate(self):
        """Subordinate Bus Number."""
        return self.image[0x1A]

    @property
    def bridge_control(self):
        """Bridge Control."""
        return number_at(self.image, BRIDGE_CONTROL, 2)

    @property
    def bar_count(self):
        """How many BAR registers there are."""
        return 2 if self.is_bridge else 6

    @property
    def rom_register(self):
        """The offset of the ROM's register."""
        return 0x38 if self.is_bridge else 0x30

    def is_on(self, space):
        """Whether Command enables a space."""
        return bit(self.command, 0 if space == IO else 1)

    def bars(self):
        """The implemented BARs."""
        return [Part(self, 'bar', 0x10 + 4 * n, n=n) for n in starting_registers(self) if bar_mask(self, n)]

    def rom(self):
        """The ROM, in a list, or none."""
        there = number_at(self.image, self.rom_register, 4) or rom_mask(self)
        return [Part(self, 'rom', self.rom_register)] if there else []

    def windows(self):
        """The implemented windows of a bridge, open or closed."""
        if not self.is_bridge:
            return []
        return [Part(self, 'window', WINDOW_REGISTER[kind], window=kind)
                for kind in WINDOWS if any(window_bounds(self.probe, kind))]

    def parts(self):
        """BARs, ROM and windows by rising register."""
        return sorted(self.bars() + self.rom() + self.windows(), key=lambda part: part.register)


def capabilities(image):
    """The places that the walk along the capabilities list comes to, each once, as far as it leads to new ones."""
    places = []
    place = image[CAPABILITIES] & 0xFC if bit(number_at(image, STATUS, 2), 4) else 0
    while place != 0 and place not in places:
        places.append(place)
        place = image[place + 1] & 0xFC
    return places


def put_bounds(image, kind, bounds):
    """Puts base, limit and their upper halves."""
    base, limit, base_upper, limit_upper = bounds
    width = 1 if kind == 'io' else 2
    put_number(image, WINDOW_REGISTER[kind], width, base)
    put_number(image, WINDOW_REGISTER[kind] + width, width, limit)
    if kind == 'io':
        put_number(image, 0x30, 2, base_upper)
        put_number(image, 0x32, 2, limit_upper)
    elif kind == 'pref':
        put_number(image, 0x28, 4, base_upper)
        put_number(image, 0x2C, 4, limit_upper)


def put_window(f, kind, first, last):
    """Lets a window go from the page of one address to that of another."""
    nibble = window_bounds(f.probe, kind)[0] & 15
    pages = 16 if kind == 'io' else 4096
    base, limit = first // PAGE[kind], last // PAGE[kind]
    put_bounds(f.image, kind, (base % pages * 16 + nibble, limit % pages * 16 + nibble, base // pages, limit // pages))


def close_window(f, kind):
    """Closes a window: the highest page as base, page 0 as limit, upper halves 0."""
    nibble = window_bounds(f.probe, kind)[0] & 15
    put_bounds(f.image, kind, ((0xF0 if kind == 'io' else 0xFFF0) + nibble, nibble, 0, 0))


def put_bar(f, part, address):
    """Puts the address of a BAR beside its encoding bits."""
    encoding = part.shown(f.probe) & (3 if part.space == IO else 15)
    put_number(f.image, part.register, 8 if part.wide else 4, address + encoding)


def put_rom(f, address, on):
    """Puts the address of a ROM, and its enable bit."""
    put_number(f.image, f.rom_register, 4, address + (1 if on else 0))


def address_registers(f):
    """Offset and width of each register that sets what a function decodes, by rising offset."""
    if f.is_bridge:
        return [(0x10, 4), (0x14, 4), (0x1C, 2), (0x20, 4), (0x24, 4), (0x28, 4), (0x2C, 4), (0x30, 4), (0x38, 4)]
    return [(0x10 + 4 * n, 4) for n in range(6)] + [(0x30, 4)]


def writable_bits(f):
    """Which bits of each byte a write sets."""
    bits = bytearray(256)
    put_number(bits, COMMAND, 2, 0x0547)
    bits[INTERRUPT_LINE] = 0xFF
    for offset, width in address_registers(f):
        bits[offset:offset + width] = f.probe[offset:offset + width]
    for n in starting_registers(f):
        mask = bar_mask(f, n)
        put_number(bits, 0x10 + 4 * n, 4, mask & ~(3 if bit(mask, 0) else 15))
    if rom_mask(f):
        bits[f.rom_register] |= 1
    if f.is_bridge:
        bits[0x18:0x1B] = b'\xff\xff\xff'
        for offset in (0x1C, 0x1D, 0x20, 0x22, 0x24, 0x26):
            bits[offset] &= 0xF0
    return bits


def write(f, offset, width, value):
    """What one write changes: writable bits take the datum, and ones clear bits 8 and 11 to 15 of a status."""
    bits = writable_bits(f)
    clearing = bytearray(256)
    for status in [STATUS] + ([0x1E] if f.is_bridge else []):
        put_number(clearing, status, 2, 0xF900)
    for at, datum in enumerate(value.to_bytes(width, 'little'), offset):
        kept = f.image[at] & ~bits[at] & ~(datum & clearing[at])
        f.image[at] = (kept | datum & bits[at]) & 0xFF


def block_text(slot, title, image):
    """A block of a dump or a probe."""
    lines = [slot_text(slot) + (' ' + title if title else '')]
    lines += ['%02x: %s' % (row, image[row:row + 16].hex(' ')) for row in range(0, 256, 16)]
    return '\n'.join(lines) + '\n\n'


def dump_text(functions):
    """The dump of some functions."""
    return ''.join(block_text(f.slot, f.titles[0], f.image) for f in functions)


def probe_text(functions):
    """Their probe."""
    return ''.join(block_text(f.slot, f.titles[1], f.probe) for f in functions)


def write_text(slot, offset, width, value):
    """A write as `plan --writes` prints it, without the line's end."""
    return '%s %02x.%d %0*x' % (slot_text(slot), offset, width, 2 * width, value)


def blocks(text):
    """Slot, title and image of each block of a good text."""
    found = []
    for block in text.split('\n\n')[:-1]:
        lines = block.split('\n')
        image = bytearray.fromhex(''.join(line[4:] for line in lines[1:17]))
        found.append((slot_of(lines[0]), lines[0][8:], image))
    return found


def functions_of(dump, probe):
    """The functions of two good texts that list the same slots."""
    return [Function(slot, image, probe_image, (title, probe_title))
            for (slot, title, image), (_, probe_title, probe_image) in zip(blocks(dump), blocks(probe))]


def assumed(f):
    """The offsets that the title of the probe names as assumed."""
    if not re.fullmatch('assumed [0-9a-f]{2}(,[0-9a-f]{2})*', f.titles[1]):
        return []
    return [int(offset, 16) for offset in f.titles[1][8:].split(',')]
