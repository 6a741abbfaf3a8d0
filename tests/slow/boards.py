"""Boards made by rule from a seed: trees of bridges on one to three root buses, with BARs, ROMs and windows.

`board(seed)` is a `Board`: `functions`, `roots`, `words` of `--model` or None, `host_io` and `host_mem` (lists of
(root or None, first, last), or None), `dump` and `probe` (the texts), `probe_slots`, `options()` (of the command line).

One half of the boards is crowded: all addresses are taken from a few around the ends of windows, of 64 KB, 1 MB and
4 GB, and of what a VGA adapter answers. The other half is placed as firmware does it. Most are spoilt afterwards, as
spoiling.py says.
"""

import random

from model import (BRIDGE_CONTROL, CAPABILITIES, CLASS, COMMAND, HEADER, IO, MEM, STATUS, WINDOWS, Function, bit,
                   close_window, dump_text, probe_text, put_bar, put_bounds, put_number, put_rom, put_window, slot_text)
from placing import place_tidily
from spoiling import spoil
from words import is_subtractive

PORTS = (0x3A0, 0x3B0, 0x3B8, 0x3BC, 0x3C0, 0x3D8, 0x3E0, 0x13B0, 0x13DC, 0xC3C0, 0xF7C8, 0xFFB8, 0x103B0, 0x113C0,
         0xFFFFFFB0, 0x2000, 0xFFF, 0x1000, 0xFFFF, 0x10000)
PLACES = (0x9F000, 0x9FFF0, 0xA0000, 0xA8000, 0xAFFF0, 0xB0000, 0xBFFF0, 0xC0000, 0xFFF00, 0x100000, 0x140000, 0x1FFFF0,
          0x200000, 0x380000, 0xFFFFFFF0, 0xFFF00000, 0)
HIGH_PLACES = (0x100000000, 0x1000FFFF0, 0x100100000, 0x1000A0000, (1 << 64) - 16, (1 << 64) - 0x200000)
# of these alone on boards that are about what a VGA adapter answers
VGA_PORTS = (0x3A8, 0x3B0, 0x3B8, 0x3BC, 0x3C0, 0x3DC, 0x3E0, 0x7B0, 0x13DC, 0xC3C0, 0xFBB8, 0xFFAC, 0xFFB0, 0xFFBC,
             0xFFC8, 0xFFDC, 0x103B0)
VGA_PLACES = (0x9FFF0, 0xA0000, 0xA8000, 0xB0000, 0xBFFF0, 0xC0000)
# of these alone on boards that are about ISA Enable
ISA_PORTS = (0xF8, 0x100, 0x3FC, 0x400, 0x4F0, 0x500, 0x1000, 0x10F8, 0x1100, 0x1400, 0x1FF0, 0xFC00, 0xFCF8, 0xFD00, 0xFFF8,
             0x10000, 0x10100, 0x10400)
# of these alone on boards that are about the palette of a VGA adapter
PALETTE_PORTS = (0x3C0, 0x3C4, 0x3C8, 0x3CC, 0x7C4, 0x7C8, 0xFBC0, 0xFFC4, 0xFFC8, 0x103C8, 0x3E0)
IO_PAGES = (0, 0, 1, 0xC, 0xF, 0x10, 0x11, 0xFFFFF)
MEMORY_PAGES = (0, 0, 1, 2, 3, 0xFFF)
HIGH_PAGES = (0, 1, 0x1000, 0x1001, 0xFFFFFFFFFFF)
MODEL_WORDS = ('cardbus', 'ide', 'isa', 'power', 'reset', 'snoop', 'subtractive', 'unclaimed', 'unnumbered', 'windows')


class Board:
    """A board, and what is said beside it."""

    def __init__(self, seed):
        self.seed = seed
        self.roots = [0]
        self.functions = []
        self.only_in_dump = set()
        self.only_in_probe = set()
        self.words = None
        self.host_io = None
        self.host_mem = None

    @property
    def listed(self):
        """The functions of the dump."""
        return [f for f in self.functions if f.slot not in self.only_in_probe]

    @property
    def probed(self):
        """The functions of the probe."""
        return [f for f in self.functions if f.slot not in self.only_in_dump]

    @property
    def dump(self):
        """The text of the dump."""
        return dump_text(self.listed)

    @property
    def probe(self):
        """The text of the probe."""
        return probe_text(self.probed)

    @property
    def probe_slots(self):
        """The slots of the probe."""
        return [f.slot for f in self.probed]

    def root_words(self):
        """The option that lists the root buses."""
        return [] if self.roots == [0] else ['--root', ','.join('%02x' % root for root in self.roots)]

    def options(self):
        """All options of `faults` and `map`."""
        words = self.root_words()
        if self.words:
            words += ['--model', self.words]
        for name, ranges in (('--host-io', self.host_io), ('--host-mem', self.host_mem)):
            if ranges is not None:
                words += [name, ranges_words(ranges)]
        return words


def ranges_words(ranges):
    """A list of ranges as the command line takes it."""
    return ','.join(('' if root is None else '%02x:' % root) + '%x-%x' % (first, last)
                    for root, first, last in ranges) or 'none'


class Maker:
    """Draws a board from a seed."""

    def __init__(self, seed):
        self.draw = random.Random(seed)
        self.board = Board(seed)
        self.most = self.draw.choice((3, 6, 10, 16, 24))
        self.spread = self.draw.choice((2, 3, 5))
        self.is_vga = self.one_in(5)
        self.is_isa = not self.is_vga and self.one_in(5)
        self.is_snooping = not self.is_vga and not self.is_isa and self.one_in(6)
        self.is_subtractive = self.one_in(8)

    def one_in(self, n):
        """Whether a draw of n is the first."""
        return self.draw.randrange(n) == 0

    def lay_out(self):
        """Puts functions on the board, and gives them addresses."""
        board = self.board
        if self.one_in(3):
            board.roots = sorted(self.draw.sample((0, 0x10, 0x40, 0xFE), self.draw.randrange(1, 4)))
        for place, root in enumerate(board.roots):
            end = (board.roots + [256])[place + 1]
            self.fill(root, min(end - 1, root + 12), 0)
        board.functions.sort(key=lambda f: f.slot)
        if self.is_vga or self.is_isa or self.is_snooping or self.one_in(2):
            self.crowd()
        else:
            place_tidily(self.draw, board)

    def make(self):
        """The board."""
        board = self.board
        self.lay_out()
        for f in board.functions:
            self.decorate(f)
            self.set_bits(f)
        self.say_beside()
        spoil(self.draw, board)
        return board

    def fill(self, bus, last, depth):
        """Puts functions on a bus, which with those behind it has the numbers up to `last`."""
        given = bus
        devices = sorted(self.draw.sample(range(32), self.draw.randrange(0 if depth else 1, 5)))
        for device in devices:
            if self.most <= len(self.board.functions):
                return
            if given < last and depth < 5 and self.one_in(2):
                secondary = given + 1
                given = last if depth and self.one_in(3) else self.draw.randrange(secondary, last + 1)
                self.add_bridge((bus, device, 0), secondary, given)
                self.fill(secondary, given, depth + 1)
            else:
                self.add_device((bus, device, 0))
                if self.one_in(5):
                    self.add_device((bus, device, self.draw.randrange(1, 8)))

    def add_device(self, slot):
        """A device with BARs and a ROM or none."""
        f = Function(slot)
        self.give_identity(f)
        self.give_bars(f, 6)
        if self.one_in(4):
            self.give_rom(f)
        self.board.functions.append(f)

    def add_bridge(self, slot, secondary, subordinate):
        """A bridge with a memory window, and with each other part or without."""
        f = Function(slot)
        self.give_identity(f)
        f.image[HEADER] = 1
        f.image[0x18:0x1B] = bytes((slot[0], secondary, subordinate))
        if self.one_in(3):
            self.give_bars(f, 2)
        if self.one_in(6):
            self.give_rom(f)
        for kind in WINDOWS:
            if kind == 'mem' or not self.one_in(4):
                nibble = 1 if kind != 'mem' and self.one_in(2) else 0
                page = 0xF0 if kind == 'io' else 0xFFF0
                upper = nibble * (0xFFFF if kind == 'io' else 0xFFFFFFFF)
                put_bounds(f.probe, kind, (page + nibble, page + nibble, upper, upper))
                put_window(f, kind, 1 << 20, 0)
        self.board.functions.append(f)

    def give_identity(self, f):
        """Vendor, device, class, and Command with both spaces on mostly."""
        put_number(f.image, 0, 4, 0x56781234)
        put_number(f.image, COMMAND, 2, self.draw.choice((3, 3, 3, 3, 3, 7, 2, 1, 0, 0x547 | 3)))
        put_number(f.image, CLASS, 3, self.draw.choice((0, 0x020000, 0x010180, 0x010185, 0x060400)))
        f.image[HEADER] = 0x80 if self.one_in(4) else 0

    def give_bars(self, f, count):
        """BARs at some of the registers."""
        n = 0
        while n < count:
            kind = self.draw.choice(('io', 'mem', 'wide')) if self.one_in(self.spread) else None
            n += self.give_bar(f, n, kind, n + 1 < count) if kind else 1

    def give_bar(self, f, n, kind, has_next):
        """A BAR at register n; how many registers it takes."""
        register = 0x10 + 4 * n
        if kind == 'io':
            top = 0xFFFF if self.one_in(2) else 0xFFFFFFFF
            put_number(f.probe, register, 4, (top >> 2 << self.draw.randrange(2, 9)) & top & ~3 | 1)
            f.image[register] = 1
            return 1
        encoding = (8 if self.one_in(2) else 0) | (4 if kind == 'wide' and has_next else 0)
        width = 8 if encoding & 4 else 4
        k = self.draw.choice((4, 4, 8, 12, 12, 16, 20, 21, 26)) + (10 if width == 8 and self.one_in(8) else 0)
        ones = (1 << 8 * width) - (1 << min(k, 8 * width - 1))
        put_number(f.probe, register, width, ones | encoding)
        put_number(f.image, register, width, encoding)
        return width // 4

    def give_rom(self, f):
        """A ROM."""
        put_number(f.probe, f.rom_register, 4, (1 << 32) - (1 << self.draw.randrange(11, 25)))

    def crowd(self):
        """Takes all addresses from a few."""
        for f in self.board.functions:
            for part in f.bars() + f.rom():
                places = PORTS if part.space == IO else PLACES
                if self.is_vga:
                    places = VGA_PORTS if part.space == IO else VGA_PLACES
                if self.is_isa and part.space == IO:
                    places = ISA_PORTS
                if self.is_snooping and part.space == IO:
                    places = PALETTE_PORTS
                if part.wide and self.one_in(3):
                    places = HIGH_PLACES
                address = self.draw.choice(places) & ~(part.size - 1)
                if part.space == IO and not bit(part.shown(f.probe), 31):
                    address &= 0xFFFF
                if part.kind == 'bar':
                    put_bar(f, part, address)
                else:
                    put_rom(f, address, not self.one_in(3))
            for window in f.windows():
                self.crowd_window(f, window)

    def crowd_window(self, f, window):
        """Pages of a window from a few, which may be crossed."""
        pages = {'io': IO_PAGES, 'mem': MEMORY_PAGES, 'pref': MEMORY_PAGES}[window.window]
        if window.window == 'pref' and window.wide:
            pages = HIGH_PAGES
        if window.window == 'io' and not window.wide:
            pages = IO_PAGES[:5]
        base, limit = self.draw.choice(pages), self.draw.choice(pages)
        if not self.one_in(4):
            base, limit = min(base, limit), max(base, limit)
        size = 0x1000 if window.window == 'io' else 0x100000
        put_window(f, window.window, base * size, limit * size)

    def decorate(self, f):
        """A capabilities list, titles, legacy addresses."""
        if self.one_in(3):
            self.give_list(f)
        if f.is_bridge and self.one_in(2 if self.is_vga else 8):
            f.image[BRIDGE_CONTROL] |= self.draw.choice((0x08, 0x18))
        if f.is_bridge and self.one_in(2 if self.is_isa else 8):
            f.image[BRIDGE_CONTROL] |= 0x04
        if self.one_in(10):
            f.titles = (self.draw.choice(('VGA compatible controller: X', ' ', '~')), '')
        if self.one_in(10):
            f.titles = (f.titles[0], self.draw.choice(('assumed 10,30', 'assumed 10', 'assumed 18,38', 'assumed')))

    def set_bits(self, f):
        """Palette snooping and subtractive decode, on boards that are about these."""
        if self.is_snooping and self.one_in(2):
            f.image[COMMAND] |= 0x20
        if self.is_subtractive and self.one_in(2):
            self.make_subtractive(f)

    def make_subtractive(self, f):
        """A bridge decodes subtractively, mostly alone on its bus, and mostly with some of its windows closed."""
        rivals = [g for g in self.board.functions if is_subtractive(g) and g.slot[0] == f.slot[0]]
        if not f.is_bridge or (rivals and not self.one_in(3)):
            return
        put_number(f.image, CLASS, 3, 0x060401)
        for window in f.windows():
            if self.one_in(2):
                close_window(f, window.window)

    def give_list(self, f):
        """A capabilities list that ends."""
        places = self.draw.sample(range(0x40, 0xE8, 0x18), self.draw.randrange(1, 5))
        put_number(f.image, STATUS, 2, 0x10)
        f.image[CAPABILITIES] = places[0] + self.draw.randrange(4)
        for place, following in zip(places, places[1:] + [0]):
            f.image[place] = self.draw.choice((1, 5, 5, 0x10, 0x11))
            f.image[place + 1] = following + self.draw.randrange(4)
            control = self.draw.choice((0, 0x80, 0x100, 0x181)) if f.image[place] == 5 else 0
            put_number(f.image, place + 2, 2, control)

    def say_beside(self):
        """Words of `--model`, and what the host sends."""
        board = self.board
        about = [word for word, is_about in (('isa', self.is_isa), ('snoop', self.is_snooping),
                                             ('unclaimed', self.is_subtractive)) if is_about]
        if self.is_vga or about or self.one_in(2):
            words = self.draw.sample(MODEL_WORDS, self.draw.randrange(0, len(MODEL_WORDS) + 1))
            words += self.draw.choice(([], ['vga'], ['vga16'], ['vga']))
            if self.is_vga and not {'vga', 'vga16'} & set(words):
                words.append('vga')
            words += [word for word in about if word not in words]
            self.draw.shuffle(words)
            board.words = 'all' if self.one_in(6) else ','.join(words) or None
        if self.one_in(3):
            board.host_io = self.ranges(IO, 32)
        if self.one_in(3):
            board.host_mem = self.ranges(MEM, 64)

    def ranges(self, space, width):
        """Ranges that end where something on the board begins or ends, or anywhere beside it."""
        found = [0, (1 << width) - 1]
        for f in self.board.functions:
            found += [end for part in f.parts() if part.space == space for end in (part.first, part.last + 1)]
        found += [0xA0000, 0xC0000] if space == MEM else [0x3B0, 0x3C0, 0xFFFF, 0x10000]
        ends = {max(0, min((1 << width) - 1, end + self.draw.choice((0, 0, 0, 0, -1, 1)))) for end in found}
        cuts = sorted(self.draw.sample(sorted(ends), min(len(ends), 2 * self.draw.randrange(0, 4))))
        ranges = [(self.draw.choice([None] + self.board.roots), first, last - self.draw.randrange(2))
                  for first, last in zip(cuts[::2], cuts[1::2]) if first < last]
        if self.one_in(3):
            ranges = [(None, 0, (1 << width) - 1)]
        self.draw.shuffle(ranges)
        return ranges


def board(seed):
    """The board of a seed."""
    return Maker(seed).make()


def described(made):
    """A board in a few lines, for whoever looks for what went wrong."""
    lines = ['seed %d roots %s %s' % (made.seed, made.roots, ' '.join(made.options()))]
    for f in made.functions:
        buses = ' bus %02x %02x %02x control %04x' % (
            f.primary, f.secondary, f.subordinate, f.bridge_control) if f.is_bridge else ''
        lines.append('%s type %d command %04x%s' % (slot_text(f.slot), f.layout, f.command, buses))
        if f.layout < 2:
            lines += ['  %02x %s %s %x-%x%s' % (part.register, part.window or part.kind, part.space, part.first,
                                               part.last, ' closed' if part.is_closed else '') for part in f.parts()]
    return '\n'.join(lines)
