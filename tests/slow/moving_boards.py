"""Boards made by rule for the planner and the settler, and what is asked of them.

What is on a board is mostly such that it can be planned or settled: addresses crowd in a few pages of windows, so that
much stands and much clashes. `Rule(seed)` draws numbers; of one seed it always makes the same.

- `Rule.board()`: a `Board` with `functions` and `roots`, which has none of the faults 20 to 58.
- `Rule.pools()`, `Rule.request(board)`: what `plan` and `settle` are asked.
- `Rule.change(board)`: what happens to a board between two askings: a card is plugged in, or a function is changed.
"""

import random

from model import (COMMAND, HEADER, MEM, Function, close_window, page_size, put_bar, put_bounds, put_number, put_rom,
                   put_window)
from planner import Pools
from settler import Request

IO_SIZES = [4, 8, 0x20, 0x20, 0x40, 0x80, 0x100, 0x100]
MEMORY_SIZES = [0x10, 0x100, 0x1000, 0x1000, 0x1000, 0x4000, 0x10000, 0x10000, 0x100000, 0x100000, 0x200000, 0x800000]
ROM_SIZES = [0x800, 0x800, 0x1000, 0x10000, 0x100000, 0x1000000]
COMMANDS = [0, 1, 2, 3, 3, 3, 0x104, 0x107, 0x503, 0x400]

# ranges of which lists are made
IO_RANGES = [
    [(0x1000, 0x1FFF), (0x2000, 0x27FF), (0x3010, 0x5FFF), (0x6000, 0xFFFF)],
    [(0x1000, 0x1FFF), (0x6000, 0x10FFF), (0x11010, 0x15FFF), (0x2000, 0x27FF)],
    [(0x0, 0xFFFF)],
    [(0x1000, 0x2FFF), (0x4000, 0xFFFFFFFF)],
    [(0xF000, 0x2FFFF)],
    [(0x10000, 0x1FFFF), (0xF800, 0xFFFF)],
]
MEMORY_RANGES = [
    [(0xE0000000, 0xE01FFFFF), (0xE0200000, 0xE02FFFFF), (0xE0300800, 0xE05FFFFF), (0xE0700000, 0xE0FFFFFF)],
    [(0xE0000000, 0xE0FFFFFF)],
    [(0xE0100000, 0xE03FFFFF), (0xE0800000, 0xEFFFFFFF)],
    [(0xFFF00000, 0xFFFFFFFF), (0xE0000000, 0xE03FFFFF)],
]
PREFETCH_RANGES = [
    [(0xE0400000, 0xE04FFFFF), (0xE0500000, 0xE07FFFFF), (0xE0A00000, 0xE0AFFFFF), (0xF0000000, 0xF0FFFFFF)],
    [(0xE0600000, 0xE07FFFFF), (0x100000000, 0x1002FFFFF), (0x100300000, 0x1007FFFFF),
     (0x200000000, 0xFFFFFFFFFFFFFFFF)],
    [(0x100000000, 0x1FFFFFFFF)],
    [(0xF0000000, 0xF7FFFFFF)],
    [(0xFFE00000, 0x1007FFFFF)],
]


class Board:
    """Functions by slot, and the root buses."""

    def __init__(self, functions, roots):
        self.functions = functions
        self.roots = roots

    def reversed_buses(self):
        """The buses on which something can stand, the last ones first."""
        return sorted(set(self.roots) | {f.secondary for f in self.functions if f.is_bridge}, reverse=True)


class Rule:
    """Draws what a board has, one number after another.

    By its mood addresses crowd, all is off and shows 0, BARs are large, or all BARs are of I/O, behind large windows.
    """

    def __init__(self, seed):
        self.draw = random.Random(seed * 2654435761 + 1)
        self.mood = self.one_of(['crowd', 'crowd', 'crowd', 'crowd', 'zero', 'wide', 'ports'])
        self.has_ports = self.mood == 'ports'

    def below(self, bound):
        """A number below a bound."""
        return int(self.draw.random() * bound)

    def one_in(self, bound):
        """True once in so many times."""
        return self.below(bound) == 0

    def one_of(self, choices):
        """One of some things."""
        return choices[self.below(len(choices))]

    # ---- parts

    def put_bar(self, f, n, last):
        """Gives register n a BAR; whether it takes the next register, too."""
        kind = 0 if self.has_ports else self.below(10)
        if kind < 3:
            mask = 0xFFFF if self.one_in(3) and not self.has_ports else 0xFFFFFFFF
            put_number(f.probe, 0x10 + 4 * n, 4, mask & -(0x100 if self.has_ports else self.one_of(IO_SIZES)) | 1)
            return False
        size = self.one_of(MEMORY_SIZES)
        encoding = 8 if kind > 6 else 0
        if n < last and self.one_in(2):
            if self.mood == 'wide' and self.one_in(6):
                size = 1 << 20 + self.below(20)
            put_number(f.probe, 0x10 + 4 * n, 8, (1 << 64) - size | encoding | 4)
            return True
        put_number(f.probe, 0x10 + 4 * n, 4, (1 << 32) - size | encoding)
        return False

    def put_registers(self, f, fullness):
        """Gives a function BARs and a ROM: so many of three registers have something."""
        n = 0
        while n < f.bar_count:
            taken = self.below(3) < fullness and self.put_bar(f, n, f.bar_count - 1)
            n += 2 if taken else 1
        if self.below(6) < fullness and not self.has_ports:
            put_number(f.probe, f.rom_register, 4, (1 << 32) - self.one_of(ROM_SIZES))

    def put_windows(self, f):
        """Gives a bridge its windows, closed."""
        nibbles = {'io': 1 if self.has_ports else self.one_of([None, 0, 0, 0, 1, 1]), 'mem': 0,
                   'pref': self.one_of([None, 0, 1, 1])}
        for kind, nibble in nibbles.items():
            if nibble is not None:
                page, upper = (0xF0, 0xFFFF) if kind == 'io' else (0xFFF0, 0xFFFFFFFF)
                put_bounds(f.probe, kind, (page + nibble, page + nibble, upper * nibble, upper * nibble))
                close_window(f, kind)

    def crowded(self, space, size, is_high):
        """An address in the crowd, aligned to a size."""
        if space == MEM:
            base, page, offset = (0x100000000 if is_high else 0xE0000000), 0x100000, 0x8000
        else:
            base, page, offset = (0x10000 if is_high else 0x1000), 0x1000, 0x80
        return base + self.below(8) * page + self.below(8) * offset & -size

    def put_address(self, f, part):
        """Puts a BAR or ROM somewhere."""
        mask = part.shown(f.probe)
        is_high = (mask >> 32 if part.space == MEM else mask >> 16) != 0 and self.one_in(3)
        at = 0 if self.mood == 'zero' or self.one_in(8) else self.crowded(part.space, part.size, is_high)
        if part.kind == 'rom':
            put_rom(f, at, self.one_in(2))
        else:
            put_bar(f, part, at)

    def put_bounds(self, f, window):
        """Opens a window somewhere, at times across 64 KB or 4 GB, or closes it, at times by its upper halves."""
        kind, page = window.window, page_size(window.window)
        across = 0x10000 if kind == 'io' else 0x100000000
        if self.mood == 'zero' or self.one_in(6):
            close_window(f, kind)
            if window.wide and self.mood != 'zero' and self.one_in(3):
                low = self.below(3)
                put_window(f, kind, (low + 1 + self.below(2)) * across, low * across)
            return
        first = self.crowded(window.space, page, window.wide and self.one_in(3))
        put_window(f, kind, first, first + self.one_of([1, 1, 2, 2, 3, 4]) * page - 1)
        if self.one_in(12):
            put_window(f, kind, 0, page - 1)
        elif window.wide and self.one_in(6):
            put_window(f, kind, across - page, across + page - 1)

    def place(self, f):
        """Puts all parts of a function somewhere, and draws its Command."""
        for part in f.bars() + f.rom():
            self.put_address(f, part)
        for window in f.windows():
            self.put_bounds(f, window)
        put_number(f.image, COMMAND, 2, 0 if self.mood == 'zero' else self.one_of(COMMANDS))

    # ---- functions and boards

    def function(self, slot, bridge=None):
        """A device, or a bridge with its three bus numbers."""
        f = Function(slot, bytes([self.below(255) for _ in range(256)]))
        f.image[0x00:0x40] = bytes(0x40)
        put_number(f.image, 0x00, 4, 0x12348086)
        put_number(f.image, 0x06, 2, self.one_of([0, 0xA0, 0x200]))
        f.image[0x3C] = self.below(256)
        if bridge:
            f.image[HEADER] = 1
            f.image[0x18:0x1B] = bytes(bridge)
            put_number(f.image, 0x09, 3, 0x060400)
            self.put_windows(f)
        f.image[HEADER] |= self.one_of([0, 0x80])
        self.put_registers(f, self.one_of([0, 0, 1]) if bridge else 3 if self.has_ports else self.one_of([1, 1, 2, 3]))
        self.place(f)
        if self.one_in(8):
            f.titles = (self.one_of(['', 'A title', ' ']), self.title(f))
        return f

    def title(self, f):
        """A title of a probe: it names registers as assumed at times."""
        registers = sorted({part.register for part in f.parts() if self.one_in(4)})
        if self.one_in(3) and registers:
            return 'assumed ' + ','.join('%02x' % register for register in registers)
        return self.one_of(['', 'Its probe', 'assumed', 'assumed 1'])

    def ways(self, bus, last, depth):
        """The bridges of a bus and behind it, as (bus, secondary, subordinate), with buses up to a last one."""
        ways, free = [], bus + 1
        while free <= last and self.one_in(2 if depth else 1) and len(ways) < 3:
            end = last if self.one_in(2) else free + self.below(last - free + 1)
            ways.append((bus, free, end))
            if depth < 3:
                ways += self.ways(free, end, depth + 1)
            free = end + 1
            if self.one_in(2):
                break
        return ways

    def board(self):
        """A board of some functions below one to three roots."""
        roots = self.one_of([[0], [0], [0], [0, 0x40], [0, 0x40], [0, 0x40, 0x80], [0x10]])
        ways = []
        for root in roots:
            if not self.one_in(5):
                ways += self.ways(root, root + self.one_of([1, 2, 4, 8]), 0)
        board = Board([], roots)
        for bus in sorted(set(roots) | {way[1] for way in ways}):
            self.fill(board, bus, [way for way in ways if way[0] == bus])
        return board

    def fill(self, board, bus, ways):
        """Puts devices and bridges onto a bus."""
        device = 0
        for way in ways + [None] * self.one_of([0, 1, 1, 2]):
            device += self.below(3)
            bridge = (bus, way[1], way[2]) if way else None
            if bridge or len(board.functions) < 7:
                board.functions.append(self.function((bus, device, 0), bridge))
                if self.one_in(6):
                    board.functions.append(self.function((bus, device, 1 + self.below(7))))
            device += 1

    def add_large(self, board):
        """Adds a device with two prefetchable BARs of half of all addresses, behind a bridge where there is one."""
        f = self.function((board.reversed_buses()[0], 23, 0))
        f.image[0x10:0x28] = f.probe[0x10:0x28] = bytes(24)
        put_number(f.probe, 0x10, 8, 1 << 63 | 0xC)
        put_number(f.probe, 0x18, 8, 1 << 63 | 0xC)
        put_number(f.image, 0x10, 8, 0xC)
        put_number(f.image, 0x18, 8, 1 << 63 | 0xC)
        board.functions = [g for g in board.functions if g.slot[:2] != f.slot[:2]] + [f]
        board.functions.sort(key=lambda g: g.slot)

    def change(self, board):
        """Plugs a card in, or changes a function; its slot."""
        self.mood = 'crowd'
        if board.functions and self.one_in(3):
            f = self.one_of(board.functions)
            keep = [part.register for part in f.parts() if self.one_in(3)]
            old = bytes(f.image)
            self.place(f)
            for part in f.parts():
                if part.register in keep and part.kind != 'window':
                    width = 8 if part.wide else 4
                    f.image[part.register:part.register + width] = old[part.register:part.register + width]
            return f.slot
        free = [(bus, device, 0) for bus in board.reversed_buses() for device in range(24, 32)
                if all(f.slot[:2] != (bus, device) for f in board.functions)]
        self.mood = self.one_of(['zero', 'zero', 'crowd'])
        slot = self.one_of(free)
        board.functions.append(self.function(slot))
        board.functions.sort(key=lambda f: f.slot)
        return slot

    # ---- what is asked

    def pools(self):
        """Pools for `plan`: refused ones at times."""
        io = self.one_of([(0x1000, 0xFFFF), (0x1000, 0x3FFF), (0, 0xFFFF), (0x1010, 0x8FFF), (0x2000, 0x2FFF)])
        first = self.one_of([0xE0000000, 0xE0080000, 0xC0000010, 0x0])
        size = self.one_of([0x200000, 0x1000000, 0x4000000, 0x10000000])
        pref = self.one_of([(0xF0000000, 0xF7FFFFFF), (0x100000000, 0x1FFFFFFFF), (0xF0000000, 0xF01FFFFF),
                            (0xF0100000, 0x10FFFFFFF), (0xFFFFFFFF00000000, 0xFFFFFFFFFFFFFFFF),
                            (0x180000000, 0xFFFFFFFFFFFFFFFF)])
        pools = Pools(io, (first, first + size - 1), pref)
        if self.one_in(40):
            bad = [(0x2000, 0x1FFF), (0x1000, 0x10000), (0xE0000000, 0x100000000), (0xEFFFFFFF, 0xF0000000)]
            pools = pools._replace(**{self.one_of(['io', 'mem', 'pref']): self.one_of(bad)})
        return pools

    def list(self, tables, roots):
        """A list of most ranges of a table, some of one root alone."""
        table = self.one_of(tables)
        start, ranges = self.below(len(table)), []
        if self.one_in(10):
            return []
        for first, last in table[start:] + table[:start]:
            if len(table) == 1 or not self.one_in(5):
                ranges.append((self.one_of(roots) if self.one_in(4) else None, first, last))
        if self.one_in(60):
            bad = [(None, 2, 1), (0x7F, 0x3000000000, 0x30000000FF), (None, 0xE0000000, 0x100000000)]
            ranges.insert(self.below(len(ranges) + 1), self.one_of(bad))
        return ranges

    def request(self, board):
        """Lists, fixed functions, and whether all is placed anew."""
        lists = {'io': self.list(IO_RANGES[-2:] if self.has_ports else IO_RANGES, board.roots),
                 'mem': self.list(MEMORY_RANGES, board.roots), 'pref': self.list(PREFETCH_RANGES, board.roots)}
        fixed = self.fixed(board, None) if self.one_in(4) else []
        return Request(board.roots, lists, fixed, self.one_in(6))

    def fixed(self, board, changed):
        """Functions that may not be written, of half of the boards: seldom the one that was changed."""
        if self.one_in(2):
            return []
        fixed = [f.slot for f in board.functions if self.one_in(16 if f.slot == changed else 3)]
        return sorted(set(fixed + ([(0, 22, 3)] if self.one_in(8) else [])))
