"""Boards with told ranges, made by rule from a seed, and with bridges that answer beside their windows.

`also_board(seed)` is a board as boards.py makes them, which has `told` besides. On more of them than there ISA Enable, VGA
Enable, palette snooping and subtractive decode are set, and functions sleep. Words mostly take these as they are. Told
ranges begin and end where something else does, at an edge of a KB, or one address beside it. Some are told on the bus of a
bridge that decodes subtractively, of what stands behind it.
"""

import random

from also import numbered
from boards import Board, Maker
from early import is_asleep
from model import COMMAND, IO, MEM, WIDTH, bit
from regions import ToldRange
from spoiling import (change_buses, change_class, change_command, change_roots, clear_buses, drop_function, fix_window,
                      make_socket, move_part, move_window, put_to_sleep, switch_rom)
from words import has_isa_enable, has_vga_enable, is_subtractive

COMMON = (move_part, move_part, move_window, move_window, change_command, switch_rom)
RARE = (change_buses, change_class, change_roots, clear_buses, drop_function, fix_window, fix_window, fix_window, fix_window,
        make_socket, make_socket, put_to_sleep)
EDGES = {IO: (0x3C6, 0x3C8, 0x3C9, 0x3B0, 0x3DF, 0x7C6, 0xFFFF, 0x10000, 0), MEM: (0xA0000, 0xBFFFF, 0, (1 << 32) - 1)}
SIZES = (1, 1, 2, 8, 0x100, 0x101, 0x400, 0x1000, 0x1000, 0x4000, 0x100000)
TITLES = ('', '', 'vf0', 'p2sb', '!', '~' * 32)
OTHER_WORDS = ('ide', 'reset', 'subtractive', 'unnumbered', 'power', 'cardbus', 'windows')


class AlsoBoard(Board):
    """A board, and what is told beside it."""

    def __init__(self, seed):
        super().__init__(seed)
        self.told = []


class AlsoMaker(Maker):
    """Draws a board with told ranges from a seed."""

    def __init__(self, seed):
        super().__init__(seed)
        self.draw = random.Random('also %d' % seed)
        self.board = AlsoBoard(seed)
        self.most = self.draw.choice((3, 5, 8, 12))
        self.is_vga, self.is_isa = self.one_in(8), self.one_in(4)
        self.is_subtractive, self.is_snooping = self.one_in(2), self.one_in(4)

    def make(self):
        """The board."""
        board = self.board
        self.lay_out()
        for f in board.functions:
            self.decorate(f)
            self.set_bits(f)
        for _ in range(self.draw.choice((0, 0, 0, 1, 1, 2, 3))):
            change = self.draw.choice(RARE if self.one_in(3) else COMMON)
            with_registers = [f for f in board.functions if f.layout < 2]
            if with_registers:
                change(self.draw, board, self.draw.choice(with_registers))
        self.say_beside()
        if board.functions:
            board.told = numbered([self.told_range() for _ in range(self.draw.choice((0, 1, 1, 2, 3, 4, 6, 9)))])
        return board

    def set_bits(self, f):
        """Palette snooping, subtractive decode, and a function that sleeps."""
        if self.one_in(2 if self.is_snooping else 20):
            f.image[COMMAND] |= 0x20
        if self.one_in(2 if self.is_subtractive else 12):
            self.make_subtractive(f)
        if self.one_in(16):
            put_to_sleep(self.draw, self.board, f)

    def say_beside(self):
        """Words of `--model`, mostly those that are needed, and what the host sends."""
        functions = self.board.functions
        needed = [('isa', has_isa_enable), (self.draw.choice(('vga', 'vga', 'vga16')), has_vga_enable),
                  ('snoop', lambda f: bit(f.command, 5)), ('unclaimed', is_subtractive),
                  ('power', lambda f: is_asleep(f.image))]
        words = {word for word, has in needed if any(has(f) for f in functions) and not self.one_in(12)}
        words |= {word for word in OTHER_WORDS if self.one_in(4)}
        words |= {word for word, _ in needed if self.one_in(8)} if not words & {'vga', 'vga16'} else set()
        words |= set(self.board.words.split(',')) if self.board.words else set()
        self.board.words = ','.join(self.draw.sample(sorted(words), len(words))) or None
        if self.one_in(8):
            self.board.words = 'all'
        if self.one_in(6):
            self.board.host_io = self.ranges(IO, 32)
        if self.one_in(6):
            self.board.host_mem = self.ranges(MEM, 64)

    def told_range(self):
        """A range of a function, mostly one that is listed."""
        functions = self.board.functions
        slot = self.draw.choice(functions).slot
        mark = self.draw.choice(('command', 'command', 'always', 'always', 'held'))
        taking = [b for b in functions if is_subtractive(b)]
        if taking and self.one_in(3):
            slot = self.draw.choice([f.slot for b in taking for f in functions if f.slot[0] == b.slot[0]])
        elif self.one_in(4):
            buses = [f.slot[0] for f in functions] + [f.secondary for f in functions if f.is_bridge]
            bus = self.draw.choice(buses) if not self.one_in(20) else self.draw.randrange(256)
            slot = (bus, self.draw.randrange(32), self.draw.randrange(8))
            if slot not in [f.slot for f in functions] and not self.one_in(16):
                mark = 'held'
        space, span = self.span_for(slot)
        told = ToldRange(0, slot, self.draw.choice(('mem', 'pref')) if space == MEM else IO, span, mark)
        told.title = self.draw.choice(TITLES)
        return told

    def span_for(self, slot):
        """A space, and where a range begins and ends that is told of a slot."""
        parts = [part for f in self.board.functions if f.layout < 2 for part in f.parts()]
        near = [part for part in parts if part.function.slot == slot
                or (part.kind == 'window' and part.function.secondary == slot[0])]
        roots = self.board.roots
        if slot[0] in roots and len(roots) > 1 and self.one_in(2):
            near = [part for part in parts if part.function.slot[0] in roots and part.function.slot[0] != slot[0]]
        behind = [b.secondary for b in self.board.functions if is_subtractive(b) and b.slot[0] == slot[0]]
        if behind and self.one_in(2):
            near = [part for part in parts if part.function.slot[0] in behind and part.kind != 'window']
        part = self.draw.choice((near if near and not self.one_in(3) else parts) or [None])
        space = part.space if part else self.draw.choice((IO, MEM))
        ends = [part.first, part.last, part.last + 1] if part else []
        ends += [end // 0x400 * 0x400 + add for end in ends for add in (0x100, 0x400)]
        if not ends or self.one_in(4):
            ends = EDGES[space] + tuple(other.first for other in parts if other.space == space)
        top = (1 << WIDTH[space]) - 1
        first = min(max(self.draw.choice(ends) + self.draw.choice((0, 0, 0, 0, -1, 1)), 0), top)
        last = first + self.draw.choice(SIZES) - 1
        if self.one_in(4):
            first, last = sorted((first, self.draw.choice(ends)))
        return space, (first, min(last, top))


def also_board(seed):
    """The board of a seed."""
    return AlsoMaker(seed).make()
