"""What `size` and `plan` answer, slowly.

It is read off docs/FORMATS.md ("Planning") and crates/plan_spec/specs (`Plan`, `Place`, `Planning/PlanWrites`), one bus
and one item at a time (Bridge 1.2, chapter 4).

- `Pools(io, mem, pref)`: the first and the last address of each class.
- `planned(functions, roots, pools)`: a `Plan` with the new functions and the writes, or a `Fault` with its text.
- `sized(f)`: what sizing register by register finds.
- `writes_between(old, new, registers)`: the writes to some registers, also for the settler.
"""

from collections import namedtuple

from model import (COMMAND, IO, MEM, WINDOWS, address_registers, assumed, close_window, number_at, page_size, put_bar,
                   put_number, put_rom, put_window, slot_text, write)

Pools = namedtuple('Pools', 'io mem pref')

# what is placed on a bus: a BAR or ROM, or the window of a bridge (part is None) for what is behind it
Item = namedtuple('Item', 'function part register size')

# new functions, writes (slot, offset, width, value), and how many of them close
Plan = namedtuple('Plan', 'functions writes closings')

# the line without `no `, the line that `--why` adds, or none, and of which sort it is
Fault = namedtuple('Fault', 'text why sort')

# no bus needs more than this
MOST = 1 << 65


def bridges_above(functions, bus):
    """The bridges between a root and a bus."""
    return [b for b in functions if b.is_bridge and b.secondary <= bus <= b.subordinate]


def has_window(bridge, kind):
    """Whether a bridge has a window of this kind, open or closed."""
    return any(window.window == kind for window in bridge.windows())


def has_wide_window(bridge, kind):
    """Whether it has one with upper halves."""
    return any(window.window == kind and window.wide for window in bridge.windows())


def is_served(functions, part, last):
    """Whether the windows above a prefetchable BAR let it have a place in prefetchable memory up to an address."""
    above = bridges_above(functions, part.function.slot[0])
    if last < 1 << 32:
        return all(has_window(b, 'pref') for b in above)
    return part.wide and all(has_wide_window(b, 'pref') for b in above)


def raised(size, address):
    """The least multiple of a size from an address on."""
    return address if size == 0 else -(-address // size) * size


def amount(number):
    """A number of addresses, as in a list of all faults."""
    letters = ''
    for letter in 'KMGTPE':
        if number and number % 1024 == 0:
            number, letters = number // 1024, letter
    return '%d%s' % (number, letters)


class Planner:
    """The planning of some functions below some root buses in pools."""

    def __init__(self, functions, roots, pools):
        self.functions = functions
        self.roots = roots
        self.pools = pools
        self.known = {}

    def class_of(self, part):
        """The pool that a BAR or ROM is placed in."""
        if part.space == IO:
            return 'io'
        if part.prefetchable and is_served(self.functions, part, self.pools.pref[1]):
            return 'pref'
        return 'mem'

    def own(self, f, kind):
        """The BARs and the ROM of a function that are of a class."""
        return [part for part in f.bars() + f.rom() if self.class_of(part) == kind]

    def has_behind(self, bridge, kind):
        """Whether a BAR or ROM of a class is behind a bridge."""
        return any(bridge.secondary <= f.slot[0] <= bridge.subordinate and self.own(f, kind) for f in self.functions)

    def window_size(self, bridge, kind):
        """The least power of two that holds what is behind a bridge: a page at least."""
        size = page_size(kind)
        while size < self.need(bridge.secondary, kind):
            size *= 2
        return size

    def items(self, buses, kind):
        """What is placed side by side on some buses, in turn: largest first, then by slot and register."""
        if (tuple(buses), kind) not in self.known:
            items = []
            for f in self.functions:
                if f.slot[0] in buses:
                    items += [Item(f, part, part.register, part.size) for part in self.own(f, kind)]
                    if f.is_bridge and self.has_behind(f, kind):
                        items.append(self.window_item(f, kind))
            items.sort(key=lambda item: (-item.size, item.function.slot, item.register))
            self.known[tuple(buses), kind] = items
        return self.known[tuple(buses), kind]

    def window_item(self, bridge, kind):
        """The window that what is behind a bridge asks for."""
        return Item(bridge, None, {'io': 0x1C, 'mem': 0x20, 'pref': 0x24}[kind], self.window_size(bridge, kind))

    def need(self, bus, kind):
        """How many addresses of a class a bus needs."""
        return min(MOST, sum(item.size for item in self.items([bus], kind)))

    def need_of_roots(self, kind):
        """What the root buses need together."""
        return sum(self.need(root, kind) for root in self.roots)

    def start_of_roots(self, kind):
        """The pool's first address, raised to a multiple of the greatest item on a root bus."""
        return raised(max([item.size for item in self.items(self.roots, kind)] + [0]), getattr(self.pools, kind)[0])

    def fits(self, kind):
        """Whether what is of a class fits its pool."""
        need = self.need_of_roots(kind)
        return need == 0 or self.start_of_roots(kind) + need <= getattr(self.pools, kind)[1] + 1

    def place(self, item, kind):
        """The first address of an item: behind all that comes before it on its bus."""
        bus = item.function.slot[0]
        if bus in self.roots:
            beside, start = self.items(self.roots, kind), self.start_of_roots(kind)
        else:
            over = [b for b in self.functions if b.is_bridge and b.secondary == bus]
            beside, start = self.items([bus], kind), self.place(self.window_item(over[0], kind), kind)
        for other in beside:
            if (other.function.slot, other.register) == (item.function.slot, item.register):
                return start
            start += other.size
        raise AssertionError('an item that is not on its bus')

    # ---- why nothing is planned

    def are_bad(self):
        """Whether the pools are refused."""
        if any(first > last for first, last in self.pools) or self.pools.io[1] > 0xFFFF:
            return True
        (first, last), (other_first, other_last) = self.pools.mem, self.pools.pref
        return last > 0xFFFFFFFF or (first <= other_last and other_first <= last)

    def lacks_window(self, f):
        """Whether an I/O BAR of a function is behind a bridge without an I/O window."""
        return any(part.space == IO for part in f.bars()) \
            and any(not has_window(b, 'io') for b in bridges_above(self.functions, f.slot[0]))

    def lack(self, kind):
        """The line that tells what a class lacks that doesn't fit."""
        start = self.start_of_roots(kind)
        room = max(0, getattr(self.pools, kind)[1] + 1 - start)
        digits = 8 if kind == 'io' else 16
        return '  needs %s from %0*x, has %s' % (amount(self.need_of_roots(kind)), digits, start, amount(room))

    def fault(self):
        """The first fault of planning, or none."""
        if self.are_bad():
            return Fault('70 BadPools', None, '70')
        for f in self.functions:
            if self.lacks_window(f):
                return Fault('71 NoWindow ' + slot_text(f.slot), None, '71')
        for kind in WINDOWS:
            if not self.fits(kind):
                return Fault('72 NoRoom ' + kind, self.lack(kind), '72 ' + kind)
        return None

    # ---- the planned functions

    def with_windows(self, f, new):
        """Opens the windows of a bridge with something behind them, and closes the others."""
        for window in f.windows():
            kind = window.window
            if self.has_behind(f, kind):
                item = self.window_item(f, kind)
                first = self.place(item, kind)
                put_window(new, kind, first, first + item.size - 1)
            else:
                close_window(new, kind)

    def moved(self, f):
        """A function with everything at its place and enabled."""
        new = f.copy()
        for part in f.bars() + f.rom():
            kind = self.class_of(part)
            place = self.place(Item(f, part, part.register, part.size), kind)
            if part.kind == 'rom':
                put_rom(new, place, part.value & 1)
            else:
                put_bar(new, part, place)
        self.with_windows(f, new)
        decoding = new.bars() + new.rom() + [window for window in new.windows() if not window.is_closed]
        command = f.command & ~3
        command |= 1 if any(part.space == IO for part in decoding) else 0
        command |= 2 if any(part.space == MEM for part in decoding) else 0
        put_number(new.image, COMMAND, 2, command)
        return new


def writes_between(old, new, registers):
    """The writes to those of some registers that differ."""
    return [(old.slot, offset, width, number_at(new.image, offset, width)) for offset, width in registers
            if number_at(new.image, offset, width) != number_at(old.image, offset, width)]


def planned_writes(olds, news):
    """The writes of a plan in order, and how many of them close: all that is on is closed first."""
    closing = [(f.slot, COMMAND, 2, f.command & ~3) for f in reversed(olds) if f.command & 3]
    registers = [made for old, new in zip(olds, news) for made in writes_between(old, new, address_registers(old))]
    opening = [(new.slot, COMMAND, 2, new.command) for old, new in zip(olds, news) if new.command != old.command & ~3]
    return closing + registers + opening, len(closing)


def planned(functions, roots, pools):
    """The plan of functions that have none of the faults 20 to 58, or why there is none."""
    planner = Planner(functions, roots, pools)
    fault = planner.fault()
    if fault:
        return fault
    news = [planner.moved(f) for f in functions]
    writes, closings = planned_writes(functions, news)
    return Plan(news, writes, closings)


# ---- sizing

def ones_for(f, offset):
    """What is written to size a register: ones, but zeros below the address of a ROM."""
    if offset == f.rom_register:
        return 0xFFFFF800
    return 0xFFFF if f.is_bridge and offset == 0x1C else 0xFFFFFFFF


def sized(f):
    """The read backs that sizing finds: each address register is written by itself."""
    found = f.copy()
    found.probe = bytearray(256)
    for offset, width in address_registers(f):
        one = f.copy()
        write(one, offset, width, ones_for(f, offset))
        found.probe[offset:offset + width] = one.image[offset:offset + width]
    return found


def assumed_lines(functions):
    """The lines of standard error for what titles of the probe name."""
    return ''.join('pciplan: assumed %s %02x\n' % (slot_text(f.slot), register)
                   for f in functions for register in assumed(f))
