"""What `settle` answers, slowly.

What is told beside the two texts is in told_settling.py. All else is read off docs/FORMATS.md ("Settling") and crates/settle_spec/specs, one part, one item and one bus at a time.

- `Request(roots, lists, fixed, anew)`: lists has `io`, `mem` and `pref`, each a list of (root or None, first, last).
- `settled(functions, request)`: a `Plan` (planner.py), whose writes are those of ordering.py, of functions that have
  none of the faults 20 to 58, or a `Fault`.
- `TooLarge` is raised where a new window would have 2^64 addresses or more: nothing is said here of such boards.
"""

from collections import namedtuple

from model import (COMMAND, IO, MEM, WINDOWS, assumed, close_window, page_size, put_bar, put_number, put_rom,
                   put_window, slot_text)
from ordering import Order
from planner import Fault, bridges_above, has_window, is_served, raised

Request = namedtuple('Request', 'roots lists fixed anew')

# so many addresses from a multiple of an alignment on, none of them above the highest
Extent = namedtuple('Extent', 'size alignment highest')

# what is placed: a BAR, a ROM, or the new window of a bridge; `rank` is its slot and register
Item = namedtuple('Item', 'function part kind rank extent')

WINDOW_REGISTER = {'io': 0x1C, 'mem': 0x20, 'pref': 0x24}


class TooLarge(Exception):
    """A new window would have 2^64 addresses or more."""


class Region:
    """A part that settling looks at: its addresses and where it stands in the order of parts."""

    def __init__(self, part):
        self.part = part
        self.function = part.function
        self.bus = part.function.slot[0]
        self.space = part.space
        self.is_window = part.kind == 'window'
        self.first, self.last = part.first, part.last
        self.enabled = part.enabled
        self.rank = (part.function.slot, part.register)

    def is_within(self, first, last):
        """Whether it lies in a range."""
        return first <= self.first and self.last <= last

    def shares(self, other):
        """Whether it shares an address with another part."""
        return self.first <= other.last and other.first <= self.last


def first_spot(low, taken, extent):
    """The least multiple of an alignment from an address on off which all that is taken lies."""
    at = raised(extent.alignment, low)
    while True:
        ends = [last for first, last in taken if first <= at + extent.size - 1 and at <= last]
        if not ends:
            return at
        at = raised(extent.alignment, ends[0] + 1)


def first_place(ranges, taken, extent):
    """The least place in the first range that has one, or none."""
    for first, last in ranges:
        at = first_spot(first, taken, extent)
        if at + extent.size - 1 <= min(last, extent.highest):
            return at
    return None


def place_all(items, place_of, taken):
    """The places of items by their ranks, one after another, and the first item that has none.

    `place_of` says where an item goes beside what is taken, or none.
    """
    places, taken = {}, list(taken)
    for item in items:
        at = place_of(item, taken)
        if at is None:
            return {}, item
        places[item.rank] = (item, at)
        taken.append((at, at + item.extent.size - 1))
    return places, None


def highest_of(part):
    """The highest address that the registers of a BAR or a ROM can show."""
    if part.space == IO:
        upper = part.shown(part.function.probe) >> 16
        return 0xFFFFFFFF if upper else 0xFFFF
    return 0xFFFFFFFFFFFFFFFF if part.wide else 0xFFFFFFFF


def highest_in(bridge, kind):
    """The highest address that a window of a bridge can hold."""
    wide = any(window.wide for window in bridge.windows() if window.window == kind)
    if kind == 'io':
        return 0xFFFFFFFF if wide else 0xFFFF
    return 0xFFFFFFFFFFFFFFFF if kind == 'pref' and wide else 0xFFFFFFFF


def around(kind, bridge, items):
    """The extent of a new window around items: they are placed from 0 on in turn."""
    taken = []
    for item in items:
        at = first_spot(0, taken, item.extent)
        taken.append((at, at + item.extent.size - 1))
    size = raised(page_size(kind), max([last + 1 for _, last in taken] + [0]))
    if size >= 1 << 64:
        raise TooLarge
    alignment = max([page_size(kind)] + [item.extent.alignment for item in items])
    return Extent(size, alignment, min([highest_in(bridge, kind)] + [item.extent.highest for item in items]))


class Settler:
    """The settling of some functions as a request says."""

    def __init__(self, functions, request):
        self.functions = functions
        self.request = request
        self.roots = request.roots
        self.lists = request.lists
        self.known = {}
        self.regions = [Region(part) for f in functions for part in f.parts() if self.is_looked_at(part)]

    def remembered(self, key, find):
        """What `find` answers, which is asked once for a key."""
        if key not in self.known:
            self.known[key] = find()
        return self.known[key]

    # ---- parts and classes

    def is_left(self, part):
        """Whether an I/O BAR is left: no range of I/O, or a bridge above without an I/O window."""
        return part.kind == 'bar' and part.space == IO and (not self.lists['io'] or any(
            not has_window(b, 'io') for b in bridges_above(self.functions, part.function.slot[0])))

    def has_left(self, f):
        """Whether a function has a BAR that is left."""
        return any(self.is_left(bar) for bar in f.bars())

    def is_looked_at(self, part):
        """Whether it is an implemented BAR that isn't left, a ROM whose bit 0 is set, or an open window."""
        if part.kind == 'window':
            return not part.is_closed
        return part.value & 1 == 1 if part.kind == 'rom' else not self.is_left(part)

    def bridge_over(self, bus):
        """The bridge whose secondary bus it is, or none."""
        over = [b for b in self.functions if b.is_bridge and b.secondary == bus]
        return over[0] if over else None

    def window_of(self, bridge, kind):
        """The open window of a bridge, or none."""
        found = [r for r in self.regions if bridge and r.rank == (bridge.slot, WINDOW_REGISTER[kind])]
        return found[0] if found else None

    def is_in_window(self, region, kind):
        """Whether the window of a kind over the part's bus holds it."""
        window = self.window_of(self.bridge_over(region.bus), kind)
        return window is not None and region.is_within(window.first, window.last)

    def class_of(self, region):
        """The class by which a part is placed."""
        return self.remembered(('class', region.rank), lambda: self.find_class(region))

    def find_class(self, region):
        """The same, found anew."""
        part = region.part
        if region.is_window:
            return part.window
        if not part.prefetchable:
            return 'io' if part.space == IO else 'mem'
        if not self.request.anew and region.bus not in self.roots:
            if self.is_in_window(region, 'mem'):
                return 'mem'
            if self.is_in_window(region, 'pref') and all(
                    has_window(b, 'pref') for b in bridges_above(self.functions, region.bus)):
                return 'pref'
        last = max([last for _, _, last in self.lists['pref']] + [0])
        return 'pref' if self.lists['pref'] and is_served(self.functions, part, last) else 'mem'

    # ---- what stands

    def ranges(self, kind, bus):
        """The ranges of a list that a root has."""
        return [(first, last) for root, first, last in self.lists[kind] if root is None or root == bus]

    def are_beside(self, bus, other):
        """Whether two buses are one, as all roots are."""
        return bus == other or (bus in self.roots and other in self.roots)

    def order(self, region):
        """Of parts that share an address the one with the least of these comes first."""
        return (region.function.slot not in self.request.fixed, not region.enabled,
                region.first - region.last, region.rank)

    def is_in_place(self, region):
        """Whether it lies in a range of its root, or in a window over its bus that stands."""
        if region.bus in self.roots:
            kinds = ['io'] if region.space == IO else ['mem', 'pref']
            return any(region.is_within(*of) for kind in kinds for of in self.ranges(kind, region.bus))
        kind = self.class_of(region)
        return self.is_in_window(region, kind) and self.stands(self.window_of(self.bridge_over(region.bus), kind))

    def stands(self, region):
        """Whether a part stands where it is."""
        return self.remembered(('stands', region.rank), lambda: self.find_stands(region))

    def find_stands(self, region):
        """The same, found anew."""
        if self.request.anew or not self.is_in_place(region):
            return False
        return not any(other.space == region.space and self.are_beside(other.bus, region.bus)
                       and self.order(other) < self.order(region) and other.shares(region) and self.stands(other)
                       for other in self.regions)

    # ---- items

    def own(self, f, kind):
        """The BARs and ROMs of a class that a function has."""
        return [r for r in self.regions if r.function is f and not r.is_window and self.class_of(r) == kind]

    def has_behind(self, bridge, kind):
        """Whether a BAR or ROM of a class is behind a bridge."""
        return self.remembered(('behind', bridge.slot, kind), lambda: any(
            bridge.secondary <= f.slot[0] <= bridge.subordinate and self.own(f, kind) for f in self.functions))

    def keeps_window(self, bridge, kind, keeps):
        """Whether the window of a bridge is among those that keep their addresses."""
        window = self.window_of(bridge, kind)
        return window is not None and keeps(window)

    def items(self, bus, kind, keeps):
        """What has to be placed on a bus, in turn, where `keeps` says what keeps its addresses."""
        items = []
        for f in self.functions:
            if not self.are_beside(bus, f.slot[0]):
                continue
            for r in self.own(f, kind):
                if not keeps(r):
                    extent = Extent(r.part.size, r.part.size, highest_of(r.part))
                    items.append(Item(f, r.part, kind, r.rank, extent))
            if f.is_bridge and self.has_behind(f, kind) and not self.keeps_window(f, kind, keeps):
                items.append(Item(f, None, kind, (f.slot, WINDOW_REGISTER[kind]), self.new_window(f, kind)))
        return sorted(items, key=lambda item: (-item.extent.alignment, -item.extent.size, item.rank))

    def new_window(self, bridge, kind):
        """The new window of a bridge, around all that is behind it."""
        return self.remembered(('window', bridge.slot, kind), lambda: around(
            kind, bridge, self.items(bridge.secondary, kind, lambda region: False)))

    # ---- what stays

    def taken(self, bus, space, keeps):
        """What is taken on a bus by what keeps its addresses."""
        return [(r.first, r.last) for r in self.beside(bus, space) if keeps(r)]

    def beside(self, bus, space):
        """The parts of a space on a bus."""
        return [r for r in self.regions if r.space == space and self.are_beside(bus, r.bus)]

    def holds(self, region):
        """Whether a part stands and, if it is a window, has room for what has to be placed behind it."""
        return self.remembered(('holds', region.rank), lambda: self.stands(region) and (
            not region.is_window or self.has_room(region)))

    def has_room(self, window):
        """Whether each item behind a window has a place in it."""
        bus, kind = window.function.secondary, window.part.window
        _, lack = self.placed(self.items(bus, kind, self.holds), bus, window.space,
                              lambda item, taken: first_place([(window.first, window.last)], taken, item.extent),
                              self.taken(bus, window.space, self.holds))
        return lack is None

    def placed(self, items, bus, space, place_of, taken):
        """The places of items of a bus, and the first item that has none, off what is taken and what is told."""
        return place_all(items, lambda item, there: place_of(item, there + self.told_behind(item)),
                         taken + self.told_on(bus, space))

    def told_on(self, bus, space):
        """The addresses on a bus at which nothing is placed, whatever is there: none are told."""
        return []

    def told_behind(self, item):
        """The addresses at which a new window isn't placed for what is behind it: none are told."""
        return []

    def stays(self, region):
        """Whether a part holds, and so does each window of its class above it."""
        return self.remembered(('stays', region.rank), lambda: self.holds(region) and all(
            self.keeps_window(b, self.class_of(region), self.holds)
            for b in bridges_above(self.functions, region.bus)))

    # ---- where the rest goes

    def new_range(self, region):
        """The addresses of a part that stays."""
        return region.first, region.last

    def place_of(self, item, taken):
        """The first place of an item, or none."""
        return first_place(self.ranges_of(item), taken, item.extent)

    def ranges_of(self, item):
        """The ranges in which an item can have its place."""
        bus = item.function.slot[0]
        if bus in self.roots:
            ranges = self.ranges(item.kind, bus)
            if item.kind == 'mem' and item.extent.highest > 0xFFFFFFFF:
                ranges = ranges + self.ranges('pref', bus)
            return ranges
        bridge = self.bridge_over(bus)
        window = self.window_of(bridge, item.kind)
        if window and self.stays(window):
            return [(window.first, window.last)]
        placed = self.places(bridge.slot[0], window_space(item.kind))[0].get((bridge.slot, WINDOW_REGISTER[item.kind]))
        return [(placed[1], placed[1] + placed[0].extent.size - 1)] if placed else []

    def places(self, bus, space):
        """The places of all items of a space on a bus, and the first item without one."""
        kinds = ['io'] if space == IO else ['mem', 'pref']
        return self.remembered(('places', bus, space), lambda: self.placed(
            [item for kind in kinds for item in self.items(bus, kind, self.stays)], bus, space,
            self.place_of, [self.new_range(r) for r in self.beside(bus, space) if self.stays(r)]))

    def new_place(self, f, register, space):
        """The item and its new place of a part, or none."""
        return self.places(f.slot[0], space)[0].get((f.slot, register))

    # ---- what registers show then

    def moved(self, f):
        """A function with its parts at their places, and with its new Command."""
        new = f.copy()
        for part in f.parts():
            placed = self.new_place(f, part.register, part.space)
            if placed:
                put_part(new, part, placed[1], placed[0].extent.size)
            elif part.kind == 'window' and not part.is_closed:
                self.show_window(new, self.window_of(f, part.window))
        put_number(new.image, COMMAND, 2, f.command & ~3 | self.is_enabled(f, IO) | self.is_enabled(f, MEM) << 1)
        return new

    def show_window(self, new, window):
        """Lets the registers of an open window without a new place show what it comes to: what goes is closed."""
        if not self.stays(window):
            close_window(new, window.part.window)

    def behind(self, f):
        """The functions on the bus right behind a bridge."""
        return [g for g in self.functions if f.is_bridge and g.slot[0] == f.secondary]

    def has_own(self, f, space):
        """Whether a function has a BAR or ROM of a space that is looked at."""
        return any(r.function is f and r.space == space and not r.is_window for r in self.regions)

    def is_enabled(self, f, space):
        """Whether Command is to enable a space."""
        if space == IO and self.has_left(f):
            return False
        return f.is_on(space) or any(self.new_place(f, part.register, space) for part in f.parts()
                                     if part.space == space) or any(self.is_live(g, space) for g in self.behind(f))

    def is_live(self, f, space):
        """Whether a space is to be enabled for a BAR or ROM of the function, or for what is live behind it."""
        return self.remembered(('live', f.slot, space), lambda: self.is_enabled(f, space) and (
            self.has_own(f, space) or any(self.is_live(g, space) for g in self.behind(f))))

    # ---- why nothing is settled

    def are_bad(self):
        """Whether the lists are refused."""
        for kind in WINDOWS:
            ranges = self.lists[kind]
            most = 1 << 64 if kind == 'pref' else 1 << 32
            if any(first > last or last >= most or (root is not None and root not in self.roots)
                   for root, first, last in ranges):
                return True
            if any(first <= other_last and other <= last for n, (_, first, last) in enumerate(ranges)
                   for _, other, other_last in ranges[:n]):
                return True
        return False

    def assumed_part(self):
        """The first BAR, or ROM whose bit 0 is set, that the probe's title names, as `S r`, or none."""
        for f in self.functions:
            for part in f.parts():
                if part.register in assumed(f) and (part.kind == 'bar' or part.kind == 'rom' and part.value & 1):
                    return named(f.slot, part.register)
        return None

    def fixed_without(self, test):
        """The first part of a fixed function that fails a test, as `S r`, or none."""
        for r in self.regions:
            if r.function.slot in self.request.fixed and not test(r):
                return named(*r.rank)
        return None

    def lack(self):
        """The first item on a root bus without a place, as what stands behind `NoRoom`, or none."""
        for space in (IO, MEM):
            item = self.places(self.roots[0], space)[1]
            if item:
                return '%s %s %x %x' % (item.kind, named(*item.rank), item.extent.size, item.extent.alignment)
        return None

    def fault(self):
        """The first fault that is looked for before the writes are known, or none."""
        if self.are_bad():
            return Fault('70 BadPools', None, '70')
        if self.assumed_part():
            return Fault('76 Assumed ' + self.assumed_part(), None, '76')
        for test, sort in ((self.stands, 'does not stand'), (self.stays, 'does not stay')):
            if self.told_without(test):
                return Fault('75 Told ' + self.told_without(test), None, '75 ' + sort)
            if self.fixed_without(test):
                return Fault('74 Fixed ' + self.fixed_without(test), None, '74 ' + sort)
        if self.lack():
            return Fault('72 NoRoom ' + self.lack(), None, '72 ' + self.lack().split()[0])
        return None

    def told_without(self, test):
        """The first line of a told range that fails a test of `fault`, as `S +n`: none is told."""
        return None

    def told_switched(self, order):
        """The first line of a told range that the writes of an order would switch, as `S +n`: none is told."""
        return None

    def answer(self):
        """The plan, or the first fault."""
        if self.fault():
            return self.fault()
        order = Order(self, {f.slot: self.moved(f) for f in self.functions})
        plan = order.plan()
        for slot, offset, _, _ in plan.writes:
            if slot in self.request.fixed:
                return Fault('74 Fixed ' + named(slot, offset), None, '74 would be written')
        if self.told_switched(order):
            return Fault('75 Told ' + self.told_switched(order), None, '75 would be switched')
        return plan


def named(slot, register):
    """A slot and a register, as a fault names them."""
    return '%s %02x' % (slot_text(slot), register)


def window_space(kind):
    """The space of a class."""
    return IO if kind == 'io' else MEM


def put_part(new, part, at, size):
    """Lets the registers of a part show its new place."""
    if part.kind == 'window':
        put_window(new, part.window, at, at + size - 1)
    elif part.kind == 'rom':
        put_rom(new, at, part.value & 1)
    else:
        put_bar(new, part, at)


def settled(functions, request):
    """The plan of settling, or why there is none."""
    return Settler(functions, request).answer()
