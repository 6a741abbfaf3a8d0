"""Regions of a system, and which accesses get to a bus, one address and one bridge at a time.

A region is an enabled BAR, ROM or window that claims an address, the legacy part of a bridge in a space, the palette part
of one, or a told range that is on.
"""

from model import IO, MEM, WIDTH

LEGACY = 0x3E
PALETTE = 0x04
# the number of line n of what is told is above this: behind all registers
TOLD = 255
VGA_PORTS = ((0x3B0, 0x3BB), (0x3C0, 0x3DF))
PALETTE_PORTS = ((0x3C6, 0x3C6), (0x3C8, 0x3C9))
FRAME_BUFFER = (0xA0000, 0xBFFFF)
KILOBYTE = 0x400
CUT_END = 0x10000


class ToldRange:
    """Line n of what is told of a function: `slot`, `space`, `prefetchable`, `first`, `last`, `mark`, and its name."""

    def __init__(self, n, slot, space, span, mark):
        self.n = n
        self.slot = slot
        self.space = IO if space == IO else MEM
        self.prefetchable = space == 'pref'
        self.first, self.last = span
        self.mark = mark
        self.title = ''

    @property
    def register(self):
        """Its place among the registers of its function."""
        return TOLD + self.n


class Given:
    """What is said beside the functions: root buses, what the host sends, told ranges, and what words say of bridges.

    `host` has for each space None, where all is sent, or a list of (root or None, first, last). `told` has told ranges.
    By words `legacy` and `palette` have the slots of bridges with such parts, and whether they decode 16 bits of a port.
    `isa` has those of bridges with ISA Enable, `unclaimed` those of bridges that take what nobody claims, and `asleep`
    those of functions that sleep.
    """

    def __init__(self, roots, host_io=None, host_mem=None, told=()):
        self.roots = list(roots)
        self.host = {IO: host_io, MEM: host_mem}
        self.told = list(told)
        self.legacy, self.palette = {}, {}
        self.isa, self.unclaimed, self.asleep = set(), set(), set()

    def starts(self, space, root, address):
        """Whether an access of the host to an address starts on a root bus."""
        ranges = self.host[space]
        if ranges is None:
            return True
        return any(to in (None, root) and first <= address <= last for to, first, last in ranges)

    def legacy_claims(self, space, address, f):
        """Whether the legacy part of a bridge claims an address."""
        if f.slot not in self.legacy or not f.is_bridge or not f.is_on(space):
            return False
        return legacy_holds(self.legacy[f.slot], space, address)

    def palette_claims(self, space, address, f):
        """Whether the palette part of a bridge claims an address."""
        if space != IO or f.slot not in self.palette or not f.is_bridge or not f.is_on(IO):
            return False
        return palette_holds(self.palette[f.slot], address)


def palette_holds(is_wide, address):
    """Whether a palette part has a port, by 16 bits of it or by 10."""
    return address < 0x10000 and (address if is_wide else address % 0x400) in (0x3C6, 0x3C8, 0x3C9)


def palette_ranges(is_wide):
    """The ranges of ports of a palette part."""
    bases = [0] if is_wide else range(0, 0x10000, 0x400)
    return [(base + first, base + last) for base in bases for first, last in PALETTE_PORTS]


def legacy_holds(is_wide, space, address):
    """Whether a legacy part has an address, by 16 bits of a port or by 10."""
    if space == MEM:
        return FRAME_BUFFER[0] <= address <= FRAME_BUFFER[1]
    port = address if is_wide else address % 0x400
    return address < 0x10000 and any(first <= port <= last for first, last in VGA_PORTS)


def legacy_ranges(is_wide, space):
    """The ranges of addresses of a legacy part."""
    if space == MEM:
        return [FRAME_BUFFER]
    repeats = range(0, 0x400, 0x400) if is_wide else range(0, 0x10000, 0x400)
    return [(base + first, base + last) for base in repeats for first, last in VGA_PORTS]


def isa_ranges(first, last):
    """What ISA Enable leaves of an I/O window: of each KB below 64 KB the first 256 ports, and all above."""
    left = [(base, base + 0xFF) for base in range(0, CUT_END, KILOBYTE)] + [(CUT_END, 0xFFFFFFFF)]
    return [(max(first, low), min(last, high)) for low, high in left if low <= last and first <= high]


class Region:
    """A region: of a function, by its register, in a space."""

    def __init__(self, f, register, space, kind, part=None, ranges=None):
        self.f = f
        self.slot = f.slot
        self.bus = f.slot[0]
        self.register = register
        self.space = space
        self.kind = kind
        self.part = part
        self.prefetchable = part is not None and part.prefetchable
        self.wide = kind == 'bar' and part.wide
        self.ranges = [(part.first, part.last)] if ranges is None else ranges
        self.is_cut = part is not None and ranges is not None
        self.name = (f.slot, register)
        self.title = ''
        self.holds = None

    @property
    def is_home(self):
        """Whether it has to be sent and reached: a BAR, a ROM, or a told range that isn't held."""
        return self.kind in ('bar', 'rom', 'told')

    @property
    def is_movable(self):
        """Whether it is a BAR or a ROM."""
        return self.kind in ('bar', 'rom')

    @property
    def is_told(self):
        """Whether it is a told range."""
        return self.kind in ('told', 'held')

    @property
    def first(self):
        """Its first address."""
        return self.part.first if self.part else self.ranges[0][0]

    @property
    def last(self):
        """Its last address."""
        return self.part.last if self.part else self.ranges[-1][1]

    def claims(self, address):
        """Whether it claims an address of its space."""
        if self.holds:
            return self.holds(address)
        return any(first <= address <= last for first, last in self.ranges)


def isa_holds(first, last, address):
    """Whether an I/O window that ISA Enable cuts claims an address."""
    return first <= address <= last and (address >= CUT_END or address % KILOBYTE < 0x100)


def own_region(f, part, given):
    """The region of a part of a function."""
    is_cut = part.window == 'io' and f.slot in given.isa
    ranges = isa_ranges(part.first, part.last) if is_cut else None
    region = Region(f, part.register, part.space, part.kind, part, ranges)
    if is_cut:
        first, last = part.first, part.last
        region.holds = lambda address: isa_holds(first, last, address)
    return region


def legacy_region(f, space, is_wide):
    """The region of a legacy part in a space."""
    region = Region(f, LEGACY, space, 'legacy', None, legacy_ranges(is_wide, space))
    region.holds = lambda address: legacy_holds(is_wide, space, address)
    return region


def palette_region(f, is_wide):
    """The region of a palette part."""
    region = Region(f, PALETTE, IO, 'snoop', None, palette_ranges(is_wide))
    region.holds = lambda address: palette_holds(is_wide, address)
    return region


def own_regions(f, given):
    """The regions that a function's address registers show."""
    return [own_region(f, part, given) for part in f.parts() if part.enabled and not part.is_closed]


def told_region(told):
    """The region of a told range."""
    kind = 'held' if told.mark == 'held' else 'told'
    region = Region(told, told.register, told.space, kind, None, [(told.first, told.last)])
    region.prefetchable = told.prefetchable
    region.title = told.title
    return region


def is_told_on(told, functions, given):
    """Whether a told range is on."""
    if told.mark == 'held':
        return True
    if told.slot in given.asleep:
        return False
    own = [f for f in functions if f.slot == told.slot]
    return bool(own) and (told.mark == 'always' or own[0].is_on(told.space))


def regions_of(functions, given):
    """All regions, by slot and register."""
    regions = [told_region(told) for told in given.told if is_told_on(told, functions, given)]
    for f in functions:
        regions += own_regions(f, given)
        if f.slot in given.legacy and f.is_bridge:
            regions += [legacy_region(f, space, given.legacy[f.slot]) for space in (IO, MEM) if f.is_on(space)]
        if f.slot in given.palette and f.is_bridge and f.is_on(IO):
            regions.append(palette_region(f, given.palette[f.slot]))
    return sorted(regions, key=lambda region: region.name)


def may_share(one, other):
    """Whether two regions may claim one address.

    Two held ranges may, and so may a held range and what is of the same function. A window, the legacy part and the
    palette part of one bridge may.
    """
    if one.kind == other.kind == 'held':
        return True
    if one.slot != other.slot:
        return False
    if 'held' in (one.kind, other.kind):
        return True
    return one.kind != other.kind and {one.kind, other.kind} <= {'window', 'legacy', 'snoop'}


class System:
    """Functions in which no fault stands that is looked for before judging."""

    def __init__(self, functions, given):
        self.functions = functions
        self.given = given
        self.regions = regions_of(functions, given)
        self.windows = {f.slot: [region for region in own_regions(f, given) if region.kind == 'window']
                        for f in functions}
        self.ways_to = {}

    def ways(self, bus):
        """Each way from a root bus to a bus: the root, and the bridges from there on."""
        if bus not in self.ways_to:
            found = [(bus, [])] if bus in self.given.roots else []
            for b in self.functions:
                if b.is_bridge and b.secondary == bus:
                    found += [(root, bridges + [b]) for root, bridges in self.ways(b.slot[0])]
            self.ways_to[bus] = found
        return self.ways_to[bus]

    def takes(self, b, space, address):
        """Whether a bridge takes an address as nobody on its bus claims it."""
        if b.slot not in self.given.unclaimed or not b.is_bridge or not b.is_on(space):
            return False
        return not any(region.bus == b.slot[0] and region.space == space and region.claims(address)
                       for region in self.regions)

    def forwards(self, b, space, address):
        """Whether a bridge forwards an access to an address."""
        if self.given.legacy_claims(space, address, b) or self.given.palette_claims(space, address, b):
            return True
        if self.takes(b, space, address):
            return True
        return any(window.space == space and window.claims(address) for window in self.windows[b.slot])

    def passes(self, b, region, address):
        """Whether a bridge passes an address of a region: a prefetchable window serves prefetchable BARs alone."""
        if self.given.legacy_claims(region.space, address, b) or self.takes(b, region.space, address):
            return True
        for window in self.windows[b.slot]:
            serves = window.part.window != 'pref' or region.prefetchable
            if window.space == region.space and serves and window.claims(address):
                return True
        return False

    def gets(self, space, address, bus):
        """Whether an access of the host to an address gets to a bus."""
        return any(self.given.starts(space, root, address)
                   and all(self.forwards(b, space, address) for b in bridges)
                   for root, bridges in self.ways(bus))

    def turns(self, space):
        """Addresses of a space at which an answer may change: where something begins, and behind where it ends."""
        ranges = [found for region in self.regions if region.space == space for found in region.ranges]
        ranges += [(first, last) for _, first, last in self.given.host[space] or []]
        turns = {0} | {first for first, _ in ranges} | {last + 1 for _, last in ranges}
        return sorted(address for address in turns if address < 1 << WIDTH[space])
