"""The slow map: what `map` prints (docs/FORMATS.md, "Address map")."""

from judge import early_faults, name_words, system_of
from model import IO, MEM, slot_text
from why import off_regions, range_words, runs, title_words


def is_outside(system, region):
    """Whether a region that has to be sent has an address that the host doesn't send to the root above it."""
    return region.is_home and any(
        region.claims(address) and not system.given.starts(region.space, root, address)
        for address in system.turns(region.space) for root, _ in system.ways(region.bus))


def belongs_under(system, window, region):
    """Whether a region belongs under a window: the first of its bridge's that claims the region's first address."""
    b = window.f
    if b.secondary != region.bus:
        return False
    holding = [w for w in system.windows[b.slot] if w.space == region.space and w.claims(region.first)]
    return bool(holding) and min(w.register for w in holding) == window.register


class Map:
    """The lines of a map."""

    def __init__(self, system):
        self.system = system
        self.own = [region for region in system.regions if region.kind not in ('legacy', 'snoop')]
        self.outside = [region for region in self.own if is_outside(system, region)]
        self.shown = []

    def is_claimed(self, bus, space, address):
        """Whether a region of a bus claims an address."""
        return any(region.bus == bus and region.space == space and region.claims(address) for region in self.own)

    def lines_of(self, space, regions, is_free, depth):
        """The lines of a place: its regions, what is inside them, and what is free."""
        free = runs(is_free, self.system.turns(space), space)
        items = [(first, (), last) for first, last in free]
        items += [(region.first, region.name, region) for region in regions if region not in self.outside]
        lines = []
        for first, name, item in sorted(items, key=lambda it: it[:2]):
            if name:
                lines += self.region_lines(item, depth)
            else:
                lines.append('%s%s free' % ('  ' * depth, range_words(space, first, item)))
        return lines

    def region_lines(self, region, depth):
        """The line of a region, and of what is inside it."""
        self.shown.append(region)
        lines = ['  ' * depth + region_words(region)]
        if region.kind == 'window':
            inside = [other for other in self.own if belongs_under(self.system, region, other)]
            bus = region.f.secondary
            lines += self.lines_of(
                region.space, inside,
                lambda a: region.claims(a) and not self.is_claimed(bus, region.space, a), depth + 1)
        return lines

    def root_lines(self, bus, space):
        """The lines of a root bus in a space."""
        given = self.system.given
        is_said = given.host[space] is not None
        regions = [region for region in self.own if region.bus == bus and region.space == space]
        lines = self.lines_of(
            space, regions,
            lambda a: is_said and given.starts(space, bus, a) and not self.is_claimed(bus, space, a), 1)
        for b in self.system.functions:
            if b.slot in given.unclaimed and bus in [root for root, _ in self.system.ways(b.slot[0])]:
                lines += self.unclaimed_lines(b, space)
        return ['bus %02x %s' % (bus, space)] + lines if lines else []

    def unclaimed_lines(self, b, space):
        """What a bridge takes as nobody on its bus claims it: a heading, and the regions behind without a window."""
        if not b.is_bridge:
            return []
        behind = [region for region in self.own
                  if region.bus == b.secondary and region.space == space and region not in self.outside
                  and self.system.takes(b, space, region.first)
                  and not any(w.space == space and w.claims(region.first) for w in self.system.windows[b.slot])]
        lines = [line for region in sorted(behind, key=lambda region: (region.first, region.name))
                 for line in self.region_lines(region, 2)]
        return ['  unclaimed ' + slot_text(b.slot)] + lines if lines else []

    def lines(self):
        """All lines."""
        lines = []
        for bus in sorted(self.system.given.roots):
            for space in (IO, MEM):
                lines += self.root_lines(bus, space)
        left = [region for region in self.own if region not in self.shown and region not in self.outside]
        lines += headed('outside', [region_words(region) for region in self.outside])
        lines += headed('unreached', [region_words(region) for region in left])
        return lines + headed('off', [region_words(region) for region in off_regions(self.system)])


def headed(heading, lines):
    """Lines two spaces in below a heading, where there are any."""
    return [heading] + ['  ' + line for line in lines] if lines else []


def region_words(region):
    """The line of a region."""
    return '%s %s%s %s%s%s' % (range_words(region.space, region.first, region.last), region.kind,
                               ' pref' if region.prefetchable else '', name_words(region),
                               ' isa' if region.is_cut else '', title_words(region))


def address_map(functions, probe_slots, given, words=None):
    """What `map` prints."""
    lines = early_faults(functions, probe_slots, given, words)
    return no_map(lines) if lines else map_text(system_of(functions, given, words))


def no_map(lines):
    """What is printed in place of a map, where a list of all faults before judging has lines."""
    return 'no %s\n' % lines[0]


def map_text(system):
    """The map of a system."""
    return ''.join(line + '\n' for line in Map(system).lines())
