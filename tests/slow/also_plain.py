"""Who answers an address, and which bridge takes it further: once more, by the definitions, and by that address alone.

Nothing is asked of regions or of where they begin, and what words say of a bridge is read off the registers that are listed.
`plain_fault(case, space, address)` tells what the slow judge says
otherwise, or none, and `clash_fault` of two regions. A `Case` is a board as it is judged:

- `functions` (of the dump), `given`, `words`, `names`; `early`: the faults before judging, and where there are none
- `system`, and all faults of judging: `clashes` (61 and 62 of each two and each address), `missed` (60), `sent` (63).
"""

from judge import early_faults, outside, pairs, system_of, unreached
from model import IO, MEM, bit
from words import names_of


class Case:
    """A board as it is judged."""

    def __init__(self, functions, probe_slots, given, words):
        self.functions = functions
        self.given = given
        self.words = words
        self.names = names_of(words)
        self.early = early_faults(functions, probe_slots, given, words)
        self.system = None if self.early else system_of(functions, given, words)
        if self.system:
            self.find()

    def with_system(self, system):
        """The same functions, judged as another system."""
        other = Case.__new__(Case)
        other.__dict__.update(self.__dict__)
        other.system = system
        other.find()
        return other

    def find(self):
        """All faults of judging."""
        turns = {space: self.system.turns(space) for space in (IO, MEM)}
        self.clashes = pairs(self.system, turns)
        self.missed = unreached(self.system, turns)
        self.sent = outside(self.system, turns)
        self.known = {}


def told_claims(case, told, space, address):
    """Whether a told range claims an address."""
    if told.space != space or not told.first <= address <= told.last:
        return False
    if told.mark == 'held':
        return True
    own = [f for f in case.functions if f.slot == told.slot][0]
    if own.slot in case.system.given.asleep:
        return False
    return told.mark == 'always' or bit(own.command, 0 if space == IO else 1)


def part_claims(case, part, space, address):
    """Whether a BAR, ROM or window of a function claims an address."""
    if not part.claims(space, address):
        return False
    is_cut = 'isa' in case.names and part.window == 'io' and bit(listed(case, part.function).bridge_control, 2)
    return not (is_cut and address < 0x10000 and bit(address, 8) + bit(address, 9) > 0)


def listed(case, f):
    """The function as it is listed."""
    return [g for g in case.functions if g.slot == f.slot][0]


def decoded_port(case, f, address):
    """The bits of a port that the bridge decodes, or none from 64 KB on."""
    if address >= 0x10000:
        return None
    return address if 'vga16' in case.names or bit(listed(case, f).bridge_control, 4) else address & 0x3FF


def legacy_claims(case, f, space, address):
    """Whether a bridge has a legacy part that claims an address."""
    if not case.names & {'vga', 'vga16'} or not f.is_bridge or not bit(listed(case, f).bridge_control, 3):
        return False
    if not f.is_on(space):
        return False
    if space == MEM:
        return 0xA0000 <= address < 0xC0000
    port = decoded_port(case, f, address)
    return port is not None and (0x3B0 <= port <= 0x3BB or 0x3C0 <= port <= 0x3DF)


def palette_claims(case, f, space, address):
    """Whether a bridge has a palette part that claims an address."""
    if 'snoop' not in case.names or not f.is_bridge or not bit(listed(case, f).command, 5) or not f.is_on(IO):
        return False
    return space == IO and decoded_port(case, f, address) in (0x3C6, 0x3C8, 0x3C9)


def claimers(case, space, address):
    """The names of all that claims an address, by bus: found once."""
    if (space, address) not in case.known:
        case.known[space, address] = all_claimers(case, space, address)
    return case.known[space, address]


def all_claimers(case, space, address):
    """The names of all that claims an address, by bus."""
    found = []
    for f in case.system.functions:
        found += [(f.slot, part.register) for part in f.parts() if part_claims(case, part, space, address)]
        found += [(f.slot, 0x3E)] if legacy_claims(case, f, space, address) else []
        found += [(f.slot, 0x04)] if palette_claims(case, f, space, address) else []
    found += [(told.slot, 255 + told.n) for told in case.given.told if told_claims(case, told, space, address)]
    return sorted(found)


def is_of_the_class(f):
    """Whether a listed function is a bridge of class 060401h."""
    return f.image[0x0E] & 0x7F == 1 and tuple(f.image[9:12]) == (1, 4, 6)


def is_taking(case, slot):
    """Whether words say that a bridge takes what nobody claims: it is alone of the class on its bus.

    One that has nothing behind it is taken as another bridge where `subtractive` counts.
    """
    there = [f.slot for f in case.functions if is_of_the_class(f) and f.slot[0] == slot[0]]
    if 'unclaimed' not in case.names or there != [slot]:
        return False
    own = [f for f in case.functions if f.slot == slot][0]
    buses = range(own.image[0x19], own.image[0x1A] + 1)
    return 'subtractive' not in case.names or any(f.slot[0] in buses for f in case.functions)


def takes(case, b, space, address):
    """Whether a bridge takes an address that nobody on its bus claims."""
    if not b.is_bridge or not is_taking(case, b.slot) or not b.is_on(space):
        return False
    return all(slot[0] != b.slot[0] for slot, _ in claimers(case, space, address))


def serving(case, b, space, address):
    """The kinds of what lets a bridge forward an address."""
    kinds = {part.window for part in b.windows() if part_claims(case, part, space, address)}
    kinds |= {'vga'} if legacy_claims(case, b, space, address) else set()
    kinds |= {'snoop'} if palette_claims(case, b, space, address) else set()
    return kinds | ({'unclaimed'} if takes(case, b, space, address) else set())


def plain_fault(case, space, address):
    """What the slow judge says otherwise of an address, or none."""
    system = case.system
    there = [region for region in system.regions if region.space == space and region.claims(address)]
    if [region.name for region in there] != claimers(case, space, address):
        return '%s %x is claimed by %s' % (space, address, claimers(case, space, address))
    for region in there:
        if region.holds and not any(first <= address <= last for first, last in region.ranges):
            return '%s %x is in no range of %s' % (space, address, region.name)
    for b in system.functions:
        kinds = serving(case, b, space, address) if b.is_bridge else set()
        if system.forwards(b, space, address) != bool(kinds):
            return '%s %x and what %s forwards' % (space, address, b.slot)
        for region in there:
            by = kinds - {'snoop'} - (set() if region.prefetchable else {'pref'})
            if system.passes(b, region, address) != bool(by):
                return '%s %x and what %s passes for %s' % (space, address, b.slot, region.name)
    return None


def gets(case, space, address, bus):
    """Whether an access of the host to an address gets to a bus."""
    if bus in case.given.roots:
        return case.given.starts(space, bus, address)
    above = [b for b in case.system.functions if b.is_bridge and b.secondary == bus]
    return any(serving(case, b, space, address) and gets(case, space, address, b.slot[0]) for b in above)


def is_shared(case, one, other):
    """Whether two may share an address, by their slots and registers."""
    held = {(told.slot, 255 + told.n) for told in case.given.told if told.mark == 'held'}
    if one in held and other in held:
        return True
    if one[0] != other[0]:
        return False
    windows = {(b.slot, register) for b in case.system.functions if b.is_bridge for register in (0x1C, 0x20, 0x24)}
    parts = {(b.slot, register) for b in case.system.functions if b.is_bridge for register in (0x04, 0x3E)}
    if one in windows and other in windows:
        return False
    return one in held or other in held or (one in windows | parts and other in windows | parts)


def clash_fault(case, space, address):
    """What the slow judge says otherwise of each two that claim an address, or none."""
    there, roots, wanted = claimers(case, space, address), case.given.roots, set()
    for place, second in enumerate(there):
        for first in there[:place]:
            bus, other = first[0][0], second[0][0]
            if bus == other and gets(case, space, address, bus) and not is_shared(case, first, second):
                wanted.add((61, first, second))
            if bus != other and bus in roots and other in roots and not is_shared(case, first, second):
                if case.given.starts(space, bus, address) and case.given.starts(space, other, address):
                    wanted.add((62, first, second))
    found = {(fault.number, fault.beside.name, fault.region.name) for fault in case.clashes
             if fault.region.space == space and fault.address == address}
    return None if found == wanted else '%s %x: clashes are %s, and not %s' % (space, address, found, wanted)
