"""The slow judge: verdicts and lists of all faults, from the definitions of docs/FORMATS.md.

It asks of each region, bus and bridge at each address at which an answer may change. What is asked of an address is a
combination of ranges, so the least address with an answer is where a range begins, or behind one's end.

- `faults(functions, probe_slots, given, words)`: the text that `faults` prints.
- `verdict(functions, probe_slots, roots)`: the text that `check` prints.

`functions` are those of the dump with their probes; `probe_slots` are the slots of the probe, None where they are equal.
"""

from early import early_lines, slot_lines, unlisted_lines
from model import IO, MEM, slot_text
from regions import TOLD, Given, System, may_share
from words import isa_bridges, legacy_parts, names_of, palette_parts, sleepers, taken, unclaimed_bridges


def address_words(space, address):
    """A space and an address of it, as faults tell them."""
    return '%s %0*x' % (space, 8 if space == IO else 16, address)


def register_words(register):
    """A register, or the line of a told range."""
    return '%02x' % register if register <= TOLD else '+%d' % (register - TOLD)


def name_words(region):
    """A region, as faults name it."""
    return '%s %s' % (slot_text(region.slot), register_words(region.register))


class Fault:
    """A fault of judging: the order in which it is looked for, its line, and what it names.

    `region` is the one that isn't sent or reached, or the second of two; `beside` the slot of the bridge, or the first
    of two regions; `address` the address that is told.
    """

    def __init__(self, key, line, region, beside, address):
        self.number = int(line[:2])
        self.key = key
        self.line = line
        self.region = region
        self.beside = beside
        self.address = address


def outside(system, turns):
    """63: each region that has to be sent, with its least address that the host doesn't send to the root above."""
    found = []
    for region in system.regions:
        if not region.is_home:
            continue
        for address in turns[region.space]:
            if region.claims(address) and not all(
                    system.given.starts(region.space, root, address) for root, _ in system.ways(region.bus)):
                line = '63 Outside %s %s' % (name_words(region), address_words(region.space, address))
                found.append(Fault((0, region.name, address), line, region, None, address))
                break
    return found


def missing_bridge(system, region, addresses):
    """The first bridge on the way to a region that misses one of its addresses, and the least that it misses."""
    missed = []
    for root, bridges in system.ways(region.bus):
        for b in bridges:
            missed += [(b.slot, address) for address in addresses
                       if system.given.starts(region.space, root, address)
                       and not system.passes(b, region, address)]
    return min(missed) if missed else None


def unreached(system, turns):
    """60: each region that has to be reached, which a bridge on its way doesn't pass."""
    found = []
    for region in system.regions:
        if not region.is_home:
            continue
        missed = missing_bridge(system, region, [a for a in turns[region.space] if region.claims(a)])
        if missed:
            bridge, address = missed
            line = '60 Unreached %s %s bridge %s' % (
                name_words(region), address_words(region.space, address), slot_text(bridge))
            found.append(Fault((1, 0, region.name, bridge, address), line, region, bridge, address))
    return found


def clash_at(first, second, address):
    """The fault 61 of two regions at an address."""
    space = second.space
    line = '61 Clash bus %02x %s %s %s' % (
        second.bus, address_words(space, address), name_words(first), name_words(second))
    key = (1, 1, second.bus, 0 if space == IO else 1, address, first.name, second.name)
    return Fault(key, line, second, first, address)


def split_at(first, second, address):
    """The fault 62 of two regions at an address."""
    space = second.space
    line = '62 Split %s %s %s' % (address_words(space, address), name_words(first), name_words(second))
    key = (1, 2, 0 if space == IO else 1, address, first.name, second.name)
    return Fault(key, line, second, first, address)


def pairs(system, turns):
    """All faults 61 and 62 at addresses where something begins or ends, the earlier region first."""
    found = []
    roots = system.given.roots
    for space in (IO, MEM):
        for address in turns[space]:
            there = [region for region in system.regions if region.space == space and region.claims(address)]
            gets = {region.bus: system.gets(space, address, region.bus) for region in there}
            starts = {root: system.given.starts(space, root, address) for root in roots}
            for place, second in enumerate(there):
                for first in [first for first in there[:place] if not may_share(first, second)]:
                    if first.bus == second.bus and gets[first.bus]:
                        found.append(clash_at(first, second, address))
                    if (first.bus != second.bus and first.bus in roots and second.bus in roots
                            and starts[first.bus] and starts[second.bus]):
                        found.append(split_at(first, second, address))
    return found


def least_of_each_second(faults):
    """Of each second region, space and number the fault at the least address, with the least first region."""
    least = {}
    for fault in faults:
        subject = (fault.number, fault.region.name, fault.region.space)
        told = least.get(subject)
        if told is None or (fault.address, fault.beside.name) < (told.address, told.beside.name):
            least[subject] = fault
    return list(least.values())


def judging(system):
    """The list of all faults of judging, in their order."""
    turns = {space: system.turns(space) for space in (IO, MEM)}
    found = outside(system, turns) + unreached(system, turns) + least_of_each_second(pairs(system, turns))
    return sorted(found, key=lambda fault: fault.key)


def list_text(lines):
    """The text of a list of all faults, without reasons."""
    return '\n'.join(lines or ['yes']) + '\n'


def faults(functions, probe_slots, given, words=None):
    """What `faults` prints, without reasons."""
    lines = early_faults(functions, probe_slots, given, words)
    return list_text(lines or [fault.line for fault in judging(system_of(functions, given, words))])


def early_faults(functions, probe_slots, given, words=None):
    """The lines of the earliest phase before judging that has any."""
    slots = [f.slot for f in functions]
    if probe_slots is not None and probe_slots != slots:
        return slot_lines(slots, probe_slots)
    to_list = [told.slot for told in given.told if told.mark != 'held']
    held = [told.slot for told in given.told if told.mark == 'held']
    return unlisted_lines(slots, to_list) or early_lines(taken(functions, names_of(words)), given.roots, held)


def system_of(functions, given, words=None):
    """The system as words take it, with what they say of its bridges."""
    names = names_of(words)
    given = Given(given.roots, given.host[IO], given.host[MEM], given.told)
    given.legacy = legacy_parts(functions, names)
    given.palette = palette_parts(functions, names)
    given.isa = isa_bridges(functions, names)
    given.unclaimed = unclaimed_bridges(functions, names)
    given.asleep = sleepers(functions, names)
    return System(taken(functions, names), given)


def verdict(functions, probe_slots, roots):
    """What `check` prints."""
    lines = early_faults(functions, probe_slots, Given(roots))
    if not lines:
        system = system_of(functions, Given(roots))
        turns = {space: system.turns(space) for space in (IO, MEM)}
        found = unreached(system, turns) + pairs(system, turns)
        lines = [min(found, key=lambda fault: fault.key).line] if found else []
    return 'no %s\n' % lines[0] if lines else 'yes\n'
