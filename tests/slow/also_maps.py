"""What has to hold of a map, whatever is told: where each region stands, and what is free.

- `map_fault(case, lines)`: which of these laws doesn't hold, or none.
- `under(heading, lines)`: the lines below a heading at the end of a map.
"""

from also_plain import claimers, takes
from judge import name_words
from model import IO, MEM, slot_text

KINDS = ('bar', 'rom', 'window', 'told', 'held')


def under(heading, lines):
    """The lines below a heading at the end of a map."""
    found = []
    if heading in lines:
        for line in lines[lines.index(heading) + 1:]:
            if not line.startswith('  '):
                break
            found.append(line)
    return found


def name_of(line):
    """Slot and register of a region's line, or none of another line."""
    words = line.split()
    if len(words) < 3 or words[2] not in KINDS:
        return None
    return ' '.join(words[4:6] if words[3] == 'pref' else words[3:5])


def names_of(lines):
    """The names of the regions of some lines, in order."""
    return sorted(name for name in map(name_of, lines) if name)


def count_fault(case, lines):
    """Each region has one line, and so has each BAR and each told range that is off."""
    wanted = [name_words(region) for region in case.system.regions if region.kind in KINDS]
    there = {region.name for region in case.system.regions}
    wanted += ['%s +%d' % (slot_text(told.slot), told.n) for told in case.given.told
               if (told.slot, told.register) not in there]
    wanted += ['%s %02x' % (slot_text(f.slot), bar.register) for f in case.system.functions for bar in f.bars()
               if not f.is_on(bar.space)]
    return None if names_of(lines) == sorted(wanted) else 'the map has %s, and not %s' % (names_of(lines), sorted(wanted))


def place_of(case, region, sent):
    """Where a region stands: under a root bus, under a bridge that takes it, outside, or nowhere of these."""
    if region.name in sent:
        return 'outside'
    if region.bus in case.given.roots:
        return 'root'
    b = [f for f in case.system.functions if f.is_bridge and f.secondary == region.bus][0]
    holding = [other for other in case.system.regions if other.slot == b.slot and other.kind == 'window'
               and other.space == region.space and other.claims(region.first)]
    if holding:
        place = place_of(case, holding[0], sent)
        return place if place == 'unreached' else 'root'
    return 'unclaimed' if takes(case, b, region.space, region.first) else 'unreached'


def standing_fault(case, lines):
    """What has no place but one of those at the end stands there, and what a bridge takes stands below its heading."""
    sent = {fault.region.name for fault in case.sent}
    regions = [region for region in case.system.regions if region.kind in KINDS]
    places = {region.name: place_of(case, region, sent) for region in regions}
    for heading in ('outside', 'unreached'):
        wanted = sorted(name_words(region) for region in regions if places[region.name] == heading)
        if names_of(under(heading, lines)) != wanted:
            return 'below %s stands %s, and not %s' % (heading, names_of(under(heading, lines)), wanted)
    taken, is_below = [], False
    for line in lines:
        depth = len(line) - len(line.lstrip())
        is_below = line.startswith('  unclaimed ') or (is_below and depth > 2)
        taken += [line] if is_below and depth == 4 else []
    wanted = sorted(name_words(region) for region in regions if places[region.name] == 'unclaimed')
    return None if names_of(taken) == wanted else 'below unclaimed stands %s, and not %s' % (names_of(taken), wanted)


def free_fault(case, lines):
    """No region of the bus has an address of a free line, nor has what the root bus isn't sent."""
    buses, space = [], IO
    for line in lines:
        words, depth = line.split(), (len(line) - len(line.lstrip())) // 2
        if words[0] == 'bus':
            buses, space = [int(words[1], 16)], (IO if words[2] == 'io' else MEM)
        elif words[-1] == 'free':
            for address in (int(end, 16) for end in words[0].split('-')):
                if any(slot[0] == buses[depth - 1] and register not in (0x3E, 0x04)
                       for slot, register in claimers(case, space, address)):
                    return 'free is %s' % line
                if depth == 1 and not case.given.starts(space, buses[0], address):
                    return 'free and not sent is %s' % line
        elif depth:
            slot = name_of(line).split()[0] if name_of(line) else words[1] if words[0] == 'unclaimed' else None
            owner = [f for f in case.system.functions if slot_text(f.slot) == slot]
            buses[depth:] = [owner[0].secondary if owner else None]
        else:
            break
    return None


def map_fault(case, lines):
    """Which law doesn't hold of a map, or none."""
    return count_fault(case, lines) or standing_fault(case, lines) or free_fault(case, lines)
