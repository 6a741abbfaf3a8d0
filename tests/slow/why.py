"""Reasons behind faults of judging, and BARs that are off: what `faults --why` prints ("All faults" of docs/FORMATS.md)."""

from judge import early_faults, judging, list_text, name_words, system_of
from model import IO, WIDTH, assumed, slot_text
from regions import Region, is_told_on, may_share, told_region


def range_words(space, first, last):
    """First and last address, and how many they are."""
    digits = 8 if space == IO else 16
    count, unit = last + 1 - first, ''
    for letter in 'KMGTPE':
        if count % 1024 == 0:
            count, unit = count // 1024, letter
    return '%0*x-%0*x %d%s' % (digits, first, digits, last, count, unit)


def runs(holds, turns, space):
    """The greatest runs of addresses of which something holds, which changes at no other addresses than these."""
    found = []
    for first, following in zip(turns, turns[1:] + [1 << WIDTH[space]]):
        if holds(first):
            if found and found[-1][1] + 1 == first:
                found[-1] = (found[-1][0], following - 1)
            else:
                found.append((first, following - 1))
    return found


def part_words(region):
    """What a region is, as a line tells it."""
    is_prefetch = region.prefetchable or (region.kind == 'window' and region.part.window == 'pref')
    return '%s %s%s' % (region.kind, region.space, ' pref' if is_prefetch else '')


def title_words(region):
    """The name of a told range, behind a space where there is one."""
    return ' ' + region.title if region.title else ''


def region_line(word, region, system):
    """The line of a region."""
    name = '  %s %s ' % (word, name_words(region))
    if region.kind == 'snoop':
        ports = ' io 000003c6,000003c8-000003c9'
        return name + ('snoop16' + ports if system.given.palette[region.slot] else 'snoop' + ports + ' of each 1K')
    if region.kind != 'legacy':
        extent = range_words(region.space, region.first, region.last)
        return name + '%s %s%s%s' % (part_words(region), extent, ' isa' if region.is_cut else '', title_words(region))
    if region.space != IO:
        return name + 'vga mem 00000000000a0000-00000000000bffff 128K'
    ports = ' io 000003b0-000003bb,000003c0-000003df'
    return name + ('vga16' + ports if system.given.legacy[region.slot] else 'vga' + ports + ' of each 1K')


def window_words(b, kind):
    """What a window of a bridge holds, whatever its Command says."""
    for window in b.windows():
        if window.window == kind:
            if window.is_closed:
                return 'closed'
            digits = 8 if kind == 'io' else 16
            return '%0*x-%0*x' % (digits, window.first, digits, window.last)
    return 'none'


def bridge_line(system, b, region):
    """The line of a bridge that misses addresses of a region."""
    words = ['  bridge', slot_text(b.slot), 'on' if b.is_on(region.space) else 'off']
    words += [region.space, window_words(b, region.space)]
    if region.prefetchable:
        words += ['pref', window_words(b, 'pref')]
    if region.space == IO and b.slot in system.given.isa:
        words.append('isa')
    if b.slot in system.given.unclaimed:
        words.append('unclaimed')
    if b.slot in system.given.legacy:
        words.append('vga16' if system.given.legacy[b.slot] else 'vga')
    return ' '.join(words)


def host_line(system, region):
    """The line of what the host sends to the root above a region."""
    ranges = system.given.host[region.space]
    digits = 8 if region.space == IO else 16
    root = system.ways(region.bus)[0][0]
    sent = ['%0*x-%0*x' % (digits, first, digits, last) for to, first, last in ranges if to in (None, root)]
    return '  host %s %s' % (region.space, ' '.join(sent or ['none']))


def evidence(system, fault):
    """The lines that tell with what ranges a fault is there."""
    region = fault.region
    turns = system.turns(region.space)
    if fault.number == 63:
        return [region_line('needs', region, system), host_line(system, region)]
    if fault.number == 60:
        b = [f for f in system.functions if f.slot == fault.beside][0]
        missed = runs(lambda a: region.claims(a) and not system.passes(b, region, a), turns, region.space)
        return [region_line('needs', region, system), bridge_line(system, b, region)] + [
            '  missed ' + range_words(region.space, first, last) for first, last in missed]
    shared = runs(lambda a: region.claims(a) and fault.beside.claims(a), turns, region.space)
    return [region_line('first', fault.beside, system), region_line('second', region, system)] + [
        '  shared ' + range_words(region.space, first, last) for first, last in shared]


def is_taken(system, region, address):
    """Whether another region claims an address that the region can clash with."""
    roots = system.given.roots
    for other in system.regions:
        beside = other.bus == region.bus or (region.bus in roots and other.bus in roots
                                             and system.given.starts(region.space, other.bus, address))
        if (other.space == region.space and other.name != region.name and beside
                and not may_share(region, other) and other.claims(address)):
            return True
    return False


def is_good(system, region, address):
    """Whether a region could have an address: accesses to it get there, and no other region claims it."""
    is_reached = any(system.given.starts(region.space, root, address)
                     and all(system.passes(b, region, address) for b in bridges)
                     for root, bridges in system.ways(region.bus))
    return is_reached and not is_taken(system, region, address)


def least_place(system, region):
    """The least place at which a region fits, or None."""
    size = region.last + 1 - region.first
    end = 1 << (16 if region.space == IO else 64 if region.wide else 32)
    for first, last in runs(lambda a: is_good(system, region, a), system.turns(region.space), region.space):
        place = (first + size - 1) // size * size
        if place + size - 1 <= last and place + size <= end:
            return place, place + size - 1
    return None


def moved_by(fault):
    """The region that can be moved: the second of two, but the first where the second is a told range."""
    return fault.beside if fault.number in (61, 62) and fault.region.is_told else fault.region


def advice(system, fault):
    """The line that tells where a region would fit, or none."""
    region = moved_by(fault)
    is_said = system.given.host[region.space] is not None
    if not region.is_movable or (region.bus in system.given.roots and not is_said):
        return []
    if fault.number == 62 and not is_said:
        return []
    if region.register in assumed(region.f):
        return ['  fits unknown']
    place = least_place(system, region)
    return ['  fits ' + (range_words(region.space, *place) if place else 'none')]


def off_regions(system):
    """The implemented BARs whose space Command doesn't enable, and told ranges that aren't on, by slot and register."""
    found = [Region(f, bar.register, bar.space, 'bar', bar) for f in system.functions for bar in f.bars()
             if not f.is_on(bar.space)]
    found += [told_region(told) for told in system.given.told
              if not is_told_on(told, system.functions, system.given)]
    return sorted(found, key=lambda region: region.name)


def faults_and_why(functions, probe_slots, given, words=None):
    """What `faults --why` prints."""
    lines = early_faults(functions, probe_slots, given, words)
    if lines:
        return list_text(lines)
    system = system_of(functions, given, words)
    return reasoned_text(system, judging(system))


def reasoned_text(system, found):
    """The text of a list of all faults of judging, with reasons."""
    lines = [] if found else ['yes']
    for fault in found:
        lines += [fault.line] + evidence(system, fault) + advice(system, fault)
    lines += [region_line('off', region, system)[2:] for region in off_regions(system)]
    return '\n'.join(lines) + '\n'
