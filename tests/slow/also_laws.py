"""Told ranges beside boards made by rule: what has to hold of lists, reasons and maps, whatever is told.

- `compare(seed, program, folder)`: what doesn't hold on the board of a seed, or None, and the sorts of the board. A program
  is asked for the same lists, reasons and maps.
- `show(seed)`: the board of a seed, and what is told.
- `SORTS`: the sorts that a run over many seeds has to meet.
"""

import random

from address_map import map_text
from also import answers, numbered, told_ranges, told_text
from also_boards import also_board
from also_maps import map_fault, under
from also_plain import Case, clash_fault, plain_fault
from boards import described
from early import has_window_fault
from judge import faults
from model import CLASS, COMMAND, IO, MEM, WIDTH, WINDOWS, bit, number_at, put_bar, put_rom, window_bounds
from program import put_files, run
from regions import Given, System, ToldRange, is_told_on
from told import judge, message
from why import least_place, moved_by, advice
from words import taken

NEEDED = ('isa', 'snoop', 'unclaimed', 'cardbus', 'windows')
SORTS = ('yes', 'not listed', 'held at no bus', 'told 60', 'told 61', 'told 62', 'told 63', 'held and something else',
         'told of what sleeps', 'off', 'told in a map', 'held in a map', 'unclaimed in a map', 'outside', 'unreached',
         'the first of two is moved', 'a told range stands for a BAR', 'a bridge that takes what is unclaimed',
         'it has an open window', 'it has none', 'two of the class', 'reached as nobody claims it', 'not taken as it is told',
         'a cut window', 'a palette part', 'a palette part of 16 bits', 'a palette part that clashes',
         'a device that snoops') + NEEDED
SAMPLES = 24


# ---- laws of what is told

def text_fault(board, rule):
    """The text has one spelling, and what stands behind its fault means nothing."""
    text = told_text(board.told)
    if told_text(told_ranges(text)) != text:
        return 'the text is read otherwise'
    other = spoilt_text(text, rule)
    answer = judge(other)
    if isinstance(answer, list) or answer[0] == 9:
        return None
    return None if judge(other + b'x') == answer else 'more text changes %s' % message(answer)


def spoilt_text(text, rule):
    """A text of which a byte is another one, or which is cut."""
    other = bytearray(text.encode('latin-1'))
    if other:
        place = rule.randrange(len(other))
        other[place] = rule.choice(b'09afghx-. \n\x7f')
        if rule.randrange(4) == 0:
            del other[place:]
    return bytes(other)


def early_fault(case, bare):
    """What is told adds 34 and 58 alone before judging."""
    added = [line for line in case.early if line not in bare.early]
    lost = [line for line in bare.early if line not in case.early]
    if any(line[:2] not in ('34', '58') for line in added):
        return 'it adds %s' % added
    if lost and not all(line.startswith('34') for line in case.early):
        return 'it takes %s' % lost
    return None


def keys(found):
    """Faults of judging without the words of their lines."""
    return {(fault.number, fault.region.name, fault.beside if fault.number in (60, 63) else fault.beside.name,
             fault.region.space, fault.address) for fault in found}


def names_in(found):
    """The names of the regions that faults are of."""
    return {fault.region.name for fault in found} | {fault.beside.name for fault in found if fault.number in (61, 62)}


def all_keys(case):
    """All faults of judging of a board."""
    return keys(case.clashes) | keys(case.missed) | keys(case.sent)


def adding_fault(case, bare):
    """Without a bridge that takes what is unclaimed nothing goes."""
    if case.system.given.unclaimed:
        return None
    gone = all_keys(bare) - all_keys(case)
    if gone:
        return 'what is told takes away %s' % sorted(map(str, gone))[0]
    kept = set(map_of(case))
    may_go = lambda line: line.startswith('bus ') or line.endswith(' free')
    lost = [line for line in map_of(bare) if line not in kept and not may_go(line)]
    return 'the map has no line %s' % lost[0] if lost else None


def map_of(case):
    """The lines of the map."""
    return map_text(case.system).splitlines()


def held_fault(case):
    """60 and 63 never name a held range, and two held ranges never clash."""
    for fault in case.missed + case.sent:
        if fault.region.kind == 'held':
            return 'a held range has to be reached: ' + fault.line
    for fault in case.clashes:
        if fault.region.kind == fault.beside.kind == 'held':
            return 'held ranges clash: ' + fault.line
    return None


def name_fault(case):
    """A name changes itself alone."""
    texts = []
    for title in ('~name~', ''):
        told = told_ranges(told_text(case.given.told))
        for line in told:
            line.title = title
        texts.append(''.join(answers(case.functions, None, with_told(case.given, told), case.words)))
    return None if texts[0].replace(' ~name~', '') == texts[1] else 'a name changes more than itself'


def with_told(given, told):
    """The same with other told ranges."""
    return Given(given.roots, given.host[IO], given.host[MEM], told)


def halves_fault(case):
    """Ranges told by halves are judged as whole ones."""
    halves = []
    for told in case.given.told:
        middle = (told.first + told.last) // 2
        for span in [(told.first, middle)] + ([(middle + 1, told.last)] if middle < told.last else []):
            half = ToldRange(0, told.slot, 'pref' if told.prefetchable else told.space, span, told.mark)
            half.whole = told
            halves.append(half)
    halves = numbered(halves)
    names = {(half.slot, half.register): (half.whole.slot, half.whole.register) for half in halves}
    other = Case(case.functions, None, with_told(case.given, halves), case.words)
    if other.early:
        return 'by halves there is ' + other.early[0]
    turns = {space: case.system.turns(space) for space in (IO, MEM)}
    same = of_wholes(case, {}, turns) == of_wholes(other, names, turns)
    return None if same else 'by halves it is judged otherwise'


def of_wholes(case, names, turns):
    """All faults, of two regions at some addresses, and of one the least, with the names of whole ranges."""
    least = {}
    for fault in case.missed + case.sent:
        subject = (fault.number, names.get(fault.region.name, fault.region.name))
        least[subject] = min(least.get(subject, (fault.beside, fault.address)), (fault.beside, fault.address))
    return least, {(fault.number, fault.region.space, fault.address,
                    frozenset(names.get(region.name, region.name) for region in (fault.region, fault.beside)))
                   for fault in case.clashes if fault.address in turns[fault.region.space]}


def word_fault(case):
    """Words but `power` don't change which told ranges are on."""
    if 'power' in case.names:
        return None
    on = {region.name for region in case.system.regions}
    for told in case.given.told:
        if ((told.slot, told.register) in on) != is_told_on(told, case.functions, Given(case.given.roots)):
            return 'words change whether line %d is on' % told.n
    return None


def bar_fault(case, rule, sorts):
    """A told range stands for a BAR: the faults are the same, under another name."""
    bars = [(f, bar) for f in case.system.functions for bar in f.bars()]
    if not bars:
        return None
    f, bar = rule.choice(bars)
    functions = [g.copy() for g in case.functions]
    for g in functions:
        if g.slot == f.slot:
            width = 8 if bar.wide else 4
            for image in (g.image, g.probe):
                image[bar.register:bar.register + width] = bytes(width)
    told = ToldRange(len(case.given.told) + 1, f.slot, 'pref' if bar.prefetchable else bar.space, (bar.first, bar.last),
                     'command')
    other = Case(functions, None, with_told(case.given, case.given.told + [told]), case.words)
    if other.early:
        return 'without a BAR there is ' + other.early[0]
    sorts.add('a told range stands for a BAR')
    old, new = (f.slot, bar.register), (f.slot, told.register)
    if renamed(case, old, new) != renamed(other, old, new):
        return 'the BAR %s is judged otherwise where it is told' % (old,)
    return None


def renamed(case, old, new):
    """All faults, of two regions in no order, with a name for another."""
    def name(region):
        return new if region.name == old else region.name
    clashes = {(fault.number, fault.region.space, fault.address, frozenset((name(fault.region), name(fault.beside))))
               for fault in case.clashes}
    return clashes | {(fault.number, fault.region.space, fault.address, name(fault.region), fault.beside)
                      for fault in case.missed + case.sent}


# ---- laws of bridges

def address_fault(case, rule):
    """Addresses at cuts, beside them and between them are judged as by the definitions, and alike between two cuts."""
    for space in (IO, MEM):
        turns = case.system.turns(space)
        ends = turns[1:] + [1 << WIDTH[space]]
        for place in rule.sample(range(len(turns)), min(SAMPLES, len(turns))):
            first, last = turns[place], ends[place] - 1
            addresses = first, rule.randint(first, last), last
            for address in addresses:
                told = plain_fault(case, space, address)
                if told:
                    return told
            if clash_fault(case, space, first):
                return clash_fault(case, space, first)
            for region in case.system.regions:
                if region.space == space and len({region.claims(address) for address in addresses}) > 1:
                    return '%s %x: no cut at an end of %s' % (space, first, region.name)
    return None


def unclaimed_fault(case):
    """A bridge that takes what is unclaimed adds no clash on its bus, and takes nothing where all is told there."""
    given = case.system.given
    for b in [f for f in case.system.functions if f.slot in given.unclaimed and f.is_bridge]:
        without = case.with_system(System(case.system.functions, given_without(given, b.slot, given.told)))
        bus = b.slot[0]
        if on_bus(case, bus) != on_bus(without, bus):
            return 'a clash of bus %02x comes by what %s takes' % (bus, b.slot)
        whole = [ToldRange(5000 + n, (bus, 31, 7), space, (0, (1 << WIDTH[space]) - 1), 'held')
                 for n, space in enumerate((IO, MEM))]
        told = given.told + whole
        kept = case.with_system(System(case.system.functions, given_without(given, None, told)))
        closed = case.with_system(System(case.system.functions, given_without(given, b.slot, told)))
        if keys(kept.missed) != keys(closed.missed):
            return '%s takes what is told' % (b.slot,)
    return None


def class_fault(case):
    """A bridge that takes what is unclaimed is judged as one of another class is, but for what it takes."""
    given = case.system.given
    for slot in sorted(given.unclaimed):
        functions = [f.copy() for f in case.functions]
        own = [f for f in functions if f.slot == slot][0]
        own.image[CLASS] = 0
        other = Case(functions, None, case.given, case.words)
        if other.early:
            return 'of another class than %s has there is %s' % (slot, other.early[0])
        without = case.with_system(System(case.system.functions, given_without(given, slot, given.told)))
        if all_keys(other) != all_keys(without):
            return '%s is judged otherwise, though it takes nothing' % (slot,)
    return None


def given_without(given, slot, told):
    """What is given, with other told ranges, and without one of the bridges that take what is unclaimed."""
    other = with_told(given, told)
    other.legacy, other.palette, other.isa, other.asleep = given.legacy, given.palette, given.isa, given.asleep
    other.unclaimed = given.unclaimed - {slot}
    return other


def on_bus(case, bus):
    """The clashes of a bus."""
    return keys(fault for fault in case.clashes if fault.number == 61 and fault.region.bus == bus)


def palette_fault(case):
    """A palette part passes nothing: without it no more and no less is reached."""
    given = given_without(case.system.given, None, case.given.told)
    if given.unclaimed or not given.palette:
        return None
    given.palette = {}
    other = case.with_system(System(case.system.functions, given))
    if keys(other.missed) != keys(case.missed):
        return 'a palette part changes what is reached'
    lost = keys(other.clashes) - keys(case.clashes)
    return 'a palette part takes a clash away' if lost else None


def listener_fault(case, texts):
    """With `snoop` a device answers alike whether it listens to the palette or not."""
    functions = [f.copy() for f in case.functions]
    for f in functions:
        if not f.is_bridge:
            f.image[COMMAND] &= 0xDF
    if 'snoop' not in case.names or answers(functions, None, case.given, case.words) == texts:
        return None
    return 'a device that listens to the palette answers'


def cut_fault(case):
    """An I/O BAR is claimed by a cut window as a whole or not at all."""
    cut = [region for region in case.system.regions if region.is_cut]
    for bar in [region for region in case.system.regions if region.kind == 'bar' and region.space == IO]:
        for window in cut:
            ports = {window.claims(port) for port in range(bar.first, bar.last + 1)}
            if len(ports) > 1:
                return 'a cut window claims a part of %s' % (bar.name,)
    return None


def window_fault(case):
    """A window with a 26 that is taken claims what its registers show, from the base's page to the limit's."""
    if 'windows' not in case.names:
        return None
    for old, new in zip(case.functions, taken(case.functions, case.names)):
        for kind in WINDOWS if old.is_bridge and new.is_bridge else ():
            if not has_window_fault(old, kind):
                continue
            bits = 12 if kind == 'io' else 20
            base, limit, upper, limit_upper = window_bounds(old.image, kind)
            width = 16 if kind == 'io' else 32
            first = (base >> 4 << bits) + (upper << width)
            last = (limit >> 4 << bits) + (limit_upper << width) + (1 << bits) - 1
            window = [part for part in new.windows() if part.window == kind][0]
            is_nothing = kind == 'mem' and number_at(old.image, 0x20, 4) == number_at(old.probe, 0x20, 4) == 0
            if window.is_closed != (is_nothing or first > last):
                return 'the window %s %s is closed otherwise' % (old.slot, kind)
            if not window.is_closed and (window.first, window.last) != (first, last):
                return 'the window %s %s is not the one that it shows' % (old.slot, kind)
    return None


# ---- laws of what is printed

def place_fault(case, fault):
    """Where a region is put to where it fits, no fault names it."""
    line = advice(case.system, fault)
    if not line or line[0].endswith((' none', ' unknown')):
        return None
    region = moved_by(fault)
    first = least_place(case.system, region)[0]
    functions = [f.copy() for f in case.functions]
    f = [f for f in functions if f.slot == region.slot][0]
    part = [part for part in f.bars() + f.rom() if part.register == region.register][0]
    if part.kind == 'bar':
        put_bar(f, part, first)
    else:
        put_rom(f, first, True)
    other = Case(functions, None, case.given, case.words)
    if other.early:
        return 'moved to where it fits there is ' + other.early[0]
    is_said = case.given.host[region.space] is not None
    clashes = [fault for fault in other.clashes if fault.number == 61 or is_said]
    there = names_in(clashes + other.missed + other.sent)
    return '%s is named where it fits' % (region.name,) if region.name in there else None


def fits_fault(case):
    """As `place_fault`, of a few faults of each number."""
    for found in (case.missed, case.sent, case.clashes):
        for fault in found[:4] + found[-2:]:
            told = place_fault(case, fault)
            if told:
                return told
    return None


def list_fault(case, lines):
    """A region is named second once of each kind, each that clashes is, and 60 and 63 name a region once."""
    found = [tuple(line.split()) for line in lines]
    named = [(words[0], words[-2:]) for words in found if words[0] in ('61', '62')]
    if len(set(named)) != len(named):
        spaces = [(words[0], words[-2:], 'io' in words) for words in found if words[0] in ('61', '62')]
        if len(set(spaces)) != len(spaces):
            return 'a region is named second twice'
    count = len({(fault.number, fault.region.name, fault.region.space) for fault in case.clashes})
    if count != len(named):
        return '%d regions clash with one before, and %d are named' % (count, len(named))
    return None


# ---- sorts

def sorts_of(case, texts):
    """Of which sorts a board is."""
    listed, why, mapped = (text.splitlines() for text in texts)
    given = case.system.given
    told = {line.split()[0] for line in listed if ' +' in line}
    sorts = {'told ' + number for number in told} | ({'yes'} if listed == ['yes'] else set())
    parts = [region for region in case.system.regions if region.kind == 'snoop']
    takers = [f for f in case.system.functions if f.slot in given.unclaimed and f.is_bridge]
    are_open = [any(window.enabled and not window.is_closed for window in b.windows()) for b in takers]
    for sort, there in (
            ('held and something else', any(fault.region.kind == 'held' or fault.beside.kind == 'held'
                                            for fault in case.clashes)),
            ('told of what sleeps', any(line.slot in given.asleep for line in case.given.told)),
            ('off', any(line.startswith('off') and ' +' in line for line in why)),
            ('the first of two is moved', any(moved_by(fault) is not fault.region and advice(case.system, fault)
                                              for fault in case.clashes)),
            ('told in a map', any(line.startswith('  ') and ' told ' in line for line in mapped)),
            ('held in a map', any(' held ' in line for line in mapped)),
            ('unclaimed in a map', any(line.startswith('  unclaimed') for line in mapped)),
            ('outside', 'outside' in mapped and any(' told ' in line for line in under('outside', mapped))),
            ('unreached', any(' +' in line for line in under('unreached', mapped))),
            ('a bridge that takes what is unclaimed', bool(takers)),
            ('it has an open window', any(are_open)),
            ('it has none', not all(are_open)),
            ('reached as nobody claims it', any(is_reached_so(case, b) for b in takers)),
            ('not taken as it is told', any(fault.beside in given.unclaimed and is_told_at(case, fault)
                                            for fault in case.missed)),
            ('a cut window', any(region.is_cut for region in case.system.regions)),
            ('a palette part', bool(parts)),
            ('a palette part of 16 bits', any(given.palette[part.slot] for part in parts)),
            ('a palette part that clashes', any('snoop' in (fault.region.kind, fault.beside.kind)
                                                for fault in case.clashes)),
            ('a device that snoops', 'snoop' in case.names and any(bit(f.command, 5) and not f.is_bridge
                                                                   for f in case.functions))):
        sorts |= {sort} if there else set()
    return sorts


def is_reached_so(case, b):
    """Whether a region behind a bridge is reached where none of its windows holds it."""
    missed = {fault.region.name for fault in case.missed}
    return any(region.is_home and region.bus == b.secondary and region.name not in missed
               and case.system.takes(b, region.space, region.first) for region in case.system.regions)


def is_told_at(case, fault):
    """Whether a told range of the bus of a bridge claims what this misses."""
    return any(region.is_told and region.bus == fault.beside[0] and region.space == fault.region.space
               and region.claims(fault.address) for region in case.system.regions)


def needed_words(case, listed):
    """Which of the words that have to be needed the list needs."""
    return {word for word in NEEDED if word in case.names and listed != faults(
        case.functions, None, case.given, ','.join(sorted(case.names - {word})) or None)}


# ---- a board

def program_fault(board, program, folder, texts):
    """What a program prints otherwise, or none."""
    if not program:
        return None
    files = put_files(folder, (('dump.txt', board.dump), ('probe.txt', board.probe), ('also.txt', told_text(board.told))))
    options = files[:2] + board.options() + ['--also', files[2]]
    for words, wanted in zip((['faults'], ['faults', '--why'], ['map']), texts):
        is_good = wanted == 'yes\n' or wanted.startswith('yes\noff') or (words == ['map'] and not wanted.startswith('no '))
        got = run(program, words[:1] + options + words[1:])
        if got != (0 if is_good else 1, wanted, ''):
            return '%s: status %d\nthe program:\n%s%sthe slow judge:\n%s' % (' '.join(words + options), got[0], got[1],
                                                                          got[2], wanted)
    return refusal_fault(board, program, files, random.Random(board.seed))


def refusal_fault(board, program, files, rule):
    """What a program says otherwise of a text that is refused, or none."""
    text = spoilt_text(told_text(board.told), rule)
    answer = judge(text)
    if isinstance(answer, list):
        return None
    with open(files[2], 'wb') as out:
        out.write(text)
    got = run(program, ['map'] + files[:2] + board.options() + ['--also', files[2]])
    wanted = 2, '', 'pciplan: also: %s\n' % message(answer)
    return None if got == wanted else 'the text %r: %s, and not %s' % (text, got, wanted)


def is_crowded(case):
    """Whether `unclaimed` doesn't count for a bridge, as another one of the class is on its bus."""
    return 'unclaimed' in case.names and any(line.startswith('54') for line in case.early)


def law_fault(case, bare, rule, sorts):
    """Which law doesn't hold of a board that is judged, or none."""
    texts = answers(case.functions, None, case.given, case.words)
    sorts |= sorts_of(case, texts) | needed_words(case, texts[0])
    listed = [line for line in texts[0].splitlines() if line != 'yes']
    return (adding_fault(case, bare) or held_fault(case) or name_fault(case) or halves_fault(case)
            or word_fault(case) or bar_fault(case, rule, sorts) or address_fault(case, rule)
            or unclaimed_fault(case) or class_fault(case) or palette_fault(case) or listener_fault(case, texts)
            or cut_fault(case) or window_fault(case) or fits_fault(case) or list_fault(case, listed)
            or map_fault(case, texts[2].splitlines()))


def compare(seed, program, folder):
    """What doesn't hold on the board of a seed, or none, and the sorts of the board."""
    board, sorts = also_board(seed), set()
    rule = random.Random(seed)
    given = Given(board.roots, board.host_io, board.host_mem, board.told)
    beside = (board.listed, board.probe_slots)
    case = Case(*beside, given, board.words)
    bare = Case(*beside, with_told(given, []), board.words)
    none_told = answers(*beside, with_told(given, told_ranges('')), board.words)
    if none_told != answers(*beside, Given(board.roots, board.host_io, board.host_mem), board.words):
        return 'an empty text changes something', sorts
    found = text_fault(board, rule) or early_fault(case, bare)
    sorts |= {'two of the class'} if is_crowded(case) else set()
    sorts |= {'not listed'} if any(line.startswith('34') for line in case.early) else set()
    sorts |= {'held at no bus'} if case.early and not bare.early and case.early[0].startswith('58') else set()
    if not found and not case.early:
        found = law_fault(case, bare, rule, sorts)
    return found or program_fault(board, program, folder, answers(*beside, given, board.words)), sorts


def show(seed):
    """The board of a seed, what is told, and what is answered."""
    board = also_board(seed)
    given = Given(board.roots, board.host_io, board.host_mem, board.told)
    texts = answers(board.listed, board.probe_slots, given, board.words)
    return '%s\n%s\n%s\n%s\n%s%s' % (described(board), board.dump, board.probe, told_text(board.told), texts[1], texts[2])
