"""Settling beside which ranges are told, on boards made by rule: what has to hold whatever is told.

Boards are those of told_settling_boards.py. What is settled has to be sound with what is told at each stop. The slow
judge says so, and on some boards a second one by single addresses. No told range that stands moves, and nothing is placed
on a line. A range that is told as `always` is reached all the time. A line that is on stands for a BAR of a fixed function.
Where nothing is told all is as ever.

- `compare(seed, program, folder)`: what doesn't hold on the board of a seed, or None, and the sorts of boards. A program is
  asked for the same writes and denied spares.
- `show(seed)`: the board of a seed, what is told, and the writes.
- `SORTS`: the sorts that a run over many seeds has to meet.
"""

import random

from also import told_text
from also_plain import Case, clash_fault, plain_fault
from growing import Grower
from growth_laws import all_on, beside_fault, kept_fault, left_on_fault, outside_fault
from growth_rows import told as written
from judge import faults, system_of, unreached
from model import COMMAND, INTERRUPT_LINE, IO, MEM, dump_text, probe_text, put_number, slot_text, writable_bits
from moving import request_words, roots_words
from planner import Fault, bridges_above
from program import put_files, run
from regions import Given
from settler import TooLarge
from spare_laws import denied_lines, fixed_fault, place_fault, spare_words, told_of, wish_fault, without_fault
from spares import PLAIN, settle_sparing
from stops import beginnings, is_sound, safe_from, stop_fault
from told_settling import early_fault, is_told_range, keeps_off, lines_on, share, telling
from told_settling_bars import bar_fault
from told_settling_boards import told_board

SORTS = ('settled', '75 does not stand', '75 does not stay', '75 would be switched', '72', '74', '34', '58',
         'otherwise than without', 'without it is no', 'refused, which it is not without', 'nothing is written',
         'something fixed', 'all anew', 'several roots', 'from an unsound start', 'spares', 'a spare is denied',
         'behind a bridge', 'always behind a bridge', 'in a window that grows', 'a command range that is off',
         'a command range that is switched on', 'a command range that is shut', 'held at the own slot',
         'a line keeps a part off', 'a BAR leads', 'as it is', 'the same stands', 'BARs instead', 'by single addresses')

# boards of so many functions are judged by single addresses, at so many stops and addresses
FEW, STOPS, ADDRESSES = 9, 3, 16


class Telling:
    """A board, what is asked and told, and what is settled of it."""

    def __init__(self, board, request, wanted, told):
        self.functions, self.roots = board.functions, board.roots
        self.request, self.wanted, self.told = request, wanted, told
        self.board, self.makers = board, telling(told)
        self.sparing = settle_sparing(self.functions, request, wanted, self.makers)
        self.plan = self.sparing.plan
        self.start = self.makers.settler(self.functions, request)
        self.sorts = set()

    def told_ranges(self):
        """The told ranges."""
        return [line for line in self.told if is_told_range(line)]

    def plainly(self):
        """What is settled if nothing is told, or none where nothing is said of that."""
        try:
            return settle_sparing(self.functions, self.request, self.wanted, PLAIN)
        except TooLarge:
            return None


def same_answer(one, other):
    """Whether the same is settled, with the same spares denied."""
    return written(one.plan) == written(other.plan) and one.denied == other.denied


# ---- what isn't told, and what is settled again

def empty_fault(case, plainly):
    """An empty text changes nothing."""
    try:
        empty = settle_sparing(case.functions, case.request, case.wanted, telling([]))
    except TooLarge:
        empty = None
    if (empty is None) != (plainly is None) or (empty and not same_answer(empty, plainly)):
        return 'an empty text changes something'
    return None


def is_settled_anew(case):
    """Whether all is placed anew, and a window may lead to a told range: such a window stands, so it can grow down."""
    return case.request.anew and any(line.slot[0] not in case.roots for line in case.told_ranges())


def second_fault(case, plan):
    """What is settled once more is sound with what is told, and so is each stop."""
    if not is_sound(plan.functions, case.roots, case.told):
        return 'what is settled again is not sound'
    return stop_fault(case.plan.functions, case.roots, plan, lambda state, done: None, case.told)


def again_fault(case):
    """Settled again with the same text nothing is written, and the same spares are denied."""
    again = settle_sparing(case.plan.functions, case.request, case.wanted, case.makers)
    if isinstance(again.plan, Fault):
        # without spares a window above a fixed function may be smaller
        if case.request.anew and case.request.fixed and again.plan.text.startswith('74 '):
            return None
        # and so may one above the BAR of a bridge that leads to an always range
        if case.request.anew and case.wanted.spare and again.plan.text.startswith('75 '):
            return None
        return 'settled again there is ' + again.plan.text
    if again.plan.writes and is_settled_anew(case):
        # what was placed before a window that grew down changes places
        return second_fault(case, again.plan)
    if again.plan.writes or again.denied != case.sparing.denied:
        return 'settled again: %s, denied %s' % (written(again.plan), again.denied)
    return None


# ---- the result

def result_fault(case):
    """The result is sound with what is told, also with all on where all told ranges stood, and little changes."""
    plan = case.plan
    if not is_sound(plan.functions, case.roots, case.told):
        return 'the result is not sound'
    if all(case.start.line_stands(line) for line in case.told_ranges()) and not all_on(
            case.board, case.request, plan.functions, case.told):
        return 'the result is not sound once all is on'
    for old, new in zip(case.functions, plan.functions):
        changed = changeable_bits(old)
        if any((before ^ after) & ~bits for before, after, bits in zip(old.image, new.image, changed)):
            return '%s changes beside addresses and Command' % slot_text(old.slot)
    return fixed_fault(case.request, plan) or outside_fault(plan.functions, case.request)


def changeable_bits(f):
    """The bits of each byte that settling may change."""
    bits = writable_bits(f)
    put_number(bits, COMMAND, 2, 3)
    bits[INTERRUPT_LINE] = 0
    bits[f.rom_register] &= 0xFE
    if f.is_bridge:
        bits[0x18:0x1B] = bytes(3)
    return bits


def is_off(case, line):
    """Whether a line is of a function whose Command doesn't enable it."""
    return line.mark == 'command' and not any(f.slot == line.slot and f.is_on(line.space) for f in case.functions)


def apart_fault(case):
    """In the result a line keeps no part off that shares an address with it, unless the part stood there before it."""
    olds = {r.rank: r for r in case.start.regions}
    for r in case.makers.settler(case.plan.functions, case.request).regions:
        for line in lines_on(case.told, case.roots, r.bus, r.space):
            if keeps_off(line, r.function.slot, r) and not stood_on(case, olds.get(r.rank), r, line):
                return '%s %02x is on line %d' % (slot_text(r.function.slot), r.part.register, line.n)
    return None


def new_window_fault(case):
    """A window of the result that stood nowhere lies on no line behind its bridge."""
    stayed = {r.rank for r in case.sparing.spared.regions if r.is_window and case.sparing.spared.stays(r)}
    for r in case.makers.settler(case.plan.functions, case.request).regions:
        if r.is_window and r.rank not in stayed:
            for line in case.told:
                if line.space == r.space and share(line, r) and r.function in bridges_above(case.functions, line.slot[0]):
                    return 'the new window of %s is on line %d' % (slot_text(r.function.slot), line.n)
    return None


def stood_on(case, old, new, line):
    """Whether a part stood at addresses of a line that is off, and comes before it."""
    if old is None or not is_off(case, line) or not case.start.stands(old):
        return False
    if max(new.first, line.first) < old.first or old.last < min(new.last, line.last):
        return False
    return old.enabled or old.function.slot in case.request.fixed or case.start.leads_to_one_on(old)


def windows_hold(functions, line):
    """Whether a window of each bridge above passes a told range as a whole."""
    kinds = ['io'] if line.space == IO else ['mem', 'pref'] if line.prefetchable else ['mem']
    return all(any(window.window in kinds and not window.is_closed and window.first <= line.first
                   and line.last <= window.last for window in b.windows())
               for b in bridges_above(functions, line.slot[0]))


def reached_fault(case):
    """A told range that stands is reached in the result, also where its function is off."""
    for line in case.told_ranges():
        if case.start.line_stands(line) and not windows_hold(case.plan.functions, line):
            return 'line %d is not reached' % line.n
    return None


# ---- stops

def always_fault(case):
    """A range that is told as `always` is reached at each stop, also before it is safe."""
    always = {(line.slot, line.register) for line in case.told if line.mark == 'always'}
    first = safe_from(case.functions, case.roots, case.plan, case.told)
    for done, state in enumerate(beginnings(case.functions, case.plan.writes)[:first]):
        system = system_of(state, Given(case.roots, told=case.told))
        missed = unreached(system, {space: system.turns(space) for space in (IO, MEM)})
        for fault in missed:
            if fault.region.name in always:
                return 'after %d writes: %s' % (done, fault.line)
    return None


def address_fault(case, rule):
    """The result and some stops are judged alike by single addresses."""
    first = safe_from(case.functions, case.roots, case.plan, case.told)
    states = beginnings(case.functions, case.plan.writes)[first:]
    for state in states[-1:] + rule.sample(states, min(STOPS, len(states))):
        judged = Case(state, None, Given(case.roots, told=case.told), None)
        if judged.early or judged.missed or judged.clashes:
            return 'a stop is not sound'
        for space in (IO, MEM):
            turns = judged.system.turns(space)
            for address in rule.sample(turns, min(ADDRESSES, len(turns))):
                told = plain_fault(judged, space, address) or clash_fault(judged, space, address)
                if told:
                    return 'by single addresses: ' + told
    return None


# ---- what stands

def are_parts_off_lines(case):
    """Whether no line keeps a part off."""
    return not any(keeps_off(line, r.function.slot, r) for r in case.start.regions
                   for line in lines_on(case.told, case.roots, r.bus, r.space))


def is_alone(case):
    """Whether no two lines clash, and each told range is on a root or in one window of its class."""
    for line in case.told:
        for other in lines_on(case.told, case.roots, line.slot[0], line.space):
            is_shared = 'held' in (line.mark, other.mark) and (line.mark == other.mark or line.slot == other.slot)
            if other is not line and share(line, other) and not is_shared:
                return False
    return all(line.slot[0] in case.roots or is_in_window(case, line) for line in case.told_ranges())


def holds(window, line):
    """Whether an open window holds a line whole."""
    return not window.is_closed and window.first <= line.first and line.last <= window.last


def class_of_line(case, line):
    """The class of a told range, by the registers of the bridge over its bus."""
    if line.space == IO:
        return 'io'
    over = [b for b in case.functions if b.is_bridge and b.secondary == line.slot[0]]
    is_in_memory = any(window.window == 'mem' and holds(window, line) for b in over for window in b.windows())
    return 'mem' if is_in_memory or not over or not line.prefetchable else 'pref'


def is_in_window(case, line):
    """Whether the window of its class over its bus holds a told range."""
    return any(b.is_bridge and b.secondary == line.slot[0] and window.window == class_of_line(case, line)
               and holds(window, line) for b in case.functions for window in b.windows())


def is_leading(case, region, lines):
    """Whether a part of a bridge leads to one of some told ranges."""
    bridge = region.function
    behind = [line for line in lines if bridge.is_bridge and bridge in bridges_above(case.functions, line.slot[0])]
    if region.is_window:
        return any(region.part.window == class_of_line(case, line) and holds(region.part, line) for line in behind)
    return any(line.mark == 'always' and line.space == region.space for line in behind)


def leading_fault(case):
    """A part that leads to a told range stands, if no line and no other such part keeps it off and it is in place."""
    lines = [line for line in case.told_ranges() if case.request.anew or not is_off(case, line)]
    leading = [r for r in case.start.regions if is_leading(case, r, lines)]
    for r in leading:
        beside = case.start.beside(r.bus, r.space)
        rivals = [other for other in beside if other is not r and share(other, r)
                  and (other in leading or case.request.anew)]
        lines_there = lines_on(case.told, case.roots, r.bus, r.space)
        if not rivals and case.start.is_in_place(r) and not case.start.stands(r) and not any(
                keeps_off(line, r.function.slot, r) for line in lines_there):
            return '%s %02x leads to what is told and does not stand' % (slot_text(r.function.slot), r.part.register)
    return None


def part_fault(case):
    """A part that is in place and shares no address with another one stands exactly where no line keeps it off."""
    if case.request.anew:
        return None
    for r in case.start.regions:
        there = [line for line in lines_on(case.told, case.roots, r.bus, r.space)
                 if line.first <= r.last and r.first <= line.last and (line.mark != 'held' or line.slot != r.function.slot)]
        is_first = r.enabled or r.function.slot in case.request.fixed or is_leading(case, r, [
            line for line in case.told_ranges() if not is_off(case, line)])
        is_free = not any(not is_off(case, line) or not is_first for line in there)
        if case.start.stands(r) and not is_free:
            return '%s %02x stands on a line' % (slot_text(r.function.slot), r.part.register)
        is_beside = any(share(other, r) for other in case.start.beside(r.bus, r.space) if other is not r)
        if is_free and not is_beside and case.start.is_in_place(r) and not case.start.stands(r):
            return '%s %02x does not stand, though no line keeps it off' % (slot_text(r.function.slot), r.part.register)
    return None


def line_fault(case):
    """A told range that is on stands, if no other line shares an address, in a window that stands, or on a root."""
    for line in [line for line in case.told_ranges() if not is_off(case, line)]:
        beside = lines_on(case.told, case.roots, line.slot[0], line.space)
        if any(share(other, line) for other in beside if other is not line):
            continue
        is_held = any(r.is_window and r.function.secondary == line.slot[0] and holds(r.part, line)
                      and r.part.window == class_of_line(case, line) and case.start.stands(r) for r in case.start.regions)
        is_passed = line.mark != 'always' or all(
            b.is_on(line.space) for b in bridges_above(case.functions, line.slot[0]))
        if (line.slot[0] in case.roots or (is_held and is_passed)) != case.start.line_stands(line):
            return 'line %d stands where it is not reached, or does not where it is' % line.n
    return None


def standing_fault(case):
    """What stands without the text stands with it, and what is as it has to be is left alone."""
    plain = PLAIN.settler(case.functions, case.request)
    all_stand = all(plain.stands(r) for r in plain.regions)
    if not are_parts_off_lines(case):
        return None
    if all_stand or all(line.slot[0] in case.roots for line in case.told_ranges()):
        case.sorts.add('the same stands')
        if [plain.stands(r) for r in plain.regions] != [case.start.stands(r) for r in case.start.regions]:
            return 'other parts stand, though no line keeps one off'
    if not all_stand or any(plain.has_left(f) for f in case.functions) or not is_alone(case):
        return None
    if not is_sound(case.functions, case.roots, case.told) or case.start.are_bad() or case.start.assumed_part():
        return None
    case.sorts.add('as it is')
    plan = case.sparing.without
    if isinstance(plan, Fault) or plan.writes:
        return 'all stands, and there is %s' % written(plan)
    return None


# ---- growth and spares

def growth_fault(case):
    """Whatever settles without growth settles with it, and keeps what it kept."""
    plain, grown = case.start, case.sparing.plain
    without, plan = plain.answer(), case.sparing.without
    if isinstance(plan, Fault):
        return None if isinstance(without, Fault) else 'without growth it settles'
    if not isinstance(grown, Grower):
        return None
    return kept_fault(plain, grown, plan) or beside_fault(grown)


def spare_fault(case):
    """What holds of spares holds with what is told."""
    sparing = case.sparing
    now = case.makers.settler(case.plan.functions, case.request)
    return (without_fault(sparing) or place_fault(now, case.wanted, sparing.denied)
            or wish_fault(sparing.base, sparing.plan) or left_on_fault(case.board, sparing.spared, case.plan))


# ---- sorts

def plan_sorts(case):
    """Of which sorts a plan is."""
    plan, start, old = case.plan, case.start, {f.slot: f for f in case.functions}
    news = {f.slot: f for f in plan.functions}
    ranges = case.told_ranges()
    commands = [line for line in ranges if line.mark == 'command']
    shut = {slot for slot, offset, _, value in plan.writes[:plan.closings] if offset == COMMAND}
    for sort, there in (
            ('nothing is written', not plan.writes),
            ('something fixed', case.request.fixed), ('all anew', case.request.anew),
            ('several roots', len(case.roots) > 1), ('spares', case.wanted.spare),
            ('a spare is denied', case.sparing.denied),
            ('from an unsound start', not is_sound(case.functions, case.roots, case.told)),
            ('behind a bridge', any(line.slot[0] not in case.roots for line in ranges)),
            ('always behind a bridge', any(line.slot[0] not in case.roots and line.mark == 'always' for line in ranges)),
            ('in a window that grows', any(is_in_grown(case, line) for line in ranges)),
            ('a command range that is off', any(is_off(case, line) for line in commands)),
            ('a command range that is switched on', any(is_off(case, line) and news[line.slot].is_on(line.space)
                                                        for line in commands)),
            ('a command range that is shut', any(line.slot in shut and not is_off(case, line) for line in commands)),
            ('held at the own slot', any(line.mark == 'held' and line.slot in old for line in case.told)),
            ('a line keeps a part off', not are_parts_off_lines(case)),
            ('a BAR leads', any(not r.is_window and start.leads_to_one(r) for r in start.regions))):
        case.sorts |= {sort} if there else set()


def is_in_grown(case, line):
    """Whether a told range is behind a window of its class that grew."""
    settler = case.sparing.plain
    windows = [settler.window_of(b, case.start.told_class(line)) for b in bridges_above(case.functions, line.slot[0])]
    return any(window and settler.stays(window) and settler.new_range(window) != (window.first, window.last)
               for window in windows)


def beside_sorts(case, plainly):
    """How it is settled if nothing is told."""
    if plainly is None or isinstance(plainly.plan, Fault):
        return set()
    judged = faults(plainly.plan.functions, None, Given(case.roots, told=case.told))
    sorts = set() if judged == 'yes\n' else {'without it is no'}
    if isinstance(case.plan, Fault):
        return sorts | {'refused, which it is not without'}
    return sorts | (set() if same_answer(case.sparing, plainly) else {'otherwise than without'})


# ---- a board

def refused_fault(case):
    """What is refused names a line of a told range."""
    if not case.plan.text.startswith('75 '):
        return None
    slot, line = case.plan.text.split()[2:]
    named = case.told[int(line) - 1]
    is_right = is_told_range(named) and slot == slot_text(named.slot)
    return None if is_right else 'it names another line: ' + case.plan.text


def law_fault(case, rule):
    """Which law doesn't hold of a board, or none."""
    plainly = case.plainly()
    case.sorts |= beside_sorts(case, plainly)
    told = (empty_fault(case, plainly) or leading_fault(case) or part_fault(case) or line_fault(case)
            or standing_fault(case) or growth_fault(case) or bar_fault(case))
    if told:
        return told
    if isinstance(case.plan, Fault):
        case.sorts.add(case.plan.sort if case.plan.text.startswith('75') else case.plan.text[:2])
        return refused_fault(case)
    case.sorts.add('settled')
    plan_sorts(case)
    told = (result_fault(case) or apart_fault(case) or new_window_fault(case) or reached_fault(case)
            or always_fault(case) or stop_fault(case.functions, case.roots, case.plan, lambda state, done: None,
                                                case.told)
            or spare_fault(case) or again_fault(case))
    if not told and len(case.functions) <= FEW and rule.randrange(4) == 0:
        case.sorts.add('by single addresses')
        told = address_fault(case, rule)
    return told


def program_fault(made, answered, program, folder):
    """What a program prints otherwise, or none."""
    if not program:
        return None
    board, request, wanted, told = made
    texts = (('dump.txt', dump_text(board.functions)), ('probe.txt', probe_text(board.functions)),
             ('also.txt', told_text(told)))
    files = put_files(folder, texts)
    words = ['settle'] + files[:2] + roots_words(board.roots) + request_words(request)
    words += spare_words(wanted.spare, wanted.slots) if wanted.spare else []
    words += ['--also', files[2], '--writes']
    found = run(program, words)
    return None if found == answered else '%s:\nwanted %r\nfound  %r' % (' '.join(words), answered, found)


def compare(seed, program, folder):
    """What doesn't hold on the board of a seed, or none, and the sorts of boards."""
    made = told_board(seed)
    if not made:
        return None, set()
    board, request, wanted, told = made
    fault = early_fault(board.functions, board.roots, told)
    if fault:
        return program_fault(made, told_of(fault, []), program, folder), {fault.text[:2]}
    try:
        case = Telling(board, request, wanted, told)
        answered = told_of(case.plan, case.sparing.denied)
        found = program_fault(made, answered, program, folder) or law_fault(case, random.Random(seed))
        return found, case.sorts
    except TooLarge:
        return None, set()


def show(seed):
    """The words and the texts of the board of a seed, what is told, the writes, and the denied spares."""
    made = told_board(seed)
    if not made:
        return 'no board'
    board, request, wanted, told = made
    plan, denied = early_fault(board.functions, board.roots, told), []
    if not plan:
        try:
            sparing = settle_sparing(board.functions, request, wanted, telling(told))
            plan, denied = sparing.plan, sparing.denied
        except TooLarge:
            plan = Fault('too large', None, None)
    words = roots_words(board.roots) + request_words(request)
    words += spare_words(wanted.spare, wanted.slots) if wanted.spare else []
    return '$ pciplan settle DUMP PROBE %s --also ALSO\n%s\n%s\n%s\n%s\n%s' % (
        ' '.join(words), dump_text(board.functions), probe_text(board.functions), told_text(told), written(plan),
        '\n'.join(denied_lines(denied)))
