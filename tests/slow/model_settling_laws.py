"""Settling by the words of `--model`, on boards made by rule: what has to hold whatever the words are.

Boards are those of model_settling_boards.py. What is settled has to be sound by the slow judge with the same words, at each
stop from where it is safe on. The machine that takes the writes is the functions as they are. What sleeps, and what a
sleeping bridge is above, is never written. Nothing is placed on a legacy or palette part. Laws of what is left out of
settling are in model_settling_waking.py.

- `compare(seed, program, folder)`: what doesn't hold on the board of a seed, or None, and the sorts of boards. A program is
  asked for the same writes, the same dump and denied spares.
- `show(seed)`: the board of a seed, what is asked, and the writes.
- `SORTS`: the sorts that a run over many seeds has to meet.
"""

from also import told_text
from early import has_window_fault
from growth_rows import told as written
from judge import early_faults, faults, judging, system_of
from model import COMMAND, IO, MEM, WINDOWS, bit, dump_text, probe_text, slot_text
from model_settling import left_out_slots, settled_by_words, unmoved_slots
from model_settling_boards import worded_board
from model_settling_waking import beside_fault, kept_off_fault, left_out_devices, reach_fault, waking_fault
from moving import answer, request_words, roots_words
from planner import Fault
from program import put_files, run
from regions import Given, isa_ranges, legacy_ranges, palette_ranges
from settler import TooLarge
from spare_laws import denied_lines, spare_words
from spares import NOTHING, PLAIN, settle_sparing
from stops import beginnings
from told_settling import is_told_range
from told_settling_laws import changeable_bits
from words import isa_bridges, legacy_parts, names_of, palette_parts, sleepers, taken

SORTS = ('settled', 'early', '70', '76', '72', '74', '75', 'judged', 'nothing is written', 'from a sound start',
         'from an unsound start', 'a sleeper', 'a sleeping bridge', 'left out', 'in reset', 'unnumbered',
         'a stuck window', 'a legacy part of 10 bits', 'a legacy part of 16 bits', 'a palette part', 'a cut window',
         'takes what nobody claims', 'CardBus', 'all anew', 'something fixed', 'lines', 'spares', 'a spare is denied',
         'refused though sound')


class Settling:
    """A board, what is asked, and what is settled."""

    def __init__(self, functions, asked):
        self.functions, self.asked, self.words = functions, asked, asked.words
        self.request, self.names = asked.request, names_of(asked.words)
        self.given = Given(asked.request.roots, told=asked.told)
        self.plan, self.denied = settled_by_words(functions, asked)
        self.is_sound = self.judge(functions) == 'yes\n'

    def judge(self, functions):
        """The list of all faults by the words."""
        return faults(functions, None, self.given, self.words)

    def safe_from(self):
        """From how many writes on a stop has to be sound."""
        return 0 if self.is_sound else self.plan.closings

    def bridges(self):
        """The bridges that have bus numbers."""
        return [f for f in self.functions if f.is_bridge and (f.primary or f.secondary or f.subordinate)]

    def unwritten(self):
        """The slots of functions that may not be written, worked out from their registers."""
        asleep = sleepers(self.functions, self.names)
        found = asleep | set(self.request.fixed) | {f.slot for f in self.functions if f.layout == 2}
        found |= {f.slot for f in self.functions if f.is_bridge} - {b.slot for b in self.bridges()}
        for b in self.bridges():
            if bit(b.bridge_control, 6) or any(has_window_fault(b, kind) for kind in WINDOWS):
                found.add(b.slot)
            if bit(b.bridge_control, 6) or b.slot in asleep:
                found |= {f.slot for f in self.functions if b.secondary <= f.slot[0] <= b.subordinate}
        return found


# ---- stops and writes

def stops_fault(case):
    """Each stop from where it is safe on is sound, and each write changes something."""
    states = beginnings(case.functions, case.plan.writes)
    for done, state in enumerate(states):
        if case.safe_from() <= done and case.judge(state) != 'yes\n':
            return 'after %d of %d writes, safe from %d: %s' % (
                done, len(states) - 1, case.safe_from(), case.judge(state).splitlines()[0])
        if done and dump_text(state) == dump_text(states[done - 1]):
            return 'write %d changes nothing' % done
    if dump_text(states[-1]) != dump_text(case.plan.functions):
        return 'the writes do not lead to the dump'
    return None


def writes_fault(case):
    """Nothing unmoved is written, and of Command bits 0 and 1 alone change."""
    unwritten, commands = case.unwritten(), {f.slot: f.command for f in case.functions}
    for slot, offset, _, value in case.plan.writes:
        if slot in unwritten:
            return '%s is written at %02x' % (slot_text(slot), offset)
        if offset == COMMAND and (value ^ commands[slot]) & ~3:
            return 'other bits of Command of %s are written' % slot_text(slot)
    for old, new in zip(case.functions, case.plan.functions):
        if old.slot in unwritten and old.image != new.image:
            return '%s changes' % slot_text(old.slot)
        changeable = changeable_bits(old)
        if any((one ^ other) & ~bits & 0xFF for one, other, bits in zip(old.image, new.image, changeable)):
            return '%s changes beside addresses and Command' % slot_text(old.slot)
    return None


def taken_fault(case):
    """After each write the words take the functions as what was settled is then; the same ones are unmoved and left out."""
    unmoved, left = unmoved_slots(case.functions, case.names), left_out_slots(case.functions, case.names)
    settled = taken(case.functions, case.names)
    for done, made in enumerate(case.plan.writes, 1):
        slot, offset, width, value = made
        if offset == COMMAND:
            now = [f for f in settled if f.slot == slot][0]
            made = slot, offset, width, now.command & ~3 | value & 3
        settled = beginnings(settled, [made])[1]
        listed = beginnings(case.functions, case.plan.writes[:done])[done]
        for f, g in zip(taken(listed, case.names), settled):
            if (f.image, f.probe) != (g.image, g.probe):
                return 'after %d writes %s is taken otherwise' % (done, slot_text(f.slot))
        if unmoved_slots(listed, case.names) != unmoved:
            return 'after %d writes others are unmoved' % done
        if left_out_slots(listed, case.names) != left:
            return 'after %d writes others are left out' % done
    return None


def is_settled_anew(case):
    """Whether all is placed anew, and a window may lead to a told range: such a window stands, so it can grow down."""
    roots = case.request.roots
    return case.request.anew and any(line.slot[0] not in roots for line in case.asked.told if is_told_range(line))


def again_fault(case):
    """Settled again nothing is written, and the same spares are denied."""
    again, denied = settled_by_words(case.plan.functions, case.asked)
    if isinstance(again, Fault):
        # without spares a window above a fixed function may be smaller
        is_fixed = case.request.fixed or unmoved_slots(case.functions, case.names)
        if case.request.anew and is_fixed and again.text.startswith('74 '):
            return None
        return 'settled again there is ' + again.text
    if again.writes and is_settled_anew(case):
        # what was placed before a window that grew down changes places
        return None
    if again.writes or denied != case.denied:
        return 'settled again: %s, denied %s' % (written(again), denied)
    return None


# ---- claims

def own_claims(case, f):
    """The addresses of legacy and palette parts of a bridge, by space."""
    found = {IO: [], MEM: []}
    legacy, palette = legacy_parts([f], case.names), palette_parts([f], case.names)
    for space in (IO, MEM):
        found[space] += legacy_ranges(legacy[f.slot], space) if legacy else []
    found[IO] += palette_ranges(palette[f.slot]) if palette else []
    return found


def is_placed(part, before):
    """Whether a part has addresses that it hadn't: a window that grew is looked at where it is new alone."""
    if part.is_closed or (part.first, part.last) == (before.first, before.last):
        return False
    return not (part.kind == 'window' and not before.is_closed and part.first <= before.first
                and before.last <= part.last)


def claims_fault(case):
    """No part that is placed is on a legacy or palette part on its bus, whether or not that is on."""
    roots, cut = case.request.roots, isa_bridges(case.functions, case.names)
    olds, news = ({f.slot: f for f in taken(functions, case.names)}
                  for functions in (case.functions, case.plan.functions))
    for bridge in case.bridges():
        claims = own_claims(case, bridge)
        for f in news.values():
            if f.slot[0] != bridge.slot[0] and not (f.slot[0] in roots and bridge.slot[0] in roots):
                continue
            for part, before in zip(f.parts(), olds[f.slot].parts()):
                if not is_placed(part, before) or (f.slot == bridge.slot and part.kind == 'window'):
                    continue
                is_cut = part.window == 'io' and f.slot in cut
                ranges = isa_ranges(part.first, part.last) if is_cut else [(part.first, part.last)]
                if any(low <= last and first <= high for low, high in claims[part.space] for first, last in ranges):
                    return '%s %02x is placed on a claim of %s' % (
                        slot_text(f.slot), part.register, slot_text(bridge.slot))
    return None


# ---- without words

def plain_fault(functions, asked):
    """Without words, and where nothing is there that words are about, all is as ever."""
    if asked.told or early_faults(functions, None, Given(asked.request.roots)):
        return None
    asks = [lambda: settle_sparing(functions, asked.request, asked.wanted, PLAIN),
            lambda: settled_by_words(functions, asked._replace(words=None))]
    if dump_text(taken(functions, names_of(asked.words))) == dump_text(functions):
        asks.append(lambda: settled_by_words(functions, asked))
    answers = []
    for ask in asks:
        try:
            found = ask()
            answers.append((written(found.plan), found.denied))
        except TooLarge:
            answers.append('too large')
    return None if answers == answers[:1] * len(answers) else 'on a plain board: %s' % answers


# ---- sorts

def sorts_of(case):
    """Of which sorts a board is."""
    plan = case.plan
    sorts = {sort for sort, is_there in (
        ('all anew', case.request.anew), ('something fixed', case.request.fixed), ('lines', case.asked.told),
        ('spares', case.asked.wanted != NOTHING), ('a spare is denied', case.denied)) if is_there}
    if isinstance(plan, Fault):
        is_refused = case.is_sound and not case.request.fixed and not case.asked.told
        sorts |= {'refused though sound'} if is_refused and plan.text[:2] == '74' else set()
        return sorts | {'early' if plan.sort == 'early' else plan.sort.split()[0]}
    sorts |= {'settled', 'from a sound start' if case.is_sound else 'from an unsound start'}
    sorts |= set() if plan.writes else {'nothing is written'}
    legacy = legacy_parts(case.functions, case.names)
    asleep = sleepers(case.functions, case.names)
    tests = {
        'a sleeper': asleep,
        'left out': left_out_devices(case),
        'a sleeping bridge': [b for b in case.bridges() if b.slot in asleep],
        'in reset': [b for b in case.bridges() if bit(b.bridge_control, 6)],
        'unnumbered': [f for f in case.functions if f.is_bridge and not f.secondary],
        'a stuck window': [b for b in case.bridges() if any(has_window_fault(b, kind) for kind in WINDOWS)],
        'a legacy part of 10 bits': [slot for slot, is_wide in legacy.items() if not is_wide],
        'a legacy part of 16 bits': [slot for slot, is_wide in legacy.items() if is_wide],
        'a palette part': palette_parts(case.functions, case.names),
        'a cut window': [b for b in case.bridges() if b.slot in isa_bridges(case.functions, case.names)
                         and any(w.window == 'io' and not w.is_closed for w in b.windows())],
        'takes what nobody claims': system_of(case.functions, case.given, case.words).given.unclaimed,
        'CardBus': [f for f in case.functions if f.layout == 2],
    }
    return sorts | {sort for sort, found in tests.items() if found}


# ---- a board

LAWS = (stops_fault, writes_fault, taken_fault, again_fault, claims_fault, kept_off_fault, waking_fault, beside_fault,
        reach_fault)


def law_fault(case):
    """Which law doesn't hold of a board, or none."""
    found = plain_fault(case.functions, case.asked)
    if isinstance(case.plan, Fault):
        return found
    for law in LAWS:
        found = found or law(case)
    return found


def settle_words(asked):
    """The words of `settle` behind the two files, but for `--also`."""
    words = roots_words(asked.request.roots) + request_words(asked.request)
    words += spare_words(asked.wanted.spare, asked.wanted.slots) if asked.wanted.spare else []
    return words + ['--model', asked.words]


def program_fault(case, program, folder):
    """What a program prints otherwise, or none."""
    if not program:
        return None
    texts = (('dump.txt', dump_text(case.functions)), ('probe.txt', probe_text(case.functions)),
             ('also.txt', told_text(case.asked.told)))
    files = put_files(folder, texts)
    words = ['settle'] + files[:2] + settle_words(case.asked)
    words += ['--also', files[2]] if case.asked.told else []
    remarks = ''.join('pciplan: %s\n' % line for line in denied_lines(case.denied))
    for more in (['--writes'], []):
        wanted = answer(case.plan, ''.join(more), '')[:2] + (remarks,)
        found = run(program, words + more)
        if found != wanted:
            return '%s:\nwanted %r\nfound  %r' % (' '.join(words + more), wanted, found)
    return None


def compare(seed, program, folder):
    """What doesn't hold on the board of a seed, or none, and the sorts of boards."""
    made = worded_board(seed)
    if not made:
        return None, set()
    try:
        case = Settling(*made)
        return program_fault(case, program, folder) or law_fault(case), sorts_of(case)
    except TooLarge:
        return None, set()


def show(seed):
    """The words and the texts of the board of a seed, what is told, the writes, and the denied spares."""
    made = worded_board(seed)
    if not made:
        return 'no board'
    functions, asked = made
    try:
        plan, denied = settled_by_words(functions, asked)
    except TooLarge:
        plan, denied = Fault('too large', None, None), []
    words = settle_words(asked) + (['--also', 'ALSO'] if asked.told else [])
    return '$ pciplan settle DUMP PROBE %s\n%s\n%s\n%s\n%s\n%s' % (
        ' '.join(words), dump_text(functions), probe_text(functions), told_text(asked.told), written(plan),
        '\n'.join(denied_lines(denied)))
