"""Room behind hot-plug slots, on boards made by rule: what has to hold whatever spares fit.

Boards are those of growth_laws.py, some with a switch on a root. Some bridges have slots, by their registers or as they
are named. Behind some slots all is unplugged, and some windows over nothing are closed. What is settled has to be sound
at each stop and to be left alone when it is settled again. A spare that isn't denied has a first place in its window.
No part goes for one, Command is as without spares, and there is a fault only where there is one without.

- `compare(seed, program, folder)`: what doesn't hold, or None, and the sorts of boards. A program is asked for the same
  writes and the same denied spares, if there is one.
- `show(seed)`: the board of a seed.
- `SORTS`: the sorts that a run over many seeds has to meet.
"""

from growth_laws import all_on, left_on_fault, outside_fault, tight_board, tree
from model import COMMAND, WINDOWS, close_window, dump_text, number_at, probe_text, put_number, slot_text, write_text
from moving import Asker, answer, first_early, request_words, roots_words
from planner import Fault, has_window
from settler import WINDOW_REGISTER, Settler, TooLarge, first_place
from spares import PLAIN, Wanted, has_slot, settle_as, settle_sparing, settled_with_spares, spare_of
from stops import is_sound, stop_fault

SORTS = ('all spares fit', 'some spares are denied', 'nothing is written', 'a window ends later',
         'a window above ends later', 'a closed window is opened', 'a closed window above is opened',
         'a new window with a spare', 'new windows have no spares', 'slots that are named', 'slots by registers',
         'slots behind a switch', 'an I/O window', 'a prefetchable window', 'above 4 GB', 'something fixed',
         'several roots', 'a fault', 'from an unsound start')

SIZES = {'io': [0x100, 0x1000, 0x1000, 0x1800, 0x3000, 0x4000],
         'mem': [1, 0x100000, 0x200000, 0x200000, 0x300000, 0x600000],
         'pref': [0x80000, 0x100000, 0x200000, 0x200000, 0x300000, 0x8000000]}
LARGEST = (1 << 64) - 1

# a PCI Express port with a slot that is hot-plug capable, one whose slot isn't, and a hot-plug controller
CAPABILITIES = [(0x01420010, 0x40), (0x01420010, 0x40), (0x01420010, 0x3F), (0x0000000C, 0)]


# ---- boards

def with_switch(rule):
    """A board, to some of which a switch on a root is added: two to three ports behind a bridge behind a bridge."""
    board = tree(rule)
    if rule.one_in(2):
        return board
    root = rule.one_of(board.roots)
    ports = 2 + rule.below(2)
    first = root + 0x10
    last = first + 1 + ports
    bridges = [((root, 28, 0), (root, first, last)), ((first, 0, 0), (first, first + 1, last))]
    bridges += [((first + 1, n, 0), (first + 1, first + 2 + n, first + 2 + n)) for n in range(ports)]
    for slot, buses in bridges:
        board.functions.append(rule.function(slot, buses))
        if slot[0] == first + 1 and not rule.one_in(3):
            board.functions.append(rule.function((buses[1], 0, 0)))
    board.functions.sort(key=lambda f: f.slot)
    return board


def slot_board(seed):
    """A board, what is asked, the spares, and the slots that are named or none; or none at all."""
    made = tight_board(seed, with_switch)
    if not made:
        return None
    rule, board, request = made
    bridges = [f for f in board.functions if f.is_bridge]
    slots = sorted(f.slot for f in bridges if not rule.one_in(3))
    if rule.one_in(2):
        for f in bridges:
            if f.slot in slots:
                put_slot(rule, f)
        slots = None
    elif rule.one_in(6):
        slots = sorted(set(slots + [(0, 23, 0), board.functions[0].slot]))
    for f in bridges:
        if rule.one_in(4):
            unplug(board, f)
        close_some(rule, board, f)
    spare = {kind: rule.one_of(SIZES[kind]) for kind in WINDOWS if not rule.one_in(4)} or {'mem': 0x100000}
    if rule.one_in(50):
        spare[rule.one_of(WINDOWS)] = LARGEST
    if bridges and rule.one_in(6):
        request = request._replace(fixed=[rule.one_of(bridges).slot])
    return board, request._replace(anew=rule.one_in(12)), spare, slots


def put_slot(rule, f):
    """Gives a bridge a capability that mostly says that it has a slot."""
    capability, slot = rule.one_of(CAPABILITIES)
    has_list = number_at(f.image, 0x04, 4) | 0x100000
    for offset, value in ((0x04, has_list), (0x34, 0x40), (0x40, capability), (0x54, slot)):
        put_number(f.image, offset, 4, value)


def unplug(board, bridge):
    """Takes the devices right behind a bridge out."""
    board.functions = [f for f in board.functions if f.is_bridge or f.slot[0] != bridge.secondary]


def close_some(rule, board, bridge):
    """Closes windows of a bridge behind which nothing is, at times."""
    if any(f.slot[0] == bridge.secondary for f in board.functions) or rule.one_in(2):
        return
    for window in bridge.windows():
        if not rule.one_in(4):
            close_window(bridge, window.window)


# ---- sorts

def sorts_of(board, request, wanted, sparing):
    """Of which sorts a board is."""
    sorts = {'something fixed'} if request.fixed else set()
    sorts |= {'several roots'} if len(board.roots) > 1 else set()
    sorts |= {'slots by registers' if wanted.slots is None else 'slots that are named'}
    sorts |= {'some spares are denied'} if sparing.denied else {'all spares fit'}
    sorts |= set() if sparing.plan.writes else {'nothing is written'}
    slots = {f.slot for f in board.functions if has_slot(f, wanted)}
    for old, new in zip(sparing.base.functions, sparing.plan.functions):
        for before, after in zip(old.windows(), new.windows()):
            sorts |= window_sorts(before, after, old.slot in slots)
    if any(slot[0] not in board.roots for slot in slots):
        sorts.add('slots behind a switch')
    if has_larger_window(board, sparing.spared, sparing.plain):
        sorts.add('a new window with a spare')
    elif has_larger_window(board, settler_with(board, request, wanted), sparing.plain):
        sorts.add('new windows have no spares')
    return sorts


def window_sorts(before, after, is_slot):
    """Of which sorts the change of a window by wishes is."""
    if after.is_closed or (not before.is_closed and before.last == after.last):
        return set()
    sorts = {'a closed window' if before.is_closed else 'a window'}
    sorts = {name + (' above' if not is_slot else '') for name in sorts}
    sorts = {name + (' is opened' if before.is_closed else ' ends later') for name in sorts}
    sorts |= {'an I/O window'} if after.window == 'io' else set()
    sorts |= {'a prefetchable window'} if after.window == 'pref' else set()
    return sorts | ({'above 4 GB'} if after.last >= 1 << 32 else set())


def settler_with(board, request, wanted):
    """The settler with spares in new windows, or none."""
    try:
        return settle_as(board.functions, request, wanted, PLAIN)[0]
    except TooLarge:
        return None


def has_larger_window(board, spared, plain):
    """Whether a new window over a slot is an item, larger than without spares."""
    if spared is None:
        return True
    return any(spared.has_behind(f, kind) and not spared.keeps_window(f, kind, spared.stays)
               and spared.new_window(f, kind) != plain.new_window(f, kind)
               for f in board.functions if f.is_bridge for kind in WINDOWS)


# ---- laws

def place_fault(now, wanted, denied):
    """A spare that isn't denied and has no first place in its window of the result, or none."""
    for f in [f for f in now.functions if has_slot(f, wanted)]:
        for kind in WINDOWS:
            spare = spare_of(f, kind, wanted)
            if not spare or not has_window(f, kind) or (f.slot, WINDOW_REGISTER[kind]) in denied:
                continue
            window = now.window_of(f, kind)
            taken = now.taken(f.secondary, window.space, lambda region: True) if window else []
            taken += now.told_on(f.secondary, window.space) if window else []
            if not window or first_place([(window.first, window.last)], taken, spare) is None:
                return 'the spare of %s %s has no place' % (slot_text(f.slot), kind)
    return None


def without_fault(sparing):
    """What spares change that they must not: a part that stays without them, or Command; or none."""
    news = {f.slot: f for f in sparing.plan.functions}
    for r in [r for r in sparing.plain.regions if sparing.plain.stays(r)]:
        own = [part for part in news[r.function.slot].parts() if part.register == r.part.register][0]
        if (own.first > r.first or own.last < r.last) if r.is_window else own.value != r.part.value:
            return '%s %02x goes for a spare' % r.rank
    for f in sparing.without.functions:
        if f.command != news[f.slot].command:
            return 'Command of %s differs' % slot_text(f.slot)
    return None


def wish_fault(base, plan):
    """What wishes change that they must not: where something begins, a window ends, or what is switched; or none."""
    # a new window that would be smaller than it was may be as it was for a spare, and then less is shut
    if not set(commands_of(plan)) <= set(commands_of(base)):
        return 'a wish switches something on or off'
    for old, new in zip(base.functions, plan.functions):
        for before, after in zip(old.parts(), new.parts()):
            if before.kind != 'window':
                if before.value != after.value:
                    return 'a BAR of %s is elsewhere after the wishes' % slot_text(old.slot)
            elif not before.is_closed and (after.first != before.first or after.last < before.last):
                return 'a window of %s begins elsewhere or ends earlier' % slot_text(old.slot)
    return None


def commands_of(plan):
    """The writes of a plan to Command."""
    return [made for made in plan.writes if made[1] == COMMAND]


def fixed_fault(request, plan):
    """A fixed function that is written, or none."""
    written = [slot for slot, _, _, _ in plan.writes if slot in request.fixed]
    return '%s is fixed and written' % slot_text(written[0]) if written else None


def again_fault(request, wanted, plan, denied):
    """What is written or denied otherwise where the result is settled again, or none."""
    again, later = settled_with_spares(plan.functions, request, wanted.spare, wanted.slots)
    if isinstance(again, Fault):
        # without spares a window above a fixed function may be smaller
        if request.anew and request.fixed and again.text.startswith('74 '):
            return None
        return 'settled again there is ' + again.text
    if again.writes:
        return 'settled again %s is written' % write_text(*again.writes[0])
    return None if later == denied else 'settled again %s are denied, not %s' % (later, denied)


def law_fault(board, request, wanted, sparing):
    """Which law doesn't hold of a plan, or none."""
    plan, denied = sparing.plan, sparing.denied
    if not all_on(board, request, plan.functions):
        return 'the result is not sound once all is on'
    return (without_fault(sparing)
            or place_fault(Settler(plan.functions, request), wanted, denied)
            or wish_fault(sparing.base, plan) or fixed_fault(request, plan)
            or again_fault(request, wanted, plan, denied)
            or outside_fault(plan.functions, request)
            or left_on_fault(board, sparing.spared, plan)
            or stop_fault(board.functions, board.roots, plan, lambda state, done: None))


def told_of(plan, denied):
    """What the program answers: status, writes or a fault, and the denied spares."""
    status, told, _ = answer(plan, '--writes', '')
    return status, told, ''.join('pciplan: %s\n' % line for line in denied_lines(denied))


def denied_lines(denied):
    """A line for each denied spare."""
    return ['spare %s %02x' % (slot_text(slot), register) for slot, register in denied]


def judge_spares(seed, asker):
    """What doesn't hold on the board of a seed, or none."""
    made = slot_board(seed)
    if not made or first_early(made[0]):
        return None
    board, request, spare, slots = made
    wanted = Wanted(spare, slots)
    try:
        sparing = settle_sparing(board.functions, request, wanted)
    except TooLarge:
        return None
    without, plan = sparing.without, sparing.plan
    if asker.program:
        words = roots_words(board.roots) + request_words(request) + spare_words(spare, slots) + ['--writes']
        told = asker.differs('settle', board.functions, words, told_of(plan, sparing.denied))
        if told:
            return told
    if isinstance(without, Fault) or isinstance(plan, Fault):
        asker.sorts.add('a fault')
        same = isinstance(without, Fault) and isinstance(plan, Fault) and without.text == plan.text
        return None if same else 'with spares %s, without %s' % (plan, without)
    asker.sorts |= sorts_of(board, request, wanted, sparing)
    if not is_sound(board.functions, board.roots):
        asker.sorts.add('from an unsound start')
    return law_fault(board, request, wanted, sparing)


def compare(seed, program, folder):
    """What doesn't hold on the board of a seed, or none, and the sorts of boards."""
    asker = Asker(program, folder)
    return judge_spares(seed, asker), asker.sorts


def spare_words(spare, slots):
    """The words for spares and slots."""
    words = ['--spare', ','.join('%s:%x' % (kind, spare[kind]) for kind in WINDOWS if kind in spare)]
    if slots is None:
        return words
    # no slots are spelt by one that isn't there
    return words + ['--slots', ','.join(slot_text(slot) for slot in slots) or 'ff:1f.7']


def show(seed):
    """The words and the texts of the board of a seed, the writes, and the denied spares."""
    made = slot_board(seed)
    if not made:
        return 'no board'
    board, request, spare, slots = made
    try:
        plan, denied = settled_with_spares(board.functions, request, spare, slots)
    except TooLarge:
        plan, denied = Fault('too large', None, None), []
    told = [plan.text] if isinstance(plan, Fault) else [write_text(*made) for made in plan.writes]
    told += denied_lines(denied)
    words = ' '.join(roots_words(board.roots) + request_words(request) + spare_words(spare, slots))
    return '$ pciplan settle DUMP PROBE %s\n%s\n%s\n%s' % (
        words, dump_text(board.functions), probe_text(board.functions), '\n'.join(told))
