"""Windows that grow, on boards made by rule: what has to hold whatever grows.

A board is settled anew, so that its windows are tight. Then functions are taken out and plugged in, and at times a
window is cut by a page. What is settled then has to be sound at each stop, to keep what stayed without growth, to leave
on what stays, and to be left alone when it is settled again.

- `compare(seed, program, folder)`: what doesn't hold, or None, and the sorts of boards. A program is asked for the same
  writes.
- `show(seed)`: the board of a seed.
- `SORTS`: the sorts that a run over many seeds has to meet.
"""

from growing import Grower, settled_growing
from model import COMMAND, IO, MEM, dump_text, page_size, probe_text, put_number, put_window, write_text
from moving import Asker, answer, first_early, request_words, roots_words
from moving_boards import Rule
from planner import Fault, bridges_above
from settler import Settler, TooLarge, settled
from stops import beginnings, is_sound, stop_fault

SORTS = ('a window grows', 'grows at its end', 'grows at its beginning', 'grows in two levels', 'nothing grows',
         'settled, which it is not without', 'something fixed', 'an I/O window grows', 'a prefetchable window grows',
         'above 4 GB', 'several roots', 'from an unsound start')

# lists with room beside what is placed first, of prefetchable memory also around a multiple of 4 GB
ROOMY = {'io': [[(None, 0x1000, 0xFFFF)], [(None, 0xD000, 0x2FFFF)], [(None, 0x1000, 0xFFFF)]],
         'mem': [[(None, 0xE0000000, 0xE2FFFFFF)], [(None, 0xE0000000, 0xE07FFFFF), (None, 0xE0900000, 0xE1FFFFFF)]],
         'pref': [[(None, 0x1FFC00000, 0x2FFFFFFFF)], [(None, 0x1FFA00000, 0x3FFFFFFFF)],
                  [(None, 0xF0000000, 0xF3FFFFFF)], [(None, 0xFFE00000, 0x1FFFFFFFF)]]}

# the device that leaves holes behind, and the sizes of these
SPACER = 31
HOLES = [0x100000, 0x100000, 0x200000, 0x400000]
# sizes of BARs of cards
LARGE = [0x40000, 0x80000, 0x100000, 0x100000, 0x200000, 0x400000]


# ---- boards

def tight_board(seed, made=None):
    """The rule of a seed, a board that was settled anew and then changed, and what is asked; or none.

    `made` makes the board that is settled, of the rule: by default some bridges and what is beside and behind them.
    """
    rule = Rule(seed)
    board = (made or tree)(rule)
    request = rule.request(board)._replace(fixed=[], anew=True)
    if not rule.one_in(5):
        request = request._replace(lists={kind: rule.one_of(ROOMY[kind]) for kind in ROOMY})
    try:
        plan = settled(with_spacers(rule, board), request)
    except TooLarge:
        return None
    if isinstance(plan, Fault):
        return None
    board.functions = [f for f in plan.functions if f.slot[1] != SPACER]
    if rule.one_in(3):
        request = request._replace(lists=cut_lists(plan.functions, request))
    take_out(rule, board)
    cut_window(rule, board)
    for _ in range(1 + rule.below(3)):
        plug_in(rule, board)
    return rule, board, request._replace(anew=False, fixed=rule.fixed(board, None) if rule.one_in(4) else [])


def tree(rule):
    """A board with some bridges, if one is drawn soon."""
    for _ in range(12):
        board = rule.board()
        if sum(f.is_bridge for f in board.functions) >= 2:
            break
    return board


def with_spacers(rule, board):
    """The functions of a board, and on some buses what leaves holes behind once it is taken out again."""
    spacers = []
    for bus in board.reversed_buses():
        for n in range(rule.one_of([1, 2, 3]) if bus in board.roots else rule.one_of([0, 0, 1])):
            f = rule.function((bus, SPACER, n))
            clear_registers(f)
            put_number(f.probe, 0x10, 4, 0xFFFFF001)
            put_number(f.probe, 0x14, 4, 0x100000000 - rule.one_of(HOLES))
            put_number(f.probe, 0x18, 8, (1 << 64) - rule.one_of(HOLES) | 0xC)
            spacers.append(f)
    return sorted([f for f in board.functions if f.slot[1] != SPACER] + spacers, key=lambda f: f.slot)


def cut_lists(functions, request):
    """The lists of a request, each range cut to the addresses that something on a root has."""
    used = [r for r in Settler(functions, request._replace(anew=False)).regions if r.bus in request.roots]
    lists = {}
    for kind, ranges in request.lists.items():
        lists[kind] = []
        for root, first, last in ranges:
            lasts = [r.last for r in used if r.space == (IO if kind == 'io' else MEM) and r.is_within(first, last)]
            if lasts:
                page = page_size(kind)
                lists[kind].append((root, first, min(last, (max(lasts) // page + 1) * page - 1)))
    return lists


def take_out(rule, board):
    """Takes a quarter of the devices out."""
    bridges = {f.slot[:2] for f in board.functions if f.is_bridge}
    gone = {f.slot[:2] for f in board.functions if f.slot[:2] not in bridges and rule.one_in(4)}
    board.functions = [f for f in board.functions if f.slot[:2] not in gone]


def cut_window(rule, board):
    """Lets a window end a page earlier, at times."""
    windows = [(f, window) for f in board.functions for window in f.windows() if not window.is_closed]
    if not windows or not rule.one_in(6):
        return
    f, window = rule.one_of(windows)
    page = page_size(window.window)
    if window.size > page:
        put_window(f, window.window, window.first, window.last - page)


def plug_in(rule, board):
    """Plugs a card in, mostly behind a bridge."""
    buses = [f.secondary for f in board.functions if f.is_bridge] or board.roots
    bus = rule.one_of(board.roots if rule.one_in(6) else buses)
    free = [device for device in range(24, SPACER) if all(f.slot[:2] != (bus, device) for f in board.functions)]
    if not free:
        return
    rule.mood = rule.one_of(['zero', 'zero', 'zero', 'crowd'])
    card = rule.function((bus, free[0], 0))
    if rule.one_in(4):
        card.titles = ('', '')
    else:
        put_large(rule, card)
    board.functions.append(card)
    board.functions.sort(key=lambda f: f.slot)


def clear_registers(f):
    """Takes the BARs and the ROM of a device away."""
    for image in (f.image, f.probe):
        image[0x10:0x28] = bytes(24)
        image[0x30:0x34] = bytes(4)


def put_large(rule, card):
    """Gives a card that shows nothing BARs that seldom fit a window: of memory, or many of ports."""
    clear_registers(card)
    if rule.one_in(4):
        for n in range(6):
            put_number(card.probe, 0x10 + 4 * n, 4, 0xFFFFFF01)
            card.image[0x10 + 4 * n] = 1
        return
    for n in range(rule.one_of([1, 1, 2])):
        size, encoding = rule.one_of(LARGE), rule.one_of([0, 0, 4, 8, 0xC, 0xC])
        width = 8 if encoding & 4 else 4
        put_number(card.probe, 0x10 + 8 * n, width, (1 << 8 * width) - size | encoding)
        card.image[0x10 + 8 * n] = encoding


# ---- sorts

def grown_windows(grower):
    """The windows that stay and come to more than they showed."""
    return [r for r in grower.regions if r.is_window and grower.stays(r) and grower.new_range(r) != (r.first, r.last)]


def sorts_of(board, request, grower, plan, plain):
    """Of which sorts a board is."""
    sorts = {'something fixed'} if request.fixed else set()
    sorts |= {'several roots'} if len(board.roots) > 1 else set()
    if plan is not None and isinstance(Grower(board.functions, request).answer(), Fault):
        return sorts | {'as without growth'}
    grown = grown_windows(grower)
    sorts.add('a window grows' if grown else 'nothing grows')
    if isinstance(plain, Fault):
        sorts.add('settled, which it is not without')
    for window in grown:
        sorts |= growth_sorts(grower, window, grown)
    for window in [r for r in grower.regions if r.is_window and grower.stands(r)]:
        if grower.taking(window) and not grower.takes_its_place(window):
            sorts.add('would grow into another')
    return sorts


def growth_sorts(grower, window, grown):
    """Of which sorts the growth of a window is."""
    first, last = grower.new_range(window)
    kind = window.part.window
    sorts = {'grows at its end'} if last > window.last else set()
    sorts |= {'grows at its beginning'} if first < window.first else set()
    sorts |= {'an I/O window grows'} if kind == 'io' else {'a prefetchable window grows'} if kind == 'pref' else set()
    sorts |= {'above 4 GB'} if last >= 1 << 32 else set()
    if any(grower.window_above(r) is window for r in grown if r.bus not in grower.roots):
        sorts.add('grows in two levels')
    items = [at + item.extent.size - 1 for item, at in grower.taking(window)[1].values()]
    spans = items + [grower.there(r)[1] for r in grower.beside(window.function.secondary, window.space)
                     if grower.is_there(r) and grower.class_of(r) == kind]
    if last // page_size(kind) > max(spans + [window.last]) // page_size(kind):
        sorts.add('a half is kept')
    return sorts


# ---- laws

def kept_fault(plain, grower, plan):
    """What stays without growth and doesn't with it, or none."""
    news = {f.slot: f for f in plan.functions}
    for r in [r for r in plain.regions if plain.stays(r)]:
        own = [part for part in news[r.function.slot].parts() if part.register == r.part.register][0]
        same = [s for s in grower.regions if s.rank == r.rank][0]
        if not grower.stays(same):
            return '%s %02x stays without growth' % r.rank
        if (own.first > r.first or own.last < r.last) if r.is_window else own.value != r.part.value:
            return '%s %02x changes' % r.rank
    return None


def beside_fault(grower):
    """Two parts that stay on one bus and share an address, or one that is not in what the window above it comes to."""
    staying = [r for r in grower.regions if grower.stays(r)]
    for r in staying:
        first, last = grower.new_range(r)
        for other in staying:
            start, end = grower.new_range(other)
            if other is not r and other in grower.beside(r.bus, r.space) and first <= end and start <= last:
                return '%s %02x and %s %02x share an address' % (r.rank + other.rank)
        if r.bus not in grower.roots:
            start, end = grower.new_range(grower.window_above(r))
            if first < start or end < last:
                return '%s %02x is not in its window' % r.rank
    return None


def left_on_fault(board, grower, plan):
    """A function that stays, with those above it, and whose Command loses a bit at a stop; or none."""
    if not is_sound(board.functions, board.roots):
        return None

    def stays(f):
        own = [r for r in grower.regions if r.function is f and not r.is_window]
        return all(grower.stays(r) for r in own) and not grower.has_left(f)

    staying = [f for f in board.functions if all(stays(g) for g in [f] + bridges_above(board.functions, f.slot[0]))]
    for state in beginnings(board.functions, plan.writes):
        shown = {f.slot: f.command for f in state}
        for f in staying:
            above = bridges_above(board.functions, f.slot[0])
            wanted = sum(bit for bit, space in ((1, IO), (2, MEM)) if all(g.is_on(space) for g in [f] + above))
            if wanted & ~shown[f.slot]:
                return 'the Command of %s loses a bit' % (f.slot,)
    return None


def all_on(board, request, functions, told=()):
    """Whether the result is sound with all on that has a place: each Command bit, but for an I/O BAR that is left."""
    settler = Settler(functions, request)
    found = [f.copy() for f in functions]
    for f, old in zip(found, functions):
        put_number(f.image, COMMAND, 2, f.command | (2 if settler.has_left(old) else 3))
    return is_sound(found, board.roots, told)


def outside_fault(functions, request):
    """A part on a root that lies in no range of it, or none."""
    settler = Settler(functions, request)
    for r in settler.regions:
        if r.bus in settler.roots and not settler.is_in_place(r):
            return '%s %02x is in no range' % r.rank
    return None


def law_fault(board, request, plan):
    """Which law doesn't hold, or none."""
    again = settled_growing(plan.functions, request)
    if isinstance(again, Fault) or again.writes:
        return 'settled again it changes'
    if len(plan.writes) != len(set(plan.writes[:plan.closings])) + len(set(plan.writes[plan.closings:])):
        return 'a register is written twice in one pass'
    if not all_on(board, request, plan.functions):
        return 'the result is not sound once all is on'
    return (outside_fault(plan.functions, request)
            or stop_fault(board.functions, board.roots, plan, lambda state, done: None))


def growth_fault(board, request, plan):
    """Which law of growth doesn't hold of a plan of growth, or none."""
    grower = Grower(board.functions, request)
    plain = Settler(board.functions, request)
    return (kept_fault(plain, grower, plan) or beside_fault(grower) or left_on_fault(board, grower, plan))


def settle_both(board, request):
    """The plan where windows grow, and the one where they don't; none where nothing is said of that."""
    if first_early(board):
        return None
    try:
        return settled_growing(board.functions, request), settled(board.functions, request)
    except TooLarge:
        return None


def judge_growth(seed, asker):
    """What doesn't hold on the board of a seed, or none."""
    made = tight_board(seed)
    if not made:
        return None
    rule, board, request = made
    plans = settle_both(board, request)
    if plans is None:
        return None
    plan, plain = plans
    if asker.program:
        words = roots_words(board.roots) + request_words(request)
        told = asker.differs('settle', board.functions, words + ['--writes'], answer(plan, '--writes', ''))
        if told:
            return told
    if isinstance(plan, Fault):
        return None if isinstance(plain, Fault) else 'without growth it settles'
    grower = Grower(board.functions, request)
    asker.sorts |= sorts_of(board, request, grower, plan, plain)
    if not is_sound(board.functions, board.roots):
        asker.sorts.add('from an unsound start')
    if 'as without growth' not in asker.sorts:
        told = growth_fault(board, request, plan)
        if told:
            return told
    return law_fault(board, request, plan)


def compare(seed, program, folder):
    """What doesn't hold on the board of a seed, or none, and the sorts of boards."""
    asker = Asker(program, folder)
    return judge_growth(seed, asker), asker.sorts


def show(seed):
    """The words and the texts of the board of a seed, and the writes."""
    made = tight_board(seed)
    if not made:
        return 'no board'
    _, board, request = made
    plans = settle_both(board, request)
    plan = plans[0] if plans else Fault('too large', None, None)
    told = plan.text if isinstance(plan, Fault) else '\n'.join(write_text(*made) for made in plan.writes)
    words = ' '.join(roots_words(board.roots) + request_words(request))
    return '$ pciplan settle DUMP PROBE %s\n%s\n%s\n%s' % (
        words, dump_text(board.functions), probe_text(board.functions), told)
