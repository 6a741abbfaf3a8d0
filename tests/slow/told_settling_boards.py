"""Boards made by rule beside which ranges are told, and what is asked of them.

Boards are those of spare_laws.py, which are tight and into which cards were plugged, and those of moving_boards.py. On
some of them functions are switched off, a BAR lies elsewhere, or a window is longer than it was. Lines tell of what is free
in a window or on a root, of a BAR instead of its registers, and of addresses at an edge of what is there. Others are where
the next part would be placed, or anywhere.

- `told_board(seed)`: a `Board` with `functions` and `roots`, a request, spares and slots, and lines; or none.
"""

from also import numbered
from growing import HALF
from model import COMMAND, IO, MEM, WIDTH, number_at, page_size, put_bar, put_number, put_window
from moving_boards import Rule
from planner import bridges_above
from regions import ToldRange
from settler import Settler
from spare_laws import slot_board
from spares import NOTHING, Wanted

SIZES = {IO: [1, 4, 8, 8, 0x10, 0x100, 0x1000, 0x2000],
         MEM: [1, 0x1000, 0x1000, 0x4000, 0x10000, 0x80000, 0x100000, 0x200000]}
COUNTS = [1, 1, 1, 2, 2, 3, 4, 6]
# how many seeds are tried for a board, and how far they are apart
TRIES, FURTHER = 4, 1000003
MARKS = ['command', 'command', 'always', 'always', 'always', 'held', 'held']


class Teller:
    """Draws lines beside a board."""

    def __init__(self, rule, board, request):
        self.rule = rule
        self.board = board
        self.request = request
        self.ranges = []

    def settler(self):
        """The settler of the board as it is now, which knows what stands."""
        return Settler(self.board.functions, self.request._replace(anew=False))

    def tell(self):
        """The lines of a board."""
        rule = self.rule
        for _ in range(rule.one_of(COUNTS)):
            rule.one_of([self.tell_gap, self.tell_gap, self.tell_gap, self.tell_gap, self.tell_bar, self.tell_edge,
                         self.tell_edge, self.tell_off, self.tell_next, self.tell_anything])()
        if rule.one_in(3):
            self.move_above()
        return numbered(self.ranges)

    def add(self, slot, kind, first, last, mark):
        """Adds a line of a slot, cut to the addresses of its space."""
        top = (1 << WIDTH[IO if kind == 'io' else MEM]) - 1
        first, last = sorted(min(max(address, 0), top) for address in (first, last))
        if mark != 'held' and slot not in [f.slot for f in self.board.functions] and not self.rule.one_in(30):
            mark = 'held'
        self.ranges.append(ToldRange(0, slot, kind, (first, last), mark))

    def slot_on(self, bus, mark):
        """A slot on a bus, mostly one that is listed."""
        there = [f.slot for f in self.board.functions if f.slot[0] == bus]
        if not there or (mark == 'held' and self.rule.one_in(2)) or self.rule.one_in(60):
            return bus, self.rule.below(32), self.rule.below(8)
        return self.rule.one_of(there)

    def kind_for(self, window):
        """The space of a line in a window of a kind."""
        if window == 'io':
            return 'io'
        if self.rule.one_in(6):
            return 'pref' if window == 'mem' else 'mem'
        return window

    # ---- what is free

    def areas(self):
        """Where something can stand: the bus, the kind of window or list, the first and the last address."""
        settler = self.settler()
        areas = [(root, kind) + of for root in self.board.roots for kind in ('io', 'mem', 'pref')
                 for of in settler.ranges(kind, root)]
        windows = [(r.function.secondary, r.part.window, r.first, r.last) for r in settler.regions
                   if r.is_window and settler.stands(r)]
        return windows if windows and self.rule.one_in(2) else areas + windows * 4

    def free_runs(self, bus, kind, first, last):
        """The runs of an area that no part has which stands there, and no line."""
        settler = self.settler()
        space = IO if kind == 'io' else MEM
        taken = [(r.first, r.last) for r in settler.beside(bus, space) if settler.stands(r)]
        taken += [(line.first, line.last) for line in self.ranges if line.space == space]
        runs, start = [], first
        for begin, end in sorted(taken):
            if start < begin <= last:
                runs.append((start, begin - 1))
            start = max(start, end + 1)
        return runs + ([(start, last)] if start <= last else [])

    def tell_gap(self):
        """Tells of something in what is free: at its beginning, at its end, all of it, or in the midst."""
        rule, areas = self.rule, self.areas()
        if not areas:
            return
        bus, kind, first, last = rule.one_of(areas)
        runs = self.free_runs(bus, kind, first, last)
        if not runs:
            return
        first, last = rule.one_of(runs)
        size = min(rule.one_of(SIZES[IO if kind == 'io' else MEM]), last - first + 1)
        start = rule.one_of([first, first, last - size + 1, first + rule.below((last - first + 1) // size) * size])
        if rule.one_in(6) and bus not in self.board.roots:
            start, size = first, last - first + 1
        mark = rule.one_of(MARKS)
        self.add(self.slot_on(bus, mark), self.kind_for(kind), start, start + size - 1, mark)

    # ---- what is there

    def tell_bar(self):
        """Tells of a BAR, whose registers are cleared."""
        bars = [(f, bar) for f in self.board.functions for bar in f.bars()]
        if not bars:
            return
        f, bar = self.rule.one_of(bars)
        kind = 'io' if bar.space == IO else 'pref' if bar.prefetchable else 'mem'
        self.add(f.slot, kind, bar.first, bar.last, self.rule.one_of(['command', 'command', 'command', 'always']))
        width = 8 if bar.wide else 4
        for image in (f.image, f.probe):
            put_number(image, bar.register, width, 0)

    def tell_edge(self):
        """Tells of addresses at an edge of a part, or one beside it, on its bus or behind it."""
        rule = self.rule
        parts = [part for f in self.board.functions for part in f.parts() if not part.is_closed]
        if not parts:
            return
        part = rule.one_of(parts)
        bus = part.function.slot[0]
        if part.kind == 'window' and not rule.one_in(3):
            bus = part.function.secondary
        elif bus in self.board.roots and rule.one_in(3):
            bus = rule.one_of(self.board.roots)
        first = rule.one_of([part.first, part.last, part.last + 1, part.first - 1])
        size = rule.one_of(SIZES[part.space])
        if rule.one_in(3):
            first -= size - 1
        mark = rule.one_of(MARKS)
        slot = part.function.slot if rule.one_in(3) else self.slot_on(bus, mark)
        kind = self.kind_for(part.window or ('io' if part.space == IO else 'mem'))
        self.add(slot, kind, first, first + size - 1, mark)

    def tell_off(self):
        """Tells of a function that is off, at addresses of another part on its bus that is mostly off, too."""
        rule = self.rule
        pairs = [(f, part) for f in self.board.functions for g in self.board.functions for part in g.parts()
                 if f is not g and f.slot[0] == g.slot[0] and not f.is_on(part.space) and not part.is_closed
                 and (not part.enabled or rule.one_in(3))]
        if not pairs:
            return
        f, part = rule.one_of(pairs)
        size = min(rule.one_of(SIZES[part.space]), part.size)
        first = rule.one_of([part.first, part.last - size + 1])
        self.add(f.slot, 'io' if part.space == IO else 'mem', first, first + size - 1, 'command')

    def move_above(self):
        """Puts the BAR of a bridge above an `always` range outside of all lists, or onto something on its bus."""
        rule = self.rule
        bridges = [b for line in self.ranges if line.mark == 'always'
                   for b in bridges_above(self.board.functions, line.slot[0])]
        if not bridges:
            return
        bridge = rule.one_of(bridges)
        if not bridge.bars():
            put_number(bridge.probe, 0x10, 4, 0x100000000 - rule.one_of([0x1000, 0x4000, 0x100000]))
        bar = rule.one_of(bridge.bars())
        there = [part.first for f in self.board.functions for part in f.parts() if f.slot[0] == bridge.slot[0]
                 and part.space == bar.space]
        there += [line.first for line in self.ranges if line.slot[0] == bridge.slot[0] and line.space == bar.space]
        outside, half = (0x100, HALF['io']) if bar.space == IO else (0xD0000000, HALF['mem'])
        put_bar(bridge, bar, rule.one_of([outside] + there * 2) % half // bar.size * bar.size)

    def tell_next(self):
        """Tells of the beginning of a list, or of addresses below or above it."""
        rule = self.rule
        kind = rule.one_of(['io', 'mem', 'pref'])
        if not self.request.lists[kind]:
            return
        _, first, last = rule.one_of(self.request.lists[kind])
        size = rule.one_of(SIZES[IO if kind == 'io' else MEM])
        start = rule.one_of([first, first, first - size, last + 1, last - size + 1])
        mark = rule.one_of(MARKS)
        self.add(self.slot_on(rule.one_of(self.board.reversed_buses()), mark), self.kind_for(kind), start,
                 start + size - 1, mark)

    def tell_anything(self):
        """Tells of any addresses in the crowd, at times on a bus that isn't there."""
        rule = self.rule
        kind = rule.one_of(['io', 'mem', 'pref'])
        space = IO if kind == 'io' else MEM
        size = rule.one_of(SIZES[space])
        first = rule.crowded(space, 1, space == MEM and rule.one_in(3))
        mark = rule.one_of(MARKS)
        bus = rule.below(256) if rule.one_in(30) else rule.one_of(self.board.reversed_buses())
        self.add(self.slot_on(bus, mark), kind, first, first + size - 1, mark)


def plain_board(rule, seed):
    """A board of moving_boards.py, which mostly isn't settled, and what is asked."""
    maker = Rule(seed)
    board = maker.board()
    request = maker.request(board)
    return board, request, NOTHING


def sparing_board(seed):
    """A board of spare_laws.py, what is asked, and spares; or none where of a few seeds none has one."""
    for n in range(TRIES):
        made = slot_board(seed + n * FURTHER)
        if made:
            board, request, spare, slots = made
            return board, request, Wanted(spare, slots)
    return None


def switch_off(rule, board):
    """Switches some functions off, some of them in one space."""
    for f in board.functions:
        if rule.one_in(5):
            put_number(f.image, COMMAND, 2, number_at(f.image, COMMAND, 2) & ~rule.one_of([1, 2, 3, 3]))


def unsettle(rule, board):
    """Puts a BAR or ROM elsewhere, or lets a window end later."""
    rule.mood = 'crowd'
    bridges = [f for f in board.functions if f.is_bridge]
    f = rule.one_of(bridges if bridges and rule.one_in(2) else board.functions)
    parts = [part for part in f.parts() if not part.is_closed]
    if not parts:
        return
    part = rule.one_of(parts)
    if part.kind != 'window':
        rule.put_address(f, part)
        return
    last = part.last + rule.one_of([1, 1, 2]) * page_size(part.window)
    if last < HALF[part.window] or part.wide:
        put_window(f, part.window, part.first, last)


def told_board(seed):
    """The board of a seed, what is asked of it, spares and slots, and lines; or none."""
    rule = Rule(-1 - seed)
    made = plain_board(rule, seed) if rule.one_in(4) else sparing_board(seed)
    if not made:
        return None
    board, request, wanted = made
    if not board.functions:
        return None
    if rule.one_in(2):
        switch_off(rule, board)
    if rule.one_in(3):
        unsettle(rule, board)
    if not rule.one_in(3):
        wanted = NOTHING
    if rule.one_in(2):
        request = request._replace(fixed=[])
    return board, request._replace(anew=rule.one_in(8)), wanted, Teller(rule, board, request).tell()
