"""What `settle` answers where room is wanted behind hot-plug slots, slowly.

- `settled_with_spares(functions, request, spare, slots)`: the plan, and the spares that are denied as (slot, register)
  by falling slot. `spare` has the wanted size of each kind of window, `slots` the bridges with a slot. Where there are
  no `slots` the registers say which bridges have one. A fault comes without denied spares.
- `settle_sparing(functions, request, wanted, makers)`: the same with what comes before, as a `Sparing`. By default the
  `Makers` of settlers to which nothing is told.

What is refused without slots is refused with them. A new window over a slot has the spare behind its items. Where other
parts stay for that, or nothing is settled so, no new window has one. Then each slot gets its spares, from the highest slot
down: its window ends later, or is opened.
"""

from collections import namedtuple

from growing import HALF, Grower, ends_without, with_halves
from model import IO, WINDOWS, capabilities, page_size, put_window
from ordering import Order
from planner import Fault, has_window, raised
from settler import (WINDOW_REGISTER, Extent, Item, Settler, TooLarge, around, first_place, first_spot, highest_in,
                     window_space)

# what is asked beside a request: the sizes of spares, and which bridges have slots (None where their registers say it)
Wanted = namedtuple('Wanted', 'spare slots')

NOTHING = Wanted({}, [])

# more addresses than these count as so many: whole pages of them are fewer than 2^64
MOST_WANTED = 0xFFFFFFFFFFF00000

# how it is settled: settler and plan without spares, settler and plan before any wish, the plan, and the denied spares
Sparing = namedtuple('Sparing', 'plain without spared base plan denied')


def has_hot_plug_slot(image):
    """Whether the capabilities list has a hot-plug controller, or a port with a slot that is hot-plug capable."""
    for place in capabilities(image):
        if place < 0x40:
            return False
        if image[place] == 0x0C:
            return True
        if image[place] == 0x10 and place + 0x14 < 256 and image[place + 3] & 1 and image[place + 0x14] & 0x40:
            return True
    return False


def has_slot(f, wanted):
    """Whether a function is a bridge with a slot."""
    if not f.is_bridge:
        return False
    return has_hot_plug_slot(f.image) if wanted.slots is None else f.slot in wanted.slots


def spare_of(bridge, kind, wanted):
    """The spare behind a bridge: whole pages, aligned to the greatest power of two that divides their size."""
    if not wanted.spare.get(kind) or not has_slot(bridge, wanted):
        return None
    size = raised(page_size(kind), min(wanted.spare[kind], MOST_WANTED))
    return Extent(size, size & -size, highest_in(bridge, kind))


# ---- new windows

class WithSpares:
    """New windows over slots have their spare behind their items."""

    wanted = NOTHING

    def new_window(self, bridge, kind):
        """The new window of a bridge, around all that is behind it and its spare."""
        return self.remembered(('window', bridge.slot, kind), lambda: self.find_new_window(bridge, kind))

    def find_new_window(self, bridge, kind):
        """The same, found anew."""
        items = self.items(bridge.secondary, kind, lambda region: False)
        spare = spare_of(bridge, kind, self.wanted)
        return around(kind, bridge, items + ([Item(bridge, None, kind, None, spare)] if spare else []))


class SpareSettler(WithSpares, Settler):
    """A settler whose new windows have spares."""


class SpareGrower(WithSpares, Grower):
    """The same, where windows grow."""


# what makes a settler where windows grow, one where none does, and who grants spares
Makers = namedtuple('Makers', 'grower settler wisher')


def settle_as(functions, request, wanted, makers):
    """The settler that answers, one that grows or else one that doesn't, and its plan."""
    grower = makers.grower(functions, request)
    grower.wanted = wanted
    if not grower.is_past_all():
        plan = grower.answer()
        if not ends_without(plan):
            return grower, plan
    settler = makers.settler(functions, request)
    settler.wanted = wanted
    return settler, settler.answer()


def keep_alike(plain, spared):
    """Whether the same parts stay with spares in new windows and without."""
    return all(plain.stays(r) == spared.stays(same) for r, same in zip(plain.regions, spared.regions))


def with_new_windows(functions, request, wanted, makers):
    """The settler and the plan with spares in new windows, or none where there is a fault."""
    try:
        spared, plan = settle_as(functions, request, wanted, makers)
    except TooLarge:
        return None
    return None if isinstance(plan, Fault) else (spared, plan)


# ---- wishes

class Wisher:
    """Grants spares one after another. What is there is read from the registers of the result so far."""

    def __init__(self, functions, request):
        self.request = request
        self.functions = functions

    def window(self, functions, slot, kind):
        """How things stand, a bridge by its slot, and its open window of a kind or none."""
        now = Settler(functions, self.request._replace(anew=False))
        bridge = [f for f in functions if f.slot == slot][0]
        return now, bridge, now.window_of(bridge, kind)

    def over(self, functions, bridge):
        """The slot of the bridge over a bridge's bus."""
        return Settler(functions, self.request).bridge_over(bridge.slot[0]).slot

    def shown(self, functions, slot, kind, first, last):
        """The functions where a window shows other addresses."""
        new = [f.copy() if f.slot == slot else f for f in functions]
        put_window([f for f in new if f.slot == slot][0], kind, first, last)
        return new

    def ending(self, functions, slot, kind, last):
        """The functions where an open window ends at an address at least, or none."""
        now, bridge, window = self.window(functions, slot, kind)
        if last <= window.last:
            return functions
        end = with_halves(window, window.first, raised(page_size(kind), last + 1) - 1, HALF[kind])[1]
        if slot in self.request.fixed or end > highest_in(bridge, kind):
            return None
        if any(r is not window and r.first <= end and window.last < r.last for r in now.beside(slot[0], window.space)):
            return None
        if self.is_kept_off(window, end):
            return None
        if slot[0] in self.request.roots:
            if not is_listed(now, slot[0], window, end):
                return None
        else:
            functions = self.ending(functions, self.over(functions, bridge), kind, end)
        return functions and self.shown(functions, slot, kind, window.first, end)

    def is_kept_off(self, window, end):
        """Whether a line keeps a window off one of the addresses from its end up to another one: none is told."""
        return False

    def there(self, now, bus, kind, opened):
        """What is there on a bus, also for a bridge that is opened by its slot, or none."""
        return [(r.first, r.last) for r in now.beside(bus, window_space(kind))]

    def with_room(self, functions, slot, kind, spare, opened=None):
        """The functions where the window of a bridge has room for a spare, and the spare's first address; or none.

        The spare is the window of a bridge behind it that is opened, by its slot, or it is room.
        """
        now, bridge, window = self.window(functions, slot, kind)
        if window is None:
            return self.opened(functions, slot, kind, spare)
        there = self.there(now, bridge.secondary, kind, opened)
        at = first_spot(window.first, there, spare)
        if at + spare.size - 1 > spare.highest:
            return None
        new = self.ending(functions, slot, kind, at + spare.size - 1)
        return (new, at) if new else None

    def opened(self, functions, slot, kind, spare):
        """The same for a closed window: it is opened with the spare's addresses."""
        now, bridge, _ = self.window(functions, slot, kind)
        if slot in self.request.fixed or not has_window(bridge, kind):
            return None
        spare = spare._replace(highest=min(spare.highest, highest_in(bridge, kind)))
        if slot[0] in self.request.roots:
            at = first_place(now.ranges(kind, slot[0]), self.there(now, slot[0], kind, slot), spare)
            found = (functions, at) if at is not None else None
        else:
            found = self.with_room(functions, self.over(functions, bridge), kind, spare, slot)
        if not found:
            return None
        return self.shown(found[0], slot, kind, found[1], found[1] + spare.size - 1), found[1]

    def grant_all(self, wanted):
        """Grants what can be granted; the denied spares."""
        denied = []
        for bridge in sorted((f for f in self.functions if has_slot(f, wanted)), key=lambda f: f.slot, reverse=True):
            for kind in WINDOWS:
                spare = spare_of(bridge, kind, wanted)
                if not spare or not has_window(bridge, kind):
                    continue
                found = self.with_room(self.functions, bridge.slot, kind, spare)
                if found:
                    self.functions = found[0]
                else:
                    denied.append((bridge.slot, WINDOW_REGISTER[kind]))
        return denied


class WishedOrder(Order):
    """The writes with which spares are granted: an open window that changes for a spare alone counts as unchanged."""

    def __init__(self, settler, base, news):
        Order.__init__(self, settler, news)
        self.base = Order(settler, base)

    def changes_window(self, f, kind):
        """Whether a window changes: one that was open for more than a spare."""
        is_closed = any(window.is_closed for window in f.windows() if window.window == kind)
        return Order.changes_window(self, f, kind) and (is_closed or self.base.changes_window(f, kind))


def is_listed(now, bus, window, end):
    """Whether one range of a root holds a window that ends at an address."""
    kinds = ['io'] if window.space == IO else ['mem', 'pref']
    return any(first <= window.first and end <= last for kind in kinds for first, last in now.ranges(kind, bus))


PLAIN = Makers(SpareGrower, SpareSettler, Wisher)


def settle_sparing(functions, request, wanted, makers=PLAIN):
    """How it is settled with spares: in new windows where the same parts stay, and then by wishes."""
    plain, without = settle_as(functions, request, NOTHING, makers)
    if isinstance(without, Fault):
        return Sparing(plain, without, plain, without, without, [])
    found = with_new_windows(functions, request, wanted, makers)
    spared, base = found if found and keep_alike(plain, found[0]) else (plain, without)
    wisher = makers.wisher(base.functions, request)
    denied = wisher.grant_all(wanted)
    news, olds = ({f.slot: f for f in functions} for functions in (wisher.functions, base.functions))
    return Sparing(plain, without, spared, base, WishedOrder(spared, olds, news).plan(), denied)


def settled_with_spares(functions, request, spare, slots=None):
    """The plan, and the spares that are denied; or a fault, and none."""
    sparing = settle_sparing(functions, request, Wanted(spare, slots))
    return sparing.plan, sparing.denied
