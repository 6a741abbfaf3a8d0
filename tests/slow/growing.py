"""What `settle` answers where windows grow where they stand, slowly.

It is read off crates/settle_spec/specs (`Reach`, `Growth`, `Growing`), one bridge at a time.

- `settled_growing(functions, request)`: as `settled` of settler.py, where a window that lacks room takes free addresses
  beside it. Where that ends in 72 or 74, all is as without growth. So it is where a new window would have 2^64 addresses
  or more, and a window can grow to all addresses of 64 bits.
"""

from model import page_size, put_window
from planner import Fault, raised
from settler import Settler, TooLarge, first_place, highest_in, settled

# so many addresses of a kind of window have one upper half
HALF = {'io': 1 << 16, 'mem': 1 << 32, 'pref': 1 << 32}

WHOLE = 0, (1 << 64) - 1


def last_place(first, end, taken, extent):
    """The greatest multiple of an alignment from which an item lies in a range and off what is taken, or none."""
    at = (min(end, extent.highest) + 1 - extent.size) // extent.alignment * extent.alignment
    while first <= at:
        starts = [start for start, last in taken if start <= at + extent.size - 1 and at <= last]
        if not starts:
            return at
        at = (starts[0] - extent.size) // extent.alignment * extent.alignment
    return None


def cut_to_halves(window, first, last, half):
    """A reach without the ends that would move one half of a bound outward and the other one inward."""
    if last // half > window.last // half and last % half < window.last % half:
        last = last // half * half - 1
    if first // half < window.first // half and first % half > window.first % half:
        first = (first // half + 1) * half
    return first, last


def with_halves(window, first, last, half):
    """Bounds of a window that grows, where a half of a bound moves outward or stays."""
    if last // half > window.last // half:
        last = last // half * half + max(last % half, window.last % half)
    if first // half < window.first // half:
        first = first // half * half + min(first % half, window.first % half)
    return first, last


class Grower(Settler):
    """The settling of some functions where windows grow."""

    # ---- how far a window can grow

    def reach(self, window):
        """The pages around a window that stands into which it can grow: the first and the last address."""
        return self.remembered(('reach', window.rank), lambda: self.find_reach(window))

    def find_reach(self, window):
        """The same, found anew."""
        if window.function.slot in self.request.fixed:
            return window.first, window.last
        kind = window.part.window
        page = page_size(kind)
        first, last = self.room_around(window, kind)
        last = min(last, highest_in(window.function, kind))
        for start, end in self.around_window(window):
            if start > window.last:
                last = min(last, start - 1)
            else:
                first = max(first, end + 1)
        return cut_to_halves(window, raised(page, first), (last + 1) // page * page - 1, HALF[kind])

    def around_window(self, window):
        """The ranges on the bus above a window that bound its reach: those of the other parts that stand."""
        return [(other.first, other.last) for other in self.beside(window.bus, window.space)
                if other is not window and self.stands(other)]

    def room_around(self, window, kind):
        """What a window is in: the first range of its root that holds it, or the reach of the window above it."""
        if window.bus not in self.roots:
            return self.reach(self.window_of(self.bridge_over(window.bus), kind))
        kinds = {'io': ['io'], 'mem': ['mem', 'pref'], 'pref': ['pref', 'mem']}[kind]
        return [of for kind in kinds for of in self.ranges(kind, window.bus) if window.is_within(*of)][0]

    # ---- all addresses

    def is_past_all(self):
        """Whether a window can grow to all addresses of 64 bits, and a new one would have 2^64 or more."""
        return any(r.is_window and self.stands(r) and self.reach(r) == WHOLE for r in self.regions) and any(
            self.is_too_large(f, window.window) for f in self.functions for window in f.windows())

    def is_too_large(self, bridge, kind):
        """Whether the new window of a bridge would have 2^64 addresses or more."""
        try:
            self.new_window(bridge, kind)
        except TooLarge:
            return True
        return False

    # ---- what is there, from the leaves up

    def there(self, region):
        """The addresses with which a part is there beside others, or none."""
        return self.remembered(('there', region.rank), lambda: self.find_there(region))

    def find_there(self, region):
        """The same, found anew."""
        if not self.stands(region):
            return None
        if region.is_window and self.takes_its_place(region):
            return self.taking(region)[0]
        return (region.first, region.last) if not region.is_window or self.holds(region) else None

    def takes_its_place(self, window):
        """Whether a window that stands takes, and shares no address with what is there before it."""
        if self.taking(window) is None:
            return False
        first, last = self.taking(window)[0]
        before = [self.there(r) for r in self.beside(window.bus, window.space)
                  if self.stands(r) and r.first < window.first]
        return not any(there and there[0] <= last and first <= there[1] for there in before)

    def is_there(self, region):
        """Whether a part is there."""
        return self.there(region) is not None

    def taking(self, window):
        """What a window that takes comes to, and the places of the items behind it by their ranks; or none."""
        return self.remembered(('taking', window.rank), lambda: self.find_taking(window))

    def find_taking(self, window):
        """The same, found anew."""
        kind, bus = window.part.window, window.function.secondary
        behind = [r for r in self.beside(bus, window.space) if self.is_there(r)]
        places, lack = self.placed(self.items(bus, kind, self.is_there), bus, window.space,
                                   lambda item, taken: self.place_around(window, item, taken),
                                   [self.there(r) for r in behind])
        if lack:
            return None
        spans = [(window.first, window.last)] + [self.there(r) for r in behind if self.class_of(r) == kind]
        spans += [(at, at + item.extent.size - 1) for item, at in places.values()]
        page = page_size(kind)
        first, last = min(first for first, _ in spans), max(last for _, last in spans)
        return with_halves(window, first // page * page, raised(page, last + 1) - 1, HALF[kind]), places

    def place_around(self, window, item, taken):
        """The first place of an item from the window's first address on, else the last one before the window."""
        first, last = self.reach(window)
        at = first_place([(window.first, last)], taken, item.extent)
        return last_place(first, window.first - 1, taken, item.extent) if at is None else at

    # ---- what stays, from the roots down

    def window_above(self, region):
        """The window of a part's class over its bus, or none."""
        return self.window_of(self.bridge_over(region.bus), self.class_of(region))

    def is_grown(self, window):
        """Whether a window has what it comes to, and so has each window of its class above it."""
        return self.stands(window) and self.takes_its_place(window) and (
            window.bus in self.roots or self.is_grown(self.window_above(window)))

    def stays(self, region):
        """Whether a part is there, and so is each window above it; behind one as it stands, whether it holds."""
        return self.remembered(('stays, growing', region.rank), lambda: self.find_stays(region))

    def find_stays(self, region):
        """The same, found anew."""
        if region.bus in self.roots:
            return self.is_there(region)
        window = self.window_above(region)
        if window is None or not self.stays(window):
            return False
        return self.is_there(region) if self.is_grown(window) else self.holds(region)

    # ---- where the rest goes, and what registers show

    def new_range(self, region):
        """The addresses of a part that stays."""
        if region.is_window and self.is_grown(region):
            return self.taking(region)[0]
        return region.first, region.last

    def place_of(self, item, taken):
        """The place of an item, or none: in a window that grew it is that of growing."""
        window = None
        if item.function.slot[0] not in self.roots:
            window = self.window_of(self.bridge_over(item.function.slot[0]), item.kind)
        if window and self.stays(window) and self.is_grown(window):
            return self.taking(window)[1][item.rank][1]
        return Settler.place_of(self, item, taken)

    def show_window(self, new, window):
        """Lets the registers of an open window without a new place show what it comes to."""
        Settler.show_window(self, new, window)
        if self.stays(window) and self.new_range(window) != (window.first, window.last):
            put_window(new, window.part.window, *self.new_range(window))


def settled_growing(functions, request):
    """The plan of settling where windows grow, or why there is none."""
    grower = Grower(functions, request)
    if grower.is_past_all():
        return settled(functions, request)
    plan = grower.answer()
    return settled(functions, request) if ends_without(plan) else plan


def ends_without(plan):
    """Whether all is as without growth: there is a fault that growth may have brought."""
    return isinstance(plan, Fault) and plan.text[:2] in ('72', '74', '75')
