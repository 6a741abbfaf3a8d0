"""What `settle` answers where ranges are told beside the two texts, slowly.

A line of what is told is a `ToldRange` (regions.py). One that is `command` or `always` is a told range of its function,
and a `held` line tells of somebody. All of them stay where they are.

- `telling(told)`: the `Makers` of settlers to which lines are told, for `settle_sparing` of spares.py.
- `early_fault(functions, roots, told)`: the first fault of 20 to 58, or of slots that lines name.
- `ToldSettler`, `ToldGrower`: these settlers. Of a told range `line_stands` and `line_stays` say what `stands` and `stays`
  say of a part.

Nothing is placed on a line. A told range that is reached stands, and windows over it stay or grow. Where one that is on
isn't reached, or would not be any more, the answer is 75.
"""

import functools

from judge import early_faults
from model import slot_text
from planner import Fault, bridges_above
from regions import Given
from settler import window_space
from spares import Makers, SpareGrower, SpareSettler, Wisher

# of two that share an address the one of an earlier kind comes before the other
TOLD_ON, LEADING, FIXED, ENABLED, TOLD_OFF, OTHER = range(6)


# ---- lines

def share(one, other):
    """Whether two that have a first and a last address share one."""
    return one.first <= other.last and other.first <= one.last


def is_told_range(line):
    """Whether a line tells of what its function answers."""
    return line.mark != 'held'


def lines_on(told, roots, bus, space):
    """The lines of a space on a bus: all roots are one bus."""
    return [line for line in told if line.space == space
            and (line.slot[0] == bus or (line.slot[0] in roots and bus in roots))]


def lines_behind(told, bridge, space):
    """The lines of a space on the buses behind a bridge."""
    return [line for line in told if line.space == space and bridge.secondary <= line.slot[0] <= bridge.subordinate]


def keeps_off(line, slot, part):
    """Whether a line on the bus of a part keeps it off: not a `held` line of the slot of its function."""
    return share(line, part) and (is_told_range(line) or line.slot != slot)


def spans(lines):
    """The addresses of lines."""
    return [(line.first, line.last) for line in lines]


# ---- settlers

class WithTold:
    """A settler to which lines are told."""

    def __init__(self, told, functions, request):
        super().__init__(functions, request)
        self.told = told

    # ---- what is taken

    def lines_beside(self, region):
        """The lines of a part's space on its bus."""
        return lines_on(self.told, self.roots, region.bus, region.space)

    def told_on(self, bus, space):
        """The addresses on a bus at which nothing is placed, whatever is there: those of all lines."""
        return spans(lines_on(self.told, self.roots, bus, space))

    def told_behind(self, item):
        """The addresses at which a new window isn't placed for what is behind it: those of lines there."""
        return [] if item.part else spans(lines_behind(self.told, item.function, window_space(item.kind)))

    def around_window(self, window):
        """The ranges on the bus above a window that bound its reach: what lines that keep it off hold outside of it."""
        ranges = super().around_window(window)
        for line in self.lines_beside(window):
            if is_told_range(line) or line.slot != window.function.slot:
                ranges += [(max(line.first, window.last + 1), line.last)] if window.last < line.last else []
                ranges += [(line.first, min(line.last, window.first - 1))] if line.first < window.first else []
        return ranges

    # ---- told ranges

    def told_ranges(self):
        """The told ranges, by their lines."""
        return [line for line in self.told if is_told_range(line)]

    def is_line_on(self, line):
        """Whether a line is on: each but a `command` one of a function whose Command doesn't enable its space."""
        return line.mark != 'command' or all(f.is_on(line.space) for f in self.functions if f.slot == line.slot)

    def told_class(self, line):
        """The class of a told range: a `pref` one can be in the memory window over its bus."""
        if not line.prefetchable:
            return 'io' if line.space == 'io' else 'mem'
        bus = line.slot[0]
        if bus in self.roots:
            return 'mem'
        window = self.window_of(self.bridge_over(bus), 'mem')
        return 'mem' if window and window.first <= line.first and line.last <= window.last else 'pref'

    def leads(self, region, line):
        """Whether a part of a bridge leads to a told range behind it."""
        bridge = region.function
        if not bridge.is_bridge or not bridge.secondary <= line.slot[0] <= bridge.subordinate:
            return False
        if region.is_window:
            return (region.part.window == self.told_class(line) and region.first <= line.first
                    and line.last <= region.last)
        return region.space == line.space and line.mark == 'always'

    def leads_to_one(self, region):
        """Whether a part leads to a told range."""
        return any(self.leads(region, line) for line in self.told_ranges())

    def leads_to_one_on(self, region):
        """Whether a part leads to a told range that is on."""
        return any(self.leads(region, line) and self.is_line_on(line) for line in self.told_ranges())

    # ---- what stands

    def order(self, region):
        """Of parts that share an address the one with the least of these comes first."""
        return self.kind_of(region), super().order(region)

    def kind_of(self, region):
        """Of which kind a part is, by which it comes before another one."""
        if self.leads_to_one_on(region):
            return LEADING
        if region.function.slot in self.request.fixed:
            return FIXED
        return ENABLED if region.enabled else OTHER

    def find_stands(self, region):
        """Whether a part stands, found anew."""
        if self.request.anew and not self.leads_to_one(region):
            return False
        if not self.is_in_place(region) or any(self.bars_standing(line, region) for line in self.lines_beside(region)):
            return False
        return not any(other.space == region.space and self.are_beside(other.bus, region.bus)
                       and self.order(other) < self.order(region) and other.shares(region) and self.stands(other)
                       for other in self.regions)

    def bars_standing(self, line, region):
        """Whether a line keeps a part from standing: one that is off does so where the part comes behind it."""
        if not keeps_off(line, region.function.slot, region):
            return False
        return self.is_line_on(line) or self.kind_of(region) == OTHER

    def told_kind(self, line):
        """Of which kind a told range is, by which it comes before another one, and its line."""
        return TOLD_ON if self.is_line_on(line) else TOLD_OFF, line.n

    def line_stands(self, line):
        """Whether a told range stands where it is."""
        return self.remembered(('stands', line.n), lambda: self.find_line_stands(line))

    def find_line_stands(self, line):
        """The same, found anew."""
        if not self.is_line_reached(line):
            return False
        on_bus = lines_on(self.told, self.roots, line.slot[0], line.space)
        for other in on_bus:
            if not is_told_range(other):
                if keeps_off(other, line.slot, line):
                    return False
            elif share(other, line) and self.told_kind(other) < self.told_kind(line) and self.line_stands(other):
                return False
        return not any(self.kind_of(r) < self.told_kind(line)[0] and share(r, line) and self.stands(r)
                       for r in self.beside(line.slot[0], line.space))

    def is_line_reached(self, line):
        """Whether a told range is on a root, or in a window of its class that stands, below bridges that are on."""
        if line.slot[0] in self.roots:
            return True
        window = self.window_of(self.bridge_over(line.slot[0]), self.told_class(line))
        if window is None or not (window.first <= line.first and line.last <= window.last) or not self.stands(window):
            return False
        return line.mark != 'always' or all(b.is_on(line.space) for b in bridges_above(self.functions, line.slot[0]))

    def line_stays(self, line):
        """Whether a told range stands, and each window of its class above it stays."""
        return self.line_stands(line) and all(self.keeps_window(b, self.told_class(line), self.stays)
                                              for b in bridges_above(self.functions, line.slot[0]))

    # ---- Command

    def has_own(self, f, space):
        """Whether a function has a BAR or ROM of a space that is looked at, or a `command` range that stands."""
        return super().has_own(f, space) or any(
            line.slot == f.slot and line.space == space and line.mark == 'command' and self.line_stands(line)
            for line in self.told)

    # ---- why nothing is settled

    def told_without(self, test):
        """The first line of a told range that is on and doesn't stand, or of one that stands and doesn't stay."""
        if test == self.stands:
            lines = [line for line in self.told_ranges() if self.is_line_on(line) and not self.line_stands(line)]
        else:
            lines = [line for line in self.told_ranges() if self.line_stands(line) and not self.line_stays(line)]
        return line_words(lines[0]) if lines else None

    def told_switched(self, order):
        """The first line of a `command` range that is switched on in vain, or of an `always` one below what is shut."""
        lines = [line for line in self.told_ranges() if self.is_switched(line, order)]
        return line_words(lines[0]) if lines else None

    def is_switched(self, line, order):
        """Whether it is such a `command` range, or such an `always` one."""
        if line.mark == 'always':
            return any(order.is_shut(b, line.space) for b in bridges_above(self.functions, line.slot[0]))
        return not self.line_stands(line) and order.news[line.slot].is_on(line.space)


def line_words(line):
    """A line of what is told, as a fault names it."""
    return '%s +%d' % (slot_text(line.slot), line.n)


class ToldSettler(WithTold, SpareSettler):
    """A settler to which lines are told."""


class ToldGrower(WithTold, SpareGrower):
    """The same, where windows grow."""


class ToldWisher(Wisher):
    """Grants spares off what lines hold."""

    def __init__(self, told, functions, request):
        super().__init__(functions, request)
        self.told = told

    def is_kept_off(self, window, end):
        """Whether a line keeps a window off one of the addresses from its end up to another one."""
        return any(line.first <= end and window.last < line.last
                   and (is_told_range(line) or line.slot != window.function.slot)
                   for line in lines_on(self.told, self.request.roots, window.bus, window.space))

    def there(self, now, bus, kind, opened):
        """What is there on a bus: all lines, and behind a bridge that is opened there those on its buses."""
        space = window_space(kind)
        lines = lines_on(self.told, self.request.roots, bus, space)
        for bridge in [f for f in self.functions if f.slot == opened]:
            lines += lines_behind(self.told, bridge, space)
        return super().there(now, bus, kind, opened) + spans(lines)


def telling(told):
    """What makes settlers to which lines are told, and who grants spares."""
    return Makers(*(functools.partial(maker, told) for maker in (ToldGrower, ToldSettler, ToldWisher)))


def early_fault(functions, roots, told):
    """The first fault that is looked for before settling, or none."""
    lines = early_faults(functions, None, Given(roots, told=told))
    return Fault(lines[0], None, 'early') if lines else None
