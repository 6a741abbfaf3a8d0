"""The writes of `settle`, slowly: what is shut in which space, which windows are closed meanwhile, and in which order.

It is read off docs/FORMATS.md ("Settling", "Writes") and crates/settle_spec/specs/Writes.antt, one function at a time.

- `Order(settler, news)`: of a `Settler` (settler.py) and the functions as they are to be, by their slots.
- `Order.plan()`: the `Plan` (planner.py).
"""

from model import COMMAND, IO, MEM, address_registers, number_at, put_bounds, put_number, window_bounds
from planner import Plan, bridges_above, writes_between

# of each kind of window its registers: offset and width
WINDOW_REGISTERS = {'io': [(0x1C, 2), (0x30, 4)], 'mem': [(0x20, 4)], 'pref': [(0x24, 4), (0x28, 4), (0x2C, 4)]}

# what closing can write, in its order
CLOSING = [(COMMAND, 2), (0x1C, 2), (0x30, 4), (0x20, 4), (0x24, 4), (0x2C, 4)]


class Order:
    """Which writes lead from some functions to new ones."""

    def __init__(self, settler, news):
        self.settler = settler
        self.functions = settler.functions
        self.news = news

    # ---- what moves

    def differs(self, f, registers):
        """Whether one of some registers is to show another number."""
        return any(number_at(f.image, *register) != number_at(self.news[f.slot].image, *register)
                   for register in registers)

    def is_replaced(self, f, kind):
        """Whether it is a bridge whose window of a kind changes and doesn't stay."""
        return self.changes_window(f, kind) and not self.settler.keeps_window(f, kind, self.settler.stays)

    def changes_window(self, f, kind):
        """Whether it is a bridge whose window of a kind changes."""
        return f.is_bridge and self.differs(f, WINDOW_REGISTERS[kind])

    def moves(self, region):
        """Whether a BAR or ROM doesn't stay, and its register changes or the window of its class of a bridge above."""
        if self.settler.stays(region):
            return False
        width = 8 if region.part.kind == 'bar' and region.part.wide else 4
        return self.differs(region.function, [(region.part.register, width)]) or any(
            self.changes_window(b, self.settler.class_of(region)) for b in bridges_above(self.functions, region.bus))

    # ---- what is shut

    def has_moving(self, f, space):
        """Whether a BAR or ROM of a function in a space moves."""
        return any(r.function is f and r.space == space and not r.is_window and self.moves(r)
                   for r in self.settler.regions)

    def is_cut_off(self, f, space):
        """Whether it is on in a space in which it has a BAR or ROM, and a bridge above it isn't."""
        return f.is_on(space) and self.settler.has_own(f, space) and any(
            not b.is_on(space) for b in bridges_above(self.functions, f.slot[0]))

    def is_shut(self, f, space):
        """Whether a function is shut in a space, for itself or for a bridge above it."""
        return any(self.has_moving(g, space) or self.is_cut_off(g, space)
                   for g in [f] + bridges_above(self.functions, f.slot[0]))

    def is_left_on(self, f, space):
        """Whether it is on in a space all the time."""
        return f.is_on(space) and not self.is_shut(f, space) and not (space == IO and self.settler.has_left(f))

    # ---- how a function stands once all is closed

    def closed(self, f):
        """A function once all is closed."""
        new = f.copy()
        for kind in WINDOW_REGISTERS:
            if self.is_replaced(f, kind):
                close_meanwhile(new, kind)
        put_number(new.image, COMMAND, 2, f.command & ~3 | self.is_left_on(f, IO) | self.is_left_on(f, MEM) << 1)
        return new

    # ---- writes

    def plan(self):
        """The new functions and the writes to them."""
        closed = {f.slot: self.closed(f) for f in self.functions}
        closing = [made for f in reversed(self.functions)
                   for made in writes_between(f, closed[f.slot], CLOSING if f.is_bridge else CLOSING[:1])]
        setting = [made for f in self.functions
                   for made in writes_between(closed[f.slot], self.news[f.slot],
                                              setting_registers(closed[f.slot], self.news[f.slot]))]
        opening = [made for f in self.functions
                   for made in writes_between(closed[f.slot], self.news[f.slot], [(COMMAND, 2)])]
        return Plan(list(self.news.values()), closing + setting + opening, len(closing))


def close_meanwhile(new, kind):
    """Closes a window by its lower halves, and lowers the upper limit to the upper base where it is above."""
    nibble = window_bounds(new.probe, kind)[0] & 15
    _, _, base_upper, limit_upper = window_bounds(new.image, kind)
    put_bounds(new.image, kind, ((0xF0 if kind == 'io' else 0xFFF0) + nibble, nibble, base_upper,
                                 min(base_upper, limit_upper)))


def setting_registers(closed, new):
    """The address registers in the order in which they are set: the lower halves of a window come last."""
    if not closed.is_bridge:
        return address_registers(closed)
    upper = [(0x28, 4), (0x2C, 4)]
    if number_at(new.image, 0x28, 4) < number_at(closed.image, 0x2C, 4):
        upper.reverse()
    return [(0x10, 4), (0x14, 4), (0x30, 4), (0x1C, 2), (0x20, 4)] + upper + [(0x24, 4), (0x38, 4)]
