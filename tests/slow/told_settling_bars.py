"""A line that is on stands for a BAR of a fixed function that shows its addresses: the same is settled.

- `bar_fault(case)`: what disagrees on a board, or none. A case is a `Telling` of told_settling_laws.py.

Lines are left out which no BAR can show, and those that are off. A `held` line of a listed slot is left out too. Both ways
have to settle. A fixed function that would move is 74, so each BAR then lies in a range of its root or in a window. Windows
have to grow both ways, or neither way.
"""

from growing import Grower
from growth_rows import told as written
from model import COMMAND, IO, Function, put_number
from moving import first_early
from moving_boards import Board
from planner import Fault
from settler import TooLarge
from spares import PLAIN, settle_sparing
from told_settling import is_told_range, telling

# the least and the greatest size of a BAR of a space
SIZES = {IO: (4, 256), 'mem': (16, 1 << 40)}


def can_be_bar(line):
    """Whether a BAR can show the addresses of a line."""
    least, most = SIZES[IO if line.space == IO else 'mem']
    size = line.last - line.first + 1
    return least <= size <= most and size & (size - 1) == 0 and line.first % size == 0


def stands_for_bar(case, line):
    """Whether a BAR of a fixed function is put instead of a line."""
    if not can_be_bar(line) or not case.start.is_line_on(line):
        return False
    return is_told_range(line) or line.slot not in [f.slot for f in case.functions]


def function_with(slot, line):
    """A function that is on, with a BAR that shows the addresses of a line."""
    f = Function(slot)
    put_number(f.image, 0x00, 4, 0x12348086)
    put_number(f.image, COMMAND, 2, 1 if line.space == IO else 2)
    size = line.last - line.first + 1
    width, encoding = (4, 1) if line.space == IO else (8, 0xC if line.prefetchable else 4)
    put_number(f.image, 0x10, width, line.first | encoding)
    put_number(f.probe, 0x10, width, (1 << 8 * width) - size | encoding)
    return f


def with_bars(case, lines):
    """The functions with those that stand for lines, and the slots of these; or none where a bus is full."""
    functions, slots = list(case.functions), []
    for line in lines:
        there = {f.slot[:2] for f in functions}
        free = [device for device in range(32) if (line.slot[0], device) not in there]
        if not free:
            return None
        slots.append((line.slot[0], free[-1], 0))
        functions.append(function_with(slots[-1], line))
    return sorted(functions, key=lambda f: f.slot), slots


def bar_fault(case):
    """What is written otherwise where BARs of fixed functions stand for lines, or none."""
    lines = [line for line in case.told if stands_for_bar(case, line)]
    found = with_bars(case, lines)
    if not lines or not found:
        return None
    functions, slots = found
    request = case.request._replace(fixed=sorted(set(case.request.fixed + slots)), anew=False)
    if first_early(Board(functions, case.roots)):
        return None
    try:
        told = settle_sparing(case.functions, request, case.wanted, telling(lines))
        shown = settle_sparing(functions, request, case.wanted, PLAIN)
    except TooLarge:
        return None
    if isinstance(told.plan, Fault) or isinstance(shown.plan, Fault):
        return None
    # where a fixed function would be shut, windows don't grow
    if isinstance(told.plain, Grower) != isinstance(shown.plain, Grower):
        return None
    case.sorts.add('BARs instead')
    if written(told.plan) != written(shown.plan) or told.denied != shown.denied:
        return 'BARs instead of lines: %s, denied %s, and not %s, denied %s' % (
            written(shown.plan), shown.denied, written(told.plan), told.denied)
    return None
