"""Small boards made by rule that are crowded with what words are about, and what is asked of them.

One to three bridges stand there, with some devices. Most bridges have VGA Enable, ISA Enable, palette snooping or the class
of subtractive decode. BARs, windows, lists and lines are at addresses of legacy and palette parts, and beside them.

- `crowded_board(seed)`: the functions of a board, and the `Asked`.
"""

from also import numbered
from model import (BRIDGE_CONTROL, CAPABILITIES, CLASS, COMMAND, HEADER, STATUS, Function, number_at, put_bounds,
                   put_number, window_bounds)
from model_settling import Asked
from moving_boards import Rule
from regions import ToldRange
from settler import Request
from words import NAMES, is_anyone_behind

PORT_COUNTS = [4, 0x10, 0x20, 0x100, 0x100]
PORTS = [0, 0x300, 0x3A0, 0x3C0, 0x1000, 0x1100, 0x13C0, 0x1400, 0x2000, 0x2100, 0x3000, 0x10000]
SIZES = [0x1000, 0x10000, 0x20000, 0x80000, 0x100000]
ADDRESSES = [0, 0x80000, 0xA0000, 0xB0000, 0x100000, 0x200000, 0x300000, 0x400000]
# limit and base of I/O and memory windows, as the registers hold them
IO_WINDOWS = [0x00F0, 0x00F0, 0x0000, 0x1010, 0x2010, 0x2020, 0x3010, 0x3020]
MEMORY_WINDOWS = [0x0000FFF0, 0x0000FFF0, 0, 0x00100000, 0x00100010, 0x00200010, 0x00200020, 0x00300010]
IO_LISTS = [(0x1000, 0xFFFF), (0, 0xFFFF), (0, 0x2FFF), (0x1000, 0x1FFF), (0x1000, 0x3FFF)]
MEMORY_LISTS = [(0x80000, 0x4FFFFF), (0, 0x4FFFFF), (0x100000, 0x4FFFFF), (0xC0000, 0x2FFFFF)]


def put_to_sleep(f):
    """A power management capability in D3."""
    put_number(f.image, STATUS, 2, number_at(f.image, STATUS, 2) | 0x10)
    f.image[CAPABILITIES] = 0x40
    f.image[0x40:0x48] = bytes((1, 0, 0, 0, 3, 0, 0, 0))


def range_near(rule, is_io):
    """The first address and the size of something near a claim."""
    size = rule.one_of(PORT_COUNTS if is_io else SIZES)
    return rule.one_of(PORTS if is_io else ADDRESSES) & -size, size


def put_bars(rule, f, count):
    """Gives a function up to so many BARs of 32 bits, which show an address each."""
    for n in range(count):
        if rule.one_in(3):
            continue
        is_io = not rule.one_in(3)
        first, size = range_near(rule, is_io)
        put_number(f.image, 0x10 + 4 * n, 4, first | is_io)
        put_number(f.probe, 0x10 + 4 * n, 4, (1 << 32) - size | is_io)


def function_at(slot, command):
    """A function with this in Command."""
    f = Function(slot)
    put_number(f.image, 0, 4, 0x56781234)
    put_number(f.image, COMMAND, 2, command)
    return f


def bridge_at(rule, slot, secondary, subordinate):
    """A bridge with windows, and with some of what words are about."""
    f = function_at(slot, rule.one_of([0, 1, 2, 3, 3, 3, 3]) | (0x20 if rule.one_in(5) else 0))
    f.image[HEADER] = 1
    f.image[0x18:0x1B] = bytes((slot[0], secondary, subordinate))
    put_number(f.image, 0x1C, 2, rule.one_of(IO_WINDOWS))
    put_number(f.probe, 0x1C, 2, 0xF0F0)
    put_number(f.image, 0x20, 4, rule.one_of(MEMORY_WINDOWS))
    put_number(f.probe, 0x20, 4, 0xFFF0FFF0)
    control = rule.one_of([0, 0, 8, 0x18, 0x18]) | (4 if rule.one_in(3) else 0)
    put_number(f.image, BRIDGE_CONTROL, 2, control)
    put_number(f.image, CLASS, 3, 0x060401 if rule.one_in(3) else 0x060400)
    put_bars(rule, f, 1 if rule.one_in(2) else 0)
    if rule.one_in(20):
        put_bounds(f.probe, 'io', window_bounds(f.image, 'io'))
    return f


def bridges_below(rule, roots):
    """Some bridges: side by side, or one behind another."""
    count = rule.one_of([1, 1, 2, 2, 3])
    if count == 2 and rule.one_in(2):
        return [bridge_at(rule, (0, 1, 0), 1, 2), bridge_at(rule, (1, 0, 0), 2, 2)]
    places = [rule.one_of(roots) for _ in range(count)]
    return [bridge_at(rule, (bus, n, 0), bus + n, bus + n) for n, bus in enumerate(places, 1)]


def functions_of(rule, roots):
    """The functions of a board."""
    functions = bridges_below(rule, roots)
    buses = roots + [b.secondary for b in functions]
    for n in range(rule.one_of([1, 2, 2, 3, 4])):
        f = function_at((rule.one_of(buses), 8 + n, 0), rule.one_of([0, 1, 2, 3, 3, 3, 0x23]))
        put_bars(rule, f, rule.one_of([1, 2, 3]))
        functions.append(f)
    for f in functions:
        if f.is_bridge and rule.one_in(4) and not is_anyone_behind(functions, f):
            put_number(f.image, BRIDGE_CONTROL, 2, f.bridge_control | 0x40)
        if rule.one_in(8):
            put_to_sleep(f)
    return sorted(functions, key=lambda f: f.slot)


def lines_near(rule, functions):
    """Some lines of listed slots."""
    lines = []
    for _ in range(rule.one_of([1, 2, 3])):
        is_io = not rule.one_in(2)
        first, size = range_near(rule, is_io)
        mark = rule.one_of(['held', 'held', 'command', 'always'])
        lines.append(ToldRange(0, rule.one_of(functions).slot, 'io' if is_io else 'mem', (first, first + size - 1), mark))
    return numbered(lines)


def crowded_board(seed):
    """The functions of a board, and what is asked."""
    rule = Rule(seed + 11000000)
    roots = [0, 0x40] if rule.one_in(5) else [0]
    functions = functions_of(rule, roots)
    lists = {'io': [(None,) + rule.one_of(IO_LISTS)], 'mem': [(None,) + rule.one_of(MEMORY_LISTS)], 'pref': []}
    fixed = [f.slot for f in functions if rule.one_in(16)]
    words = [name for name in NAMES if name not in ('vga', 'vga16')] + [rule.one_of(['vga', 'vga', 'vga16'])]
    told = lines_near(rule, functions) if rule.one_in(3) else []
    return functions, Asked(Request(roots, lists, fixed, rule.one_in(12)), ','.join(sorted(words)), told=told)
