"""Boards on which windows grow, with the writes that settle them, worked out by hand.

- `row_faults()`: what disagrees with the slow settler, each with the name of its board; every stop is judged.
"""

from growing import settled_growing
from judge import verdict
from model import COMMAND, HEADER, Function, put_number, write_text
from planner import Fault
from settler import Request
from stops import safe_from, stop_fault

# a read back and what is shown
DISK = 0xFFFFF000, 0xE0000000
MEGABYTE = 0xFFF00000
PORTS = 0xFFFFFF01
# a prefetchable window with upper halves, closed
CLOSED = {0x24: (0xFFF1FFF1, 0x0001FFF1), 0x28: (0xFFFFFFFF, 0), 0x2C: (0xFFFFFFFF, 0)}


def function(slot, command, registers):
    """A function whose registers read back a mask and show a number each."""
    f = Function(slot)
    put_number(f.image, 0x00, 4, 0x12348086)
    put_number(f.image, COMMAND, 2, command)
    for offset, (mask, value) in registers.items():
        put_number(f.image, offset, 4, value)
        put_number(f.probe, offset, 4, mask)
    return f


def bridge(slot, command, buses, registers):
    """A bridge with its three bus numbers: its memory window is closed where nothing else is said."""
    f = function(slot, command, {0x20: (0xFFF0FFF0, 0x0000FFF0), **registers})
    f.image[HEADER] = 1
    f.image[0x18:0x1B] = bytes(buses)
    put_number(f.image, 0x09, 3, 0x060400)
    return f


def over(window, more=None, command=2, buses=(0, 1, 1), slot=(0, 1, 0)):
    """A bridge whose memory window shows a number."""
    return bridge(slot, command, buses, {**{0x20: (0xFFF0FFF0, window)}, **(more or {})})


def on(slot, value, mask=0xFFFFF000):
    """A device with a memory BAR that is on."""
    return function(slot, 2, {0x10: (mask, value)})


def card(slot, mask=MEGABYTE):
    """A card that was plugged in, with a memory BAR."""
    return function(slot, 0, {0x10: (mask, 0)})


def wide_card(slot, value=0xC, upper=0, command=0):
    """A device with a prefetchable BAR of 1 MB and 64 bits."""
    return function(slot, command, {0x10: (0xFFF0000C, value), 0x14: (0xFFFFFFFF, upper)})


def ports(slot, count, command=0, value=1):
    """A device with some BARs of 256 ports each."""
    return function(slot, command, {0x10 + 4 * n: (PORTS, value) for n in range(count)})


def prefetching(command, lower, upper, more=None):
    """A bridge to bus 01 whose prefetchable window shows its lower halves, and one upper half twice."""
    window = {0x24: (0xFFF1FFF1, lower), 0x28: (0xFFFFFFFF, upper), 0x2C: (0xFFFFFFFF, upper)}
    return bridge((0, 1, 0), command, (0, 1, 1), {**window, **(more or {})})


def request(**words):
    """What is asked where nothing else is said."""
    lists = {'io': [(None, 0x1000, 0xFFFF)], 'mem': [(None, 0xE0000000, 0xE0FFFFFF)],
             'pref': [(None, 0x100000000, 0x1FFFFFFFF)]}
    lists.update({kind: [(None,) + words[kind]] for kind in lists if kind in words})
    return Request([0], lists, words.get('fixed', []), words.get('anew', False))


DISK_ON = on((1, 0, 0), 0xE0000000)
ONE = [over(0xE000E000), DISK_ON, card((1, 1, 0))]
THREE = [over(0xE000E000), on((0, 2, 0), 0xE0100000, MEGABYTE), DISK_ON, card((1, 1, 0))]
FIVE = [over(0xE000E000, buses=(0, 1, 2)), over(0xE000E000, buses=(1, 2, 2), slot=(1, 0, 0)),
        on((2, 0, 0), 0xE0000000), card((2, 1, 0))]
HIGH = prefetching(2, 0xFFF1FFF1, 1)
HIGH_ON = wide_card((1, 0, 0), 0xFFF0000C, 1, 2)
WIDE = {'pref': (0x100000000, 0x3FFFFFFFF)}

MOVED = '''01:00.0 04.2 0000, 00:01.0 20.4 0000fff0, 00:01.0 20.4 e030e020, 01:00.0 10.4 e0300000,
           01:01.0 10.4 e0200000, 01:00.0 04.2 0002, 01:01.0 04.2 0002'''
THREE_OF_PORTS = [ports((1, device, 0), 6) for device in (1, 2, 3)]


def ports_from(value):
    """The writes that place the BARs of three cards one after another and switch them on."""
    places = ['01:%02x.0 %02x.4 %08x' % (1 + n // 6, 0x10 + 4 * (n % 6), value + 0x100 * n) for n in range(18)]
    return ', '.join(places + ['01:%02x.0 04.2 0001' % device for device in (1, 2, 3)])


# name, functions, further words, what `check` says before, the writes or the fault, and where it becomes safe
ROWS = [
    ('grows at its end', ONE, {}, 'yes',
     '00:01.0 20.4 e010e000, 01:01.0 10.4 e0100000, 01:01.0 04.2 0002', 0),
    ('grows by more than what is behind it', ONE[:2] + [card((1, 1, 0), 0xFFE00000)], {}, 'yes',
     '00:01.0 20.4 e030e000, 01:01.0 10.4 e0200000, 01:01.0 04.2 0002', 0),
    ('the next megabyte is taken', THREE, {}, 'yes', MOVED, 0),
    ('grows at its beginning', THREE, {'mem': (0xDFF00000, 0xE0FFFFFF)}, 'yes',
     '00:01.0 20.4 e000dff0, 01:01.0 10.4 dff00000, 01:01.0 04.2 0002', 0),
    ('two levels', FIVE, {}, 'yes',
     '00:01.0 20.4 e010e000, 01:00.0 20.4 e010e000, 02:01.0 10.4 e0100000, 02:01.0 04.2 0002', 0),
    ('the outer window can not grow', FIVE[:1] + [on((0, 2, 0), 0xE0100000, MEGABYTE)] + FIVE[1:], {}, 'yes',
     '''02:00.0 04.2 0000, 01:00.0 20.4 0000fff0, 00:01.0 20.4 0000fff0, 00:01.0 20.4 e030e020, 01:00.0 20.4 e030e020,
        02:00.0 10.4 e0300000, 02:01.0 10.4 e0200000, 02:00.0 04.2 0002, 02:01.0 04.2 0002''', 0),
    ('the outer window has room', [over(0xE010E000, buses=(0, 1, 2))] + FIVE[1:], {}, 'yes',
     '01:00.0 20.4 e010e000, 02:01.0 10.4 e0100000, 02:01.0 04.2 0002', 0),
    ('a closed window is opened', [over(0xE000E000, CLOSED), DISK_ON, wide_card((1, 1, 0))], {}, 'yes',
     '''00:01.0 28.4 00000001, 00:01.0 2c.4 00000001, 00:01.0 24.4 00010001, 01:01.0 14.4 00000001,
        01:01.0 04.2 0002''', 0),
    ('an I/O window is opened', [over(0xE000E000, {0x1C: (0xF0F0, 0x00F0)}), DISK_ON, ports((1, 1, 0), 1)], {}, 'yes',
     '00:01.0 1c.2 1010, 01:01.0 10.4 00001001, 00:01.0 04.2 0003, 01:01.0 04.2 0001', 0),
    ('an I/O window grows', [bridge((0, 1, 0), 1, (0, 1, 1), {0x1C: (0xF0F0, 0x1010)}), ports((1, 0, 0), 1, 1, 0x1001)]
     + THREE_OF_PORTS, {}, 'yes', '00:01.0 1c.2 2010, ' + ports_from(0x1101), 0),
    ('the lower half of a limit does not fall', [HIGH, HIGH_ON, wide_card((1, 1, 0))], WIDE, 'yes',
     '00:01.0 2c.4 00000002, 01:01.0 14.4 00000002, 01:01.0 04.2 0002', 0),
    ('a reach ends at an upper half', [HIGH, wide_card((0, 2, 0), 0x4000000C, 2, 2), HIGH_ON, wide_card((1, 1, 0))],
     WIDE, 'yes', '00:01.0 24.4 fff1ffe1, 01:01.0 10.4 ffe0000c, 01:01.0 14.4 00000001, 01:01.0 04.2 0002', 0),
    ('two that grow toward each other',
     [over(0xE000E000), over(0xE020E020, buses=(0, 2, 2), slot=(0, 2, 0)), on((0, 3, 0), 0xE0300000, MEGABYTE),
      on((1, 0, 0), 0xE0000000, MEGABYTE), card((1, 1, 0)), on((2, 0, 0), 0xE0200000, MEGABYTE), card((2, 1, 0))], {},
     'yes',
     '''02:00.0 04.2 0000, 00:02.0 20.4 0000fff0, 00:01.0 20.4 e010e000, 00:02.0 20.4 e050e040, 01:01.0 10.4 e0100000,
        02:00.0 10.4 e0400000, 02:01.0 10.4 e0500000, 01:01.0 04.2 0002, 02:00.0 04.2 0002, 02:01.0 04.2 0002''', 0),
    ('what is behind a window that moves, and not in it, stays on',
     [prefetching(2, 0x00010001, 1, {0x20: (0xFFF0FFF0, 0xE000E000)})] + THREE[1:] + [wide_card((1, 2, 0), 0xC, 1, 2)],
     {}, 'yes', MOVED, 0),
    ('one space of a function',
     [over(0xE000E000, {0x1C: (0xF0F0, 0x1010)}, 3), on((0, 2, 0), 0xE0100000, MEGABYTE),
      function((1, 0, 0), 3, {0x10: DISK, 0x14: (PORTS, 0x1001)}), card((1, 1, 0))], {}, 'yes',
     '''01:00.0 04.2 0001, 00:01.0 20.4 0000fff0, 00:01.0 20.4 e030e020, 01:00.0 10.4 e0300000, 01:01.0 10.4 e0200000,
        01:00.0 04.2 0003, 01:01.0 04.2 0002''', 0),
    ('what is fixed stays in a window that grows', ONE, {'fixed': [(1, 0, 0)]}, 'yes',
     '00:01.0 20.4 e010e000, 01:01.0 10.4 e0100000, 01:01.0 04.2 0002', 0),
    ('the window of a fixed bridge does not grow', ONE, {'fixed': [(0, 1, 0)]}, 'yes', 'no 74 Fixed 00:01.0 20', 0),
    ('what grows leaves no room in the window above, which holds as it stands',
     [over(0xE030E000, buses=(0, 1, 2)), on((0, 2, 0), 0xE0400000, 0xFFC00000),
      over(0xE010E010, buses=(1, 2, 2), slot=(1, 0, 0)), card((1, 1, 0), 0xFFE00000),
      on((2, 0, 0), 0xE0100000, MEGABYTE), card((2, 1, 0))], {'mem': (0xE0000000, 0xE07FFFFF)}, 'yes',
     '''02:00.0 04.2 0000, 01:00.0 20.4 0000fff0, 01:00.0 20.4 e030e020, 01:01.0 10.4 e0000000, 02:00.0 10.4 e0200000,
        02:01.0 10.4 e0300000, 01:01.0 04.2 0002, 02:00.0 04.2 0002, 02:01.0 04.2 0002''', 0),
    ('the lower half of the limit of an I/O window does not fall',
     [bridge((0, 1, 0), 1, (0, 1, 1), {0x1C: (0xF1F1, 0xF1F1), 0x30: (0xFFFFFFFF, 0)}), ports((1, 0, 0), 1, 1, 0xF001)]
     + THREE_OF_PORTS, {'io': (0xF000, 0x2FFFF)}, 'yes', '00:01.0 30.4 00010000, ' + ports_from(0xF101), 0),
    ('a window a megabyte too short',
     [over(0xE000E000), function((1, 0, 0), 2, {0x10: (MEGABYTE, 0xE0000000), 0x14: (MEGABYTE, 0xE0100000)})], {},
     'no 60 Unreached 01:00.0 14 mem 00000000e0100000 bridge 00:01.0',
     '01:00.0 04.2 0000, 00:01.0 20.4 e010e000, 01:00.0 04.2 0002', 1),
    ('growth leaves no room for something else, so all is as without',
     [over(0xE030E030), card((0, 2, 0), 0xFFC00000), on((1, 0, 0), 0xE0300000, MEGABYTE), card((1, 1, 0), 0xFFE00000)],
     {'mem': (0xE0000000, 0xE07FFFFF)}, 'yes',
     '''01:00.0 04.2 0000, 00:01.0 20.4 0000fff0, 00:01.0 20.4 e060e040, 00:02.0 10.4 e0000000, 01:00.0 10.4 e0600000,
        01:01.0 10.4 e0400000, 00:02.0 04.2 0002, 01:00.0 04.2 0002, 01:01.0 04.2 0002''', 0),
    ('all is placed anew', THREE, {'mem': (0xE0000000, 0xE02FFFFF), 'anew': True}, 'yes',
     '''01:00.0 04.2 0000, 00:02.0 04.2 0000, 00:01.0 20.4 0000fff0, 00:01.0 20.4 e010e000, 00:02.0 10.4 e0200000,
        01:00.0 10.4 e0100000, 01:01.0 10.4 e0000000, 00:02.0 04.2 0002, 01:00.0 04.2 0002, 01:01.0 04.2 0002''', 0),
    ('no room at all', THREE, {'mem': (0xE0000000, 0xE02FFFFF)}, 'yes', 'no 72 NoRoom mem 00:01.0 20 200000 100000', 0),
    ('an inner window moves within a fixed one',
     [over(0xE050E000, buses=(0, 1, 2)), over(0xE070E070, buses=(0, 3, 3), slot=(0, 2, 0)),
      over(0xE050E050, buses=(1, 2, 2), slot=(1, 0, 0)), on((1, 1, 0), 0xE0400000, MEGABYTE), on((2, 0, 0), 0xE0500000),
      card((2, 1, 0)), on((3, 0, 0), 0xE0700000), card((3, 1, 0))], {'fixed': [(0, 1, 0)]}, 'yes',
     '''02:00.0 04.2 0000, 01:00.0 20.4 0000fff0, 00:02.0 20.4 e080e070, 01:00.0 20.4 e010e000, 02:00.0 10.4 e0100000,
        02:01.0 10.4 e0000000, 03:01.0 10.4 e0800000, 02:00.0 04.2 0002, 02:01.0 04.2 0002, 03:01.0 04.2 0002''', 0),
    ('a window that is open at 0 is closed',
     [prefetching(2, 0x00010001, 0), on((0, 2, 0), 0)], {},
     'no 61 Clash bus 00 mem 0000000000000000 00:01.0 24 00:02.0 10',
     '00:02.0 04.2 0000, 00:01.0 24.4 0001fff1, 00:02.0 10.4 e0000000, 00:02.0 04.2 0002', 2),
]


def told(plan):
    """A plan's writes joined by commas, or its fault."""
    if isinstance(plan, Fault):
        return 'no ' + plan.text
    return ', '.join(write_text(*made) for made in plan.writes)


def row_fault(functions, words, before, wanted, safe):
    """What disagrees on a board, or none."""
    plan = settled_growing(functions, request(**words))
    if verdict(functions, None, [0]) != before + '\n':
        return 'the start is judged otherwise'
    if told(plan) != ' '.join(wanted.split()):
        return 'wanted %s, found %s' % (' '.join(wanted.split()), told(plan))
    if isinstance(plan, Fault):
        return None
    if safe_from(functions, [0], plan) != safe:
        return 'it is safe from %d on' % safe_from(functions, [0], plan)
    return stop_fault(functions, [0], plan, lambda state, done: None)


def row_faults():
    """What disagrees on all of them, each with the name of its board."""
    found = [(row[0], row_fault(*row[1:])) for row in ROWS]
    return ['%s: %s' % (name, fault) for name, fault in found if fault]
