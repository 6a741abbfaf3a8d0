"""Boards with slots, with the writes that settle them and the spares that are denied, worked out by hand.

- `row_faults()`: what disagrees with the slow settler, each with the name of its board; every stop is judged.
"""

from growth_rows import CLOSED, DISK_ON, HIGH, HIGH_ON, MEGABYTE, WIDE, bridge, card, on, over, request, told, wide_card
from judge import verdict
from model import put_number, slot_text
from planner import Fault
from spares import settled_with_spares
from stops import safe_from, stop_fault


def with_slot(f):
    """A bridge whose PCI Express capability says that it has a hot-plug slot."""
    f = f.copy()
    for offset, value in ((0x04, f.command | 0x100000), (0x34, 0x40), (0x40, 0x01420010), (0x54, 0x40)):
        put_number(f.image, offset, 4, value)
    return f


def shut(slot, buses):
    """A bridge that is off, with a memory window that is closed."""
    return over(0xFFF0, None, 0, buses, slot)


# closed by its upper halves alone
HALF_CLOSED = {0x24: (0xFFF1FFF1, 0x10001), 0x28: (0xFFFFFFFF, 5), 0x2C: (0xFFFFFFFF, 3)}

SLOT = with_slot(over(0xE000E000))
RUNS = [SLOT, DISK_ON]
BESIDE = on((0, 2, 0), 0xE0100000, MEGABYTE)
SWITCH = [shut((0, 1, 0), (0, 1, 4)), shut((1, 0, 0), (1, 2, 4)), with_slot(shut((2, 0, 0), (2, 3, 3))),
          with_slot(shut((2, 1, 0), (2, 4, 4)))]

# name, functions, spares, slots, the writes, the denied spares, where it becomes safe, and further words
ROWS = [
    ('a window ends later for a spare', RUNS, {'mem': 0x200000}, None, '00:01.0 20.4 e030e000', '', 0),
    ('closed windows are opened for spares', [with_slot(bridge((0, 1, 0), 0, (0, 1, 1), CLOSED))],
     {'mem': 0x200000, 'pref': 0x200000}, None,
     '00:01.0 20.4 e010e000, 00:01.0 28.4 00000001, 00:01.0 2c.4 00000001, 00:01.0 24.4 00110001', '', 0),
    ('what is behind the window is taken', [SLOT, BESIDE, DISK_ON], {'mem': 0x200000}, None, '', '00:01.0 20', 0),
    ('slots that are named', [over(0xE000E000), DISK_ON], {'mem': 0x200000}, [(0, 1, 0)],
     '00:01.0 20.4 e030e000', '', 0),
    ('a card has room in place, the spare has not',
     [SLOT, on((0, 2, 0), 0xE0200000, MEGABYTE), DISK_ON, card((1, 1, 0))], {'mem': 0x200000}, None,
     '00:01.0 20.4 e010e000, 01:01.0 10.4 e0100000, 01:01.0 04.2 0002', '00:01.0 20', 0),
    ('a new window has its spare', [with_slot(shut((0, 1, 0), (0, 1, 1))), card((1, 0, 0))], {'mem': 0x100000}, None,
     '00:01.0 20.4 e010e000, 01:00.0 10.4 e0000000, 00:01.0 04.2 0002, 01:00.0 04.2 0002', '', 0),
    ('new windows beside each other have theirs',
     [with_slot(shut((0, 1, 0), (0, 1, 1))), with_slot(shut((0, 2, 0), (0, 2, 2))), card((1, 0, 0)), card((2, 0, 0))],
     {'mem': 0x100000}, None,
     '''00:01.0 20.4 e010e000, 00:02.0 20.4 e030e020, 01:00.0 10.4 e0000000, 02:00.0 10.4 e0200000, 00:01.0 04.2 0002,
        00:02.0 04.2 0002, 01:00.0 04.2 0002, 02:00.0 04.2 0002''', '', 0),
    ('slots behind a switch', SWITCH, {'mem': 0x100000}, None,
     '00:01.0 20.4 e010e000, 01:00.0 20.4 e010e000, 02:00.0 20.4 e010e010, 02:01.0 20.4 e000e000', '', 0),
    ('a new window has none where a part would go for it',
     [over(0xE010E000, buses=(0, 1, 2)), on((0, 2, 0), 0xE0200000, MEGABYTE), DISK_ON,
      with_slot(shut((1, 1, 0), (1, 2, 2))), card((2, 0, 0))], {'mem': 0x100000}, None,
     '01:01.0 20.4 e010e010, 02:00.0 10.4 e0100000, 01:01.0 04.2 0002, 02:00.0 04.2 0002', '01:01.0 20', 0),
    ('the spare of a new window is behind its items, for which there is no room',
     [with_slot(shut((0, 1, 0), (0, 1, 1))), card((1, 0, 0))], {'mem': 0x200000}, None,
     '00:01.0 20.4 e000e000, 01:00.0 10.4 e0000000, 00:01.0 04.2 0002, 01:00.0 04.2 0002', '00:01.0 20', 0,
     {'mem': (0xE0000000, 0xE02FFFFF)}),
    ('all is placed anew to where it is, and nothing is switched off for a spare',
     [over(0xE000E000, buses=(0, 1, 2)), DISK_ON, shut((1, 1, 0), (1, 2, 2))], {'mem': 0x100000}, [(1, 1, 0)],
     '00:01.0 20.4 e010e000, 01:01.0 20.4 e010e010', '', 0, {'anew': True}),
    ('a window that is closed by its upper halves alone',
     [bridge((0, 1, 0), 0, (0, 1, 1), HALF_CLOSED)],
     {'pref': 0x100000}, [(0, 1, 0)],
     '00:01.0 24.4 0001fff1, 00:01.0 2c.4 00000001, 00:01.0 28.4 00000001, 00:01.0 24.4 00010001', '', 0),
    ('the bridge is fixed', RUNS, {'mem': 0x100000}, None, '', '00:01.0 20', 0, {'fixed': [(0, 1, 0)]}),
    ('the lower half of a limit does not fall', [HIGH, HIGH_ON], {'pref': 0x100000}, [(0, 1, 0)],
     '00:01.0 2c.4 00000002', '', 0, WIDE),
    ('something has an address up to there', [HIGH, wide_card((0, 2, 0), 0x4000000C, 2, 2), HIGH_ON],
     {'pref': 0x100000}, [(0, 1, 0)], '', '00:01.0 24', 0, WIDE),
    ('memory comes before prefetchable memory', [bridge((0, 1, 0), 0, (0, 1, 1), CLOSED)],
     {'mem': 0x100000, 'pref': 0x100000}, [(0, 1, 0)], '00:01.0 20.4 e000e000', '00:01.0 24', 0,
     {'mem': (0xE0000000, 0xE00FFFFF), 'pref': (0xE0000000, 0xE00FFFFF)}),
    ('the bridge above has no such window',
     [shut((0, 1, 0), (0, 1, 2)), bridge((1, 1, 0), 0, (1, 2, 2), CLOSED)], {'pref': 0x100000}, [(1, 1, 0)],
     '', '01:01.0 24', 0, {'pref': (0xF0000000, 0x1FFFFFFFF)}),
    ('the spare is larger than all memory', [with_slot(shut((0, 1, 0), (0, 1, 1))), card((1, 0, 0))],
     {'mem': (1 << 64) - 1}, None,
     '00:01.0 20.4 e000e000, 01:00.0 10.4 e0000000, 00:01.0 04.2 0002, 01:00.0 04.2 0002', '00:01.0 20', 0),
]


def spare_words(denied):
    """Denied spares joined by commas."""
    return ', '.join('%s %02x' % (slot_text(slot), register) for slot, register in denied)


def row_fault(functions, spare, slots, wanted, wanted_denied, safe, words=None):
    """What disagrees on a board, or none."""
    asked = request(**(words or {}))
    plan, denied = settled_with_spares(functions, asked, spare, slots)
    if verdict(functions, None, [0]) != 'yes\n':
        return 'the start is judged otherwise'
    wanted = ' '.join(wanted.split())
    if told(plan) != wanted or spare_words(denied) != wanted_denied:
        return 'wanted %s, denied %s, found %s, denied %s' % (wanted, wanted_denied, told(plan), spare_words(denied))
    if isinstance(plan, Fault):
        return None
    if safe_from(functions, [0], plan) != safe:
        return 'it is safe from %d on' % safe_from(functions, [0], plan)
    return stop_fault(functions, [0], plan, lambda state, done: None)


def row_faults():
    """What disagrees on all of them, each with the name of its board."""
    found = [(row[0], row_fault(*row[1:])) for row in ROWS]
    return ['%s: %s' % (name, fault) for name, fault in found if fault]
