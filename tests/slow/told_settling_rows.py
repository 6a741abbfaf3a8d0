"""Boards beside which ranges are told, with the writes that settle them, worked out by hand.

- `row_faults()`: what disagrees with the slow settler, each with the name of its board. Every stop is judged with what
  is told. So is what `settle` makes of a board if nothing is told to it.
"""

from collections import namedtuple

from also import told_ranges
from also_rows import board_of
from growth_rows import told as written
from judge import faults
from planner import Fault
from regions import Given
from settler import Request
from spare_rows import spare_words
from spares import PLAIN, Wanted, settle_sparing
from stops import safe_from, stop_fault
from told_settling import early_fault, telling

# what is told, further words, the writes or the fault, from where it is safe, what is written if nothing is told, what
# the judge says of that with what is told, and which spares are denied
Row = namedtuple('Row', 'name board told words wanted safe without judged denied', defaults=('',))

# a bridge whose window has a megabyte, or two; what is behind it; and a card that was plugged in
OVER = '00:01.0 (1) cmd 0002, 0-1-1, 20 = e000e000/fff0fff0'
OVER_TWO = '00:01.0 (1) cmd 0002, 0-1-1, 20 = e010e000/fff0fff0'
OFF = '00:01.0 (1) cmd 0000, 0-1-1, 20 = e000e000/fff0fff0'
NET = '01:00.0 (0) cmd 0002, 10 = e0000000/ffffc000'
BARE = '01:00.0 (0) cmd 0002'
CARD = '01:01.0 (0) cmd 0000, 10 = 00000000/ffffc000'
LARGE_CARD = '01:01.0 (0) cmd 0000, 10 = 00000000/fff00000'
HIGH = '''00:01.0 (1) cmd 0002, 0-1-1, 24 = 00110001/fff1fff1, 28 = 00000001/ffffffff, 2c = 00000001/ffffffff;
          01:00.0 (0) cmd 0002, 10 = 0000000c/fff0000c, 14 = 00000001/ffffffff;
          01:01.0 (0) cmd 0000, 10 = 0000000c/fff0000c, 14 = 00000000/ffffffff'''
PREFETCHING = '''00:01.0 (1) cmd 0002, 0-1-1, 24 = e000e000/fff0fff0;
                 01:00.0 (0) cmd 0002, 10 = e0000008/ffffc008'''
ON_ROOT = '00:02.0 (0) cmd 0002, 10 = e0000000/fff00000'
PLUGGED_IN = '00:03.0 (0) cmd 0000, 10 = 00000000/fff00000'
CHANNEL = '00:05.0 (0) class 010180, cmd 0000'
TWO_CHANNELS = '00:04.0 (0) class 010180, cmd %s; 00:05.0 (0) class 010180, cmd 0001'


def joined(*functions):
    """A board of some functions."""
    return '; '.join(functions)


CROWDED = joined(OVER_TWO, NET, CARD)
BOUNDED = joined('00:02.0 (0) cmd 0002, 10 = e0200000/fff00000', CROWDED)
PIECES = joined(OVER_TWO, NET, '01:02.0 (0) cmd 0002, 10 = e0080000/ffffc000',
                '01:01.0 (0) cmd 0000, 10 = 00000000/fff80000')
ALONE = joined(OVER, NET)
OWN_BAR = joined('00:01.0 (1) cmd 0002, 0-1-1, 10 = e0100000/fffff000, 20 = e000e000/fff0fff0',
                 '00:02.0 (0) cmd 0002, 10 = e0100000/fff00000', BARE)

FUNCTIONS = '01:00.0 mem 00000000e0004000-00000000e000bfff always vf0'
UP_TO_TWO = '01:00.0 mem 00000000e0004000-00000000e01fffff always vf0'
SECOND = '01:00.0 mem 00000000e0100000-00000000e01fffff always vf0'
ALWAYS = '01:00.0 mem 00000000e0000000-00000000e0003fff always vf0'
COMMAND = '01:00.0 mem 00000000e0000000-00000000e0003fff command ea'
IDE = '00:05.0 io 000001f0-000001f7 command ide'
BOTH = '00:04.0 io 000001f0-000001f7 command ide\n' + IDE

LOW_TOO = [(0xDFF00000, 0xE0FFFFFF)]
PORTS = {'io': [(0x1F0, 0x1FF), (0x1000, 0xFFFF)]}
SPARE = {'spare': {'mem': 0x100000}, 'slots': [(0, 1, 0)]}

ON_CARD = '01:01.0 10.4 e0004000, 01:01.0 04.2 0002'
CLASH = '61 Clash bus 01 mem 00000000e0004000 01:00.0 +1 01:01.0 10'
MISSED = '60 Unreached 01:00.0 +1 mem 00000000e0000000 bridge 00:01.0'
MISSED_SECOND = '60 Unreached 01:00.0 +1 mem 00000000e0100000 bridge 00:01.0'

ROWS = [
    Row('virtual functions keep a card off', CROWDED, FUNCTIONS, {},
        '01:01.0 10.4 e000c000, 01:01.0 04.2 0002', 0, ON_CARD, CLASH),
    Row('the window is full with them and grows', CROWDED, UP_TO_TWO, {},
        '00:01.0 20.4 e020e000, 01:01.0 10.4 e0200000, 01:01.0 04.2 0002', 0, ON_CARD, CLASH),
    Row('the window is full and can not grow', BOUNDED, UP_TO_TWO, {}, 'no 75 Told 01:00.0 +1', None, ON_CARD, CLASH),
    Row('it grows the other way', BOUNDED, UP_TO_TWO, {'mem': LOW_TOO},
        '00:01.0 20.4 e010dff0, 01:01.0 10.4 dfffc000, 01:01.0 04.2 0002', 0, ON_CARD, CLASH),
    Row('what is free in the window is in pieces', PIECES, SECOND, {},
        '00:01.0 20.4 e020e000, 01:01.0 10.4 e0200000, 01:01.0 04.2 0002', 0,
        '01:01.0 10.4 e0100000, 01:01.0 04.2 0002',
        '61 Clash bus 01 mem 00000000e0100000 01:00.0 +1 01:01.0 10'),
    Row('all is placed anew, but for what is told and its window', PIECES, SECOND, {'anew': True},
        '''01:02.0 04.2 0000, 01:00.0 04.2 0000, 01:00.0 10.4 e0080000, 01:01.0 10.4 e0000000, 01:02.0 10.4 e0084000,
           01:00.0 04.2 0002, 01:01.0 04.2 0002, 01:02.0 04.2 0002''', 0,
        '''01:02.0 04.2 0000, 01:00.0 04.2 0000, 00:01.0 20.4 0000fff0, 00:01.0 20.4 e000e000, 01:00.0 10.4 e0080000,
           01:01.0 10.4 e0000000, 01:02.0 10.4 e0084000, 01:00.0 04.2 0002, 01:01.0 04.2 0002, 01:02.0 04.2 0002''',
        MISSED_SECOND),
    Row('a range that is not reached: no window grows for it', ALONE,
        '01:00.0 mem 00000000e00fc000-00000000e0103fff always vf0', {}, 'no 75 Told 01:00.0 +1', None, '',
        MISSED_SECOND),
    Row('a window outside of the lists',
        '00:01.0 (1) cmd 0002, 0-1-1, 20 = d010d000/fff0fff0; 01:00.0 (0) cmd 0002, 10 = d0000000/ffffc000',
        '01:00.0 mem 00000000d0004000-00000000d000bfff always vf0', {}, 'no 75 Told 01:00.0 +1', None,
        '''01:00.0 04.2 0000, 00:01.0 20.4 0000fff0, 00:01.0 20.4 e000e000, 01:00.0 10.4 e0000000,
           01:00.0 04.2 0002''', '60 Unreached 01:00.0 +1 mem 00000000d0004000 bridge 00:01.0'),
    Row('prefetchable memory above 4 GB', HIGH, '01:00.0 pref 0000000100100000-000000010017ffff always vf0', {},
        '00:01.0 24.4 00210001, 01:01.0 10.4 0020000c, 01:01.0 14.4 00000001, 01:01.0 04.2 0002', 0,
        '01:01.0 10.4 0010000c, 01:01.0 14.4 00000001, 01:01.0 04.2 0002',
        '61 Clash bus 01 mem 0000000100100000 01:00.0 +1 01:01.0 10'),
    Row('somebody is on the root bus', joined(ON_ROOT, PLUGGED_IN),
        '00:1f.1 mem 00000000e0000000-00000000e0000fff held sbreg', {},
        '''00:02.0 04.2 0000, 00:02.0 10.4 e0100000, 00:03.0 10.4 e0200000, 00:02.0 04.2 0002,
           00:03.0 04.2 0002''', 1,
        '00:03.0 10.4 e0100000, 00:03.0 04.2 0002',
        '61 Clash bus 00 mem 00000000e0000000 00:02.0 10 00:1f.1 +1'),
    Row('held at the own slot: it stands, and nothing else is placed there', joined(ON_ROOT, PLUGGED_IN),
        '00:02.0 mem 00000000e0000000-00000000e01fffff held', {}, '00:03.0 10.4 e0200000, 00:03.0 04.2 0002', 0,
        '00:03.0 10.4 e0100000, 00:03.0 04.2 0002',
        '61 Clash bus 00 mem 00000000e0100000 00:02.0 +1 00:03.0 10'),
    Row('always at the own slot', ON_ROOT, '00:02.0 mem 00000000e0000000-00000000e0000fff always', {},
        '00:02.0 04.2 0000, 00:02.0 10.4 e0100000, 00:02.0 04.2 0002', 1, '',
        '61 Clash bus 00 mem 00000000e0000000 00:02.0 10 00:02.0 +1'),
    Row('a new window is not placed over somebody behind it',
        '00:01.0 (1) cmd 0000, 0-1-1; 01:00.0 (0) cmd 0000, 10 = 00000000/fff00000',
        '01:1f.0 mem 00000000e0000000-00000000e0000fff held', {},
        '00:01.0 20.4 e010e010, 01:00.0 10.4 e0100000, 00:01.0 04.2 0002, 01:00.0 04.2 0002', 0,
        '00:01.0 20.4 e000e000, 01:00.0 10.4 e0000000, 00:01.0 04.2 0002, 01:00.0 04.2 0002',
        '61 Clash bus 01 mem 00000000e0000000 01:00.0 10 01:1f.0 +1'),
    Row('a window that can not grow onto somebody, and holds nothing told, moves', joined(ALONE, LARGE_CARD),
        '00:1f.0 mem 00000000e0180000-00000000e0180fff held', {},
        '''01:00.0 04.2 0000, 00:01.0 20.4 0000fff0, 00:01.0 20.4 e030e020, 01:00.0 10.4 e0300000,
           01:01.0 10.4 e0200000, 01:00.0 04.2 0002, 01:01.0 04.2 0002''', 0,
        '00:01.0 20.4 e010e000, 01:01.0 10.4 e0100000, 01:01.0 04.2 0002',
        '61 Clash bus 00 mem 00000000e0180000 00:01.0 20 00:1f.0 +1'),
    Row('ports of an IDE channel whose function is off',
        joined('00:02.0 (0) cmd 0001, 10 = 000001f1/fffffff9', CHANNEL), IDE, PORTS, '', 0, '', 'yes'),
    Row('and a BAR that is off too', joined('00:02.0 (0) cmd 0000, 10 = 000001f1/fffffff9', CHANNEL), IDE, PORTS,
        '00:02.0 10.4 000001f9, 00:02.0 04.2 0001', 0, '', 'yes'),
    Row('two channels that answer the same ports', TWO_CHANNELS % '0001', BOTH, {}, 'no 75 Told 00:05.0 +2', None, '',
        '61 Clash bus 00 io 000001f0 00:04.0 +1 00:05.0 +2'),
    Row('one of them is off', TWO_CHANNELS % '0000', BOTH, {}, '', 0, '', 'yes'),
    Row('and settling would switch it on', TWO_CHANNELS % '0000, 20 = 00000001/fffffff1', BOTH, {},
        'no 75 Told 00:04.0 +1', None, '00:04.0 20.4 00001001, 00:04.0 04.2 0001',
        '61 Clash bus 00 io 000001f0 00:04.0 +1 00:05.0 +2'),
    Row('the bridge above a command range is off', joined(OFF, BARE), COMMAND, {},
        '01:00.0 04.2 0000, 00:01.0 04.2 0002, 01:00.0 04.2 0002', 1, '', MISSED),
    Row('the bridge above an always range is off', joined(OFF, BARE), ALWAYS, {},
        'no 75 Told 01:00.0 +1', None, '', MISSED),
    Row('the BAR of the bridge above a command range moves', OWN_BAR, COMMAND, {},
        '''01:00.0 04.2 0000, 00:01.0 04.2 0000, 00:01.0 10.4 e0200000, 00:01.0 04.2 0002, 01:00.0 04.2 0002''', 2,
        '''01:00.0 04.2 0000, 00:01.0 04.2 0000, 00:01.0 10.4 e0200000, 00:01.0 04.2 0002, 01:00.0 04.2 0002''', 'yes'),
    Row('above an always range the other one moves', OWN_BAR, ALWAYS, {},
        '00:02.0 04.2 0000, 00:02.0 10.4 e0200000, 00:02.0 04.2 0002', 1,
        '''01:00.0 04.2 0000, 00:01.0 04.2 0000, 00:01.0 10.4 e0200000, 00:01.0 04.2 0002, 01:00.0 04.2 0002''', 'yes'),
    Row('the BAR of the bridge above an always range is outside of the lists',
        joined('00:01.0 (1) cmd 0002, 0-1-1, 10 = d0000000/fffff000, 20 = e000e000/fff0fff0', BARE), ALWAYS, {},
        'no 75 Told 01:00.0 +1', None,
        '''01:00.0 04.2 0000, 00:01.0 04.2 0000, 00:01.0 10.4 e0100000, 00:01.0 04.2 0002, 01:00.0 04.2 0002''', 'yes'),
    Row('of two windows at one place that which leads to what is told stands',
        joined(ALONE, '00:02.0 (1) cmd 0002, 0-2-2, 20 = e010e000/fff0fff0',
               '02:00.0 (0) cmd 0002, 10 = e0100000/fff00000'), FUNCTIONS, {},
        '02:00.0 04.2 0000, 00:02.0 20.4 0000fff0, 00:02.0 20.4 e010e010, 02:00.0 04.2 0002', 2,
        '''01:00.0 04.2 0000, 00:01.0 20.4 0000fff0, 00:01.0 20.4 e020e020, 01:00.0 10.4 e0200000,
           01:00.0 04.2 0002''', '60 Unreached 01:00.0 +1 mem 00000000e0004000 bridge 00:01.0'),
    Row('a range that is not reached, and what is fixed outside of the window',
        joined(ALONE, '01:02.0 (0) cmd 0002, 10 = e0200000/fffff000'),
        '01:00.0 mem 00000000e0100000-00000000e0103fff always vf0', {'fixed': [(1, 2, 0)]},
        'no 75 Told 01:00.0 +1', None, 'no 74 Fixed 01:02.0 10', None),
    Row('a spare beside virtual functions', ALONE, FUNCTIONS, SPARE, '00:01.0 20.4 e010e000', 0,
        '00:01.0 20.4 e010e000', 'yes'),
    Row('no spare where they fill the window and somebody is above', ALONE,
        '00:1f.0 mem 00000000e0100000-00000000e0100fff held\n01:00.0 mem 00000000e0004000-00000000e00fffff always vf0',
        SPARE, '', 0, '00:01.0 20.4 e010e000', '61 Clash bus 00 mem 00000000e0100000 00:01.0 20 00:1f.0 +1',
        '00:01.0 20'),
    Row('what a prefetchable window passes too is in the memory window', joined(ALONE, CARD),
        '01:00.0 pref 00000000e0004000-00000000e000bfff always vf0', {}, '01:01.0 10.4 e000c000, 01:01.0 04.2 0002', 0,
        ON_CARD, CLASH),
    Row('memory in a prefetchable window', PREFETCHING, FUNCTIONS, {'pref': [(0xE0000000, 0xE0FFFFFF)]},
        'no 75 Told 01:00.0 +1', None, '', '60 Unreached 01:00.0 +1 mem 00000000e0004000 bridge 00:01.0'),
    Row('a slot that is not listed', ALONE, '01:00.1 mem 00000000e0004000-00000000e0007fff always vf0', {},
        'no 34 NotListed 01:00.1', None, '', '34 NotListed 01:00.1'),
    Row('a bus that is not there', ALONE, '05:00.0 mem 00000000e0004000-00000000e0007fff held', {},
        'no 58 Orphan 05:00.0', None, '', '58 Orphan 05:00.0'),
    Row('ports above all lists on a root', joined(ON_ROOT, '00:1f.0 (0) cmd 0000'),
        '00:1f.0 io 00010000-0001ffff always', {}, '', 0, '', 'yes'),
    Row('ports behind a bridge, and no list of them',
        '00:01.0 (1) cmd 0001, 0-1-1, 1c = 1010/f0f0; 01:00.0 (0) cmd 0001',
        '01:00.0 io 00001000-0000100f command', {'io': []}, 'no 75 Told 01:00.0 +1', None,
        '00:01.0 1c.2 00f0', '60 Unreached 01:00.0 +1 io 00001000 bridge 00:01.0'),
    Row('somebody has all memory', joined(ON_ROOT, PLUGGED_IN),
        '00:1f.0 mem 0000000000000000-ffffffffffffffff held', {},
        'no 72 NoRoom mem 00:02.0 10 100000 100000', None,
        '00:03.0 10.4 e0100000, 00:03.0 04.2 0002',
        '61 Clash bus 00 mem 00000000e0000000 00:02.0 10 00:1f.0 +1'),
    Row('somebody has all memory, and nobody else is there', '00:02.0 (0) cmd 0002',
        '00:1f.0 mem 0000000000000000-ffffffffffffffff held', {}, '', 0, '', 'yes'),
    Row('held at the slot of a bridge in its window', ALONE, '00:01.0 mem 00000000e0080000-00000000e0080fff held', {},
        '', 0, '', 'yes'),
    Row('always at the slot of a bridge in its window', ALONE,
        '00:01.0 mem 00000000e0080000-00000000e0080fff always', {},
        '01:00.0 04.2 0000, 00:01.0 20.4 0000fff0, 00:01.0 20.4 e010e010, 01:00.0 10.4 e0100000, 01:00.0 04.2 0002', 2,
        '', '61 Clash bus 00 mem 00000000e0080000 00:01.0 20 00:01.0 +1'),
    Row('and another told range is in the window', ALONE,
        '00:01.0 mem 00000000e0080000-00000000e0080fff always\n' + FUNCTIONS, {}, 'no 75 Told 01:00.0 +2', None, '',
        '61 Clash bus 00 mem 00000000e0080000 00:01.0 20 00:01.0 +1'),
    Row('the last address of a line keeps a part off', ON_ROOT, '00:1f.1 mem 00000000dff00000-00000000e0000000 held', {},
        '00:02.0 04.2 0000, 00:02.0 10.4 e0100000, 00:02.0 04.2 0002', 1, '',
        '61 Clash bus 00 mem 00000000e0000000 00:02.0 10 00:1f.1 +1'),
    Row('what is placed is off the last address of a line', CROWDED,
        '01:00.0 mem 00000000e0004000-00000000e0008000 always', {}, '01:01.0 10.4 e000c000, 01:01.0 04.2 0002', 0,
        ON_CARD, CLASH),
    Row('somebody is on another root bus', ON_ROOT, '40:1f.0 mem 00000000e0000000-00000000e0000fff held',
        {'roots': [0, 0x40]}, '00:02.0 04.2 0000, 00:02.0 10.4 e0100000, 00:02.0 04.2 0002', 1, '',
        '62 Split mem 00000000e0000000 00:02.0 10 40:1f.0 +1'),
    Row('and nothing is placed there', PLUGGED_IN, '40:1f.0 mem 00000000e0000000-00000000e0000fff held',
        {'roots': [0, 0x40]}, '00:03.0 10.4 e0100000, 00:03.0 04.2 0002', 0,
        '00:03.0 10.4 e0000000, 00:03.0 04.2 0002', '62 Split mem 00000000e0000000 00:03.0 10 40:1f.0 +1'),
    Row('a new window is not placed over somebody two buses behind it',
        '00:01.0 (1) cmd 0000, 0-1-2; 01:00.0 (1) cmd 0000, 1-2-2; 02:00.0 (0) cmd 0000, 10 = 00000000/fff00000',
        '02:1f.0 mem 00000000e0000000-00000000e0000fff held', {},
        '''00:01.0 20.4 e010e010, 01:00.0 20.4 e010e010, 02:00.0 10.4 e0100000, 00:01.0 04.2 0002, 01:00.0 04.2 0002,
           02:00.0 04.2 0002''', 0,
        '''00:01.0 20.4 e000e000, 01:00.0 20.4 e000e000, 02:00.0 10.4 e0000000, 00:01.0 04.2 0002, 01:00.0 04.2 0002,
           02:00.0 04.2 0002''', '61 Clash bus 02 mem 00000000e0000000 02:00.0 10 02:1f.0 +1'),
    Row('a window is not opened over somebody behind it', '00:01.0 (1) cmd 0000, 0-1-1',
        '01:1f.0 mem 00000000e0000000-00000000e0000fff held', SPARE, '00:01.0 20.4 e010e010', 0,
        '00:01.0 20.4 e000e000', 'yes'),
    Row('a window is not opened over somebody beside it', '00:01.0 (1) cmd 0000, 0-1-1',
        '00:1f.0 mem 00000000e0000000-00000000e0000fff held', SPARE, '00:01.0 20.4 e010e010', 0,
        '00:01.0 20.4 e000e000', 'yes'),
    Row('anew the window stands that leads to what is off, too',
        joined(OVER, '01:00.0 (0) cmd 0000, 10 = e0000000/ffffc000'),
        '01:00.0 mem 00000000e0004000-00000000e0007fff command', {'anew': True, 'mem': LOW_TOO},
        '01:00.0 04.2 0002', 0,
        '00:01.0 20.4 0000fff0, 00:01.0 20.4 dff0dff0, 01:00.0 10.4 dff00000, 01:00.0 04.2 0002',
        '60 Unreached 01:00.0 +1 mem 00000000e0004000 bridge 00:01.0'),
    Row('anew a window does not lead to what it holds a part of',
        joined(OVER, '01:00.0 (0) cmd 0000, 10 = e0000000/ffffc000', '01:01.0 (0) cmd 0000'),
        '01:01.0 mem 00000000e00fc000-00000000e0103fff command', {'anew': True, 'mem': LOW_TOO},
        '00:01.0 20.4 0000fff0, 00:01.0 20.4 dff0dff0, 01:00.0 10.4 dff00000, 01:00.0 04.2 0002', 0,
        '00:01.0 20.4 0000fff0, 00:01.0 20.4 dff0dff0, 01:00.0 10.4 dff00000, 01:00.0 04.2 0002', 'yes'),
    Row('a spare is off what somebody has behind the bridge', ALONE, '01:1f.0 mem 00000000e0100000-00000000e0100fff held',
        SPARE, '00:01.0 20.4 e020e000', 0, '00:01.0 20.4 e010e000', 'yes'),
    Row('held at the slot of the bridge: the window ends later for a spare', ALONE,
        '00:01.0 mem 00000000e0100000-00000000e0100fff held', SPARE, '00:01.0 20.4 e010e000', 0,
        '00:01.0 20.4 e010e000', 'yes'),
    Row('held at the slot of the bridge: the window grows', joined(ALONE, LARGE_CARD),
        '00:01.0 mem 00000000e0180000-00000000e0180fff held', {},
        '00:01.0 20.4 e010e000, 01:01.0 10.4 e0100000, 01:01.0 04.2 0002', 0,
        '00:01.0 20.4 e010e000, 01:01.0 10.4 e0100000, 01:01.0 04.2 0002', 'yes'),
    Row('somebody is below the window', BOUNDED,
        '00:1f.0 mem 00000000dff80000-00000000dff80fff held\n' + UP_TO_TWO, {'mem': LOW_TOO},
        'no 75 Told 01:00.0 +2', None, ON_CARD, CLASH.replace('+1', '+2')),
    Row('what is off lies across the end of a window that stands, which can not grow',
        joined(ALONE, LARGE_CARD, '00:03.0 (0) cmd 0000'), '00:03.0 mem 00000000e00f0000-00000000e0100fff command', {},
        '''01:00.0 04.2 0000, 00:01.0 20.4 0000fff0, 00:01.0 20.4 e030e020, 01:00.0 10.4 e0300000,
           01:01.0 10.4 e0200000, 01:00.0 04.2 0002, 01:01.0 04.2 0002''', 0,
        '00:01.0 20.4 e010e000, 01:01.0 10.4 e0100000, 01:01.0 04.2 0002', 'yes'),
    Row('nothing is placed on what is off and does not stand', joined(ON_ROOT, PLUGGED_IN, '00:05.0 (0) cmd 0000'),
        '00:05.0 mem 00000000e00ff000-00000000e0100fff command', {}, '00:03.0 10.4 e0200000, 00:03.0 04.2 0002', 0,
        '00:03.0 10.4 e0100000, 00:03.0 04.2 0002', 'yes'),
    Row('ports of a channel that is off and would be switched on are those of a BAR',
        joined('00:02.0 (0) cmd 0001, 10 = 000001f1/fffffff9', CHANNEL + ', 20 = 00000001/fffffff1'), IDE, PORTS,
        'no 75 Told 00:05.0 +1', None, '00:05.0 20.4 00001001, 00:05.0 04.2 0001',
        '61 Clash bus 00 io 000001f0 00:02.0 10 00:05.0 +1'),
    Row('a channel that is off is switched on', CHANNEL + ', 20 = 00000001/fffffff1', IDE, {},
        '00:05.0 20.4 00001001, 00:05.0 04.2 0001', 0, '00:05.0 20.4 00001001, 00:05.0 04.2 0001', 'yes'),
    Row('what is fixed and off stands on what is off', joined('00:02.0 (0) cmd 0000, 10 = 000001f1/fffffff9', CHANNEL),
        IDE, {'fixed': [(0, 2, 0)], **PORTS}, '', 0, '', 'yes'),
    Row('what leads to an always range comes before what is fixed', OWN_BAR, ALWAYS, {'fixed': [(0, 2, 0)]},
        'no 74 Fixed 00:02.0 10', None,
        '01:00.0 04.2 0000, 00:01.0 04.2 0000, 00:01.0 10.4 e0200000, 00:01.0 04.2 0002, 01:00.0 04.2 0002', 'yes'),
    Row('somebody keeps a told range off', ALONE, FUNCTIONS + '\n01:1f.0 mem 00000000e0004000-00000000e0004fff held', {},
        'no 75 Told 01:00.0 +1', None, '', '61 Clash bus 01 mem 00000000e0004000 01:00.0 +1 01:1f.0 +2'),
    Row('room that is reserved for a function has its told range', ALONE,
        FUNCTIONS + '\n01:00.0 mem 00000000e0000000-00000000e00fffff held', {}, '', 0, '', 'yes'),
    Row('the BAR of a bridge two above leads', joined(
        '00:01.0 (1) cmd 0002, 0-1-2, 10 = e0100000/fffff000, 20 = e000e000/fff0fff0',
        '00:02.0 (0) cmd 0002, 10 = e0100000/fff00000', '01:00.0 (1) cmd 0002, 1-2-2, 20 = e000e000/fff0fff0',
        '02:00.0 (0) cmd 0002'), '02:00.0 mem 00000000e0000000-00000000e0003fff always', {},
        '00:02.0 04.2 0000, 00:02.0 10.4 e0200000, 00:02.0 04.2 0002', 1,
        '''02:00.0 04.2 0000, 01:00.0 04.2 0000, 00:01.0 04.2 0000, 00:01.0 10.4 e0200000, 00:01.0 04.2 0002,
           01:00.0 04.2 0002, 02:00.0 04.2 0002''', 'yes'),
    Row('a range that is off is let go with its window, which is outside of the lists',
        '00:01.0 (1) cmd 0002, 0-1-1, 20 = d010d000/fff0fff0; 01:00.0 (0) cmd 0000',
        '01:00.0 mem 00000000d0004000-00000000d0007fff command', {}, '00:01.0 20.4 0000fff0', 0,
        '00:01.0 20.4 0000fff0', 'yes'),
    Row('of two lines that are not reached the first is named', joined(OFF, BARE), ALWAYS + '\n' + ALWAYS, {},
        'no 75 Told 01:00.0 +1', None, '', MISSED),
    Row('many hold one address', joined(ON_ROOT, PLUGGED_IN),
        '\n'.join(['00:1f.1 mem 00000000e0100000-00000000e0100000 held'] * 256), {},
        '00:03.0 10.4 e0200000, 00:03.0 04.2 0002', 0, '00:03.0 10.4 e0100000, 00:03.0 04.2 0002',
        '61 Clash bus 00 mem 00000000e0100000 00:03.0 10 00:1f.1 +1'),
]


# ---- what is wrong with a row

def roots_of(row):
    """The root buses."""
    return row.words.get('roots', [0])


def request(words):
    """What is asked where nothing else is said."""
    lists = {'io': [(0x1000, 0xFFFF)], 'mem': [(0xE0000000, 0xE0FFFFFF)], 'pref': [(0x100000000, 0x1FFFFFFFF)]}
    lists.update({kind: words[kind] for kind in lists if kind in words})
    lists = {kind: [(None,) + span for span in lists[kind]] for kind in lists}
    return Request(words.get('roots', [0]), lists, words.get('fixed', []), words.get('anew', False))


def answer(row, told):
    """What is settled of a board with lines told, and the denied spares."""
    functions = board_of(' '.join(row.board.split()))
    fault = early_fault(functions, roots_of(row), told)
    if fault:
        return fault, []
    wanted = Wanted(row.words.get('spare', {}), row.words.get('slots', []))
    sparing = settle_sparing(functions, request(row.words), wanted, telling(told) if told else PLAIN)
    return sparing.plan, sparing.denied


def plain_fault(row, told):
    """What disagrees if nothing is told to the settler, or none."""
    plan, _ = answer(row, [])
    wanted = ' '.join(row.without.split())
    if written(plan) != wanted:
        return 'without what is told: wanted %s, found %s' % (wanted, written(plan))
    if isinstance(plan, Fault):
        return None
    judged = faults(plan.functions, None, Given(roots_of(row), told=told)).splitlines()[0]
    return None if judged == row.judged else 'without what is told there is: %s' % judged


def row_fault(row):
    """What disagrees on a board, or none."""
    told = told_ranges(row.told + '\n')
    plan, denied = answer(row, told)
    wanted = ' '.join(row.wanted.split())
    if written(plan) != wanted or spare_words(denied) != row.denied:
        return 'wanted %s, denied %s, found %s, denied %s' % (wanted, row.denied, written(plan), spare_words(denied))
    if isinstance(plan, Fault):
        return plain_fault(row, told)
    functions = board_of(' '.join(row.board.split()))
    if safe_from(functions, roots_of(row), plan, told) != row.safe:
        return 'it is safe from %d on' % safe_from(functions, roots_of(row), plan, told)
    return stop_fault(functions, roots_of(row), plan, lambda state, done: None, told) or plain_fault(row, told)


def row_faults():
    """What disagrees on all of them, each with the name of its board."""
    found = [(row.name, row_fault(row)) for row in ROWS]
    return ['%s: %s' % (name, fault) for name, fault in found if fault]
