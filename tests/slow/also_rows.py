"""Boards with told ranges and with bridges that answer beside their windows, with the answers worked out by hand.

A board is a row of functions. Of each stand its slot, header layout, Command, its bus numbers, and registers with what
they show and read back. A bridge of which no memory window is said has a closed one.

- `row_faults()`: what disagrees with the slow judge, each with its board.
- `board_of(text)`: the functions of a board.
"""

import os

from address_map import address_map
from also import told_ranges
from judge import faults
from model import BRIDGE_CONTROL, CLASS, COMMAND, HEADER, STATUS, Function, functions_of, put_number, slot_of
from regions import Given
from told import EXAMPLES, judge, message
from why import faults_and_why

MACHINES = os.path.join(os.path.dirname(os.path.abspath(__file__)), '..', '..', 'machines')

CHANNEL = '00:02.0 (0) cmd 0001, 10 = 000001f1/fffffff9; 00:05.0 (0) class 010180, cmd 0001'
CHANNEL_OFF = CHANNEL[:-1] + '0'
OVER = '00:01.0 (1) cmd 0002, 0-1-1, 20 = e000e000/fff0fff0'
NET = OVER + '; 01:00.0 (0) cmd 0002, 10 = e0000000/ffffc000'
PREF = OVER + ', 24 = e010e010/fff0fff0; 01:00.0 (0) cmd 0002, 10 = e0000000/ffffc000'
LOW = '00:02.0 (0) cmd 0002, 10 = fd000000/ffff0000'
LARGE = '00:02.0 (0) cmd 0002, 10 = e0000000/fff00000'
HOSTS = '00:01.0 (0) cmd 0002; 40:01.0 (0) cmd 0002'
ASLEEP = '00:01.0 (0) cmd 0002, asleep; 00:02.0 (0) cmd 0002, 10 = e0000000/fff00000'
CUT = '00:01.0 (1) cmd 0001, 0-1-1, ctl 0004, 1c = 1010/f0f0'
LONG = '00:01.0 (1) cmd 0001, 0-1-1, ctl 0004, 1c = 01f1/f1f1, 30 = 00010000/ffffffff'
SNOOPS = '00:01.0 (1) cmd 0021, 0-1-1'
STUCK = '00:01.0 (1) cmd 0001, 0-1-1, 1c = 00f0/00f0'
TAKES = '00:1e.0 (1) class 060401, cmd 0002, 0-1-1'
SOUND = '01:00.0 (0) cmd 0002, 10 = e0000000/fffff000'
BESIDE = '00:02.0 (0) cmd 0002, 10 = e0000800/ffffff00'
SOCKET = '00:05.0 (2) cmd 0002; 00:06.0 (0) cmd 0002, 10 = fc402000/fffff000'
ON_PCI = {'host_mem': [(None, 0xE0000000, 0xFEBFFFFF)]}

# board, words, what is told, and the list of all faults
LISTS = [
    (CHANNEL, None, '', 'yes'),
    (CHANNEL, None, '00:05.0 io 000001f0-000001f7 command ide', '61 Clash bus 00 io 000001f0 00:02.0 10 00:05.0 +1'),
    (CHANNEL_OFF, None, '00:05.0 io 000001f0-000001f7 command ide', 'yes'),
    (CHANNEL_OFF, None, '00:05.0 io 000001f0-000001f7 always', '61 Clash bus 00 io 000001f0 00:02.0 10 00:05.0 +1'),
    (CHANNEL, None, '00:05.0 io 000001ef-000001ef command\n00:05.0 io 000001f8-000001ff command', 'yes'),
    (CHANNEL, None, '00:05.0 io 000001e0-000001f0 command', '61 Clash bus 00 io 000001f0 00:02.0 10 00:05.0 +1'),
    (NET, None, '01:00.0 mem 00000000e0004000-00000000e000ffff always vf0', 'yes'),
    (NET, None, '01:00.0 mem 00000000e00fc000-00000000e0103fff always vf0',
     '60 Unreached 01:00.0 +1 mem 00000000e0100000 bridge 00:01.0'),
    (PREF, None, '01:00.0 mem 00000000e0100000-00000000e0103fff always vf0',
     '60 Unreached 01:00.0 +1 mem 00000000e0100000 bridge 00:01.0'),
    (PREF, None, '01:00.0 pref 00000000e0100000-00000000e0103fff always vf0', 'yes'),
    (NET, None, '01:00.0 mem 00000000e0003fff-00000000e000ffff always vf0',
     '61 Clash bus 01 mem 00000000e0003fff 01:00.0 10 01:00.0 +1'),
    (LOW, None, '00:1f.1 mem 00000000fd000000-00000000fdffffff held p2sb',
     '61 Clash bus 00 mem 00000000fd000000 00:02.0 10 00:1f.1 +1'),
    (LOW, None, '00:1f.1 mem 00000000fd000000-00000000fdffffff always p2sb', '34 NotListed 00:1f.1'),
    (LOW, None, '05:00.0 mem 00000000fd000000-00000000fdffffff held', '58 Orphan 05:00.0'),
    (LOW, None, '00:00.0 mem 00000000fec00000-00000000fecfffff held\n'
     '00:1f.0 mem 00000000fec00000-00000000fec00fff held ioapic', 'yes'),
    (LOW, None, '00:02.0 mem 00000000fd000000-00000000fd000fff held', 'yes'),
    (LOW, None, '00:02.0 mem 00000000fd000000-00000000fd000fff always',
     '61 Clash bus 00 mem 00000000fd000000 00:02.0 10 00:02.0 +1'),
    (LARGE, ON_PCI, '00:02.0 mem 00000000fed00000-00000000fed003ff always hpet',
     '63 Outside 00:02.0 +1 mem 00000000fed00000'),
    (LARGE, ON_PCI, '00:02.0 mem 00000000fed00000-00000000fed003ff held hpet', 'yes'),
    (HOSTS, {'roots': [0, 0x40]}, '00:01.0 mem 00000000e0000000-00000000e000ffff always\n'
     '40:01.0 mem 00000000e000f000-00000000e001ffff always', '62 Split mem 00000000e000f000 00:01.0 +1 40:01.0 +2'),
    (ASLEEP, 'power', '00:01.0 mem 00000000e0000000-00000000e000ffff always', 'yes'),
    (ASLEEP, 'power', '00:01.0 mem 00000000e0000000-00000000e000ffff held',
     '61 Clash bus 00 mem 00000000e0000000 00:01.0 +1 00:02.0 10'),
    (CUT + '; 01:00.0 (0) cmd 0001, 10 = 00001001/ffffff01', None, '', '53 IsaEnable 00:01.0'),
    (CUT + '; 01:00.0 (0) cmd 0001, 10 = 00001001/ffffff01', 'isa', '', 'yes'),
    (CUT + '; 01:00.0 (0) cmd 0001, 10 = 00001101/ffffff01', 'isa', '',
     '60 Unreached 01:00.0 10 io 00001100 bridge 00:01.0'),
    (CUT + '; 00:02.0 (0) cmd 0001, 10 = 00001101/ffffff01', 'isa', '', 'yes'),
    (CUT + '; 00:02.0 (0) cmd 0001, 10 = 00001401/ffffff01', 'isa', '',
     '61 Clash bus 00 io 00001400 00:01.0 1c 00:02.0 10'),
    (CUT + '; 01:00.0 (0) cmd 0001', 'isa', '01:00.0 io 00001000-000017ff command',
     '60 Unreached 01:00.0 +1 io 00001100 bridge 00:01.0'),
    (LONG + '; 01:00.0 (0) cmd 0001, 10 = 00010101/ffffff01', 'isa', '', 'yes'),
    (LONG + '; 01:00.0 (0) cmd 0001, 10 = 0000ff01/ffffff01', 'isa', '',
     '60 Unreached 01:00.0 10 io 0000ff00 bridge 00:01.0'),
    ('00:01.0 (1) cmd 0001, 0-1-1, ctl 000c; 01:00.0 (0) cmd 0001', 'isa,vga',
     '01:00.0 io 000003c0-000003df command vga', 'yes'),
    (SNOOPS + '; 00:02.0 (0) cmd 0021', None, '', '51 PaletteSnoop 00:01.0\n51 PaletteSnoop 00:02.0'),
    (SNOOPS + '; 00:02.0 (0) cmd 0021', 'snoop', '', 'yes'),
    (SNOOPS + '; 00:02.0 (0) cmd 0001, 10 = 000003c1/ffffffe1', 'snoop', '',
     '61 Clash bus 00 io 000003c6 00:01.0 04 00:02.0 10'),
    (SNOOPS + '; 01:00.0 (0) cmd 0001', 'snoop', '01:00.0 io 000003c8-000003c9 command',
     '60 Unreached 01:00.0 +1 io 000003c8 bridge 00:01.0'),
    (SNOOPS + ', ctl 0008, 1c = 0000/f0f0', 'snoop,vga', '', 'yes'),
    (STUCK + '; 01:00.0 (0) cmd 0000', None, '', '26 WindowMask 00:01.0 1c'),
    (STUCK + '; 01:00.0 (0) cmd 0000', 'windows', '', 'yes'),
    (STUCK + '; 01:00.0 (0) cmd 0001, 10 = 00002001/ffffffe1', 'windows', '',
     '60 Unreached 01:00.0 10 io 00002000 bridge 00:01.0'),
    ('00:01.0 (1) cmd 0002, 0-1-1, 24 = e011e001/fff1fff1; 01:00.0 (0) cmd 0002, 10 = e0100008/fff00008', 'windows', '',
     'yes'),
    ('00:01.0 (1) cmd 0001, 0-1-1, 1c = 1011/f0f0', 'windows', '', '26 WindowMask 00:01.0 1c'),
    ('00:01.0 (1) cmd 0002, 0-1-1, 20 = 00000000/00000000; 00:02.0 (0) cmd 0002, 10 = 00000000/fffff000', 'windows', '',
     'yes'),
    (TAKES + '; ' + SOUND, 'subtractive', '', '54 Subtractive 00:1e.0'),
    (TAKES + '; ' + SOUND, 'unclaimed', '', 'yes'),
    (TAKES + '; ' + SOUND + '; ' + BESIDE, 'unclaimed', '', '60 Unreached 01:00.0 10 mem 00000000e0000800 bridge 00:1e.0'),
    (TAKES + ', 20 = e000e000/fff0fff0; ' + SOUND + '; ' + BESIDE, 'unclaimed', '',
     '61 Clash bus 00 mem 00000000e0000800 00:02.0 10 00:1e.0 20'),
    (TAKES + '; ' + SOUND, 'unclaimed', '00:1f.0 mem 00000000e0000fff-00000000e0000fff held',
     '60 Unreached 01:00.0 10 mem 00000000e0000fff bridge 00:1e.0'),
    (TAKES + '; ' + SOUND + '; 01:01.0 (0) cmd 0002, 10 = e0000800/ffffff00', 'unclaimed', '',
     '61 Clash bus 01 mem 00000000e0000800 01:00.0 10 01:01.0 10'),
    (TAKES.replace('0002', '0000') + '; ' + SOUND + '; 01:01.0 (0) cmd 0002, 10 = e0000800/ffffff00', 'unclaimed', '',
     '60 Unreached 01:00.0 10 mem 00000000e0000000 bridge 00:1e.0\n'
     '60 Unreached 01:01.0 10 mem 00000000e0000800 bridge 00:1e.0'),
    (TAKES + ', 24 = e000e000/fff0fff0; ' + SOUND, 'unclaimed', '',
     '60 Unreached 01:00.0 10 mem 00000000e0000000 bridge 00:1e.0'),
    (TAKES + '; ' + SOUND + '; 00:1d.0 (1) class 060401, cmd 0000, 0-2-2', 'unclaimed', '',
     '54 Subtractive 00:1d.0\n54 Subtractive 00:1e.0'),
    (SOCKET, None, '', '21 HeaderKind 00:05.0'),
    (SOCKET, 'cardbus', '00:05.0 mem 00000000fc402000-00000000fc402fff command socket',
     '61 Clash bus 00 mem 00000000fc402000 00:05.0 +1 00:06.0 10'),
    # what has to be listed comes before a header, and once a slot
    (SOCKET, None, '00:07.0 io 00000000-00000000 always\n00:07.0 io 00000001-00000001 command\n'
     '00:08.0 io 00000000-00000000 held\n05:00.0 io 00000000-00000000 always',
     '34 NotListed 00:07.0\n34 NotListed 05:00.0'),
    (HOSTS, None, '05:00.0 io 00000000-00000000 held\n05:00.0 io 00000001-00000001 held\n'
     '40:01.0 io 00000000-00000000 held', '58 Orphan 05:00.0\n58 Orphan 40:01.0'),
    # a held range may share with what else is told of its function
    (LOW, None, '00:02.0 mem 00000000e0000000-00000000e0000fff always\n'
     '00:02.0 mem 00000000e0000000-00000000e0000fff held', 'yes'),
    (LOW, None, '00:02.0 mem 00000000e0000000-00000000e0000fff always\n'
     '00:02.0 mem 00000000e0000fff-00000000e0001fff command',
     '61 Clash bus 00 mem 00000000e0000fff 00:02.0 +1 00:02.0 +2'),
    (OVER, None, '00:01.0 mem 00000000e00fffff-00000000e0100000 always',
     '61 Clash bus 00 mem 00000000e00fffff 00:01.0 20 00:01.0 +1'),
    (HOSTS, {'roots': [0, 0x40]}, '00:01.0 io 00000000-00000001 held\n40:01.0 io 00000001-00000002 held', 'yes'),
    (HOSTS, {'roots': [0, 0x40]}, '00:01.0 mem 0000000000000000-0000000000000001 held\n'
     '40:01.0 mem 0000000000000001-0000000000000002 always',
     '62 Split mem 0000000000000001 00:01.0 +1 40:01.0 +2'),
    # ten bits of a palette port, and sixteen
    (SNOOPS + '; 00:02.0 (0) cmd 0001, 10 = 000007c1/ffffffe1', 'snoop,vga', '',
     '61 Clash bus 00 io 000007c6 00:01.0 04 00:02.0 10'),
    (SNOOPS + '; 00:02.0 (0) cmd 0001, 10 = 000007c1/ffffffe1', 'snoop,vga16', '', 'yes'),
    (SNOOPS + ', ctl 0010; 00:02.0 (0) cmd 0001, 10 = 000007c1/ffffffe1', 'snoop', '', 'yes'),
    (SNOOPS + '; 00:02.0 (0) cmd 0001', 'snoop', '00:02.0 io 000003c7-000003c7 command', 'yes'),
    ('00:01.0 (1) cmd 0021, 0-0-0', 'snoop,unnumbered', '', '57 BusRange 00:01.0'),
    ('00:01.0 (1) cmd 0020, 0-0-0', 'snoop,unnumbered', '', 'yes'),
    # the bridge beside it is of the class, though nothing is behind
    (TAKES + '; ' + SOUND + '; 00:1d.0 (1) class 060401, cmd 0000, 0-2-2', 'subtractive,unclaimed', '',
     '54 Subtractive 00:1e.0'),
    # all words take both in
    (SNOOPS + '; 00:02.0 (0) cmd 0021', 'all', '', 'yes'),
    (SNOOPS + '; 00:02.0 (0) cmd 0001, 10 = 000007c1/ffffffe1', 'all', '',
     '61 Clash bus 00 io 000007c6 00:01.0 04 00:02.0 10'),
    (TAKES + '; ' + SOUND, 'all', '', 'yes'),
    (TAKES + '; ' + SOUND + '; ' + BESIDE, 'all', '', '60 Unreached 01:00.0 10 mem 00000000e0000800 bridge 00:1e.0'),
    (TAKES + '; ' + SOUND + '; 00:1d.0 (1) class 060401, cmd 0000, 0-2-2', 'all', '', '54 Subtractive 00:1e.0'),
    ('00:01.0 (2) cmd 0020', 'cardbus', '', '51 PaletteSnoop 00:01.0'),
    ('00:01.0 (2) cmd 0020', 'all', '', 'yes'),
    # palette parts: to the end of 64 KB, by ISA Enable, of two bridges, on two roots, and of a bridge that is off or asleep
    (SNOOPS + '; 00:02.0 (0) cmd 0001, 10 = 0000ffc9/fffffffd, 14 = 000103c9/fffffffd', 'snoop', '',
     '61 Clash bus 00 io 0000ffc8 00:01.0 04 00:02.0 10'),
    (SNOOPS + ', ctl 0004, 1c = 0000/f0f0; 00:02.0 (0) cmd 0001, 10 = 000003c1/ffffffe1', 'isa,snoop', '',
     '61 Clash bus 00 io 000003c6 00:01.0 04 00:02.0 10'),
    (SNOOPS + '; 00:02.0 (1) cmd 0021, 0-2-2, ctl 0010', 'snoop', '', '61 Clash bus 00 io 000003c6 00:01.0 04 00:02.0 04'),
    (SNOOPS + '; 40:02.0 (0) cmd 0001, 10 = 000003c1/ffffffe1', {'words': 'snoop', 'roots': [0, 0x40]}, '',
     '62 Split io 000003c6 00:01.0 04 40:02.0 10'),
    (SNOOPS.replace('0021', '0022') + '; 00:02.0 (0) cmd 0001, 10 = 000003c1/ffffffe1', 'snoop', '', 'yes'),
    (SNOOPS + ', asleep; 00:02.0 (0) cmd 0001, 10 = 000003c1/ffffffe1', 'power,snoop', '', 'yes'),
    # two that answer behind the bridge would take the same write
    (SNOOPS + '; 01:00.0 (0) cmd 0001, 10 = 000003c9/fffffffd; 01:01.0 (0) cmd 0001', 'snoop',
     '01:01.0 io 000003c9-000003c9 held',
     '60 Unreached 01:00.0 10 io 000003c8 bridge 00:01.0\n61 Clash bus 01 io 000003c9 01:00.0 10 01:01.0 +1'),
    # it takes nothing that a BAR of its own, a legacy part or a palette part of its bus claims, nor while it sleeps
    (TAKES + ', 10 = e0000000/fffffff0; ' + SOUND, 'unclaimed', '',
     '60 Unreached 01:00.0 10 mem 00000000e0000000 bridge 00:1e.0'),
    (TAKES + '; 00:01.0 (1) cmd 0002, 0-2-2, ctl 0008; 01:00.0 (0) cmd 0002, 10 = 000a0000/ffff0000', 'unclaimed,vga', '',
     '60 Unreached 01:00.0 10 mem 00000000000a0000 bridge 00:1e.0'),
    (TAKES.replace('0002', '0021') + '; 01:00.0 (0) cmd 0001, 10 = 000003c1/fffffff1', 'snoop,unclaimed', '',
     '60 Unreached 01:00.0 10 io 000003c6 bridge 00:1e.0'),
    (TAKES + ', asleep; ' + SOUND, 'power,unclaimed', '', '60 Unreached 01:00.0 10 mem 00000000e0000000 bridge 00:1e.0'),
    # ports that ISA Enable takes from its own window are claimed by nobody
    (TAKES.replace('0002', '0001') + ', ctl 0004, 1c = 1010/f0f0; 01:00.0 (0) cmd 0001, 10 = 00001101/ffffff01',
     'isa,unclaimed', '', 'yes'),
    # one of each bus, one without bus numbers, and a device of the class
    (TAKES.replace('0-1-1', '0-1-2') + '; 01:1e.0 (1) class 060401, cmd 0002, 1-2-2; '
     '02:00.0 (0) cmd 0002, 10 = e0000000/fffff000', 'unclaimed', '', 'yes'),
    (TAKES.replace('0-1-1', '0-0-0'), 'unclaimed', '', '57 BusRange 00:1e.0'),
    (TAKES.replace('0-1-1', '0-0-0'), 'unclaimed,unnumbered', '', 'yes'),
    (TAKES + '; ' + SOUND + '; 00:1d.0 (0) class 060401, cmd 0002', 'unclaimed', '', 'yes'),
    # what stands on one root bus keeps no bridge on another from taking it
    (TAKES + '; ' + SOUND + '; 40:01.0 (0) cmd 0002, 10 = e0000000/fffff000', {'words': 'unclaimed', 'roots': [0, 0x40]},
     '', 'yes'),
    # what it takes goes on to the bus behind, and what is told of the bridge itself doesn't
    (TAKES + '; ' + SOUND, 'unclaimed', '00:1e.0 mem 00000000e0000000-00000000e00000ff always',
     '60 Unreached 01:00.0 10 mem 00000000e0000000 bridge 00:1e.0'),
]

# board, words, what is told, and the list with its reasons
REASONS = [
    (NET, None, '01:00.0 mem 00000000e00fc000-00000000e0103fff always vf0',
     '''60 Unreached 01:00.0 +1 mem 00000000e0100000 bridge 00:01.0
  needs 01:00.0 +1 told mem 00000000e00fc000-00000000e0103fff 32K vf0
  bridge 00:01.0 on mem 00000000e0000000-00000000e00fffff
  missed 00000000e0100000-00000000e0103fff 16K'''),
    (OVER + '; 01:00.0 (0) cmd 0002, 10 = e0000000/ffff0000', None,
     '01:1f.0 mem 00000000e0000000-00000000e0000fff held hidden',
     '''61 Clash bus 01 mem 00000000e0000000 01:00.0 10 01:1f.0 +1
  first 01:00.0 10 bar mem 00000000e0000000-00000000e000ffff 64K
  second 01:1f.0 +1 held mem 00000000e0000000-00000000e0000fff 4K hidden
  shared 00000000e0000000-00000000e0000fff 4K
  fits 00000000e0010000-00000000e001ffff 64K'''),
    (OVER + '; 01:00.0 (0) cmd 0002; 01:01.0 (0) cmd 0002, 10 = e0000000/ffff0000; 01:02.0 (0) cmd 0000', None,
     '01:00.0 mem 00000000e0000000-00000000e001ffff always vf0\n'
     '01:02.0 mem 00000000e0080000-00000000e0080fff command ea0',
     '''61 Clash bus 01 mem 00000000e0000000 01:00.0 +1 01:01.0 10
  first 01:00.0 +1 told mem 00000000e0000000-00000000e001ffff 128K vf0
  second 01:01.0 10 bar mem 00000000e0000000-00000000e000ffff 64K
  shared 00000000e0000000-00000000e000ffff 64K
  fits 00000000e0020000-00000000e002ffff 64K
off 01:02.0 +2 told mem 00000000e0080000-00000000e0080fff 4K ea0'''),
    (CUT + '; 01:00.0 (0) cmd 0001, 10 = 00001101/ffffff01', 'isa', '',
     '''60 Unreached 01:00.0 10 io 00001100 bridge 00:01.0
  needs 01:00.0 10 bar io 00001100-000011ff 256
  bridge 00:01.0 on io 00001000-00001fff isa
  missed 00001100-000011ff 256
  fits 00001000-000010ff 256'''),
    ('00:01.0 (0) cmd 0001, 20 = 00001401/ffffff01; 00:04.0 (1) cmd 0001, 0-1-1, ctl 0004, 1c = 1010/f0f0', 'isa', '',
     '''61 Clash bus 00 io 00001400 00:01.0 20 00:04.0 1c
  first 00:01.0 20 bar io 00001400-000014ff 256
  second 00:04.0 1c window io 00001000-00001fff 4K isa
  shared 00001400-000014ff 256'''),
    (SNOOPS + '; 00:02.0 (0) cmd 0001, 10 = 000003c1/ffffffe1', 'snoop', '',
     '''61 Clash bus 00 io 000003c6 00:01.0 04 00:02.0 10
  first 00:01.0 04 snoop io 000003c6,000003c8-000003c9 of each 1K
  second 00:02.0 10 bar io 000003c0-000003df 32
  shared 000003c6-000003c6 1
  shared 000003c8-000003c9 2'''),
    (TAKES + '; ' + SOUND + '; ' + BESIDE, 'unclaimed', '',
     '''60 Unreached 01:00.0 10 mem 00000000e0000800 bridge 00:1e.0
  needs 01:00.0 10 bar mem 00000000e0000000-00000000e0000fff 4K
  bridge 00:1e.0 on mem closed unclaimed
  missed 00000000e0000800-00000000e00008ff 256
  fits 0000000000000000-0000000000000fff 4K'''),
    # where it fits no palette part is, and nobody claims it where a bridge has to take it
    (SNOOPS + '; 00:02.0 (0) cmd 0001, 10 = 000003c9/fffffffd', {'words': 'snoop', 'host_io': [(None, 0x3C8, 0x3FF)]}, '',
     '''61 Clash bus 00 io 000003c8 00:01.0 04 00:02.0 10
  first 00:01.0 04 snoop io 000003c6,000003c8-000003c9 of each 1K
  second 00:02.0 10 bar io 000003c8-000003cb 4
  shared 000003c8-000003c9 2
  fits 000003cc-000003cf 4'''),
    (TAKES + '; ' + SOUND + '; ' + BESIDE, {'words': 'unclaimed', 'host_mem': [(None, 0xE0000000, 0xE0003FFF)]}, '',
     '''60 Unreached 01:00.0 10 mem 00000000e0000800 bridge 00:1e.0
  needs 01:00.0 10 bar mem 00000000e0000000-00000000e0000fff 4K
  bridge 00:1e.0 on mem closed unclaimed
  missed 00000000e0000800-00000000e00008ff 256
  fits 00000000e0001000-00000000e0001fff 4K'''),
    (SNOOPS + '; 00:00.0 (0) cmd 0001, 10 = 000003c1/ffffffe1', {'words': 'all', 'host_io': [(None, 0x300, 0xFFFF)]}, '',
     '''61 Clash bus 00 io 000003c6 00:00.0 10 00:01.0 04
  first 00:00.0 10 bar io 000003c0-000003df 32
  second 00:01.0 04 snoop io 000003c6,000003c8-000003c9 of each 1K
  shared 000003c6-000003c6 1
  shared 000003c8-000003c9 2'''),
    (SNOOPS + '; 00:02.0 (0) cmd 0001', {'words': 'snoop', 'host_io': [(None, 0x300, 0xFFFF)]},
     '00:02.0 io 000003c9-000003ca command dac',
     '''61 Clash bus 00 io 000003c9 00:01.0 04 00:02.0 +1
  first 00:01.0 04 snoop io 000003c6,000003c8-000003c9 of each 1K
  second 00:02.0 +1 told io 000003c9-000003ca 2 dac
  shared 000003c9-000003c9 1'''),
    (SNOOPS + '; 00:02.0 (0) cmd 0001, 10 = 000003c1/ffffffe1', {'words': 'snoop', 'host_io': [(None, 0x3C8, 0xFFFF)]}, '',
     '''63 Outside 00:02.0 10 io 000003c0
  needs 00:02.0 10 bar io 000003c0-000003df 32
  host io 000003c8-0000ffff
  fits 000003e0-000003ff 32
61 Clash bus 00 io 000003c8 00:01.0 04 00:02.0 10
  first 00:01.0 04 snoop io 000003c6,000003c8-000003c9 of each 1K
  second 00:02.0 10 bar io 000003c0-000003df 32
  shared 000003c6-000003c6 1
  shared 000003c8-000003c9 2
  fits 000003e0-000003ff 32'''),
    ('00:02.0 (0) cmd 0001, 10 = 00001101/ffffff01; 00:1e.0 (1) class 060401, cmd 0001, 0-1-1, ctl 000c, 1c = 1010/f0f0; '
     '01:00.0 (0) cmd 0001, 10 = 00001101/ffffff01', 'isa,unclaimed,vga', '',
     '''60 Unreached 01:00.0 10 io 00001100 bridge 00:1e.0
  needs 01:00.0 10 bar io 00001100-000011ff 256
  bridge 00:1e.0 on io 00001000-00001fff isa unclaimed vga
  missed 00001100-000011ff 256
  fits 00000000-000000ff 256'''),
    (SNOOPS + ', ctl 0010; 00:02.0 (0) cmd 0001, 10 = 000003c1/ffffffe1', 'snoop', '',
     '''61 Clash bus 00 io 000003c6 00:01.0 04 00:02.0 10
  first 00:01.0 04 snoop16 io 000003c6,000003c8-000003c9
  second 00:02.0 10 bar io 000003c0-000003df 32
  shared 000003c6-000003c6 1
  shared 000003c8-000003c9 2'''),
    (LARGE + '; 40:01.0 (0) cmd 0002', {'roots': [0, 0x40], 'host_mem': [(None, 0xE0000000, 0xE07FFFFF)]},
     '40:01.0 pref 00000000e0000000-00000000e0000fff always',
     '''62 Split mem 00000000e0000000 00:02.0 10 40:01.0 +1
  first 00:02.0 10 bar mem 00000000e0000000-00000000e00fffff 1M
  second 40:01.0 +1 told mem pref 00000000e0000000-00000000e0000fff 4K
  shared 00000000e0000000-00000000e0000fff 4K
  fits 00000000e0100000-00000000e01fffff 1M'''),
    (LARGE, ON_PCI, '00:02.0 mem 00000000fed00000-00000000fed003ff always hpet',
     '''63 Outside 00:02.0 +1 mem 00000000fed00000
  needs 00:02.0 +1 told mem 00000000fed00000-00000000fed003ff 1K hpet
  host mem 00000000e0000000-00000000febfffff'''),
    (ASLEEP, 'power', '00:01.0 io 00000000-00000000 always\n00:01.0 pref 0000000000000000-0000000000000fff command x',
     '''yes
off 00:01.0 +1 told io 00000000-00000000 1
off 00:01.0 +2 told mem pref 0000000000000000-0000000000000fff 4K x'''),
]

# board, words, what is told, and the map
MAPS = [
    ('00:01.0 (1) cmd 0003, 0-1-1, ctl 0004, 1c = 1010/f0f0, 20 = e000e000/fff0fff0; '
     '01:00.0 (0) cmd 0003, 10 = 00001001/ffffffe1; 01:01.0 (0) cmd 0000', 'isa',
     '00:1f.1 mem 00000000fd000000-00000000fdffffff held p2sb\n'
     '01:00.0 mem 00000000e0000000-00000000e001ffff always vf0\n'
     '01:01.0 mem 00000000e0080000-00000000e0080fff command ea0',
     '''bus 00 io
  00001000-00001fff 4K window 00:01.0 1c isa
    00001000-0000101f 32 bar 01:00.0 10
    00001020-000010ff 224 free
    00001400-000014ff 256 free
    00001800-000018ff 256 free
    00001c00-00001cff 256 free
bus 00 mem
  00000000e0000000-00000000e00fffff 1M window 00:01.0 20
    00000000e0000000-00000000e001ffff 128K told 01:00.0 +2 vf0
    00000000e0020000-00000000e00fffff 896K free
  00000000fd000000-00000000fdffffff 16M held 00:1f.1 +1 p2sb
off
  00000000e0080000-00000000e0080fff 4K told 01:01.0 +3 ea0'''),
    (TAKES + '; ' + SOUND, 'unclaimed', '',
     '''bus 00 mem
  unclaimed 00:1e.0
    00000000e0000000-00000000e0000fff 4K bar 01:00.0 10'''),
    ('00:01.0 (1) cmd 0002, 0-1-2, 20 = e000e000/fff0fff0; 01:1e.0 (1) class 060401, cmd 0002, 1-2-2; '
     '02:00.0 (0) cmd 0002, 10 = e0000000/fffff000', 'unclaimed', '02:1f.0 mem 00000000e0000fff-00000000e0001000 held',
     '''bus 00 mem
  00000000e0000000-00000000e00fffff 1M window 00:01.0 20
    00000000e0000000-00000000e00fffff 1M free
  unclaimed 01:1e.0
    00000000e0000000-00000000e0000fff 4K bar 02:00.0 10
    00000000e0000fff-00000000e0001000 2 held 02:1f.0 +1'''),
    (TAKES + '; ' + SOUND, 'unclaimed', '00:1f.0 mem 00000000e0000000-00000000e0000000 held',
     '''bus 00 mem
  00000000e0000000-00000000e0000000 1 held 00:1f.0 +1
unreached
  00000000e0000000-00000000e0000fff 4K bar 01:00.0 10'''),
    (TAKES.replace('0002', '0003') + ', 20 = e000e000/fff0fff0; 01:00.0 (0) cmd 0003, 10 = e0000000/fffff000, '
     '14 = d0000008/fffff008, 1c = 00002001/ffffff01', 'all', '',
     '''bus 00 io
  unclaimed 00:1e.0
    00002000-000020ff 256 bar 01:00.0 1c
bus 00 mem
  00000000e0000000-00000000e00fffff 1M window 00:1e.0 20
    00000000e0000000-00000000e0000fff 4K bar 01:00.0 10
    00000000e0001000-00000000e00fffff 1020K free
  unclaimed 00:1e.0
    00000000d0000000-00000000d0000fff 4K bar pref 01:00.0 14'''),
    (TAKES.replace('0-1-1', '0-1-2') + '; 01:00.0 (1) cmd 0002, 1-2-2, 20 = e000e000/fff0fff0; '
     '02:00.0 (0) cmd 0002, 10 = e0000000/fffff000', 'unclaimed', '',
     '''bus 00 mem
  unclaimed 00:1e.0
    00000000e0000000-00000000e00fffff 1M window 01:00.0 20
      00000000e0000000-00000000e0000fff 4K bar 02:00.0 10
      00000000e0001000-00000000e00fffff 1020K free'''),
    # what isn't sent stands under no bridge
    (TAKES + '; 01:00.0 (0) cmd 0002, 10 = e0000000/fffff000, 14 = d0000000/fffff000',
     {'words': 'unclaimed', 'host_mem': [(None, 0xE0000000, 0xE00FFFFF)]}, '',
     '''bus 00 mem
  00000000e0000000-00000000e00fffff 1M free
  unclaimed 00:1e.0
    00000000e0000000-00000000e0000fff 4K bar 01:00.0 10
outside
  00000000d0000000-00000000d0000fff 4K bar 01:00.0 14'''),
    (SNOOPS + ', 1c = 0000/f0f0', 'snoop', '',
     '''bus 00 io
  00000000-00000fff 4K window 00:01.0 1c
    00000000-00000fff 4K free'''),
    (OVER, None, '01:1f.0 pref 00000000f0000000-00000000f0000fff held x\n'
     '01:1f.0 pref 00000000e00ff000-00000000e0100fff held',
     '''bus 00 mem
  00000000e0000000-00000000e00fffff 1M window 00:01.0 20
    00000000e0000000-00000000e00fefff 1020K free
    00000000e00ff000-00000000e0100fff 8K held pref 01:1f.0 +2
unreached
  00000000f0000000-00000000f0000fff 4K held pref 01:1f.0 +1 x'''),
    (LARGE, ON_PCI, '00:02.0 mem 00000000fed00000-00000000fed003ff always hpet\n'
     '00:1f.0 mem 00000000febffc00-00000000fed003ff held',
     '''bus 00 mem
  00000000e0000000-00000000e00fffff 1M bar 00:02.0 10
  00000000e0100000-00000000febffbff 502783K free
  00000000febffc00-00000000fed003ff 1026K held 00:1f.0 +2
outside
  00000000fed00000-00000000fed003ff 1K told 00:02.0 +1 hpet'''),
]


def put_field(f, field):
    """What a field of a function says."""
    words = field.split()
    if field == 'asleep':
        for offset, number in ((STATUS, 0x10), (0x34, 0x40), (0x40, 0x01), (0x44, 0x03)):
            f.image[offset] = number
    elif words[0] in ('cmd', 'ctl', 'class'):
        offset, width = {'cmd': (COMMAND, 2), 'ctl': (BRIDGE_CONTROL, 2), 'class': (CLASS, 3)}[words[0]]
        put_number(f.image, offset, width, int(words[1], 16))
    elif '-' in field:
        f.image[0x18:0x1B] = bytes(int(number, 16) for number in field.split('-'))
    else:
        offset, value, mask = int(words[0], 16), *words[2].split('/')
        put_number(f.image, offset, len(value) // 2, int(value, 16))
        put_number(f.probe, offset, len(mask) // 2, int(mask, 16))


def function_of(text):
    """The function of a text `S (LAYOUT) FIELD, ..`."""
    head, _, rest = text.partition(') ')
    slot, layout = head.split(' (')
    f = Function(slot_of(slot))
    put_number(f.image, 0, 4, 0x56781234)
    f.image[HEADER] = int(layout)
    if f.is_bridge:
        put_field(f, '20 = 0000fff0/fff0fff0')
    for field in rest.split(', '):
        put_field(f, field)
    return f


def board_of(text):
    """The functions of a board."""
    return sorted((function_of(part) for part in text.split('; ')), key=lambda f: f.slot)


def answer_of(task, functions, words, told):
    """What a task answers of a board."""
    beside = dict(words) if isinstance(words, dict) else {'words': words}
    model = beside.pop('words', None)
    given = Given(beside.pop('roots', [0]), **beside, told=told_ranges(told + '\n' if told else ''))
    return task(functions, None, given, model)


def machine(name):
    """The functions of a stored machine."""
    texts = []
    for end in ('dump', 'probe'):
        with open(os.path.join(MACHINES, '%s.%s' % (name, end)), encoding='latin-1') as source:
            texts.append(source.read())
    return functions_of(*texts)


# stored machine, words, and the list of all faults
STORED = [
    ('port', None, '26 WindowMask 00:06.0 1c'),
    ('port', 'windows', '60 Unreached 02:00.0 18 io 00002000 bridge 00:06.0'),
]


def row_faults():
    """What disagrees on all of them, each with its board."""
    found = []
    tables = ((faults, LISTS), (faults_and_why, REASONS), (address_map, MAPS))
    for task, (text, words, told, wanted) in [(task, row) for task, table in tables for row in table]:
        got = answer_of(task, board_of(text), words, told)
        if got != wanted + '\n':
            found.append('%s, %s, %r: wanted\n%s\nfound\n%s' % (text, words, told, wanted, got))
    for name, words, wanted in STORED:
        got = answer_of(faults, machine(name), words, '')
        if got != wanted + '\n':
            found.append('%s, %s: wanted\n%s\nfound\n%s' % (name, words, wanted, got))
    for text, wanted in EXAMPLES:
        answer = judge(text)
        got = None if isinstance(answer, list) else message(answer)
        if got != wanted:
            found.append('%r: wanted %s, found %s' % (text[:60], wanted, got))
    return found
