"""The module against the texts of this repository.

PCIPLAN_LIBRARY names the library; by default the dynamic linker finds it.
"""
import ctypes
import os
import pathlib
import subprocess
import sys
import unittest
from functools import partial

import pciplan

TOP = pathlib.Path(__file__).resolve().parents[2]
DATA, MACHINES = TOP / 'crates/pciplan/data', TOP / 'machines'
BARE = (DATA / 'bare.txt').read_bytes(), (DATA / 'bare_probe.txt').read_bytes()
PLUGGED = (DATA / 'plugged.txt').read_bytes(), (DATA / 'plugged_probe.txt').read_bytes()
IO, PREF = (0x1000, 0xffff), (0x100000000, 0x1ffffffff)


def function(bar, size):
    """Dump and probe of a device with one memory BAR of 32 bits."""
    image, mask = bytearray(256), bytearray(256)
    image[0:4] = bytes.fromhex('34127856')
    image[4] = 2
    image[0x10:0x14] = bar.to_bytes(4, 'little')
    mask[0x10:0x14] = (0x100000000 - size).to_bytes(4, 'little')
    return bytes(image), bytes(mask)


class Machines(unittest.TestCase):
    def test_verdicts(self):
        for name, roots in ('old', (0,)), ('desk', (0,)), ('port', (0,)), ('roots', (0, 0x40)):
            with self.subTest(name):
                wanted = (MACHINES / (name + '.check')).read_text().rstrip('\n')
                dump, probe = ((MACHINES / (name + kind)).read_bytes() for kind in ('.dump', '.probe'))
                got = pciplan.check(dump, probe, roots)
                self.assertEqual((got, bool(got)), ((wanted == 'yes', wanted), wanted == 'yes'))

    def test_plan(self):
        got = pciplan.plan(*BARE, IO, (0xe0000000, 0xe02fffff), PREF)
        self.assertEqual(len(got.writes), 7)
        self.assertEqual(got.writes[0], pciplan.Write(0, 1, 0, 0x20, 4, 0xe010e000))

    def test_settle(self):
        got = pciplan.settle(*PLUGGED, mem='e0000000-e02fffff')
        writes = [pciplan.Write(2, 0, 0, 0x10, 4, 0xe0100000), pciplan.Write(2, 0, 0, 4, 2, 2)]
        self.assertEqual(got, pciplan.Plan(writes, 0))

    def test_settle_with_spares(self):
        """The window of the card's bridge can't end later, as a device stands behind it."""
        got = pciplan.settle(*PLUGGED, mem='e0000000-e02fffff', spare='mem:100000', slots='00:02.0')
        self.assertEqual([w[:4] for w in got.writes], [(2, 0, 0, 0x10), (2, 0, 0, 4)])
        self.assertEqual(got.denied, (pciplan.Denied(0, 2, 0, 0x20),))

    def test_settle_off_told_ranges(self):
        """Somebody whom the dump doesn't list answers the beginning of the card's window."""
        also = b'02:01.0 mem 00000000e0100000-00000000e0103fff held\n'
        got = pciplan.settle(*PLUGGED, mem='e0000000-e02fffff', also=also)
        self.assertEqual(got.writes[0], pciplan.Write(2, 0, 0, 0x10, 4, 0xe0104000))

    def test_settle_anew_beside_told_ranges(self):
        """Virtual functions have the beginning of the card's window, so the window stays."""
        also = b'02:00.0 mem 00000000e0100000-00000000e0103fff always vf0\n'
        got = pciplan.settle(*PLUGGED, mem='e0000000-e02fffff', anew=True, also=also)
        self.assertEqual(got.writes[0], pciplan.Write(2, 0, 0, 0x10, 4, 0xe0104000))

    def test_nothing_to_settle(self):
        dump, probe = (MACHINES / 'old.dump').read_bytes(), (MACHINES / 'old.probe').read_bytes()
        got = pciplan.settle(dump, probe, io='700-ffff', mem='80000000-febfffff')
        self.assertEqual(got, pciplan.Plan([], 0))


class Faults(unittest.TestCase):
    SLOTS = (0, 1, 0), (0, 2, 0)
    CLASH = '61 Clash bus 00 mem 00000000e0000000 00:01.0 10 00:02.0 10'
    REASON = CLASH + """
  first 00:01.0 10 bar mem 00000000e0000000-00000000e0000fff 4K
  second 00:02.0 10 bar mem 00000000e0000000-00000000e0000fff 4K
  shared 00000000e0000000-00000000e0000fff 4K"""

    def board(self):
        return [pciplan.text(dict.fromkeys(self.SLOTS, it)) for it in function(0xe0000000, 0x1000)]

    def test_lists(self):
        dump, probe = self.board()
        got = pciplan.faults(dump, probe)
        self.assertEqual((got, bool(got)), ((False, self.REASON), False))
        self.assertEqual(pciplan.faults(dump, probe, why=False), (False, self.CLASH))
        self.assertEqual(pciplan.faults(dump, probe, model='all', host_io='none', why=False), (False, self.CLASH))
        outside = '63 Outside 00:01.0 10 mem 00000000e0000000\n63 Outside 00:02.0 10 mem 00000000e0000000'
        self.assertEqual(pciplan.faults(dump, probe, host_mem='none', why=False), (False, outside))

    def test_machines(self):
        for name, roots in ('old', (0,)), ('desk', (0,)), ('port', (0,)), ('roots', (0, 0x40)):
            with self.subTest(name):
                dump, probe = ((MACHINES / (name + kind)).read_bytes() for kind in ('.dump', '.probe'))
                got = pciplan.faults(dump, probe, roots, why=False)
                verdict = pciplan.check(dump, probe, roots)
                self.assertEqual(got.yes, verdict.yes)
                self.assertIn(verdict.line.split(' ', 1)[-1], got.text.split('\n'))
                if verdict:
                    self.assertEqual(pciplan.faults(dump, probe, roots, model='all'), (True, 'yes'))

    def test_words(self):
        dump, probe = ((MACHINES / ('desk' + kind)).read_bytes() for kind in ('.dump', '.probe'))
        got = pciplan.faults(dump, probe, model='vga', why=False)
        self.assertEqual(got, (False, '61 Clash bus 00 io 000013b0 00:02.0 3e 00:03.0 1c'))

    def test_long_list(self):
        """Each of 32 functions clashes with the first, so that the list is longer than the first room for it."""
        board = [pciplan.text({(0, device, 0): it for device in range(32)}) for it in function(0xe0000000, 0x1000)]
        got = pciplan.faults(*board).text
        self.assertGreater(len(got), 4096)
        self.assertEqual((len(got.split('\n')), got.count('61 Clash')), (4 * 31, 31))


class NoAnswer(unittest.TestCase):
    def test_faults(self):
        with self.assertRaises(pciplan.Fault) as no:
            pciplan.plan(*BARE, IO, (0xe0000000, 0xe00fffff), PREF)
        self.assertEqual((no.exception.number, no.exception.line), (72, 'no 72 NoRoom mem'))
        with self.assertRaisesRegex(pciplan.Fault, '^no 70 BadPools$'):
            pciplan.plan(b'', b'', IO, IO, (1, 0))
        with self.assertRaisesRegex(pciplan.Fault, '^no 74 Fixed 02:00.0 10$'):
            pciplan.settle(*PLUGGED, mem='e0000000-e02fffff', fixed='02:00.0')
        for line, slot, mark in (
                ('no 75 Told 01:00.0 +1', '01:00.0', 'always'),
                ('no 34 NotListed 03:00.0', '03:00.0', 'always'),
                ('no 58 Orphan 03:00.0', '03:00.0', 'held')):
            also = ('%s mem 00000000e0200000-00000000e0203fff %s\n' % (slot, mark)).encode()
            with self.subTest(line), self.assertRaises(pciplan.Fault) as no:
                pciplan.settle(*PLUGGED, mem='e0000000-e02fffff', also=also)
            self.assertEqual(no.exception.line, line)

    def test_texts_and_words_that_are_none(self):
        for message, call, words in (
                ('dump: 5 BadLine 2', pciplan.check, [b'00:00.0\nxx', b'']),
                ('probe: 5 BadLine 2', pciplan.check, [b'', b'00:00.0\nxx']),
                ('root', pciplan.check, [b'', b'', ()]),
                ('root', pciplan.check, [b'', b'', (3, 3)]),
                ('root', pciplan.faults, [b'', b'', (3, 3), 'any']),
                ('model', pciplan.faults, [b'', b'', (0,), 'power,', '-']),
                ('model', pciplan.faults, [b'', b'', (0,), '\u00e9']),
                ('host io', pciplan.faults, [b'', b'', (0,), '', '2-1', '-']),
                ('host mem', pciplan.faults, [b'', b'', (0,), '', '', '01:1-2']),
                ('dump: 5 BadLine 2', pciplan.faults, [b'00:00.0\nxx', b'']),
                ('pool io', pciplan.settle, [b'', b'', 'g', 'g']),
                ('pool mem', pciplan.settle, [b'', b'', 'none', '\u00e9']),
                ('pool pref', pciplan.settle, [b'', b'', 'none', 'none', '']),
                ('fixed', pciplan.settle, [b'', b'', 'none', 'none', 'none', '00:00.8']),
                ('spare', pciplan.settle, [b'', b'', 'none', 'none', 'none', '', False, (0,), 'mem:0', '00:00.8']),
                ('slots', pciplan.settle, [b'', b'', 'none', 'none', 'none', '', False, (0,), 'mem:1', '00:00.8']),
                ('slots', pciplan.settle, [b'', b'', 'none', 'none', 'none', '', False, (0,), '', '00:00.0']),
                ('also: 9 Ended 1', partial(pciplan.settle, also=b'00:'), [b'', b'', 'none', 'none', 'none', '', True]),
                ('dump: 9 Ended 1', partial(pciplan.settle, also=b'00:'), [b'00:', b'00:']),
                ('probe: 9 Ended 1', partial(pciplan.settle, also=b'00:'), [b'', b'00:']),
                ('also: 9 Ended 1', partial(pciplan.settle, also=b'00:'), [b'', b''])):
            with self.subTest(message), self.assertRaisesRegex(pciplan.Refused, '^%s$' % message):
                call(*words)

    def test_what_is_no_text(self):
        with self.assertRaises(ctypes.ArgumentError):
            pciplan.check('00:00.0', b'')
        with self.assertRaises(ValueError):
            pciplan.check(b'', b'', (256,))


class Texts(unittest.TestCase):
    def test_text(self):
        image, mask = function(0xe0000000, 0x1000)
        slots = (0, 1, 0), (0, 2, 0)
        self.assertEqual(pciplan.check(pciplan.text({slots[0]: image}), pciplan.text({slots[0]: mask})).line, 'yes')
        self.assertEqual(
            pciplan.check(*(pciplan.text(dict.fromkeys(slots, it)) for it in (image, mask))),
            pciplan.Verdict(False, 'no 61 Clash bus 00 mem 00000000e0000000 00:01.0 10 00:02.0 10'))

    def test_many_functions(self):
        """Each of 32 functions is placed, and what the writes lead to is sound."""
        slots = [(0, device, 0) for device in range(32)]
        image, mask = (dict.fromkeys(slots, it) for it in function(0, 0x1000))
        probe = pciplan.text(mask)
        got = pciplan.plan(pciplan.text(image), probe, IO, (0xe0000000, 0xe001ffff), PREF)
        spaces = {slot: bytearray(space) for slot, space in image.items()}
        for write in got.writes:
            space = spaces[write.bus, write.device, write.function]
            space[write.offset:write.offset + write.width] = write.value.to_bytes(write.width, 'little')
        self.assertTrue(pciplan.check(pciplan.text(spaces), probe).yes)

    def test_length(self):
        with self.assertRaisesRegex(ValueError, '00:01.0 has 255 bytes in place of 256'):
            pciplan.text({(0, 1, 0): bytes(255)})


class Library(unittest.TestCase):
    def test_another_version(self):
        """A library of another version is refused when the module is loaded."""
        source = pathlib.Path(pciplan.__file__).read_text().replace("__version__ = '0.", "__version__ = '7.")
        ended = subprocess.run([sys.executable, '-c', source], env=os.environ, capture_output=True, text=True)
        self.assertEqual(ended.returncode, 1)
        self.assertIn('ImportError: pciplan 7.5.0 needs a library of its version, and found 0.5.0', ended.stderr)


if __name__ == '__main__':
    unittest.main()
