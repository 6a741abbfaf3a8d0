"""Verdicts, lists of faults, plans and settlings of PCI dumps, by the shared library of pciplan.

    >>> import pciplan
    >>> pciplan.check(dump, probe)
    Verdict(yes=False, line='no 60 Unreached 01:00.0 10 mem 00000000e0000000 bridge 00:01.0')
    >>> pciplan.check(pciplan.text(images), pciplan.text(masks)).yes
    True

Dump and probe are bytes in the form that docs/FORMATS.md tells. `text` makes them of configuration spaces. `roots` are the
root buses, each above the one before it.

A `no` of `check` and `faults` is a value. `plan` and `settle` raise Fault where there is none. A text or a word that is none
raises Refused, and want of memory raises MemoryError.

The library is `libpciplan.so.0` as the dynamic linker finds it, or the file that PCIPLAN_LIBRARY names in the environment.
"""
import ctypes
import os
from collections import namedtuple

__version__ = '0.5.0'

_size = ctypes.c_size_t
_size_at = ctypes.POINTER(_size)
_bytes = ctypes.c_char_p

# PCIPLAN_LINE of the header: so long a line holds every answer.
_LINE = 96
# A list of faults that is longer is asked for twice.
_LIST = 4096
# A function has 16 writes at most, and 841 bytes of a dump at least: its slot, 16 rows of 52 bytes, and an empty line that
# the last may lack.
_WRITES, _FUNCTION = 16, 841
# A bridge has three windows.
_WINDOWS = 3


class _Pools(ctypes.Structure):
    _fields_ = [(pool + end, ctypes.c_uint64) for pool in ('io', 'mem', 'pref') for end in ('_first', '_last')]


class _Write(ctypes.Structure):
    _fields_ = [(name, ctypes.c_uint8) for name in ('bus', 'device', 'function', 'offset', 'width')]
    _fields_.append(('value', ctypes.c_uint32))


class _Denied(ctypes.Structure):
    _fields_ = [(name, ctypes.c_uint8) for name in ('bus', 'device', 'function', 'offset')]


class _Text(ctypes.Structure):
    _fields_ = [('at', _bytes), ('len', _size)]


class _FaultsWords(ctypes.Structure):
    _fields_ = [(name, _Text) for name in ('model', 'host_io', 'host_mem')] + [('why', ctypes.c_uint8)]


class _SettleWords(ctypes.Structure):
    _fields_ = [(name, _Text) for name in ('io', 'mem', 'pref', 'fixed', 'spare', 'slots', 'also')]
    _fields_.append(('anew', ctypes.c_uint8))


def _load():
    """The library, if the processor has what it needs and its version is the one of this module."""
    library = ctypes.CDLL(os.environ.get('PCIPLAN_LIBRARY', 'libpciplan.so.0'))
    library.pciplan_version.restype = ctypes.c_uint32
    library.pciplan_supported.restype = ctypes.c_uint8
    version = library.pciplan_version()
    found = '%d.%d.%d' % (version >> 16, version >> 8 & 255, version & 255)
    if found.split('.')[:2] != __version__.split('.')[:2]:
        raise ImportError('pciplan %s needs a library of its version, and found %s' % (__version__, found))
    if not library.pciplan_supported():
        raise ImportError('the processor lacks instructions that the library needs')
    texts = [_bytes, _size] * 3
    writes = [ctypes.POINTER(_Write), _size, _size_at, _size_at]
    line = [_bytes, _size, _size_at]
    library.pciplan_check.argtypes = texts + line
    library.pciplan_plan.argtypes = texts + [ctypes.POINTER(_Pools)] + writes + line
    denied = [ctypes.POINTER(_Denied), _size, _size_at]
    library.pciplan_settle.argtypes = texts + [ctypes.POINTER(_SettleWords)] + writes + denied + line
    library.pciplan_faults.argtypes = texts + [ctypes.POINTER(_FaultsWords)] + line
    for call in (library.pciplan_check, library.pciplan_faults, library.pciplan_plan, library.pciplan_settle):
        call.restype = ctypes.c_uint8
    return library


_library = _load()

Write = namedtuple('Write', 'bus device function offset width value')
Write.__doc__ = """A write of `width` little-endian bytes, 2 or 4, to the configuration register at `offset`."""

Denied = namedtuple('Denied', 'bus device function offset')
Denied.__doc__ = """A window in which a spare has no room: its bridge, and the offset of its first register."""

Plan = namedtuple('Plan', 'writes safe_from denied', defaults=((),))
Plan.__doc__ = """Writes in the order in which they are made. After `safe_from` of them or more one may stop anywhere.

`denied` has the windows of a settling whose spares have no room, the highest slot first.
"""


class Verdict(namedtuple('Verdict', 'yes line')):
    """What `check` answers: whether it is a yes, and its line, as 'no 58 Orphan 40:00.0'. A no is false."""

    __slots__ = ()

    def __bool__(self):
        return self.yes


class Listing(namedtuple('Listing', 'yes text')):
    """What `faults` answers: whether it is a yes, and its text, which is `yes` or has the faults. A list of faults is false."""

    __slots__ = ()

    def __bool__(self):
        return self.yes


class Fault(Exception):
    """There is no plan or settling. `line` says why, as 'no 72 NoRoom mem'; `number` is the number of the fault."""

    def __init__(self, line):
        super().__init__(line)
        self.line = line
        self.number = int(line.split()[1])


class Refused(ValueError):
    """A text or a word is none; the message is that of the program, as 'dump: 5 BadLine 17' or 'pool mem'."""


def check(dump, probe, roots=(0,)):
    """The verdict on a dump and its probe."""
    line, used = ctypes.create_string_buffer(_LINE), _size()
    status = _library.pciplan_check(*_texts(dump, probe, roots), line, _LINE, ctypes.byref(used))
    return Verdict(status == 0, _said(status, line, used))


def faults(dump, probe, roots=(0,), model='', host_io='', host_mem='', why=True):
    """All faults of a dump and its probe, each with its reason where `why` is true.

    model has the words by which functions are taken, as 'power,reset' or 'all'. host_io and host_mem are the lists of what the
    host sends to its root buses, as '0-cf7,d00-ffff'. A word that is empty isn't said. They are those of the command line.
    """
    words = _FaultsWords(*_words(model, host_io, host_mem), why)
    room = _LIST
    while True:
        text, used = ctypes.create_string_buffer(room), _size()
        status = _library.pciplan_faults(*_texts(dump, probe, roots), ctypes.byref(words), text, room, ctypes.byref(used))
        if status != 4:
            return Listing(status == 0, _said(status, text, used))
        room = used.value


def plan(dump, probe, io, mem, pref, roots=(0,)):
    """The plan that places all anew in three pools, each (first, last)."""
    return _written(_library.pciplan_plan, dump, probe, roots, _Pools(*io, *mem, *pref))


def settle(dump, probe, io='none', mem='none', pref='none', fixed='', anew=False, roots=(0,), spare='', slots='', also=b''):
    """The plan that leaves what works and places the rest in lists, in words as on the command line.

    io, mem and pref are lists as '1000-ffff' or '00:e0000000-e7ffffff,e8000000-e8ffffff'. fixed lists the slots of which no
    register may be written, as '00:1f.0,01:00.0'. Where anew is true, nothing stays where it is but told ranges and what leads
    to them.

    spare says what is wanted behind each hot-plug slot, as 'io:1000,mem:200000'. slots lists the bridges that have one, as
    '00:1c.0'; where it is empty, they are those of the dump whose registers say so.

    also is a text of ranges that functions answer beside their BARs and ROMs: the bytes of the file of `--also`. Nothing is
    placed on these.
    """
    words = _SettleWords(*_words(io, mem, pref, fixed, spare, slots), _Text(also, len(also)), anew)
    room = _WINDOWS * (len(dump) // _FUNCTION + 1)
    denied, count = (_Denied * room)(), _size()
    plan = _written(_library.pciplan_settle, dump, probe, roots, words, denied, room, ctypes.byref(count))
    return plan._replace(denied=tuple(Denied(*(getattr(d, name) for name in Denied._fields)) for d in denied[:count.value]))


def text(images):
    """The text of configuration spaces, {(bus, device, function): 256 bytes}."""
    parts = []
    for (bus, device, function), image in sorted(images.items()):
        image = bytes(image)
        if len(image) != 256:
            raise ValueError('%02x:%02x.%x has %d bytes in place of 256' % (bus, device, function, len(image)))
        parts.append('%02x:%02x.%x\n' % (bus, device, function))
        parts += ['%02x: %s\n' % (at, image[at:at + 16].hex(' ')) for at in range(0, 256, 16)]
        parts.append('\n')
    return ''.join(parts).encode()


def _words(*words):
    return [_Text(word.encode(), len(word.encode())) for word in words]


def _texts(dump, probe, roots):
    roots = bytes(roots)
    return dump, len(dump), probe, len(probe), roots, len(roots)


def _said(status, line, used):
    """What stands in the line or text at the statuses 0 to 2. Each is long enough here, so 4 doesn't come for its sake."""
    if status > 2:
        raise MemoryError('pciplan')
    said = line.raw[:used.value].decode().rstrip('\n')
    if status == 2:
        raise Refused(said)
    return said


def _written(call, dump, probe, roots, asked, *denied):
    room = _WRITES * (len(dump) // _FUNCTION + 1)
    writes, count, safe_from = (_Write * room)(), _size(), _size()
    line, used = ctypes.create_string_buffer(_LINE), _size()
    status = call(*_texts(dump, probe, roots), ctypes.byref(asked), writes, room, ctypes.byref(count),
                  ctypes.byref(safe_from), *denied, line, _LINE, ctypes.byref(used))
    if status != 0:
        raise Fault(_said(status, line, used))
    return Plan([Write(*(getattr(w, name) for name in Write._fields)) for w in writes[:count.value]], safe_from.value)
