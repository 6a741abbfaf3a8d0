"""Devices that `settle --model` leaves as they are, and that decode nothing, neither now nor once they wake.

A device that sleeps and is off is one. They are left out of what is settled, and what they show is told beside it.

- `Line`: a range with which it is settled, and where it comes from.
- `left_out(functions, functions_taken, unmoved)`: the slots of these devices, where those at `unmoved` stay as they are.
- `without_registers(functions_taken, slots)`: the functions, without the address registers of those at some slots.
- `device_lines(functions_taken, slots)`: what is told of those at some slots.
"""

from collections import namedtuple

from model import IO, assumed
from regions import ToldRange

# a `ToldRange`; the number of the user's line that it is, or the register of a device that shows it: of a bridge neither
Line = namedtuple('Line', 'told number register', defaults=(None, None))


# ---- which they are

def is_off_device(f):
    """Whether it is a device whose Command enables neither space."""
    return f.layout == 0 and f.command & 3 == 0


def left_out(functions, functions_taken, unmoved):
    """The slots of such devices that stay as they are, and that are off in the dump, too.

    Where a size is assumed nothing is told by it.
    """
    return {now.slot for f, now in zip(functions, functions_taken)
            if f.slot in unmoved and is_off_device(f) and is_off_device(now) and not assumed(now)}


# ---- what is settled

def without_registers(functions_taken, slots):
    """The functions, where the address registers of those at some slots show and read back 0."""
    found = [f.copy() for f in functions_taken]
    for f in found:
        if f.slot in slots:
            for image in (f.image, f.probe):
                image[0x10:0x28] = bytes(24)
                image[0x30:0x34] = bytes(4)
    return found


# ---- what is told

def part_lines(part):
    """The lines of a part: none of one at address 0, as that was never placed."""
    if not part.first:
        return []
    space = IO if part.space == IO else 'pref' if part.prefetchable else 'mem'
    return [Line(ToldRange(0, part.function.slot, space, (part.first, part.last), 'command'), register=part.register)]


def shown_parts(f):
    """The BARs of a device, and its ROM where the ROM's own bit is set."""
    return f.bars() + [rom for rom in f.rom() if rom.value & 1]


def device_lines(functions_taken, slots):
    """The lines of devices at some slots."""
    return [line for f in functions_taken if f.slot in slots for part in shown_parts(f) for line in part_lines(part)]
