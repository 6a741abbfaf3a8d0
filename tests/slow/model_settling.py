"""What `settle --model` answers, slowly: functions are settled as a user's words take them.

- `settled_by_words(functions, asked)`: what is answered of an `Asked`, as a `Settled`.
- `unmoved_slots(functions, names)`: the slots of functions that stay as they are.
- `left_out_slots(functions, names)`: those of them that are devices and are left out of what is settled.
- `told_lines(functions, asked, left)`: the lines with which it is settled, each as a `Line` of off_devices.py.

What sleeps, or is behind what sleeps, stays as it is. So does a bridge in reset, one without bus numbers, and one of which
`windows` takes a window as it is shown. These functions are fixed.

Of a device among them that is off, in the dump too, nothing is looked at but what it shows. That is told as `command`
lines, but for what is at address 0. Where the lines would be too many, no device is left out.

Legacy and palette parts of bridges are `held` lines of their bridges, whether or not Command enables them. So the functions
as the words take them are settled. Of Command bits 0 and 1 are written alone. At last `faults` judges the result by the same
words: what it finds is the answer.
"""

import copy
from collections import namedtuple

from early import has_window_fault
from judge import early_faults, faults
from model import COMMAND, IO, MEM, WINDOWS, bit, put_number, slot_text
from off_devices import Line, device_lines, left_out, without_registers
from planner import Fault, Plan, bridges_above
from regions import Given, ToldRange, legacy_ranges, palette_ranges
from settler import named
from spares import NOTHING, has_hot_plug_slot, settle_sparing
from told_settling import telling
from words import legacy_parts, names_of, palette_parts, sleepers, taken

# what is asked: a request of the settler, the words of `--model`, spares and slots, and the lines of a text
Asked = namedtuple('Asked', 'request words wanted told', defaults=(NOTHING, ()))

# what is answered: a plan for the functions as they are or a `Fault`, and the denied spares
Settled = namedtuple('Settled', 'plan denied')

# more lines than these, those of a text, of devices and of claims, are refused
LINES_MAX = 4096
TOO_MANY = '77 TooManyRanges'


# ---- what stays as it is

def is_unmoved(f, now, names, now_asleep, above):
    """Whether a function stays as it is, which the words take as `now`, with these bridges above it."""
    if any(g.slot in now_asleep for g in [f] + above):
        return True
    if f.is_bridge and not now.is_bridge:
        return True
    if f.is_bridge and 'reset' in names and bit(f.bridge_control, 6):
        return True
    return 'windows' in names and now.is_bridge and any(has_window_fault(f, kind) for kind in WINDOWS)


def unmoved_slots(functions, names):
    """The slots of functions that stay as they are."""
    functions_taken, asleep = taken(functions, names), sleepers(functions, names)
    return {f.slot for f, now in zip(functions, functions_taken)
            if is_unmoved(f, now, names, asleep, bridges_above(functions_taken, f.slot[0]))}


def left_out_slots(functions, names):
    """The slots of devices that are left out of what is settled."""
    return left_out(functions, taken(functions, names), unmoved_slots(functions, names))


# ---- lines

def claims(functions, names):
    """The `held` lines of the legacy and palette parts of bridges."""
    found = []
    for slot, is_wide in legacy_parts(functions, names).items():
        found += [(slot, space, span) for space in (IO, MEM) for span in legacy_ranges(is_wide, space)]
    for slot, is_wide in palette_parts(functions, names).items():
        found += [(slot, IO, span) for span in palette_ranges(is_wide)]
    return [Line(ToldRange(0, slot, space, span, 'held')) for slot, space, span in found]


def with_number(told, n):
    """A line of a text as line n."""
    new = copy.copy(told)
    new.n = n
    return new


def told_lines(functions, asked, left):
    """The lines by slot, and numbered so: those of the text, of devices at the slots `left`, and of bridges, in this order."""
    names = names_of(asked.words)
    devices = device_lines(taken(functions, names), left)
    lines = [Line(told, number=told.n) for told in asked.told] + devices + claims(functions, names)
    ordered = sorted(lines, key=lambda line: line.told.slot)
    return [line._replace(told=with_number(line.told, n)) for n, line in enumerate(ordered, 1)]


# ---- the answer

def early_fault(functions, asked):
    """The first fault that is looked for before settling, or none."""
    lines = early_faults(functions, None, Given(asked.request.roots, told=asked.told), asked.words)
    return Fault(lines[0], None, 'early') if lines else None


def as_listed(functions, made):
    """A write for the functions as they are: Command keeps all bits but 0 and 1."""
    slot, offset, width, value = made
    if offset == COMMAND:
        value = [f.command for f in functions if f.slot == slot][0] & ~3 | value & 3
    return slot, offset, width, value


def plan_as_listed(functions, plan):
    """A plan of functions as words take them, for the functions as they are: the bytes of each write are put in."""
    writes = [as_listed(functions, made) for made in plan.writes]
    written = [f.copy() for f in functions]
    for slot, offset, width, value in writes:
        for f in written:
            if f.slot == slot:
                put_number(f.image, offset, width, value)
    return Plan(written, writes, plan.closings)


def with_slots(functions, wanted):
    """What is wanted, with the bridges that have a slot: without a list the registers of the functions as they are say it."""
    if wanted.slots is not None:
        return wanted
    return wanted._replace(slots=[f.slot for f in functions if f.is_bridge and has_hot_plug_slot(f.image)])


def users_fault(fault, lines):
    """A fault, as the user is told of it: a line has the number that it has in the text, or is a register of its device."""
    if not fault.text.startswith('75 '):
        return fault
    line = lines[int(fault.text.split('+')[1]) - 1]
    if line.register is not None:
        return Fault('74 Fixed ' + named(line.told.slot, line.register), None, '74 for a line')
    return fault._replace(text='75 Told %s +%d' % (slot_text(line.told.slot), line.number))


def settled_taken(functions, asked):
    """What is answered where no fault was found early, before the result is judged."""
    names = names_of(asked.words)
    left = left_out_slots(functions, names)
    lines = told_lines(functions, asked, left)
    if len(lines) > LINES_MAX:
        left = set()
        lines = told_lines(functions, asked, left)
    functions_taken = without_registers(taken(functions, names), left)
    request = asked.request._replace(fixed=sorted(set(asked.request.fixed) | unmoved_slots(functions, names)))
    if len(lines) > LINES_MAX:
        return Settled(Fault(TOO_MANY, None, '77'), [])
    sparing = settle_sparing(functions_taken, request, with_slots(functions, asked.wanted),
                             telling([line.told for line in lines]))
    if isinstance(sparing.plan, Fault):
        return Settled(users_fault(sparing.plan, lines), [])
    return Settled(plan_as_listed(functions, sparing.plan), sparing.denied)


def settled_by_words(functions, asked):
    """The plan for the functions as they are or why there is none, and the denied spares."""
    fault = early_fault(functions, asked)
    if fault:
        return Settled(fault, [])
    found = settled_taken(functions, asked)
    if isinstance(found.plan, Fault):
        return found
    judged = faults(found.plan.functions, None, Given(asked.request.roots, told=asked.told), asked.words)
    if judged != 'yes\n':
        line = judged.splitlines()[0]
        return Settled(Fault(line, None, 'judged ' + line[:2]), [])
    return found
