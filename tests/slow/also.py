"""What is told beside dump and probe: from its text to told ranges, and back.

- `told_ranges(text)`: the ranges that a good text tells of.
- `told_text(ranges)`: the text of ranges whose slots don't fall. `numbered(ranges)`: these by line, the slots in order.
- `answers(functions, probe_slots, given, words)`: what `faults`, `faults --why` and `map` print.
"""

from address_map import map_text, no_map
from judge import early_faults, judging, list_text, system_of
from model import IO, slot_of, slot_text
from regions import ToldRange
from told import judge
from why import reasoned_text


def told_ranges(text):
    """The ranges that a good text tells of."""
    ranges = []
    for n, (slot, space, first, last, mark, title) in enumerate(judge(text.encode('latin-1')), 1):
        told = ToldRange(n, slot_of(slot), space, (first, last), mark)
        told.title = title
        ranges.append(told)
    return ranges


def line_of(told):
    """The line of a told range."""
    space = 'pref' if told.prefetchable else told.space
    digits = 8 if told.space == IO else 16
    words = [slot_text(told.slot), space, '%0*x-%0*x' % (digits, told.first, digits, told.last), told.mark]
    return ' '.join(words + ([told.title] if told.title else [])) + '\n'


def told_text(ranges):
    """The text of told ranges."""
    return ''.join(line_of(told) for told in ranges)


def numbered(ranges):
    """Told ranges with their slots in order, each with the number of its line."""
    ordered = sorted(ranges, key=lambda told: told.slot)
    for n, told in enumerate(ordered, 1):
        told.n = n
    return ordered


def answers(functions, probe_slots, given, words):
    """What `faults`, `faults --why` and `map` print."""
    lines = early_faults(functions, probe_slots, given, words)
    if lines:
        return list_text(lines), list_text(lines), no_map(lines)
    system = system_of(functions, given, words)
    found = judging(system)
    return list_text([fault.line for fault in found]), reasoned_text(system, found), map_text(system)
