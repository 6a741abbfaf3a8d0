"""Laws of settling by words: what is left out of it is kept off, and what sleeps can wake.

A case is a `Settling` of model_settling_laws.py, of which something is settled. What is left out are devices that are off
and stay as they are. Each law answers what doesn't hold, or none.

- `kept_off_fault(case)`: nothing is placed on what a device that is left out shows.
- `waking_fault(case)`: once all wakes nothing clashes with what was written, but what is told and claims.
- `beside_fault(case)`: nothing that is on shares an address with what a device answers once it wakes.
- `reach_fault(case)`: what a device answers once it wakes is reached where it was before.
"""

from judge import early_faults, judging, system_of
from model import capabilities, slot_text
from model_settling import unmoved_slots
from words import sleepers, taken


# ---- parts of devices that are left out

def is_implied(part):
    """Whether it is a BAR, or a ROM whose own bit is set."""
    return part.kind == 'bar' or part.kind == 'rom' and part.value & 1 == 1


def is_off(f):
    """Whether it is a device whose Command enables neither space."""
    return f.layout == 0 and f.command & 3 == 0


def left_out_devices(case):
    """Those of the functions as the words take them, worked out from their registers."""
    unmoved, now = unmoved_slots(case.functions, case.names), taken(case.functions, case.names)
    return [f for listed, f in zip(case.functions, now)
            if f.slot in unmoved and is_off(listed) and is_off(f) and not f.titles[1].startswith('assumed ')]


def shown(case):
    """The parts of devices that are left out, but for those at address 0."""
    return [part for f in left_out_devices(case) for part in f.parts() if is_implied(part) and part.first]


def answering(case):
    """The parts that a device answers once it wakes."""
    asleep, now = sleepers(case.functions, case.names), taken(case.functions, case.names)
    return [part for listed, f in zip(case.functions, now) for part in f.parts()
            if f.slot in asleep and is_implied(part) and listed.is_on(part.space)]


def are_beside(case, bus, other):
    """Whether two buses are one, as all roots are."""
    return bus == other or (bus in case.request.roots and other in case.request.roots)


# ---- what is placed

def new_spans(part, before):
    """The addresses of a part that it hadn't: of a window that grew those where it is new."""
    if part.is_closed or (part.first, part.last) == (before.first, before.last):
        return []
    if part.kind != 'window' or before.is_closed or before.last < part.first or part.last < before.first:
        return [(part.first, part.last)]
    spans = [(part.first, before.first - 1), (before.last + 1, part.last)]
    return [(first, last) for first, last in spans if first <= last]


def kept_off_fault(case):
    """Nothing is placed on what a device that is left out shows, whether or not it answers that once it wakes."""
    olds, news = (taken(functions, case.names) for functions in (case.functions, case.plan.functions))
    placed = [(part, span) for old, new in zip(olds, news)
              for part, before in zip(new.parts(), old.parts()) for span in new_spans(part, before)]
    for kept in shown(case):
        for part, (first, last) in placed:
            if part.space == kept.space and are_beside(case, part.function.slot[0], kept.function.slot[0]) \
                    and first <= kept.last and kept.first <= last:
                return '%s %02x is placed on what %s shows' % (
                    slot_text(part.function.slot), part.register, slot_text(kept.function.slot))
    return None


# ---- waking

def woken(functions, asleep):
    """The functions once those that sleep are awake."""
    found = [f.copy() for f in functions]
    for f in found:
        for place in capabilities(f.image) if f.slot in asleep else []:
            if f.image[place] == 1:
                f.image[place + 4] &= 0xFC
    return found


def awake_faults(case, functions):
    """The faults 60 to 62 of the functions once all wakes; or none, where another one comes before."""
    awake = woken(functions, sleepers(case.functions, case.names))
    if early_faults(awake, None, case.given, case.words):
        return None
    return judging(system_of(awake, case.given, case.words))


def waking_fault(case):
    """Once all wakes nothing clashes with what was written, but what is told and claims."""
    found = awake_faults(case, case.plan.functions) if sleepers(case.functions, case.names) else None
    unmoved = unmoved_slots(case.functions, case.names)
    for fault in found or []:
        if fault.number not in (61, 62):
            continue
        both = fault.region, fault.beside
        if any(one.kind in ('legacy', 'snoop', 'held', 'told') for one in both):
            continue
        if not all(one.slot in unmoved for one in both):
            return 'once all wakes: ' + fault.line
    return None


def beside_fault(case):
    """Nothing that is on shares an address with what a device answers once it wakes, but claims and what is held."""
    on = system_of(case.plan.functions, case.given, case.words).regions
    for part in answering(case):
        for region in on:
            if region.kind in ('legacy', 'snoop', 'held') or region.slot == part.function.slot:
                continue
            if region.space == part.space and are_beside(case, region.bus, part.function.slot[0]) \
                    and region.first <= part.last and part.first <= region.last:
                return '%s is on and shares an address with %02x of %s, which sleeps' % (
                    slot_text(region.slot), part.register, slot_text(part.function.slot))
    return None


# ---- reach

def unreached(case, functions):
    """The parts that aren't reached once all wakes, as (slot, register); or none, where another fault comes before."""
    found = awake_faults(case, functions)
    return None if found is None else {fault.region.name for fault in found if fault.number == 60}


def cut_off(case):
    """The parts of devices that could be reached before, once all wakes, and can't any more."""
    parts = answering(case)
    before = unreached(case, case.functions) if parts else None
    after = unreached(case, case.plan.functions) if parts else None
    if before is None or after is None:
        return []
    return [part for part in parts if (part.function.slot, part.register) in after - before]


def reach_fault(case):
    """What a device answers once it wakes is reached where it was before."""
    for part in cut_off(case):
        return '%s %02x, which sleeps, is not reached any more' % (slot_text(part.function.slot), part.register)
    return None
