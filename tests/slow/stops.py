"""Writes that stop: what stands after each beginning of them is judged.

From `safe from` on each beginning leaves a sound board, and all of them leave the answer. `safe from` is 0 where the
board is sound at the start, else the number of writes that close. Where ranges are told, a board is sound where no fault
is found with them.
"""

from judge import faults, verdict
from model import dump_text, write, write_text
from regions import Given


def after(functions, made):
    """The functions after one write."""
    slot, offset, width, value = made
    left = []
    for f in functions:
        if f.slot == slot:
            f = f.copy()
            write(f, offset, width, value)
        left.append(f)
    return left


def beginnings(functions, writes):
    """What stands after none of the writes, after one, and so on."""
    states = [functions]
    for made in writes:
        states.append(after(states[-1], made))
    return states


def is_sound(functions, roots, told=()):
    """Whether the slow judge says yes."""
    if told:
        return faults(functions, None, Given(roots, told=told)) == 'yes\n'
    return verdict(functions, None, roots) == 'yes\n'


def safe_from(functions, roots, plan, told=()):
    """From how many writes on a stop is sound."""
    return 0 if is_sound(functions, roots, told) else plan.closings


def stop_fault(functions, roots, plan, accepts, told=()):
    """What is wrong with a stop of a plan's writes, or none; `accepts` asks the program about a board and a place."""
    states = beginnings(functions, plan.writes)
    first = safe_from(functions, roots, plan, told)
    for done, state in enumerate(states):
        sound = is_sound(state, roots, told)
        if first <= done and not sound:
            return 'after %d writes the board is not sound, safe from %d' % (done, first)
        if accepts(state, done) not in (None, sound):
            return 'after %d writes program and slow judge disagree' % done
        if done and dump_text(state) == dump_text(states[done - 1]):
            return 'write %d changes nothing: %s' % (done, write_text(*plan.writes[done - 1]))
    if dump_text(states[-1]) != dump_text(plan.functions):
        return 'the writes do not lead to the answer'
    return None
