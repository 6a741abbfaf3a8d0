"""Boards made by rule that are settled by the words of `--model`: what words are about is put on boards of the settler.

Bridges have ISA Enable, VGA Enable or palette snooping, hold an empty bus in reset, or have the class of subtractive
decode. Some windows can't be written. Functions sleep. There are IDE controllers, CardBus bridges, and bridges without bus
numbers. Beside some boards ranges are told, and on some spares are wanted. Each third board is a small one of
model_settling_crowds.py.

- `worded_board(seed)`: the functions of a board, and the `Asked`; or none.
"""

from growth_laws import tight_board
from judge import early_faults
from model import BRIDGE_CONTROL, CLASS, COMMAND, HEADER, WINDOWS, put_bounds, put_number, window_bounds
from model_settling import Asked
from model_settling_crowds import crowded_board, put_to_sleep
from moving_boards import Board, Rule
from regions import Given
from spares import NOTHING, Wanted
from told_settling_boards import Teller
from words import NAMES, is_anyone_behind, names_of, taken

SPARE = {'io': 0x1000, 'mem': 0x200000, 'pref': 0x100000}


def stick(rule, f, kind):
    """A window that reads back what it shows: it can't be written."""
    bounds = window_bounds(f.image, kind)
    if kind == 'mem' and rule.one_in(3):
        put_bounds(f.image, kind, (0, 0, 0, 0))
        put_bounds(f.probe, kind, (0, 0, 0, 0))
    elif any(bounds):
        put_bounds(f.probe, kind, bounds)


def decorate_bridge(rule, functions, f):
    """What words are about of a bridge."""
    is_empty = not is_anyone_behind(functions, f)
    if rule.one_in(4):
        put_number(f.image, BRIDGE_CONTROL, 2, rule.one_of([8, 0x18, 0x18, 8]))
    if rule.one_in(4):
        put_number(f.image, BRIDGE_CONTROL, 2, f.bridge_control | 4)
    if rule.one_in(8):
        put_number(f.image, COMMAND, 2, f.command | 0x20)
    if rule.one_in(6):
        put_number(f.image, CLASS, 3, 0x060401)
    if is_empty and rule.one_in(3):
        put_number(f.image, BRIDGE_CONTROL, 2, f.bridge_control | 0x40)
    if rule.one_in(10):
        stick(rule, f, rule.one_of(WINDOWS))


def decorate_device(rule, f):
    """What words are about of a device."""
    if rule.one_in(8):
        put_number(f.image, COMMAND, 2, f.command | 0x20)
    if rule.one_in(8):
        put_number(f.image, CLASS, 3, rule.one_of([0x010180, 0x010185]))


def decorate(rule, functions):
    """What words are about, on all functions."""
    for f in functions:
        f.image[BRIDGE_CONTROL:BRIDGE_CONTROL + 2] = bytes(2)
        f.titles = ('', '') if not rule.one_in(4) else f.titles
        if f.layout == 2:
            continue
        if f.is_bridge:
            decorate_bridge(rule, functions, f)
        else:
            decorate_device(rule, f)
        # a bridge that was never placed seldom sleeps: it can't stay as it is
        if rule.one_in(12 if f.is_bridge else 6) and (f.command & 3 or not f.is_bridge or rule.one_in(6)):
            put_to_sleep(f)


def add_one(rule, board):
    """Adds a bridge without bus numbers, or a CardBus bridge, at a slot that is free."""
    slot = rule.one_of(board.roots), 21, 0
    if any(f.slot[:2] == slot[:2] for f in board.functions):
        return
    f = rule.function(slot, (0, 0, 0))
    for window in f.windows():
        nibble = window_bounds(f.probe, window.window)[0] & 15
        page = 0xF0 if window.window == 'io' else 0xFFF0
        put_bounds(f.image, window.window, (page + nibble, nibble, 0, 0))
    f.image[0x38] &= 0xFE
    if rule.one_in(2):
        f.probe = bytearray(256)
        f.image[HEADER] = 2
    board.functions.append(f)
    board.functions.sort(key=lambda g: g.slot)


def carry_over(functions, olds, news):
    """Puts BARs that a teller changed in functions as the words take them into the functions as they are."""
    for f, old, new in zip(functions, olds, news):
        for at in range(0x10, 0x10 + 4 * f.bar_count):
            if (old.image[at], old.probe[at]) != (new.image[at], new.probe[at]):
                f.image[at], f.probe[at] = new.image[at], new.probe[at]


def lines_beside(rule, functions, request, words):
    """Lines that are told beside a board: none where a fault is found before judging."""
    if early_faults(functions, None, Given(request.roots), words):
        return []
    olds, news = (taken(functions, names_of(words)) for _ in range(2))
    told = Teller(rule, Board(news, request.roots), request._replace(fixed=[])).tell()
    carry_over(functions, olds, news)
    return told


def drawn_words(rule):
    """The words of a board: most of them, in the order of the alphabet."""
    names = [name for name in NAMES if name not in ('vga', 'vga16') and not rule.one_in(12)]
    names += [rule.one_of(['vga', 'vga16', 'vga16'])]
    return 'all' if rule.one_in(5) else ','.join(sorted(names))


def worded_board(seed):
    """The functions of a board, and what is asked; or none."""
    if seed % 3 == 2:
        return crowded_board(seed)
    made = tight_board(seed) if seed % 4 else None
    if made:
        rule, board, request = made
    else:
        rule = Rule(seed + 7000000)
        board = rule.board()
        request = rule.request(board)
    if rule.one_in(3):
        add_one(rule, board)
    if not board.functions:
        return None
    decorate(rule, board.functions)
    words = drawn_words(rule)
    told = lines_beside(rule, board.functions, request, words) if rule.one_in(3) else []
    bridges = [f.slot for f in board.functions if f.is_bridge and rule.one_in(2)]
    wanted = Wanted(SPARE, bridges) if rule.one_in(4) else NOTHING
    return board.functions, Asked(request, words, wanted, told)
