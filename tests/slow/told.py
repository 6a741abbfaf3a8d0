"""The slow reader of the text of what functions answer beside their BARs.

A line is `S SPACE A-B MARK [NAME]`. `judge(bytes)` answers the ranges of a text, or the number and the line of its fault.
It asks of ever longer beginnings whether they are good, and shares nothing with the reader.
"""

import re
import sys

LINES_MAX = 4096

BAD_SLOT, BAD_LINE, ORDER, TOO_MANY, ENDED = 3, 5, 7, 8, 9
NAMES = {BAD_SLOT: 'BadSlot', BAD_LINE: 'BadLine', ORDER: 'Order', TOO_MANY: 'TooMany', ENDED: 'Ended'}

HEX = b'[0-9a-f]'
SLOT = HEX + b'{2}:[01]' + HEX + rb'\.[0-7]'
IO_RANGE = b'io ' + HEX + b'{8}-' + HEX + b'{8}'
MEMORY_RANGE = b'(?:mem|pref) ' + HEX + b'{16}-' + HEX + b'{16}'
HEAD = re.compile(b'(' + SLOT + b') (' + IO_RANGE + b'|' + MEMORY_RANGE + b')')
LINE = re.compile(b'(' + SLOT + b') (' + IO_RANGE + b'|' + MEMORY_RANGE + b') (command|always|held)(?: ([!-~]{1,32}))?\n')

# a line of each length up to its name; a cut line goes on like one of them, or like a name
HEADS = [b'00:00.0 io ' + b'-'.join([b'0' * 8] * 2), b'00:00.0 mem ' + b'-'.join([b'0' * 16] * 2),
         b'00:00.0 pref ' + b'-'.join([b'0' * 16] * 2)]
LINES = [head + tail for head in HEADS for tail in (b' command\n', b' always\n', b' held\n')]


def begins_a_line(part):
    """Whether bytes are less than some line, of any slot and with a range that may be backward."""
    rests = [line[len(part):] for line in LINES] + [b'\n', b'!\n']
    return any(rest and LINE.fullmatch(part + rest) for rest in rests)


def slot_number(slot):
    """The slot as a number that orders slots."""
    return int(slot[0:2], 16) * 256 + int(slot[3:5], 16) * 8 + int(slot[6:7])


def is_backward(head):
    """Whether the range at the end of a line's head is backward."""
    first, last = head.split(b' ')[2].split(b'-')
    return int(last, 16) < int(first, 16)


def range_of(line):
    """The range that a line tells of."""
    slot, addresses, mark, name = LINE.fullmatch(line).groups()
    space, span = addresses.split(b' ')
    first, last = span.split(b'-')
    return (slot.decode(), space.decode(), int(first, 16), int(last, 16), mark.decode(), (name or b'').decode())


def judge(text):
    """The ranges of a text, as (slot, space, first, last, mark, name), or the number and the line of its fault."""
    ranges, last_slot, begin = [], None, 0
    for place in range(len(text)):
        part = text[begin:place + 1]
        line = len(ranges) + 1
        if len(ranges) == LINES_MAX:
            return TOO_MANY, line
        whole = LINE.fullmatch(part)
        if not whole and not begins_a_line(part):
            return (BAD_SLOT if len(part) <= 8 else BAD_LINE), line
        if len(part) == 7 and last_slot is not None and slot_number(part) < last_slot:
            return ORDER, line
        if HEAD.fullmatch(part) and is_backward(part):
            return ORDER, line
        if whole:
            ranges.append(range_of(part))
            last_slot, begin = slot_number(part[0:7]), place + 1
    if begin != len(text):
        return ENDED, len(ranges) + 1
    return ranges


def message(answer):
    """A fault as it is told."""
    number, line = answer
    return '%d %s %d' % (number, NAMES[number], line)


GOOD = b'00:1f.1 io 000001f0-000001f7 command\n'

# texts, and what is told of them; None of those that are whole
EXAMPLES = [
    (b'', None),
    (GOOD, None),
    (GOOD + GOOD, None),
    (b'00:1f.1 io 000001f0-000001f7 command', '9 Ended 1'),
    (b'00:1f.1  io 000001f0-000001f7 command\n', '5 BadLine 1'),
    (b'00:1F.1 io 000001f0-000001f7 command\n', '3 BadSlot 1'),
    (b'00:1f.1 io 1f0-1f7 command\n', '5 BadLine 1'),
    (b'00:1f.1 io 000001f7-000001f0 command\n', '7 Order 1'),
    (b'00:1f.1 mem 000001f0-000001f7 command\n', '5 BadLine 1'),
    (b'00:1f.1 io 000001f0-000001f7 on\n', '5 BadLine 1'),
    (b'00:1f.1 io 000001f0-000001f7 command \n', '5 BadLine 1'),
    (b'00:1f.1 io 000001f0-000001f7 command ' + b'n' * 32 + b'\n', None),
    (b'00:1f.1 io 000001f0-000001f7 command ' + b'n' * 33 + b'\n', '5 BadLine 1'),
    (b'00:1f.1 io 000001f0-000001f7 command two words\n', '5 BadLine 1'),
    (b'00:1f.1 io 000001f0-000001f7 held\n00:1e.0 io 00000170-00000177 held\n', '7 Order 2'),
    (b'00:1f.1 io 000001f0-000001f7 held\n\n', '3 BadSlot 2'),
    (b'00:1f.1 pref 0000000100000000-00000000ffffffff always\n', '7 Order 1'),
    (b'00:1f.1 mem 00000000ffffffff-0000000100000000 always smbus\n', None),
    (b'ff:1f.7 io 00000000-ffffffff held !~\n', None),
    (b'00:20.0 io 00000000-ffffffff held\n', '3 BadSlot 1'),
    (b'00:1f.8 io 00000000-ffffffff held\n', '3 BadSlot 1'),
    (GOOD * 4096, None),
    (GOOD * 4097, '8 TooMany 4097'),
    (GOOD * 4096 + b'x', '8 TooMany 4097'),
]


def main():
    """Checks the examples, and each beginning of a text: it lacks its end, or ends with a line."""
    wrong = 0
    for text, told in EXAMPLES:
        answer = judge(text)
        if (None if isinstance(answer, list) else message(answer)) != told:
            print('%r: %r, and not %r' % (text[:60], answer, told))
            wrong += 1
    text = GOOD + b'00:1f.2 pref 00000000fe000000-00000000fe0fffff always smbus\n'
    for cut in range(len(text)):
        lines = text[:cut].count(b'\n')
        answer = judge(text[:cut])
        whole = text[:cut].endswith(b'\n') or cut == 0
        if (len(answer) != lines) if whole else (answer != (ENDED, lines + 1)):
            print('%d bytes: %r' % (cut, answer))
            wrong += 1
    print('%d examples, %d wrong' % (len(EXAMPLES) + len(text), wrong))
    return 1 if wrong else 0


if __name__ == '__main__':
    sys.exit(main())
