#!/usr/bin/env python3
"""json_of.py COMMAND STATUS < answer: the document that `pciplan json COMMAND ..` prints of an answer.

COMMAND is check, faults, map, show, plan or settle (the last two of an answer with --writes). STATUS is that of the
answer. docs/FORMATS.md ("JSON") has the members. Each line is read by the form that docs/FORMATS.md gives for it.
json_of.py --all < answers reads many answers: each is a line `@ COMMAND STATUS`, its text, and a line `@@`.
json_of.py --changed < answers changes a digit of each line in turn, and tells which changes its document doesn't show.
json_of.py --schema SCHEMA < documents tells whether the schema takes each document."""
import json
import re
import sys

SPAN = r'(?P<span>[0-9a-f]+-[0-9a-f]+)'
PLACE = r'(?P<slot>\S+) (?P<register>[0-9a-f]{2})'
ADDRESS = r'(?P<space>io|mem) (?P<address>[0-9a-f]+)'
# a register, or the line of a told range
NUMBER = r'[0-9a-f]{2}|\+[1-9][0-9]*'
OF_REGION = r'(?P<slot>\S+) (?P<register>' + NUMBER + ')'
PAIR = r'(?P<slot1>\S+) (?P<register1>' + NUMBER + r') (?P<slot2>\S+) (?P<register2>' + NUMBER + ')'
OF_RANGE = r'(?P<slot>\S+) (?P<register>\+[1-9][0-9]*)'
SPACE = r' (?P<space>io|mem)(?P<pref> pref)? '
REGION = PLACE + r' (?P<part>bar|rom|window)' + SPACE + SPAN + r' \w+(?P<isa> isa)?'
TOLD = OF_RANGE + r' (?P<part>told|held)' + SPACE + SPAN + r' \w+( (?P<name>\S+))?'
FIXED = PLACE + r' (?P<part>vga|vga16|snoop|snoop16) (?P<space>io|mem) (?P<spans>[0-9a-f,-]+)(?P<each> of each 1K)?( \w+)?'


def span(text):
    first, last = text.split('-')
    return {'first': '0x' + first, 'last': '0x' + last, 'size': int(last, 16) - int(first, 16) + 1}


def span_or_one(text):
    return span(text if '-' in text else text + '-' + text)


def whole(pattern, line):
    found = re.fullmatch(pattern, line)
    if found is None:
        raise ValueError('a line of another form: ' + line)
    return found.groupdict()


def place(found, number=''):
    register = found['register' + number]
    named = {'line': int(register[1:])} if register.startswith('+') else {'register': '0x' + register}
    return {'slot': found['slot' + number], **named}


def address(found):
    return {'space': found['space'], 'address': '0x' + found['address']}


def pair(found):
    return {'regions': [place(found, '1'), place(found, '2')]}


def named(number, rest):
    """What the line of a fault names, behind its number and its name."""
    if number == 60:
        found = whole(OF_REGION + ' ' + ADDRESS + r' bridge (?P<bridge>\S+)', rest)
        return {**place(found), **address(found), 'bridge': found['bridge']}
    if number == 61:
        found = whole(r'bus (?P<bus>\S\S) ' + ADDRESS + ' ' + PAIR, rest)
        return {'bus': found['bus'], **address(found), **pair(found)}
    if number == 62:
        found = whole(ADDRESS + ' ' + PAIR, rest)
        return {**address(found), **pair(found)}
    if number == 63:
        found = whole(OF_REGION + ' ' + ADDRESS, rest)
        return {**place(found), **address(found)}
    if number in (70, 77):
        whole('', rest)
        return {}
    if number == 72:
        found = whole(r'(?P<class>io|mem|pref)( ' + PLACE + r'( (?P<size>[0-9a-f]+) (?P<align>[0-9a-f]+))?)?', rest)
        made = {'class': found['class']}
        if found['slot']:
            made.update(place(found))
        if found['size']:
            made.update(size=int(found['size'], 16), align=int(found['align'], 16))
        return made
    if number == 75:
        return place(whole(OF_RANGE, rest))
    found = whole(r'(?P<slot>\S+)( (?P<register>[0-9a-f]{2}))?', rest)
    return place(found) if found['register'] else {'slot': found['slot']}


def fault(line):
    found = whole(r'(?P<number>\d\d) (?P<name>[A-Za-z]+) ?(?P<rest>.*)', line)
    number = int(found['number'])
    return {'number': number, 'name': found['name'], 'text': line, **named(number, found['rest'])}


def end(found):
    """The name of a told range, or that ISA Enable cuts a window."""
    if found.get('name'):
        return {'name': found['name']}
    return {'isa': True} if found.get('isa') else {}


def region(text):
    found = whole(TOLD if text.split()[1].startswith('+') else REGION, text)
    return {**place(found), 'part': found['part'], 'space': found['space'], 'prefetchable': bool(found['pref']),
            **span(found['span']), **end(found)}


def claim(text):
    if not re.match(r'\S+ \S\S (vga|snoop)', text):
        return region(text)
    found = whole(FIXED, text)
    made = {**place(found), 'part': found['part'], 'space': found['space'],
            'ranges': [span_or_one(one) for one in found['spans'].split(',')]}
    if found['each']:
        made['each'] = 1024
    return made


def opening(word):
    return span(word) if '-' in word else word


def bridge(text):
    found = whole(r'(?P<slot>\S+) (?P<on>on|off) (?P<space>io|mem) (?P<window>\S+)( pref (?P<pref>\S+))?(?P<isa> isa)?'
                  r'(?P<unclaimed> unclaimed)?( (?P<legacy>vga\S*))?', text)
    made = {'slot': found['slot'], 'on': found['on'] == 'on', 'windows': {found['space']: opening(found['window'])}}
    if found['pref']:
        made['windows']['pref'] = opening(found['pref'])
    made.update({name: True for name in ('isa', 'unclaimed') if found[name]})
    if found['legacy']:
        made['legacy'] = found['legacy']
    return made


def reasons(lines):
    why, runs = {}, {'missed': [], 'shared': []}
    for line in lines:
        name, rest = line.split(' ', 1)
        if name in runs:
            runs[name].append(span(rest.split()[0]))
        elif name in ('needs', 'first', 'second'):
            why[name] = claim(rest)
        elif name == 'bridge':
            why[name] = bridge(rest)
        elif name == 'host':
            why[name] = [span(one) for one in rest.split()[1:] if one != 'none']
        elif name == 'fits':
            why[name] = None if rest == 'none' else opening(rest.split()[0])
        else:
            raise ValueError('a reason of another form: ' + line)
    why.update({name: spans for name, spans in runs.items() if spans})
    return why


def groups(lines):
    """Each line that isn't indented, with the indented lines behind it, which keep what is past their first two blanks."""
    made = []
    for line in lines:
        if line.startswith('  '):
            made[-1][1].append(line[2:])
        else:
            made.append((line, []))
    return made


def faults(lines):
    made, off = [], []
    for line, inner in groups(lines):
        if line.startswith('off '):
            off.append(region(line[4:]))
        elif line != 'yes':
            made.append({**fault(line), **({'why': reasons(inner)} if inner else {})})
    return {'faults': made, **({'off': off} if off else {})}


SITS = SPAN + r' \w+ (?P<part>bar|rom|window)(?P<pref> pref)? ' + PLACE + '(?P<isa> isa)?'
SITS_TOLD = SPAN + r' \w+ (?P<part>told|held)(?P<pref> pref)? ' + OF_RANGE + r'( (?P<name>\S+))?'
FREE = SPAN + r' \w+ (?P<part>free)'
FORMS = {'told': SITS_TOLD, 'held': SITS_TOLD, 'free': FREE}


def places(lines):
    made = []
    for line, inner in groups(lines):
        if line.startswith('unclaimed '):
            found = whole(r'unclaimed (?P<slot>\S+)', line)
            made.append({'part': 'unclaimed', 'slot': found['slot'], 'inside': places(inner)})
            continue
        found = whole(FORMS.get(' '.join(line.split()[2:3]), SITS), line)
        at = {'part': found['part'], **({'prefetchable': True} if found.get('pref') else {})}
        if found['part'] != 'free':
            at.update(place(found))
        at.update({**span(found['span']), **end(found)})
        if found['part'] == 'window':
            at['inside'] = places(inner)
        elif inner:
            raise ValueError('lines inside of ' + line)
        made.append(at)
    return made


def map_(lines):
    made = {'buses': [], 'outside': [], 'unreached': [], 'off': []}
    for line, inner in groups(lines):
        if line.startswith('bus '):
            _, bus, space = line.split()
            made['buses'].append({'bus': bus, 'space': space, 'regions': places(inner)})
        else:
            made[line] = places(inner)
    return made


def window(text):
    return {'state': 'open', **span(text)} if '-' in text else {'state': text}


def function(line, inner):
    head = line.split()
    made = {'slot': head[0], 'type': int(head[2]), **{head[at]: '0x' + head[at + 1] for at in range(3, 13, 2)}}
    lists = {'bars': [], 'windows': [], 'capabilities': []}
    singles = {}
    for text in inner:
        words = text.split()
        if words[0] == 'bar':
            lists['bars'].append({'register': '0x' + words[1], 'kind': words[2], 'prefetchable': words[3] == 'pref',
                                  **span(words[-1])})
        elif words[0] == 'rom':
            singles['rom'] = {'register': '0x' + words[1], 'on': words[2] == 'on', **span(words[3])}
        elif words[0] == 'bus':
            singles['bus'] = dict(zip(('primary', 'secondary', 'subordinate'), words[1:]))
        elif words[0] == 'window':
            lists['windows'].append({'register': '0x' + words[1], 'kind': words[2], **window(words[3])})
        else:
            lists['capabilities'].append({'at': '0x' + words[1], 'kind': words[2], 'text': ' '.join(words[3:])})
    windows = {'windows': lists['windows']} if lists['windows'] else {}
    return {**made, 'bars': lists['bars'], **singles, **windows, 'capabilities': lists['capabilities']}


def show(lines):
    return {'functions': [function(line, inner) for line, inner in groups(lines)]}


def writes(lines):
    made = []
    for line in lines:
        found = whole(r'(?P<slot>\S+) (?P<offset>\S\S)\.(?P<width>\d) (?P<value>[0-9a-f]+)', line)
        made.append({'slot': found['slot'], 'offset': '0x' + found['offset'], 'width': int(found['width']),
                     'value': '0x' + found['value']})
    return {'writes': made}


ANSWERS = {'check': lambda lines: {}, 'faults': faults, 'map': map_, 'show': show, 'plan': writes, 'settle': writes}


def document(command, status, lines):
    head = {'form': 1, 'command': command, 'status': status}
    if lines and lines[0].startswith('no '):
        why = {'why': {'text': lines[1][2:]}} if len(lines) > 1 else {}
        return {**head, 'fault': {**fault(lines[0][3:]), **why}}
    return {**head, **ANSWERS[command](lines)}


def text_of(command, status, lines):
    return json.dumps(document(command, status, lines), separators=(',', ':'))


def answers(source):
    """The answers of a text: each a line `@ COMMAND STATUS`, its lines, and a line `@@`."""
    for line in source.read().splitlines():
        if line == '@@':
            yield command, int(status), lines
        elif line.startswith('@ '):
            _, command, status = line.split()
            lines = []
        else:
            lines.append(line)


def changed(lines, number):
    """The lines with one digit changed: the last hex digit of an address, a register or a value of line `number`."""
    digits = '0123456789abcdef'
    found = re.search(r'[0-9a-f](?=(-| |$|\.4|\.2))', lines[number][4:])
    if found is None:
        return None
    at = found.start() + 4
    digit = digits[(digits.index(lines[number][at]) + 1) % 16]
    return lines[:number] + [lines[number][:at] + digit + lines[number][at + 1:]] + lines[number + 1:]


def try_changes():
    """Whether each change of a digit changes the document, or gives a line of no form."""
    tried, missed = 0, 0
    for command, status, lines in answers(sys.stdin):
        for number in range(len(lines)):
            other = changed(lines, number)
            if other is None:
                continue
            tried += 1
            try:
                missed += text_of(command, status, other) == text_of(command, status, lines)
            except ValueError:
                pass
    print('%d changes of a digit, %d unseen' % (tried, missed))
    return missed > 0


def check_schema(path):
    import jsonschema
    with open(path) as source:
        schema = jsonschema.Draft202012Validator(json.load(source))
    for line in sys.stdin:
        for refused in schema.iter_errors(json.loads(line)):
            print('DIFFERS: the schema refuses', list(refused.absolute_path), refused.message[:200], line[:200])
            return True
    return False


def main():
    if sys.argv[1] == '--all':
        for command, status, lines in answers(sys.stdin):
            print(text_of(command, status, lines))
    elif sys.argv[1] == '--changed':
        sys.exit(try_changes())
    elif sys.argv[1] == '--schema':
        sys.exit(check_schema(sys.argv[2]))
    else:
        print(text_of(sys.argv[1], int(sys.argv[2]), sys.stdin.read().splitlines()))


if __name__ == '__main__':
    main()
