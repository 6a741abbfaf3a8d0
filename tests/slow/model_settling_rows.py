"""The cases of `settle --model` in crates/pciplan/cases/settle_models*.txt, answered by the slow settler.

The head of crates/pciplan/cases.awk says how cases are written. Of these files a case has functions, files that `!` makes,
and words of `settle` and `faults` with what is printed. What is planned once is asked about, too.

- `row_faults()`: what the slow settler answers otherwise, each with the title of its case. Every stop is judged.
"""

import glob
import os
import re
import shlex
import subprocess
import tempfile

from also import told_ranges
from judge import faults
from model import HEADER, WINDOWS, Function, dump_text, put_number, slot_of
from model_settling import Asked, settled_by_words
from moving import answer
from planner import Fault
from regions import Given
from settler import Request
from spare_laws import denied_lines
from spares import NOTHING, Wanted
from stops import beginnings

CASES = os.path.join(os.path.dirname(os.path.abspath(__file__)), '..', '..', 'crates', 'pciplan', 'cases')
FLAGS = ('--writes', '--anew')


# ---- functions

def put_item(f, item):
    """Puts `OFFSET:BYTES`, `OFFSET=VALUE` or `OFFSET=VALUE/READS` into a function."""
    offset, rest = int(item[:2], 16), item[3:]
    if item[2] == ':':
        held = bytes.fromhex(rest)
        f.image[offset:offset + len(held)] = held
        return
    value, _, reads = rest.partition('/')
    put_number(f.image, offset, len(value) // 2, int(value, 16))
    if reads:
        put_number(f.probe, offset, len(reads) // 2, int(reads, 16))


def function_of(line):
    """The function of a line."""
    line, _, mark = line.partition(' || ')
    line, _, label = line.partition(' | ')
    slot, *items = line.split()
    f = Function(slot_of(slot), titles=(label, mark))
    put_number(f.image, 0, 4, 0x56781234)
    if items[:1] == ['bridge']:
        f.image[HEADER] = 1
        f.image[0x18:0x1B] = bytes(int(number, 16) for number in items[1:4])
        put_number(f.probe, 0x20, 4, 0xFFF0FFF0)
        items = items[4:]
    for item in items:
        put_item(f, item)
    return f


def with_probes(functions, board):
    """Functions of a dump that is planned, with the probes of the board."""
    probes = {f.slot: f for f in board}
    return [Function(f.slot, f.image, probes[f.slot].probe, (f.titles[0], probes[f.slot].titles[1])) for f in functions]


# ---- words

def options_of(words):
    """The options of some words, with their values."""
    options, rest = {}, list(words)
    while rest:
        option = rest.pop(0)
        options[option] = True if option in FLAGS else rest.pop(0)
    return options


def list_of(text):
    """The ranges of a list."""
    found = []
    for one in text.split(',') if text != 'none' else []:
        root, _, span = one.rpartition(':')
        first, last = (int(end, 16) for end in span.split('-'))
        found.append((int(root, 16) if root else None, first, last))
    return found


def slots_of(text):
    """The slots of a list."""
    return [slot_of(slot) for slot in text.split(',')] if text else []


def wanted_of(options):
    """The spares and slots of some options."""
    if '--spare' not in options:
        return NOTHING
    sizes = dict(one.split(':') for one in options['--spare'].split(','))
    slots = slots_of(options['--slots']) if '--slots' in options else None
    return Wanted({kind: int(sizes[kind], 16) for kind in sizes}, slots)


def asked_of(options, told):
    """What is asked by some options."""
    roots = [int(root, 16) for root in options.get('--root', '00').split(',')]
    request = Request(roots, {kind: list_of(options['--' + kind]) for kind in WINDOWS},
                      slots_of(options.get('--fixed', '')), '--anew' in options)
    return Asked(request, options.get('--model'), wanted_of(options), told)


# ---- answers

def stop_fault(functions, asked, plan):
    """A stop that isn't sound, or none."""
    given = Given(asked.request.roots, told=asked.told)
    judged = [faults(state, None, given, asked.words) for state in beginnings(functions, plan.writes)]
    first = 0 if judged[0] == 'yes\n' else plan.closings
    unsound = [text for text in judged[first:] if text != 'yes\n']
    return 'a stop is not sound: ' + unsound[0].splitlines()[0] if unsound else None


def settle_fault(functions, options, told, wanted):
    """What is settled otherwise, or none."""
    asked = asked_of(options, told)
    found = settled_by_words(functions, asked)
    printed = answer(found.plan, '--writes' if '--writes' in options else '', '')[1]
    remarks = ''.join('pciplan: %s\n' % line for line in denied_lines(found.denied))
    if (printed, remarks) != wanted:
        return 'wanted %r, found %r' % (wanted, (printed, remarks))
    return None if isinstance(found.plan, Fault) else stop_fault(functions, asked, found.plan)


def faults_fault(functions, options, told, wanted):
    """What is judged otherwise, or none."""
    roots = [int(root, 16) for root in options.get('--root', '00').split(',')]
    printed = faults(functions, None, Given(roots, told=told), options.get('--model'))
    return None if (printed, '') == wanted else 'wanted %r, found %r' % (wanted, printed)


# ---- cases

class Case:
    """A case: its title and functions, a folder for what `!` makes, and what is planned."""

    def __init__(self, lines, folder):
        self.folder = folder
        self.title = ' '.join(line[1:].strip() for line in lines if line.startswith('#'))
        self.board = [function_of(line) for line in lines if re.match('[0-9a-f]', line) and ':' in line.split()[0]]
        self.planned = []
        self.found = []

    def told_of(self, options):
        """The lines of `--also`."""
        if '--also' not in options:
            return []
        with open(os.path.join(self.folder, options['--also']), encoding='latin-1') as source:
            return told_ranges(source.read())

    def answer_one(self, words, printed, remarks):
        """Looks at the answer of some words."""
        task, file, _, *rest = shlex.split(words)
        options = options_of(rest)
        functions = with_probes(self.planned, self.board) if file == 'planned' else self.board
        compare = settle_fault if task == 'settle' else faults_fault
        fault = compare(functions, options, self.told_of(options), (printed, remarks))
        self.found += ['%s, %s: %s' % (self.title, words, fault)] if fault else []

    def answer_all(self, asked, lines):
        """Looks at the answer of each of some words, which is one."""
        out = [line for line in lines if not line.startswith(('> ', '2> ', '='))]
        planned = [function_of(line[2:]) for line in lines if line.startswith('> ')]
        self.planned = planned or self.planned
        printed = dump_text(planned) + ''.join(line + '\n' for line in out)
        remarks = ''.join(line[3:] + '\n' for line in lines if line.startswith('2> '))
        for words in asked:
            self.answer_one(words, printed, remarks)


def begins_answers(line):
    """Whether a line is of a command or of words."""
    return line.startswith(('$ ', '! '))


def case_faults(lines, folder):
    """What disagrees of a case."""
    case = Case(lines[:[begins_answers(line) for line in lines].index(True)], folder)
    asked, answered = [], []
    for line in lines + ['! :']:
        if begins_answers(line) and answered:
            case.answer_all(asked, answered)
            asked, answered = [], []
        if line.startswith('! '):
            subprocess.run(['sh', '-c', line[2:]], cwd=folder, check=True)
        elif line.startswith('$ '):
            asked.append(line[2:])
        elif asked:
            answered.append(line)
    return case.found


def row_faults():
    """What disagrees in all files, each with the title of its case."""
    found = []
    for path in sorted(glob.glob(os.path.join(CASES, 'settle_models*.txt'))):
        with open(path, encoding='latin-1') as source:
            parts = source.read().replace('\\\n', '').split('\n\n')
        for lines in [part.strip().split('\n') for part in parts]:
            if any(begins_answers(line) for line in lines):
                with tempfile.TemporaryDirectory() as folder:
                    found += case_faults(lines, folder)
    return found
