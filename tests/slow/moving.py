"""The slow planner and settler beside the program, on boards made by rule.

- `compare_plans(seed, program, folder)`, `compare_settling(seed, program, folder)`: what disagrees, or None, and the
  sorts of boards that were met.
- `show_plans(seed)`, `show_settling(seed)`: what the program is asked of that seed: the words, and the boards as texts.
- `PLAN_SORTS`, `SETTLE_SORTS`: the sorts that a run over many seeds has to meet.
"""

from early import decoding_lines, early_lines, identity_lines
from growing import settled_growing
from model import assumed, dump_text, probe_text, write_text
from moving_boards import Rule
from planner import Fault, assumed_lines, planned, sized
from program import put_files, run
from settler import TooLarge
from stops import is_sound, stop_fault

# how often a board is asked about, with a change between two times
TURNS = 3

PLAN_SORTS = ('planned', 'planned, assumed', 'from a sound start', 'from an unsound start', 'already planned', 'sized',
              '70', '71', '72 io', '72 mem', '72 pref')
SETTLE_SORTS = ('settled', 'settled anew', 'left alone', 'from a sound start', 'from an unsound start',
                'something fixed', 'several roots', 'one space shut', 'a window closed', 'an upper limit lowered',
                'an upper limit set first', '70', '72 io', '72 mem', '72 pref', '74 does not stand',
                '74 does not stay', '74 would be written', '76', 'too large')


def range_text(pool):
    """A range as a word."""
    return '%x-%x' % pool


def pool_words(pools):
    """The words of `plan` for pools."""
    return [word for kind in pools._fields for word in ('--' + kind, range_text(getattr(pools, kind)))]


def list_word(ranges):
    """The word for a list of ranges."""
    return ','.join(range_text((first, last)) if root is None else '%02x:%s' % (root, range_text((first, last)))
                    for root, first, last in ranges) or 'none'


def request_words(request):
    """The words of `settle` for a request."""
    words = [word for kind, ranges in request.lists.items() for word in ('--' + kind, list_word(ranges))]
    if request.fixed:
        words += ['--fixed', ','.join('%02x:%02x.%x' % slot for slot in request.fixed)]
    return words + (['--anew'] if request.anew else [])


def roots_words(roots):
    """The words for the root buses."""
    return ['--root', ','.join('%02x' % root for root in roots)]


class Asker:
    """Asks the program about boards, whose texts it puts into a folder, and notes which sorts of boards were met."""

    def __init__(self, program, folder):
        self.program = program
        self.folder = folder
        self.sorts = set()

    def ask(self, task, functions, words):
        """What the program answers: status, standard output and standard error."""
        texts = [('dump.txt', dump_text(functions)), ('probe.txt', probe_text(functions))]
        return run(self.program, [task] + put_files(self.folder, texts) + words)

    def differs(self, task, functions, words, wanted):
        """What disagrees with the wanted answer, or none."""
        found = self.ask(task, functions, words)
        if found == wanted:
            return None
        return '%s %s:\nwanted %r\nfound  %r' % (task, ' '.join(words), wanted, found)

    def refuses(self, task, functions, words):
        """None where the answer is some 72 or 74, else what it is."""
        found = self.ask(task, functions, words)
        if found[0] == 1 and found[1][:5] in ('no 72', 'no 74') and found[2] == '':
            return None
        return '%s %s: found %r' % (task, ' '.join(words), found)

    def is_accepted(self, functions, roots):
        """Whether `check` says yes of a board; none where it isn't asked."""
        return self.ask('check', functions, roots_words(roots)) == (0, 'yes\n', '')


class Recorder(Asker):
    """Keeps what would be asked, and asks nothing."""

    def __init__(self):
        Asker.__init__(self, None, None)
        self.told = ''

    def differs(self, task, functions, words, wanted):
        """Keeps the words and the texts."""
        self.told += '$ pciplan %s DUMP PROBE %s\n%s\n%s\n' % (
            task, ' '.join(words), dump_text(functions), probe_text(functions))

    def refuses(self, task, functions, words):
        """Keeps the same."""
        self.differs(task, functions, words, None)

    def is_accepted(self, functions, roots):
        """Asks nothing."""


def answer(plan, more, remarks):
    """What is printed of a plan with a further word: status, standard output and standard error."""
    if isinstance(plan, Fault):
        why = plan.why + '\n' if more == '--why' and plan.why else ''
        return 1, 'no %s\n%s' % (plan.text, why), ''
    if more == '--writes':
        return 0, ''.join(write_text(*made) + '\n' for made in plan.writes), remarks
    return 0, dump_text(plan.functions), remarks


def first_early(board):
    """The first fault of 20 to 58 of a board as a `Fault`, or none."""
    lines = early_lines(board.functions, board.roots)
    return Fault(lines[0], None, 'early') if lines else None


def size_differs(asker, functions):
    """Whether `size` prints what sizing finds: what disagrees, or none."""
    asker.sorts.add('sized')
    lines = [line for f in functions for line in identity_lines(f)]
    lines = lines or [line for f in functions for line in decoding_lines(f) if line[:2] < '27']
    if lines:
        return asker.differs('size', functions, [], (1, 'no %s\n' % lines[0], ''))
    return asker.differs('size', functions, [], (0, probe_text([sized(f) for f in functions]), ''))


def stops_differ(asker, board, plan, asked):
    """What is wrong with the stops of a plan's writes, or none; the program judges some of them."""
    asker.sorts.add('from %s start' % ('a sound' if is_sound(board.functions, board.roots) else 'an unsound'))

    def accepts(state, done):
        return asker.is_accepted(state, board.roots) if done in asked else None

    return stop_fault(board.functions, board.roots, plan, accepts)


def moves_differ(asker, board, task, plan, words, rule):
    """What disagrees with a slow answer: what the program prints, or at times the stops of its writes."""
    remarks = assumed_lines(board.functions) if task == 'plan' else ''
    more = rule.one_of(['', '--writes', '--writes', '--why' if task == 'plan' else ''])
    told = asker.differs(task, board.functions, words + ([more] if more else []), answer(plan, more, remarks))
    if told or isinstance(plan, Fault) or not rule.one_in(4):
        return told
    return stops_differ(asker, board, plan, {rule.below(len(plan.writes) + 1), len(plan.writes)})


# ---- plans

def plan_sort(board, plan):
    """Which sort of board it is for the planner."""
    if isinstance(plan, Fault):
        return plan.sort
    if not any(width == 4 for _, _, width, _ in plan.writes):
        return 'already planned'
    return 'planned, assumed' if any(assumed(f) for f in board.functions) else 'planned'


def plan_differs(asker, rule, board, pools):
    """Plans a board, which then is the planned one: what disagrees, or none."""
    plan = first_early(board) or planned(board.functions, board.roots, pools)
    asker.sorts.add(plan_sort(board, plan))
    words = roots_words(board.roots) + pool_words(pools)
    told = size_differs(asker, board.functions) if rule.one_in(8) else None
    told = told or moves_differ(asker, board, 'plan', plan, words, rule)
    if told or isinstance(plan, Fault):
        return told
    board.functions = plan.functions
    again = planned(board.functions, board.roots, pools)
    return None if dump_text(again.functions) == dump_text(board.functions) else 'planned again it moves'


def ask_plans(seed, asker):
    """Plans the board of a seed, and again after changes: what disagrees, or none."""
    rule = Rule(seed)
    board, pools = rule.board(), rule.pools()
    for turn in range(TURNS):
        told = plan_differs(asker, rule, board, pools)
        if told:
            return 'turn %d, %s' % (turn, told)
        if turn:
            rule.change(board)
        pools = pools if rule.one_in(4) else rule.pools()
    return None


def compare_plans(seed, program, folder):
    """Compares the plans of a seed: what disagrees, or none, and the sorts of boards."""
    asker = Asker(program, folder)
    return ask_plans(seed, asker), asker.sorts


def show_plans(seed):
    """What is asked about plans of a seed."""
    recorder = Recorder()
    ask_plans(seed, recorder)
    return recorder.told


# ---- settling

def settle_sorts(asker, board, request, plan):
    """Notes which sorts of board it is for the settler."""
    if isinstance(plan, Fault):
        asker.sorts.add(plan.sort)
        return
    asker.sorts.add('settled anew' if request.anew else 'settled' if plan.writes else 'left alone')
    asker.sorts |= {'something fixed'} if request.fixed else set()
    asker.sorts |= {'several roots'} if len(board.roots) > 1 else set()
    asker.sorts |= write_sorts(plan)


def write_sorts(plan):
    """Which sorts of writes there are in a plan of settling."""
    sorts, closing = set(), plan.writes[:plan.closings]
    setting = [(slot, offset) for slot, offset, _, _ in plan.writes[plan.closings:]]
    if any(offset == 0x04 and value & 3 for _, offset, _, value in closing):
        sorts.add('one space shut')
    if any(offset in (0x1C, 0x20, 0x24) for _, offset, _, _ in closing):
        sorts.add('a window closed')
    if any(offset in (0x2C, 0x30) for _, offset, _, _ in closing):
        sorts.add('an upper limit lowered')
    if any(offset == 0x2C and (slot, 0x28) in setting[place:] for place, (slot, offset) in enumerate(setting)):
        sorts.add('an upper limit set first')
    return sorts


def settle_differs(asker, rule, board, request):
    """Settles a board, which then is the settled one: what disagrees, or none."""
    words = roots_words(board.roots) + request_words(request)
    try:
        plan = first_early(board) or settled_growing(board.functions, request)
    except TooLarge:
        # which fault comes before a window of 2^64 addresses is left to the proof
        asker.sorts.add('too large')
        return asker.refuses('settle', board.functions, words)
    settle_sorts(asker, board, request, plan)
    told = moves_differ(asker, board, 'settle', plan, words, rule)
    if told or isinstance(plan, Fault):
        return told
    board.functions = plan.functions
    again = settled_growing(board.functions, request._replace(anew=False))
    return None if not isinstance(again, Fault) and not again.writes else 'settled again it changes'


def ask_settling(seed, asker):
    """Settles the board of a seed, and again after changes: what disagrees, or none."""
    rule = Rule(seed)
    board = rule.board()
    if rule.one_in(60):
        rule.add_large(board)
    request = rule.request(board)
    for turn in range(TURNS):
        told = settle_differs(asker, rule, board, request)
        if told:
            return 'turn %d, %s' % (turn, told)
        changed = rule.change(board)
        request = request._replace(anew=rule.one_in(8), fixed=rule.fixed(board, changed))
    return None


def compare_settling(seed, program, folder):
    """Compares the settling of a seed: what disagrees, or none, and the sorts of boards."""
    asker = Asker(program, folder)
    return ask_settling(seed, asker), asker.sorts


def show_settling(seed):
    """What is asked about the settling of a seed."""
    recorder = Recorder()
    ask_settling(seed, recorder)
    return recorder.told
