"""The slow judge beside the program, on the board of a seed: verdict, list of all faults with reasons, and map."""

from address_map import address_map
from boards import board, described
from judge import faults, verdict
from program import put_files, run
from regions import Given
from why import faults_and_why
from words import names_of

# words without which a list has to be another one, on some boards
NEEDED = ('cardbus', 'isa', 'snoop', 'unclaimed', 'windows')
# what has to be there among many boards: each fault's number, a yes, and a board that needs each of these words
SORTS = tuple('%d' % number for first, end in ((20, 32), (50, 59), (60, 64)) for number in range(first, end)) + (
    ('yes',) + NEEDED)


def cases_of(made, texts):
    """Words of the command line, what is to be printed, and the status; the list of all faults is the second."""
    given = Given(made.roots, made.host_io, made.host_mem)
    beside = (made.listed, made.probe_slots, given, made.words)
    judged = verdict(made.listed, made.probe_slots, made.roots)
    yield ['check'] + texts + made.root_words(), judged, 0 if judged == 'yes\n' else 1
    listed = faults(*beside)
    status = 0 if listed == 'yes\n' else 1
    why = ['--why'] if made.seed % 2 else []
    yield ['faults'] + texts + made.options() + why, faults_and_why(*beside) if why else listed, status
    if made.seed % 4 == 0:
        mapped = address_map(*beside)
        yield ['map'] + texts + made.options(), mapped, 1 if mapped.startswith('no ') else 0


def needed_words(made, listed):
    """Which of the words that have to be needed the list of all faults does need."""
    given = Given(made.roots, made.host_io, made.host_mem)
    names = names_of(made.words)
    return {word for word in NEEDED if word in names and listed != faults(
        made.listed, made.probe_slots, given, ','.join(sorted(names - {word})) or None)}


def compare(seed, program, folder):
    """What differs on the seed's board, None where nothing does; and which faults it has, or `yes`."""
    made = board(seed)
    texts = put_files(folder, (('dump.txt', made.dump), ('probe.txt', made.probe)))
    cases = list(cases_of(made, texts))
    sorts = {line.split()[0] for line in cases[1][1].splitlines() if line[0] != ' '} & set(SORTS)
    sorts |= needed_words(made, faults(made.listed, made.probe_slots, Given(made.roots, made.host_io, made.host_mem),
                                       made.words))
    for words, wanted, wanted_status in cases:
        status, told, error = run(program, words)
        if (status, told, error) != (wanted_status, wanted, ''):
            return '%s: status %d\nthe program:\n%s%sthe slow judge:\n%s' % (
                ' '.join(words), status, told, error, wanted), sorts
    return None, sorts


def show(seed):
    """The board of a seed, for whoever looks for what went wrong."""
    made = board(seed)
    return '%s\n%s\n%s' % (described(made), made.dump, made.probe)
