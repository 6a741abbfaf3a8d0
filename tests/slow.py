#!/usr/bin/env python3
"""Slow models beside the program, on boards made by rule.

Usage: slow.py KIND COUNT [FIRST [PROGRAM]]
       slow.py KIND show SEED

KIND is `judge`, `plan`, `settle`, `growth`, `spare`, `also`, `told`, `model`, or `all`, which is each of them. COUNT seeds
are taken from FIRST on (0 if not said). Of `all` a quarter of these are for `plan` and `settle`, of which a seed has several
boards, and an eighth for `growth`, `spare`, `also`, `told` and `model`. PROGRAM is the built program, by default
crates/pciplan/out/pciplan. What is printed:

- a line for each board on which program and model differ, and below it what differs;
- for each kind of how many seeds boards were of each sort, and of 1,000 seeds or more a line for each sort that lacks;
- at last `N boards, M disagree`, counted by seeds.

Boards of `growth` have tight windows, of which some grow. Laws are tried of what the slow settler does there, and it
settles the boards of growth_rows.py. Boards of `spare` have slots behind which room is wanted. The same is done there, with
those of spare_rows.py. The program is asked for the same writes and denied spares. Beside boards of `also` ranges are told
that no register shows. Laws are tried of what the slow judge and the slow map say there, and of the boards of also_rows.py
they say what stands there. The program is asked for the same. Boards of `told` are settled with ranges that are told
beside them. Laws are tried of what the slow settler does there, and it settles the boards of told_settling_rows.py. The
program is asked for the same writes and denied spares, also where all is placed anew. Boards of `model` are settled by the
words of `--model`. Laws are tried of what the slow settler does there, and it answers what stands in
crates/pciplan/cases/settle_models*.txt. The program is asked for the same writes, the same dump and denied spares. Of one of
these five kinds no program is asked without a PROGRAM.

The status is 1 where boards disagree or a sort is lacking. `show` prints the board of a seed. RT_JOBS sets how many
processes run at a time (as many as there are cores if not said).
"""

import collections
import multiprocessing
import os
import shutil
import sys
import tempfile

HERE = os.path.dirname(os.path.abspath(__file__))
sys.path.insert(0, os.path.join(HERE, 'slow'))

import also_laws  # noqa: E402  (the modules beside this file)
import also_rows  # noqa: E402
import growth_laws  # noqa: E402
import growth_rows  # noqa: E402
import judged  # noqa: E402
import model_settling_laws  # noqa: E402
import model_settling_rows  # noqa: E402
import moving  # noqa: E402
import spare_laws  # noqa: E402
import spare_rows  # noqa: E402
import told_settling_laws  # noqa: E402
import told_settling_rows  # noqa: E402

# of each kind what compares the board of a seed, what prints it, and which sorts of boards there have to be among many
KINDS = {
    'judge': (judged.compare, judged.show, judged.SORTS),
    'plan': (moving.compare_plans, moving.show_plans, moving.PLAN_SORTS),
    'settle': (moving.compare_settling, moving.show_settling, moving.SETTLE_SORTS),
    'growth': (growth_laws.compare, growth_laws.show, growth_laws.SORTS),
    'spare': (spare_laws.compare, spare_laws.show, spare_laws.SORTS),
    'also': (also_laws.compare, also_laws.show, also_laws.SORTS),
    'told': (told_settling_laws.compare, told_settling_laws.show, told_settling_laws.SORTS),
    'model': (model_settling_laws.compare, model_settling_laws.show, model_settling_laws.SORTS),
}
MANY = 1000
# boards with what is answered of them
ROWS = {'growth': growth_rows, 'spare': spare_rows, 'also': also_rows, 'told': told_settling_rows,
        'model': model_settling_rows}
# of how many seeds for `all` each kind takes one, by what its boards cost
SHARES = {'judge': 1, 'plan': 4, 'settle': 4, 'growth': 8, 'spare': 8, 'also': 8, 'told': 8, 'model': 8}


class Task:
    """Compares one board after another, in a folder of the process's own."""

    def __init__(self, program, room):
        self.program = program
        self.room = room

    def __call__(self, job):
        kind, seed = job
        folder = os.path.join(self.room, str(os.getpid()))
        os.makedirs(folder, exist_ok=True)
        return (kind, seed) + KINDS[kind][0](seed, self.program, folder)


def compare_all(jobs, program, sorts):
    """Compares boards, and counts their sorts; how many disagree."""
    disagree = 0
    room = tempfile.mkdtemp()
    try:
        with multiprocessing.Pool(int(os.environ.get('RT_JOBS', '0')) or None) as pool:
            for kind, seed, difference, told in pool.imap_unordered(Task(program, room), jobs, 20):
                sorts[kind].update(told)
                if difference is not None:
                    disagree += 1
                    print('%s %d differs (slow.py %s show %d prints the board): %s'
                          % (kind, seed, kind, seed, difference), flush=True)
    finally:
        shutil.rmtree(room)
    return disagree


def lacking(kind, count, sorts):
    """Prints how many boards of each sort there were; how many sorts are lacking."""
    wanted = KINDS[kind][2]
    print('%s: %s' % (kind, ', '.join('%s %d' % (sort, sorts[sort]) for sort in wanted)))
    missing = [sort for sort in wanted if sorts[sort] == 0 and MANY <= count]
    for sort in missing:
        print('%s: no board is of the sort %s' % (kind, sort))
    return len(missing)


def rows_disagree(kind):
    """Prints what is wrong on the boards of a kind whose answers are kept; how many that are."""
    faults = ROWS[kind].row_faults() if kind in ROWS else []
    for fault in faults:
        print('%s.py, %s' % (ROWS[kind].__name__, fault))
    return len(faults)


def main(words):
    """Reads the words of the command line."""
    if len(words) < 2 or words[0] not in list(KINDS) + ['all']:
        print(__doc__)
        return 2
    if words[1] == 'show':
        print(KINDS[words[0]][1](int(words[2])))
        return 0
    count, first = int(words[1]), int(words[2]) if len(words) > 2 else 0
    built = os.path.join(HERE, '..', 'crates', 'pciplan', 'out', 'pciplan')
    program = os.path.abspath(words[3] if len(words) > 3 else built)
    if words[0] in ROWS and len(words) <= 3:
        program = None
    counts = {kind: count // SHARES[kind] for kind in SHARES} if words[0] == 'all' else {words[0]: count}
    jobs = [(kind, seed) for kind, many in counts.items() for seed in range(first, first + many)]
    sorts = {kind: collections.Counter() for kind in counts}
    disagree = compare_all(jobs, program, sorts)
    disagree += sum(rows_disagree(kind) for kind in counts)
    missing = sum(lacking(kind, many, sorts[kind]) for kind, many in counts.items())
    print('%d boards, %d disagree' % (len(jobs), disagree))
    return 1 if disagree or missing else 0


if __name__ == '__main__':
    sys.exit(main(sys.argv[1:]))
