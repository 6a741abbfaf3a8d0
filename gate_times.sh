#!/usr/bin/env bash
# Runs the gate on a clone of the last commit, from nothing, and prints what it took: the table of docs/PERFORMANCE.md,
# in seconds of processor for each crate's proof, its tests and its edits. The processes of rattle are looked at every
# two seconds, so what each takes after the last look is missing, some percent in all. Those of other runs are counted
# too. So nothing else should run beside it.
#
# Usage: gate_times.sh [FILE]; what the gate says goes to FILE, too, and its last lines are printed where it fails.
set -u
top=$(cd "$(dirname "$0")" && pwd) || exit 1
room=$(mktemp -d) || exit 1
trap 'rm -rf "$room"' EXIT
git clone -q "$top" "$room/tree" || exit 1
told=$(realpath "${1:-$room/told}") || exit 1
cd "$room/tree" || exit 1
exec 3>&1
python3 - "$told" >&3 <<'PYTHON'
import collections, glob, os, re, subprocess, sys, time

TICK = os.sysconf("SC_CLK_TCK")
KINDS = ("proof", "tests", "edits")


def look(folder):
    """The process's crate, what it does for it, when it started, and its seconds so far; None of another process."""
    try:
        with open(f"{folder}/cmdline") as it:
            words = it.read().split("\0")
        if os.path.basename(words[0]) != "rattle" or "--crate-name" not in words:
            return None
        with open(f"{folder}/stat") as it:
            fields = it.read().rpartition(")")[2].split()
        kind = "edits" if "rt-edit-" in os.readlink(f"{folder}/cwd") else "tests" if "--test" in words else "proof"
    except OSError:
        return None
    return words[words.index("--crate-name") + 1], kind, fields[19], (int(fields[11]) + int(fields[12])) / TICK


start, seen = time.time(), {}
with open(sys.argv[1], "w") as told:
    gate = subprocess.Popen(["rt", "ci", "--anew"], stdout=told, stderr=subprocess.STDOUT)
    while gate.poll() is None:
        for folder in glob.glob("/proc/[0-9]*"):
            found = look(folder)
            if found:
                seen[folder, found[2]] = found
        time.sleep(2)

with open(sys.argv[1]) as it:
    said = it.read()
if gate.returncode:
    print(said[-8000:])
times = collections.Counter()
for crate, kind, _, seconds in seen.values():
    times[crate, kind] += seconds
print("| crate | proof | tests | edits | how many edits |\n|---|---|---|---|---|")
for crate in re.findall(r"(?m)^(\w+)[^:#\n]*:", open("crates.txt").read()):
    row = [f"{times[crate, kind]:.0f}" if times[crate, kind] else "" for kind in KINDS]
    print(f"| `{crate}` | {' | '.join(row)} | {len(glob.glob(f'crates/{crate}/must-fail/*.edit')) or ''} |")
whole = os.times().children_user + os.times().children_system
print(f"\n{said.rstrip().rpartition(chr(10))[2]}; {(time.time() - start) / 60:.0f} minutes, {whole / 60:.0f} of processor.")
sys.exit(gate.returncode)
PYTHON
