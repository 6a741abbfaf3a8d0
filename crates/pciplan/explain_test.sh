#!/bin/sh
# Compares what `explain` and `version` print with docs/FORMATS.md, docs/APPLYING.md and docs/pciplan.1, by
# tests/explain.py, which reads these pages. A line is printed for each entry that differs; the status is 1 where one does.
#
# Usage: explain_test.sh PROGRAM
set -u
LC_ALL=C
export LC_ALL

here=$(CDPATH='' cd -- "$(dirname -- "$0")" && pwd) || exit 1
made=$(realpath -- "$1") || exit 1
top=$here/../..
room=$(mktemp -d) || exit 1
trap 'rm -rf "$room"' EXIT
mkdir "$room/words" || exit 1
if ! command -v python3 >/dev/null; then
    echo 'skipped: explain_test.sh, as no python3 is here'
    exit 0
fi
python3 "$top/tests/explain.py" --into "$room/words" || exit 1
python3 "$top/tests/explain.py" >"$room/all" || exit 1
cd "$room" || exit 1

passed=0 failed=0

# same NAME: compares the files wanted and got, where got has the status behind what was printed.
same() {
    if cmp -s wanted got; then
        passed=$((passed + 1))
    else
        echo "DIFFERS: $1"
        diff wanted got
        failed=$((failed + 1))
    fi
}

# printed NAME FILE WORD..: the program prints what is in the file, with status 0.
printed() {
    title=$1
    { cat "$2"; echo 'status 0'; } >wanted
    shift 2
    "$made" "$@" >got 2>&1
    echo "status $?" >>got
    same "$title"
}

# refused WORD..: the words are no command line.
refused() {
    printf 'pciplan: usage\nstatus 2\n' >wanted
    "$made" "$@" >got 2>&1
    echo "status $?" >>got
    same "$* is refused"
}

for file in words/*; do
    printed "explain ${file#words/}" "$file" explain "${file#words/}"
done
# a fault is named in any case, the first one of those that share a name
for named in BusRange:57 busrange:57 BUSRANGE:57 io:1 toomany:8; do
    printed "explain ${named%:*}" "words/${named#*:}" explain "${named%:*}"
done
printed 'explain' all explain
head -n 1 "$top/docs/pciplan.1" | sed 's/.*"\(pciplan .*\)" ".*/\1/' >version
printed 'version' version version
for word in 0 11 19 35 59 64 78 83 057 57. ' 57' '57 ' 57BusRange '57 BusRange' 'BusRange ' BusRang Bus CHECK Check Here \
    pciplan --help ''; do
    refused explain "$word"
done
refused explain 57 58
refused explain check ''
refused version 57
refused version version
refused Explain 57
refused --version

# a fault whose text changes is named: the comparison itself is tried
sed 's/fit/fat/' words/57 >changed
{ cat changed; echo 'status 0'; } >wanted
"$made" explain 57 >got 2>&1
echo "status $?" >>got
if cmp -s wanted got; then
    echo 'FAILED: a changed text is not seen'
    failed=$((failed + 1))
else
    passed=$((passed + 1))
fi

echo "$passed passed, $failed failed"
[ "$failed" -eq 0 ]
