#!/bin/sh
# The slow models of tests/slow.py beside the program, on boards made by rule: verdicts, lists of all faults, maps, plans,
# what settles a board, which windows grow then, where room is kept free behind hot-plug slots, what is told beside a board,
# what settles it then, and what settles it by the words of `--model`. Prints what differs, and at the end how many boards
# agreed.
#
# Usage: models_test.sh PROGRAM; BOARDS sets how many boards are judged (1600 if not said), a quarter as many seeds plan and
# settle. An eighth as many are of boards on which windows grow, an eighth of boards with slots, an eighth of boards with
# told ranges, an eighth of boards that are settled with told ranges, and an eighth of boards that are settled by words.
set -u

here=$(CDPATH='' cd -- "$(dirname -- "$0")" && pwd) || exit 1
made=$(realpath -- "$1") || exit 1
if ! command -v python3 >/dev/null; then
    echo 'skipped: boards made by rule, as no Python is here'
    echo '0 passed, 0 failed'
    exit
fi
room=$(mktemp -d) || exit 1
trap 'rm -rf "$room"' EXIT
PYTHONDONTWRITEBYTECODE=1 python3 "$here/../../tests/slow.py" all "${BOARDS:-1600}" 0 "$made" >"$room/told" 2>&1
got=$?
# shellcheck disable=SC2046
set -- $(sed -n '$s/^\([0-9]*\) boards, \([0-9]*\) disagree$/\1 \2/p' "$room/told") 0 1
passed=$(($1 - $2)) failed=$2
if [ $got -ne 0 ]; then
    cat "$room/told"
    [ "$failed" -ne 0 ] || failed=1
fi
echo "$passed passed, $failed failed"
[ "$failed" -eq 0 ]
