#!/usr/bin/env bash
# Runs every test with nothing proved: what a contributor does between two changes. The tests' crates run side by side
# under `rt try --test`, with fewer boards made by rule than the gate has; the program is built once, and runs the cases of
# crates/pciplan/cases and crates/pciplan/program_test.sh; the C side is compiled where a C compiler is, and the
# machines of machines/ are captured. Prints a line for each, and what a failed one said; the status is 1 where one
# failed.
#
# Usage: test.sh; BOARDS sets how many boards are made by rule (50 if not said), RT_JOBS how many run at a time.
set -u
top=$(cd "$(dirname "$0")" && pwd) || exit 1
room=$(mktemp -d) || exit 1
trap 'rm -rf "$room"' EXIT
boards=${BOARDS:-50}

# A copy, so that what checks keep stays as it is.
mkdir "$room/tree" "$room/told"
tar -C "$top" --exclude=out --exclude=.git -cf - . | tar -C "$room/tree" -xf - || exit 1
cd "$room/tree" || exit 1
sed -i "s/in 0\.\.[0-9]*u64 {/in 0..${boards}u64 {/" crates/*/src/by_rule.rt

# program: builds pciplan, with checks compiled in. `rt try` keeps no file, so it is copied while it waits for its first
# text, which is a pipe; the words before `check` are how it was started.
program() {
    mkfifo "$room/pipe"
    (cd crates/pciplan && exec rt try -- check "$room/pipe" "$room/pipe") &
    local trying=$! started=
    while [ -z "$started" ]; do
        kill -0 $trying 2>/dev/null || return 1
        sleep 1
        for it in $(grep -laz "^$room/pipe$" /proc/[0-9]*/cmdline 2>/dev/null); do
            started=$(tr '\0' ' ' <"$it" | sed -n "s|^\(/.*/program\) check $room/pipe .*|\1|p")
            [ -z "$started" ] || break
        done
    done
    cp "${started##* }" "$room/program"
    printf '#!/bin/sh\nexec %s "$@"\n' "${started% *} $room/program" >"$room/pciplan"
    chmod 755 "$room" "$room/program" "$room/pciplan"
    kill $trying
    wait $trying
    [ -x "$room/program" ]
}

# named NAME COMMAND..: runs it, keeps what it says, and prints a line.
named() {
    local name=$1 from=$SECONDS
    shift
    if "$@" >"$room/told/$name" 2>&1; then
        echo "ok: $name, $((SECONDS - from)) s"
    else
        echo "FAILED: $name, $((SECONDS - from)) s"
        tail -n 40 "$room/told/$name"
        : >"$room/failed"
    fi
}

tests_of() {
    cd "crates/$1" && rt try --test --seconds 600
}

whole_program() {
    program && BOARDS=$((8 * boards)) crates/pciplan/program_test.sh "$room/pciplan"
}

c_side() {
    local cc=${CC:-cc}
    command -v "$cc" >/dev/null || { echo 'no C compiler'; return; }
    c/test.sh --capture
}

export -f named tests_of whole_program program c_side
export room boards
{
    echo whole_program
    # the crates with the most text first, as they take longest
    for crate in $(grep -l '#\[test\]' -r crates/*/src | cut -d/ -f2 | sort -u); do
        echo "$(cat crates/"$crate"/src/*.rt | wc -c) tests_of $crate"
    done | sort -rn | cut -d' ' -f2-
    echo c_side
} | xargs -P "${RT_JOBS:-$(nproc)}" -I{} bash -c 'words="{}"; named "${words// /_}" {}'

[ ! -e "$room/failed" ]
