#!/bin/sh
# A second judge of sizes that nobody told, by what `show` lists of the machines of machines/. Each register of each function
# in turn is named in the title of its block of the probe: settle answers 76 exactly where the listing has a BAR at that
# register, or a ROM that is on, and else what it answers without the title. Each line of a BAR in the sizes in turn is
# cleared: probe answers 32 exactly where the dump shows something at the register. Prints a line for each that differs, and
# at the end how many were right.
#
# Usage: assumed_test.sh PROGRAM
set -u
export LC_ALL=C

here=$(CDPATH='' cd -- "$(dirname -- "$0")" && pwd) || exit 1
made=$(realpath -- "$1") || exit 1
room=$(mktemp -d) || exit 1
trap 'rm -rf "$room"' EXIT
cp -- "$here"/../../machines/*.* "$room" && cd "$room" || exit 1
passed=0 failed=0

# judged NAME WANTED GOT
judged() {
    if [ "$2" = "$3" ]; then
        passed=$((passed + 1))
    else
        echo "DIFFERS: $1: $3, wanted $2"
        failed=$((failed + 1))
    fi
}

# listed MACHINE: `SLOT REGISTER` for each BAR, and each ROM that is on.
listed() {
    "$made" show "$1.dump" "$1.probe" |
        awk '/^[^ ]/ { slot = $1 } $1 == "bar" || ($1 == "rom" && $3 == "on") { print slot, $2 }'
}

# named MACHINE ROOTS: names each register in turn, in a probe without titles.
named() {
    lists='--io 700-ffff --mem 80000000-febfffff --pref none'
    # shellcheck disable=SC2086
    plain=$("$made" settle --root "$2" "$1.dump" "$1.probe" $lists --writes)
    listed "$1" >listed.txt
    for slot in $(sed -n 's/^\(..:..\..\)$/\1/p' "$1.probe"); do
        for register in 10 14 18 1c 20 24 28 30 38; do
            sed "s/^$slot\$/$slot assumed $register/" "$1.probe" >marked.probe
            wanted=$plain
            grep -q "^$slot $register\$" listed.txt && wanted="no 76 Assumed $slot $register"
            # shellcheck disable=SC2086
            judged "$1: $slot $register is named" "$wanted" \
                "$("$made" settle --root "$2" "$1.dump" marked.probe $lists --writes)"
        done
    done
}

# shown DUMP SLOT REGISTER: the four bytes of a register, without blanks.
shown() {
    awk -v slot="$2" -v row="$(printf %s "$3" | cut -c1)0:" -v at="$(printf %d "0x0$(printf %s "$3" | cut -c2)")" '
        $1 ~ /^..:..\..$/ { here = $1 == slot }
        here && $1 == row { print $(at + 2) $(at + 3) $(at + 4) $(at + 5); exit }' "$1"
}

# untold MACHINE: clears each line of a BAR in turn.
untold() {
    for place in $("$made" show "$1.dump" "$1.probe" | awk '/^[^ ]/ { slot = $1 } $1 == "bar" { print slot "/" $2 }'); do
        slot=${place%/*} register=${place#*/}
        line=$(((0x$register - 16) / 4))
        awk -v slot="$slot" -v line="$line" '
            $1 ~ /^..:..\..$/ { here = $1 == slot; at = -1 }
            here && at == line { $0 = "0x0000000000000000 0x0000000000000000 0x0000000000000000" }
            { at++; print }' "$1.sizes" >cleared.sizes
        wanted="no 32 NoSize $slot $register"
        [ "$(shown "$1.dump" "$slot" "$register")" != 00000000 ] || wanted=$slot
        judged "$1: nothing is told of $slot $register" "$wanted" \
            "$("$made" probe "$1.dump" cleared.sizes 2>err | sed -n "/^no /p;/^$slot/{s/ .*//p;}" | head -n 1)"
    done
}

named old 00
named roots 00,40
for machine in desk old port roots; do
    untold $machine
done
echo "$passed passed, $failed failed"
[ "$failed" -eq 0 ]
