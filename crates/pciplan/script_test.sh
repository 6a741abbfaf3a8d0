#!/bin/sh
# Tests the scripts that `settle --writes=setpci` and `settle --writes=grub` print. That of setpci runs over a command
# `setpci` that keeps the bytes of each function in a file; an access is printed into a file, too. That of GRUB is compared
# line by line with the writes and the dump: machines/grub_test.sh runs it. A line is printed for each case; the status is
# 1 where one differs.
#
# Usage: script_test.sh [PROGRAM], by default out/pciplan beside this file, which `rt ci` and `rt run` make.
set -u
export LC_ALL=C

here=$(CDPATH='' cd -- "$(dirname -- "$0")" && pwd) || exit 1
program=${1:-$here/out/pciplan}
case $program in
    /*) ;;
    *) program=$PWD/$program ;;
esac
machines=$here/../../machines
room=$(mktemp -d) || exit 1
trap 'rm -rf "$room"' EXIT
cd "$room" || exit 1

passed=0 failed=0

# told NAME STATUS: prints the case's line; STATUS says whether all was as wanted.
told() {
    if [ "$2" -eq 0 ]; then
        echo "ok: $1"
        passed=$((passed + 1))
    else
        echo "DIFFERS: $1"
        failed=$((failed + 1))
    fi
}

# A setpci of files: functions/DDDD:bb:dd.f has the bytes of a function, two digits each. A file stuck has registers that
# take no write, as `0000:00:02.0 10.l`; a file failing those of which a write fails. It tells each access in a file.
mkdir bin
cat >bin/setpci <<'EOF'
#!/bin/sh
[ $# -eq 3 ] && [ "$1" = -s ] || exit 3
exec awk -v slot="$2" -v word="$3" '
    function listed(file,    line, is) {
        while ((getline line <file) > 0)
            is = is || line == slot " " register
        return is
    }
    function digit(at) { return index("0123456789abcdef", substr(register, at, 1)) - 1 }
    # the bytes of a number the other way round
    function turned(bytes,    value) {
        for (; bytes != ""; bytes = substr(bytes, 3))
            value = substr(bytes, 1, 2) value
        return value
    }
    BEGIN {
        value = index(word, "=") ? substr(word, index(word, "=") + 1) : ""
        register = value == "" ? word : substr(word, 1, index(word, "=") - 1)
        digits = register ~ /w$/ ? 4 : 8
        if (register !~ /^[0-9a-f][0-9a-f][.][wl]$/ || (value != "" && length(value) != digits))
            exit 3
        file = "functions/" slot
        if ((getline bytes <file) <= 0) {
            print "setpci: Warning: No devices selected for \"" word "\"." | "cat >&2"
            exit 0
        }
        close(file)
        print slot, word >>"accesses"
        at = 2 * (16 * digit(1) + digit(2))
        if (value == "") {
            print turned(substr(bytes, at + 1, digits))
            exit 0
        }
        if (listed("failing"))
            exit 1
        if (!listed("stuck"))
            print substr(bytes, 1, at) turned(value) substr(bytes, at + digits + 1) >file
    }'
EOF
chmod 755 bin/setpci
PATH=$room/bin:$PATH

# functions_of DUMP FOLDER DOMAIN: a file for each function of a dump.
functions_of() {
    mkdir -p "$2"
    awk -v folder="$2/$3:" '
        /^..:..\../ { name = folder $1; bytes = "" }
        /^..: / { gsub(/ /, ""); bytes = bytes substr($0, 4) }
        /^$/ { print bytes > name; close(name) }' "$1"
}

# settled NAME DUMP PROBE WORD..: keeps the dump, the settled dump, its writes and both scripts in a folder.
settled() {
    mkdir "$1"
    cp "$2" "$1/dump.txt"
    dump=$2 probe=$3 name=$1
    shift 3
    "$program" settle "$dump" "$probe" "$@" >"$name/settled.txt" &&
        "$program" settle "$dump" "$probe" "$@" --writes >"$name/writes.txt" &&
        "$program" settle "$dump" "$probe" "$@" --writes=setpci >"$name/script.sh" &&
        "$program" settle "$dump" "$probe" --writes=grub "$@" >"$name/script.grub"
    told "$name: settle" $?
}

# fresh [DOMAIN]: makes the functions anew, as before the writes.
fresh() {
    rm -rf functions accesses stuck failing
    functions_of "$name/dump.txt" functions "${1-0000}"
}

# run WORD..: runs the script, and keeps what it prints and its status.
run() {
    sh "$name/script.sh" "$@" >out 2>err
    status=$?
}

# holds DUMP [DOMAIN]: whether the functions hold the bytes of a dump.
holds() {
    rm -rf wanted
    functions_of "$1" wanted "${2-0000}"
    diff -r wanted functions >/dev/null
}

# is STATUS OUT ERR DUMP: whether the last run printed this, and left the bytes of the dump.
is() {
    [ $status -eq "$1" ] && [ "$(cat out)" = "$2" ] && [ "$(cat err)" = "$3" ] && holds "$4"
}

sed '/^01:0[34].0/{n;s/.*/0x0000000000000000 0x00000000000fffff 0x0000000000000200/;}' "$machines/cleared.sizes" >sizes.txt
"$program" probe "$machines/cleared.dump" sizes.txt >probe.txt
settled plugged "$here/data/plugged.txt" "$here/data/plugged_probe.txt" --io none --mem e0000000-e02fffff --pref none
settled old "$machines/old.dump" "$machines/old.probe" --io 1000-ffff --mem 80000000-febfffff --pref 100000000-ffffffffff \
    --anew
settled full "$machines/full.dump" "$machines/full.probe" --io 1000-adff,b200-ffff --mem 10000000-febfffff \
    --pref 100000000-ffffffffff
# the range of the window that lacks room begins and ends with it, so that the window moves
settled cleared "$machines/cleared.dump" probe.txt --io 400-50f,51c-cf7,d00-afdf,afe4-ffff \
    --mem 20000000-fe9fffff,fea00000-febfffff --pref 100000000-17fffffff

for name in plugged old full cleared; do
    # all writes are made, in their order, and each is read back
    fresh
    run
    [ -s "$name/writes.txt" ] && is 0 'all writes were made' '' "$name/settled.txt"
    told "$name: made" $?
    sed 's/\.2 /.w=/; s/\.4 /.l=/; s/^/0000:/' "$name/writes.txt" | awk '{ print; sub(/=.*/, ""); print }' >wanted.txt
    compares=$(grep -c '^compare ' "$name/script.sh")
    tail -n "+$((compares + 1))" accesses | cmp -s - wanted.txt && ! head -n "$compares" accesses | grep -q '='
    told "$name: compared before the first write" $?

    # Command and the address registers of each function that is written are compared, and of no other
    awk '
        FILENAME ~ /writes/ { written[$1] = 1; next }
        /^..:..\../ { slot = $1; bytes = "" }
        /^..: / { gsub(/ /, ""); bytes = bytes substr($0, 4) }
        function little(at, width,    i, value) {
            for (i = 0; i < width; i++)
                value = substr(bytes, 2 * (at + i) + 1, 2) value
            return value
        }
        function say(name, at, width) { print "compare " slot " " name " " little(at, width) }
        /^$/ && slot in written {
            say("04.w", 4, 2)
            say("10.l", 16, 4)
            say("14.l", 20, 4)
            if (substr(bytes, 29, 2) ~ /[13579bdf]$/) {
                say("1c.w", 28, 2)
                say("20.l", 32, 4)
                say("24.l", 36, 4)
                say("28.l", 40, 4)
                say("2c.l", 44, 4)
                say("30.l", 48, 4)
                say("38.l", 56, 4)
            } else {
                say("18.l", 24, 4)
                say("1c.l", 28, 4)
                say("20.l", 32, 4)
                say("24.l", 36, 4)
                say("30.l", 48, 4)
            }
        }' "$name/writes.txt" "$name/dump.txt" >lines.txt
    sed 's/\.2 /.w /; s/\.4 /.l /; s/^/put /' "$name/writes.txt" | awk '{ print $0, NR }' >>lines.txt
    grep -E '^(compare|put) [0-9a-f]' "$name/script.sh" | cmp -s - lines.txt
    told "$name: lines for setpci" $?
    awk '{ sub(/^0+/, "", $4); if ($4 == "") $4 = 0; print }' lines.txt >grub.txt
    grep -E '^(compare|put) [0-9a-f]' "$name/script.grub" | cmp -s - grub.txt
    told "$name: lines for GRUB" $?

    # a second run changes nothing, as the machine isn't the dump's any more
    run
    [ $status -eq 1 ] && [ ! -s out ] && holds "$name/settled.txt" && grep -q '^changed .*; writes made: 0$' err
    told "$name: made once alone" $?

    # another domain
    fresh 0001
    run 0001
    [ $status -eq 0 ] && holds "$name/settled.txt" 0001
    told "$name: domain 0001" $?

    # a register that is compared was changed before: nothing is written; of many each eighth
    many=$(wc -l <"$name/writes.txt")
    same=0 number=0
    grep '^compare [0-9a-f]' "$name/script.sh" >compared.txt
    while read -r _ slot register value; do
        number=$((number + 1))
        [ "$many" -lt 16 ] || [ $((number % 8)) -eq 0 ] || continue
        fresh
        setpci -s "0000:$slot" "$register=$(echo "$value" | tr 0-9a-f f0-9a-e)"
        cp -R functions kept
        run
        grep -q '=' accesses && [ "$(grep -c '=' accesses)" -gt 1 ] && same=1
        [ $status -eq 1 ] && diff -r kept functions >/dev/null &&
            [ "$(cat err)" = "changed $slot $register: the dump has $value, the machine $(echo "$value" | tr 0-9a-f f0-9a-e); writes made: 0" ] || same=1
        rm -rf kept
    done <compared.txt
    told "$name: each register changed before" $same

    # a function that is written is gone
    fresh
    slot=$(cut -d' ' -f2 compared.txt | head -n 1)
    rm "functions/0000:$slot"
    run
    [ $status -eq 1 ] && ! grep -qs '=' accesses && grep -q "^changed $slot 04.w: the dump has ...., the machine nothing; writes made: 0$" err
    told "$name: a function gone" $?

    # each write in turn isn't taken, or fails; of many each eighth
    stays=0 fails=0 number=0
    while read -r slot register value; do
        number=$((number + 1))
        [ "$many" -lt 16 ] || [ $((number % 8)) -eq 0 ] || continue
        fresh
        echo "0000:$slot $register" >stuck
        run
        last=$(grep '=' accesses | tail -n 1)
        count=$(grep -c '=' accesses)
        [ "$last" = "0000:$slot $register=$(sed -n "${count}s/.* //p" "$name/writes.txt")" ] && [ $status -eq 2 ] &&
            grep -q "^stuck $slot $register: .*; writes made: $count$" err || stays=1
        [ "$count" -le $number ] || stays=1
        fresh
        echo "0000:$slot $register" >failing
        run
        count=$(grep -c '=' accesses)
        [ $status -eq 2 ] && grep -q "^failed $slot $register: .*; writes made: $((count - 1))$" err || fails=1
    done <<EOF
$(sed 's/\.2 /.w /; s/\.4 /.l /' "$name/writes.txt")
EOF
    told "$name: each write not taken" $stays
    told "$name: each write failing" $fails
done

# a board that is settled: nothing is compared, and nothing is written
"$program" settle plugged/settled.txt "$here/data/plugged_probe.txt" --io none --mem e0000000-e02fffff --pref none \
    --writes=setpci >nothing.sh
! grep -qE '^(compare|put) [0-9a-f]' nothing.sh && [ "$(sh nothing.sh)" = 'all writes were made' ]
told 'nothing to write' $?

echo "$passed passed, $failed failed"
[ $failed -eq 0 ]
