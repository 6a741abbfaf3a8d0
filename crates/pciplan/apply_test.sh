#!/bin/sh
# Tests machines/apply.sh over sysfs made of files, with the writes that `settle --writes` prints. A file takes each write
# as it is; registers that don't are made by commands of that name before those in PATH. A line is printed for each case;
# the status is 1 where one differs.
#
# Usage: apply_test.sh [PROGRAM], by default out/pciplan beside this file, which `rt ci` and `rt run` make.
set -u
export LC_ALL=C

here=$(CDPATH='' cd -- "$(dirname -- "$0")" && pwd) || exit 1
program=${1:-$here/out/pciplan}
case $program in
    /*) ;;
    *) program=$PWD/$program ;;
esac
machines=$here/../../machines
room=$(mktemp -d) || exit 1
trap 'rm -rf "$room"' EXIT
cd "$room" || exit 1
tools=$PATH

passed=0 failed=0

# told NAME STATUS: prints the case's line; STATUS says whether all was as wanted.
told() {
    if [ "$2" -eq 0 ]; then
        echo "ok: $1"
        passed=$((passed + 1))
    else
        echo "DIFFERS: $1"
        failed=$((failed + 1))
    fi
}

# fake SYSFS DOMAIN DUMP: adds the functions of a dump as a domain of a sysfs of files.
fake() {
    awk '
        function octal(hex, n) {
            n = (index("0123456789abcdef", substr(hex, 1, 1)) - 1) * 16 + index("0123456789abcdef", substr(hex, 2)) - 1
            return sprintf("\\%03o", n)
        }
        /^..:..\../ { printf "%s ", $1 }
        /^..: / { for (i = 2; i <= 17; i++) printf "%s", octal($i) }
        /^$/ { print "" }' "$3" >functions
    while read -r slot bytes; do
        mkdir -p "$1/bus/pci/devices/$2:$slot"
        # shellcheck disable=SC2059
        printf "$bytes" >"$1/bus/pci/devices/$2:$slot/config"
    done <functions
}

# settled NAME DUMP PROBE WORD..: keeps the dump, the writes and the settled dump of `settle` in a folder.
settled() {
    mkdir "$1"
    cp "$2" "$1/dump.txt"
    dump=$2 probe=$3 name=$1
    shift 3
    "$program" settle "$dump" "$probe" "$@" >"$name/settled.txt" &&
        "$program" settle "$dump" "$probe" "$@" --writes >"$name/writes.txt"
    told "$name: settle" $?
    fake "$name/before" 0000 "$name/dump.txt"
    fake "$name/after" 0000 "$name/settled.txt"
}

# fresh: makes the folder sysfs anew, as before the writes.
fresh() {
    rm -rf sysfs
    cp -R "$name/before" sysfs
}

# same WANTED: whether all functions in the folder sysfs hold the bytes of those in WANTED.
same() {
    for folder in "$1"/bus/pci/devices/*; do
        cmp -s "$folder/config" "sysfs/bus/pci/devices/${folder##*/}/config" || return
    done
}

# apply WORD..: runs the script over the folder sysfs, and keeps what it prints and its status.
apply() {
    SYSFS=$room/sysfs "$machines/apply.sh" "$@" >out 2>err
    status=$?
}

# is STATUS OUT ERR STATE: whether the last run printed this, and left the bytes of before or after.
is() {
    [ $status -eq "$1" ] && [ "$(cat out)" = "$2" ] && [ "$(cat err)" = "$3" ] && same "$name/$4"
}

# refuses NAME ERR WORD..: the script writes nothing, and says why. Text files are dump.txt and writes.txt.
refuses() {
    title=$1 err=$2
    shift 2
    apply "$@"
    is 1 '' "$err" before
    told "refused: $title" $?
}

# poke SYSFS SLOT OFFSET BYTES: writes bytes into the configuration space of a function.
poke() {
    # shellcheck disable=SC2059
    printf "$4" | dd of="$1/bus/pci/devices/0000:$2/config" bs=1 seek="$3" conv=notrunc 2>/dev/null
}

# driven SLOT DRIVER: gives a function in the folder sysfs a driver.
driven() {
    mkdir -p "sysfs/bus/pci/drivers/$2"
    : >"sysfs/bus/pci/drivers/$2/unbind"
    ln -s "../../drivers/$2" "sysfs/bus/pci/devices/0000:$1/driver"
}

# instead COMMAND LINES: puts a command before those in PATH; "$real" is the command itself.
instead() {
    rm -rf bin
    mkdir bin
    printf '#!/bin/sh\nreal=%s\n%s\n' "$(command -v "$1")" "$2" >"bin/$1"
    chmod 755 "bin/$1"
    PATH=$room/bin:$tools
}

sed '/^01:0[34].0/{n;s/.*/0x0000000000000000 0x00000000000fffff 0x0000000000000200/;}' "$machines/cleared.sizes" >sizes.txt
"$program" probe "$machines/cleared.dump" sizes.txt >probe.txt
settled plugged "$here/data/plugged.txt" "$here/data/plugged_probe.txt" --io none --mem e0000000-e02fffff --pref none
settled old "$machines/old.dump" "$machines/old.probe" --io 1000-ffff --mem 80000000-febfffff --pref 100000000-ffffffffff \
    --anew
settled full "$machines/full.dump" "$machines/full.probe" --io 1000-adff,b200-ffff --mem 10000000-febfffff \
    --pref 100000000-ffffffffff
# the range of the window that lacks room begins and ends with it, so that the window moves
settled cleared "$machines/cleared.dump" probe.txt --io 400-50f,51c-cf7,d00-afdf,afe4-ffff \
    --mem 20000000-fe9fffff,fea00000-febfffff --pref 100000000-17fffffff

again='apply.sh: nothing was written: the machine is not as the dump has it; capture it again, and settle again'

# what is made, and what is printed
for name in plugged old full cleared; do
    fresh
    apply $name/dump.txt $name/writes.txt
    is 0 "$(cat $name/writes.txt)" 'apply.sh: nothing was written, as --yes was not said' before
    told "$name: printed" $?
    apply --yes $name/dump.txt $name/writes.txt
    [ -s $name/writes.txt ] && is 0 "$(cat $name/writes.txt)" '' after
    told "$name: made" $?
    apply --yes $name/dump.txt $name/writes.txt
    [ $status -eq 1 ] && [ ! -s out ] && same $name/after && grep -q '^apply.sh: changed ' err &&
        [ "$(tail -n 1 err)" = "$again" ]
    told "$name: not made twice" $?
done

# name stays `cleared`, and the texts are in the current folder
cp cleared/dump.txt cleared/writes.txt .
: >empty.txt
fresh
apply --yes dump.txt empty.txt
is 0 'nothing to do: empty.txt has no lines' '' before
told 'no writes' $?
fake sysfs 0001 plugged/dump.txt
apply --yes plugged/dump.txt plugged/writes.txt 0001
[ $status -eq 0 ] && same cleared/before && fake wanted 0001 plugged/settled.txt && same wanted
told 'a second domain' $?
fresh
mkdir -p sysfs/bus/pci/devices/0000:01:03.1/physfn
apply --yes dump.txt writes.txt
is 0 "$(cat writes.txt)" '' after
told 'a virtual function' $?
fresh
for file in sysfs/bus/pci/devices/*/config; do
    head -c 3840 /dev/zero >>"$file"
done
apply --yes dump.txt writes.txt
[ $status -eq 0 ] && for file in sysfs/bus/pci/devices/*/config; do
    [ "$(wc -c <"$file")" -eq 4096 ] && head -c 256 "$file" >first && mv first "$file" || break
done && same cleared/after
told 'functions of 4,096 bytes' $?

# dd says how many writes it made, and of how many bytes
fresh
instead dd "exec \$real \"\$@\" 2>>$room/records"
apply --yes dump.txt writes.txt
PATH=$tools
[ "$(grep 'records out$' records | sort | uniq -c | tr -d ' ')" = '111+0recordsout' ] &&
    [ "$(sed -n 's/^\([0-9]*\) bytes .*/\1/p' records)" = "$(sed 's/.*\.\([24]\) .*/\1/' writes.txt)" ]
told 'one access for each write' $?

# what differs from the dump
fresh
usage='apply.sh: usage: apply.sh [--yes] [--unbind] DUMP WRITES [DOMAIN]'
refuses 'one word' "$usage" --yes dump.txt
refuses 'four words' "$usage" --yes dump.txt writes.txt 0000 0001
refuses 'a word that is none' "$usage" --no dump.txt writes.txt
refuses 'no dump' "apply.sh: missing.txt can't be read" --yes missing.txt writes.txt
refuses 'no writes file' "apply.sh: missing.txt can't be read" --yes dump.txt missing.txt
for domain in 0002 000 '*'; do
    refuses "domain $domain" "apply.sh: no domain $domain in $room/sysfs/bus/pci/devices" --yes dump.txt \
        writes.txt "$domain"
done
# each register that is compared, one after another
for at in '00:05.0 0 00' '00:05.0 4 04' '00:05.0 14 0e' '00:05.0 16 10' '00:05.0 20 14' '00:05.0 28 1c' '00:05.0 32 20' \
    '00:05.0 36 24' '00:05.0 40 28' '00:05.0 44 2c' '00:05.0 48 30' '00:05.0 56 38' '00:00.0 5 04' '00:00.0 16 10' \
    '00:00.0 23 14' '00:00.0 24 18' '00:00.0 30 1c' '00:00.0 35 20' '00:00.0 36 24' '00:00.0 51 30' '01:02.0 2 00'; do
    # shellcheck disable=SC2086
    set -- $at
    fresh
    poke sysfs "$1" "$2" '\132'
    apply --yes dump.txt writes.txt
    [ $status -eq 1 ] && [ ! -s out ] && [ "$(wc -l <err)" -eq 2 ] && [ "$(tail -n 1 err)" = "$again" ] &&
        grep -q "^apply.sh: changed $1 $3: the dump has [0-9a-f]*, the machine [0-9a-f]*5a[0-9a-f]*\$" err &&
        held=$(od -An -tu1 -j "$2" -N 1 "cleared/before/bus/pci/devices/0000:$1/config") &&
        poke sysfs "$1" "$2" "$(printf '\\%03o' "$held")" && same cleared/before
    told "changed: $1, byte $2" $?
done
fresh
poke sysfs 01:03.0 16 '\000\000\220\376'
poke sysfs 00:01.1 4 '\001'
apply --yes dump.txt writes.txt
[ $status -eq 1 ] && [ "$(cat err)" = "apply.sh: changed 00:01.1 04: the dump has 0103, the machine 0101
apply.sh: changed 01:03.0 10: the dump has 00000000, the machine fe900000
$again" ]
told 'changed: two registers, with both values' $?
# what isn't compared: Status, Latency Timer, bus numbers of a bridge, Interrupt Line
fresh
for at in 6 13 24 60; do
    poke sysfs 00:05.0 $at '\132'
done
apply dump.txt writes.txt
[ $status -eq 0 ]
told 'changed: what is not compared' $?
fresh
mkdir gone
mv sysfs/bus/pci/devices/0000:00:01.3 sysfs/bus/pci/devices/0000:01:03.0 gone
apply --yes dump.txt writes.txt
is_gone="apply.sh: gone 00:01.3: the dump has it, the machine doesn't
apply.sh: gone 01:03.0: the dump has it, the machine doesn't
$again"
[ $status -eq 1 ] && [ "$(cat err)" = "$is_gone" ]
told 'refused: functions that went' $?
fresh
cp -R sysfs/bus/pci/devices/0000:01:03.0 sysfs/bus/pci/devices/0000:02:00.0
refuses 'a function that came' "apply.sh: came 02:00.0: the machine has it, the dump doesn't
$again" --yes dump.txt writes.txt
refuses 'a dump of no functions' "apply.sh: writes.txt: line 1: 01:01.0 isn't in the dump" --yes empty.txt writes.txt
fresh
head -c 63 cleared/before/bus/pci/devices/0000:00:00.0/config >sysfs/bus/pci/devices/0000:00:00.0/config
apply --yes dump.txt writes.txt
[ $status -eq 1 ] && [ "$(cat err)" = "apply.sh: unread 00:00.0: less than 64 bytes of configuration space can be read
$again" ]
told 'refused: 63 bytes' $?

# text NAME FILE WHY SED: a changed dump or changed writes.
text() {
    cp dump.txt writes.txt changed
    sed "$4" "$2" >"changed/$2"
    refuses "$1" "apply.sh: changed/$2: $3" --yes changed/dump.txt changed/writes.txt
}

fresh
mkdir changed
for line in 'no 72 NoRoom mem' '01:03.0 10.4 2010000' '01:03.0 10.4 020100000' '01:03.0 10.2 20100000' \
    '01:03.0 10.1 20' '01:03.0 10.4 2010000G' '01:03.0 10.4 2010000A' '01:03.0  10.4 20100000' '01:03.0 10.4 20100000 ' \
    ' 01:03.0 10.4 20100000' '0000:01:03.0 10.4 20100000' '01:20.0 10.4 20100000' '01:03.8 10.4 20100000' \
    '01:03.0 10.L=20100000' '' '01:03.0 10.4 20100000 16 4 00001020'; do
    text "a line \`$line\`" writes.txt 'line 6: no line of --writes' "6s/.*/$line/"
done
text 'a function that the dump has not' writes.txt "line 6: 01:05.0 isn't in the dump" '6s/01:03.0/01:05.0/'
for register in 00.4 06.2 0e.2 10.2 1c.2 28.4 2c.4 38.4 3c.4 40.4 12.2 04.4; do
    value=00000000
    [ "${register#*.}" = 4 ] || value=0000
    text "register $register of a device" writes.txt "line 6: 01:03.0 has no register $register that is written" \
        "6s/10.4 .*/$register $value/"
done
text 'register 18 of a bridge' writes.txt 'line 3: 00:05.0 has no register 18.4 that is written' '3s/20.4/18.4/'
other='04 changes more than bits 0 and 1 of Command: the writes are of another dump'
text 'other bits of Command' writes.txt "line 1: 01:01.0 $other" '1s/0101/0001/'
text 'bus mastering' writes.txt "line 10: 01:03.0 $other" '10s/0002/0006/'
for line in 's/^00:00.0/00:00,0/' '1,18s/^40:/41:/' '1s/^/ /' '19s/.*/00:00.0/' '2s/.$//' '3s/ 0/ g/' \
    '18s/^$/ /' '18d' '2d'; do
    cp writes.txt changed
    sed "$line" dump.txt >changed/dump.txt
    cmp -s dump.txt changed/dump.txt && told "a dump changed by $line" 1
    apply --yes changed/dump.txt changed/writes.txt
    [ $status -eq 1 ] && [ ! -s out ] && same cleared/before && grep -q '^apply.sh: changed/dump.txt: line [0-9]*: ' err
    told "refused: a dump changed by $line" $?
done
text 'a dump without its end' dump.txt 'line 161: the text ends in a block' '$d'
text 'a header of another kind' dump.txt 'line 18: its function has a header that is neither of a device nor of a bridge' \
    '2s/00 00$/02 00/;2s/ .. ..$/ 02 00/'
printf '%s' "$(cat writes.txt)" >changed/writes.txt
refuses 'a cut line' 'apply.sh: changed/writes.txt: the last line is cut off' --yes dump.txt changed/writes.txt

# drivers
named='apply.sh: 01:03.0 has the driver e1000e
apply.sh: 01:04.0 has the driver ahci'
driven 01:03.0 e1000e
driven 01:04.0 ahci
driven 00:05.0 pcieport
driven 00:01.0 other
unbinds='unbind 01:03.0 e1000e
unbind 01:04.0 ahci'
use='apply.sh: nothing was written: stop what uses these functions, and say --unbind'
refuses 'drivers' "$named
$use" --yes dump.txt writes.txt
apply --unbind dump.txt writes.txt
is 0 "$unbinds
$(cat writes.txt)" 'apply.sh: nothing was written, as --yes was not said' before &&
    [ ! -s sysfs/bus/pci/drivers/e1000e/unbind ]
told 'drivers: printed' $?
# the driver changes Command as it goes
instead od "[ ! -s sysfs/bus/pci/drivers/e1000e/unbind ] || printf '\\006' |
    dd of=sysfs/bus/pci/devices/0000:01:03.0/config bs=1 seek=4 conv=notrunc 2>/dev/null
exec \$real \"\$@\""
apply --yes --unbind dump.txt writes.txt
PATH=$tools
[ $status -eq 1 ] && [ "$(cat err)" = 'apply.sh: changed 01:03.0 04: the dump has 0000, the machine 0006
apply.sh: nothing was written: registers changed; capture again, and settle again' ] &&
    poke sysfs 01:03.0 4 '\000' && same cleared/before
told 'drivers: Command changes' $?
apply --yes --unbind dump.txt writes.txt
is 0 "$(echo "$unbinds" | sed 's/unbind/unbound/')
$(cat writes.txt)" '' after && [ "$(cat sysfs/bus/pci/drivers/e1000e/unbind)" = 0000:01:03.0 ] &&
    [ "$(cat sysfs/bus/pci/drivers/ahci/unbind)" = 0000:01:04.0 ] && [ ! -s sysfs/bus/pci/drivers/pcieport/unbind ] &&
    [ ! -s sysfs/bus/pci/drivers/other/unbind ]
told 'drivers: unbound' $?
fresh
driven 01:03.0 e1000e
driven 01:04.0 ahci
rm sysfs/bus/pci/drivers/ahci/unbind
mkdir sysfs/bus/pci/drivers/ahci/unbind
apply --yes --unbind dump.txt writes.txt
is 1 'unbound 01:03.0 e1000e' "apply.sh: the driver ahci of 01:04.0 can't be unbound
apply.sh: nothing was written" before
told 'drivers: one that stays' $?
fresh
chmod 400 sysfs/bus/pci/devices/0000:01:02.0/config
if [ -w sysfs/bus/pci/devices/0000:01:02.0/config ]; then
    echo 'skipped: a file config that can not be written, as root can'
else
    refuses 'config' "apply.sh: 01:02.0: its file config can't be written; root can
apply.sh: nothing was written" --yes dump.txt writes.txt
fi

# turned DIGITS: the bytes of a value in rising order.
turned() {
    echo "$1" | sed -e 's/\(..\)\(..\)\(..\)\(..\)/\4\3\2\1/' -e t -e 's/\(..\)\(..\)/\2\1/'
}

# stops NAME COUNT WHY: as many writes as COUNT are made, and no other; the folder sysfs is then as wanted.
stops() {
    rm -f calls
    apply --yes dump.txt writes.txt
    PATH=$tools
    [ $status -eq 2 ] && [ "$(cat err)" = "apply.sh: stopped after $2 of 11 writes: $3" ] &&
        [ "$(cat out)" = "$(head -n "$2" writes.txt)" ] && same wanted
    told "stopped: $1" $?
    fresh
}

fresh
rm -rf wanted
cp -R sysfs wanted
n=0
while read -r slot register value; do
    offset=$((0x${register%.*}))
    now=$(od -An -v -tx1 -j $offset -N "${register#*.}" "wanted/bus/pci/devices/0000:$slot/config" | tr -d ' ')
    wants=$(turned "$value")
    instead dd "echo >>$room/calls; [ \$(wc -l <$room/calls) -ne $((n + 1)) ] || exit 1; exec \$real \"\$@\""
    stops "write $((n + 1)) fails" $n "$slot $register $value failed"
    # the register keeps what it holds
    instead dd "echo >>$room/calls; [ \$(wc -l <$room/calls) -ne $((n + 1)) ] || set -- \"\$@\" of=/dev/null
exec \$real \"\$@\""
    stops "write $((n + 1)) is not taken" $n "$slot $register $value reads back $now, wanted $wants, lowest byte first"
    poke wanted "$slot" $offset "$(echo "$wants" | sed 's/../ 0x&/g' | xargs printf '\\%03o')"
    n=$((n + 1))
done <cleared/writes.txt
[ $n -eq 11 ] && cp -R wanted/. sysfs && same cleared/after
told 'stopped: at each write' $?

# a signal between two writes, and a session that ends
fresh
instead dd 'echo >>calls; [ $(wc -l <calls) -ne 3 ] || kill -TERM $PPID; exec $real "$@"'
rm -f calls
apply --yes dump.txt writes.txt
PATH=$tools
[ $status -eq 2 ] && [ "$(cat err)" = "apply.sh: stopped after 3 of 11 writes: a signal came before 01:01.0 10.4 20300000" ]
told 'stopped: a signal' $?
fresh
instead dd 'kill -HUP $PPID; exec $real "$@"'
apply --yes dump.txt writes.txt
PATH=$tools
is 0 "$(cat writes.txt)" '' after
told 'a session that ends' $?
fresh
{ SYSFS=$room/sysfs "$machines/apply.sh" --yes dump.txt writes.txt 2>err; echo $? >status; } | true
[ "$(cat status)" -eq 0 ] && same cleared/after
told 'standard output that is closed' $?

echo "$passed passed, $failed failed"
[ "$failed" -eq 0 ]
