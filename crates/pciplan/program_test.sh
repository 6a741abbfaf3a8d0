#!/bin/sh
# Runs the built program as its users do. Each case compares what went to standard output, what went to standard error,
# and the status. A line is printed for each case, and one for each file of cases; the status is 1 where one differs.
#
# Usage: program_test.sh [PROGRAM], by default out/pciplan beside this file, which `rt ci` and `rt run` make, and then
# out/pciplan.by-rattle, which `rt ci` has from its second compiler; after them the C of c/ and the packages, where a C
# compiler is.
set -u

here=$(CDPATH='' cd -- "$(dirname -- "$0")" && pwd) || exit 1
if [ $# -eq 0 ]; then
    worst=0
    for build in "$here/out/pciplan" "$here/out/pciplan.by-rattle"; do
        [ -e "$build" ] || [ "$build" = "$here/out/pciplan" ] || continue
        echo "== ${build##*/}"
        "$0" "$build" || worst=1
    done
    echo '== c/test.sh'
    if command -v "${CC:-cc}" >/dev/null; then
        "$here/../../c/test.sh" --built || worst=1
        echo '== c/package_test.sh'
        "$here/../../c/package_test.sh" || worst=1
    else
        echo 'skipped: all of it, as no C compiler is here'
    fi
    exit $worst
fi
room=$(mktemp -d) || exit 1
trap 'rm -rf "$room"' EXIT
made=$(realpath -- "$1") || exit 1
cp -- "$made" "$room/program" || exit 1
# A program that doesn't end is stopped, and has status 124 then.
if command -v timeout >/dev/null; then
    printf '#!/bin/sh\nexec timeout 60 "%s/program" "$@"\n' "$room" >"$room/pciplan"
else
    cp -- "$room/program" "$room/pciplan"
fi
cp -- "$here"/data/*.txt "$here"/../../machines/* "$room" || exit 1
cp -R -- "$here"/cases "$here"/cases.awk "$room" || exit 1
chmod 755 "$room" "$room/program" "$room/pciplan"
cd "$room" || exit 1

# a way of 255 bridges to bus FFh, where all pass its BAR, and where one is closed
awk 'BEGIN {
    for (closed = -1; closed < 255; closed += 51) {
        print "# 255 bridges in a row"
        for (bus = 0; bus < 255; bus++)
            printf "%02x:00.0 bridge %02x %02x ff 04=%s 20=e000e000/fff0fff0\n", bus, bus, bus + 1,
                bus == closed ? "0000" : "0002"
        print "ff:00.0 04=0002 10=e0000000/fff00000"
        print "$ check dump probe"
        if (closed < 0)
            print "yes\n"
        else
            printf "no 60 Unreached ff:00.0 10 mem 00000000e0000000 bridge %02x:00.0\n\n", closed
    }
}' >cases/deep.txt

# Boards written as text, with what the program answers about each, run beside what follows, each file in a folder of its
# own: it prints `FILE: N passed, M failed`. So do the scripts around the program: writes on a running Linux and in scripts, capture and
# conversion of texts, what is told beside them, machines that `here` reads, what is installed, documents of answers, pictures, slow models on boards made by rule, and the commands that pages show.
for cases in cases/*.txt; do
    mkdir "$cases.d"
    ln -s ../../pciplan ../../cases "$cases.d"
    (cd "$cases.d" && exec awk -f ../../cases.awk "$cases" >"../../$cases.told") &
done
scripts='apply assumed capture explain here install json library lists models pages picture rescan script told'
for script in $scripts; do
    "$here/${script}_test.sh" "$made" >$script.told &
done

mkdir folder
: >empty.txt
printf '00:01.0' >cut.txt
printf 'secret' >locked.txt
chmod 000 locked.txt

passed=0 failed=0

# compare NAME STATUS OUT ERR GOT: compares what a run left in the files out and err, and its status GOT.
compare() {
    printf '%s' "$3" >out.wanted
    printf '%s' "$4" >err.wanted
    if [ "$5" -eq "$2" ] && cmp -s out out.wanted && cmp -s err err.wanted; then
        echo "ok: $1"
        passed=$((passed + 1))
    else
        echo "DIFFERS: $1: status $5, wanted $2"
        echo "standard output:"
        cat out
        echo "standard error:"
        cat err
        failed=$((failed + 1))
    fi
}

# The texts are written with their line feeds, which the shell drops from the end of a command's output.
lf='
'

# case_of NAME STATUS OUT ERR WORD..: the program, given the words.
case_of() {
    title=$1 status=$2 wrote=$3 told=$4
    shift 4
    ./pciplan "$@" >out 2>err
    compare "$title" "$status" "$wrote" "$told" $?
}

# text_of FILE: sets `text` to what the file holds, with its last line feed.
text_of() {
    text=$(cat "$1"; echo .)
    text=${text%.}
}

text_of probe.txt
probe_text=$text
pools='--io 1000-ffff --mem e0000000-efffffff --pref f0000000-ffffffff'

# what is written to standard output, with nothing on standard error
case_of 'yes' 0 "yes$lf" '' check dump.txt probe.txt
case_of 'no' 1 "no 31 StrayProbe 00:01.0 00$lf" '' check dump.txt dump.txt
case_of 'show: no' 1 "no 31 StrayProbe 00:01.0 00$lf" '' show dump.txt dump.txt
case_of 'show: nothing to list' 0 '' '' show empty.txt empty.txt
case_of 'size' 0 "$probe_text" '' size dump.txt probe.txt
# shellcheck disable=SC2086
case_of 'plan: nothing to plan' 0 '' '' plan empty.txt empty.txt $pools
case_of 'plan: no' 1 "no 70 BadPools$lf" '' \
    plan dump.txt probe.txt --io 2-1 --mem e0000000-efffffff --pref f0000000-ffffffff

# dumps of machines, each with its verdict, its map, its listing, and what sizing it finds, which is its probe
for machine in desk old port roots; do
    roots=00
    [ $machine = roots ] && roots=00,40
    text_of $machine.check
    [ "$text" = "yes$lf" ]
    judged=$?
    case_of "$machine: check" $judged "$text" '' check --root $roots $machine.dump $machine.probe
    # what isn't admitted has the line of the verdict in the place of a map
    [ $judged -eq 1 ] || text_of $machine.map
    case_of "$machine: map" $judged "$text" '' map --root $roots $machine.dump $machine.probe
    text_of $machine.check
    # the list begins with the fault that the verdict names
    text=${text#no }
    [ $machine = desk ] && text="${text}52 VgaEnable 01:00.0$lf"
    case_of "$machine: faults" $judged "$text" '' faults --root $roots $machine.dump $machine.probe
    # by all words, and by ports of 16 bits
    case $machine in
    desk) text="61 Clash bus 00 io 000013b0 00:02.0 3e 00:03.0 1c$lf" judged=1 ;;
    port) text="60 Unreached 02:00.0 18 io 00002000 bridge 00:06.0$lf" judged=1 ;;
    *) text="yes$lf" judged=0 ;;
    esac
    case_of "$machine: faults by all words" $judged "$text" '' \
        faults --root $roots --model all $machine.dump $machine.probe
    if [ $machine = desk ]; then
        case_of "$machine: faults by ports of 16 bits" 0 "yes$lf" '' faults --model vga16 desk.dump desk.probe
    fi
    text_of $machine.show
    refused=0
    [ $machine = port ] && refused=1
    case_of "$machine: show" $refused "$text" '' show $machine.dump $machine.probe
    [ $machine = port ] || text_of $machine.probe
    case_of "$machine: size" $refused "$text" '' size $machine.dump $machine.probe
done
case_of 'roots: one root bus alone' 1 "no 58 Orphan 40:00.0$lf" '' check roots.dump roots.probe

# settled NAME ROOTS WRITES DUMP: settling the dump in the machine's addresses makes these writes; then it is sound.
settled() {
    title=$1 machine=${4%.*} roots=$2
    lists='--io 700-ffff --mem 80000000-febfffff --pref none'
    # shellcheck disable=SC2086
    case_of "$title" 0 "$3" '' settle --root "$roots" "$4" "${machine%_*}.probe" $lists --writes
    # shellcheck disable=SC2086
    ./pciplan settle --root "$roots" "$4" "${machine%_*}.probe" $lists >settled.txt
    case_of "$title: check" 0 "yes$lf" '' check --root "$roots" settled.txt "${machine%_*}.probe"
}

# machines as they stand, and with the BARs of one function cleared, which alone is written then
sed '/^02:02.0/,/^$/s/^10: 01 c1 00 00 00 30 64 fe/10: 01 00 00 00 00 00 00 00/' old.dump >old_cleared.dump
sed '/^43:00.0/,/^$/s/^10: 04 00 00 fe/10: 04 00 00 00/' roots.dump >roots_cleared.dump
settled 'old: settle' 00 '' old.dump
settled 'roots: settle' 00,40 '' roots.dump
settled 'old: settle, 02:02.0 cleared' 00 "02:02.0 04.2 0100
02:02.0 10.4 0000c101
02:02.0 14.4 fe600000
02:02.0 04.2 0103$lf" old_cleared.dump
settled 'roots: settle, 43:00.0 cleared' 00,40 "43:00.0 04.2 0505
43:00.0 10.4 fe000004
43:00.0 04.2 0507$lf" roots_cleared.dump
# shellcheck disable=SC2086
case_of 'desk: settle' 1 "no 52 VgaEnable 00:02.0$lf" '' settle desk.dump desk.probe $pools
# shellcheck disable=SC2086
case_of 'port: settle' 1 "no 26 WindowMask 00:06.0 1c$lf" '' settle port.dump port.probe $pools

# derived NAME REMARKS VERDICT STATUS [FAULT]: the probe that is derived of the machine is the file NAME.derived, which
# the caller made; an exact one is the same or has the fault.
derived() {
    machine=$1 remarks=$2 verdict=$3 refused=$4 fault=${5-}
    roots=00
    [ "$machine" = roots ] && roots=00,40
    text_of "$machine.derived"
    case_of "$machine: probe" 0 "$text" "$remarks" probe "$machine.dump" "$machine.sizes"
    if [ -n "$fault" ]; then
        case_of "$machine: probe --exact" 1 "$fault$lf" '' probe "$machine.dump" "$machine.sizes" --exact
    else
        case_of "$machine: probe --exact" 0 "$text" '' probe "$machine.dump" "$machine.sizes" --exact
    fi
    case_of "$machine: check of the derived probe" "$refused" "$verdict$lf" '' \
        check --root "$roots" "$machine.dump" "$machine.derived"
}

# Two devices have a ROM of 64 KB of which Linux tells a copy in memory; port has a window that can't be opened.
sed '/^02:01.0/,/^$/{s/^02:01.0/& assumed 30/;s/^30: 00 00/30: 00 f8/;}' desk.probe >desk.derived
sed '/^00:02.0/,/^$/{s/^00:02.0/& assumed 30/;s/^30: 00 00/30: 00 f8/;}' old.probe >old.derived
sed '/^00:06.0/,/^$/s/^\(10:.*\) f0 00 00 00$/\1 f0 f0 00 00/' port.probe >port.derived
cp roots.probe roots.derived
derived desk "pciplan: assumed 02:01.0 30$lf" 'no 52 VgaEnable 00:02.0' 1 'no 32 NoSize 02:01.0 30'
derived old "pciplan: assumed 00:02.0 30$lf" yes 0 'no 32 NoSize 00:02.0 30'
derived port '' 'no 60 Unreached 02:00.0 18 io 00002000 bridge 00:06.0' 1
derived roots '' yes 0

# told DUMP SIZES SLOT LINE SIZE FLAGS..: the sizes with these lines in the place of cleared ones, as a kernel's log tells them
told() {
    awk -v changes="$*" '
        BEGIN { count = split(changes, word, " ") }
        /^[0-9a-f][0-9a-f]:/ { slot = $1; line = -1 }
        {
            for (at = 1; at + 3 <= count; at += 4)
                if (slot == word[at] && line == word[at + 1])
                    $0 = "0x0000000000000000 0x" word[at + 2] " 0x0000000000000" word[at + 3]
            line++
            print
        }'
}

# unplaced: BARs that Linux couldn't place. Their lines are cleared in sysfs, and the kernel's log has their sizes.
lists='--io 400-50f,51c-cf7,d00-ffff --mem 20000000-afffffff,c0000000-febfffff --pref 100000000-8ffffffff'
case_of 'unplaced: probe' 1 "no 32 NoSize 02:02.0 18$lf" '' probe unplaced.dump unplaced.sizes
./pciplan probe unplaced.dump unplaced.sizes --least >unplaced.least 2>err
# shellcheck disable=SC2086
case_of 'unplaced: settle by the least sizes' 1 "no 76 Assumed 02:02.0 18$lf" '' \
    settle unplaced.dump unplaced.least $lists
told 02:02.0 2 0000000003ffffff 20c 02:03.0 0 0000000003ffffff 208 <unplaced.sizes >unplaced.told
./pciplan probe unplaced.dump unplaced.told >unplaced.probe
# shellcheck disable=SC2086
./pciplan settle unplaced.dump unplaced.probe $lists >unplaced.settled
case_of 'unplaced: settled by the sizes of the log' 0 "yes$lf" '' check unplaced.settled unplaced.probe
./pciplan show unplaced.settled unplaced.probe | sed -n '/^02:02.0/,/^[^ ]/s/^  bar 18 //p' >out
: >err
compare 'unplaced: its BAR has 64 MB' 0 "mem64 pref 0000000100000000-0000000103ffffff$lf" '' 0

# cleared: two BARs of 32 bits that show 0, of which sysfs tells nothing, so that only the log has them
lists='--io 400-50f,51c-cf7,d00-afdf,afe4-ffff --mem 20000000-febfffff --pref 100000000-17fffffff'
./pciplan probe cleared.dump cleared.sizes >cleared.probe
# shellcheck disable=SC2086
case_of 'cleared: nothing is known of its BARs' 0 '' '' settle cleared.dump cleared.probe $lists --writes
told 01:03.0 0 00000000000fffff 200 01:04.0 0 00000000000fffff 200 <cleared.sizes >cleared.told
./pciplan probe cleared.dump cleared.told >cleared.probe
# shellcheck disable=SC2086
case_of 'cleared: settled by the sizes of the log' 0 "00:05.0 20.4 feb0fe80
01:03.0 10.4 fe900000
01:04.0 10.4 fe800000
01:03.0 04.2 0002
01:04.0 04.2 0002$lf" '' settle cleared.dump cleared.probe $lists --writes
# in ranges that touch a window doesn't grow beyond its own: it moves, and what is in it
lists='--io 400-50f,51c-cf7,d00-afdf,afe4-ffff --mem 20000000-fe9fffff,fea00000-febfffff --pref 100000000-17fffffff'
# shellcheck disable=SC2086
case_of 'cleared: settled where its window has a range alone' 0 "01:01.0 04.2 0101
00:05.0 20.4 0000fff0
00:05.0 20.4 20302000
01:01.0 10.4 20300000
01:02.0 10.4 20000000
01:03.0 10.4 20100000
01:04.0 10.4 20200000
01:01.0 04.2 0103
01:02.0 04.2 0002
01:03.0 04.2 0002
01:04.0 04.2 0002$lf" '' settle cleared.dump cleared.probe $lists --writes

# full: the windows of a switch have no room for a card of 16 KB and 4 KB that was plugged in. Two of them grow, in two
# levels, and nothing is switched off.
lists='--io 1000-adff,b200-ffff --mem 10000000-febfffff --pref 100000000-ffffffffff'
case_of 'full: check' 0 "yes$lf" '' check full.dump full.probe
# shellcheck disable=SC2086
case_of 'full: settle' 0 "00:02.0 20.4 fe90fe30
00:02.0 24.4 f041f001
01:01.0 20.4 fe70fe30
01:01.0 24.4 f041f001
02:02.0 14.4 fe3ff000
02:02.0 20.4 f040000c
02:02.0 04.2 0002$lf" '' settle full.dump full.probe $lists --writes
# shellcheck disable=SC2086
./pciplan settle full.dump full.probe $lists >settled.txt
case_of 'full: settle: check' 0 "yes$lf" '' check settled.txt full.probe
# shellcheck disable=SC2086
case_of 'full: settled again' 0 '' '' settle settled.txt full.probe $lists --writes
case_of 'probe: nothing to derive' 0 '' '' probe empty.txt empty.txt
case_of "probe: another machine's sizes" 1 "no 30 SlotsDiffer 00:01.0$lf" '' probe old.dump desk.sizes

# words that are refused
case_of 'no words' 2 '' "pciplan: usage$lf"
case_of 'no such command' 2 '' "pciplan: usage$lf" judge dump.txt probe.txt
case_of 'one text' 2 '' "pciplan: usage$lf" check dump.txt
case_of 'help' 2 '' "pciplan: usage$lf" --help
case_of 'a word that is not UTF-8' 2 '' "pciplan: usage$lf" check "$(printf '\377')" probe.txt
case_of 'the list of root buses' 2 '' "pciplan: root$lf" check --root zz dump.txt probe.txt
case_of 'the word of a pool' 2 '' "pciplan: pool --mem$lf" \
    plan dump.txt probe.txt --io 1000-ffff --mem e --pref f0000000-ffffffff

# texts that are refused, the dump first
case_of 'a fault of the dump' 2 '' "pciplan: dump: 9 Ended 1$lf" check cut.txt probe.txt
case_of 'a fault of the probe' 2 '' "pciplan: probe: 9 Ended 1$lf" check dump.txt cut.txt
case_of 'a fault of the sizes' 2 '' "pciplan: sizes: 9 Ended 1$lf" probe dump.txt cut.txt
case_of 'a fault of dump and sizes' 2 '' "pciplan: dump: 9 Ended 1$lf" probe cut.txt cut.txt
for size in 1 7 8 407 409 4487; do
    head -c $size old.sizes >cut.sizes
    case_of "sizes that are cut after $size bytes" 2 '' \
        "pciplan: sizes: 9 Ended $(($(wc -l <cut.sizes) + 1))$lf" probe old.dump cut.sizes
done
# each byte of a function's sizes in turn, as one that stands nowhere in such a text
wrong=0 at=0
while [ $at -lt 408 ]; do
    { head -c $((408 + at)) old.sizes; printf G; tail -c +$((410 + at)) old.sizes; } >changed.sizes
    if [ $at -lt 8 ]; then
        fault='3 BadSlot 10'
    elif [ $at -lt 407 ]; then
        fault="5 BadLine $((11 + (at - 8) / 57))"
    else
        fault='6 NoBlank 18'
    fi
    ./pciplan probe old.dump changed.sizes >out 2>err
    if [ $? -ne 2 ] || [ -s out ] || [ "$(cat err)" != "pciplan: sizes: $fault" ]; then
        echo "byte $at: $fault is wanted: $(cat err)"
        wrong=$((wrong + 1))
    fi
    at=$((at + 1))
done
echo "$wrong" >out
: >err
compare 'sizes with a changed byte, each of 408' 0 "0$lf" '' 0
head -c 4080 old.sizes >cut.sizes
case_of 'sizes that are cut after a function' 1 "no 30 SlotsDiffer 02:02.0$lf" '' probe old.dump cut.sizes
case_of 'a fault of both' 2 '' "pciplan: dump: 9 Ended 1$lf" check cut.txt cut.txt

# texts that can't be opened or read
# shellcheck disable=SC2086
for command in show check faults map size "plan $pools"; do
    name=${command%% *}
    case_of "$name: no dump" 4 '' "pciplan: dump: 1 Io$lf" $command missing.txt probe.txt
    case_of "$name: no probe" 4 '' "pciplan: probe: 1 Io$lf" $command dump.txt missing.txt
    case_of "$name: neither" 4 '' "pciplan: dump: 1 Io$lf" $command missing.txt missing.txt
    case_of "$name: a folder as dump" 4 '' "pciplan: dump: 1 Io$lf" $command folder probe.txt
    case_of "$name: a folder as probe" 4 '' "pciplan: probe: 1 Io$lf" $command dump.txt folder
done
for option in '' --exact; do
    name="probe${option:+ $option}"
    # shellcheck disable=SC2086
    {
        case_of "$name: no dump" 4 '' "pciplan: dump: 1 Io$lf" probe missing.txt old.sizes $option
        case_of "$name: no sizes" 4 '' "pciplan: sizes: 1 Io$lf" probe old.dump missing.txt $option
        case_of "$name: neither" 4 '' "pciplan: dump: 1 Io$lf" probe missing.txt missing.txt $option
        case_of "$name: a folder as dump" 4 '' "pciplan: dump: 1 Io$lf" probe folder old.sizes $option
        case_of "$name: a folder as sizes" 4 '' "pciplan: sizes: 1 Io$lf" probe old.dump folder $option
        case_of "$name: two folders" 4 '' "pciplan: dump: 1 Io$lf" probe folder folder $option
    }
done
case_of 'no sizes, and a fault of the dump' 2 '' "pciplan: dump: 9 Ended 1$lf" probe cut.txt missing.txt
case_of 'no probe, and a fault of the dump' 2 '' "pciplan: dump: 9 Ended 1$lf" check cut.txt missing.txt
case_of 'an empty path' 4 '' "pciplan: dump: 1 Io$lf" check '' probe.txt

# a file that may not be read; root reads every file
name='a dump that may not be read'
if ! [ -r locked.txt ]; then
    case_of "$name" 4 '' "pciplan: dump: 1 Io$lf" check locked.txt probe.txt
elif su nobody -s /bin/sh -c "cd '$room' && ! [ -r locked.txt ]" 2>err; then
    su nobody -s /bin/sh -c "cd '$room' && exec ./pciplan check locked.txt probe.txt" >out 2>err
    compare "$name" 4 '' "pciplan: dump: 1 Io$lf" $?
else
    echo "skipped: $name"
fi

# texts that come through pipes, also in parts and longer than a buffer; a path with blanks; more words than a line has
cat dump.txt | ./pciplan check /dev/stdin probe.txt >out 2>err
compare 'a dump on standard input' 0 "yes$lf" '' $?
cat probe.txt | ./pciplan check dump.txt /dev/stdin >out 2>err
compare 'a probe on standard input' 0 "yes$lf" '' $?
mkfifo dump.pipe probe.pipe
# writers_end PID..: ends what still waits for the program to read it, where that failed.
writers_end() {
    kill "$@" 2>/dev/null
    wait "$@"
}
text_of old.check
for size in 1000 4096 9000; do
    { head -c $size old.dump; sleep 0.1; tail -c +$((size + 1)) old.dump; } >dump.pipe &
    first=$!
    cat old.probe >probe.pipe &
    case_of "texts through pipes, the dump cut after $size bytes" 0 "$text" '' check dump.pipe probe.pipe
    writers_end $first $!
done
text_of old.derived
cat old.dump >dump.pipe &
first=$!
{ head -c 1000 old.sizes; sleep 0.1; tail -c +1001 old.sizes; } >probe.pipe &
case_of 'dump and sizes through pipes' 0 "$text" "pciplan: assumed 00:02.0 30$lf" probe dump.pipe probe.pipe
writers_end $first $!
case_of 'no dump, and a pipe that nobody writes' 4 '' "pciplan: dump: 1 Io$lf" check missing.txt probe.pipe
cp dump.txt ' dump .txt '
case_of 'a path with blanks' 0 "yes$lf" '' check ' dump .txt ' probe.txt
case_of 'a path that lacks its last blank' 4 '' "pciplan: dump: 1 Io$lf" check ' dump .txt' probe.txt
# shellcheck disable=SC2086
case_of 'thirteen words' 2 '' "pciplan: usage$lf" plan empty.txt empty.txt $pools --root 00 --writes more

# memory that holds the program and not the largest of texts, where the shell can limit it
name='want of memory'
# shellcheck disable=SC3045
(ulimit -v 7000 && exec ./program) >out 2>err
if [ $? -eq 2 ]; then
    awk 'BEGIN {
        for (n = 0; n < 4096; n++) {
            printf "%02x:%02x.%x\n", int(n / 256), int(n / 8) % 32, n % 8
            for (row = 0; row < 16; row++) {
                printf "%02x:", row * 16
                for (byte = 0; byte < 16; byte++)
                    printf " 00"
                print ""
            }
            print ""
        }
    }' >large.txt
    # shellcheck disable=SC3045
    (ulimit -v 7000 && exec ./program size large.txt large.txt) >out 2>err
    compare "$name" 3 '' "pciplan: 2 Memory$lf" $?
else
    echo "skipped: $name"
fi

# an output that can't be written; a message that can't be written changes no status
./pciplan check dump.txt probe.txt 2>err >&-
got=$?
: >out
compare 'standard output is closed' 4 '' "pciplan: 10 Io$lf" $got
./pciplan check missing.txt probe.txt >out 2>&-
got=$?
: >err
compare 'standard error is closed' 4 '' '' $got
./pciplan check dump.txt probe.txt >out 2>&-
got=$?
: >err
compare 'an answer where standard error is closed' 0 "yes$lf" '' $got
./pciplan probe old.dump old.sizes 2>err >&-
got=$?
: >out
compare 'probe: standard output is closed' 4 '' "pciplan: 10 Io$lf" $got
text_of old.derived
./pciplan probe old.dump old.sizes >out 2>&-
got=$?
: >err
compare 'probe: remarks where standard error is closed' 0 "$text" '' $got
if [ -w /dev/full ]; then
    for command in show check faults map size; do
        ./pciplan $command dump.txt probe.txt 2>err >/dev/full
        got=$?
        : >out
        compare "$command: standard output is full" 4 '' "pciplan: 10 Io$lf" $got
    done
    for option in '' --exact; do
        # shellcheck disable=SC2086
        ./pciplan probe old.dump old.sizes $option 2>err >/dev/full
        got=$?
        : >out
        compare "probe${option:+ $option}: standard output is full" 4 '' "pciplan: 10 Io$lf" $got
    done
    ./pciplan probe old.dump old.sizes >out 2>/dev/full
    got=$?
    : >err
    compare 'probe: remarks where standard error is full' 0 "$text" '' $got
    ./pciplan judge >out 2>/dev/full
    got=$?
    : >err
    compare 'standard error is full' 2 '' '' $got
else
    echo 'skipped: standard output is full'
fi

# what ran beside all this
wait
for cases in cases/*.txt; do
    cat "$cases.told"
    # shellcheck disable=SC2046
    set -- $(tail -n 1 "$cases.told")
    passed=$((passed + $2)) failed=$((failed + $4))
done
for script in $scripts; do
    grep -v '^ok: ' $script.told | sed "s/^[0-9]* passed/${script}_test.sh: &/"
    # shellcheck disable=SC2046
    set -- $(tail -n 1 $script.told)
    passed=$((passed + $1)) failed=$((failed + $3))
done

echo "$passed passed, $failed failed"
[ "$failed" -eq 0 ]
