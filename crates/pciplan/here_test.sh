#!/bin/sh
# Tests `pciplan here` over trees of files that are made from the texts of machines/: what it prints is what `probe`,
# `faults` and `map` print about the same texts, and each file of a tree is missing, short or unreadable in turn. Where this
# machine shows all of its configuration space, it is read too. A line is printed for each case; the status is 1 where one
# differs.
#
# Usage: here_test.sh [PROGRAM], by default out/pciplan beside this file, which `rt ci` and `rt run` make.
set -u
export LC_ALL=C

here=$(CDPATH='' cd -- "$(dirname -- "$0")" && pwd) || exit 1
program=${1:-$here/out/pciplan}
case $program in
    /*) ;;
    *) program=$PWD/$program ;;
esac
machines=$here/../../machines
room=$(mktemp -d) || exit 1
trap 'rm -rf "$room"' EXIT
cd "$room" || exit 1

# fake SYSFS DOMAIN ABOVE MACHINE ROOT..: adds a machine's functions as a domain of a sysfs of files
sed -n '/^fake() {/,/^}/p' "$here/capture_test.sh" >fake.sh
. ./fake.sh

passed=0 failed=0

# told NAME STATUS: prints the case's line; STATUS says whether all was as wanted.
told() {
    if [ "$2" -eq 0 ]; then
        echo "ok: $1"
        passed=$((passed + 1))
    else
        echo "DIFFERS: $1"
        failed=$((failed + 1))
    fi
}

# says NAME STATUS OUT ERR WORD..: the program answers the words with the status, the text of file OUT and the text ERR.
says() {
    case=$1 wanted_status=$2 wanted_out=$3 wanted_err=$4
    shift 4
    "$program" "$@" >out 2>err
    ended=$?
    if [ $ended -eq "$wanted_status" ] && cmp -s out "$wanted_out" && [ "$(cat err)" = "$wanted_err" ]; then
        told "$case" 0
    else
        told "$case: status $ended, wanted $wanted_status" 1
        head -n 5 out err
    fi
}

# bus_line DOMAIN BUS FIRST LAST: the line of proc of the addresses that a bus gets.
bus_line() {
    echo "$3-$4 : PCI Bus $1:$2"
}

# halves TREE DOMAIN FIRST SECOND: the host sends half of each space to each of two host buses.
halves() {
    mkdir -p "$1/proc"
    {
        bus_line "$2" "$3" 0000 7fff
        echo '  0000-001f : dma1'
        bus_line "$2" "$4" 8000 ffff
    } >>"$1/proc/ioports"
    {
        echo '00000000-00000fff : Reserved'
        echo '00001000-bfffffff : System RAM'
        bus_line "$2" "$3" c0000000 dfffffff
        echo '  c0000000-c00fffff : PCI Bus '"$2:0f"
        bus_line "$2" "$4" e0000000 ffffffff
        bus_line "$2" "$3" 100000000 7fffffffff
    } >>"$1/proc/iomem"
}

: >nothing

# as_commands NAME TREE MACHINE REMARKS [WORD..]: about a tree of the machine `here` says what the commands of two texts say
# of its dump and its sizes: the probe with its remarks, and by the printed words the list and the map. REMARKS are told
# where the host's ranges are asked for.
as_commands() {
    title=$1 tree=$2 machine=$3 none=$4
    shift 4
    dump=$machines/$machine.dump
    says "$title: dump" 0 "$dump" '' here dump --from "$tree" "$@"
    "$program" probe --least "$dump" "$machines/$machine.sizes" >probe 2>remarks
    status=$?
    says "$title: probe" $status probe "$(cat remarks)" here probe --from "$tree" "$@"
    [ -z "$none" ] || echo "$none" >>remarks
    "$program" here words --from "$tree" "$@" >words 2>err
    [ $? -eq 0 ] && [ "$(cat err)" = "$none" ] && [ "$(wc -l <words)" -eq 1 ]
    told "$title: words" $?
    for command in faults map; do
        why=
        [ $command = faults ] && why=--why
        if [ $status -eq 0 ]; then
            # shellcheck disable=SC2046
            "$program" $command "$dump" probe $(cat words) $why >wanted 2>refused
            judged=$?
            [ -s refused ] && cat refused
        else
            cp probe wanted
            judged=$status
        fi
        says "$title: $command" $judged wanted "$(cat remarks)" here $command --from "$tree" "$@"
        if [ $command = faults ]; then
            says "$title: nothing is said" $judged wanted "$(cat remarks)" here --from "$tree" "$@"
        fi
    done
}

no_ranges='pciplan: no host ranges io
pciplan: no host ranges mem'
for own in desk old port; do
    fake $own/sys 0000 '' $own 00
    as_commands $own $own $own "$no_ranges"
done
fake roots/sys 0000 '' roots 00 40
as_commands 'two host buses' roots roots "$no_ranges"
halves roots 0000 00 40
as_commands 'two host buses with their halves' roots roots ''
[ "$(cat words)" = "--root 00,40 --model all --host-io 00:0-7fff,40:8000-ffff --host-mem \
00:c0000000-dfffffff,40:e0000000-ffffffff,00:100000000-7fffffffff" ]
told 'two host buses with their halves: the line of words' $?

# words in any order, and the forms of an option
for words in 'map --domain 0000 --from roots' '--from=roots --domain=0000 map' '--domain 00000000 map --from roots'; do
    # shellcheck disable=SC2086
    says "the words $words" $judged wanted '' here $words
done

# a space of which nothing is told
cp -R roots half
rm half/proc/ioports
as_commands 'ranges of memory alone' half roots 'pciplan: no host ranges io'
cp roots/proc/ioports half/proc/ioports
grep -v 'PCI Bus' roots/proc/iomem >half/proc/iomem
as_commands 'ranges of I/O alone' half roots 'pciplan: no host ranges mem'
# ranges of another domain are none of this one, nor are those of a bus that is no host bus
sed 's/ 0000:/ 0001:/' roots/proc/ioports >half/proc/ioports
sed 's/ 0000:.*/ 0000:41/' roots/proc/iomem >half/proc/iomem
as_commands 'ranges of others' half roots "$no_ranges"
# a folder in the place of a file can't be read
rm half/proc/ioports
mkdir half/proc/ioports
as_commands 'a file of ranges that cannot be read' half roots "$no_ranges"

# several domains, of which one is behind a function of another
fake several/sys 0000 '' roots 00 40
fake several/sys 0001 'platform/host/' old 00
fake several/sys 10000 'pci0000:00/0000:00:0e.0/' desk 00
halves several 0000 00 40
for domain in 0000 0001 10000; do
    "$program" here --from several --domain $domain >faults.$domain 2>remarks.$domain
    echo $? >status.$domain
    "$program" here dump --from several --domain $domain >dump.$domain 2>/dev/null
done
as_commands 'several domains: the first' several roots '' --domain 0000
as_commands 'several domains: the second' several old "$no_ranges" --domain 0001
as_commands 'several domains: one behind a function' several desk "$no_ranges" --domain 10000
for what in faults dump; do
    for domain in 0000 0001 10000; do
        echo "domain $domain"
        cat $what.$domain
    done >$what.all
done
says 'several domains: all' "$(cat status.* | sort -n | tail -n 1)" faults.all "$(cat remarks.*)" here --from several
says 'several domains: all dumps' 0 dump.all '' here dump --from several
# a domain of which nothing is answered has no heading, and the others are judged
printf x >several/sys/bus/pci/devices/0001:00:00.0/config
sed '/^domain 0001/,/^domain 10000/{/^domain 10000/!d;}' dump.all >dump.rest
says 'several domains: one is refused' 2 dump.rest 'pciplan: here: short 0001:00:00.0' here dump --from several
rm several/sys/bus/pci/devices/0000:00:00.0/config
sed '/^domain 0000/,/^domain 10000/{/^domain 10000/!d;}' dump.all >dump.rest
says 'several domains: two are refused' 4 dump.rest 'pciplan: here: 1 Io 0000:00:00.0
pciplan: here: short 0001:00:00.0' here dump --from several

# a virtual function reads FFh as its Vendor ID; it is left out, and so is what stands in its files
virtual=virtual/sys/devices/pci0000:00/0000:00:1e.0
mkdir -p $virtual/physfn
fake virtual/sys 0000 '' old 00
ln -s "../../../${virtual#virtual/sys/}" virtual/sys/bus/pci/devices/0000:00:1e.0
one='pciplan: left out 1 virtual functions'
says 'a virtual function: dump' 0 "$machines/old.dump" "$one" here dump --from virtual
"$program" here --from old >wanted 2>remarks
says 'a virtual function: faults' $? wanted "$(sed '/no host ranges io/s/^/'"$one"'\n/' remarks)" here --from virtual

# refused NAME STATUS MESSAGE [WORD..]: nothing is answered about the tree.
refused() {
    title=$1 status=$2 message=$3
    shift 3
    for what in faults map dump probe words; do
        says "$title: $what" "$status" nothing "pciplan: here: $message" here $what --from tree "$@"
    done
}

# tree CHANGE..: a tree of one host bus, changed by a command in the folder of functions
tree() {
    rm -rf tree
    cp -R old tree
    (cd tree/sys/bus/pci/devices && "$@")
}

last=$(ls old/sys/bus/pci/devices | tail -n 1)
first=$(ls old/sys/bus/pci/devices | head -n 1)

# replace FILE COMMAND..: the file gets what a command prints.
replace() {
    file=$1
    shift
    "$@" >"$file.new"
    mv "$file.new" "$file"
}
tree replace "$last/config" head -c 255 "$last/config"
refused 'a config of 255 bytes' 2 "short $last"
tree replace "$last/config" head -c 64 "$last/config"
refused 'a config of 64 bytes' 2 "short $last"
tree replace "$last/config" true
refused 'an empty config' 2 "short $last"
tree rm "$last/config"
refused 'no config' 4 "1 Io $last"
tree sh -c "rm $last/config; mkdir $last/config"
refused 'a config that cannot be read' 4 "1 Io $last"
tree replace "$last/resource" head -n 6 "$last/resource"
refused 'a resource of 6 lines' 2 "short $last"
tree replace "$last/resource" sed '7s/^0x/0y/' "$last/resource"
refused 'a resource whose seventh line is none' 2 "short $last"
tree replace "$last/resource" true
refused 'an empty resource' 2 "short $last"
tree rm "$last/resource"
refused 'no resource' 4 "1 Io $last"
tree sh -c "rm $last/resource; mkdir $last/resource"
refused 'a resource that cannot be read' 4 "1 Io $last"
tree sh -c "mkdir own; cp $last/* own; rm $last; mv own $last"
refused 'a folder that is no link' 4 "1 Io $last"
tree sh -c "mkdir ../../../devices/else; cp $last/* ../../../devices/else; rm $last; ln -s ../../../devices/else $last"
refused 'a link without a host bus' 2 "no host bus $last"
tree sh -c "rm $first/resource; rm $last/config"
refused 'two functions with a trouble: the lower one' 4 "1 Io $first"
tree sh -c 'rm *'
refused 'no functions' 4 '1 Io'
tree sh -c 'rm -r ../devices'
refused 'no folder of functions' 4 '1 Io'
rm -rf tree
refused 'no such folder' 4 '1 Io'
cp -R old tree
refused 'no function of that domain' 4 '1 Io' --domain 0001
tree sh -c 'for f in *; do mkdir "$f/physfn"; done'
refused 'virtual functions alone' 4 '1 Io'

# What the kernel's log tells of BARs that Linux couldn't place: by each log of capture_test.sh the probe is that of the sizes
# which capture.sh takes from it. Linux has cleared all lines of 02:02.0 in `failed`.
cp -R old failed
yes '0x0000000000000000 0x0000000000000000 0x0000000000000000' | head -n 7 \
    >failed/sys/bus/pci/devices/0000:02:02.0/resource
mkdir logs
awk '/<<.END.$/ { file = sprintf("logs/%02d", ++n); next }
    /^END$/ { file = "" }
    file { print >file }' "$here/capture_test.sh"

# by_log NAME LOG: the probe of `failed` by a log.
by_log() {
    LOG=$2 SYSFS=failed/sys "$machines/capture.sh" >out 2>err
    "$program" probe --least dump.txt sizes.txt >probe 2>remarks
    says "$1" $? probe "$(cat remarks)" here probe --from failed --log "$2"
}

for log in logs/*; do
    by_log "a log of capture_test.sh: $log" "$log"
done
[ "$(ls logs | wc -l)" -ge 8 ]
told 'the logs of capture_test.sh' $?
by_log 'an empty log' nothing
cat logs/* >all.log
by_log 'several logs behind one another' all.log
sed 's/$/\r/' logs/01 >carriage.log
by_log 'a log with carriage returns' carriage.log
printf '%s' "$(cat logs/01)" >cut.log
by_log 'a log without an end of its last line' cut.log
sed 's/0000:02:02/0001:02:02/' logs/01 >other.log
by_log 'a log of another domain' other.log

# the log from standard input, which is read once for all domains
LOG=logs/01 SYSFS=failed/sys "$machines/capture.sh" >out 2>err
"$program" probe --least dump.txt sizes.txt >probe 2>remarks
status=$?
"$program" here probe --log /dev/stdin --from failed <logs/01 >out 2>err
[ $? -eq $status ] && cmp -s out probe && cmp -s err remarks
told 'a log from standard input' $?
cat logs/01 | "$program" here probe --log /dev/stdin --from failed >out 2>err
[ $? -eq $status ] && cmp -s out probe && cmp -s err remarks
told 'a log from a pipe' $?
cp -R failed both
fake both/sys 0001 'platform/host/' desk 00
"$program" here probe --from both --domain 0001 >second 2>remarks.second
{
    echo 'domain 0000'
    cat probe
    echo 'domain 0001'
    cat second
} >wanted
"$program" here probe --from both --log /dev/stdin <logs/01 >out 2>err
cmp -s out wanted && [ "$(cat err)" = "$(cat remarks remarks.second)" ]
told 'a log from standard input: two domains' $?

# where sysfs has a size the log isn't asked, nor for the dump
sed 's/02:02.0/02:03.0/' logs/01 >placed.log
as_commands 'a log of BARs that have a place' old old "$no_ranges" --log placed.log
says 'a log: dump' 0 "$machines/old.dump" '' here dump --from failed --log logs/01

# a log that can't be read
rm -rf tree
cp -R old tree
refused 'a log that is missing' 4 '1 Io' --log missing.log
refused 'a folder as log' 4 '1 Io' --log logs
cp logs/01 tree/inside.log
refused 'a log in the folder of the machine' 4 '1 Io' --log inside.log
printf '\377\n' >bytes.log
refused 'a log that is no UTF-8' 4 '1 Io' --log bytes.log
for words in '--log' '--log logs/01 --log logs/01' '--log=logs/01 --log logs/02' 'map words --log logs/01'; do
    # shellcheck disable=SC2086
    says "the words $words" 2 nothing 'pciplan: usage' here --from old $words
done

# more lines and bytes than are read, and names that are no function's
cp -R old longer
for function in longer/sys/bus/pci/devices/*; do
    echo 'what a later kernel may tell' >>"$function/resource"
    head -c 3840 /dev/zero | tr '\0' '\245' >>"$function/config"
done
mkdir longer/sys/bus/pci/devices/0000:00:1f longer/sys/bus/pci/devices/0000:00:1g.0
as_commands 'more bytes and lines' longer old "$no_ranges"

# standard output that can't be written
if [ -w /dev/full ]; then
    for what in faults dump words; do
        "$program" here $what --from old >/dev/full 2>err
        [ $? -eq 4 ] && [ "$(tail -n 1 err)" = 'pciplan: 10 Io' ]
        told "standard output is full: $what" $?
    done
fi

# this machine, where it may be read
own=$(ls /sys/bus/pci/devices 2>/dev/null | grep -c '^0000:')
if [ "$own" -gt 0 ] && SYSFS=/sys LOG=/dev/null "$machines/capture.sh" >roots.said 2>/dev/null; then
    "$program" here dump --domain 0000 >out 2>err
    [ $? -eq 0 ] && cmp -s out dump.txt
    told 'this machine: the dump that capture.sh captures' $?
    "$program" probe --least dump.txt sizes.txt >probe 2>remarks
    status=$?
    "$program" here probe --domain 0000 >out 2>err
    [ $? -eq $status ] && cmp -s out probe
    told 'this machine: the probe' $?
    "$program" here words --domain 0000 >words 2>err
    [ $? -eq 0 ] && [ "$(cut -d' ' -f1,2 words)" = "$(cat roots.said)" ]
    told 'this machine: the root buses' $?
    if [ $status -eq 0 ]; then
        # shellcheck disable=SC2046
        "$program" faults dump.txt probe $(cat words) --why >wanted
        judged=$?
    else
        cp probe wanted
        judged=$status
    fi
    "$program" here --domain 0000 >out 2>err
    [ $? -eq $judged ] && cmp -s out wanted
    told 'this machine: the list' $?
else
    echo 'skipped: this machine, which shows no functions or less than 256 bytes of one'
fi

echo "$passed passed, $failed failed"
[ "$failed" -eq 0 ]
