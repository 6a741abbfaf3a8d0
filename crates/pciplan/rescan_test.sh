#!/bin/sh
# Tests machines/rescan.sh over files that stand for sysfs and proc, with the writes that `settle` prints. What the machine
# shows after the rescan comes from a capture.sh of the test's own. A line is printed for each case; the status is 1 where
# one differs.
#
# Usage: rescan_test.sh [PROGRAM], by default out/pciplan beside this file, which `rt ci` and `rt run` make.
set -u
export LC_ALL=C

here=$(CDPATH='' cd -- "$(dirname -- "$0")" && pwd) || exit 1
program=${1:-$here/out/pciplan}
case $program in
    /*) ;;
    *) program=$PWD/$program ;;
esac
texts=$here/../../machines
room=$(mktemp -d) || exit 1
trap 'rm -rf "$room"' EXIT
cd "$room" || exit 1
export PCIPLAN="$program" SYSFS=sys PROC=proc

passed=0 failed=0

# told NAME STATUS: prints the case's line; STATUS says whether all was as wanted.
told() {
    if [ "$2" -eq 0 ]; then
        echo "ok: $1"
        passed=$((passed + 1))
    else
        echo "DIFFERS: $1"
        failed=$((failed + 1))
    fi
}

# Two BARs behind 00:03.0 of the guest `unplaced` have no place. Their sizes are of the log; `settle` says what to write.
sed '/^02:02.0/{n;n;n;s/.*/0x0000000000000000 0x0000000003ffffff 0x000000000000020c/;}
/^02:03.0/{n;s/.*/0x0000000000000000 0x0000000003ffffff 0x0000000000000208/;}' "$texts/unplaced.sizes" >sizes
cp "$texts/unplaced.dump" dump
"$program" probe dump sizes >probe || exit 1
set -- --root 00 --io 400-50f,51c-cf7,d00-afdf,afe4-ffff --mem 20000000-afffffff,b0000000-febfffff --pref none
"$program" settle dump probe "$@" --writes >writes || exit 1
"$program" settle dump probe "$@" >settled || exit 1

mkdir machines
cp "$texts/rescan.sh" machines
printf '%s\n' '#!/bin/sh' "cp '$room/shown' dump.txt && cp '$room/sizes' sizes.txt && echo '--root 00'" >machines/capture.sh
chmod 755 machines/capture.sh

bridge=sys/devices/pci0000:00/0000:00:03.0

# machine: the functions of the guest. 02:02.0 has a driver, 02:03.0 a disk of which a mapped one is made, and 00:1f.3 the
# interface of the default route.
machine() {
    rm -rf sys proc
    mkdir -p sys/bus/pci/devices sys/bus/pci/drivers/qxl sys/class/net sys/class/block sys/dev/block proc/self proc/net
    for slot in $(sed -n 's/^\(..:..\..\).*/\1/p' dump); do
        path=sys/devices/pci0000:00/0000:$slot
        case $slot in
            01:*) path=$bridge/0000:$slot ;;
            02:*) path=$bridge/0000:01:00.0/0000:$slot ;;
        esac
        mkdir -p "$path"
        : >"$path/remove"
        ln -s "$room/$path" "sys/bus/pci/devices/0000:$slot"
    done
    : >sys/bus/pci/rescan
    ln -s "$room/sys/bus/pci/drivers/qxl" sys/bus/pci/devices/0000:02:02.0/driver
    disk=$bridge/0000:01:00.0/0000:02:03.0/block/vda
    mkdir -p "$disk" sys/devices/virtual/block/dm-0/slaves
    ln -s "$room/$disk" sys/devices/virtual/block/dm-0/slaves/vda
    ln -s "$room/$disk" sys/class/block/vda
    ln -s "$room/sys/devices/virtual/block/dm-0" sys/dev/block/254:0
    mkdir -p sys/devices/pci0000:00/0000:00:1f.3/net/eth0
    ln -s "$room/sys/devices/pci0000:00/0000:00:1f.3/net/eth0" sys/class/net/eth0
    echo '22 1 0:20 / /proc rw,nosuid - proc proc rw' >proc/self/mountinfo
    echo 'Filename Type Size Used Priority' >proc/swaps
    printf 'Iface\tDestination\tGateway\tFlags\tRefCnt\tUse\tMetric\tMask\neth0\t00000000\t0102000A\t0003\t0\t0\t0\t00000000\n' >proc/net/route
    : >proc/net/ipv6_route
    cp dump shown
}

# rescan NAME STATUS OUT ERR WORD..: compares what rescan.sh prints.
rescan() {
    name=$1 status=$2
    printf '%s' "$3" >out.wanted
    printf '%s' "$4" >err.wanted
    shift 4
    machines/rescan.sh "$@" >out 2>err
    [ $? -eq "$status" ] && cmp -s out out.wanted && cmp -s err err.wanted
    told "$name" $?
}

# wrote NAME FILE..: whether 1 was written into each of the files, and nothing into another
wrote() {
    name=$1
    shift
    find -L sys/bus/pci -maxdepth 3 \( -name remove -o -name rescan \) -size +0 | sort >written
    for file; do
        echo "sys/bus/pci/$file"
    done | sort | cmp -s - written
    told "$name" $?
}

all='remove 0000:00:03.0
  0000:00:03.0 has no driver
  0000:01:00.0 has no driver
  0000:02:01.0 has no driver
  0000:02:02.0 has the driver qxl
  0000:02:03.0 has no driver
'
mounted='30 1 254:0 / /srv rw - ext4 /dev/mapper/srv rw'

machine
rescan 'what would be removed' 0 "${all}nothing was removed: say --yes
" '' dump probe writes
wrote '  nothing is'

cp settled shown
rescan 'removed, and better afterwards' 0 "${all}removed 0000:00:03.0
yes
faults before: 2, now: 0
" '' --yes dump probe writes
wrote '  the topmost bridge, and one rescan' devices/0000:00:03.0/remove rescan
cmp -s settled dump.after.txt && cmp -s sizes sizes.after.txt
told '  the texts of the new capture are kept' $?

machine
rescan 'removed, and no better' 3 "${all}removed 0000:00:03.0
60 Unreached 02:02.0 18 mem 0000000000000000 bridge 00:03.0
off 02:03.0 10 bar mem pref 0000000000000000-0000000003ffffff 64M
faults before: 2, now: 2
" '' --yes dump probe writes

# 02:02.0 is off now, as a device is that its driver gave up: both BARs are off, and have no place
machine
sed '/^02:02.0/{n;s/^\(00: .. .. .. ..\) ../\1 00/;}' dump >shown
rescan 'no fault is left, and no BAR has a place' 3 "${all}removed 0000:00:03.0
yes
off 02:02.0 18 bar mem pref 0000000000000000-0000000003ffffff 64M
off 02:03.0 10 bar mem pref 0000000000000000-0000000003ffffff 64M
faults before: 2, now: 2
" '' --yes dump probe writes

machine
echo "$mounted" >>proc/self/mountinfo
rescan 'a disk behind it is mounted' 0 "$all  used: mounted on /srv
nothing was removed: say --yes
" '' dump probe writes
rescan 'not removed while it is in use' 1 "$all  used: mounted on /srv
" 'rescan.sh: in use: 0000:00:03.0; nothing was removed
' --yes dump probe writes
wrote '  nothing is'
cp settled shown
rescan 'removed with --force' 0 "$all  used: mounted on /srv
removed 0000:00:03.0
yes
faults before: 2, now: 0
" '' --force --yes dump probe writes

machine
echo '/dev/vda partition 1048572 0 -2' >>proc/swaps
rescan 'swap behind it' 1 "$all  used: swap
" 'rescan.sh: in use: 0000:00:03.0; nothing was removed
' --yes dump probe writes

machine
printf '00:1f.3 20.4 00000701\n00:1f.2 24.4 fe000000\n' >roots
rescan 'two functions on the root bus, one with the default route' 1 'remove 0000:00:1f.2
  0000:00:1f.2 has no driver
remove 0000:00:1f.3
  0000:00:1f.3 has no driver
  used: the interface eth0 of the default route
' 'rescan.sh: in use: 0000:00:1f.3; nothing was removed
' --yes dump probe roots

machine
printf '02:03.0 10.4 24000008\n' >card
rescan 'a card alone is written' 0 'remove 0000:02:03.0
  0000:02:03.0 has no driver
nothing was removed: say --yes
' '' dump probe card
: >none
rescan 'nothing is to be written' 0 'nothing is to be written
' '' --yes dump probe none

machine
rm sys/bus/pci/devices/0000:02:02.0
rescan 'a function that is gone' 1 '' "rescan.sh: 0000:02:02.0 isn't there: capture again
" --yes dump probe writes
machine
rm "$bridge/remove"
mkdir "$bridge/remove"
rescan "a bridge that can't be removed" 2 "$all" "rescan.sh: 0000:00:03.0 can't be removed
" --yes dump probe writes
machine
rm sys/bus/pci/rescan
mkdir sys/bus/pci/rescan
rescan 'no rescan' 2 "${all}removed 0000:00:03.0
" 'rescan.sh: no rescan can be asked for
' --yes dump probe writes

machine
echo 'safe from 0' >wrong
rescan 'a line that is none' 1 '' 'rescan.sh: wrong: line 1: no line of --writes
' --yes dump probe wrong
rescan 'two files' 1 '' 'rescan.sh: usage: rescan.sh [--yes] [--force] DUMP PROBE WRITES [DOMAIN]
' dump probe

echo "$passed passed, $failed failed"
[ "$failed" -eq 0 ]
