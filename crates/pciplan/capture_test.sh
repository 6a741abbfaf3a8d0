#!/bin/sh
# Tests the scripts that read dumps and sizes: machines/capture.sh over sysfs made of files, machines/convert.sh and
# machines/sizes_of_lspci.sh over what lspci prints, all made from the texts of machines/, and the lines of README.md and
# docs/BUG_REPORT.md that do the same. A line is printed for each case; the status is 1 where one differs.
#
# Usage: capture_test.sh [PROGRAM], by default out/pciplan beside this file, which `rt ci` and `rt run` make.
set -u
export LC_ALL=C

here=$(CDPATH='' cd -- "$(dirname -- "$0")" && pwd) || exit 1
program=${1:-$here/out/pciplan}
case $program in
    /*) ;;
    *) program=$PWD/$program ;;
esac
machines=$here/../../machines
report=$here/../../docs/BUG_REPORT.md
room=$(mktemp -d) || exit 1
trap 'rm -rf "$room"' EXIT
cd "$room" || exit 1
# the log of this machine's kernel tells nothing of a sysfs of files
export LOG=/dev/null

passed=0 failed=0

# told NAME STATUS: prints the case's line; STATUS says whether all was as wanted.
told() {
    if [ "$2" -eq 0 ]; then
        echo "ok: $1"
        passed=$((passed + 1))
    else
        echo "DIFFERS: $1"
        failed=$((failed + 1))
    fi
}

# fake SYSFS DOMAIN ABOVE MACHINE ROOT..: adds a machine's functions as a domain of a sysfs of files. Its host buses stand
# in the folder ABOVE of `devices`, and a function behind a bridge stands in a folder of its own below its host bus.
fake() {
    sysfs=$1 domain=$2 above=$3 machine=$4
    shift 4
    mkdir -p "$sysfs/bus/pci/devices"
    # each function's slot, and its bytes as printf writes them
    awk '
        function octal(hex, n) {
            n = (index("0123456789abcdef", substr(hex, 1, 1)) - 1) * 16 + index("0123456789abcdef", substr(hex, 2)) - 1
            return sprintf("\\%03o", n)
        }
        /^..:..\../ { printf "%s ", $1 }
        /^..: / { for (i = 2; i <= 17; i++) printf "%s", octal($i) }
        /^$/ { print "" }' "$machines/$machine.dump" >functions
    while read -r slot bytes; do
        bus=${slot%%:*} root=00 behind=/
        for other; do
            expr "$bus" '>=' "$other" >/dev/null && root=$other
        done
        [ "$bus" = "$root" ] || behind=/$domain:$root:1f.0/
        path=devices/${above}pci$domain:$root$behind$domain:$slot
        mkdir -p "$sysfs/$path"
        ln -s "../../../$path" "$sysfs/bus/pci/devices/$domain:$slot"
        # shellcheck disable=SC2059
        printf "$bytes" >"$sysfs/$path/config"
        sed -n "/^$slot\$/,/^\$/s/^0x/&/p" "$machines/$machine.sizes" >"$sysfs/$path/resource"
    done <functions
}

# longer SYSFS NAME: gives the function 4,096 bytes, and the lines of a bridge's windows.
longer() {
    dd if=/dev/zero bs=3840 count=1 2>/dev/null | tr '\0' '\245' >>"$1/bus/pci/devices/$2/config"
    for window in 1000 fe000000 fd000000 0; do
        printf '0x%016x 0x%016x 0x%016x\n' "0x$window" "0x$window" 512
    done >>"$1/bus/pci/devices/$2/resource"
}

# captured NAME SYSFS ERR MACHINE ROOTS [DOMAIN]: captures, and compares with the machine's own texts.
captured() {
    title=$1 sysfs=$2 err=$3 machine=$4 roots=$5
    shift 5
    rm -f dump.txt sizes.txt
    SYSFS=$room/$sysfs "$machines/capture.sh" "$@" >out 2>err && [ "$(cat out)" = "--root $roots" ] && [ "$(cat err)" = "$err" ] &&
        cmp -s dump.txt "$machines/$machine.dump" && cmp -s sizes.txt "$machines/$machine.sizes"
    told "capture: $title" $?
}

# not_captured NAME SYSFS MESSAGE [DOMAIN..]: nothing is captured, standard error ends with the message, and no file stays.
not_captured() {
    title=$1 sysfs=$2 message=$3
    shift 3
    SYSFS=$room/$sysfs "$machines/capture.sh" "$@" >out 2>err
    [ $? -eq 1 ] && ! [ -s out ] && [ "$(tail -n 1 err)" = "capture.sh: $message" ] &&
        ! [ -f dump.txt ] && ! [ -f sizes.txt ]
    told "capture: $title" $?
    rm -rf dump.txt sizes.txt
}

# judged NAME MACHINE ROOTS: the program derives and says of dump.txt and sizes.txt what it does of the machine's own texts.
judged() {
    title=$1 machine=$2 roots=$3
    "$program" probe dump.txt sizes.txt >probe.txt 2>probe.err &&
        "$program" probe "$machines/$machine.dump" "$machines/$machine.sizes" >own.txt 2>own.err &&
        [ -s own.txt ] && cmp -s probe.txt own.txt && cmp -s probe.err own.err
    told "$title: probe" $?
    "$program" check dump.txt probe.txt --root "$roots" >verdict 2>&1
    wrote=$?
    "$program" check "$machines/$machine.dump" own.txt --root "$roots" >own.verdict 2>&1
    [ $? -eq $wrote ] && [ $wrote -le 1 ] && cmp -s verdict own.verdict
    told "$title: check" $?
}

for own in desk old port; do
    fake $own 0000 '' $own 00
    captured "$own" $own '' $own 00
    judged "captured $own" $own 00
done
fake roots 0000 '' roots 00 40
longer roots 0000:40:00.0
longer roots 0000:00:00.0
captured 'two host buses, and functions of 4,096 bytes' roots '' roots 00,40
judged 'captured roots' roots 00,40

# several domains: one is behind a function of another
fake several 0000 '' roots 00 40
fake several 0001 'platform/host/' old 00
fake several 10000 'pci0000:00/0000:00:0e.0/' desk 00
captured 'several domains: the first' several '' roots 00,40
captured 'several domains: the first is said' several '' roots 00,40 0000
captured 'several domains: the second' several '' old 00 0001
captured 'several domains: one behind a function' several '' desk 00 10000

# a virtual function reads FFh as its Vendor ID
virtual=virtual/devices/pci0000:00/0000:00:1e.0
mkdir -p $virtual/physfn
fake virtual 0000 '' old 00
ln -s "../../../${virtual#virtual/}" virtual/bus/pci/devices/0000:00:1e.0
tr '\0' '\377' </dev/zero 2>/dev/null | dd bs=256 count=1 of=$virtual/config 2>/dev/null
head -n 7 virtual/devices/pci0000:00/0000:00:00.0/resource >$virtual/resource
captured 'a virtual function is left out' virtual 'capture.sh: left out 0000:00:1e.0, a virtual function' old 00

# The lines of README.md capture the same, with a sysfs of files in the place of /sys.
sed -n '/^    export LC_ALL=C; S=/,/^    done 3>/s/^    //p' "$here/../../README.md" >capture.lines
for machine in desk old port roots virtual; do
    texts=$machines/$machine
    [ $machine != virtual ] || texts=$machines/old
    rm -f dump.txt sizes.txt
    sed "s|=/sys/|=$room/$machine/|" capture.lines >lines
    sh lines >out 2>err && ! [ -s out ] && ! [ -s err ] && cmp -s dump.txt "$texts.dump" && cmp -s sizes.txt "$texts.sizes"
    told "README.md: the lines that capture: $machine" $?
done

# What the kernel's log tells of BARs that Linux couldn't place. Linux has cleared all lines of 02:02.0 in `failed`.
cp -R old failed
zeros='0x0000000000000000 0x0000000000000000 0x0000000000000000'
yes "$zeros" | head -n 7 >failed/bus/pci/devices/0000:02:02.0/resource

# sized NAME LINE..: with the log that standard input holds, the sizes of 02:02.0 begin with these lines, `-` for zeros and
# else the last address and the flags; zeros follow, and all other sizes are as they were.
sized() {
    title=$1
    shift
    {
        sed '/^02:02.0$/q' "$machines/old.sizes"
        for line in "$@" - - - - - - -; do
            [ "$line" = - ] && echo "$zeros" || echo "0x0000000000000000 0x${line% *} 0x0000000000000${line#* }"
        done | head -n 7
        echo
    } >wanted
    cat >log.txt
    LOG=log.txt SYSFS=$room/failed "$machines/capture.sh" >out 2>err && ! [ -s err ] &&
        cmp -s dump.txt "$machines/old.dump" && cmp -s sizes.txt wanted
    told "capture: $title" $?
}

sized 'an empty log' </dev/null
sized 'a log' '00000000000000ff 101' '00000000000000ff 200' '0000000003ffffff 20c' - '0000000000003fff 204' \
    '000000000000000f 208' <<'END'
[    0.410000] pci 0000:02:02.0: [10ec:8139] type 00 class 0x020000 conventional PCI endpoint
[    0.412345] pci 0000:02:02.0: BAR 0 [io  0xc100-0xc1ff]
[    0.500000] pci 0000:02:02.0: BAR 2 [mem size 0x04000000 64bit pref]: can't assign; no space
[    0.500001] pci 0000:02:02.0: BAR 2 [mem size 0x04000000 64bit pref]: failed to assign
[    0.500002] pci 0000:02:02.0: BAR 0 [io  size 0x0100]: can't assign; no space
[    0.500003] pci 0000:02:02.0: BAR 1 [mem size 0x00000100]: failed to assign
[    0.500004] pci 0000:02:02.0: BAR 4 [mem size 0x00004000 64bit]: failed to assign
[    0.500005] rtl8139 0000:02:02.0: BAR 5 [mem size 0x00000010 pref]: failed to assign
END
sized 'a log of an older kernel' '00000000000000ff 101' '00000000000000ff 200' '0000000003ffffff 20c' <<'END'
[    0.410000] pci 0000:02:02.0: [10ec:8139] type 00 class 0x020000
[    0.412345] pci 0000:02:02.0: reg 0x10: [io  0xc100-0xc1ff]
[    0.500000] pci 0000:02:02.0: BAR 2: no space for [mem size 0x04000000 64bit pref]
[    0.500001] pci 0000:02:02.0: BAR 2: failed to assign [mem size 0x04000000 64bit pref]
[    0.500002] pci 0000:02:02.0: BAR 0: no space for [io size 0x0100]
[    0.500003] pci 0000:02:02.0: BAR 1: failed to assign [mem size 0x00000100]
END
sized 'a log with priorities, of a journal, and without times' '00000000000000ff 101' '00000000000000ff 200' \
    '0000000003ffffff 20c' <<'END'
kern  :info  : [    0.500002] pci 0000:02:02.0: BAR 0 [io  size 0x0100]: can't assign; no space
Nov 27 10:13:29 desk kernel: pci 0000:02:02.0: BAR 1 [mem size 0x00000100]: failed to assign
pci 0000:02:02.0: BAR 2 [mem size 0x04000000 64bit pref]: failed to assign
END
sized 'a log: the last line of a BAR counts' '0000000000000fff 101' '0000000000007fff 200' '000000000000ffff 204' <<'END'
[    0.500000] pci 0000:02:02.0: BAR 0: no space for [io  size 0x0100]
[    0.500001] pci 0000:02:02.0: BAR 1 [mem size 0x00000100 64bit pref]: failed to assign
[    0.500002] pci 0000:02:02.0: BAR 2 [mem size 0x00003000]: failed to assign
[    0.500003] pci 0000:02:02.0: BAR 3 [mem size 0x00004000]: failed to assign
[    1.500000] pci 0000:02:02.0: BAR 0: no space for [io  size 0x1000]
[    1.500001] pci 0000:02:02.0: BAR 1 [mem size 0x00008000]: failed to assign
[    1.500002] pci 0000:02:02.0: BAR 2 [mem size 0x00010000 64bit]: failed to assign
[    1.500003] pci 0000:02:02.0: BAR 3 [mem size 0x00005000]: failed to assign
END
sized 'a log: what is no size of a BAR' <<'END'
[    0.500000] pci 0000:02:02.0: BAR 0: assigned [io  0xc100-0xc1ff]
[    0.500001] pci 0000:02:02.0: BAR 1 [mem 0xfe643000-0xfe6430ff]: assigned
[    0.500002] pci 0000:02:02.0: BAR 6 [mem size 0x00040000 pref]: failed to assign
[    0.500003] pci 0000:02:02.0: ROM [mem size 0x00040000 pref]: failed to assign
[    0.500004] pci 0000:02:02.0: VF BAR 2 [mem size 0x00004000 64bit]: failed to assign
[    0.500005] pci 0000:02:02.0: BAR 7 [mem size 0x00004000 64bit]: failed to assign
[    0.500006] pci 0000:02:02.0: BAR 13: no space for [io  size 0x1000]
[    0.500007] pci 0000:02:02.0: BAR 14 [mem size 0x00100000]: failed to assign
[    0.500008] pci 0000:02:02.0: bridge window [mem size 0x00200000]: failed to assign
[    0.500009] pci 0000:02:02.1: BAR 0 [mem size 0x00004000]: failed to assign
[    0.500010] pci 0000:02:03.0: BAR 0 [mem size 0x00004000]: failed to assign
[    0.500011] pci 0001:02:02.0: BAR 0 [mem size 0x00004000]: failed to assign
[    0.500012] pci 10000:02:02.0: BAR 0 [mem size 0x00004000]: failed to assign
[    0.500013] pci 0000:02:02.0: BAR 3 [mem size 0x00004000
[    0.500014] pci 0000:02:02.0: BAR 3 [??? size 0x00004000]: failed to assign
END
sized 'a log: sizes that are none, and the largest' - - - - - '7fffffffffffffff 20c' <<'END'
[    0.500000] pci 0000:02:02.0: BAR 0 [mem size 0x00000000]: failed to assign
[    0.500001] pci 0000:02:02.0: BAR 1 [mem size 0x04000001]: failed to assign
[    0.500002] pci 0000:02:02.0: BAR 2 [mem size 0x8000000000000001 64bit]: failed to assign
[    0.500003] pci 0000:02:02.0: BAR 3 [mem size 0x00003000]: failed to assign
[    0.500004] pci 0000:02:02.0: BAR 4 [mem size 0x10000000000000000 64bit]: failed to assign
[    0.500005] pci 0000:02:02.0: BAR 5 [mem size 0x8000000000000000 64bit pref]: failed to assign
END
sized 'a log: another device was in the slot before' - '00000000000000ff 200' <<'END'
[    0.410000] pci 0000:02:02.0: [8086:10d3] type 00 class 0x020000
[    0.500000] pci 0000:02:02.0: BAR 0: failed to assign [mem size 0x00020000]
[    9.410000] pci 0000:02:02.0: [10ec:8139] type 00 class 0x020000
[    9.410001] pci 0000:02:03.0: [10ec:8139] type 00 class 0x020000
[    9.500000] pci 0000:02:02.0: BAR 1: failed to assign [mem size 0x00000100]
END

# where sysfs tells a size the log isn't asked
cat >log.txt <<'END'
[    0.500000] pci 0000:02:02.0: BAR 0 [io  size 0x0100]: failed to assign
[    0.500001] pci 0000:02:02.0: BAR 1 [mem size 0x00000100]: failed to assign
[    0.600000] pci 0000:02:02.0: BAR 0 [io  0xc100-0xc1ff]: assigned
[    0.600001] pci 0000:02:02.0: BAR 1 [mem 0xfe643000-0xfe6430ff]: assigned
END
export LOG=log.txt
captured 'a log: a device that was placed later' old '' old 00
cat >log.txt <<'END'
[    0.500000] pci 0000:02:02.0: BAR 0 [io  size 0x0020]: failed to assign
[    0.500001] pci 0000:02:02.0: BAR 1 [mem size 0x04000000 64bit pref]: failed to assign
END
captured 'a log that tells otherwise than sysfs' old '' old 00

# dmesg is asked where no log is named, and may be refused
unread="capture.sh: the kernel's log can't be read; sizes of BARs that Linux couldn't place aren't known"
LOG=missing.txt
captured 'a log that is missing' old "$unread" old 00
LOG=/
captured 'a folder as log' old "$unread" old 00
LOG=
mkdir asked
path=$PATH
PATH=$room/asked:$PATH
printf '#!/bin/sh\necho "dmesg: read kernel buffer failed: Operation not permitted" >&2\nexit 1\n' >asked/dmesg
chmod 755 asked/dmesg
captured 'a log that dmesg may not read' old "$unread" old 00

# Two BARs read 0 as Linux cleared them: by their sizes in the log the probe is that of the machine.
cp -R failed cleared
printf '\001\000\000\000\000\000\000\000' |
    dd of=cleared/bus/pci/devices/0000:02:02.0/config bs=1 seek=16 conv=notrunc 2>/dev/null
sed '7!d' old/bus/pci/devices/0000:02:02.0/resource >rom.txt
{ yes "$zeros" | head -n 6; cat rom.txt; } >cleared/bus/pci/devices/0000:02:02.0/resource
{
    echo '#!/bin/sh'
    echo 'echo "[    0.500000] pci 0000:02:02.0: BAR 0: no space for [io  size 0x0100]"'
    echo 'echo "[    0.500001] pci 0000:02:02.0: BAR 1: failed to assign [mem size 0x00000100]"'
} >asked/dmesg
SYSFS=$room/cleared "$machines/capture.sh" >out 2>err && ! [ -s err ]
told 'capture: dmesg is asked' $?
"$program" probe dump.txt sizes.txt >probe.txt 2>probe.err &&
    "$program" probe "$machines/old.dump" "$machines/old.sizes" >own.txt 2>own.err &&
    [ -s own.txt ] && cmp -s probe.txt own.txt && cmp -s probe.err own.err
told 'capture: BARs that read 0, by the log: probe' $?
"$program" settle dump.txt probe.txt --io 700-ffff --mem 80000000-febfffff --pref none --writes >out 2>err
[ "$(sed -n '/^02:02.0 1/p' out)" = '02:02.0 10.4 0000c101
02:02.0 14.4 fe600000' ]
told 'capture: BARs that read 0, by the log: settle' $?
PATH=$path LOG=/dev/null

# what virtual functions decode is named: lines 8 to 13 of `resource`, where a physical function has some
virtual_lines() {
    echo 0x00000000fe604000 0x00000000fe607fff 0x0000000000140204
    echo "$zeros"
    echo "$zeros"
    echo 0x0000000800000000 0x00000008000fffff 0x000000000014220c
    echo "$zeros"
    echo "$zeros"
    echo 0x00000000fe000000 0x00000000fe0fffff 0x0000000000000200
}
for name in 0000:01:03.0 0000:02:02.0 0000:02:01.0; do
    virtual_lines >>virtual/bus/pci/devices/$name/resource
done
echo 2 >virtual/bus/pci/devices/0000:01:03.0/sriov_numvfs
echo 0 >virtual/bus/pci/devices/0000:02:01.0/sriov_numvfs
left='capture.sh: left out 0000:00:1e.0, a virtual function'
text='capture.sh: without --also and what told.sh prints, settle may put a BAR onto these addresses'
captured 'virtual functions: what one physical function has' virtual "$left
capture.sh: virtual functions of 0000:01:03.0 decode mem 00000000fe604000-00000000fe607fff
capture.sh: virtual functions of 0000:01:03.0 decode mem 0000000800000000-00000008000fffff
$text" old 00
echo 1 >virtual/bus/pci/devices/0000:02:02.0/sriov_numvfs
captured 'virtual functions: what two physical functions have' virtual "$left
capture.sh: virtual functions of 0000:01:03.0 decode mem 00000000fe604000-00000000fe607fff
capture.sh: virtual functions of 0000:01:03.0 decode mem 0000000800000000-00000008000fffff
capture.sh: virtual functions of 0000:02:02.0 decode mem 00000000fe604000-00000000fe607fff
capture.sh: virtual functions of 0000:02:02.0 decode mem 0000000800000000-00000008000fffff
$text" old 00

# what is refused
bytes='00:01.0: less than 256 bytes of configuration space can be read; root reads them all'
cp -R old short
for size in 0 64 255; do
    head -c $size old/bus/pci/devices/0000:00:01.0/config >short/bus/pci/devices/0000:00:01.0/config
    not_captured "a function of $size bytes" short "0000:$bytes"
done
rm short/bus/pci/devices/0000:00:01.0/config
not_captured 'a function without a file of its bytes' short "0000:$bytes"
cp -R old unsized
head -n 6 old/bus/pci/devices/0000:00:01.0/resource >unsized/bus/pci/devices/0000:00:01.0/resource
not_captured 'six lines of sizes' unsized "0000:00:01.0: its file resource can't be read"
rm unsized/bus/pci/devices/0000:00:01.0/resource
not_captured 'no sizes' unsized "0000:00:01.0: its file resource can't be read"
mkdir -p lone/bus/pci/devices
cp -R old/devices/pci0000:00/0000:00:00.0 lone/bus/pci/devices
not_captured 'no host bus' lone "0000:00:00.0: no host bus pci0000:.. is in its path"
not_captured 'no such domain' several "no domain 0002 in $room/several/bus/pci/devices" 0002
not_captured 'a domain that is cut' several "no domain 000 in $room/several/bus/pci/devices" 000
not_captured 'a pattern as domain' several "no domain * in $room/several/bus/pci/devices" '*'
not_captured 'no sysfs' missing "no domain 0000 in $room/missing/bus/pci/devices"
not_captured 'two words' several 'usage: capture.sh [DOMAIN]' 0000 0001
for file in dump.txt sizes.txt; do
    mkdir $file
    not_captured "a folder as $file" old "$file can't be written"
    if [ -w /dev/full ]; then
        ln -s /dev/full $file
        not_captured "no space for $file" old "$file can't be written"
    else
        echo "skipped: no space for $file"
    fi
done

# A dump with titles as lspci prints it: one is longer than 200 bytes, one has bytes above 7Fh.
titled() {
    awk -v long="$(awk 'BEGIN { for (n = 0; n < 30; n++) printf "Memory %02d " , n }')" '
        /^..:..\../ {
            n++
            $0 = $0 " Class [0604]: Vendor" (n == 2 ? " " long : n == 3 ? " \303\251" : "") " [1234:5678] (rev " n ")"
        }
        { print }' "$machines/$1.dump"
}

# named: changes titles into those of -mm
named() {
    sed 's/^\(..:..\..\) \([^:]*\): \(.*\)$/\1 "\2" "\3" -r02 "" ""/'
}

# extended: adds the lines 100 to ff0 of -xxxx
extended() {
    awk '{ print } /^f0: / { for (n = 16; n < 256; n++) printf "%x0: 00 10 20 30 40 50 60 70 80 90 a0 b0 c0 d0 e0 f0\n", n }'
}

# verbose: adds lines of -vv behind each slot line, some with blanks as a console shows tabs
verbose() {
    awk '{ print } /^..:..\../ {
        print "\tSubsystem: Vendor Device [1234:5678]"
        print "\tControl: I/O+ Mem+ BusMaster+ SpecCycle- MemWINV- VGASnoop- ParErr- Stepping- SERR+ FastB2B- DisINTx-"
        print "        Region 0: Memory at fe000000 (32-bit, non-prefetchable) [size=128K]"
        print "\tBus: primary=00, secondary=01, subordinate=02, sec-latency=0"
        print "\tCapabilities: [40] Express (v2) Root Port (Slot+), MSI 00"
        print "\t\tDevCap:\tMaxPayload 128 bytes, PhantFunc 0"
        print " 00: 01 02"
        print "\t00:01.0"
    }'
}

# kernel: adds the lines of -k
kernel() {
    awk '{ print } /^..:..\../ {
        print "\tDeviceName: Onboard"
        print "\tKernel driver in use: pcieport"
        print "\tKernel modules: shpchp"
    }'
}

# records WORD: changes slot lines into those of -vmm, which have no titles
records() {
    awk -v word="$1" '
        /^..:..\../ {
            printf "%s:\t%s\nClass:\tPCI bridge\nVendor:\tVendor\nDevice:\tDevice 00:01.0\nRev:\t02\nNUMANode:\t0\n", word, $1
            next
        }
        { print }'
}

# of_domain DOMAIN: adds the prefix to slots, of -vmm too
of_domain() {
    sed -e "s/^..:..\.[0-7]/$1:&/" -e "s/^\(Slot:.\)\(..:..\.[0-7]\)/\1$1:\2/"
}

# ended: adds carriage returns
ended() {
    awk '{ printf "%s\r\n", $0 }'
}

# remarked: puts a prompt first, and messages of lspci's library between the lines
remarked() {
    awk 'NR == 1 { print "# lspci -xxx 2>&1" }
        /^..:..\../ { print "pcilib: sysfs_read_vpd: read failed: Input/output error" }
        { print }
        /^20: / { print "lspci: Unable to load libkmod resources: error -2" }'
}

# converted NAME WANTED [WORD..]: converts the file text, and compares with a dump.
converted() {
    title=$1 wanted=$2
    shift 2
    "$machines/convert.sh" "$@" <text >out 2>err && ! [ -s err ] && cmp -s out "$wanted"
    told "convert: $title" $?
}

# not_converted NAME MESSAGE [WORD..]: the file text isn't converted, and nothing is printed.
not_converted() {
    title=$1 message=$2
    shift 2
    "$machines/convert.sh" "$@" <text >out 2>err
    [ $? -eq 1 ] && ! [ -s out ] && [ "$(cat err)" = "convert.sh: $message" ]
    told "convert: $title" $?
}

for machine in desk old port roots; do
    own=$machines/$machine.dump
    titled $machine >lspci.txt
    cut -b1-208 lspci.txt >titled.txt
    named <lspci.txt | cut -b1-208 >named.txt
    cp "$own" text
    converted "$machine: a dump" "$own"
    cp lspci.txt text
    converted "$machine: -nnxxx" titled.txt
    of_domain 0000 <lspci.txt >text
    converted "$machine: -Dnnxxx" titled.txt
    extended <lspci.txt >text
    converted "$machine: -nnxxxx" titled.txt
    verbose <lspci.txt >text
    converted "$machine: -vvnnxxx" titled.txt
    kernel <lspci.txt >text
    converted "$machine: -knnxxx" titled.txt
    named <lspci.txt >text
    converted "$machine: -mmxxx" named.txt
    records Slot <lspci.txt >text
    converted "$machine: -vmmxxx" "$own"
    records Device <lspci.txt >text
    converted "$machine: -vmxxx" "$own"
    records Slot <lspci.txt | of_domain 0000 | extended >text
    converted "$machine: -Dvmmxxxx" "$own"
    ended <lspci.txt >text
    converted "$machine: carriage returns" titled.txt
    ended <lspci.txt | ended >text
    converted "$machine: carriage returns twice" titled.txt
    sed '$d' lspci.txt >text
    converted "$machine: no empty line at the end" titled.txt
    printf '%s' "$(cat lspci.txt)" >text
    converted "$machine: no line feed at the end" titled.txt
    sed '/^$/d' lspci.txt >text
    converted "$machine: no empty lines" titled.txt
    remarked <lspci.txt >text
    converted "$machine: messages between" titled.txt
    kernel <lspci.txt | verbose | extended | of_domain 0000 | remarked | ended | sed '$d' >text
    converted "$machine: all at once" titled.txt
    converted "$machine: all at once, of a domain" titled.txt 0000
    cp text ./all.txt
    : >text
    converted "$machine: all at once, of a file" titled.txt all.txt
    converted "$machine: all at once, of a domain and a file" titled.txt 0000 all.txt
    mv all.txt text
    "$machines/convert.sh" <text >dump.txt
    cp "$machines/$machine.sizes" sizes.txt
    roots=00
    [ $machine = roots ] && roots=00,40
    judged "converted $machine" $machine $roots
done

# several domains in one text
for form in cat extended verbose kernel; do
    {
        of_domain 0000 <"$machines/roots.dump"
        of_domain 0001 <"$machines/old.dump"
        of_domain 10000 <"$machines/desk.dump"
    } | $form >text
    converted "several domains: $form" "$machines/roots.dump"
    converted "several domains: $form, the first is said" "$machines/roots.dump" 0000
    converted "several domains: $form, the second" "$machines/old.dump" 0001
    converted "several domains: $form, one of five digits" "$machines/desk.dump" 10000
done
not_converted 'no such domain' 'no function of domain 0002' 0002
not_converted 'two files' 'usage: convert.sh [DOMAIN] [FILE]' one.txt two.txt
not_converted 'no such file' "missing.txt can't be read" missing.txt
not_converted 'no such file, and a domain' "missing.txt can't be read" 0000 missing.txt
: >text
not_converted 'an empty text' 'no function of domain 0000'
cp "$machines/old.dump" ./beef
converted 'a file with the name of a domain' "$machines/old.dump" ./beef

# what has less than 256 bytes a function
cut="not all of the lines 00 to f0; root reads them, with lspci -xxx"
titled old >lspci.txt
sed '/^[4-9a-f]0: /d' lspci.txt >text
not_converted '64 bytes a function' "00:00.0: $cut"
of_domain 0001 <lspci.txt | sed '/^[4-9a-f]0: /d' >text
not_converted '64 bytes a function, of a domain' "00:00.0: $cut" 0001
verbose <lspci.txt | sed '/^[4-9a-f]0: /d' >text
not_converted '64 bytes a function, with -v' "00:00.0: $cut"
sed '/^00:01.0/,/^$/{/^[89a-f]0: /d;}' lspci.txt >text
not_converted '128 bytes of one function' "00:01.0: $cut"
grep '^..:..\.' lspci.txt >text
not_converted 'no bytes' "00:00.0: $cut"
sed '/^00:01.0/,/^$/{/^50: /d;}' lspci.txt >text
not_converted 'a line that is missing' "00:01.0: $cut"
sed '$d' lspci.txt | sed '$d' >text
not_converted 'the last line is missing' "02:02.0: $cut"
head -n 1 lspci.txt >text
not_converted 'a slot line alone' "00:00.0: $cut"

# A function whose slot line isn't seen isn't lost: its bytes are refused.
stray='bytes without a slot line before them'
at=$(grep -n '^00:01.0' lspci.txt | cut -d: -f1)
for before in '# ' '> ' ' ' "$(printf '\t')" "$(printf '\357\273\277')"; do
    sed "s/^00:01.0/$before&/" lspci.txt >text
    not_converted "'$before' before a slot" "line $((at + 1)): $stray"
    sed "1s/^/$before/" lspci.txt >text
    not_converted "'$before' before the first slot" "line 2: $stray"
done
sed '/^00:01.0/d' lspci.txt >text
not_converted 'no slot line' "line $at: $stray"
sed '/^00:01.0/d' lspci.txt | kernel | ended >text
not_converted 'no slot line, with -k and carriage returns' "line $(grep -n '^00: ' text | sed -n '2s/:.*//p'): $stray"
sed 's/^02:02.0/02:02.8/' lspci.txt >text
not_converted 'a slot of function 8' "line $(($(grep -n '^02:02.8' text | cut -d: -f1) + 1)): $stray"
sed 1d lspci.txt >text
not_converted 'bytes first' "line 1: $stray"
grep '^[0-9a-f]0: ' lspci.txt >text
not_converted 'bytes alone' "line 1: $stray"
{ of_domain 0000 <lspci.txt; of_domain 0001 <"$machines/desk.dump" | sed '1s/^/# /'; } >text
at=$(grep -n '^# 0001:' text | cut -d: -f1)
not_converted 'no slot line, of another domain' "line $((at + 1)): $stray"
not_converted 'no slot line, of the domain' "line $((at + 1)): $stray" 0001
{ of_domain 0001 <"$machines/desk.dump" | sed '/^[4-9a-f]0: /d'; sed '1s/^/# /' lspci.txt; } >text
not_converted 'no slot line, behind 64 bytes of another domain' "line $(($(grep -n '^# 00:' text | cut -d: -f1) + 1)): $stray"
{ of_domain 0001 <"$machines/desk.dump" | sed '/^[4-9a-f]0: /d'; cat "$machines/old.dump"; } >text
converted '64 bytes of another domain' "$machines/old.dump"

# the paths of -P and -PP aren't slots
path='a path of lspci -P in the place of a slot'
sed 's/^01:/00:01.0\//' lspci.txt >text
at=$(grep -n / text | sed -n '1s/:.*//p')
not_converted '-Pxxx' "line $at: $path"
sed 's/^01:/00:01.0\//' lspci.txt | of_domain 0000 >text
not_converted '-DPxxx' "line $at: $path"
sed 's/^01:/00:01.0\/01:/' lspci.txt >text
not_converted '-PPxxx' "line $at: $path"
records Slot <lspci.txt | sed 's/^\(Slot:.\)01:/\100:01.0\//' >text
not_converted '-Pvmmxxx' "line $(grep -n '^Slot:.*/' text | sed -n '1s/:.*//p'): $path"
{ of_domain 0000 <"$machines/old.dump"; sed 's/^01:/00:01.0\//' lspci.txt | of_domain 0001; } >text
converted 'paths of another domain' "$machines/old.dump"

# listed MACHINE [-v]: prints what lspci -vvxxx does of a machine, with -v what -vxxx does, by its dump and what sysfs has
# of its sizes: its regions, a bridge's windows, and a capability that lists regions of virtual functions.
listed() {
    awk -v one="${2-}" '
        function number(hex,    i, n) {
            for (i = 1; i <= length(hex); i++)
                n = n * 16 + index("0123456789abcdef", substr(hex, i, 1)) - 1
            return n + 0
        }
        function register(at,    i, n) {
            for (i = 3; i >= 0; i--)
                n = n * 256 + byte[at + i]
            return n
        }
        # size N: as lspci writes it
        function size(n,    unit) {
            for (unit = 0; unit < 4 && n % 1024 == 0; unit++)
                n /= 1024
            return n ? " [size=" n substr("KMGT", unit, unit > 0) "]" : ""
        }
        # region BAR AT: the line of the register at this offset; 6 is the ROM. Where it shows 0, as those of an IDE
        # channel do, the line has the kind that sysfs tells.
        function region(bar, at,    first, shown, told, line) {
            shown = register(at)
            split(sysfs[slot " " bar], told, " ")
            first = number(told[1])
            if (first == 0 && shown == 0)
                return
            if (bar == 6)
                line = "Expansion ROM at " substr(told[1], 9)
            else if (shown % 2 || !shown && told[3] ~ /1[01].$/)
                line = "I/O ports at " substr(told[1], 13)
            else
                line = "Memory at " substr(told[1], 9) " (" (shown % 8 == 4 ? 64 : 32) "-bit, " \
                    (shown % 16 < 8 ? "non-" : "") "prefetchable)"
            if (bar < 6 && one == "")
                line = "Region " bar ": " line
            print "\t" line (bar == 6 && !shown ? " [virtual]" : "") size(first ? number(told[2]) - first + 1 : 0)
        }
        FNR == 1 { text++ }
        /^..:..\../ { slot = $1; bar = 0; rows = "" }
        text == 1 {
            gsub(/0x/, "")
            if (NF == 3)
                sysfs[slot " " bar++] = $0
            next
        }
        NF == 17 {
            rows = rows $0 "\n"
            for (i = 2; i <= 17; i++)
                byte[number(substr($1, 1, 2)) + i - 2] = number($i)
        }
        NF == 0 {
            bridge = byte[14] % 128
            print slot " Device Memory at fe000000: Vendor [1234:5678] (rev 02) (prog-if 00 [Normal decode])"
            print "\tControl: I/O+ Mem+ BusMaster+ SpecCycle- MemWINV- VGASnoop- ParErr- Stepping- SERR+ FastB2B- DisINTx-"
            for (bar = 0; bar < (bridge ? 2 : 6); bar++) {
                region(bar, 16 + 4 * bar)
                if (register(16 + 4 * bar) % 8 == 4)
                    bar++
            }
            if (bridge) {
                print "\tBus: primary=00, secondary=01, subordinate=02, sec-latency=0"
                print "\tI/O behind bridge: 0000c000-0000cfff [size=4K] [16-bit]"
                print "\tMemory behind bridge: fe600000-fe9fffff [size=4M] [32-bit]"
            }
            region(6, bridge ? 56 : 48)
            print "\tCapabilities: [40] Single Root I/O Virtualization (SR-IOV)"
            print "\t\tIOVCap:\tMigration-, Interrupt Message Number: 000"
            print "\t\tRegion 0: Memory at 00000000fe604000 (64-bit, non-prefetchable)"
            print "\tKernel driver in use: nvme"
            print rows
        }' "$machines/$1.sizes" "$machines/$1.dump"
}

# told_of MACHINE: its sizes as lspci lets them be known: the first address isn't kept, and of flags those of the space and
# the encoding bits alone. Lines of 110 are the ports of IDE channels, one of 212 is the copy of a ROM.
told_of() {
    awk -v zeros="$zeros" '
        function number(hex,    i, n) {
            for (i = 3; i <= length(hex); i++)
                n = n * 16 + index("0123456789abcdef", substr(hex, i, 1)) - 1
            return n
        }
        /^0x/ && $3 !~ /(0000|0110|0212)$/ {
            printf "0x%016x 0x%016x 0x0000000000000%s0%s\n", 0, number($2) - number($1), substr($3, 16, 1), substr($3, 18)
            next
        }
        /^0x/ { $0 = zeros }
        { print }' "$machines/$1.sizes"
}

# sizes NAME WANTED [WORD..]: the sizes that are in the file text are WANTED.
sizes() {
    title=$1 wanted=$2
    shift 2
    "$machines/sizes_of_lspci.sh" "$@" <text >out 2>err && ! [ -s err ] && cmp -s out "$wanted"
    told "sizes: $title" $?
}

# no_sizes NAME MESSAGE [WORD..]: the file text is refused, and nothing is printed.
no_sizes() {
    title=$1 message=$2
    shift 2
    "$machines/sizes_of_lspci.sh" "$@" <text >out 2>err
    [ $? -eq 1 ] && ! [ -s out ] && [ "$(cat err)" = "sizes_of_lspci.sh: $message" ]
    told "sizes: $title" $?
}

for machine in desk old port roots; do
    roots=00
    [ $machine = roots ] && roots=00,40
    told_of $machine >wanted.sizes
    listed $machine >lspci.txt
    for form in cat 'of_domain 0000' extended kernel remarked ended; do
        $form <lspci.txt >text
        sizes "$machine: -vvxxx: $form" wanted.sizes
    done
    "$machines/convert.sh" lspci.txt >dump.txt
    "$machines/sizes_of_lspci.sh" lspci.txt >sizes.txt
    judged "sizes of lspci: $machine" $machine $roots
    listed "$machine" -v >text
    sizes "$machine: -vxxx" wanted.sizes
    sed '$d' lspci.txt >text
    sizes "$machine: no empty line at the end" wanted.sizes
    tr -d '\t' <lspci.txt >text
    sizes "$machine: no blanks before lines" wanted.sizes
    sed '/^[4-9a-f]0: /d' lspci.txt >text
    sizes "$machine: 64 bytes a function" wanted.sizes
    cp lspci.txt text
    sizes "$machine: of a file" wanted.sizes 0000 ./lspci.txt
done

# what lspci 3.9 prints of a machine
told_of port >wanted.sizes
cp "$machines/port.lspci" text
sizes 'port.lspci' wanted.sizes
"$machines/convert.sh" text | sed 's/^\(..:..\..\) .*/\1/' | cmp -s - "$machines/port.dump"
told 'convert: port.lspci' $?

# one_of LINE..: a function with six BARs of 32 bits, whose lines of -v are these; the third register shows 0.
one_of() {
    echo '01:00.0 Device'
    printf '\t%s\n' "$@"
    sed -n -e '/^02:02.0/,$!d' -e 's/^\([12]0:\) .*/\1 00 00 00 f0 00 00 00 f1 00 00 00 00 00 00 00 f3/' \
        -e 's/^20:.*/20: 00 00 00 f4 00 00 00 f5 00 00 00 00 00 00 00 00/' -e '/^[0-9a-f]0: /p' "$machines/old.dump"
    echo
}

# wants LINE..: writes to `wanted` the sizes of 01:00.0, by the last addresses, `-` for zeros.
wants() {
    echo 01:00.0
    for line in "$@" - - - - - - -; do
        [ "$line" = - ] && echo "$zeros" || echo "0x0000000000000000 0x$line 0x0000000000000200"
    done | head -n 7
    echo
}

kind='(32-bit, non-prefetchable)'
one_of "Region 0: Memory at f0000000 $kind [size=16]" "Region 1: Memory at f1000000 $kind [disabled] [size=512K]" \
    "Region 2: Memory at <unassigned> $kind [size=16M]" "Region 3: Memory at f3000000 $kind [size=256G]" \
    "Region 4: Memory at f4000000 $kind [size=8388608T]" "Region 5: Memory at f5000000 $kind [size=1T]" \
    'Expansion ROM at fe460000 [disabled] [size=64K]' >text
wants 000000000000000f 000000000007ffff 0000000000ffffff 0000003fffffffff 7fffffffffffffff 000000ffffffffff \
    000000000000ffff >wanted
sizes 'powers of two, and a register that shows 0' wanted
sed 's/Region [0-5]: //' text >text.plain
cp text.plain text
wants 000000000000000f 000000000007ffff - 0000003fffffffff 7fffffffffffffff 000000ffffffffff 000000000000ffff >wanted
sizes 'powers of two, of -v' wanted
sed -e /256G/d -e 's/f4000000/f7000000/' text.plain >text
wants 000000000000000f 000000000007ffff - - - 000000ffffffffff 000000000000ffff >wanted
sizes 'a region that is missing, and one elsewhere, of -v' wanted
memory="Memory at f0000000 $kind"
one_of "Region 0: $memory [size=0]" "Region 1: $memory" "Region 2: $memory [virtual] [size=4K]" \
    "Region 3: $memory [size=3M]" "Region 4: $memory [size=16777216T]" "Region 5: $memory [enhanced] [size=4K]" \
    'Expansion ROM at 000c0000 [disabled] [size=128K]' >text
wants >wanted
sizes 'what is no size of a register' wanted

one_of "Region 0: I/O ports at f000 [size=8]" "Region 1: Memory at f1000000 (32-bit, prefetchable) [size=4K]" \
    "Region 2: I/O ports at 01f0 [size=8]" "Region 3: Memory at f3000000 (64-bit, non-prefetchable) [size=4K]" >text
sizes 'regions of another kind than the register' wanted

# An I/O BAR and one of 64 bits, which has two registers, by their encoding bits.
{
    echo '01:00.0 Device'
    printf '\tRegion 0: I/O ports at c000 [size=256]\n\tRegion 1: Memory at 7f000000000 (64-bit, prefetchable) [size=64G]\n'
    printf '\tRegion 3: Memory at f0000 (low-1M, non-prefetchable) [size=4K]\n'
    one_of | sed -e 1,2d -e 's/^10: .*/10: 01 c0 00 00 0c 00 00 00 f0 07 00 00 02 00 0f 00/'
} >text
{
    echo 01:00.0
    echo 0x0000000000000000 0x00000000000000ff 0x0000000000000101
    echo 0x0000000000000000 0x0000000fffffffff 0x000000000000020c
    echo "$zeros"
    echo 0x0000000000000000 0x0000000000000fff 0x0000000000000202
    yes "$zeros" | head -n 3
    echo
} >wanted
sizes 'encoding bits' wanted
sed -i 's/Region [0-5]: //' text
sizes 'encoding bits, of -v' wanted

# no sizes at all: a text of zeros, and a remark
sed 's/^0x.*/'"$zeros/" "$machines/old.sizes" >wanted
"$machines/sizes_of_lspci.sh" "$machines/old.dump" >out 2>err && cmp -s out wanted &&
    [ "$(cat err)" = 'sizes_of_lspci.sh: no sizes in the text; lspci prints them with -v' ]
told 'sizes: no sizes at all' $?

# what is refused
listed old >lspci.txt
: >text
no_sizes 'an empty text' 'no function of domain 0000'
cp lspci.txt text
no_sizes 'no such domain' 'no function of domain 0001' 0001
no_sizes 'two files' 'usage: sizes_of_lspci.sh [DOMAIN] [FILE]' one.txt two.txt
no_sizes 'no such file' "missing.txt can't be read" missing.txt
no_sizes 'no such file, and a domain' "missing.txt can't be read" 0000 missing.txt
no_sizes 'a folder' "/ can't be read" /
few='not all of the lines 00 to 30; lspci prints them with -xxx'
sed '/^[0-9a-f]0: /d' lspci.txt >text
no_sizes 'no bytes' "00:00.0: $few"
sed '/^00:01.0/,/^$/{/^30: /d;}' lspci.txt >text
no_sizes 'a line of bytes that is missing' "00:01.0: $few"
sed '/^02:02.0/,/^$/{/^00: /d;}' lspci.txt >text
no_sizes 'a line of bytes that is missing in the last function' "02:02.0: $few"
sed '/^00:01.0/,/^$/s/^20: 00/20:/' lspci.txt >text
no_sizes 'fifteen bytes' "line $(grep -n '^20:' text | sed -n '2s/:.*//p'): not sixteen bytes"
sed '/^00:01.0/,/^$/s/^20: 00/20: 0g/' lspci.txt >text
no_sizes 'no hex digit' "line $(grep -n '^20:' text | sed -n '2s/:.*//p'): not sixteen bytes"
sed 's/^00:01.0/# &/' lspci.txt >text
no_sizes 'a prompt before a slot' "line $(grep -n '^00: ' text | sed -n '2s/:.*//p'): $stray"
sed 1d lspci.txt >text
no_sizes 'bytes first' "line $(grep -n '^00: ' text | sed -n '1s/:.*//p'): $stray"
sed 's/^01:/00:01.0\//' lspci.txt >text
no_sizes 'a path of -P' "line $(grep -n '^00:01.0/' text | sed -n '1s/:.*//p'): $path"

# several domains in one text
told_of old >old.wanted
told_of roots >roots.wanted
{ listed roots | of_domain 0000; listed old | of_domain 0001; } >text
sizes 'several domains: the first' roots.wanted
sizes 'several domains: the second' old.wanted 0001

# The two lines of docs/BUG_REPORT.md: the first for texts of one domain, the second for domain 0001 of several; and what
# stands before the first for -vm and -vmm.
sed -n 's/^    \(sed -n .* lspci.txt | .*\) > dump.txt$/\1/p' "$report" >lines
[ "$(wc -l <lines)" -eq 2 ]
told 'BUG_REPORT.md: two lines' $?
one=$(sed -n 1p lines) of_several=$(sed -n 2p lines)
sed -n "s/^| \`-vm\`, \`-vmm\`.* after \`\(sed [^\`]*\)\`.*/\1/p" "$report" >lines
[ "$(wc -l <lines)" -eq 1 ]
told 'BUG_REPORT.md: a line for -vm and -vmm' $?
slots=$(cat lines)
for machine in desk old port roots; do
    titled $machine | kernel | verbose | extended | remarked | sed '$d' >text
    titled $machine | cut -b1-208 >titled.txt
    for form in cat 'of_domain 0000'; do
        $form <text >lspci.txt
        sh -c "$one" >out && cmp -s out titled.txt
        told "BUG_REPORT.md: $machine, one domain: $form" $?
    done
    for word in Device Slot; do
        titled $machine | records $word | kernel | extended >text
        sh -c "$slots" <text >lspci.txt
        sh -c "$one" >out && cmp -s out "$machines/$machine.dump"
        told "BUG_REPORT.md: $machine, -vm and -vmm: $word" $?
    done
    titled $machine | kernel | verbose | extended | remarked | sed '$d' >text
    { of_domain 0000 <text; of_domain 0001 <text; of_domain 10000 <text; } >lspci.txt
    sh -c "$of_several" >out && cmp -s out titled.txt
    told "BUG_REPORT.md: $machine, a domain of several" $?
done

echo "$passed passed, $failed failed"
[ "$failed" -eq 0 ]
