#!/bin/sh
# Tests machines/told.sh over files that stand for sysfs and proc, and machines/told_lspci.sh over texts of lspci. Each text
# that they print has to be one by tests/slow/told.py. `faults` and `settle` are asked about some of them, by `--also`. A
# line is printed for each case; the status is 1 where one differs.
#
# Usage: told_test.sh [PROGRAM], by default out/pciplan beside this file, which `rt ci` and `rt run` make.
set -u
export LC_ALL=C

here=$(CDPATH='' cd -- "$(dirname -- "$0")" && pwd) || exit 1
program=${1:-$here/out/pciplan}
case $program in
    /*) ;;
    *) program=$PWD/$program ;;
esac
machines=$here/../../machines
room=$(mktemp -d) || exit 1
trap 'rm -rf "$room"' EXIT
cd "$room" || exit 1
mkdir texts

passed=0 failed=0

# told NAME STATUS: prints the case's line; STATUS says whether all was as wanted.
told() {
    if [ "$2" -eq 0 ]; then
        echo "ok: $1"
        passed=$((passed + 1))
    else
        echo "DIFFERS: $1"
        failed=$((failed + 1))
    fi
}

# compare NAME STATUS OUT ERR COMMAND..: compares what a script prints, and keeps the text.
compare() {
    name=$1 status=$2
    printf '%s' "$3" >out.wanted
    printf '%s' "$4" >err.wanted
    shift 4
    "$@" >out 2>err
    [ $? -eq "$status" ] && cmp -s out out.wanted && cmp -s err err.wanted
    told "$name" $?
    cp out "texts/$name"
}

# sysfs NAME STATUS OUT ERR [DOMAIN]: compares what told.sh prints of the files that stand for sysfs and proc.
sysfs() {
    name=$1 status=$2 out=$3 err=$4
    shift 4
    SYSFS=sys PROC=proc compare "$name" "$status" "$out" "$err" "$machines/told.sh" "$@"
}

# lspci NAME STATUS OUT ERR [WORD..]: compares what told_lspci.sh prints of the file `text`.
lspci() {
    name=$1 status=$2 out=$3 err=$4
    shift 4
    compare "$name" "$status" "$out" "$err" "$machines/told_lspci.sh" "$@" text
}

# bytes SIZE [OFFSET=HEX..]: the bytes of a configuration space in hex, sixteen a line. All that isn't said is 0.
bytes() {
    size=$1
    shift
    printf '%s\n' "$@" | awk -v size="$size" '
        function value(hex,    n, i) {
            n = 0
            for (i = 1; i <= length(hex); i++)
                n = n * 16 + index("0123456789abcdef", substr(hex, i, 1)) - 1
            return n
        }
        {
            split($0, field, "=")
            for (i = 0; 2 * i < length(field[2]); i++)
                byte[value(field[1]) + i] = substr(field[2], 2 * i + 1, 2)
        }
        END {
            for (n = 0; n < size; n++)
                printf "%s%s", (n in byte) ? byte[n] : "00", (n % 16 < 15) ? " " : "\n"
        }'
}

# block TITLE SIZE [OFFSET=HEX..]: a function as lspci prints it.
block() {
    echo "$1"
    shift
    bytes "$@" | awk '{ printf "%02x: %s\n", 16 * (NR - 1), $0 }'
    echo
}

# add_function PATH NAME: adds a function in the folder PATH of `devices`. Standard input has the first lines of its file
# `resource`; the others are zeros.
add_function() {
    folder=sys/devices/$1/$2
    mkdir -p "$folder" sys/bus/pci/devices
    ln -s "../../../devices/$1/$2" "sys/bus/pci/devices/$2"
    awk '
        { print }
        END { while (NR + n++ < 13) print "0x0000000000000000 0x0000000000000000 0x0000000000000000" }' >"$folder/resource"
}

# config FOLDER SIZE [OFFSET=HEX..]: its configuration space
config() {
    folder=$1
    shift
    bytes "$@" | awk '
        function value(digit) {
            return index("0123456789abcdef", digit) - 1
        }
        { for (i = 1; i <= NF; i++) printf "\\%03o", 16 * value(substr($i, 1, 1)) + value(substr($i, 2)) }' >printed
    # shellcheck disable=SC2059
    printf "$(cat printed)" >"$folder/config"
}

# virtual FOLDER COUNT NAME: switches virtual functions on; the first is NAME, and standard input has its lines.
virtual() {
    echo "$2" >"$1/sriov_numvfs"
    path=${1#sys/devices/}
    add_function "${path%/*}" "$3"
    ln -s "../${1##*/}" "${1%/*}/$3/physfn"
    ln -s "../$3" "$1/virtfn0"
}

# nothing: an empty machine with one host bus
nothing() {
    rm -rf sys proc
    mkdir proc
    add_function pci0000:00 0000:00:00.0 </dev/null
    echo '0000-ffff : PCI Bus 0000:00' >proc/ioports
    echo 'c0000000-febfffff : PCI Bus 0000:00' >proc/iomem
}

# machine: a machine of two host buses beside one of another domain and one without functions.
machine() {
    nothing
    add_function pci0000:00 0000:00:01.1 <<'END'
0x00000000000001f0 0x00000000000001f7 0x0000000000000110
0x00000000000003f6 0x00000000000003f6 0x0000000000000110
0x0000000000000170 0x0000000000000177 0x0000000000000110
0x0000000000000376 0x0000000000000376 0x0000000000000110
0x000000000000ffa0 0x000000000000ffaf 0x0000000000040101
END
    echo 0x01018a >sys/devices/pci0000:00/0000:00:01.1/class
    add_function pci0000:00 0000:00:02.0 <<'END'
0x00000000fd000000 0x00000000fdffffff 0x0000000000042208
END
    echo 1 >sys/devices/pci0000:00/0000:00:02.0/boot_vga
    add_function pci0000:00 0000:00:03.0 <<'END'
0x00000000fe000000 0x00000000fe000fff 0x0000000000040200
END
    echo 0 >sys/devices/pci0000:00/0000:00:03.0/boot_vga
    add_function pci0000:00 0000:00:04.0 </dev/null
    add_function pci0000:00 0000:00:1f.0 </dev/null
    add_function pci0000:00/0000:00:04.0 0000:01:00.0 <<'END'
0x00000000fe200000 0x00000000fe203fff 0x0000000000140204
0x0000000000000000 0x0000000000000000 0x0000000000000000
0x0000000000000000 0x0000000000000000 0x0000000000000000
0x0000000000000000 0x0000000000000000 0x0000000000000000
0x0000000000000000 0x0000000000000000 0x0000000000000000
0x0000000000000000 0x0000000000000000 0x0000000000000000
0x0000000000000000 0x0000000000000000 0x0000000000000000
0x00000000fe240000 0x00000000fe25ffff 0x0000000000140204
0x0000000000000000 0x0000000000000000 0x0000000000000000
0x0000000000000000 0x0000000000000000 0x0000000000000000
0x00000000fe260000 0x00000000fe27ffff 0x000000000014220c
END
    virtual sys/devices/pci0000:00/0000:00:04.0/0000:01:00.0 2 0000:01:10.0 <<'END'
0x00000000fe240000 0x00000000fe243fff 0x0000000000140204
0x0000000000000000 0x0000000000000000 0x0000000000000000
0x0000000000000000 0x0000000000000000 0x0000000000000000
0x00000000fe260000 0x00000000fe263fff 0x000000000014220c
END
    add_function pci0000:40 0000:40:01.0 <<'END'
0x0000000080000000 0x00000000800fffff 0x0000000000040200
0x0000000000000000 0x0000000000000000 0x0000000000000000
0x0000000081000000 0x0000000081000fff 0x0000000000000230
0x0000000000008000 0x00000000000080ff 0x0000000000000130
0x0000001000000000 0x00000010ffffffff 0x0000000000102230
END
    add_function pci0001:00 0001:00:01.0 <<'END'
0x0000000090000000 0x00000000900fffff 0x0000000000000230
END
    cat >proc/ioports <<'END'
0000-0cf7 : PCI Bus 0000:00
  0000-001f : dma1
  0080-008f : dma page reg
  0170-0177 : 0000:00:01.1
    0170-0177 : ata_piix
  01f0-01f7 : 0000:00:01.1
  0376-0376 : 0000:00:01.1
  03c0-03df : vga+
  03f6-03f6 : 0000:00:01.1
  0400-047f : 0000:00:1f.0
    0400-0403 : ACPI PM1a_EVT_BLK
0cf8-0cff : PCI conf1
0d00-7fff : PCI Bus 0000:00
  2000-2fff : PCI Bus 0000:01
  5000-507f : pnp 00:03
    5000-503f : 0000:00:1f.0
    5040-507f : ACPI GPE0_BLK
8000-efff : PCI Bus 0000:40
  8000-80ff : 0000:40:01.0
f000-ffff : PCI Bus 0000:00
  ffa0-ffaf : 0000:00:01.1
    ffa0-ffaf : ata_piix
END
    cat >proc/iomem <<'END'
00000000-00000fff : Reserved
00001000-0009ffff : System RAM
000a0000-000bffff : PCI Bus 0000:00
  000a0000-000bffff : Video RAM area
000c0000-000fffff : PCI Bus 0000:00
  000c0000-000c7fff : Video ROM
  000f0000-000fffff : System ROM
00100000-7fffffff : System RAM
  01000000-01ffffff : Kernel code
80000000-8fffffff : PCI Bus 0000:40
  80000000-800fffff : 0000:40:01.0
    80000000-800fffff : nvme
  81000000-81000fff : 0000:40:01.0
  8fffe000-8fffffff : dmar1
90000000-9fffffff : PCI Bus 0001:00
  90000000-900fffff : 0001:00:01.0
  9ff00000-9fffffff : pnp 00:09
a0000000-afffffff : PCI Bus 0000:7f
  a0000000-a0000fff : dmar2
c0000000-febfffff : PCI Bus 0000:00
  e0000000-efffffff : PCI MMCONFIG 0000 [bus 00-ff]
    e0000000-efffffff : Reserved
      e0000000-efffffff : pnp 00:01
  fd000000-fe00ffff : Reserved
    fd000000-fdffffff : 0000:00:02.0
      fd000000-fd7fffff : BOOTFB
    fe000000-fe000fff : 0000:00:03.0
    fe008000-fe008fff : INTC1055:00
  fe200000-fe3fffff : PCI Bus 0000:01
    fe200000-fe203fff : 0000:01:00.0
      fe200000-fe203fff : ixgbe
    fe240000-fe25ffff : 0000:01:00.0
      fe240000-fe243fff : 0000:01:10.0
    fe260000-fe27ffff : 0000:01:00.0
    fe300000-fe300fff : Reserved
fec00000-fec003ff : IOAPIC 0
100000000-47fffffff : System RAM
1000000000-1fffffffff : PCI Bus 0000:40
  1000000000-10ffffffff : 0000:40:01.0
END
}

held='00:00.0 io 00000000-0000001f held dma1
00:00.0 io 00000080-0000008f held dma_page_reg
00:00.0 io 00005040-0000507f held ACPI_GPE0_BLK
00:00.0 mem 00000000000f0000-00000000000fffff held System_ROM
00:00.0 mem 00000000e0000000-00000000efffffff held PCI_MMCONFIG_0000_[bus_00-ff]
00:00.0 mem 00000000fe008000-00000000fe008fff held INTC1055:00
'
channels='00:01.1 io 00000170-00000177 command ide
00:01.1 io 000001f0-000001f7 command ide
00:01.1 io 00000376-00000376 command ide
00:01.1 io 000003f6-000003f6 command ide
'
vga='00:02.0 io 000003b0-000003bb command vga
00:02.0 io 000003c0-000003df command vga
00:02.0 mem 00000000000a0000-00000000000bffff command vga
'
quirks='00:1f.0 io 00000400-0000047f always quirk
00:1f.0 io 00005000-0000503f always quirk
'
drive='01:00.0 mem 00000000fe240000-00000000fe247fff always vf0
01:00.0 pref 00000000fe260000-00000000fe267fff always vf3
'
enhanced='40:01.0 io 00008000-000080ff command ea3
40:01.0 mem 0000000081000000-0000000081000fff command ea2
40:01.0 pref 0000001000000000-00000010ffffffff command ea4
'
dmar='40:00.0 mem 000000008fffe000-000000008fffffff held dmar1
'
whole=$held$channels$vga$quirks$drive$dmar$enhanced

# told.sh: a whole machine
machine
sysfs 'a machine of two host buses' 0 "$whole" ''
sysfs 'the domain of the machine is said' 0 "$whole" '' 0000
sysfs 'another domain' 0 '00:00.0 mem 000000009ff00000-000000009fffffff held pnp_00:09
00:01.0 mem 0000000090000000-00000000900fffff command ea0
' '' 0001
mkdir 'a room'
mv sys proc 'a room'
SYSFS='a room/sys' PROC='a room/proc' compare 'folders with a blank in their names' 0 "$whole" '' "$machines/told.sh"
mv 'a room/sys' 'a room/proc' .
nothing
sysfs 'a machine with nothing to tell' 0 '' ''

# who can't read
machine
sed -i 's/^\( *\)[0-9a-f]*-[0-9a-f]* /\10000-0000 /' proc/ioports
sed -i 's/^\( *\)[0-9a-f]*-[0-9a-f]* /\100000000-00000000 /' proc/iomem
sysfs 'not root' 0 "$channels$vga$drive$enhanced" 'told.sh: proc/ioports tells no addresses; root reads them
told.sh: proc/iomem tells no addresses; root reads them
'
rm proc/*
sysfs 'no files in proc' 0 "$channels$vga$drive$enhanced" 'told.sh: proc/ioports tells no addresses; root reads them
told.sh: proc/iomem tells no addresses; root reads them
'

# virtual functions
machine
card=sys/devices/pci0000:00/0000:00:04.0/0000:01:00.0
config $card 4096 100=01000214 140=10000100 148=0900
sysfs 'virtual functions that are on by SR-IOV Control' 0 "$whole" ''
config $card 4096 100=01000214 140=10000100 148=0100
off='told.sh: 0000:01:00.0: VF Enable or VF Memory Space Enable is off, so nothing is told of its virtual functions
'
sysfs 'VF Memory Space Enable is off' 0 "$held$channels$vga$quirks$dmar$enhanced" "$off"
config $card 4096 100=10000100 108=0800
sysfs 'VF Enable is off' 0 "$held$channels$vga$quirks$dmar$enhanced" "$off"
config $card 64
sysfs 'SR-IOV Control that root alone reads' 0 "$whole" ''
config $card 4096 100=01000110
sysfs 'extended capabilities in a ring' 0 "$whole" ''
rm $card/config $card/virtfn0
sysfs 'virtual functions that have no files' 0 "$held$channels$vga$quirks$dmar$enhanced" \
    "told.sh: 0000:01:00.0: its virtual functions can't be read, so nothing is told of them
"
rm $card/sriov_numvfs
sysfs 'a copy without the files of virtual functions' 0 "$held$channels$vga$quirks$dmar$enhanced" \
    'told.sh: 0000:01:10.0: a virtual function without its physical function, so nothing is told of it
'
echo 0 >$card/sriov_numvfs
sysfs 'no virtual function is on' 0 "$held$channels$vga$quirks$dmar$enhanced" ''

# many NAME COUNT OUT ERR: virtual functions of 00:03.0; standard input has the lines of the first of them.
many() {
    cat >lines
    nothing
    add_function pci0000:00 0000:00:03.0 </dev/null
    virtual sys/devices/pci0000:00/0000:00:03.0 "$2" 0000:00:03.1 <lines
    sysfs "$1" 0 "$3" "$4"
}

many 'virtual functions across 4 GB and above 2^53' 65535 '00:03.0 mem 00000000ff000000-00000001fefeffff always vf0
00:03.0 mem 00000001ff000000-00000201fcffffff always vf3
00:03.0 mem 8000000000000000-8000fffeffffffff always vf1
00:03.0 pref 00fffffffffff000-010000000fffdfff always vf2
' '' <<'END'
0x00000000ff000000 0x00000000ff00ffff 0x0000000000040200
0x8000000000000000 0x80000000ffffffff 0x0000000000140204
0x00fffffffffff000 0x00ffffffffffffff 0x000000000014220c
0x00000001ff000000 0x0000000200ffffff 0x0000000000140204
END
many 'virtual functions up to 2^64' 2 '00:03.0 mem fffffffffff00000-ffffffffffffffff always vf0
' '' <<'END'
0xfffffffffff00000 0xfffffffffff7ffff 0x0000000000140204
END
many 'virtual functions past 2^64' 3 '00:03.0 mem 00000000fe000000-00000000fe002fff always vf2
' 'told.sh: 0000:00:03.0: BAR 0 of its virtual functions ends above 2^64, so it is not told
' <<'END'
0xfffffffffff00000 0xfffffffffff7ffff 0x0000000000140204
0x0000000000000000 0x0000000000000000 0x0000000000000000
0x00000000fe000000 0x00000000fe000fff 0x0000000000040200
END
many 'BARs of virtual functions that have no address, and backward' 2 '00:03.0 mem 00000000fe003000-00000000fe004fff always vf4
' '' <<'END'
0x00000000fe000000 0x00000000fe000fff 0x0000000020040200
0x00000000fe001000 0x00000000fe001fff 0x0000000010040200
0x0000000000000000 0x0000000000000fff 0x0000000020040200
0x00000000fe002fff 0x00000000fe002000 0x0000000000040200
0x00000000fe003000 0x00000000fe003fff 0x0000000000040200
END

# ranges that are in no register
nothing
for slot in 00:01.1 00:05.0; do
    flags=110
    [ $slot = 00:01.1 ] || flags=20000110
    add_function pci0000:00 0000:$slot <<END
0x00000000000001f0 0x00000000000001f7 0x$flags
0x00000000000003f6 0x00000000000003f6 0x$flags
END
done
sysfs 'two IDE controllers, one without a place in the list of Linux' 0 '00:01.1 io 000001f0-000001f7 command ide
00:01.1 io 000003f6-000003f6 command ide
00:05.0 io 000001f0-000001f7 command ide
00:05.0 io 000003f6-000003f6 command ide
' ''
nothing
add_function pci0000:00 0000:00:01.1 <<'END'
0x00000000000001f0 0x00000000000001f7 0x0000000010000110
0x00000000000003f6 0x00000000000003f6 0x0000000000000110
0x0000000000000177 0x0000000000000170 0x0000000000000110
0x0000000000000000 0x0000000000000000 0x0000000000000110
0x0000000000000000 0x000000000000000f 0x0000000020000110
END
add_function pci0000:00 0000:00:02.0 <<'END'
0x0000000000000000 0x0000000000000000 0x0000000000000230
0x00000000fe001fff 0x00000000fe001000 0x0000000000000230
0x00000000fe002000 0x00000000fe002fff 0x0000000010000230
0x0000000000000000 0x0000000000000fff 0x0000000020000230
0x00000000fe004000 0x00000000fe004fff 0x0000000020000230
0x00000000fe005000 0x00000000fe005fff 0x0000000000000030
0x00000000fe006000 0x00000000fe006fff 0x0000000000000230
END
sysfs 'ranges that are off, backward, without a place, or 0' 0 '00:01.1 io 000003f6-000003f6 command ide
00:02.0 mem 00000000fe004000-00000000fe004fff command ea4
' ''
nothing
add_function pci0000:00 0000:00:0f.0 <<'END'
0x0000000000006000 0x0000000000006007 0x0000000000000111
0x00000000fed00000 0x00000000fed003ff 0x0000000000000210
END
echo 0x060100 >sys/devices/pci0000:00/0000:00:0f.0/class
sysfs 'ranges of BARs that Linux may not move' 0 '' ''
nothing
add_function pci0000:00 0000:00:01.0 <<'END'
0x0000000100000000 0x00000001000000ff 0x0000000000000130
0x8000000000000000 0xffffffffffffffff 0x0000000000102230
END
sysfs 'ports above FFFFFFFFh' 0 '00:01.0 pref 8000000000000000-ffffffffffffffff command ea1
' 'told.sh: 0000:00:01.0: ports 0000000100000000-00000001000000ff end above ffffffff, so they are not told
'

# the firmware's display
nothing
cat >proc/ioports <<'END'
0000-ffff : PCI Bus 0000:00
  03b0-03bf : ega
  03d4-03d5 : cga
END
sysfs 'ports of a display are not held' 0 '' ''
add_function pci0000:00 0000:00:02.0 </dev/null
add_function pci0000:00/0000:00:02.0 0000:01:00.0 </dev/null
add_function pci0000:00/0000:00:02.0/0000:01:00.0 0000:02:00.0 </dev/null
echo 1 >sys/devices/pci0000:00/0000:00:02.0/0000:01:00.0/0000:02:00.0/boot_vga
config sys/devices/pci0000:00/0000:00:02.0 64 3e=1a00
config sys/devices/pci0000:00/0000:00:02.0/0000:01:00.0 64 3e=0800
sysfs 'a display behind two bridges with VGA Enable' 0 '02:00.0 io 000003b0-000003bb command vga
02:00.0 io 000003c0-000003df command vga
02:00.0 mem 00000000000a0000-00000000000bffff command vga
' ''
config sys/devices/pci0000:00/0000:00:02.0 64 3e=f700
sysfs 'a display behind a bridge without VGA Enable' 0 '' \
    "told.sh: 0000:02:00.0: a bridge above has no VGA Enable, so the legacy addresses of the display aren't told
"

# what Linux lists
nothing
add_function pci0000:00 0000:00:01.1 <<'END'
0x00000000000001f0 0x00000000000001f7 0x20000110
END
cat >proc/ioports <<'END'
0000-ffff : PCI Bus 0000:00
  01f0-01ff : pnp 00:02
    01f0-01f7 : ide0
    01f8-01ff : board
  0600-063f : 0000:00:1f.4
END
sysfs 'ports of an IDE channel under another name, and a function that is gone' 0 \
    '00:00.0 io 000001f8-000001ff held board
00:01.1 io 000001f0-000001f7 command ide
' ''
nothing
printf 'c0000000-febfffff : PCI Bus 0000:00\n  c0000000-c0000fff : caf\303\251\tau  lait \177\n' >proc/iomem
cat >>proc/iomem <<'END'
  c0001000-c0001fff : 
  c0002000-c0002fff : a name of exactly 32 bytes, ends
  c0003000-c0003fff : a name of more than 32 bytes, cut here
  c0004000-c0004fff : with : in it
  c0006000-c0005fff : backward
100000000-ffffffffffffffff : PCI Bus 0000:00
  20000000000000-20000000000000 : one byte
  fffffffffffff000-ffffffffffffffff : last
END
sysfs 'names with other bytes, long ones and none, and high addresses' 0 \
    '00:00.0 mem 00000000c0000000-00000000c0000fff held caf___au__lait__
00:00.0 mem 00000000c0001000-00000000c0001fff held
00:00.0 mem 00000000c0002000-00000000c0002fff held a_name_of_exactly_32_bytes,_ends
00:00.0 mem 00000000c0003000-00000000c0003fff held a_name_of_more_than_32_bytes,_cu
00:00.0 mem 00000000c0004000-00000000c0004fff held with_:_in_it
00:00.0 mem 0020000000000000-0020000000000000 held one_byte
00:00.0 mem fffffffffffff000-ffffffffffffffff held last
' ''
nothing
cat >proc/iomem <<'END'
c0000000-febfffff : Reserved
  c0000000-cfffffff : PCI ECAM 0000 [bus 00-ff]
    c0000000-cfffffff : PCI Bus 0000:00
      c0000000-c0ffffff : Reserved
        c0000000-c00fffff : PCI Bus 0000:01
          c0000000-c00fffff : 0000:01:00.0
        c0100000-c01fffff : Reserved
          c0100000-c0100fff : pnp 00:02
          c0101000-c0101fff : pnp 00:03
        c0200000-c02fffff : System RAM
          c0200000-c02fffff : Kernel code
00000000-00000000 : PCI Bus 0000:00
  00000000-00000000 : nothing
END
sysfs 'what is around a bridge window and beside it' 0 \
    '00:00.0 mem 00000000c0100000-00000000c01fffff held Reserved
' ''

# A domain behind a function of another, where Linux indents no deeper than five times
nothing
add_function pci0000:00 0000:00:0e.0 <<'END'
0x00000000d0000000 0x00000000d1ffffff 0x0000000000040200
END
add_function pci0000:00/0000:00:0e.0/pci10000:e0 10000:e0:06.0 </dev/null
add_function pci0000:00/0000:00:0e.0/pci10000:e0/10000:e0:06.0 10000:e1:00.0 <<'END'
0x00000000d0000000 0x00000000d0003fff 0x0000000000040200
END
cat >proc/iomem <<'END'
c0000000-febfffff : PCI Bus 0000:00
  d0000000-d1ffffff : 0000:00:0e.0
    d0000000-d1ffffff : VMD MEMBAR1
      d0000000-d1ffffff : 0000:00:0e.0
        d0000000-d1ffffff : PCI Bus 10000:e0
          d0000000-d00fffff : PCI Bus 10000:e1
          d0000000-d0003fff : 10000:e1:00.0
          d0000000-d0003fff : nvme
          d0100000-d0100fff : other
END
sysfs 'a domain behind a function' 0 'e0:00.0 mem 00000000d0100000-00000000d0100fff held other
' '' 10000
sysfs 'the domain above it' 0 '' ''

# refusals
nothing
awk 'BEGIN {
    print "c0000000-febfffff : PCI Bus 0000:00"
    for (n = 0; n < 4096; n++)
        printf "  d%06x0-d%06x7 : part\n", n, n
}' >proc/iomem
SYSFS=sys PROC=proc "$machines/told.sh" >texts/many 2>err && [ "$(wc -l <texts/many)" -eq 4096 ] && [ ! -s err ]
told 'a machine of 4096 ranges' $?
echo '  e0000000-e0000fff : one more' >>proc/iomem
sysfs 'a machine of 4097 ranges' 1 '' 'told.sh: 4097 ranges, and a text has at most 4096
'
sysfs 'no such domain' 1 '' 'told.sh: no domain 0001 in sys/bus/pci/devices
' 0001
sysfs 'two words' 1 '' 'told.sh: usage: told.sh [DOMAIN]
' 0000 0001
echo '0x0 0x0 0x0' >sys/devices/pci0000:00/0000:00:00.0/resource
sysfs 'a file resource that is cut' 1 '' "told.sh: 0000:00:00.0: its file resource can't be read
"
nothing
add_function other 0000:7f:00.0 </dev/null
sysfs 'a function with no host bus' 1 '' 'told.sh: 0000:7f:00.0: no host bus pci0000:.. is in its path
'

# told_lspci.sh: IDE channels
{
    block '00:01.0 IDE interface: both channels' 256 09=800101
    block '00:01.1 IDE interface: primary native' 256 09=810101
    block '00:01.2 IDE interface: secondary native' 256 09=840101
    block '00:01.3 IDE interface: both native' 256 09=850101
    block '00:01.4 IDE interface: a bridge' 256 09=800101 0e=01
    block '00:01.5 SATA controller' 256 09=000601
    block '0001:00:01.0 IDE interface: of another domain' 256 09=800101
} >text
lspci 'channels by the interface byte' 0 '00:01.0 io 00000170-00000177 command ide
00:01.0 io 000001f0-000001f7 command ide
00:01.0 io 00000376-00000376 command ide
00:01.0 io 000003f6-000003f6 command ide
00:01.1 io 00000170-00000177 command ide
00:01.1 io 00000376-00000376 command ide
00:01.2 io 000001f0-000001f7 command ide
00:01.2 io 000003f6-000003f6 command ide
' ''
ports='00:01.0 io 00000170-00000177 command ide
00:01.0 io 000001f0-000001f7 command ide
00:01.0 io 00000376-00000376 command ide
00:01.0 io 000003f6-000003f6 command ide
'
lspci 'a domain is said' 0 "$ports" '' 0001
{
    printf 'lspci: a message\r\n'
    block '00:01.0 IDE interface' 256 09=800101 | sed 's/$/\r/; /^[1-9a-f]0/i\
	Region 0: [virtual] I/O ports at 01f0 [size=8]'
} >text
lspci 'carriage returns, messages and verbose lines' 0 "$ports" ''
block "Slot:	00:01.0" 256 09=800101 | sed '1a\
Class:	IDE interface' >text
lspci 'records of -vmm' 0 "$ports" ''
# shellcheck disable=SC2016
compare 'standard input' 0 "$ports" '' sh -c '"$1" <text' sh "$machines/told_lspci.sh"

# Enhanced Allocation: entries of 32 and 64 bits and of I/O, and by secondary properties. These tell nothing: one that is
# off, one that is unavailable, one of another length, those of no BAR, one that is cut.
{
    block '00:02.0 0200: enhanced' 256 06=1000 34=40 40=14000a00 44=02000080000000fefc0f0000 \
        50=14010080020000f0feffff0f1000000001000000 64=2202008000c000001c000000 70=32000000000010fefc0f0000 \
        7c=42420180000020fefc0f0000 88=52fd0080000030fefc0f0000 94=03000080000040fefc0f000000000000 \
        a4=72000080000050fefc0f0000 b0=82000080000060fefc0f0000 bc=02030080000070fefc0f0000
    block '00:02.1 0200: in parts' 256 06=1000 34=40 40=14f40300 44=13000080020000fffcff0f00ffffffff \
        54=23000080000010fffeffffff02000000 64=03000080020000fffcffff00ffffffff f4=14000100020000800000a0fe
    block '00:02.2 0200: too large' 256 06=1000 34=40 40=14000200 44=13000080020000fffcffff01ffffffff \
        54=22020080fcffffff04000000
    block '00:03.0 0604: a bridge' 256 06=1000 0e=01 34=43 40=14000200 44=00020200 48=02000080000010fefc0f0000 \
        54=62000080000020fefc0f0000
    block '00:04.0 0200: a ring' 256 06=1000 34=40 40=14440100 44=1440010002000080 4c=000030fefc0f0000
    block '00:05.0 0200: no list' 256 34=40 40=14000100 44=02000080000040fefc0f0000
} >text
lspci 'Enhanced Allocation' 0 '00:02.0 io 0000c000-0000c01f command ea2
00:02.0 mem 00000000fe000000-00000000fe000fff command ea0
00:02.0 pref 00000000fe200000-00000000fe200fff command ea4
00:02.0 pref 00000010f0000000-00000011ffffffff command ea1
00:02.1 mem 00000000ff100000-00000003ff0fffff command ea2
00:02.1 mem ffffffffff000000-ffffffffff0fffff command ea1
00:02.1 mem ffffffffff000000-ffffffffffffffff command ea0
00:03.0 mem 00000000fe100000-00000000fe100fff command ea0
00:04.0 mem 00000000fe300000-00000000fe300fff command ea0
' 'told_lspci.sh: 00:02.2: ea1 ends above 2^64, so it is not told
told_lspci.sh: 00:02.2: ea2 ends above port ffffffff, so it is not told
'

# SR-IOV. Extended capabilities: 0001h at 100h, 0010h at 140h; Control at 148h, NumVFs at 150h, System Page Size at 160h,
# VF BARs from 164h on
express='06=1000 34=40 40=1000'
on="$express 100=01000214 140=10000100 148=0900 150=0300 160=01000000"
{
    # shellcheck disable=SC2086
    {
        block '00:06.0 0200: BARs of 32 and 64 bits' 4096 $on 164=000000fe 168=0c0000f0 16c=10000000 174=04001000 178=00000000
        block '00:06.1 0200: pages of 64 KB' 4096 $on 160=10000000 164=080000fe
        block '00:06.2 0200: VF MSE is off' 4096 $on 148=0100 164=000000fe
        block '00:06.3 0200: VF Enable is off' 4096 $on 148=0800 164=000000fe
        block '00:06.4 0200: no VF' 4096 $on 150=0000 164=000000fe
        block '00:06.5 0200: a page size of 0, VF BAR 5 of 64 bits, I/O' 4096 $on 160=00000000 164=000000fe 168=01c00000 \
            178=040000fd
        block '00:06.6 0200: 65535 pages of 2^43' 4096 $on 150=ffff 160=00000080 164=0c000000 168=00000010
        block '00:06.7 0200: past 2^64' 4096 $on 160=00000080 164=04000000 168=00f0ffff 16c=04000000 170=00e8ffff
        block '00:07.0 0200: Enhanced Allocation' 4096 $on 34=60 60=14400200 64=92040080000000fcfc3f0000 \
            70=e4030080020000f0fefffffff8ffffff00000000
        block '00:10.0 0200: a virtual function' 4096 00=ffffffff $on 164=000000fe 09=800101
        block '00:11.0 0200: no capability' 4096 $express 100=01000110
        block '00:12.0 0200: reads FFh' 4096 $express 100=ffffffff ffc=ffffffff
    }
} >text
lspci 'virtual functions' 0 '00:06.0 mem 0000000000100000-0000000000102fff always vf4-least
00:06.0 mem 00000000fe000000-00000000fe002fff always vf0-least
00:06.0 pref 00000010f0000000-00000010f0002fff always vf1-least
00:06.1 pref 00000000fe000000-00000000fe02ffff always vf0-least
00:06.5 mem 00000000fe000000-00000000fe002fff always vf0-least
00:06.6 pref 1000000000000000-17fff7ffffffffff always vf0-least
00:06.7 mem ffffe80000000000-ffffffffffffffff always vf2-least
00:07.0 mem 00000000fc000000-00000000fc00bfff always vf0
00:07.0 pref fffffff8f0000000-fffffffbefffffff always vf5
' 'told_lspci.sh: 00:06.7: vf0-least ends above 2^64, so it is not told
'
# shellcheck disable=SC2086
{
    block '00:06.0 0200: without extended capabilities' 256 $express
    block '00:06.1 0200: with them' 4096 $express
    block '00:06.2 0200: no PCI Express' 256
} >text
lspci 'no extended configuration space' 0 '' 'told_lspci.sh: nothing is told of virtual functions, as lines 100 to ff0 are missing (functions: 1); lspci -xxxx prints them
'

# CardBus bridges
{
    block '00:0b.0 CardBus bridge' 256 0e=82 06=1000 10=002030fe 14=a0 34=1400 1c=000010fe 20=00f01ffe 24=000020fe 28=000020fe \
        2c=00100000 30=fc100000 34=01c00100 38=fdcf0100 3e=0001
    block '00:0b.1 CardBus bridge: closed' 256 0e=02 1c=00f0ffff 24=00000000 28=ff0f0000 2c=fcff0000 34=00000000 38=03000000
} >text
lspci 'CardBus bridges' 0 '' ''
compare 'CardBus bridges with -c' 0 '00:0b.0 io 00001000-000010ff command card0
00:0b.0 io 0001c000-0001cfff command card1
00:0b.0 mem 00000000fe200000-00000000fe200fff command card1
00:0b.0 mem 00000000fe302000-00000000fe302fff command socket
00:0b.0 pref 00000000fe100000-00000000fe1fffff command card0
' '' "$machines/told_lspci.sh" -c 0000 text

# refusals
block '00:01.0 IDE interface' 256 09=800101 >good
refused() {
    lspci "$1" 1 '' "told_lspci.sh: $2
"
}
sed '/^[4-9a-f]0:/d' good >text
refused 'no lines 40 to f0' '00:01.0: not all of the lines 00 to f0; root reads them, with lspci -xxxx'
sed '/^50:/d' good >text
refused 'a line is missing' '00:01.0: not all of the lines 00 to f0 before line 7'
block '00:01.0 0200' 4096 | sed '/^ff0:/d' >text
refused 'the last line is missing' '00:01.0: not all of the lines 100 to ff0'
sed '/^50:/s/ 00$//' good >text
refused 'a line of fifteen bytes' 'line 7: not sixteen bytes'
sed 1d good >text
refused 'no slot' 'line 1: bytes without a slot line before them'
sed 's|^00:01.0|&/00.0|' good >text
refused 'a path' 'line 1: a path of lspci -P in the place of a slot'
: >text
refused 'an empty text' 'no function of domain 0000'
compare 'another domain than that of the text' 1 '' 'told_lspci.sh: no function of domain 0001
' "$machines/told_lspci.sh" 0001 good
compare 'no file' 1 '' "told_lspci.sh: nowhere can't be read
" "$machines/told_lspci.sh" nowhere
compare 'two files' 1 '' 'told_lspci.sh: usage: told_lspci.sh [-c] [DOMAIN] [FILE]
' "$machines/told_lspci.sh" good good
awk 'BEGIN {
    for (n = 0; n < 1025; n++) {
        printf "%02x:%02x.%d IDE interface\n", n / 256, n / 8 % 32, n % 8
        for (row = 0; row < 16; row++) {
            printf "%x0:", row
            for (i = 0; i < 16; i++)
                printf "%s", (row == 0 && (i == 10 || i == 11)) ? " 01" : " 00"
            print ""
        }
    }
}' >text
refused '4100 ranges' '4100 ranges, and a text has at most 4096'

# Of one machine both scripts tell the same.
nothing
for slot in 00:01.1 00:02.0; do
    case $slot in
        00:01.1) lines='0x1f0 0x1f7 0x110
0x3f6 0x3f6 0x110
0x170 0x177 0x110
0x376 0x376 0x110' ;;
        *) lines='0xfe000000 0xfe000fff 0x230
0x10f0000000 0x11ffffffff 0x102230
0xc000 0xc01f 0x130' ;;
    esac
    printf '%s\n' "$lines" | add_function pci0000:00 0000:$slot
done
{
    block 00:01.1 256 09=800101
    block 00:02.0 256 06=1000 34=40 40=14000300 44=02000080000000fefc0f0000 50=14010080020000f0feffff0f1000000001000000 \
        64=2202008000c000001c000000
} >text
SYSFS=sys PROC=proc "$machines/told.sh" >texts/both 2>err
"$machines/told_lspci.sh" text >out 2>>err
[ "$(wc -l <out)" -eq 7 ] && [ ! -s err ] && cmp out texts/both
told 'both scripts tell the same' $?

# Each text has the form of docs/FORMATS.md.
if command -v python3 >/dev/null; then
    python3 - "$here/../../tests/slow" texts/* <<'END'
import sys
sys.dont_write_bytecode = True
sys.path.insert(0, sys.argv[1])
import told
wrong = 0
for name in sys.argv[2:]:
    with open(name, 'rb') as source:
        answer = told.judge(source.read())
    if not isinstance(answer, list):
        print('%s: %s' % (name, told.message(answer)))
        wrong += 1
sys.exit(wrong > 0)
END
    told "each text is one by tests/slow/told.py: $(find texts -type f | wc -l) of them" $?
else
    echo 'skipped: what tests/slow/told.py says, as no python3 is here'
fi

# faults NAME STATUS OUT WORDS..: compares what `faults` answers about the stored machine with what is told.
faults() {
    name=$1 status=$2
    printf '%s' "$3" >out.wanted
    shift 3
    "$program" faults "$@" >out 2>err
    [ $? -eq "$status" ] && cmp -s out out.wanted && [ ! -s err ]
    told "$name" $?
}

# settled NAME WORD..: `settle --writes` of these words has nothing to write.
settled() {
    name=$1
    shift
    "$program" settle "$@" --io 700-ffff --mem 80000000-febfffff --pref none --writes >out 2>err && ! [ -s out ] && ! [ -s err ]
    told "$name" $?
}

: >empty
if ! [ -x "$program" ]; then
    echo "skipped: faults --also, as $program can't be run"
elif "$program" faults "$machines/old.dump" "$machines/old.probe" --also empty 2>&1 | grep -q '^pciplan: usage'; then
    echo 'skipped: faults --also, as the program takes no such word'
else
    # the stored machine, with what Linux lists of such a machine
    rm -rf sys proc
    mkdir proc
    for slot in 00:00.0 00:01.0 00:01.1 00:01.3 00:02.0 00:05.0 00:07.0; do
        sed -n "/^$slot\$/,/^\$/s/^0x/&/p" "$machines/old.sizes" | add_function pci0000:00 "0000:$slot"
    done
    cat >proc/ioports <<'END'
0000-0cf7 : PCI Bus 0000:00
  0000-001f : dma1
  01f0-01f7 : 0000:00:01.1
  0600-063f : 0000:00:01.3
    0600-0603 : ACPI PM1a_EVT_BLK
0cf8-0cff : PCI conf1
0d00-ffff : PCI Bus 0000:00
  afe0-afe3 : ACPI GPE0_BLK
END
    cat >proc/iomem <<'END'
000a0000-000bffff : PCI Bus 0000:00
20000000-febfffff : PCI Bus 0000:00
  b0000000-b00fffff : PCI MMCONFIG 0000 [bus 00-00]
END
    SYSFS=sys PROC=proc "$machines/told.sh" >whole 2>err
    told 'what is told of a stored machine' $?
    faults 'faults with what told.sh tells' 0 'yes
' "$machines/old.dump" "$machines/old.probe" --also whole
    settled 'settle with what told.sh tells' "$machines/old.dump" "$machines/old.probe" --also whole
    "$machines/told_lspci.sh" "$machines/old.dump" >whole
    faults 'faults with what told_lspci.sh tells' 0 'yes
' "$machines/old.dump" "$machines/old.probe" --also whole
    # a second controller in compatibility mode
    sed '/^00:02.0/,/^$/s/^00: \(.*\) 00 00 03 /00: \1 80 01 01 /' "$machines/old.dump" >two.dump
    "$machines/told_lspci.sh" two.dump >two
    faults 'faults with two IDE controllers' 1 '61 Clash bus 00 io 00000170 00:01.1 +1 00:02.0 +5
61 Clash bus 00 io 000001f0 00:01.1 +2 00:02.0 +6
61 Clash bus 00 io 00000376 00:01.1 +3 00:02.0 +7
61 Clash bus 00 io 000003f6 00:01.1 +4 00:02.0 +8
' two.dump "$machines/old.probe" --also two
fi

echo "$passed passed, $failed failed"
[ "$failed" -eq 0 ]
