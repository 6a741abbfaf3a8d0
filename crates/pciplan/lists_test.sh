#!/bin/sh
# Tests machines/lists.sh over files that stand for sysfs and proc, and `settle` with the words that it prints. A line is
# printed for each case; the status is 1 where one differs.
#
# Usage: lists_test.sh [PROGRAM], by default out/pciplan beside this file, which `rt ci` and `rt run` make.
set -u
export LC_ALL=C

here=$(CDPATH='' cd -- "$(dirname -- "$0")" && pwd) || exit 1
program=${1:-$here/out/pciplan}
case $program in
    /*) ;;
    *) program=$PWD/$program ;;
esac
machines=$here/../../machines
room=$(mktemp -d) || exit 1
trap 'rm -rf "$room"' EXIT
cd "$room" || exit 1

passed=0 failed=0

# told NAME STATUS: prints the case's line; STATUS says whether all was as wanted.
told() {
    if [ "$2" -eq 0 ]; then
        echo "ok: $1"
        passed=$((passed + 1))
    else
        echo "DIFFERS: $1"
        failed=$((failed + 1))
    fi
}

# add_function PATH NAME LAYOUT ROM: adds a function in the folder PATH of `devices`; its header layout is 0 or 1, its ROM is on
# where ROM is 1. Standard input has the lines of its BARs, and of its ROM as the seventh.
add_function() {
    mkdir -p "sys/devices/$1/$2" sys/bus/pci/devices
    ln -s "../../../devices/$1/$2" "sys/bus/pci/devices/$2"
    rom=48
    [ "$3" = 0 ] || rom=56
    awk -v layout="$3" -v rom=$rom -v on="$4" 'BEGIN {
        for (i = 0; i < 256; i++)
            printf "\\%03o", i == 14 ? layout : i == rom ? on : 0
    }' >bytes
    # shellcheck disable=SC2059
    printf "$(cat bytes)" >"sys/devices/$1/$2/config"
    awk '{ print } END { while (NR + n++ < 7) print "0x0 0x0 0x0" }' >"sys/devices/$1/$2/resource"
}

# machine: a machine of two host buses.
machine() {
    rm -rf sys proc
    mkdir proc
    add_function pci0000:00 0000:00:01.1 0 0 <<'EOF'
0x00000000000001f0 0x00000000000001f7 0x0000000000000110
0x00000000000003f6 0x00000000000003f6 0x0000000000000110
EOF
    add_function pci0000:00 0000:00:02.0 0 0 <<'EOF'
0x00000000fd000000 0x00000000fdffffff 0x0000000000042208
0x0 0x0 0x0
0x0 0x0 0x0
0x0 0x0 0x0
0x0 0x0 0x0
0x0 0x0 0x0
0x00000000000c0000 0x00000000000dffff 0x0000000000000212
EOF
    add_function pci0000:00 0000:00:03.0 0 0 <<'EOF'
0x00000000fe000000 0x00000000fe000fff 0x0000000000040200
0x0 0x0 0x0
0x0 0x0 0x0
0x0 0x0 0x0
0x0 0x0 0x0
0x0 0x0 0x0
0x00000000fe010000 0x00000000fe01ffff 0x0000000000046200
EOF
    add_function pci0000:00 0000:00:04.0 1 1 <<'EOF'
0x0 0x0 0x0
0x0 0x0 0x0
0x0 0x0 0x0
0x0 0x0 0x0
0x0 0x0 0x0
0x0 0x0 0x0
0x00000000000e0000 0x00000000000e07ff 0x0000000000046201
EOF
    add_function pci0000:00 0000:00:1f.3 0 0 <<'EOF'
0x0000000000000700 0x000000000000071f 0x0000000000040101
EOF
    add_function pci0000:00/0000:00:04.0 0000:01:00.0 0 0 <<'EOF'
0x00000000fe200000 0x00000000fe203fff 0x0000000000140204
0x0 0x0 0x0
0x0 0x0 0x0
0x0 0x0 0x0
0x0 0x0 0x0
0x0 0x0 0x0
0x00000000fe280000 0x00000000fe2fffff 0x0000000000046200
EOF
    add_function pci0000:00/0000:00:04.0 0000:01:10.0 0 0 <<'EOF'
0x00000000fe240000 0x00000000fe243fff 0x0000000000140204
EOF
    ln -s ../0000:01:00.0 sys/devices/pci0000:00/0000:00:04.0/0000:01:10.0/physfn
    add_function pci0000:40 0000:40:01.0 0 0 <<'EOF'
0x0000000080000000 0x00000000800fffff 0x0000000000040200
EOF
    cat >proc/ioports <<'EOF'
0000-0cf7 : PCI Bus 0000:00
  0000-001f : dma1
  01f0-01f7 : 0000:00:01.1
  03f6-03f6 : 0000:00:01.1
  0400-047f : pnp 00:03
    0400-0403 : ACPI PM1a_EVT_BLK
  0700-071f : 0000:00:1f.3
    0700-071f : i801_smbus
0cf8-0cff : PCI conf1
0d00-7fff : PCI Bus 0000:00
  2000-2fff : PCI Bus 0000:01
  5000-507f : ACPI GPE0_BLK
8000-ffff : PCI Bus 0000:40
EOF
    cat >proc/iomem <<'EOF'
00000000-00000fff : Reserved
000a0000-000bffff : PCI Bus 0000:00
000c0000-000fffff : PCI Bus 0000:00
  000c0000-000dffff : 0000:00:02.0
  000e0000-000e07ff : 0000:00:04.0
00100000-7fffffff : System RAM
80000000-8fffffff : PCI Bus 0000:40
  80000000-800fffff : 0000:40:01.0
    80000000-800fffff : nvme
c0000000-febfffff : PCI Bus 0000:00
  e0000000-efffffff : PCI MMCONFIG 0000 [bus 00-ff]
    e0000000-efffffff : Reserved
  fd000000-fdffffff : 0000:00:02.0
    fd000000-fd7fffff : efifb
  fe000000-fe000fff : 0000:00:03.0
  fe010000-fe01ffff : 0000:00:03.0
  fe200000-fe3fffff : PCI Bus 0000:01
    fe200000-fe203fff : 0000:01:00.0
    fe240000-fe27ffff : 0000:01:00.0
      fe240000-fe243fff : 0000:01:10.0
    fe280000-fe2fffff : 0000:01:00.0
fec00000-fec003ff : IOAPIC 0
100000000-47fffffff : System RAM
480000000-fffffffff : PCI Bus 0000:00
1000000000-1fffffffff : PCI Bus 0000:40
EOF
}

# lists NAME STATUS OUT ERR [DOMAIN]: compares what lists.sh prints.
lists() {
    name=$1 status=$2
    printf '%s' "$3" >out.wanted
    printf '%s' "$4" >err.wanted
    shift 4
    SYSFS=sys PROC=proc "$machines/lists.sh" "$@" >out 2>err
    [ $? -eq "$status" ] && cmp -s out out.wanted && cmp -s err err.wanted
    told "$name" $?
}

mem=00:e0000-e07ff,00:c0000000-dfffffff,00:f0000000-fe00ffff,00:fe020000-febfffff,40:80000000-8fffffff
pref=00:480000000-fffffffff,40:1000000000-1fffffffff
io=00:700-71f,00:1000-4fff,00:5080-7fff,40:8000-ffff
virtual='lists.sh: 0000:01:00.0 answers mem fe240000-fe27ffff, and no register shows it
'
machine
lists 'two host buses' 0 "--root 00,40 --io $io --mem $mem --pref $pref
" "$virtual"

echo '20000000000000-2fffffffffffff : PCI Bus 0000:40' >>proc/iomem
lists 'a range above 2^52' 0 "--root 00,40 --io $io --mem $mem --pref $pref
" "${virtual}lists.sh: left out 20000000000000-2fffffffffffff, which ends above 2^52
"

machine
grep -v 'PCI Bus' proc/ioports >ioports
mv ioports proc
lists 'no ports for PCI' 0 "--root 00,40 --io none --mem $mem --pref $pref
" "$virtual"

machine
sed -i '$d' proc/iomem
sed -i 's/^480000000.*/480000000-fffffffff : Reserved/' proc/iomem
lists 'no memory above 4 GB' 0 "--root 00,40 --io $io --mem $mem --pref none
" "$virtual"

# a range that crosses 4 GB, in which Linux calls a part reserved that holds a BAR
machine
rm -r sys/bus/pci/devices/0000:40:01.0
cat >proc/iomem <<'EOF'
c0000000-1ffffffff : PCI Bus 0000:00
  fd000000-feffffff : Reserved
    fd000000-fdffffff : 0000:00:02.0
EOF
lists 'one host bus, a range across 4 GB, a BAR in what is reserved' 0 \
    '--root 00 --io 700-71f,1000-4fff,5080-7fff --mem c0000000-fdffffff,ff000000-ffffffff --pref 100000000-1ffffffff
' ''

machine
sed -i 's/^\( *\)[0-9a-f]*-[0-9a-f]* /\100000000-00000000 /' proc/iomem
lists 'not root' 1 '' 'lists.sh: proc/iomem tells no addresses; root reads them
'
machine
rm proc/ioports
lists 'no file of ports' 1 '' 'lists.sh: proc/ioports tells no addresses; root reads them
'
machine
lists 'no such domain' 1 '' "lists.sh: no domain 0001 in sys/bus/pci/devices
" 0001
lists 'two words' 1 '' 'lists.sh: usage: lists.sh [DOMAIN]
' 0000 0001
mkdir -p sys/devices/other/0000:7f:00.0
ln -s ../../../devices/other/0000:7f:00.0 sys/bus/pci/devices/0000:7f:00.0
lists 'a function with no host bus' 1 '' 'lists.sh: 0000:7f:00.0: no host bus pci0000:.. is in its path
'

# What stands on a sound machine is in the lists, so settling with them writes nothing.
rm -rf sys proc
mkdir proc
for slot in 00:1f.2 00:1f.3 40:00.0 40:03.0 45:00.0; do
    layout=0 bus=${slot%%:*}
    case $slot in 40:*) layout=1 ;; 45:*) bus=40/0000:40:03.0 ;; esac
    sed -n "/^$slot\$/,/^\$/s/^0x/&/p" "$machines/roots.sizes" | add_function "pci0000:$bus" "0000:$slot" $layout 0
done
cat >proc/ioports <<'EOF'
0000-0cf7 : PCI Bus 0000:00
  0060-0060 : keyboard
  0600-067f : 0000:00:1f.0
  0700-073f : 0000:00:1f.3
0d00-bfff : PCI Bus 0000:00
c000-cfff : PCI Bus 0000:40
  c000-cfff : PCI Bus 0000:45
    c000-c01f : 0000:45:00.0
d000-ffff : PCI Bus 0000:00
  d040-d05f : 0000:00:1f.2
EOF
cat >proc/iomem <<'EOF'
c0000000-fddfffff : PCI Bus 0000:00
fde00000-fe3fffff : PCI Bus 0000:40
  fde00000-fe1fffff : PCI Bus 0000:41
  fe200000-fe3fffff : PCI Bus 0000:45
fe400000-fe400fff : PCI Bus 0000:00
  fe400000-fe400fff : 0000:00:1f.2
fe401000-febfffff : PCI Bus 0000:40
  fe401000-fe401fff : 0000:40:00.0
  fe402000-fe402fff : 0000:40:03.0
  fe600000-fe9fffff : PCI Bus 0000:41
  fea00000-febfffff : PCI Bus 0000:45
EOF
words=$(SYSFS=sys PROC=proc "$machines/lists.sh")
# shellcheck disable=SC2086
"$program" settle "$machines/roots.dump" "$machines/roots.probe" $words --writes >out 2>err
[ "$words" = '--root 00,40 --io 00:700-73f,00:1000-bfff,00:d000-ffff,40:c000-cfff --mem 00:c0000000-fddfffff,00:fe400000-fe400fff,40:fde00000-fe3fffff,40:fe401000-febfffff --pref none' ] &&
    [ ! -s out ] && [ ! -s err ]
told 'settle with the words writes nothing on a sound machine' $?

echo "$passed passed, $failed failed"
[ "$failed" -eq 0 ]
