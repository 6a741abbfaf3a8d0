#!/bin/sh
# Runs in a guest that machines/live_test.sh starts: what an administrator types on one machine, and a line for each case.
# What was typed begins with `$`, and what it printed follows. A line `monitor: WORDS` asks the host to give WORDS to the
# monitor of the emulator.
#
# Usage: live_guest.sh MACHINE, as root. machines/live_test.sh says which machines there are, and what is in them.
# Lines that are typed stand in single quotes, as the shell gets them.
# shellcheck disable=SC2016
set -u
export LC_ALL=C

devices=/sys/bus/pci/devices
root='' words='' also=''

# told NAME STATUS: prints the case's line; STATUS says whether all was as wanted.
told() {
    if [ "$2" -eq 0 ]; then
        echo "ok: $1"
    else
        echo "DIFFERS: $1"
    fi
}

# typed LINE: prints a line and runs it. What it prints on standard output is kept in the file `out`. The status is its own.
typed() {
    echo "\$ $1"
    eval "$1" >out
    status=$?
    cat out
    [ $status -eq 0 ] || echo "(status $status)"
    return $status
}

# ends STATUS LINE: types a line, and compares its status.
ends() {
    typed "$2"
    [ $? -eq "$1" ]
}

# poke SLOT OFFSET VALUE: writes two bytes, a value of four digits, into configuration space. `setpci` is what one types.
poke() {
    echo "\$ setpci -s $1 $2.w=$3"
    low=$(printf '\\%03o\\%03o' "0x${3#??}" "0x${3%??}")
    # shellcheck disable=SC2059
    printf "$low" | dd of="$devices/0000:$1/config" bs=2 count=1 seek=$((0x$2 / 2)) conv=notrunc 2>/dev/null
}

# bar SLOT OFFSET: the address that a BAR of 32 bits shows, as `0x` and eight digits; a BAR of I/O shows bit 0, too.
bar() {
    od -An -v -tx1 -j $((0x$2)) -N4 "$devices/0000:$1/config" | awk '{ print "0x" $4 $3 $2 $1 }'
}

# plug SLOT WORDS [rescan]: asks for a device, and waits until Linux has found it. With `rescan` Linux looks for it, as its
# bus tells nothing.
plug() {
    echo "monitor: device_add $2"
    tries=0
    until [ -e "$devices/0000:$1" ] || [ $tries -eq 60 ]; do
        sleep 1
        [ $# -eq 2 ] || echo 1 >/sys/bus/pci/rescan
        tries=$((tries + 1))
    done
    sleep 2
    [ -e "$devices/0000:$1" ]
    told "$1 is plugged in" $?
}

# captured: makes dump.txt, sizes.txt and probe.txt.
captured() {
    typed 'root=$(machines/capture.sh); echo "$root"' && typed 'pciplan probe dump.txt sizes.txt > probe.txt'
    told 'dump and probe are captured' $?
}

# unseen SLOT BAR: whether lspci, where it is there, prints no line for a BAR.
unseen() {
    [ -x /bin/lspci ] || return
    typed "lspci -vv -s $1 | grep -e Control -e Region"
    ! grep -q "Region $2:" out
    told "lspci has no line for BAR $2 of $1" $?
}

# faulty NAME LINE..: whether `faults --why` prints each line, of which each is a pattern.
faulty() {
    name=$1
    shift
    typed "pciplan faults dump.txt probe.txt $root --why$also"
    for line; do
        grep -q "^$line" out || break
        shift
    done
    told "$name" $#
}

# apart BRIDGE: gives the memory window of a bridge a range of its own in the words, so that it moves rather than grow.
apart() {
    window=$(bar "$1" 20)
    base=${window#0x????}
    first=$((0x${base}0000)) last=$((${window%????}0000 + 0xfffff))
    mem=${words#*--mem }
    for range in $(echo "${mem%% *}" | tr , ' '); do
        from=0x${range%-*} to=0x${range#*-}
        if [ $((from < first && last < to)) -eq 1 ]; then
            parts=$(printf '%x-%x,%x-%x,%x-%x' $((from)) $((first - 1)) $first $last $((last + 1)) $((to)))
            words=$(echo "$words" | sed "s/$range/$parts/")
        fi
    done
    echo "$words"
}

# settled [BRIDGE]: makes the writes of `settle`, with the lists of this machine; a window of BRIDGE doesn't grow.
settled() {
    typed 'words=$(machines/lists.sh); echo "$words"' && { [ $# -eq 0 ] || apart "$1"; } &&
        typed "pciplan settle dump.txt probe.txt \$words$also --writes > writes.txt; cat writes.txt" && [ -s writes.txt ]
    told 'settle has writes' $?
}

# edu SLOT..: whether each edu device answers: register 0 identifies it, and register 4 inverts what is written to it.
edu() {
    for slot; do
        at=$(bar "$slot" 10)
        typed "devmem $at 32"
        grep -q '^0x010000ED$' out || return
        devmem $((at + 4)) 32 0x12345678
        [ "$(devmem $((at + 4)) 32)" = 0xEDCBA987 ] || return
    done
}

# smbus SLOT: whether the SMBus controller answers: the register of the address, at 04h in its I/O BAR, keeps a value.
smbus() {
    at=$(($(bar "$1" 20) - 1 + 4))
    printf '$ %s\n' "printf Z | dd of=/dev/port bs=1 count=1 seek=$at; dd if=/dev/port bs=1 count=1 skip=$at"
    printf Z | dd of=/dev/port bs=1 count=1 seek=$at conv=notrunc 2>/dev/null
    dd if=/dev/port bs=1 count=1 skip=$at 2>/dev/null | tee out
    echo
    [ "$(cat out)" = Z ]
}

# loaded MODULE: loads a module after those that it needs.
loaded() {
    while read -r file; do
        insmod "/modules/$file"
    done <"/modules/$1"
}

# has_driver SLOT DRIVER: whether the function has the driver.
has_driver() {
    tries=0
    until [ -e "$devices/0000:$1/driver" ] || [ $tries -eq 20 ]; do
        sleep 1
        tries=$((tries + 1))
    done
    typed "readlink $devices/0000:$1/driver"
    [ "$(sed 's|.*/||' out)" = "$2" ]
}

# registers: the first 64 bytes of all functions.
registers() {
    for folder in "$devices"/*; do
        echo "${folder##*/} $(od -An -v -tx1 -N64 "$folder/config")"
    done
}

# rescanned: lets Linux place what the writes name.
rescanned() {
    ends 0 'machines/rescan.sh dump.txt probe.txt writes.txt' && grep -q '^nothing was removed: say --yes$' out
    told 'rescan.sh prints what it would remove' $?
    ends 0 'machines/rescan.sh --yes dump.txt probe.txt writes.txt' && grep -q '^yes$' out
    told 'rescan.sh removes it, and all is reached' $?
}

# as_settled: whether the machine has the registers of the settled dump, and all of them are reached.
as_settled() {
    # shellcheck disable=SC2086
    pciplan settle dump.txt probe.txt $words$also >settled.txt
    mkdir -p after
    (cd after && ../machines/capture.sh >words 2>err) && cmp settled.txt after/dump.txt
    told 'the registers are those of the settled dump' $?
    typed "pciplan faults after/dump.txt probe.txt --why$also" && [ "$(cat out)" = yes ]
    told 'all is on and reached' $?
}

# left BRIDGE DEVICE OTHER: the memory window of the bridge above two edu devices is left too small: it ends below the BAR
# of the second.
left() {
    edu "$2" "$3"
    told 'both devices answer' $?
    low=$(bar "$2" 10)
    poke "$1" 22 "$(echo "$low" | cut -c 3-6)"
    ! edu "$3"
    told 'the second answers no more' $?
    captured
    faulty 'faults names its BAR' "60 Unreached $3 10 mem .* bridge $1\$"
    settled
}

# Such a window behind the host bus 00, and behind the host bus 40. Linux places both devices anew. At last the same once
# more: in a kernel that is locked down no write is made.
narrow() {
    left 01:00.0 02:01.0 02:02.0
    rescanned
    edu 02:01.0 02:02.0
    told 'both devices answer again' $?
    left 01:00.0 02:01.0 02:02.0
    registers >before
    typed 'mount -t securityfs none /sys/kernel/security; echo integrity > /sys/kernel/security/lockdown'
    ends 2 'machines/apply.sh --yes dump.txt writes.txt' 2>err &&
        grep '^apply.sh: stopped after 0 of [0-9]* writes: .* failed$' err && registers | cmp -s - before
    told 'under lockdown the first write fails' $?
}

roots() {
    left 41:00.0 42:01.0 42:02.0
    rescanned
    edu 42:01.0 42:02.0
    told 'both devices answer again' $?
}

# The same as `narrow`. The writes are made by setpci, as docs/NOT_REACHED.md has it.
hand() {
    left 01:00.0 02:01.0 02:02.0
    typed "sed 's/\(.*\) \(..\)\.4 /setpci -s \1 \2.L=/; s/\(.*\) \(..\)\.2 /setpci -s \1 \2.W=/' writes.txt | tee commands.txt"
    ends 0 'sh -e commands.txt'
    told 'setpci makes the writes' $?
    edu 02:01.0 02:02.0
    told 'both devices answer again' $?
    as_settled
}

# An NVMe drive with a BAR of 64 MB is plugged into a switch whose other port is in use: Linux has no place for it.
plugged() {
    loaded e1000e
    loaded nvme
    plug 04:00.0 nvme,drive=disk,serial=1,cmb_size_mb=64,bus=dn2
    typed "dmesg | grep '04:00.0: BAR'"
    unseen 04:00.0 2
    captured
    faulty 'faults names its BAR' '60 Unreached 04:00.0 18 mem 0000000000000000 bridge '
    settled
    rescanned
    has_driver 04:00.0 nvme && has_driver 03:00.0 e1000e
    told 'both drivers are bound again' $?
    ends 0 'dd if=/dev/nvme0n1 bs=13 count=1' && [ "$(cat out)" = 'live_test.sh' ]
    told 'the drive is read' $?
    typed 'mkswap /dev/nvme0n1 && swapon /dev/nvme0n1'
    typed 'ip addr add 10.0.2.15/24 dev eth0; ip link set eth0 up; ip route add default via 10.0.2.2'
    ends 1 'machines/rescan.sh --yes dump.txt probe.txt writes.txt' && grep -q '^  used: swap$' out &&
        grep -q '^  used: the interface eth0 of the default route$' out && [ -e "$devices/0000:04:00.0/driver" ]
    told 'what is in use is not removed' $?
}

# beside: two edu devices are plugged in behind a bridge, whose window has room for one beside a network card with a driver.
beside() {
    loaded e1000
    plug 01:02.0 edu,bus=br,addr=2
    plug 01:03.0 edu,bus=br,addr=3
    typed "dmesg | grep '01:03.0: BAR'"
    unseen 01:03.0 0
    captured
    faulty 'faults lists its BAR, which is off and has no place' 'off 01:03.0 10 bar mem 0000000000000000-00000000000fffff 1M$'
    settled 00:05.0
}

# The window moves as it is made larger, and what is behind it, too. Linux takes that over.
made() {
    beside
    registers >before
    ends 1 'machines/apply.sh --yes dump.txt writes.txt' && registers | cmp -s - before && has_driver 01:01.0 e1000
    told 'apply.sh writes nothing where a driver is bound' $?
    ends 1 'machines/apply.sh --yes --unbind dump.txt writes.txt' && grep -q '^unbound 01:01.0 e1000$' out &&
        grep -v 01:01.0 before >others && registers | grep -v 01:01.0 | cmp -s - others
    told 'the driver changes Command as it is unbound: nothing is written' $?
    captured
    settled 00:05.0
    ends 0 'machines/apply.sh dump.txt writes.txt' && cmp -s out writes.txt
    told 'apply.sh prints the writes' $?
    ends 0 'machines/apply.sh --yes dump.txt writes.txt' && cmp -s out writes.txt
    told 'apply.sh makes them' $?
    edu 01:02.0 01:03.0
    told 'both devices answer' $?
    as_settled
    typed "echo 1 > $devices/0000:00:05.0/remove; echo 1 > /sys/bus/pci/rescan"
    has_driver 01:01.0 e1000 && edu 01:02.0 01:03.0
    told 'Linux takes them over' $?
    captured
    faulty 'and all is reached' 'yes$'
}

# The same devices. Linux places them anew; no driver switches them on, but a file of sysfs does.
off() {
    beside
    typed "echo 1 > $devices/0000:01:03.0/enable" && [ "$(od -An -tx1 -j4 -N1 "$devices/0000:01:03.0/config")" = ' 00' ]
    told 'the second stays off when it is switched on' $?
    rescanned
    grep -q '^faults before: 1, now: 0$' out
    told 'its BAR counts as a fault before' $?
    typed "for slot in 02 03; do echo 1 > $devices/0000:01:\$slot.0/enable; done" && edu 01:02.0 01:03.0
    told 'both are switched on, and answer' $?
    has_driver 01:01.0 e1000
    told 'the card has its driver again' $?
}

# An NVMe drive has two virtual functions (SR-IOV), whose addresses no register of theirs shows.
virtual() {
    loaded nvme
    typed "echo 2 > $devices/0000:01:00.0/sriov_numvfs; ls $devices"
    [ -e "$devices/0000:01:00.1/physfn" ] && [ -e "$devices/0000:01:00.2/physfn" ]
    told 'the drive has two virtual functions' $?
    captured 2>err
    cat err
    [ "$(grep -c 'left out 0000:01:00.[12], a virtual function$' err)" -eq 2 ] &&
        grep -q 'virtual functions of 0000:01:00.0 decode mem [0-9a-f]*-[0-9a-f]*$' err && ! grep -q '^01:00.[12]' dump.txt
    told 'capture.sh leaves them out, and names their addresses' $?
    typed 'machines/lists.sh' 2>err
    cat err
    grep -q '^lists.sh: 0000:01:00.[012] answers mem .*, and no register shows it$' err
    told 'lists.sh names their addresses' $?
}

# version ADDRESS: whether an NVMe controller answers there: its register 08h has the version, 1.4.
version() {
    typed "devmem $(printf '0x%08x' $(($1 + 8))) 32"
    [ "$(cat out)" = 0x00010400 ]
}

# online: brings two virtual functions of an NVMe drive online. `first` and `second` are their addresses.
online() {
    loaded nvme
    drive=$devices/0000:02:00.0
    typed "echo 0 > $drive/sriov_drivers_autoprobe; echo 2 > $drive/sriov_numvfs; echo 1 > $drive/sriov_drivers_autoprobe"
    # Each gets an interrupt and two queues first.
    for controller in 1 2; do
        typed "nvme virt-mgmt /dev/nvme0 -c $controller -r 1 -a 8 -n 1"
        typed "nvme virt-mgmt /dev/nvme0 -c $controller -r 0 -a 8 -n 2"
        typed "nvme virt-mgmt /dev/nvme0 -c $controller -r 0 -a 9 -n 0"
    done
    first=$(sed -n '1s/ .*//p' "$devices/0000:02:00.1/resource")
    second=$(sed -n '1s/ .*//p' "$devices/0000:02:00.2/resource")
}

# filled: a device is plugged in beside the drive. Linux has no place for it, as the virtual functions take the room.
filled() {
    plug 02:01.0 edu,bus=up,addr=1 rescan
    typed "dmesg | grep '02:01.0: BAR'"
    unseen 02:01.0 0
    captured
    typed 'machines/told.sh > told.txt; cat told.txt'
    grep -q "^02:00.0 mem ${first#0x}-[0-9a-f]* always vf0\$" told.txt
    told 'told.sh tells where they answer' $?
    faulty 'faults lists its BAR, which is off and has no place' 'off 02:01.0 10 bar mem 0000000000000000-00000000000fffff 1M$'
    settled
    typed 'pciplan settle dump.txt probe.txt $words > settled.txt'
    typed 'pciplan faults settled.txt probe.txt --also told.txt'
    grep -q "^61 Clash bus 02 mem ${second#0x} 02:00.0 +[0-9]* 02:01.0 10\$" out
    told 'without --also it is put onto the second virtual function' $?
}

# asks NAME LINE: types a line again and again while the file `asking` is there, and keeps each status in the file NAME.
asks() {
    while [ -e asking ]; do
        eval "$2" >/dev/null 2>&1
        echo $? >>"$1"
    done
}

# answered NAME: whether each status of such a file is 0.
answered() {
    echo "$1: asked $(wc -l <"$1") times, answered $(grep -c '^0$' "$1") times"
    [ -s "$1" ] && ! grep -qv '^0$' "$1"
}

# The first virtual function has a driver, and the second has none. Both are asked while the writes are made. Linux isn't
# told of the device's address.
kept() {
    online
    typed "echo 0000:02:00.1 > /sys/bus/pci/drivers/nvme/bind; echo 1 > $devices/0000:02:00.2/enable"
    has_driver 02:00.1 nvme && typed "nvme id-ctrl /dev/nvme1 | grep cntlid" && grep -q ': 0x1$' out && version "$second"
    told 'both virtual functions answer' $?
    filled
    also=' --also told.txt'
    settled
    : >asking
    asks 02:00.1 "nvme id-ctrl /dev/nvme1 | grep '^cntlid *: 0x1\$'" &
    asks 02:00.2 "devmem $(printf '0x%08x' $((second + 8))) 32 | grep '^0x00010400\$'" &
    ends 0 'machines/apply.sh --yes dump.txt writes.txt' && cmp -s out writes.txt
    told 'apply.sh makes the writes' $?
    rm asking
    wait
    answered 02:00.1 && answered 02:00.2
    told 'both virtual functions answered all the while' $?
    edu 02:01.0
    told 'the device answers' $?
    as_settled
    typed 'grep 0000:02: /proc/iomem' && ! grep -q 02:01.0 out
    told 'Linux has no line for it' $?
}

# The same, settled without what is told. Neither virtual function has a driver.
taken() {
    online
    typed "for slot in 02:00.1 02:00.2; do echo 1 > $devices/0000:\$slot/enable; done"
    version "$first" && version "$second"
    told 'both virtual functions answer' $?
    filled
    ends 0 'machines/apply.sh --yes dump.txt writes.txt' && cmp -s out writes.txt
    told 'apply.sh makes the writes' $?
    edu 02:01.0
    told 'the device answers' $?
    version "$first" && ! version "$second"
    told 'the first virtual function answers, and the second does no more' $?
}

# EDK2 leaves an I/O window of a root port over two I/O BARs of the root bus.
io_clash() {
    typed "dmesg | grep 'claim'"
    captured
    faulty 'faults names both clashes' '61 Clash bus 00 io 00007200 ' '61 Clash bus 00 io 00007240 '
    settled
    ends 0 'machines/apply.sh --yes dump.txt writes.txt' && cmp -s out writes.txt
    told 'apply.sh makes the writes' $?
    smbus 00:1f.3
    told 'the SMBus controller answers' $?
    as_settled
    typed "for slot in 1f.2 1f.3; do echo 1 > $devices/0000:00:\$slot/remove; done; echo 1 > /sys/bus/pci/rescan"
    typed "grep '0000:00:1f' /proc/ioports"
    loaded ahci
    loaded i2c-i801
    has_driver 00:1f.2 ahci && has_driver 00:1f.3 i801_smbus
    told 'Linux takes them over, and both drivers are bound' $?
    captured
    faulty 'and all is reached' 'yes$'
}

cd /root || exit 1
"$1"
