#!/bin/sh
# Repairs machines for real: starts Linux in an emulator, with something wrong in its PCI configuration, and repairs it
# there with machines/lists.sh, apply.sh and rescan.sh. machines/live_guest.sh has what is typed. Prints a line for each
# case, and `N passed, M failed`; the status is 1 where one differs. Where something is lacking it says what, and a machine
# is skipped; the status is 77 where all are. It takes a minute for each machine, and isn't part of the gate.
#
#   narrow    a bridge window too small for one of two devices behind it; rescan.sh
#   roots     the same behind a second host bus
#   hand      the same, where each write is a command of setpci
#   plugged   a drive that is plugged into a switch, and for whose BAR Linux has no place; rescan.sh
#   made      a device that is plugged in behind a bridge with a window too small, beside a card with a driver; apply.sh
#   off       the same; rescan.sh
#   virtual   a drive with two virtual functions: what capture.sh and lists.sh say of them
#   kept      a device that is plugged in beside virtual functions, and for whose BAR Linux has no place; --also, apply.sh
#   taken     the same without --also: the device is put onto a virtual function; apply.sh
#   io_clash  an I/O window that EDK2 leaves over two I/O BARs; apply.sh
#
# Usage: live_test.sh [PROGRAM], by default crates/pciplan/out/pciplan. From the environment:
#   KERNEL    Linux for x86-64, with CONFIG_DEVMEM; if not said, the newest /boot/vmlinuz-*
#   MODULES   the folder of its modules (.ko, not compressed); if not said, the one of /lib/modules for KERNEL
#   BUSYBOX   a busybox with devmem, insmod and dd; if not said, the one in PATH
#   QEMU      the emulator; if not said, qemu-system-x86_64
#   OVMF      EDK2's firmware for `io_clash`; if not said, /usr/share/ovmf/OVMF.fd
#   MACHINES  which machines; if not said, all
#   TOOLS     `host`: the scripts run with this machine's sh, awk, dd and so on, not with those of busybox
#   LOGS      a folder in which what each guest printed is kept as NAME.log
set -u
export LC_ALL=C

here=$(CDPATH='' cd -- "$(dirname -- "$0")" && pwd) || exit 1
program=${1:-$here/../crates/pciplan/out/pciplan}
kernel=${KERNEL:-$(find /boot -name 'vmlinuz-*' 2>/dev/null | sort -V | tail -n 1)}
modules=${MODULES:-/lib/modules/${kernel##*/vmlinuz-}}
busybox=${BUSYBOX:-$(command -v busybox)}
qemu=${QEMU:-qemu-system-x86_64}
ovmf=${OVMF:-/usr/share/ovmf/OVMF.fd}
room=$(mktemp -d) || exit 1
trap 'rm -rf "$room"' EXIT
tree=$room/tree
logs=${LOGS:-$room}

passed=0 failed=0

# lacking WHAT: says what isn't here.
lacking() {
    echo "skipped: $1"
    exit 77
}

# program_of FILE NAME: copies a program of this machine into the tree's bin, with the libraries that it is linked with.
program_of() {
    rm -f "$tree/bin/$2"
    cp -L "$1" "$tree/bin/$2" && chmod 755 "$tree/bin/$2"
    for file in $(ldd "$1" 2>/dev/null | sed -n 's|^[^/]*\(/[^ ]*\) (.*|\1|p'); do
        mkdir -p "$tree/${file%/*}"
        cp -L "$file" "$tree/$file"
    done
}

# module NAME LIST: copies a module of the kernel after those that it needs, and adds them to a list; the status is 1 where it
# isn't there.
module() {
    pattern=$(echo "$1" | sed 's/[-_]/[-_]/g').ko
    file=$(find "$modules" -name "$pattern" | head -n 1)
    [ -n "$file" ] || return
    set -- "$file" "$2"
    ! grep -qsx "${file##*/}" "$2" || return 0
    for needed in $(tr '\0' '\n' <"$1" | sed -n 's/^depends=//p' | tr , ' '); do
        module "$needed" "$2"
    done
    cp "$1" "$tree/modules"
    echo "${1##*/}" >>"$2"
}

# initrd: makes the guest's files.
initrd() {
    mkdir -p "$tree/bin" "$tree/proc" "$tree/sys" "$tree/dev" "$tree/tmp" "$tree/root/machines" "$tree/modules"
    program_of "$busybox" busybox
    for name in $("$busybox" --list); do
        [ "$name" = busybox ] || ln -s busybox "$tree/bin/$name"
    done
    if [ "${TOOLS-}" = host ]; then
        for name in sh awk cat cp cut dd dirname dmesg grep head mkdir mktemp od rm sed sort tail tr uniq; do
            program_of "$(command -v $name)" $name
        done
    fi
    for name in lspci setpci nvme; do
        ! command -v $name >/dev/null || program_of "$(command -v $name)" $name
    done
    program_of "$program" pciplan
    cp "$here"/*.sh "$tree/root/machines"
    for name in e1000 e1000e nvme ahci i2c-i801; do
        module $name "$tree/modules/$name"
    done
    cat >"$tree/init" <<'INIT'
#!/bin/sh
export PATH=/bin
mount -t proc proc /proc
mount -t sysfs sys /sys
mount -t devtmpfs dev /dev
exec >/dev/ttyS0 2>&1 </dev/null
echo
echo '== begin'
/root/machines/live_guest.sh "$(sed 's/.*machine=\([a-z_]*\).*/\1/' /proc/cmdline)"
echo '== end'
poweroff -f
INIT
    chmod 755 "$tree/init"
    (cd "$tree" && find . | cpio -o -H newc 2>/dev/null | gzip -1) >"$room/initrd"
}

# asked: what the guest asks for in its log, until the emulator ends.
asked() {
    sent=0
    while [ -e "$room/runs" ]; do
        tr -d '\r' <"$room/log" | sed -n 's/^monitor: //p' | tail -n "+$((sent + 1))" >"$room/asked"
        cat "$room/asked"
        sent=$((sent + $(wc -l <"$room/asked")))
        sleep 1
    done
}

# guest NAME OPTIONS WORD..: starts the emulator with the words and the kernel with the options, and has the machine NAME
# repaired. Its cases are printed, and counted.
guest() {
    name=$1 options=$2
    shift 2
    : >"$room/log"
    : >"$room/runs"
    asked | {
        timeout 900 "$qemu" -accel tcg -cpu max -smp 1 -m 512 -nodefaults -display none -no-reboot -kernel "$kernel" \
            -initrd "$room/initrd" -append "console=ttyS0 quiet loglevel=3 machine=$name $options" \
            -serial "file:$room/log" -monitor stdio "$@" >"$room/monitor" 2>&1
        rm "$room/runs"
    }
    tr -d '\r' <"$room/log" | sed -n '/^== begin$/,$p' >"$room/cases"
    [ "$logs" = "$room" ] || cp "$room/cases" "$logs/$name.log"
    grep -q '^== end$' "$room/cases" || echo "DIFFERS: the guest doesn't come to its end" >>"$room/cases"
    sed -n "s/^\(ok\|DIFFERS\): /\1: $name: /p" "$room/cases"
    passed=$((passed + $(grep -c '^ok: ' "$room/cases")))
    wrong=$(grep -c '^DIFFERS: ' "$room/cases")
    failed=$((failed + wrong))
    [ "$wrong" -eq 0 ] || { cat "$room/cases" && grep -v '^(qemu)' "$room/monitor"; }
}

# has MACHINE MODULE..: whether the modules are there that a machine loads.
has() {
    for name in "$@"; do
        [ "$name" = "$1" ] || [ -e "$tree/modules/$name" ] || { echo "skipped: $1: no module $name in $modules" && return 1; }
    done
}

# machine NAME: starts the guest of a machine.
machine() {
    case $1 in
        narrow | hand)
            [ "$1" = narrow ] || command -v setpci >/dev/null || { echo 'skipped: hand: no setpci' && return; }
            guest "$1" '' -M q35 -device pcie-root-port,id=rp,chassis=1,addr=4 -device pcie-pci-bridge,id=br,bus=rp \
                -device edu,bus=br,addr=1 -device edu,bus=br,addr=2
            ;;
        roots)
            guest roots '' -M q35 -device pxb-pcie,id=pxb,bus_nr=64,addr=3 -device pcie-root-port,id=rp,bus=pxb,chassis=1 \
                -device pcie-pci-bridge,id=br,bus=rp -device edu,bus=br,addr=1 -device edu,bus=br,addr=2
            ;;
        plugged)
            has plugged e1000e nvme || return
            printf 'live_test.sh\n' >"$room/disk"
            dd if=/dev/zero of="$room/disk" bs=1M count=0 seek=16 2>/dev/null
            guest plugged '' -M q35 -device pcie-root-port,id=rp,chassis=1,addr=4 -device x3130-upstream,id=up,bus=rp \
                -device xio3130-downstream,id=dn1,bus=up,chassis=2 -device xio3130-downstream,id=dn2,bus=up,chassis=3 \
                -device e1000e,bus=dn1 -drive "if=none,id=disk,format=raw,file=$room/disk"
            ;;
        virtual)
            has virtual nvme || return
            guest virtual '' -M q35 -device pcie-root-port,id=rp,chassis=1,addr=4 -device nvme-subsys,id=subsystem \
                -device nvme,bus=rp,serial=1,subsys=subsystem,sriov_max_vfs=2,sriov_vq_flexible=4,sriov_vi_flexible=2
            ;;
        kept | taken)
            has "$1" nvme || return
            command -v nvme >/dev/null || { echo "skipped: $1: no nvme" && return; }
            # With so many queues the BARs of the drive and of its virtual functions have 512 KB each. QEMU 7.2 puts them
            # where they belong as long as all have one size.
            guest "$1" '' -M q35 -device pcie-root-port,id=rp,chassis=1,addr=4 -device x3130-upstream,id=up,bus=rp \
                -device nvme-subsys,id=subsystem -device nvme,bus=up,serial=1,subsys=subsystem,sriov_max_vfs=2,\
max_ioqpairs=63002,msix_qsize=8,sriov_vq_flexible=63000,sriov_vi_flexible=4
            ;;
        made | off)
            has "$1" e1000 || return
            guest "$1" '' -M pc -device pci-bridge,id=br,chassis_nr=1,addr=5 -device e1000,bus=br,addr=1
            ;;
        io_clash)
            has io_clash ahci i2c-i801 || return
            [ -r "$ovmf" ] || { echo "skipped: io_clash: no firmware $ovmf" && return; }
            # Linux would move both BARs as it starts.
            guest io_clash initcall_blacklist=pcibios_assign_resources -M q35 -bios "$ovmf" \
                -device pcie-root-port,chassis=1,addr=3 -device pcie-root-port,chassis=2,addr=4
            ;;
        *) lacking "no machine $1" ;;
    esac
}

[ -x "$program" ] || lacking "no program $program"
[ -r "$kernel" ] || lacking "no kernel ${kernel:-in /boot}"
[ -x "$busybox" ] || lacking 'no busybox'
for name in "$qemu" cpio ldd; do
    command -v "$name" >/dev/null || lacking "no $name"
done
initrd
for name in ${MACHINES:-narrow roots hand plugged made off virtual kept taken io_clash}; do
    machine "$name"
done
echo "$passed passed, $failed failed"
[ $((passed + failed)) -gt 0 ] || exit 77
[ "$failed" -eq 0 ]
