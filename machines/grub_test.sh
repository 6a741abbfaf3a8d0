#!/bin/sh
# Repairs machines under emulation before any kernel: starts GRUB in each, lets GRUB print all registers and sizes, and has
# `settle --writes=grub` make the script that GRUB then runs. Prints a line for each case, and `N passed, M failed`; the
# status is 1 where one differs. Where something is lacking it says what, and a machine is skipped; the status is 77 where
# both are. It takes three minutes, and isn't part of the gate.
#
#   closed    GRUB of a BIOS. The memory window of the bridge over a network card is closed at each start, as a firmware
#             might leave it
#   io_clash  GRUB of a UEFI firmware. EDK2 leaves the I/O window of a root port over two I/O BARs
#
# Usage: grub_test.sh [PROGRAM], by default crates/pciplan/out/pciplan. From the environment:
#   QEMU      the emulator; if not said, qemu-system-x86_64
#   FIRMWARE  folders with its files, as words of the emulator, if it doesn't find them: `-L FOLDER`
#   OVMF      EDK2's firmware for `io_clash`; if not said, /usr/share/ovmf/OVMF.fd
#   GRUB      the folder with GRUB's modules for each kind of machine; if not said, /usr/lib/grub
#   RESCUE, STANDALONE  what makes a disk, and what a UEFI firmware starts; if not said, grub-mkrescue (it needs xorriso
#             and mtools) and grub-mkstandalone
#   MACHINES  which machines; if not said, both
#   LOGS      a folder in which what GRUB printed is kept as MACHINE_NAME.log
set -u
export LC_ALL=C

here=$(CDPATH='' cd -- "$(dirname -- "$0")" && pwd) || exit 1
program=${1:-$here/../crates/pciplan/out/pciplan}
qemu=${QEMU:-qemu-system-x86_64}
rescue=${RESCUE:-grub-mkrescue}
standalone=${STANDALONE:-grub-mkstandalone}
grub=${GRUB:-/usr/lib/grub}
ovmf=${OVMF:-/usr/share/ovmf/OVMF.fd}
room=$(mktemp -d) || exit 1
trap 'rm -rf "$room"' EXIT
logs=${LOGS:-$room}

passed=0 failed=0

# told NAME STATUS: prints the case's line; STATUS says whether all was as wanted.
told() {
    if [ "$2" -eq 0 ]; then
        echo "ok: $machine: $1"
        passed=$((passed + 1))
    else
        echo "DIFFERS: $machine: $1"
        failed=$((failed + 1))
    fi
}

# lacking WHAT: says what isn't here.
lacking() {
    echo "skipped: $1"
    exit 77
}

# machine_closed: starts a BIOS with a disk of the folder `disk`.
machine_closed() {
    "$rescue" -d "$grub/i386-pc" -o disk.iso disk >made.log 2>&1 || lacking "no disk: $(tail -n 1 made.log)"
    # shellcheck disable=SC2086
    timeout 600 "$qemu" ${FIRMWARE-} -accel tcg -M pc -m 128 -nodefaults -display none -no-reboot -serial file:serial \
        -drive file=disk.iso,media=cdrom,if=ide -boot d -device pci-bridge,id=br,chassis_nr=1,addr=5 \
        -device e1000,bus=br,addr=1,romfile= -device e1000,addr=6,romfile= >qemu.log 2>&1
}

# machine_io_clash: starts EDK2 with one file that holds GRUB and the folder `disk`: no disk controller is used.
machine_io_clash() {
    (cd disk && find . -type f | sed 's|^\./\(.*\)|\1=disk/\1|') >files
    # shellcheck disable=SC2046
    "$standalone" -d "$grub/x86_64-efi" -O x86_64-efi -o grub.efi $(cat files) >made.log 2>&1 ||
        lacking "no file for EDK2: $(tail -n 1 made.log)"
    # shellcheck disable=SC2086
    timeout 600 "$qemu" ${FIRMWARE-} -accel tcg -M q35 -m 256 -nodefaults -display none -no-reboot -serial file:serial \
        -bios "$ovmf" -kernel grub.efi -device pcie-root-port,chassis=1,addr=3 \
        -device pcie-root-port,chassis=2,addr=4 >qemu.log 2>&1
}

# started NAME: starts the machine with GRUB's commands in the file `commands`, and keeps what it prints in MACHINE_NAME.log.
started() {
    {
        echo 'serial --unit=0 --speed=115200'
        echo 'terminal_output serial'
        # what the terminal is set up with stands before the first line
        echo 'echo commands'
        echo "$spoiled"
        cat commands
        echo 'echo end of commands'
        echo 'halt'
    } >disk/boot/grub/grub.cfg
    "machine_$machine"
    tr -d '\r' <serial >"$logs/${machine}_$1.log"
    grep -q '^end of commands$' "$logs/${machine}_$1.log"
    told "$1: GRUB comes to its end" $?
}

# registers: GRUB's commands that print the registers of all functions in the file `slots`.
registers() {
    while read -r slot; do
        echo "echo registers of $slot"
        for high in 0 1 2 3 4 5 6 7 8 9 a b c d e f; do
            for low in 0 4 8 c; do
                echo "setpci -s $slot $high$low.l"
            done
        done
    done <slots
}

# sizes: GRUB's commands that write ones to each address register, print what is read back, and restore it.
sizes() {
    cat <<'EOF'
function size {
    setpci -s $1 -v old $2
    setpci -s $1 $2=ffffffff
    setpci -s $1 -v shown $2
    setpci -s $1 $2=$old
    echo "size $1 $2 $shown"
}
EOF
    while read -r slot; do
        echo "setpci -s $slot -v header 0e.b"
        # shellcheck disable=SC2016
        echo 'if [ "$header" = 1 -o "$header" = 81 ]; then'
        for register in 10.l 14.l 1c.w 20.l 24.l 28.l 2c.l 30.l 38.l; do echo "size $slot $register"; done
        echo 'else'
        for register in 10.l 14.l 18.l 1c.l 20.l 24.l 30.l; do echo "size $slot $register"; done
        echo 'fi'
    done <slots
}

# text_of FILE WHAT: the dump of a log, or its probe.
text_of() {
    awk -v what="$2" '
        function digit(c) { return index("0123456789abcdef", c) - 1 }
        function put(slot, at, width, value,    i) {
            while (length(value) < 2 * width)
                value = "0" value
            for (i = 0; i < width; i++)
                byte[slot, at + i] = substr(value, 2 * (width - i) - 1, 2)
        }
        function number(hex,    i, n) {
            n = 0
            for (i = 1; i <= length(hex); i++)
                n = 16 * n + digit(substr(hex, i, 1))
            return n
        }
        /^registers of / { slot = $3; slots[++count] = slot; next }
        what == "dump" && /^Register / { put(slot, number($2), 4, $6) }
        what == "probe" && /^size / {
            split($3, part, ".")
            put($2, number(part[1]), part[2] == "w" ? 2 : 4, part[2] == "w" ? substr("0000" $4, length($4) + 1) : $4)
        }
        END {
            for (k = 1; k <= count; k++) {
                print slots[k]
                for (row = 0; row < 16; row++) {
                    printf "%s0:", substr("0123456789abcdef", row + 1, 1)
                    for (i = 0; i < 16; i++)
                        printf " %s", (slots[k], 16 * row + i) in byte ? byte[slots[k], 16 * row + i] : "00"
                    print ""
                }
                print ""
            }
        }' "$1"
}

# repaired FAULT LIST..: has the machine print its registers, whose fault is told, and repair itself with these lists.
repaired() {
    fault=$1
    shift
    echo lspci >commands
    started lspci
    sed -n 's/^\([0-9a-f][0-9a-f]:[01][0-9a-f]\.[0-7]\) [0-9a-f]*:[0-9a-f]* .*/\1/p' "$logs/${machine}_lspci.log" | sort >slots
    { registers; sizes; } >commands
    started before
    text_of "$logs/${machine}_before.log" dump >dump.txt
    text_of "$logs/${machine}_before.log" probe >probe.txt
    "$program" faults dump.txt probe.txt --why | tee faults.txt
    grep -q "^$fault" faults.txt
    told "the fault: $fault" $?
    set -- dump.txt probe.txt "$@"
    "$program" settle "$@" --writes
    "$program" settle "$@" >settled.txt && "$program" settle "$@" --writes=grub >disk/settle.grub
    told 'settle --writes=grub' $?

    # shellcheck disable=SC2016
    { echo 'source /settle.grub'; echo 'echo pciplan is $pciplan'; registers; } >commands
    started after
    text_of "$logs/${machine}_after.log" dump >after.txt
    grep -qx 'all writes were made' "$logs/${machine}_after.log" && grep -qx 'pciplan is made' "$logs/${machine}_after.log"
    told 'all writes are made' $?
    [ "$("$program" check after.txt probe.txt)" = yes ]
    told 'the machine is sound afterwards' $?
    cmp settled.txt after.txt
    told 'it is as the settled dump has it' $?
}

# refused: Command of a function that the script writes is changed before.
refused() {
    card=$(sed -n 's/^compare \(..:..\..\) 04.w .*/\1/p' disk/settle.grub | tail -n 1)
    # shellcheck disable=SC2016
    { registers; echo "setpci -s $card 04.w=0"; echo 'source /settle.grub'; echo 'echo pciplan is $pciplan'; registers; } >commands
    started changed
    log=$logs/${machine}_changed.log
    sed '/^pciplan is/,$d' "$log" >first.log
    sed -n '/^pciplan is/,$p' "$log" >last.log
    grep -qx 'pciplan is changed' "$log" && grep -q "^changed $card 04.w: the dump has [0-9a-f]*, the machine 0" "$log"
    told 'a changed register is named' $?
    text_of first.log dump | sed "/^$card/,/^00:/s/^\(00:\( ..\)\{4\}\) .. .. /\1 00 00 /" >first.txt
    text_of last.log dump >last.txt
    cmp first.txt last.txt
    told 'and nothing is written' $?
}

[ -x "$program" ] || lacking "no program $program"
command -v "$qemu" >/dev/null || lacking "no $qemu"

# has MACHINE KIND PROGRAM..: whether what a machine is made with is here.
has() {
    what=''
    [ -e "$grub/$2/setpci.mod" ] || what="no module setpci.mod in $grub/$2"
    name=$1
    shift 2
    for one; do
        command -v "$one" >/dev/null || what="no $one"
    done
    [ -z "$what" ] || { echo "skipped: $name: $what" && return 1; }
}

for machine in ${MACHINES:-closed io_clash}; do
    mkdir -p "$room/$machine/disk/boot/grub"
    cd "$room/$machine" || exit 1
    case $machine in
        closed)
            has closed i386-pc "$rescue" xorriso mformat || continue
            spoiled='setpci -s 00:05.0 20.l=0000fff0'
            repaired '60 Unreached 01:01.0 10 mem [0-9a-f]* bridge 00:05.0$' \
                --io c000-ffff --mem e0000000-febfffff --pref none
            ;;
        io_clash)
            has io_clash x86_64-efi "$standalone" || continue
            [ -r "$ovmf" ] || { echo "skipped: io_clash: no firmware $ovmf" && continue; }
            spoiled=''
            repaired '61 Clash bus 00 io [0-9a-f]* 00:03.0 1c 00:1f.[23] 20$' \
                --io 6000-ffff --mem c0000000-fbffffff --pref 800000000-ffffffffff
            ;;
        *) lacking "no machine $machine" ;;
    esac
    refused
done
echo "$passed passed, $failed failed"
[ $((passed + failed)) -gt 0 ] || exit 77
[ "$failed" -eq 0 ]
