#!/bin/sh
# Builds the firmware with the library of crates/pciplan_c/out, and runs it as the only firmware of an emulated PC with a
# display and two `edu` devices, one of them behind a bridge: c/firmware/run.sh, from anywhere. `c/firmware/run.sh q35` takes
# a PC of PCI Express, where that bridge stands behind a root port. Words behind the machine are handed to QEMU, as
# `c/firmware/run.sh pc -device e1000`. It needs gcc, binutils and qemu-system-x86_64. Its status is 0 where the devices
# answer at their places.
set -e
machine=${1-pc}
[ $# = 0 ] || shift
case $machine in
pc) bridges='-device pci-bridge,id=behind,chassis_nr=1,addr=3' ;;
q35) bridges='-device pcie-root-port,id=above,chassis=1,addr=3 -device pcie-pci-bridge,id=behind,bus=above' ;;
*) echo 'usage: c/firmware/run.sh [pc|q35 [WORD..]]' >&2; exit 2 ;;
esac
here=$(cd "$(dirname "$0")" && pwd)
c=$here/..
library=$c/../crates/pciplan_c/out/libpciplan_c.a
built=$(mktemp -d)
trap 'rm -rf "$built"' EXIT
[ -e "$library" ] || (cd "$c/../crates/pciplan_c" && rt lib >/dev/null)

headers=$(gcc -print-file-name=include)
compiled() {
    gcc -std=c11 -Wall -Wextra -O2 -ffreestanding -nostdinc -isystem "$headers" -I"$c/include" -I"$c/capture" \
        -I"$c/number" -I"$c/apply" -fno-pic -fno-pie -fno-stack-protector -fcf-protection=none -mno-red-zone \
        -fno-asynchronous-unwind-tables -c -o "$built/$1" "$2"
}

compiled start.o "$here/start.S"
compiled firmware.o "$here/firmware.c"
compiled example.o "$c/example/pciplan_bring_up.c"
compiled number.o "$c/number/pciplan_number.c"
compiled apply.o "$c/apply/pciplan_apply.c"
compiled capture.o "$c/capture/pciplan_capture.c"
compiled supported.o "$c/processor/pciplan_supported.c"
compiled memory.o "$c/memory/pciplan_fixed_memory.c"
cd "$built"
gcc -nostdlib -static -no-pie -Wl,-T,"$here/image.ld" -Wl,--build-id=none -Wl,--no-warn-rwx-segments \
    -Wl,--gc-sections -Wl,-z,max-page-size=4096 -o image.elf start.o firmware.o example.o number.o apply.o capture.o \
    supported.o memory.o "$library" -lgcc
objcopy -O binary image.elf image.bin

# The ROM: the image, and in the last 4 KB what the processor does after reset.
start=0x$(nm image.elf | sed -n 's/^0*\([0-9a-f]*\) T start$/\1/p')
rom=1024
size=$(stat -c %s image.bin)
gcc -c -DSTART="$start" -DROM_KB=$rom -o reset.o "$here/reset.S"
ld -Ttext=0xfffff000 -e 0xfffffff0 -o reset.elf reset.o
objcopy -O binary -j .text reset.elf reset.bin
{ cat image.bin; head -c $(((rom - 4) * 1024 - size)) /dev/zero; cat reset.bin; } >rom.bin

status=0
# shellcheck disable=SC2086 # the words of the bridges are one each
qemu-system-x86_64 -machine "$machine" -cpu Nehalem -m 256 -nodefaults -display none -serial stdio -bios rom.bin \
    -device isa-debug-exit,iobase=0xf4,iosize=1 $bridges \
    -device edu,bus=behind,addr=1 -device edu,addr=4 -device bochs-display,addr=5 "$@" || status=$?
[ $status = 1 ]
