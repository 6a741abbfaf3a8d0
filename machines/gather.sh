#!/bin/sh
# Copies what Linux tells of this machine's PCI functions into a new folder `gathered`: of each function its configuration
# space, its file `resource`, its link, and whether it is a virtual function; and the files iomem and ioports of /proc.
# `pciplan here --from gathered` judges the copy on another machine, where pciplan is installed. Nothing is written to any
# device. Linux wakes a sleeping device where its configuration space is read.
#
# Usage: gather.sh, as root, in a folder without `gathered`. Pack the copy by `tar czf gathered.tgz gathered`.
set -eu

mkdir gathered
mkdir -p gathered/sys/bus/pci/devices gathered/proc
for link in /sys/bus/pci/devices/*; do
    folder=$(readlink -f "$link")
    mkdir -p "gathered$folder"
    ln -s "$(readlink "$link")" "gathered$link"
    cat "$folder/config" > "gathered$folder/config"
    cat "$folder/resource" > "gathered$folder/resource"
    [ ! -e "$folder/physfn" ] || : > "gathered$folder/physfn"
done
cat /proc/iomem > gathered/proc/iomem
cat /proc/ioports > gathered/proc/ioports
