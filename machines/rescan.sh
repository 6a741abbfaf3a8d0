#!/bin/sh
# Lets Linux place the functions again that `pciplan settle --writes` would write. None of the writes is made: the topmost
# function of each way that WRITES names is removed from Linux' list, with all behind it, and one rescan finds it again.
# Linux places it then as it does a function that was plugged in. DUMP and PROBE are the texts that WRITES was made of.
#
# Printed are the functions that are removed, with their drivers and with what the machine uses them for: mounted file
# systems, swap, and the interface of a default route. With --yes they are removed, the machine is captured again into
# dump.after.txt, sizes.after.txt and probe.after.txt, and the faults of both are counted. A BAR that is off and shows
# address 0 counts as one: Linux had no place for it. A function that is in use is removed with --force alone.
#
# Usage: rescan.sh [--yes] [--force] DUMP PROBE WRITES [DOMAIN], as root; domain 0000 if none is said. SYSFS and PROC say
# where sysfs and proc are, if not in /sys and /proc; PCIPLAN names the program, if it isn't `pciplan`. The status is 0 where
# there are fewer faults than before or none, or without --yes; 1 where nothing was done; 2 where it stopped on the way; 3
# where there are as many faults as before, or more.
set -u
export LC_ALL=C

machines=$(CDPATH='' cd -- "$(dirname -- "$0")" && pwd) || exit 1
sysfs=$(CDPATH='' cd -- "${SYSFS:-/sys}" && pwd) || exit 1
export SYSFS="$sysfs"
proc=${PROC:-/proc}
pciplan=${PCIPLAN:-pciplan}
yes=
force=

# refused WHY: says why it goes no further.
refused() {
    printf 'rescan.sh: %s\n' "$1" >&2
    return 1
}

# real FOLDER: its path without links; nothing where it isn't there.
real() {
    (CDPATH='' cd -P -- "$1" 2>/dev/null && pwd -P)
}

# topmost SLOT: the first function on the way to the slot that is written, by its name
topmost() {
    path=$(real "$sysfs/bus/pci/devices/$domain:$1")
    [ -n "$path" ] || refused "$domain:$1 isn't there: capture again" || return
    way=$(printf '%s\n' "$path" | tr / '\n')
    for name in $way; do
        case "
$slots
" in
            *"
${name#"$domain":}
"*)
                case $name in "$domain":*) echo "$name" && return ;; esac
                ;;
        esac
    done
}

# disks: for each mounted file system and swap the words for it and the folder of its disk's device
disks() {
    { awk '{ for (i = 7; i < NF && $i != "-"; i++) { } print $3, $(i + 2), "mounted on " $5 }' "$proc/self/mountinfo"
        awk 'NR > 1 { print "-", $1, "swap" }' "$proc/swaps"; } 2>/dev/null | while read -r number source what; do
        for folder in "$sysfs/dev/block/$number" "$sysfs/class/block/${source##*/}"; do
            below "$folder" "$what"
        done
    done
}

# below FOLDER WHAT: the folder's path and the words, and the same of what it is made of
below() {
    found=$(real "$1")
    [ -n "$found" ] || return
    printf '%s %s\n' "$found" "$2"
    for part in "$found"/slaves/* "$found"/lower_*; do
        [ ! -e "$part" ] || below "$part" "$2"
    done
}

# routes: for each interface of a default route the words for it and its folder
routes() {
    {
        awk 'NR > 1 && $2 == "00000000" && $8 == "00000000" { print $1 }' "$proc/net/route"
        awk '$1 ~ /^0+$/ && $2 == "00" && $NF != "lo" { print $NF }' "$proc/net/ipv6_route"
    } 2>/dev/null | sort -u | while read -r interface; do
        below "$sysfs/class/net/$interface" "the interface $interface of the default route"
    done
}

# told NAME: prints a function that is removed, and each at or behind it with its driver and its uses; sets `used`.
told() {
    top=$(real "$sysfs/bus/pci/devices/$1")
    echo "remove $1"
    for folder in "$sysfs/bus/pci/devices/$domain:"*; do
        path=$(real "$folder")
        case $path/ in "$top"/*) ;; *) continue ;; esac
        driver=$(real "$folder/driver")
        if [ -n "$driver" ]; then
            echo "  ${folder##*/} has the driver ${driver##*/}"
        else
            echo "  ${folder##*/} has no driver"
        fi
    done
    printf '%s\n' "$uses" | sort -u | while read -r path what; do
        case $path/ in "$top"/*) echo "  used: $what" ;; esac
    done
    case "
$(printf '%s\n' "$uses" | sed 's| .*|/|')" in
        *"
$top/"*) used="$used $1" ;;
    esac
}

# faults DUMP PROBE ROOTS: the list of all faults and of BARs without a place into the file `list`, and how many there are
faults() {
    "$pciplan" faults "$1" "$2" --root "$3" --model all --why >"$room/why"
    [ $? -le 1 ] || refused "$1: pciplan can't judge it" || return
    awk '/^off / ? / 0+-/ : !/^ /' "$room/why" >"$room/list"
    grep -c -e '^[0-9]' -e '^off' "$room/list"
    return 0
}

# removed NAME..: removes the functions, and rescans.
removed() {
    for name; do
        echo 1 2>/dev/null >"$sysfs/bus/pci/devices/$name/remove" || refused "$name can't be removed" || return
        echo "removed $name"
    done
    echo 1 2>/dev/null >"$sysfs/bus/pci/rescan" || refused 'no rescan can be asked for' || return
}

# judged BEFORE: captures again, and says how many faults there are now.
judged() {
    words=$(cd "$room" && "$machines/capture.sh" "$domain") || return 2
    cp "$room/dump.txt" dump.after.txt && cp "$room/sizes.txt" sizes.after.txt || return 2
    "$pciplan" probe dump.after.txt sizes.after.txt >probe.after.txt ||
        "$pciplan" probe dump.after.txt sizes.after.txt --least >probe.after.txt || return 2
    after=$(faults dump.after.txt probe.after.txt "${words#--root }") || return 2
    cat "$room/list"
    echo "faults before: $1, now: $after"
    [ "$after" -eq 0 ] || [ "$after" -lt "$1" ] || return 3
}

while [ $# -gt 0 ]; do
    case $1 in
        --yes) yes=1 ;;
        --force) force=1 ;;
        *) break ;;
    esac
    shift
done
[ $# -eq 3 ] || [ $# -eq 4 ] || refused 'usage: rescan.sh [--yes] [--force] DUMP PROBE WRITES [DOMAIN]' || exit
dump=$1 probe=$2 writes=$3 domain=${4-0000}
wrong=$(awk '!/^[0-9a-f][0-9a-f]:[01][0-9a-f]\.[0-7] [0-9a-f][0-9a-f]\.[24] [0-9a-f]+$/ { print NR; exit }' <"$writes") ||
    refused "$writes can't be read" || exit
[ -z "$wrong" ] || refused "$writes: line $wrong: no line of --writes" || exit
slots=$(sed 's/ .*//' <"$writes" | sort -u)
if [ -z "$slots" ]; then
    echo 'nothing is to be written'
    exit
fi

names=
for slot in $slots; do
    name=$(topmost "$slot") || exit
    case " $names " in
        *" $name "*) ;;
        *) names="${names:+$names }$name" ;;
    esac
done
uses=$(disks; routes)
used=
for name in $names; do
    told "$name"
done
if [ -z "$yes" ]; then
    echo 'nothing was removed: say --yes'
    exit
fi
[ -z "$used" ] || [ -n "$force" ] || refused "in use:$used; nothing was removed" || exit

room=$(mktemp -d) || exit 1
trap 'rm -rf "$room"' EXIT
roots=$(cd "$room" && "$machines/capture.sh" "$domain" 2>/dev/null) || refused 'the machine can'\''t be captured' || exit
before=$(faults "$dump" "$probe" "${roots#--root }") || exit
# shellcheck disable=SC2086
removed $names || exit 2
judged "$before"
