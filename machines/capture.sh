#!/bin/sh
# Reads a PCI domain of this machine from Linux' sysfs: writes dump.txt and sizes.txt into the current folder, and prints
# the words for --root. Nothing is written to any device.
#
# Linux clears the line of a BAR that it couldn't place. The size of such a BAR is taken from the kernel's log.
#
# SR-IOV's virtual functions are left out, each named on standard error: their Vendor ID reads FFFFh, and their BARs are
# registers of the physical function. The addresses that they decode are named there, too.
#
# Usage: capture.sh [DOMAIN], as root; domain 0000 if none is said. SYSFS says where sysfs is, if not in /sys. LOG names a
# file that holds the kernel's log since the start, as `journalctl -k` prints it; without it `dmesg` is asked.
set -u
export LC_ALL=C

domain=${1-0000}
devices=${SYSFS:-/sys}/bus/pci/devices
roots=
virtual=

# refused WHY: says why nothing is captured.
refused() {
    echo "capture.sh: $1" >&2
    return 1
}

# rows_of CONFIG: the byte lines of the first 256 bytes; the status is 1 where there are fewer.
rows_of() {
    od -An -v -tx1 -N256 "$1" 2>/dev/null | awk '
        {
            for (i = 1; i <= NF; i++) {
                if (n % 16 == 0)
                    printf "%s%02x:", n ? "\n" : "", n
                printf " %s", $i
                n++
            }
        }
        END { exit n != 256 }'
}

# sizes_of_log: for each BAR of which the log tells a size, the slot, the BAR's number, and its line of sizes; the status
# isn't 0 where the log can't be read. Linux 6.12 writes `BAR 2 [mem size 0x00004000]: failed to assign`, Linux 6.1
# `BAR 2: failed to assign [mem size 0x00004000]`. BAR 6 is the ROM; higher numbers and `VF BAR` are registers of virtual
# functions and bridge windows. The last line of a BAR counts. Where the log says which device it found in a slot, the
# lines before that are of an earlier one.
sizes_of_log() {
    log=$(if [ -n "${LOG-}" ]; then cat -- "$LOG"; else dmesg; fi 2>/dev/null) || return
    printf '%s\n' "$log" | awk -v domain="$domain" '
        # line_of WHAT: the line of sizes. It is made of the digits, as numbers of awk hold 53 bits. A size that is no
        # power of two, or above 2^63, has none.
        function line_of(what,    size, digits, flags) {
            size = what
            sub(/.* size 0x0*/, "", size)
            sub(/[^0-9a-f].*/, "", size)
            digits = length(size)
            if (size !~ /^[1248]0*$/ || digits > 16)
                return ""
            flags = what ~ /^.io/ ? "101" : "20" substr("048c", 1 + (what ~ / 64bit/) + 2 * (what ~ / pref/), 1)
            return sprintf("0x%s 0x%s%s%s 0x%s%s", zeros, substr(zeros, digits + 1),
                substr("0137", index("1248", substr(size, 1, 1)), 1), substr("ffffffffffffffff", 1, digits - 1),
                substr(zeros, 4), flags)
        }
        BEGIN { zeros = "0000000000000000" }
        !match($0, / [0-9a-f]+:[0-9a-f][0-9a-f]:[01][0-9a-f]\.[0-7]: /) { next }
        {
            name = substr($0, RSTART + 1, RLENGTH - 3)
            said = substr($0, RSTART + RLENGTH)
            if (index(name, domain ":") != 1)
                next
            slot = substr(name, length(domain) + 2)
        }
        said ~ /^\[[0-9a-f]+:[0-9a-f]+\] type / {
            for (bar = 0; bar < 6; bar++)
                delete line[slot " " bar]
        }
        said ~ /^BAR [0-5](:[^[]*)? *\[(io|mem) +size 0x[0-9a-f]+[] ]/ {
            match(said, /\[[^]]*/)
            line[slot " " substr(said, 5, 1)] = line_of(substr(said, RSTART, RLENGTH))
        }
        END {
            for (bar in line)
                if (line[bar] != "")
                    print bar, line[bar]
        }'
}

# lines_of RESOURCE SLOT: the lines of the six BAR registers and of the ROM, with what `unplaced` tells of the slot in the
# place of a BAR's zeros; the status isn't 0 where a line is missing.
lines_of() {
    printf '%s\n' "$unplaced" | awk -v slot="$2" '
        NR == FNR {
            if ($1 == slot)
                told[$2 + 1] = $3 " " $4 " " $5
            next
        }
        { lines++ }
        lines > 7 { exit }
        /^0x0+ 0x0+ 0x0+$/ && (lines in told) { $0 = told[lines] }
        { print }
        END { exit lines < 7 }' - "$1" 2>/dev/null
}

# virtual_of FOLDER: the address ranges that the virtual functions of a physical function decode, one for each of their
# BARs that has a place. The BARs of virtual functions are of memory.
virtual_of() {
    case $(cat "$1/sriov_numvfs" 2>/dev/null) in '' | 0) return ;; esac
    awk 'NR > 7 && NR <= 13 && $1 !~ /^0x0+$/ { print substr($1, 3) "-" substr($2, 3) }' "$1/resource" 2>/dev/null
}

# root_of FOLDER: the bus of the host bus above the function. It is the last in the path, as a domain may begin behind a
# function of another.
root_of() {
    (cd -P -- "$1" && pwd -P) | sed -n "s|.*/pci$domain:\([0-9a-f][0-9a-f]\)/.*|\1|p"
}

# opened: whether both files can be written.
opened() {
    for file in dump.txt sizes.txt; do
        { true >>"$file"; } 2>/dev/null || refused "$file can't be written" || return
    done
}

# capture FOLDER..: writes the block of each function, of the dump to 3 and of the sizes to 4, and sets `roots`. What
# virtual functions decode goes to standard error, and then `virtual` is set.
capture() {
    for folder; do
        name=${folder##*/}
        if [ -e "$folder/physfn" ]; then
            echo "capture.sh: left out $name, a virtual function" >&2
            continue
        fi
        rows=$(rows_of "$folder/config") ||
            refused "$name: less than 256 bytes of configuration space can be read; root reads them all" || return
        lines=$(lines_of "$folder/resource" "${name#"$domain":}") ||
            refused "$name: its file resource can't be read" || return
        root=$(root_of "$folder")
        [ -n "$root" ] || refused "$name: no host bus pci$domain:.. is in its path" || return
        case ,$roots, in
            *",$root,"*) ;;
            *) roots=${roots:+$roots,}$root ;;
        esac
        for range in $(virtual_of "$folder"); do
            echo "capture.sh: virtual functions of $name decode mem $range" >&2
            virtual=yes
        done
        printf '%s\n%s\n\n' "${name#"$domain":}" "$rows" >&3 || refused "dump.txt can't be written" || return
        printf '%s\n%s\n\n' "${name#"$domain":}" "$lines" >&4 || refused "sizes.txt can't be written" || return
    done
}

[ $# -le 1 ] || refused 'usage: capture.sh [DOMAIN]' || exit
set -- "$devices/$domain:"*
[ -e "$1" ] || refused "no domain $domain in $devices" || exit
unplaced=$(sizes_of_log) ||
    echo "capture.sh: the kernel's log can't be read; sizes of BARs that Linux couldn't place aren't known" >&2

# No text stays that is cut off, and none of an earlier capture beside it.
if ! { opened && capture "$@" 3>dump.txt 4>sizes.txt; }; then
    rm -f dump.txt sizes.txt 2>/dev/null
    exit 1
fi
[ -z "$virtual" ] ||
    echo 'capture.sh: without --also and what told.sh prints, settle may put a BAR onto these addresses' >&2
echo "--root $roots"
