#!/bin/sh
# Prints what the functions of a PCI domain of this machine answer though no BAR shows it: the text that `faults`, `map`,
# `picture` and `settle` of pciplan take as `--also FILE`. It is made from what Linux tells in sysfs and proc. Nothing is
# written to any device. docs/FORMATS.md has the form of the text.
#
#   command  ports of an IDE channel in compatibility mode, Enhanced Allocation, and the legacy addresses of the display
#            that the firmware used
#   always   the BARs of virtual functions (SR-IOV) that are on, and what Linux found in registers of a chipset
#   held     what else Linux lists on a root bus: the board, ISA devices and the chipset answer it
#
# RAM isn't told: `--host-mem` says what goes to PCI. All addresses are the processor's. Behind a host bridge that shifts
# them BARs show others, and the text doesn't fit the dump.
#
# Usage: told.sh [DOMAIN], as root; domain 0000 if none is said. SYSFS and PROC say where sysfs and proc are, if not in
# /sys and /proc. Other users read no addresses in /proc/ioports and /proc/iomem: nothing of these two is printed then, and
# standard error says so.
set -u
export LC_ALL=C

domain=${1-0000}
devices=${SYSFS:-/sys}/bus/pci/devices
proc=${PROC:-/proc}

# refused WHY: says why nothing is printed.
refused() {
    echo "told.sh: $1" >&2
    return 1
}

# remark WHAT: says what isn't told.
remark() {
    echo "told.sh: $1" >&2
}

# root_of FOLDER: the bus of the host bus above the function. It is the last in the path, as a domain may begin behind a
# function of another.
root_of() {
    (cd -P -- "$1" && pwd -P) | sed -n "s|.*/pci$domain:\([0-9a-f][0-9a-f]\)/.*|\1|p"
}

# lines_of FILE LEAST: the lines of a file `resource`; the status isn't 0 where there are less.
lines_of() {
    awk -v least="$2" '
        { print "resource", $1, $2, $3 }
        END { exit NR < least }' "$1" 2>/dev/null
}

# virtual_off CONFIG: whether VF Enable or VF Memory Space Enable is off: bits 0 and 3 of SR-IOV Control, at 08h of the
# extended capability 0010h. Both are taken as on where root alone could read them, as Linux switches them together.
virtual_off() {
    od -An -v -tx1 -N4096 "$1" 2>/dev/null | awk '
        # next_of PLACE: the place of the capability behind it: bits 31 to 22 of its header, and two bits 0.
        function next_of(place) {
            return 16 * value(byte[place + 3]) + 4 * int(value(substr(byte[place + 2], 1, 1)) / 4)
        }
        function value(hex,    n, i) {
            n = 0
            for (i = 1; i <= length(hex); i++)
                n = n * 16 + index("0123456789abcdef", substr(hex, i, 1)) - 1
            return n
        }
        { for (i = 1; i <= NF; i++) byte[n++] = $i }
        END {
            off = 0
            for (place = 256; place >= 256 && place + 8 < n && steps++ < 960; place = next_of(place))
                if (byte[place + 1] byte[place] == "0010") {
                    off = byte[place + 8] !~ /[9bdf]$/
                    break
                }
            exit !off
        }'
}

# virtual_of FOLDER NAME: a line `virtual N` where N virtual functions are on, and the lines of the first of them. Lines 8
# to 13 of the physical function aren't taken: they have the addresses of all that there may be, also where none is on.
virtual_of() {
    many=$(cat "$1/sriov_numvfs" 2>/dev/null)
    case $many in '' | 0 | *[!0-9]* | ??????*) return ;; esac
    if virtual_off "$1/config"; then
        remark "$2: VF Enable or VF Memory Space Enable is off, so nothing is told of its virtual functions"
    elif lines=$(lines_of "$1/virtfn0/resource" 6); then
        printf 'virtual %s\n%s\n' "$many" "$lines"
    else
        remark "$2: its virtual functions can't be read, so nothing is told of them"
    fi
}

# forwards FOLDER: whether each bridge above forwards a display's legacy addresses. VGA Enable is bit 3 of Bridge Control,
# at 3Eh.
forwards() {
    above=$(cd -P -- "$1" && pwd -P)
    while :; do
        above=${above%/*}
        case ${above##*/} in
            "$domain":*) ;;
            *) return 0 ;;
        esac
        case $(od -An -v -tx1 -j62 -N1 "$above/config" 2>/dev/null) in
            *[89a-f]) ;;
            *) return 1 ;;
        esac
    done
}

# facts FOLDER..: what sysfs tells of each function: its root bus, its slot and class, the lines of its file `resource`,
# its virtual functions, and whether it is the firmware's display. The status is 1 where something is missing.
facts() {
    for folder; do
        name=${folder##*/}
        if [ -e "$folder/physfn" ]; then
            [ -r "$folder/physfn/sriov_numvfs" ] ||
                remark "$name: a virtual function without its physical function, so nothing is told of it"
            continue
        fi
        root=$(root_of "$folder")
        [ -n "$root" ] || refused "$name: no host bus pci$domain:.. is in its path" || return
        lines=$(lines_of "$folder/resource" 7) || refused "$name: its file resource can't be read" || return
        class=$(cat "$folder/class" 2>/dev/null)
        printf 'root %s\nfunction %s %s\n%s\n' "$root" "${name#"$domain":}" "${class:--}" "$lines"
        virtual_of "$folder" "$name"
        [ "$(cat "$folder/boot_vga" 2>/dev/null)" = 1 ] || continue
        if forwards "$folder"; then
            echo display
        else
            remark "$name: a bridge above has no VGA Enable, so the legacy addresses of the display aren't told"
        fi
    done
}

# told: the text, of the facts and of the two files. Addresses are text of 16 digits, so that they compare as numbers do,
# and are counted by halves, as numbers of awk hold 53 bits.
told() {
    awk -v domain="$domain" -v ports="$proc/ioports" -v memory="$proc/iomem" '
        function remark(what) {
            print "told.sh: " what > "/dev/stderr"
        }
        # wide HEX: the address in 16 digits.
        function wide(hex) {
            sub(/^0x/, "", hex)
            sub(/^0+/, "", hex)
            while (length(hex) < 16)
                hex = "0" hex
            return hex ""
        }
        # value HEX: the number of a half.
        function value(hex,    n, i) {
            n = 0
            for (i = 1; i <= length(hex); i++)
                n = n * 16 + index("0123456789abcdef", substr(hex, i, 1)) - 1
            return n
        }
        # half N: the eight digits of a half.
        function half(n,    hex) {
            hex = ""
            while (length(hex) < 8) {
                hex = substr("0123456789abcdef", n % 16 + 1, 1) hex
                n = int(n / 16)
            }
            return hex
        }
        # has FLAGS PLACE WEIGHT: whether a bit of the digit is set that stands PLACE digits before the last.
        function has(flags, place, weight) {
            return int(value(substr(flags, 16 - place, 1)) / weight) % 2
        }
        # is_range FIRST LAST: whether these are addresses. Zeros are none, and a backward range is none.
        function is_range(first, last) {
            return length(first) == 16 && length(last) == 16 && first <= last && last != none
        }
        # tell SLOT SPACE FIRST LAST MARK NAME: keeps a line, and answers its number, or 0 where there is none.
        function tell(slot, space, first, last, mark, name) {
            if (space == "io" && substr(last, 1, 8) != substr(none, 1, 8)) {
                remark(domain ":" slot ": ports " first "-" last " end above ffffffff, so they are not told")
                return 0
            }
            if (space == "io") {
                first = substr(first, 9)
                last = substr(last, 9)
            }
            line[++lines] = slot " " space " " first "-" last " " mark (name == "" ? "" : " " name)
            return lines
        }
        # take SPACE FIRST LAST: keeps addresses that no held range may have.
        function take(space, first, last) {
            space_of[++takes] = space == "io" ? "io" : "mem"
            first_taken[takes] = first
            last_taken[takes] = last
        }
        # is_taken SPACE FIRST LAST: whether one of these is in the range.
        function is_taken(space, first, last,    i) {
            for (i = 1; i <= takes; i++)
                if (space_of[i] == space && first <= last_taken[i] && first_taken[i] <= last)
                    return 1
            return 0
        }
        # memory_of FLAGS: the space of a range of memory.
        function memory_of(flags) {
            return has(flags, 3, 2) ? "pref" : "mem"
        }
        # own FIRST LAST FLAGS: a line of the function itself. Flag 20h is Enhanced Allocation. Flag 10h is a range that
        # does not move: no register holds the ports of an IDE channel, while other ranges stand in a BAR. Linux sets flag
        # 20000000h of such a range where another function has its addresses in the list of Linux, as of the second of two
        # IDE controllers: it answers there all the same. Of a range from 0 on, the flag says that there is no address.
        function own(first, last, flags,    space, name) {
            known[slot, first, last] = 1
            if (bar > 5 || !is_range(first, last) || has(flags, 7, 1) || (has(flags, 7, 2) && first == none))
                return
            space = has(flags, 2, 1) ? "io" : has(flags, 2, 2) ? memory_of(flags) : ""
            if (has(flags, 1, 2) && space != "")
                name = "ea" bar
            else if (has(flags, 1, 1) && space == "io" && class ~ /^(0x0101|-)/)
                name = "ide"
            else
                return
            tell(slot, space, first, last, "command", name)
            take(space, first, last)
        }
        # virtual FIRST LAST FLAGS: a BAR of the first of `many` virtual functions. Those of the others follow without a
        # gap (SR-IOV 1.1, 3.3.14). What is counted is one address less, which 16 digits hold.
        function virtual(first, last, flags,    high, low) {
            if (bar > 5 || !is_range(first, last) || !has(flags, 2, 2) || has(flags, 7, 1) || has(flags, 7, 2))
                return
            high = value(substr(last, 1, 8)) - value(substr(first, 1, 8))
            low = value(substr(last, 9)) - value(substr(first, 9)) + 1
            low = many * low - 1 + value(substr(first, 9))
            high = many * high + value(substr(first, 1, 8)) + floor(low / four)
            low -= floor(low / four) * four
            if (high >= four) {
                remark(domain ":" slot ": BAR " bar " of its virtual functions ends above 2^64, so it is not told")
                return
            }
            last = half(high) half(low)
            tell(slot, memory_of(flags), first, last, "always", "vf" bar)
            take("mem", first, last)
        }
        function floor(n,    i) {
            i = int(n)
            return i > n ? i - 1 : i
        }
        # display: the legacy addresses of a display
        function display(    i) {
            for (i = 1; i <= 3; i++)
                tell(slot, space_of[i], first_taken[i], last_taken[i], "command", "vga")
        }
        # hold: what is around the entry was reserved for it, and is not told.
        function hold(    i) {
            for (i = level; i > 0 && kind[i] == "held"; i--)
                holds[i] = 1
        }
        # leave: ends an entry. A held one is told alone where it was not reserved for another; else what is in it is told.
        function leave() {
            if (kind[level] == "held" && told_at[level]) {
                if (holds[level])
                    line[told_at[level]] = ""
                else
                    lines = told_at[level]
            }
            level--
        }
        # enter FIRST LAST KIND: begins an entry.
        function enter(first, last, is) {
            level++
            kind[level] = is
            first_of[level] = first
            last_of[level] = last
            bus[level] = bus[level - 1]
            holds[level] = told_at[level] = 0
        }
        # listed FILE SPACE: what Linux lists on root buses. An entry is inside of the last one before it that has its
        # addresses: Linux indents no deeper than five times. What is inside of a function or of a bridge window is theirs.
        function listed(file, space,    entry, name, range, dash, first, last, end, is, entries, zeros) {
            entries = zeros = level = 0
            while ((getline entry < file) > 0) {
                if (entry !~ /^ *[0-9a-f]+-[0-9a-f]+ : /)
                    continue
                name = range = entry
                sub(/^ *[^ ]* : /, "", name)
                sub(/^ */, "", range)
                sub(/ .*/, "", range)
                dash = index(range, "-")
                first = wide(substr(range, 1, dash - 1))
                last = wide(substr(range, dash + 1))
                entries++
                zeros += last == none
                if (!is_range(first, last))
                    continue
                while (level > 0 && (first < first_of[level] || last_of[level] < last))
                    leave()
                is = level > 0 ? kind[level] : "other"
                end = substr(name, length(name) - 1)
                if (name == "PCI Bus " domain ":" end && (end in roots)) {
                    hold()
                    enter(first, last, "root")
                    bus[level] = end
                } else if (is != "root" && is != "held")
                    enter(first, last, is)
                else if (name ~ /^[0-9a-f]+:[0-9a-f][0-9a-f]:[01][0-9a-f]\.[0-7]$/) {
                    hold()
                    enter(first, last, "other")
                    quirk(substr(name, length(domain) + 2), space, first, last)
                } else if (name ~ /^PCI Bus /) {
                    hold()
                    enter(first, last, "other")
                } else if (name ~ /^(System RAM|Video ROM)/)
                    enter(first, last, "other")
                else {
                    enter(first, last, "held")
                    gsub(/[^!-~]/, "_", name)
                    if (!is_taken(space, first, last))
                        told_at[level] = tell(bus[level] ":00.0", space, first, last, "held", substr(name, 1, 32))
                }
            }
            while (level > 0)
                leave()
            close(file)
            if (zeros == entries)
                remark(file " tells no addresses; root reads them")
        }
        # quirk SLOT SPACE FIRST LAST: an entry of a function, which its file `resource` does not have.
        function quirk(slot, space, first, last) {
            if ((slot in functions) && !((slot, first, last) in known))
                tell(slot, space, first, last, "always", "quirk")
        }
        BEGIN {
            none = "0000000000000000"
            four = 4294967296
            # The legacy addresses of a display are never held: bridges with VGA Enable claim them, too.
            take("io", wide("3b0"), wide("3bb"))
            take("io", wide("3c0"), wide("3df"))
            take("mem", wide("a0000"), wide("bffff"))
        }
        $1 == "root" { roots[$2] = 1 }
        $1 == "function" {
            slot = $2
            class = $3
            functions[slot] = 1
            many = bar = 0
        }
        $1 == "virtual" {
            many = $2
            bar = 0
        }
        $1 == "resource" {
            if (many)
                virtual(wide($2), wide($3), wide($4))
            else
                own(wide($2), wide($3), wide($4))
            bar++
        }
        $1 == "display" { display() }
        END {
            listed(ports, "io")
            listed(memory, "mem")
            for (i = 1; i <= lines; i++)
                count += line[i] != ""
            if (count > 4096) {
                remark(count " ranges, and a text has at most 4096")
                exit 1
            }
            for (i = 1; i <= lines; i++)
                if (line[i] != "")
                    print line[i] | "sort"
        }'
}

[ $# -le 1 ] || refused 'usage: told.sh [DOMAIN]' || exit
set -- "$devices/$domain:"*
[ -e "$1" ] || refused "no domain $domain in $devices" || exit
gathered=$(facts "$@") || exit
printf '%s\n' "$gathered" | told
