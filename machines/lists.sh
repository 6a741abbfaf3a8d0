#!/bin/sh
# Prints the words for `pciplan settle` that say which addresses this machine may give to its PCI functions: --root, --io,
# --mem and --pref. They are made from what Linux tells of its host bridges. Nothing is written to any device.
#
# A host bridge forwards the ranges of the lines `PCI Bus` in /proc/ioports and /proc/iomem. On a root bus these are left
# out of them:
# - what another line gives to the board or the chipset, or to a function in which no BAR or ROM that is on shows it
# - ports below 1000h and memory below 1 MB, but for BARs, ROMs and bridge windows that stand there
# Memory below 4 GB is in --mem, memory above it in --pref. What a function behind a bridge answers and no BAR shows, as a
# virtual function (SR-IOV) does, is named on standard error: no list can keep `settle` from its addresses, but what
# told.sh prints can, as `--also`.
#
# Usage: lists.sh [DOMAIN], as root; domain 0000 if none is said. SYSFS and PROC say where sysfs and proc are, if not in
# /sys and /proc.
set -u
export LC_ALL=C

domain=${1-0000}
devices=${SYSFS:-/sys}/bus/pci/devices
proc=${PROC:-/proc}
roots=

# refused WHY: says why nothing is printed.
refused() {
    echo "lists.sh: $1" >&2
    return 1
}

# root_of FOLDER: the bus of the host bus above the function. It is the last in the path, as a domain may begin behind a
# function of another.
root_of() {
    (cd -P -- "$1" && pwd -P) | sed -n "s|.*/pci$domain:\([0-9a-f][0-9a-f]\)/.*|\1|p"
}

# rom_of CONFIG: whether the function's ROM is on. Its register is at 30h, and at 38h of a bridge.
rom_of() {
    od -An -v -tx1 -N64 "$1" 2>/dev/null | awk '
        { for (i = 1; i <= NF; i++) byte[n++] = $i }
        END { exit byte[byte[14] ~ /^[08]1$/ ? 56 : 48] !~ /[13579bdf]$/ }'
}

# shown_of FOLDER NAME: a line for each range that a BAR or the ROM shows; `off` is a ROM that is off. Flags 10h and 20h
# tell of addresses that no register holds, as the fixed ports of an IDE channel.
shown_of() {
    rom=off
    ! rom_of "$1/config" || rom=on
    awk -v name="$2" -v rom=$rom '
        NR > 7 || $2 ~ /^0x0+$/ || substr($3, length($3) - 1, 1) ~ /[12367abef]/ { next }
        { print NR < 7 ? "on" : rom, name, substr($1, 3) "-" substr($2, 3) }' "$1/resource" 2>/dev/null
}

# functions FOLDER..: what the functions of the domain show, and sets `roots`; the status is 1 where one has no host bus.
functions() {
    for folder; do
        [ ! -e "$folder/physfn" ] || continue
        name=${folder##*/}
        root=$(root_of "$folder")
        [ -n "$root" ] || refused "$name: no host bus pci$domain:.. is in its path" || return
        case ,$roots, in
            *",$root,"*) ;;
            *) roots=${roots:+$roots,}$root ;;
        esac
        shown=$shown$(shown_of "$folder" "$name")"
"
    done
}

# lists: the words, of what the functions show and of the two files.
lists() {
    printf '%s' "$shown" | awk -v domain="$domain" -v roots="$roots" -v ports="$proc/ioports" -v memory="$proc/iomem" '
        # value HEX: the number. Awk counts exactly up to 2^53.
        function value(hex,    n, i) {
            n = 0
            for (i = 1; i <= length(hex); i++)
                n = n * 16 + index("0123456789abcdef", substr(hex, i, 1)) - 1
            return n
        }
        function hex(n,    s, digit) {
            s = ""
            do {
                digit = n % 16
                s = substr("0123456789abcdef", digit + 1, 1) s
                n = (n - digit) / 16
            } while (n > 0)
            return s
        }
        # add LIST FIRST LAST: one more range of a list
        function add(list, first, last) {
            first_of[list, ++count[list]] = first
            last_of[list, count[list]] = last
        }
        # cut LIST FIRST LAST: takes a range out of a list
        function cut(list, first, last,    i, n) {
            n = count[list]
            for (i = 1; i <= n; i++) {
                if (last < first_of[list, i] || last_of[list, i] < first)
                    continue
                if (last < last_of[list, i])
                    add(list, last + 1, last_of[list, i])
                if (first_of[list, i] < first)
                    last_of[list, i] = first - 1
                else
                    last_of[list, i] = -1
            }
        }
        # within LIST FIRST LAST: whether a range of the list holds another
        function within(list, first, last,    i) {
            for (i = 1; i <= count[list]; i++)
                if (first_of[list, i] <= first && last <= last_of[list, i])
                    return 1
            return 0
        }
        # read FILE SPACE LEAST: the ranges of each root bus. A line is inside of the last one above it that is indented less.
        function read(file, space, least,    line, depth, range, bar, first, last, what, name, i, root, on, below, kept, many) {
            many = 0
            while ((getline line < file) > 0) {
                depth = match(line, /[^ ]/)
                range = substr(line, depth)
                what = range
                sub(/^[^:]*: /, "", what)
                sub(/ .*/, "", range)
                bar = index(range, "-")
                first = substr(range, 1, bar - 1)
                last = substr(range, bar + 1)
                sub(/^0+/, "", first)
                sub(/^0+/, "", last)
                if (length(last) > 13) {
                    if (what == "PCI Bus " domain ":" substr(what, length(what) - 1))
                        print "lists.sh: left out " range ", which ends above 2^52" > "/dev/stderr"
                    continue
                }
                first = value(first)
                last = value(last)
                lines++
                if (last == 0) {
                    zeros++
                    continue
                }
                while (many > 0 && depth_at[many] >= depth)
                    many--
                # what is above the line: a root bus, a function, or a bridge window
                on = many ? on_at[many] : ""
                below = many ? below_at[many] : ""
                if (what ~ /^PCI Bus / && index(what, "PCI Bus " domain ":") == 1) {
                    root = substr(what, length("PCI Bus " domain ":") + 1)
                    if (("," roots ",") ~ ("," root ",")) {
                        add(space root, first, last)
                        add("host" space root, first, last)
                        on = root
                        below = ""
                    } else if (on != "" && below == "") {
                        add("kept" space on, first, last)
                        below = "window"
                    }
                } else if (on != "" && what ~ /^[0-9a-f]+:[0-9a-f][0-9a-f]:[01][0-9a-f]\.[0-7]$/) {
                    if (below != "function") {
                        if (below == "")
                            add((shows[what, first, last] == "on" ? "kept" : "out") space on, first, last)
                        else if (!((what, first, last) in shows))
                            print "lists.sh: " what " answers " space " " hex(first) "-" hex(last) ", and no register shows it" > "/dev/stderr"
                    }
                    below = "function"
                } else if (on != "" && below == "")
                    add("out" space on, first, last)
                many++
                depth_at[many] = depth
                on_at[many] = on
                below_at[many] = below
            }
            close(file)
            if (lines == 0 || zeros == lines)
                return 0
            lines = zeros = 0
            for (i = 1; i <= buses; i++)
                finish(space, bus[i], least)
            return 1
        }
        # finish SPACE ROOT LEAST: leaves out what is not for PCI functions, and keeps what stands
        function finish(space, root, least,    list, i) {
            list = space root
            for (i = 1; i <= count["out" list]; i++)
                cut(list, first_of["out" list, i], last_of["out" list, i])
            cut(list, 0, least - 1)
            for (i = 1; i <= count["kept" list]; i++)
                if (within("host" list, first_of["kept" list, i], last_of["kept" list, i])) {
                    cut(list, first_of["kept" list, i], last_of["kept" list, i])
                    add(list, first_of["kept" list, i], last_of["kept" list, i])
                }
        }
        # words SPACE FROM END: the ranges of all root buses from one address on and below another, by root bus and address;
        # two that adjoin are one
        function words(space, from, end,    i, k, s, list, first, last, least, at) {
            s = ""
            for (i = 1; i <= buses; i++) {
                list = space bus[i]
                at = from
                for (;;) {
                    least = -1
                    for (k = 1; k <= count[list]; k++)
                        if (last_of[list, k] >= at && first_of[list, k] <= last_of[list, k] && (least < 0 || first_of[list, k] < first_of[list, least]))
                            least = k
                    if (least < 0)
                        break
                    first = first_of[list, least] < from ? from : first_of[list, least]
                    last = last_of[list, least]
                    for (k = 1; k <= count[list]; k++)
                        if (first_of[list, k] == last + 1 && last_of[list, k] > last) {
                            last = last_of[list, k]
                            k = 0
                        }
                    if (first >= end)
                        break
                    at = last + 1
                    if (last >= end)
                        last = end - 1
                    s = s (s == "" ? "" : ",") (buses > 1 ? bus[i] ":" : "") hex(first) "-" hex(last)
                }
            }
            return s == "" ? "none" : s
        }
        BEGIN { buses = split(roots, bus, ",") }
        /^o/ {
            dash = index($3, "-")
            first = substr($3, 1, dash - 1)
            last = substr($3, dash + 1)
            sub(/^0+/, "", first)
            sub(/^0+/, "", last)
            if (length(last) <= 13)
                shows[$2, value(first), value(last)] = $1
        }
        END {
            if (!read(ports, "io", 4096)) {
                print "lists.sh: " ports " tells no addresses; root reads them" > "/dev/stderr"
                exit 1
            }
            if (!read(memory, "mem", 1048576)) {
                print "lists.sh: " memory " tells no addresses; root reads them" > "/dev/stderr"
                exit 1
            }
            four = 4294967296
            print "--root " roots " --io " words("io", 0, four) " --mem " words("mem", 0, four) " --pref " words("mem", four, four * four)
        }'
}

[ $# -le 1 ] || refused 'usage: lists.sh [DOMAIN]' || exit
set -- "$devices/$domain:"*
[ -e "$1" ] || refused "no domain $domain in $devices" || exit
shown=
functions "$@" || exit
lists
