#!/bin/sh
# Prints what functions answer though no BAR shows it: the text that `faults`, `map`, `picture` and `settle` of pciplan
# take as `--also FILE`. It is made from what root's lspci printed with -xxxx, where nobody has the machine's sysfs.
# machines/convert.sh makes the dump of the same text. docs/FORMATS.md has the form of both.
#
#   command  ports of an IDE channel in compatibility mode, and Enhanced Allocation
#   always   the BARs of virtual functions (SR-IOV) that are on
#
# lspci tells no size of a virtual function's BAR. The least is taken, a system page of each function, and the name ends in
# -least: with such lines a `no` stands, and a `yes` doesn't. Virtual functions themselves are left out: their Vendor ID
# reads FFFFh. With -xxx there is no extended configuration space, so nothing is told of virtual functions.
#
# With -c the text tells of CardBus bridges, too, for `--model cardbus`: their socket registers and their windows.
#
# Usage: told_lspci.sh [-c] [DOMAIN] [FILE]; domain 0000 if none is said, which slots without a domain are of, and standard
# input if no file is said. A word of four to eight hex digits is a domain: a file of such a name is ./NAME.
set -u
export LC_ALL=C

# refuse WHY: says why there is no text.
refuse() {
    echo "told_lspci.sh: $1" >&2
    exit 1
}

cards=0
if [ "${1-}" = -c ]; then
    cards=1
    shift
fi
domain=0000
case ${1-} in
    *[!0-9a-f]* | ?????????*) ;;
    ????*)
        domain=$1
        shift
        ;;
esac
[ $# -le 1 ] || refuse 'usage: told_lspci.sh [-c] [DOMAIN] [FILE]'
if [ $# -eq 1 ]; then
    { [ -r "$1" ] && ! [ -d "$1" ]; } || refuse "$1 can't be read"
    exec <"$1"
fi

# -vmm and -vm have the slot behind a word.
tr -d '\r' | sed -e 's/^Slot:.//' -e 's/^Device:.//' | awk -v domain="$domain" -v cards=$cards '
    # refuse WHY: no text comes, so all of it is kept until the end.
    function refuse(why) {
        print "told_lspci.sh: " why | "cat >&2"
        refused = 1
        exit 1
    }
    function remark(what) {
        print "told_lspci.sh: " what | "cat >&2"
    }
    function value(hex,    n, i) {
        n = 0
        for (i = 1; i <= length(hex); i++)
            n = n * 16 + index("0123456789abcdef", substr(hex, i, 1)) - 1
        return n
    }
    # number PLACE BYTES: a register of up to four bytes
    function number(place, bytes,    n) {
        n = 0
        while (bytes-- > 0)
            n = n * 256 + byte[place + bytes]
        return n
    }
    # power K: 2^k
    function power(k,    n) {
        for (n = 1; k > 0; k--)
            n *= 2
        return n
    }
    function bit(n, place) {
        return int(n / power(place)) % 2
    }
    # below N COUNT: what the bits below bit COUNT tell.
    function below(n, count) {
        return n % power(count)
    }
    # half N: the eight digits of a half.
    function half(n,    hex) {
        hex = ""
        while (length(hex) < 8) {
            hex = substr("0123456789abcdef", n % 16 + 1, 1) hex
            n = int(n / 16)
        }
        return hex
    }
    # tell SPACE HIGH LOW MORE_HIGH MORE_LOW MARK NAME: keeps a line of a range, from an address to as many more behind it.
    # Both are counted by halves, as numbers of awk hold 53 bits.
    function tell(space, high, low, more_high, more_low, mark, name,    first) {
        more_low += low
        more_high += high + int(more_low / four)
        more_low %= four
        if (more_high >= (space == "io" ? 1 : four)) {
            remark(slot ": " name " ends above " (space == "io" ? "port ffffffff" : "2^64") ", so it is not told")
            return
        }
        first = space == "io" ? half(low) : half(high) half(low)
        line[++lines] = slot " " space " " first "-" (space == "io" ? "" : half(more_high)) half(more_low) " " mark " " name
    }
    # tell_all SPACE HIGH LOW MORE_HIGH MORE_LOW NAME: the range of each virtual function, which follow without a gap
    # (SR-IOV 1.1, 3.3.14).
    function tell_all(space, high, low, more_high, more_low, name) {
        more_low = many * (more_low + 1) - 1
        tell(space, high, low, many * more_high + int(more_low / four), more_low % four, "always", name)
    }
    # channel FIRST CONTROL: the ports of an IDE channel in compatibility mode
    function channel(first, control) {
        tell("io", 0, first, 0, 7, "command", "ide")
        tell("io", 0, control, 0, 0, "command", "ide")
    }
    # enhanced PLACE: the entries of an Enhanced Allocation capability that stand for BARs, and for those of virtual
    # functions. An entry that is off or cut tells nothing. Its secondary properties count where the first are reserved.
    function enhanced(place,    left, size, entry, bar, property, wide, base, more, high, more_high) {
        left = below(byte[place + 2], 6)
        place += layout == 1 ? 8 : 4
        for (; left > 0; left--) {
            entry = number(place, 4)
            size = 4 * below(entry, 3)
            bar = below(int(entry / 16), 4)
            property = below(int(entry / 256), 8)
            if (property > 7 && property < 253)
                property = below(int(entry / 65536), 8)
            base = number(place + 4, 4)
            more = number(place + 8, 4)
            wide = bit(base, 1)
            high = wide ? number(place + 12, 4) : 0
            more_high = bit(more, 1) ? number(place + 12 + 4 * wide, 4) : 0
            base -= below(base, 2)
            more += 3 - below(more, 2)
            if (bit(entry, 31) && size == 8 + 4 * wide + 4 * bit(number(place + 8, 4), 1) && place + 4 + size <= 256) {
                if (bar < 6 && property < 3)
                    tell(property == 2 ? "io" : property == 1 ? "pref" : "mem", high, base, more_high, more, "command", "ea" bar)
                if (bar > 8 && bar < 15 && (property == 3 || property == 4) && many > 0)
                    tell_all(property == 3 ? "pref" : "mem", high, base, more_high, more, "vf" (bar - 9))
            }
            place += 4 + size
        }
    }
    # virtual PLACE: the BARs of virtual functions, at 24h to 38h of the SR-IOV capability. System Page Size is at 20h: by
    # bit n a page has 2^(n + 12) addresses, and each virtual function has a page at least.
    function virtual(place,    pages, page, bar, shows, wide, high) {
        pages = number(place + 32, 4)
        for (page = 12; page < 43 && !bit(pages, page - 12); page++)
            continue
        if (pages == 0)
            page = 12
        for (bar = 0; bar < 6; bar++) {
            shows = number(place + 36 + 4 * bar, 4)
            wide = below(int(shows / 2), 2) == 2
            high = wide && bar < 5 ? number(place + 40 + 4 * bar, 4) : 0
            if (!bit(shows, 0) && !(wide && bar == 5) && (shows >= 16 || high > 0))
                tell_all(bit(shows, 3) ? "pref" : "mem", high, shows - below(shows, 4), page < 32 ? 0 : power(page - 32) - 1,
                    page < 32 ? power(page) - 1 : four - 1, "vf" bar "-least")
            bar += wide
        }
    }
    # window SPACE BASE LIMIT BITS NAME: a window of a CardBus bridge; of the two registers the lowest bits do not count.
    function window(space, base, limit, bits, name) {
        base = number(base, 4)
        limit = number(limit, 4)
        base -= below(base, bits)
        limit -= below(limit, bits)
        if (limit > 0 && limit >= base)
            tell(space, 0, base, 0, limit - base + power(bits) - 1, "command", name)
    }
    # cardbus: the socket registers of a CardBus bridge, and its four windows. Bits 8 and 9 of Bridge Control say which
    # windows of memory are prefetchable.
    function cardbus(    socket, i) {
        socket = number(16, 4)
        socket -= below(socket, 12)
        if (socket > 0)
            tell("mem", 0, socket, 0, 4095, "command", "socket")
        for (i = 0; i < 2; i++) {
            window(bit(number(62, 2), 8 + i) ? "pref" : "mem", 28 + 8 * i, 32 + 8 * i, 12, "card" i)
            window("io", 44 + 8 * i, 48 + 8 * i, 2, "card" i)
        }
    }
    # sriov: the place of the SR-IOV capability among the extended ones, or 0. A header has the next place in bits 31 to 20.
    function sriov(    place, steps) {
        for (place = 256; place >= 256 && steps++ < 960; place = 4 * int(number(place + 2, 2) / 64))
            if (number(place, 2) == 16)
                return place
        return 0
    }
    # finish: tells of the function that was read. A capabilities list that comes to a place twice ends there.
    function finish(    place, seen, at, is_express) {
        if (!mine)
            return
        if (last < 15)
            refuse(slot ": not all of the lines 00 to f0; root reads them, with lspci -xxxx")
        if (last > 15 && last < 255)
            refuse(slot ": not all of the lines 100 to ff0")
        functions++
        if (number(0, 2) == 65535)
            return
        layout = below(byte[14], 7)
        at = last == 255 ? sriov() : 0
        many = at && bit(byte[at + 8], 0) && bit(byte[at + 8], 3) ? number(at + 16, 2) : 0
        if (layout < 2 && bit(byte[6], 4))
            for (place = byte[52] - below(byte[52], 2); place >= 64 && !(place in seen); place = byte[place + 1] - below(byte[place + 1], 2)) {
                seen[place] = 1
                if (byte[place] == 20)
                    enhanced(place)
                if (byte[place] == 16)
                    is_express = 1
            }
        short += is_express && last == 15
        if (layout == 0 && byte[11] == 1 && byte[10] == 1) {
            if (!bit(byte[9], 0))
                channel(496, 1014)
            if (!bit(byte[9], 2))
                channel(368, 886)
        }
        if (many > 0)
            virtual(at)
        if (layout == 2 && cards)
            cardbus()
    }
    BEGIN { four = 4294967296 }

    match($0, /^([0-9a-f][0-9a-f][0-9a-f][0-9a-f]+:)?[0-9a-f][0-9a-f]:[01][0-9a-f]\.[0-7]/) {
        finish()
        mine = (RLENGTH == 7 ? "0000" : substr($0, 1, RLENGTH - 8)) == domain
        slot = substr($0, RLENGTH - 6, 7)
        if (mine && substr($0, RLENGTH + 1, 1) == "/")
            refuse("line " NR ": a path of lspci -P in the place of a slot")
        open = 1
        last = -1
        next
    }
    # `last` is the line of bytes before this one in the block.
    /^[0-9a-f]?[0-9a-f]0: / {
        row = $1
        sub(/0:$/, "", row)
        row = value(row)
        if (!open || row <= last)
            refuse("line " NR ": bytes without a slot line before them")
        if (mine && (NF != 17 || $0 !~ /^[0-9a-f]+:( [0-9a-f][0-9a-f])+ *$/))
            refuse("line " NR ": not sixteen bytes")
        if (mine && row != last + 1)
            refuse(slot ": not all of the lines " (row < 16 ? "00 to f0" : "100 to ff0") " before line " NR)
        last = row
        if (mine)
            for (n = 0; n < 16; n++)
                byte[16 * row + n] = value($(n + 2))
    }
    END {
        if (refused)
            exit 1
        finish()
        if (functions == 0)
            refuse("no function of domain " domain)
        if (short > 0)
            remark("nothing is told of virtual functions, as lines 100 to ff0 are missing (functions: " short "); lspci -xxxx prints them")
        if (lines > 4096)
            refuse(lines " ranges, and a text has at most 4096")
        for (n = 1; n <= lines; n++)
            print line[n] | "sort"
    }'
