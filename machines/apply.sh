#!/bin/sh
# Makes the register writes that `pciplan settle --writes` printed on this machine, through Linux' sysfs. DUMP is the dump
# that they were made of, WRITES holds what was printed.
#
# All is checked first, and nothing is written where a check finds something:
#
# - each line of WRITES is one of `--writes`, and names a register of DUMP;
# - the machine has the functions of DUMP and no others, but for SR-IOV's virtual functions; each has the same Vendor and
#   Device ID, the same header layout, and the same value in Command and in each address register;
# - no function that is written has a driver. Bridges may have one. With --unbind the drivers are unbound and the registers
#   are compared once more, as a driver may change Command.
#
# Without --yes nothing is written or unbound, and what would be done is printed. With --yes each write is made in one
# access of its width, is read back, and is printed. The first that fails or reads back otherwise is the last. All bits of
# Command are compared, too: `settle` changes bits 0 and 1 alone. A bit that is wired to a value reads back as the dump has
# it, so only a wired bit 0 or 1 can stop the writes.
#
# Usage: apply.sh [--yes] [--unbind] DUMP WRITES [DOMAIN], as root; domain 0000 if none is said. SYSFS says where sysfs is,
# if not in /sys. The status is 0 where all writes were made, or printed; 1 where nothing was written; 2 where it stopped on
# the way: standard error says after how many writes, and at which.
set -u
export LC_ALL=C

yes=
unbinds=
stopped=

# refused WHY: says why nothing is written.
refused() {
    printf 'apply.sh: %s\n' "$1" >&2
    return 1
}

# text_of FILE: the text and a full stop, as the shell drops line feeds at the end.
text_of() {
    cat -- "$1" 2>/dev/null && echo .
}

# registers_of NAME: reads a dump, and prints the registers that are compared: slot, offset, width, and the bytes as digits
# in rising order. Offset and width are decimal. The status is 1 where the text is no dump; NAME is the file's.
registers_of() {
    awk -v name="$1" '
        function refused(why) {
            printf "apply.sh: %s: line %d: %s\n", name, NR, why | "cat >&2"
            bad = 1
            exit 1
        }
        function say(offset, width) {
            print slot, offset, width, substr(bytes, 2 * offset + 1, 2 * width)
        }
        function said(    offset) {
            say(0, 4)
            say(14, 1)
            say(4, 2)
            if (substr(bytes, 29, 2) ~ /^[08]0$/) {
                for (offset = 16; offset <= 36; offset += 4)
                    say(offset, 4)
                say(48, 4)
            } else if (substr(bytes, 29, 2) ~ /^[08]1$/) {
                say(16, 4)
                say(20, 4)
                say(28, 2)
                for (offset = 32; offset <= 48; offset += 4)
                    say(offset, 4)
                say(56, 4)
            } else
                refused("its function has a header that is neither of a device nor of a bridge")
        }
        NR % 18 == 1 {
            before = slot
            slot = substr($0, 1, 7)
            bytes = ""
            if ($0 !~ /^[0-9a-f][0-9a-f]:[01][0-9a-f]\.[0-7]( |$)/ || slot <= before)
                refused("no slot, or none above the one before")
            next
        }
        NR % 18 == 0 {
            if ($0 != "")
                refused("no empty line")
            said()
            next
        }
        {
            row = substr("0123456789abcdef", NR % 18 - 1, 1) "0:"
            if (substr($0, 1, 3) != row || length($0) != 51 || substr($0, 4) !~ /^( [0-9a-f][0-9a-f])+$/)
                refused("no row " row " of 16 bytes")
            gsub(/ /, "")
            bytes = bytes substr($0, 4)
        }
        END {
            if (!bad && NR % 18 != 0)
                refused("the text ends in a block")
            exit bad
        }'
}

# steps_of NAME: reads registers, a line `writes` and the lines of writes, and prints for each write its line, the offset and
# the width as decimals, the bytes as digits in rising order, and the same as printf writes them. The status is 1 where a
# line is none of `--writes`, or isn't made of the registers; NAME is the file's.
steps_of() {
    awk -v name="$1" '
        function refused(why) {
            printf "apply.sh: %s: line %d: %s\n", name, NR - start, why | "cat >&2"
            bad = 1
            exit 1
        }
        function digit(at, from) { return index("0123456789abcdef", substr(from, at, 1)) - 1 }
        # the bits of Command other than 0 and 1, of bytes in rising order
        function others(of) { return substr(of, 1, 1) int(digit(2, of) / 4) substr(of, 3) }
        !start && $0 == "writes" { start = NR; next }
        !start { held[$1, $2, $3] = $4; there[$1] = 1; next }
        !/^[0-9a-f][0-9a-f]:[01][0-9a-f]\.[0-7] [0-9a-f][0-9a-f]\.[24] [0-9a-f]+$/ { refused("no line of --writes") }
        {
            slot = $1
            offset = 16 * digit(1, $2) + digit(2, $2)
            width = substr($2, 4)
            if (length($0) != 13 + 2 * width)
                refused("no line of --writes")
            if (!(slot in there))
                refused(slot " isn\047t in the dump")
            if (offset < 4 || !((slot, offset, width) in held))
                refused(slot " has no register " $2 " that is written")
            bytes = octal = ""
            for (at = 2 * width - 1; at > 0; at -= 2) {
                bytes = bytes substr($3, at, 2)
                octal = octal sprintf("\\%03o", 16 * digit(at, $3) + digit(at + 1, $3))
            }
            if (offset == 4 && others(bytes) != others(held[slot, 4, 2]))
                refused(slot " 04 changes more than bits 0 and 1 of Command: the writes are of another dump")
            print $0, offset, width, bytes, octal
        }
        END { exit bad }'
}

# machine_of FOLDER..: prints the slot of each function, and the first 64 bytes of its configuration space as digits. A
# virtual function is left out.
machine_of() {
    for folder; do
        if [ ! -e "$folder" ] || [ -e "$folder/physfn" ]; then
            continue
        fi
        echo "${folder##*/"$domain":} $(od -An -v -tx1 -N64 "$folder/config" 2>/dev/null | tr -d ' \n')"
    done
}

# differences: reads registers, a line `machine` and what machine_of prints, and prints what differs, a line for each.
differences() {
    awk '
        function number(bytes,    at, value) {
            for (at = 1; at < length(bytes); at += 2)
                value = substr(bytes, at, 2) value
            return value
        }
        $0 == "machine" || $0 == "" { machine = $0; next }
        machine == "" { register[++registers] = $0; there[$1] = 1; next }
        { bytes[$1] = $2 "" }
        !($1 in there) { print "came " $1 ": the machine has it, the dump doesn\047t" }
        END {
            for (n = 1; n <= registers; n++) {
                split(register[n], has)
                slot = has[1]
                if (!(slot in bytes)) {
                    if (!gone[slot]++)
                        print "gone " slot ": the dump has it, the machine doesn\047t"
                } else if (length(bytes[slot]) != 128) {
                    if (!gone[slot]++)
                        print "unread " slot ": less than 64 bytes of configuration space can be read"
                } else {
                    now = substr(bytes[slot], 2 * has[2] + 1, 2 * has[3])
                    if (now != has[4] "")
                        printf "changed %s %02x: the dump has %s, the machine %s\n", slot, has[2], number(has[4]),
                            number(now)
                }
            }
        }'
}

# has_domain: whether the machine has the domain.
has_domain() {
    set -- "$devices/$domain:"*
    [ -e "$1" ] || refused "no domain $domain in $devices"
}

# as_dumped: whether the machine is as the dump has it; what differs goes to standard error.
as_dumped() {
    differ=$({ printf '%s\nmachine\n' "$registers" && machine_of "$devices/$domain:"*; } | differences) || return
    [ -z "$differ" ] || {
        printf '%s\n' "$differ" | sed 's/^/apply.sh: /' >&2
        return 1
    }
}

# is_bridge SLOT: whether the dump has a bridge in the slot: an address register of two bytes stands at 1Ch.
is_bridge() {
    case "
$registers" in
        *"
$1 28 2 "*) ;;
        *) return 1 ;;
    esac
}

# driven_of SLOT..: prints those of the slots that aren't bridges and have a driver, each with the driver's name.
driven_of() {
    for slot; do
        driver=$devices/$domain:$slot/driver
        if [ -e "$driver" ] && ! is_bridge "$slot"; then
            driver=$(cd -P -- "$driver" && pwd -P)
            echo "$slot ${driver##*/}"
        fi
    done
}

# unbound SLOT DRIVER..: unbinds each driver; the status is 1 at the first that stays.
unbound() {
    while [ $# -gt 0 ]; do
        { printf '%s' "$domain:$1" >"$devices/$domain:$1/driver/unbind"; } 2>/dev/null ||
            refused "the driver $2 of $1 can't be unbound" || return
        echo "unbound $1 $2"
        shift 2
    done
}

# writable SLOT..: whether the functions' registers can be written; the first that can't is named.
writable() {
    for slot; do
        [ -w "$devices/$domain:$slot/config" ] || refused "$slot: its file config can't be written; root can" || return
    done
}

# put CONFIG OFFSET WIDTH BYTES: makes one access. dd hands all bytes over in one call.
put() {
    # shellcheck disable=SC2059
    { printf "$4" | dd of="$1" bs="$3" count=1 seek=$(($2 / $3)) iflag=fullblock conv=notrunc; } 2>/dev/null
}

# got CONFIG OFFSET WIDTH: the bytes that are read back, as digits.
got() {
    od -An -v -tx1 -j "$2" -N "$3" "$1" 2>/dev/null | tr -d ' \n'
}

# halted MADE WHICH: says after how many writes it stops, and at which; the status is 2.
halted() {
    echo "apply.sh: stopped after $1 of $count writes: $2" >&2
    return 2
}

# made: makes the writes that standard input holds as steps; the status is 2 at the first that isn't made.
made() {
    number=0
    while read -r slot register value offset width bytes octal; do
        config=$devices/$domain:$slot/config
        [ -z "$stopped" ] || halted $number "a signal came before $slot $register $value" || return
        put "$config" "$offset" "$width" "$octal" || halted $number "$slot $register $value failed" || return
        back=$(got "$config" "$offset" "$width")
        [ "$back" = "$bytes" ] ||
            halted $number "$slot $register $value reads back ${back:-nothing}, wanted $bytes, lowest byte first" || return
        number=$((number + 1))
        echo "$slot $register $value"
    done
    return 0
}

usage='usage: apply.sh [--yes] [--unbind] DUMP WRITES [DOMAIN]'
while [ $# -gt 0 ]; do
    case $1 in
        --yes) yes=yes ;;
        --unbind) unbinds=yes ;;
        -*) refused "$usage" || exit ;;
        *) break ;;
    esac
    shift
done
[ $# -eq 2 ] || [ $# -eq 3 ] || refused "$usage" || exit
domain=${3-0000}
devices=${SYSFS:-/sys}/bus/pci/devices

dump=$(text_of "$1") || refused "$1 can't be read" || exit
writes=$(text_of "$2") || refused "$2 can't be read" || exit
case $writes in
    . | *'
.') ;;
    *) refused "$2: the last line is cut off" || exit ;;
esac
registers=$(printf '%s' "${dump%.}" | registers_of "$1") || exit
steps=$({ printf '%s\nwrites\n' "$registers" && printf '%s' "${writes%.}"; } | steps_of "$2") || exit
has_domain || exit
as_dumped || refused 'nothing was written: the machine is not as the dump has it; capture it again, and settle again' || exit

slots=$(printf '%s\n' "$steps" | cut -d ' ' -f 1 | sort -u)
# shellcheck disable=SC2086
driven=$(driven_of $slots)
if [ -n "$driven" ] && [ -z "$unbinds" ]; then
    printf '%s\n' "$driven" | sed 's/^\([^ ]*\) \(.*\)/apply.sh: \1 has the driver \2/' >&2
    refused 'nothing was written: stop what uses these functions, and say --unbind' || exit
fi
if [ -z "$steps" ]; then
    printf 'nothing to do: %s has no lines\n' "$2"
    exit 0
fi
if [ -z "$yes" ]; then
    [ -z "$driven" ] || printf '%s\n' "$driven" | sed 's/^/unbind /'
    printf '%s\n' "$steps" | cut -d ' ' -f 1-3
    echo 'apply.sh: nothing was written, as --yes was not said' >&2
    exit 0
fi

# shellcheck disable=SC2086
writable $slots || refused 'nothing was written' || exit

# A session that ends, as where its network card is written, doesn't end the writes. Other signals end them between two.
trap '' HUP PIPE
trap 'stopped=yes' INT TERM
if [ -n "$driven" ]; then
    # shellcheck disable=SC2086
    unbound $driven || refused 'nothing was written' || exit
    as_dumped || refused 'nothing was written: registers changed; capture again, and settle again' || exit
fi
count=$(printf '%s\n' "$steps" | grep -c .)
made <<END
$steps
END
