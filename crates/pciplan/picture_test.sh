#!/bin/sh
# The pictures of the built program beside those of tests/picture_of.py, byte by byte: of the boards of crates/pciplan/data,
# the kept machines, the boards of the cases that have a map, and a board whose titles hold markup. Each picture is well
# formed, each line of its map is the title of one box, and no words leave it. Where Chromium is installed it is asked the
# same (tests/picture_look.sh). Prints what differs, and at the end how many pictures were as they should be.
#
# Usage: picture_test.sh PROGRAM
set -u

here=$(CDPATH='' cd -- "$(dirname -- "$0")" && pwd) || exit 1
made=$(realpath -- "$1") || exit 1
if ! command -v python3 >/dev/null; then
    echo 'skipped: pictures, as no Python is here'
    echo '0 passed, 0 failed'
    exit
fi
judges=$here/../../tests
judge=$judges/picture_of.py
browser=no
if command -v chromium >/dev/null; then
    browser=yes
else
    echo 'skipped: pictures in a browser, as no Chromium is here'
fi
machines=$here/../../machines
room=$(mktemp -d) || exit 1
trap 'rm -rf "$room"' EXIT
passed=0 failed=0

# same NAME WORDS..: the picture of a board and its words is the judge's. A board of the cases may have no map.
same() {
    name=$1
    shift
    if ! "$made" map "$@" >"$room/map" 2>/dev/null; then
        case $name in case*) return ;; esac
        echo "DIFFERS: no map of $name: $*"
        failed=$((failed + 1))
        return
    fi
    # the two texts may stand behind options, one of which names a file too
    dump='' probe='' before=''
    for word; do
        if [ "$before" != --also ] && [ -f "$word" ]; then
            dump=${dump:-$word} probe=$word
        fi
        before=$word
    done
    "$made" faults --why "$@" >"$room/faults" 2>/dev/null
    "$made" show "$dump" "$probe" >"$room/show" 2>/dev/null
    "$made" picture "$@" >"$room/svg" 2>/dev/null
    if python3 "$judge" "$room/show" "$room/map" "$room/faults" "$dump" >"$room/wanted" &&
        cmp -s "$room/wanted" "$room/svg" && python3 "$judge" --look "$room/svg" "$room/map" >"$room/looked"; then
        passed=$((passed + 1))
        looked "$name"
    else
        echo "DIFFERS: the picture of $name: $*"
        cat "$room/looked" 2>/dev/null
        failed=$((failed + 1))
    fi
}

# the same as the browser sees it; the boards of the cases are looked at where LOOK=all is said
looked() {
    case $browser-$1 in
    no-*) return ;;
    yes-case*) [ "${LOOK-}" = all ] || return ;;
    esac
    if "$judges/picture_look.sh" "$room/svg" "$room/map" >"$room/seen"; then
        passed=$((passed + 1))
    else
        echo "DIFFERS: in Chromium the picture of $1"
        cat "$room/seen"
        failed=$((failed + 1))
    fi
}

# no map, no picture
refused() {
    "$made" map "$@" >"$room/map" 2>/dev/null
    status=$?
    "$made" picture "$@" >"$room/svg" 2>/dev/null
    if [ $? -eq $status ] && cmp -s "$room/map" "$room/svg"; then
        passed=$((passed + 1))
    else
        echo "DIFFERS: no picture of: $*"
        failed=$((failed + 1))
    fi
}

for board in two tree bare plugged; do
    same "$board" "$here/data/$board.txt" "$here/data/${board}_probe.txt"
done
same dump "$here/data/dump.txt" "$here/data/probe.txt"
for machine in desk old port; do
    same "$machine" "$machines/$machine.dump" "$machines/$machine.probe" --model all
done
same roots "$machines/roots.dump" "$machines/roots.probe" --root 00,40
refused "$machines/roots.dump" "$machines/roots.probe"

# ranges that are told of the first function, of another one, and of one that isn't listed
"$made" show "$here/data/two.txt" "$here/data/two_probe.txt" | awk '
    / type / { slot[n++] = $1 }
    END {
        print slot[0] " io 0000f000-0000f03f always"
        print slot[n - 1] " mem 00000000e0000000-00000000e0003fff always vf0"
        print slot[n - 1] " pref 00000000e0000000-00000000e0000fff always <b>"
        print slot[n - 1] " mem 00000000e0800000-00000000e0800fff command ea0"
        print "fe:1f.7 mem 00000000fd000000-00000000fdffffff held p2sb"
        print "fe:1f.7 pref 00000000fd000000-00000000fd000fff held"
        print "ff:1f.7 mem 00000000fe000000-00000000fe000fff held"
    }' >"$room/told.also"
same told "$here/data/two.txt" "$here/data/two_probe.txt" --root 00,fe,ff --also "$room/told.also"

# titles that hold markup, quotes, bytes above 7Fh, and what ends an element
python3 - "$here/data/two.txt" "$room/titles.txt" <<'END'
import sys
titles = [b'</title></rect><script>alert("1")</script>', b"a & b <b> 'c' \"d\" &amp; ]]> <!-- x -->", b'caf\xe9 \xff\x80 </text>',
          b'  ', b'x' * 200]
lines = open(sys.argv[1], 'rb').read().split(b'\n')
slots = [n for n, line in enumerate(lines) if line[2:3] == b':' and line[5:6] == b'.']
for n, line in enumerate(slots):
    lines[line] = lines[line][:7] + b' ' + titles[n % len(titles)]
open(sys.argv[2], 'wb').write(b'\n'.join(lines))
END
same titles "$room/titles.txt" "$here/data/two_probe.txt"

# each board of the cases that is judged, with the words that `map` takes too
cat >"$room/pciplan" <<'END'
#!/bin/sh
task=$1
case $task in
check | faults | map)
    shift
    words=
    for word; do
        [ "$word" = --why ] || words="$words $word"
    done
    board=$ROOM/board$(wc -l <"$ROOM/list")
    texts='dump probe'
    case $words in *' --also told'*) texts="$texts told" ;; esac
    # shellcheck disable=SC2086
    if ! { cat $texts && echo "$words"; } 2>/dev/null | cksum | grep -qxFf - "$ROOM/seen"; then
        { cat $texts && echo "$words"; } 2>/dev/null | cksum >>"$ROOM/seen"
        mkdir "$board" && cp $texts "$board" 2>/dev/null
        echo "$words" >>"$ROOM/list"
    fi
    set -- "$task" "$@"
    ;;
esac
exec "$MADE" "$@"
END
chmod +x "$room/pciplan"
: >"$room/list"
: >"$room/seen"
for cases in "$here"/cases/*.txt; do
    (cd "$room" && ROOM=$room MADE=$made awk -f "$here/cases.awk" "$cases" >/dev/null 2>&1)
done
n=0
while read -r words; do
    # a case may name other files than the dump and the probe
    # shellcheck disable=SC2086
    if cd "$room/board$n"; then
        same "case $n" $words
    fi
    n=$((n + 1))
done <"$room/list"

# the pictures of the pages
shown() {
    if "$made" picture "$2" "$3" --root "$4" | cmp -s - "$here/../../docs/picture_$1.svg"; then
        passed=$((passed + 1))
    else
        echo "DIFFERS: docs/picture_$1.svg"
        failed=$((failed + 1))
    fi
}
shown small "$here/data/two.txt" "$here/data/two_probe.txt" 00
shown server "$machines/roots.dump" "$machines/roots.probe" 00,40

echo "$passed passed, $failed failed"
[ "$failed" -eq 0 ]
