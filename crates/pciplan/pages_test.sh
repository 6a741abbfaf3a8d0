#!/bin/sh
# Runs the commands that pages show, as they stand there: in a block that is indented by four spaces, each line that
# begins with `$ ` is a command, those behind it that begin with `> ` go on with it, and the others are what it prints on
# both of its outputs. Blocks that don't begin with `$ ` aren't run, nor are commands that begin with `make` or `parallel`
# where there is no such program. Each page begins in a new folder: it has the texts of crates/pciplan/data and the files
# of machines/, these also below the name `machines`. A page that can't be read fails.
#
# The Rattle that docs/APPLYING.md shows is looked for in the crate that proves it. The lines that capture a machine are the
# same in README.md and in the manual page. No page has a sentence or a table cell that docs/long_sentences.sh
# calls too long, and none has both sides of a merge.
#
# Usage: pages_test.sh PROGRAM [PAGE..]; README.md and all of docs/*.md if none is said.
set -u

here=$(CDPATH='' cd -- "$(dirname -- "$0")" && pwd) || exit 1
made=$(realpath -- "$1") || exit 1
shift
[ $# -gt 0 ] || set -- "$here/../../README.md" "$here"/../../docs/*.md
from=$PWD
room=$(mktemp -d) || exit 1
trap 'rm -rf "$room"' EXIT
mkdir "$room/bin" "$room/steps" || exit 1
printf '#!/bin/sh\nexec "%s" "$@"\n' "$made" >"$room/bin/pciplan"
chmod 755 "$room/bin/pciplan"
PATH=$room/bin:$PATH

# begin: makes the folder in which a page begins.
begin() {
    cd "$room" && rm -rf texts && mkdir texts && cp -- "$here"/data/*.txt "$here"/../../machines/*.* texts &&
        ln -s . texts/machines
}

passed=0 failed=0
for page; do
    begin || exit 1
    cd texts || exit 1
    rm -f ../steps/*
    case $page in
    /*) ;;
    *) page=$from/$page ;;
    esac
    if ! [ -f "$page" ] || ! [ -r "$page" ]; then
        echo "FAILED: $page can't be read"
        failed=$((failed + 1))
        continue
    fi
    # steps/N.run has the N-th command of the page, steps/N.wanted what it prints.
    awk -v steps="$room/steps" '
        !/^    / { runs = 0; next }
        { line = substr($0, 5) }
        line ~ /^\$ / { runs = 1; n++; file = sprintf("%s/%03d", steps, n); printf "" >(file ".wanted")
                        print substr(line, 3) >(file ".run"); next }
        runs && line ~ /^> / { print substr(line, 3) >(file ".run"); next }
        runs { print line >(file ".wanted") }' "$page"
    for step in ../steps/*.run; do
        [ -e "$step" ] || continue
        name="${page##*/}: $(head -n 1 "$step")"
        tool=$(sed 's/ .*//;q' "$step")
        case $tool in
        make | parallel)
            command -v "$tool" >/dev/null || { echo "skipped: $name"; continue; }
            ;;
        esac
        sh "$step" >got 2>&1
        if cmp -s got "${step%.run}.wanted"; then
            echo "ok: $name"
            passed=$((passed + 1))
        else
            echo "DIFFERS: $name"
            cat got
            failed=$((failed + 1))
        fi
    done
done
# the lines that capture a machine, those of the manual page without its escapes
sed -n '/^    export LC_ALL=C; S=/,/^    done 3>/s/^    //p' "$here/../../README.md" >../capture
sed -n -e '/^export LC_ALL=C; S=/,/^done 3>/!d' -e 's/\\-/-/g' -e "s/\\\\(aq/'/g" -e 's/\\(ha/^/g' -e 's/\\e/\\/g' -e p \
    "$here/../../docs/pciplan.1" >../capture.page
name='pciplan.1: the lines of README.md that capture a machine'
if [ -s ../capture ] && cmp -s ../capture ../capture.page; then
    echo "ok: $name"
    passed=$((passed + 1))
else
    echo "DIFFERS: $name"
    diff ../capture ../capture.page
    failed=$((failed + 1))
fi
name='README.md and docs/*.md: short sentences'
if long=$("$here/../../docs/long_sentences.sh" "$here/../../README.md" "$here"/../../docs/*.md) && [ "$long" = '0 places' ]; then
    echo "ok: $name"
    passed=$((passed + 1))
else
    echo "FAILED: $name"
    printf '%s\n' "$long"
    failed=$((failed + 1))
fi
name='README.md and docs/*.md: no side of a merge'
if grep -nE '^(<{7}|>{7}) ' "$here/../../README.md" "$here"/../../docs/*.md; then
    echo "FAILED: $name"
    failed=$((failed + 1))
else
    echo "ok: $name"
    passed=$((passed + 1))
fi
flat() {
    tr -s ' \n' ' '
}
proved=$(flat <"$here/../test_moves/src/firmware.rt")
awk '/^```rust/ { shows = 1; next } /^```/ && shows { shows = 0; print "@" } shows' "$here/../../docs/APPLYING.md" |
    flat | tr '@' '\n' >../shown
blocks=0
while read -r block; do
    name="APPLYING.md: $(printf '%.60s' "$block")"
    case $block in '') continue ;; esac
    blocks=$((blocks + 1))
    case $proved in
    *"$block"*) echo "ok: $name"; passed=$((passed + 1)) ;;
    *) echo "DIFFERS: $name"; failed=$((failed + 1)) ;;
    esac
done <../shown
if [ $blocks -eq 0 ]; then
    echo 'FAILED: APPLYING.md shows no Rattle'
    failed=$((failed + 1))
fi
echo "$passed passed, $failed failed"
[ "$failed" -eq 0 ]
