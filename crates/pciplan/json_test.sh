#!/bin/sh
# Documents of answers, beside tests/json_of.py, which reads the answer's text by the forms of docs/FORMATS.md and shares no
# code with the program. Each command of the files of cases that has a document is run as it stands and behind the word
# `json`: status and messages are to be the same, and the document is to be that of the text. Where Python's jsonschema is
# installed, docs/answer.schema.json is to take each document. At the end json_of.py is tried itself: of texts that are
# changed in one word its document has to change.
#
# Usage: json_test.sh PROGRAM
set -u

here=$(CDPATH='' cd -- "$(dirname -- "$0")" && pwd) || exit 1
made=$(realpath -- "$1") || exit 1
if ! command -v python3 >/dev/null; then
    echo 'skipped: documents of answers, as no Python is here'
    echo '0 passed, 0 failed'
    exit
fi
room=$(mktemp -d) || exit 1
trap 'rm -rf "$room"' EXIT
cp -- "$here"/data/*.txt "$here"/../../machines/* "$room" 2>/dev/null
mkdir "$room/cases"
cd "$room" || exit 1

# The program is run by the files of cases through this script, which notes each command and what it answered.
cat >pciplan <<EOF
#!/bin/sh
"$made" "\$@" >"$room/text" 2>"$room/told"
status=\$?
case \$1 in
check | faults | map | show) ;;
plan | settle) case " \$* " in *' --writes '*) ;; *) set -- ;; esac ;;
*) set -- ;;
esac
if [ \$# -gt 0 ]; then
    "$made" json "\$@" >"$room/document" 2>"$room/document_told"
    again=\$?
    if [ \$again -ne \$status ] || ! cmp -s "$room/told" "$room/document_told"; then
        echo "DIFFERS: json \$*: status \$again, wanted \$status" >>"$room/differ"
    elif [ \$status -le 1 ]; then
        { echo "@ \$1 \$status"; cat "$room/text"; echo @@; } >>"$room/answers"
        cat "$room/document" >>"$room/documents"
    elif [ -s "$room/document" ]; then
        echo "DIFFERS: json \$*: a document at status \$status" >>"$room/differ"
    fi
fi
cat "$room/text"
cat "$room/told" >&2
exit \$status
EOF
chmod 755 pciplan
: >answers
: >documents
: >differ
# told ranges whose names are words of other lines, or have what a JSON string escapes
cat >names.txt <<'EOF'
00:01.0 bridge 00 01 01 04=0002 20=e000e000
01:00.0 04=0002
! printf '%s\n' '01:00.0 pref 00000000e0000000-00000000e0001fff always isa' '01:00.0 mem 00000000e0001000-00000000e0002fff always free' '01:00.0 mem 00000000e0200000-00000000e02fffff held "\' >told
! printf '%s\n' '01:00.0 mem 00000000e0001000-00000000e0001fff command pref' '01:00.0 io 00001000-00001fff command vga' >told_off
$ faults dump probe --also told --why
$ map dump probe --also told
$ faults dump probe --also told_off --why
$ map dump probe --also told_off
EOF
for cases in "$here"/cases/*.txt names.txt; do
    # `plan` and `settle` without --writes print a dump, which has no document
    awk -f "$here/cases.awk" "$cases" >/dev/null 2>&1
done
export PYTHONDONTWRITEBYTECODE=1
python3 "$here/../../tests/json_of.py" --all <answers >wanted || echo "DIFFERS: tests/json_of.py" >>differ
passed=$(grep -c '' wanted)
failed=$(grep -c '' differ)
cat differ
if ! cmp -s documents wanted; then
    diff documents wanted | head -n 4
    failed=$((failed + 1))
fi
if python3 -c 'import jsonschema' 2>/dev/null; then
    if ! python3 "$here/../../tests/json_of.py" --schema "$here/../../docs/answer.schema.json" <documents; then
        failed=$((failed + 1))
    fi
else
    echo 'skipped: the schema of the documents, as no jsonschema is here'
fi
# one digit of each answer changed: json_of.py sees each change
if ! python3 "$here/../../tests/json_of.py" --changed <answers; then
    failed=$((failed + 1))
fi
echo "$passed passed, $failed failed"
[ "$failed" -eq 0 ] && [ "$passed" -gt 0 ]
