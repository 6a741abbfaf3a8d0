#!/usr/bin/env bash
# Tries the edits of crates/NAME/edits, which the gate leaves out: the prover has to refuse each. It works in a clone of
# the last commit, a crate on each processor, and prints the edits that were not refused, then how many were and weren't.
#
# Usage: try_edits.sh [NAME..], by default all crates that have such edits; RT_JOBS sets how many crates at a time.
set -u
top=$(cd "$(dirname "$0")" && pwd) || exit 1
room=$(mktemp -d) || exit 1
trap 'rm -rf "$room"' EXIT
git clone -q "$top" "$room/tree" || exit 1
cd "$room/tree" || exit 1

names=("$@")
if [ "$#" -eq 0 ]; then
    for folder in crates/*/edits; do
        names+=("$(basename "$(dirname "$folder")")")
    done
fi
for name in "${names[@]}"; do
    [ -d "crates/$name/edits" ] || { echo "crates/$name has no edits" >&2; exit 2; }
    rm -rf "crates/$name/must-fail"
    mv "crates/$name/edits" "crates/$name/must-fail"
done

# rt answers 1 where an edit isn't refused, which is counted below.
printf '%s\n' "${names[@]}" | xargs -P "${RT_JOBS:-$(nproc)}" -I{} sh -c "rt must-fail {} >'$room/{}.told' 2>&1; :"

refused=0 others=0
for name in "${names[@]}"; do
    all=$(find "crates/$name/must-fail" -name '*.edit' | wc -l)
    here=$(grep -c ': refused, as it must be' "$room/$name.told")
    echo "$name: $here of $all refused"
    [ "$here" -eq "$all" ] || grep -v ': refused, as it must be' "$room/$name.told"
    refused=$((refused + here)) others=$((others + all - here))
done
echo "$refused edits refused, $others not"
[ "$others" -eq 0 ]
