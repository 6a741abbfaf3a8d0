#!/bin/sh
# Captures the machines of machines/ from their registers, and numbers boards in memory; then builds the library and the
# C test over both memories, runs it, and measures how much a call uses of the array and of the stack: c/test.sh, from
# anywhere. The library takes a proof to build: `c/test.sh --built` takes it as `rt lib` left it, and says so where it
# isn't there; `c/test.sh --capture` leaves it out.
set -e
here=$(cd "$(dirname "$0")" && pwd)
machines=$here/../machines
built=$(mktemp -d)
trap 'rm -rf "$built"' EXIT

# compiled OUT WORD..: compiles with the headers at hand.
compiled() {
    out=$1
    shift
    ${CC:-cc} -std=c11 -Wall -Wextra -O2 -I"$here/include" -I"$here/capture" -I"$here/number" \
        -I"$here/apply" -o "$built/$out" "$@"
}

# told PREFIX PROGRAM WORD..: runs a program, and prints what it says behind a prefix.
told() {
    prefix=$1
    shift
    says=$("$@") || { echo "$prefix$says"; exit 1; }
    printf '%s%s\n' "$prefix" "$says" | tee -a "$built/said"
}

# shows PATTERN: what docs/C.md shows of the lines of this pattern is what was printed. How much stack there is depends on
# the compiler.
shows() {
    sed -n '/^## The tests/,$s/^    //p' "$here/../docs/C.md" >"$built/shown"
    for lines in shown said; do
        grep "$1" "$built/$lines" | grep -v stack >"$built/$lines.figures"
    done
    cmp "$built/shown.figures" "$built/said.figures" || { echo 'docs/C.md shows other figures'; exit 1; }
}

# What firmware takes is compiled with no header but the compiler's own.
headers=$(${CC:-cc} -print-file-name=include)
for part in capture/pciplan_capture number/pciplan_number number/pciplan_number_steps apply/pciplan_apply memory/pciplan_fixed_memory \
    processor/pciplan_supported version/pciplan_version example/pciplan_bring_up; do
    compiled "${part##*_}.o" -ffreestanding -nostdinc -isystem "$headers" -c "$here/$part.c"
done

# The memory over an array compiles as C++ too, and for processors of 32 bits, where a compiler for that is at hand.
for compiler in "${CXX:-c++} -x c++ -std=c++11" "${CC:-cc} -x c -std=c11 -m32"; do
    $compiler -fsyntax-only /dev/null 2>/dev/null || continue
    $compiler -fsyntax-only -Wall -Wextra -Werror -ffreestanding -nostdinc -isystem "$headers" -I"$here/include" \
        "$here/memory/pciplan_fixed_memory.c"
done

compiled capture "$here/test/pciplan_capture_test.c" "$built/capture.o"
for machine in desk old port roots; do
    told "$machine: " "$built/capture" "$machines/$machine.dump" "$machines/$machine.probe"
done
# The version is that of the change log, where a patch of 0 isn't written.
compiled version "$here/test/pciplan_version_test.c" "$built/version.o"
told 'version: ' "$built/version"
changed=$(sed -n '/^## /{s/## //p;q;}' "$here/../CHANGELOG.md")
case $("$built/version") in
"$changed" | "$changed.0") ;;
*) echo "CHANGELOG.md begins with $changed"; exit 1 ;;
esac
compiled number "$here/test/pciplan_number_test.c" "$here/test/pciplan_board.c" "$built/number.o" "$built/capture.o"
told 'number: ' "$built/number"
# The writes are those that crates/test_numbering makes on the same boards.
compiled told "$here/test/pciplan_number_told.c" "$here/test/pciplan_board.c" "$built/number.o"
boards=$here/../crates/test_numbering
"$built/told" <"$boards/stdin" | cmp - "$boards/stdout"
"$built/number" 40 | cmp - "$boards/stdin"
told "number: $(grep -vc @ "$boards/stdout")" echo ' writes and answers as in crates/test_numbering'
shows '^number'
# The code that docs/C.md shows, but for what the tests print, is of the example.
flat() {
    tr -s ' \n' ' '
}
example=$(flat <"$here/example/pciplan_bring_up.c")
shown=$(sed -n '1,/^## The tests/{/^    /{p;b};s/.*/@/p}' "$here/../docs/C.md" | flat | tr '@' '\n')
echo "$shown" | while read -r block; do
    case $example in *"$block"*) ;; *) echo "not in the example: $block"; exit 1 ;; esac
done
[ "${1-}" != --capture ] || exit 0

library=$here/../crates/pciplan_c/out/libpciplan_c.a
if [ "${1-}" != --built ]; then
    (cd "$here/../crates/pciplan_c" && rt lib >/dev/null)
elif [ ! -e "$library" ]; then
    echo 'skipped: the calls of the library, which rt lib makes in crates/pciplan_c'
    exit 0
fi
cd "$machines"
for memory in pciplan_memory pciplan_fixed_memory; do
    compiled "$memory" -Wl,--wrap=rattle_alloc,--wrap=rattle_realloc \
        "$here/test/pciplan_test.c" "$here/memory/$memory.c" "$library"
    told "$memory: " "$built/$memory"
done
# The library lists the faults of the program's own cases as the program does.
cases=$here/../crates/pciplan
run_cases() {
    (cd "$built/cases" && awk -f "$cases/cases.awk" "$1")
}
mkdir "$built/cases"
for memory in pciplan_memory pciplan_fixed_memory; do
    compiled cases/pciplan -Wl,--wrap=rattle_alloc,--wrap=rattle_realloc \
        "$here/test/pciplan_faults_test.c" "$here/memory/$memory.c" "$library"
    for of in faults given_reasons host_ranges isa models palette unclaimed vga; do
        awk -f "$here/test/faults_cases.awk" "$cases/cases/$of.txt" >"$built/cases/$of.txt"
        told "$memory: faults of " run_cases "$of.txt"
    done
done
compiled used -Wl,--wrap=rattle_alloc,--wrap=rattle_realloc \
    "$here/test/pciplan_memory_test.c" "$built/memory.o" "$library"
told '' "$built/used"
compiled put "$here/test/pciplan_apply_test.c" "$built/apply.o" "$built/capture.o" "$built/memory.o" "$library"
told '' "$built/put"
# Numbering by the library's steps makes the writes that crates/test_numbering makes.
compiled steps_told "$here/test/pciplan_number_told.c" "$here/test/pciplan_number_steps_test.c" \
    "$built/steps.o" "$here/test/pciplan_board.c" "$built/memory.o" "$library"
"$built/steps_told" <"$boards/stdin" | cmp - "$boards/stdout"
told "by steps: $(grep -vc @ "$boards/stdout")" echo ' writes and answers as in crates/test_numbering'
compiled bring_up "$here/test/pciplan_bring_up_test.c" "$here/test/pciplan_board.c" "$built/up.o" "$built/apply.o" \
    "$built/number.o" "$built/capture.o" "$built/supported.o" "$built/memory.o" "$library"
told '' "$built/bring_up"
compiled stack "$here/test/pciplan_stack_test.c" "$here/memory/pciplan_memory.c" "$library"
told '' "$built/stack" old.dump old.probe
