# Prints, of a file of crates/pciplan/cases, the cases of `faults` that the library can be asked for: without other words of the
# command line and without told ranges, without empty words, which C takes as not said, and without command lines that are
# none.

# Keeps the commands that were read last, with their answer.
function end_commands() {
    if (asked != "" && answer !~ /^2> pciplan: usage/)
        kept = kept asked answer
    asked = answer = ""
}

function end_case() {
    end_commands()
    if (kept != "")
        print board kept
    board = kept = ""
    begun = 0
}

/\\$/ { held = held substr($0, 1, length($0) - 1); next }
held != "" { $0 = held $0; held = "" }
/^$/ { end_case(); next }
/^\$/ {
    if (answer != "")
        end_commands()
    begun = 1
    if (/^\$ faults / && !/''/ && !/ --also /)
        asked = asked $0 "\n"
    next
}
begun { answer = answer $0 "\n"; next }
{ board = board $0 "\n" }
END { end_case() }
