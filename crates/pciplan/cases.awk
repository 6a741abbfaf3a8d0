# Runs the cases of a file: boards written as text, and what the program answers about each.
#
#     # a memory BAR that the window above it doesn't pass
#     00:01.0 bridge 00 01 01 04=0002
#     01:00.0 04=0002 10=e0000000/fff00000
#     $ check dump probe
#     no 60 Unreached 01:00.0 10 mem 00000000e0000000 bridge 00:01.0
#
# The current folder holds the program as `pciplan`; files are written there. At the end stands how many answers were as
# they should be and how many weren't; the status is 1 where one wasn't, or there is none.
#
# A case ends with an empty line. Its lines, in this order:
# - `#` and its title, on one line or more; a title without a case is a heading;
# - functions, each by its slot and what its registers hold. What isn't said is 0, but vendor 1234h and device 5678h:
#   - `bridge PP SS UU`: header type 1, primary, secondary and subordinate bus; a memory window of the first megabyte;
#   - `OFFSET=VALUE` or `OFFSET=VALUE/READS`: a number, its last byte first, and what it reads back after ones were
#     written;
#   - `OFFSET:BYTES`: bytes in their order;
#   - `lineN=FIRST-LAST/FLAGS`, N from 0 to 6: what Linux tells of BAR register N or, by line 6, of the ROM, in digits
#     without leading zeros. A line that isn't said is three zeros;
#   - `| TITLE`, at the end: the title in the dump, and `|| TITLE` behind it: the title in the probe.
#   `dump`, `probe` or `sizes` before the slot: the function stands in that text alone, in a probe with its title too;
# - `!` and a command of the shell, which makes more files of the board's three texts, the files dump, probe and sizes;
# - `$` and the words that the program is given, as a shell reads them. Several such lines have one answer;
# - what is printed then, line by line: to standard output, or, after `2>`, to standard error. `=` stands for nothing,
#   `= FILE` for all that FILE holds, and `>` begins a function of a dump, which is the file planned from then on. The
#   status is 4 where a message ends with `Io`, 2 where there is another but remarks, which begin with
#   `pciplan: assumed` or `pciplan: spare` and a slot, else 1 where the text begins with `no` or with a
#   fault's number, else 0. More commands and words may follow, about the same board.
# A line that ends with `\` goes on in the next one.

function fail(why) {
    print "DIFFERS: " FILENAME ":" FNR ":" title ": " why
    failed++
}

# Puts the bytes of two digits each, from the left, or for a number from the right.
function put(image, offset, digits, is_number,    at, place, count) {
    place = (index(HEX, substr(offset, 1, 1)) - 1) * 16 + index(HEX, substr(offset, 2, 1)) - 1
    count = length(digits) / 2
    for (at = 0; at < count; at++)
        image[place + at] = substr(digits, is_number ? (count - 1 - at) * 2 + 1 : at * 2 + 1, 2)
}

# A block: slot and title, sixteen lines of sixteen bytes, and an empty line.
function block(head, image,    text, at) {
    text = head
    for (at = 0; at < 256; at++)
        text = text (at % 16 ? "" : "\n" substr(HEX, at / 16 + 1, 1) "0:") " " (at in image ? image[at] : "00")
    return text "\n\n"
}

# A number of 64 bits, as Linux prints it.
function number(digits) {
    return "0x" substr("0000000000000000" digits, length(digits) + 1)
}

# A block of a sizes text: slot, seven lines, and an empty line.
function sizes_block(    text, at) {
    text = slot "\n"
    for (at = 0; at < 7; at++)
        text = text (at in resource ? resource[at] : number("0") " " number("0") " " number("0")) "\n"
    return text "\n"
}

# Reads a function's line into `slot`, `label`, `mark`, `image`, `reads` and `resource`.
function read_function(line,    items, count, at, parts, offset) {
    split("", image)
    split("", reads)
    split("", resource)
    label = mark = ""
    if (at = index(line, " || ")) {
        mark = " " substr(line, at + 4)
        line = substr(line, 1, at - 1)
    }
    if (at = index(line, " | ")) {
        label = " " substr(line, at + 3)
        line = substr(line, 1, at - 1)
    }
    count = split(line, items, " ")
    slot = items[1]
    put(image, "00", "34127856")
    at = 2
    if (items[at] == "bridge") {
        put(image, "0e", "01")
        put(image, "18", items[3] items[4] items[5])
        put(reads, "20", "f0fff0ff")
        at = 6
    }
    for (; at <= count; at++) {
        offset = substr(items[at], 1, 2)
        if (items[at] ~ /^[0-9a-f][0-9a-f]:([0-9a-f][0-9a-f])+$/)
            put(image, offset, substr(items[at], 4))
        else if (items[at] ~ /^[0-9a-f][0-9a-f]=([0-9a-f][0-9a-f])+(\/([0-9a-f][0-9a-f])+)?$/) {
            split(substr(items[at], 4), parts, "/")
            put(image, offset, parts[1], 1)
            if (2 in parts)
                put(reads, offset, parts[2], 1)
        } else if (items[at] ~ /^line[0-6]=(0|[1-9a-f][0-9a-f]*)-(0|[1-9a-f][0-9a-f]*)\/(0|[1-9a-f][0-9a-f]*)$/) {
            split(substr(items[at], 7), parts, "[-/]")
            resource[substr(items[at], 5, 1)] = number(parts[1]) " " number(parts[2]) " " number(parts[3])
        } else
            fail("what is " items[at] "?")
    }
}

function write_file(file, text) {
    printf "%s", text >file
    close(file)
}

# Writes the board's texts, once for a case.
function begin() {
    if (!begun) {
        write_file("dump", dump)
        write_file("probe", probe)
        write_file("sizes", sizes)
    }
    begun = 1
}

# Runs the words that were read last, and compares.
function run_words(    at, status, compared, messages) {
    if (!asked)
        return
    if (!told)
        fail("it isn't said what is printed")
    if (planned != "") {
        write_file("planned", planned)
        out = planned
    }
    if (same != "")
        system("cp " same " out.wanted")
    else
        write_file("out.wanted", out)
    write_file("err.wanted", err)
    messages = err
    gsub(/pciplan: (assumed|spare) [^\n]*\n/, "", messages)
    status = messages ~ / Io\n$/ ? 4 : messages != "" ? 2 : out ~ /^(no|[2-6][0-9]) / ? 1 : 0
    compared = "; [ $? -eq " status " ] && cmp -s out out.wanted && cmp -s err err.wanted"
    for (at = 1; at <= asked; at++)
        if (system("./pciplan" words[at] " >out 2>err" compared)) {
            fail("$" words[at] "\nwanted, with status " status ":")
            system("cat out.wanted err.wanted; echo printed:; cat out err")
        } else
            passed++
    asked = told = 0
    out = err = same = planned = ""
}

function end_case() {
    if (dump probe sizes != "" && !begun)
        fail("nothing is asked")
    run_words()
    dump = probe = sizes = title = ""
    begun = 0
}

BEGIN { HEX = "0123456789abcdef" }

/\\$/ { held = held substr($0, 1, length($0) - 1); next }
held != "" { $0 = held $0; held = "" }
/^$/ { end_case(); next }
/^#/ && !begun { title = title substr($0, 2); next }
/^! / {
    run_words()
    begin()
    if (system(substr($0, 3)))
        fail($0)
    next
}
/^\$/ {
    if (told)
        run_words()
    begin()
    words[++asked] = substr($0, 2)
    next
}
begun { told = 1 }
/^2> / && begun { err = err substr($0, 4) "\n"; next }
/^=/ && begun { same = $2; next }
/^> / && begun { read_function(substr($0, 3)); planned = planned block(slot label, image); next }
begun { out = out $0 "\n"; next }
{
    only = $1 ~ /^(dump|probe|sizes)$/ ? $1 : ""
    read_function(only ? substr($0, length(only) + 2) : $0)
    if (!only || only == "dump")
        dump = dump block(slot label, image)
    if (!only || only == "probe")
        probe = probe block(slot (only ? label : mark), reads)
    if (!only || only == "sizes")
        sizes = sizes sizes_block()
}

END {
    end_case()
    if (!passed && !failed)
        fail("no case")
    print FILENAME ": " passed + 0 " passed, " failed + 0 " failed"
    exit failed > 0
}
