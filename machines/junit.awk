# Prints the lines `STATUS NAME ANSWER` that docs/CI.md makes of layouts as a JUnit report: a fault of a board is a failure,
# a text or a word that is none, and what is missing, an error.
function escaped(text) {
    gsub(/&/, "\\&amp;", text)
    gsub(/</, "\\&lt;", text)
    gsub(/>/, "\\&gt;", text)
    gsub(/"/, "\\&quot;", text)
    return text
}

{
    status = $1
    name = $2
    sub(/^[^ ]* [^ ]* ?/, "")
    cases = cases "  <testcase classname=\"pciplan\" name=\"" escaped(name) "\""
    if (status == 0)
        cases = cases "/>\n"
    else {
        kind = status == 1 ? "failure" : "error"
        count[kind]++
        cases = cases "><" kind " message=\"" escaped($0) "\"/></testcase>\n"
    }
}

END {
    print "<?xml version=\"1.0\" encoding=\"UTF-8\"?>"
    printf "<testsuite name=\"pciplan\" tests=\"%d\" failures=\"%d\" errors=\"%d\">\n", NR, count["failure"], count["error"]
    printf "%s</testsuite>\n", cases
}
