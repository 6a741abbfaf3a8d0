#!/bin/sh
# Prints the sentences of more than 35 words and the table cells of more than 40 in Markdown pages, with their lines, and
# how many there are. Blocks that are indented by four spaces or fenced are left out. A sentence ends with a full stop, a
# question mark or an exclamation mark before a blank and a capital letter, a backquote, an asterisk or a bracket.
#
# Usage: long_sentences.sh PAGE..
set -eu

awk '
    function words(text,    n) {
        n = 0
        while (match(text, /[A-Za-z0-9][A-Za-z0-9_.\/\047-]*/)) {
            n++
            text = substr(text, RSTART + RLENGTH)
        }
        return n
    }
    function judge(sentence) {
        if (words(sentence) > 35) {
            count++
            printf "%s:%d: %d words: %s\n", name, start, words(sentence), substr(sentence, 1, 90)
        }
    }
    function flush(    text, stop, next_one) {
        text = paragraph
        paragraph = ""
        while (match(text, /[.!?] +[A-Z`*[]/)) {
            stop = RSTART
            next_one = RSTART + RLENGTH - 1
            judge(substr(text, 1, stop))
            text = substr(text, next_one)
        }
        judge(text)
    }
    FNR == 1 { flush(); name = FILENAME; fenced = 0 }
    /^```/ { fenced = !fenced; flush(); next }
    fenced || /^    / { flush(); next }
    /^ *\|/ {
        flush()
        cells = split($0, cell, "|")
        for (i = 1; i <= cells; i++)
            if (words(cell[i]) > 40) {
                count++
                printf "%s:%d: a cell of %d words: %s\n", name, FNR, words(cell[i]), substr(cell[i], 2, 80)
            }
        next
    }
    /^ *$/ { flush(); next }
    /^ *([-*#>]+|[0-9]+\.) / { flush() }
    {
        if (paragraph == "") start = FNR
        sub(/^ *([-*#>]+|[0-9]+\.)? */, "")
        paragraph = paragraph (paragraph == "" ? "" : " ") $0
    }
    END { flush(); print count + 0, "places" }' "$@"
