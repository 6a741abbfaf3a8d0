#!/bin/sh
# Opens a picture in headless Chromium and asks the browser itself. Each line of the map is one box with that line as its
# title. Each text stays within its box and within the picture. Boxes overlap only where their addresses do. It prints
# `fine`, or what isn't so, or that the browser gave no answer, with status 1.
#
# Usage: picture_look.sh SVG MAP
set -eu

here=$(CDPATH='' cd -- "$(dirname -- "$0")" && pwd)
room=$(mktemp -d)
trap 'rm -rf "$room"' EXIT
{
    echo '<!doctype html><meta charset="utf-8"><body style="margin:0"><div>'
    cat -- "$1"
    echo '</div><pre id="map">'
    sed 's/&/\&amp;/g; s/</\&lt;/g' "$2"
    echo '</pre><pre id="said"></pre><script>'
    cat -- "$here/picture_look.js"
    echo '</script>'
} >"$room/page.html"
timeout 300 chromium --headless --no-sandbox --disable-gpu --hide-scrollbars --dump-dom "file://$room/page.html" \
    2>"$room/err" | sed -n '/LOOKED$/,/<\/pre>/p' | sed '1d; s/<\/pre>.*//' | tee "$room/said"
[ -s "$room/said" ] || echo 'the browser gave no answer within 300 seconds'
[ "$(cat "$room/said")" = fine ]
