#!/bin/sh
# Writes the README's tables of commands and statuses from docs/commands.txt, each between its marks.
#   tools/commands_table.sh           writes them
#   tools/commands_table.sh --check   shows where they differ, and then ends with 1
cd "$(dirname "$0")/.." || exit 2
new=$(mktemp) || exit 2
trap 'rm -f "$new"' EXIT

awk '
    function end_row() {
        if (words != "") rows[++count] = "| `./os " words "` | " does " | " takes " | " gives " | " ends " |"
        words = ends = ""
    }
    function tables(name, i) {
        if (name == "commands") {
            print "| command | does | takes | gives | ends with |\n|---|---|---|---|---|"
            for (i = 1; i <= count; i++) print rows[i]
        } else {
            print "| status | meaning |\n|---|---|"
            for (i = 1; i <= statuses; i++) print status[i]
        }
    }
    { line = $0; sub(/^[a-z]+ /, "", line); gsub(/\|/, "\\|", line); gsub(/docs\/[a-z_\/]+\.md/, "`&`", line) }
    FNR == NR && $1 == "command" { end_row() }
    FNR == NR && $1 == "words" { words = line }
    FNR == NR && $1 == "does" { does = line }
    FNR == NR && $1 == "takes" { takes = line }
    FNR == NR && $1 == "gives" { gives = line }
    FNR == NR && $1 == "ends" { ends = ends (ends == "" ? "" : ", ") $2 }
    FNR == NR && $1 == "status" { end_row(); number = $2; sub(/^[0-9]+ /, "", line); status[++statuses] = "| " number " | " line " |" }
    FNR == NR { next }
    /^<!-- end of / { is_left_out = 0 }
    !is_left_out { print }
    /^<!-- (commands|statuses):/ { tables($2 == "commands:" ? "commands" : "statuses"); is_left_out = 1 }
' docs/commands.txt README.md >"$new" || exit 2

if [ "${1-}" = --check ]; then
    diff README.md "$new"
else
    cat "$new" >README.md
fi
