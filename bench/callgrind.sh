#!/bin/sh
# Instructions for one operand, by callgrind: those executed inside the measuring loops, their own few included. One run makes all passes,
# and callgrind writes the total of each pass to a part of its own.
# callgrind.sh FOLDER BENCH...    the folder of the parts, which is made anew; the program's command, with its loader before it if it needs
#                                 one, in the mode `count`
set -eu
folder=${1:?usage: callgrind.sh FOLDER BENCH...}
shift
rm -rf "$folder"
mkdir -p "$folder"
valgrind --tool=callgrind --callgrind-out-file="$folder/part" --toggle-collect=measured --dump-after=measured \
    "$@" > "$folder/passes" 2> "$folder/log" || { tail -n 5 "$folder/log" >&2; exit 1; }
part=0
while read -r pass; do
    part=$((part + 1))
    total=$(sed -n 's/^totals: //p' "$folder/part.$part")
    printf '%s\t%s\n' "$pass" "${total:?no total}"
done < "$folder/passes" > "$folder/totals"
# a line is title, unit, corner, row, peer, operands and instructions
awk -F '\t' '
    function cell(text) { return sprintf(" %14s |", text) }
    function flush(    line, rule, r, p) {
        line = sprintf("| %-36s |", corner); rule = "|---|"
        for (p = 1; p <= peers; p++) { line = line cell(peer[p]); rule = rule "---|" }
        print "\n" title "\n\n" line "\n" rule
        for (r = 1; r <= rows; r++) {
            line = sprintf("| %-36s |", row[r])
            for (p = 1; p <= peers; p++) line = line cell(count[r, peer[p]])
            print line
        }
        split("", count); split("", known); peers = rows = 0
    }
    function figure(x) { return x < 1000 ? x : figure(int(x / 1000)) sprintf(",%03d", x % 1000) }
    { head = $1 ": instructions a " $2 }
    head != title { if (title != "") flush(); title = head; corner = $3 }
    rows == 0 || $4 != row[rows] { row[++rows] = $4 }
    !($5 in known) { known[$5]; peer[++peers] = $5 }
    { count[rows, $5] = figure(int($7 / $6 + 0.5)) }
    END { flush() }' "$folder/totals"
rm -rf "$folder"
