#!/bin/sh
# What the archive's machine code does without: symbols of other libraries and calls of the system, so that it can ask for no memory; data
# that a call could change; and instructions that compute with floats or change how they are computed. Vector registers only move things:
# two words side by side (punpcklqdq), the upper one of two (pextrq) and words picked from two registers (shufps) among them, and zero,
# which is a register against itself (xorps, xorpd, pxor); stem files hold doubles, which are compared with themselves to tell a NaN.
# machine.sh ARCHIVE
set -eu
archive=${1:?usage: machine.sh ARCHIVE}
asked=$(nm -u "$archive" | awk '$1 == "U" || $1 == "w" { print "asks for " $2 }' | sort -u)
kept=$(objdump -h "$archive" | awk '$2 ~ /^[.](t?data|t?bss)/ && $2 !~ /rel[.]ro/ && $3 !~ /^0*$/ { print "keeps data in " $2 }' | sort -u)
code=$(objdump -d --no-show-raw-insn "$archive")
computed=$(echo "$code" | awk -F '\t' '/file format/ { stems = $1 ~ /^export_stems[.]o:/ }
    NF > 1 { split($2, word, " "); op = word[1]; split(word[2], side, ","); zero = op ~ /^(xorps|xorpd|pxor)$/ && side[1] == side[2] }
    NF > 1 && ($2 ~ /%[xyz]?mm|%st/ || op ~ /^(f|cvt|v?(ld|st)mxcsr|xrstor|emms|syscall|sysenter|int$)/) && op !~ /^(mov[a-z]*|punpcklqdq|pextrq|shufps)$/ && !zero &&
        !(stems && op == "ucomisd") { print "computes by " op }' | sort | uniq -c)
count=$(echo "$code" | grep -c '^ .*:') || count=0
[ "$count" -gt 0 ] || asked='has no code'
[ -z "$asked$kept$computed" ] || { printf '%s\n' "$asked" "$kept" "$computed"; exit 1; }
echo "no symbol of another library, no data, no float arithmetic in $count instructions"
