#!/bin/sh
# The line program against the same job by scanf, fmod and printf, on a million lines. Arguments: the C program, the line program.
set -eu
c=$1
ours=$2
folder=$(dirname "$c")
"$c" make 1000000 > "$folder/lines.in"
for turn in 1 2 3; do
  for program in "$c" "$ours"; do
    from=$(date +%s%N)
    "$program" < "$folder/lines.in" > "$folder/$(basename "$program").out"
    to=$(date +%s%N)
    echo "$(basename "$program"): $(( (to - from) / 1000000 )) ms"
  done
done
# the remainders are the same; the C program's quotient bits are the nearest remainder's
cut -c1-16 "$folder/$(basename "$c").out" > "$folder/c.values"
cut -c1-16 "$folder/$(basename "$ours").out" > "$folder/ours.values"
cmp "$folder/c.values" "$folder/ours.values" && echo "the same 1000000 remainders"
