#!/bin/sh
# Shows the lines of `rt ci` as they come, and holds its verdict, the last one, back in FOLDER/verdict. FOLDER/ci.log gets them all, each
# behind the seconds since the start. An edit that rt could not try as it stands, a bad one, counts for nothing there, and here as failed:
# this fails where the line `rt: ok` tells of any, and where there is no such line.
# rt ci | held.sh FOLDER
set -eu
folder=${1:?usage: held.sh FOLDER}
mkdir -p "$folder"
start=$(date +%s)
now=0 begun='' held='' ok='' bad=0
: > "$folder/ci.log"
while IFS= read -r line; do
    case $line in
    'rt: '*) now=$(($(date +%s) - start)) ;;
    esac
    case $line in
    'rt: ok'*)
        ok=yes
        bad=$(printf '%s\n' "$line" | sed -n 's/.*, \([0-9][0-9]*\) bad.*/\1/p')
        bad=${bad:-0}
        ;;
    esac
    printf '%s\t%s\n' "$now" "$line" >> "$folder/ci.log"
    [ -z "$begun" ] || printf '%s\n' "$held"
    begun=yes
    held=$line
done
if [ "$bad" -gt 0 ]; then
    echo "$bad edits that must be refused are bad: they say nothing of a contract, and count as failed"
    held=$(printf '%s\n' "$held" | awk -v bad="$bad" '{ $3 += bad; print }')
fi
printf '%s\n' "$held" > "$folder/verdict"
[ "$bad" -eq 0 ] && [ -n "$ok" ]
