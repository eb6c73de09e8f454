#!/bin/sh
# All tables of docs/BENCHMARKS.md but the line program's, in Markdown: times and ratios, then instructions. The peers are measured on the
# newest C library, and this machine's has its column of a run before; where there is no newest one, all are measured on this machine's.
# tables.sh BENCH FOLDER NEWEST    the program, a folder for what is written down meanwhile, and the newest C library's (newest-libc.sh)
set -eu
bench=${1:?usage: tables.sh BENCH FOLDER NEWEST} folder=${2:?} newest=${3:?}

# counted COMMAND...
counted() {
    sh bench/callgrind.sh "$folder/callgrind" "$@"
}

if loader=$(sh bench/newest-libc.sh "$newest"); then
    echo "first this machine's C library alone, then all peers on the newest one: it takes minutes" >&2
    "$bench" times libc > "$folder/first.times"
    $loader "$bench" times > "$folder/second.times"
    awk -f bench/join.awk "$folder/first.times" "$folder/second.times"
    counted "$bench" count libc > "$folder/first.counts"
    if counted $loader "$bench" count > "$folder/second.counts"; then
        awk -f bench/join.awk "$folder/first.counts" "$folder/second.counts"
    else
        echo 'valgrind cannot run the newest C library'
        counted "$bench" count
    fi
else
    echo 'there is no newest C library here: all peers on this one'
    "$bench" times
    counted "$bench" count
fi
