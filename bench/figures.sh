#!/bin/sh
# The pictures of docs/BENCHMARKS.md: the time of one call against the gap D, by gnuplot, from what the benchmark prints.
# figures.sh BENCH FOLDER NEWEST PICTURES    as for tables.sh, and where the pictures go
set -eu
bench=${1:?usage: figures.sh BENCH FOLDER NEWEST PICTURES} folder=${2:?} newest=${3:?} pictures=${4:?}
loader=$(sh bench/newest-libc.sh "$newest")
"$bench" gaps64 libc > "$folder/first.gaps"
$loader "$bench" gaps64 > "$folder/second.gaps"
$loader "$bench" gaps80 > "$folder/x87.gaps"
gnuplot -e "folder='$folder'; pictures='$pictures'" bench/figures.gp
