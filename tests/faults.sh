#!/bin/sh
# Each fault that tests/faults.c can make, and the first tests that notice it, in C and in Rust. Fails where neither does, where Rust
# misses one that a Rust host could see, or where a test complains of no fault.
# faults.sh FOLDER CARGO [FAULT...]    the folder with the C programs; the command that runs the Rust tests; both are linked with the
# faults; which ones, if not all
set -eu
folder=${1:?usage: faults.sh FOLDER CARGO}
cargo=${2:?usage: faults.sh FOLDER CARGO}
shift 2
[ $# -gt 0 ] || set -- $(grep -o 'fault("[^"]*")' tests/faults.c | cut -d '"' -f 2)
programs='untouched nans stems stem_writer modes chains fold ldexp libm half fprem'
comparisons='--test folds --test half --test halves --test lists --test published --test readings --test runs --test sequence --test stems --test vectors'
# but for remainders and the writer, what a refusal writes into a single lent number stays inside the safe Rust functions, which have no
# kind but 0 and 1 and no turn with an origin; lists, blocks, files and rooms of 2^32 places, what lies outside of a file, a list or a
# room, bytes that are written and put back, memory and floating-point environments are not for a test in Rust
c_only='scale16-refusal-writes scale80-refusal-writes split64-refusal-writes fold-refusal-writes
    step-only-1-is-nearest run-only-1-is-nearest fold-only-1-is-nearest
    step-length-cut-to-32-bits run-length-cut-to-32-bits fold-lengths-compared-in-32-bits
    stem-open-refusal-writes-the-count stem-open-refusal-writes-the-kind stem-open-refusal-writes-the-start
    stem-open-writes-behind-the-kind stem-fold-refusal-writes stem-fold-writes-the-radius stem-open-file-written
    stem-fold-kind-cut-to-a-byte stem-fold-kind-cut-to-24-bits stem-fold-gauge-before-kind stem-fold-turn-has-an-origin stem-open-length-cut-to-32-bits
    stem-open-reads-a-byte-more stem-open-reads-a-byte-before stem-open-reads-26-bytes-of-any-file
    stem-open-reads-the-last-point-of-the-count stem-open-asks-for-memory stem-open-keeps-memory
    rem32-last-bit-as-the-rounding-mode-says rem64-zero-divisor-is-divided-by rem16-leaves-another-precision
    remquo64-sign-as-the-processor-compares remquo32-leaves-another-rounding-mode
    step-c0-lost-in-another-precision run-quotient-as-the-control-word-rounds scale80-rounded-as-the-control-word-says
    split32-zero-as-the-processor-compares split16-leaves-another-rounding-mode split80-pseudo-denormal-in-the-x87-unit
    fold-flushes-as-the-processor-does fold-nan-made-quiet-by-the-processor
    denormal64-as-the-processor-compares denormal80-leaves-another-precision nan16-leaves-another-rounding-mode
    nan32-quiet-as-the-rounding-mode-says nan64-made-quiet-by-the-processor nan80-made-quiet-in-the-x87-unit
    stem-open-period-compared-by-the-processor stem-fold-rounds-as-the-processor-does stem-fold-flushes-as-the-processor-does
    stem-fold-traps-as-the-processor-does
    stem-write-lists-compared-in-32-bits stem-write-count-cut-to-32-bits stem-write-product-of-32-bits stem-write-product-of-64-bits
    stem-write-room-cut-to-32-bits stem-write-reads-a-reading-more stem-write-reads-a-reading-before stem-write-reads-a-radius-more
    stem-write-reads-a-radius-before stem-write-reads-a-radius-for-each-reading stem-write-reads-the-last-of-any-count
    stem-write-reads-behind-the-room stem-write-writes-before-the-readings stem-write-writes-behind-the-radii
    stem-write-refusal-written-and-put-back stem-write-short-room-header-put-back
    stem-write-asks-for-memory stem-write-keeps-memory stem-write-period-compared-by-the-processor'
c_only=$(echo $c_only)

by_c() {
    for program in $programs; do
        if ! FAULT=$1 "$folder/$program" > "$folder/log" 2>&1; then
            echo "$program"
            return
        fi
    done
    echo nobody
}

by_rust() {
    if (cd rust && FAULT=$1 $cargo test --release --offline -p compare $comparisons) > "$folder/log" 2>&1; then
        echo nobody
    else
        sed -n 's/.*rerun pass .*--test \([a-z_]*\).*/\1/p; $s/.*/nobody/p' "$folder/log" | head -n 1
    fi
}

[ "$(by_c none)" = nobody ] || { echo 'a C program complains of no fault'; exit 1; }
[ "$(by_rust none)" = nobody ] || { echo 'a Rust test complains of no fault'; exit 1; }
faults=0
missed=0
for fault do
    faults=$((faults + 1))
    c=$(by_c "$fault") rust=$(by_rust "$fault")
    printf '%-46s C: %-11s Rust: %s\n' "$fault" "$c" "$rust"
    case $rust in
    nobody) case " $c_only " in *" $fault "*) [ "$c" != nobody ] || missed=$((missed + 1)) ;; *) missed=$((missed + 1)) ;; esac ;;
    esac
done
echo "$faults faults, $missed not noticed"
[ $missed -eq 0 ] && [ $faults -gt 0 ]
