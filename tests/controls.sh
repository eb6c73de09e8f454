#!/bin/sh
# What the programs of tests/ are worth: each comparison that they make, with one difference that it has to notice. The programs are those
# of the gate, linked with a library that makes the fault of the row (tests/faults.c); without it the same command has to pass.
# controls.sh FOLDER PROGRAM...    the folder with the programs; those that need a row
set -eu
folder=${1:?usage: controls.sh FOLDER PROGRAM...}
shift
log=$folder/controls.log
controls=0 missed=0 untried=0 passed='' tried=''

# Once for each command: with no fault it passes.
unaltered() {
    case $passed in *"<$1>"*) return 0 ;; esac
    passed="$passed<$1>"
    FAULT=none "$folder/"$1 > "$log" 2>&1 || { echo "$1: complains of no fault"; missed=$((missed + 1)); }
}

# Blocks, lists, files and rooms of 2^32 bytes that the machine has no place for, or no limit of memory: the program says so, and the row
# is not tried.
no_room() {
    case $1 in
    *'long block'*) grep -m 1 '^no room for a long block' "$log" ;;
    *'long list'*) grep -m 1 '^no room for long lists' "$log" ;;
    *'long file'*) grep -m 1 '^no room for a long file' "$log" ;;
    *'long room'*) grep -m 1 '^no place for a long room' "$log" ;;
    *'little memory'*) grep -m 1 '^no limit of memory here' "$log" ;;
    *) return 1 ;;
    esac
}

# A difference is told with status 1, in a line that the row knows; a crash or a missing program is none.
control() {
    status=0
    FAULT=$2 "$folder/"$1 > "$log" 2>&1 || status=$?
    line=$(grep -m 1 -e "$3" "$log") || line=
    controls=$((controls + 1))
    if room=$(no_room "$3"); then
        line=$room
        untried=$((untried + 1))
    elif [ $status -ne 1 ] || [ -z "$line" ]; then
        line="NOT NOTICED (status $status, no '$3')"
        missed=$((missed + 1))
    fi
    printf '%-16s %-44s %s\n' "$1" "$2" "$line"
}

# program and arguments | fault, or none where the command alone makes the difference | the line that tells of it
while IFS='|' read -r command fault line; do
    fault=${fault# } line=${line# }
    command=$(echo $command) fault=${fault%% *}
    [ "$fault" = none ] || unaltered "$command"
    control "$command" "$fault" "$line"
    tried="$tried ${command%% *} "
done << 'ROWS'
untouched   | rem32-infinite-dividend-before-nan         | ^number of a remainder, binary32
untouched   | rem64-refusal-writes                       | ^memory after a remainder, binary64
untouched   | remquo16-infinity-by-zero-is-five          | ^number of a remquo, binary16
untouched   | remquo32-infinite-dividend-before-nan      | ^number of a remquo, binary32
untouched   | remquo64-zero-divisor-is-infinite          | ^number of a remquo, binary64
untouched   | remquo80-infinite-dividend-before-unsupported | ^number of a remquo, x87: 4
untouched   | remquo16-refusal-writes-the-quotient       | ^memory after a remquo, binary16
untouched   | remquo16-refusal-writes-the-value          | ^memory after a remquo, binary16
untouched   | remquo32-refusal-writes-the-quotient       | ^memory after a remquo, binary32
untouched   | remquo32-refusal-writes-the-value          | ^memory after a remquo, binary32
untouched   | remquo64-refusal-writes-the-quotient       | ^memory after a remquo, binary64
untouched   | remquo64-refusal-writes-the-value          | ^memory after a remquo, binary64
untouched   | remquo80-refusal-writes-the-quotient       | ^memory after a remquo, x87
untouched   | remquo80-refusal-writes-the-value          | ^memory after a remquo, x87
untouched   | remquo80-refusal-writes-the-word           | ^memory after a remquo, x87
untouched   | remquo32-writes-a-number-more              | ^memory after a remquo, binary32
untouched   | step-block-of-16-bytes-taken               | ^number of a step,
untouched   | run-block-of-16-bytes-taken                | ^number of a run,
untouched   | run-block-of-16-bytes-taken                | ^number of a run with no budget
untouched   | step-block-of-20-bytes-refused             | ^number of a step,
untouched   | run-block-of-20-bytes-refused              | ^number of a run,
untouched   | step-quotient-not-written                  | ^memory after a step and a run
untouched   | run-quotient-not-written                   | ^memory after a step and a run
untouched   | step-size-before-length                    | ^number of a step,
untouched   | run-size-cut-to-a-byte                     | ^number of a run,
untouched   | run-budget-0-is-1                          | ^number of a run with no budget
untouched   | step-refusal-writes                        | ^memory after a step and a run
untouched   | run-refusal-writes                         | ^memory after a step and a run
untouched   | rem80-unnormal-is-a-number                 | ^an unsupported dividend,
untouched   | rem80-unnormal-is-a-number                 | ^an unsupported divisor,
untouched   | remquo80-unnormal-is-a-number              | ^an unsupported dividend of remquo
untouched   | remquo80-unnormal-is-a-number              | ^an unsupported divisor of remquo
untouched   | rem80-pseudo-denormal-refused              | ^number of a remainder, x87: 2
untouched   | step-pseudo-denormal-refused               | ^number of a step, x87: 2
untouched   | run-pseudo-denormal-refused                | ^number of a run, x87: 2
untouched   | remquo80-pseudo-denormal-refused           | ^number of a remquo, x87: 2
untouched   | remquo80-pseudo-denormal-divisor-refused   | ^number of a remquo, x87: 2
untouched   | remquo80-pseudo-denormal-divisor-is-zero   | ^number of a remquo, x87: 5
untouched   | run-pseudo-denormal-divisor-is-zero        | ^number of a run with no budget, x87: 5
untouched   | step-length-cut-to-32-bits                 | ^number of a step with a long block
untouched   | run-length-cut-to-32-bits                  | ^number of a run with a long block
untouched   | scale16-nan-is-infinite                    | ^number of a scaling, binary16
untouched   | scale80-refusal-writes                     | ^memory after a scaling, x87
untouched   | split32-zero-is-five                       | ^number of a split, binary32
untouched   | split64-refusal-writes                     | ^memory after a split, binary64
untouched   | scale80-pseudo-denormal-refused            | ^number of a scaling, x87: 2
untouched   | split80-pseudo-denormal-refused            | ^number of a split, x87: 2
untouched   | scale80-pseudo-infinity-is-infinite        | ^scaling of an unsupported pattern
untouched   | split80-pseudo-nan-is-a-nan                | ^split of an unsupported pattern
untouched   | fold-divisor-before-length                 | ^number of a refused list
untouched   | fold-refusal-writes                        | ^memory after a refused list
untouched   | fold-marked-list-is-refused                | ^number of a list,
untouched   | fold-mark-is-negative                      | ^memory after a list,
untouched   | fold-nan-divisor-at-each-place             | ^number of a refused list
untouched   | fold-house-nan-for-a-nan                   | ^memory after a list,
untouched   | fold-nan-not-quiet                         | ^memory after a list,
untouched   | fold-nan-loses-its-sign                    | ^memory after a list,
untouched   | fold-nan-loses-its-lower-half              | ^memory after a list,
untouched   | fold-nan-not-marked                        | ^memory after a list,
untouched   | fold-nan-not-counted                       | ^memory after a list,
untouched   | fold-infinity-kept                         | ^memory after a list,
untouched   | fold-infinity-has-its-sign                 | ^memory after a list,
untouched   | fold-marked-list-is-refused                | ^number of a list by infinity
untouched   | fold-house-nan-for-a-nan                   | ^memory after a list by infinity
untouched   | fold-infinity-kept                         | ^memory after a list by infinity
untouched   | fold-mark-is-negative                      | ^memory after a list by infinity
untouched   | fold-lengths-compared-in-32-bits           | ^number of a long list of dividends
untouched   | fold-lengths-compared-in-32-bits           | ^number of a long list of results
untouched   | fold-lengths-compared-in-32-bits           | ^number of a long list of quotients
untouched   | fold-lengths-compared-in-32-bits           | ^a refused long list
untouched   | step-zero-finishes                         | ^number of a written block
untouched   | step-partial-not-counted                   | ^memory after a written block
untouched   | step-pseudo-denormal-kept-by-infinity      | ^memory after a written block
untouched   | run-pseudo-denormal-divisor-refused        | ^number of a written block
untouched   | step-octant-of-four-bits                   | ^memory after a written block
untouched   | step-octant-of-eight-bits                  | ^memory after a written block
untouched   | step-quotient-big-endian                   | ^memory after a written block
untouched   | step-quotient-not-written                  | ^memory after a written block
untouched   | step-quotient-of-three-bits                | ^memory after a written block
untouched   | step-quotient-of-30-bits                   | ^memory after a written block
untouched   | step-quotient-of-32-bits                   | ^memory after a written block
untouched   | run-octant-of-four-bits                    | ^memory after a written block
untouched   | run-octant-of-eight-bits                   | ^memory after a written block
untouched   | run-quotient-big-endian                    | ^memory after a written block
untouched   | run-quotient-not-written                   | ^memory after a written block
untouched   | run-quotient-of-three-bits                 | ^memory after a written block
untouched   | run-quotient-of-30-bits                    | ^memory after a written block
untouched   | run-quotient-of-32-bits                    | ^memory after a written block
untouched   | run-quotient-of-the-last-step              | ^memory after a written block
untouched   | run-parts-added-modulo-8                   | ^memory after a written block
untouched   | run-sum-is-not-folded                      | ^memory after a written block
untouched   | step-writes-a-byte-more                    | ^bytes around a block
untouched   | run-with-no-budget-gives-a-zero            | ^a run with no budget gives the dividend
untouched   | run-spent-after-two-steps-finishes         | ^number of a run with a budget of 300
untouched   | run-budget-cut-to-a-byte                   | ^memory after a run with a budget of 300
untouched   | rem80-pseudo-denormal-kept-by-infinity     | ^remainder of a pseudo-denormal by infinity
untouched   | step-pseudo-denormal-kept-by-infinity      | ^step of a pseudo-denormal by infinity
untouched   | run-pseudo-denormal-kept-by-infinity       | ^run of a pseudo-denormal by infinity
untouched   | remquo80-pseudo-denormal-kept-by-infinity  | ^remquo of a pseudo-denormal by infinity
untouched   | remquo80-by-infinity-is-minus-one          | ^remquo of a pseudo-denormal by infinity
untouched   | rem80-pseudo-denormal-kept-by-a-number     | ^remainder of a pseudo-denormal by 1:
untouched   | step-pseudo-denormal-kept-by-a-number      | ^step of a pseudo-denormal by 1:
untouched   | run-pseudo-denormal-kept-by-a-number       | ^run of a pseudo-denormal by 1:
untouched   | remquo80-pseudo-denormal-kept-by-a-number  | ^remquo of a pseudo-denormal by 1:
untouched   | rem80-pseudo-denormal-is-denormal          | ^remainder of a pseudo-denormal by itself
untouched   | step-pseudo-denormal-is-denormal           | ^step of a pseudo-denormal by itself
untouched   | run-pseudo-denormal-is-denormal            | ^run of a pseudo-denormal by itself
untouched   | remquo80-pseudo-denormal-is-denormal       | ^remquo of a pseudo-denormal by itself
untouched   | step-pseudo-denormal-is-denormal           | ^step of a pseudo-denormal by its ordinary pattern
untouched   | remquo80-sign-of-x                         | ^remquo of a pseudo-denormal by its ordinary pattern
untouched   | rem80-pseudo-denormal-divisor-is-denormal  | ^remainder of an ordinary pattern by its pseudo-denormal
untouched   | step-pseudo-denormal-divisor-is-denormal   | ^step of an ordinary pattern by its pseudo-denormal
untouched   | run-pseudo-denormal-divisor-is-denormal    | ^run of an ordinary pattern by its pseudo-denormal
untouched   | remquo80-pseudo-denormal-divisor-is-denormal | ^remquo of an ordinary pattern by its pseudo-denormal
untouched   | rem80-pseudo-denormal-divisor-is-zero      | ^remainder of a zero by a pseudo-denormal
untouched   | step-pseudo-denormal-divisor-is-zero       | ^step of a zero by a pseudo-denormal
untouched   | remquo80-zero-is-minus-one                 | ^remquo of a zero by a pseudo-denormal
untouched   | run-pseudo-denormal-kept-with-no-budget    | ^a run of a pseudo-denormal with no budget
untouched   | scale80-pseudo-denormal-kept-by-0          | ^a pseudo-denormal scaled by 0
untouched   | split80-pseudo-denormal-exponent-too-low   | ^a pseudo-denormal split,
untouched   | split80-pseudo-denormal-is-denormal        | ^a pseudo-denormal split and scaled back
untouched   | rem16-only-1-is-nearest                    | ^a kind, binary16
untouched   | rem32-other-kinds-write-more               | ^memory after a kind, binary32
untouched   | remquo32-only-1-is-nearest                 | ^a kind of a remquo, binary32
untouched   | remquo80-only-1-is-nearest                 | ^a kind of a remquo, x87
untouched   | remquo16-quotient-is-cut                   | ^a kind of a remquo, binary16
untouched   | remquo64-quotient-is-cut                   | ^a kind of a remquo, binary64
untouched   | step-only-1-is-nearest                     | ^a kind of a step
untouched   | run-only-1-is-nearest                      | ^a kind of a run
untouched   | fold-only-1-is-nearest                     | ^a kind of a list
untouched   | fold-dividend-written                      | ^the dividends of a list
untouched   | rem16-quotient-of-30-bits                  | ^a quotient, binary16
untouched   | rem32-quotient-of-30-bits                  | ^a quotient, binary32
untouched   | rem64-quotient-of-30-bits                  | ^a quotient, binary64
untouched   | rem80-quotient-of-30-bits                  | ^a quotient, x87
untouched   | rem32-modulus-is-not-folded                | ^a quotient, binary32
untouched   | remquo16-zero-loses-its-sign               | ^a value of remquo, binary16
untouched   | remquo32-last-bit-is-wrong                 | ^a value of remquo, binary32
untouched   | remquo64-zero-loses-its-sign               | ^a value of remquo, binary64
untouched   | remquo80-zero-has-the-divisors-sign        | ^a value of remquo, x87
untouched   | remquo16-sign-of-x                         | ^a quotient of remquo, binary16
untouched   | remquo16-sign-of-y                         | ^a quotient of remquo, binary16
untouched   | remquo32-sign-of-x                         | ^a quotient of remquo, binary32
untouched   | remquo32-sign-of-y                         | ^a quotient of remquo, binary32
untouched   | remquo64-sign-of-x                         | ^a quotient of remquo, binary64
untouched   | remquo64-sign-of-y                         | ^a quotient of remquo, binary64
untouched   | remquo80-sign-of-x                         | ^a quotient of remquo, x87
untouched   | remquo80-sign-of-y                         | ^a quotient of remquo, x87
untouched   | remquo16-quotient-of-30-bits               | ^a quotient of remquo, binary16
untouched   | remquo32-quotient-of-30-bits               | ^a quotient of remquo, binary32
untouched   | remquo64-quotient-of-30-bits               | ^a quotient of remquo, binary64
untouched   | remquo80-quotient-of-30-bits               | ^a quotient of remquo, x87
untouched   | remquo16-modulus-is-the-least-number       | ^a quotient of remquo, binary16
untouched   | remquo64-modulus-is-the-least-number       | ^a quotient of remquo, binary64
untouched   | remquo16-by-infinity-is-minus-one          | ^a quotient of remquo, binary16
untouched   | remquo80-by-infinity-is-minus-one          | ^a quotient of remquo, x87
untouched   | remquo32-zero-is-minus-one                 | ^a quotient of remquo, binary32
untouched   | scale64-cut                                | ^scaling up, binary64
untouched   | scale32-nothing-left-is-up                 | ^scaling down, binary32
untouched   | scale80-half-of-the-smallest-is-up         | ^scaling at a half, x87
untouched   | split64-denormal-exponent-from-its-field   | ^an exponent, binary64
untouched   | split64-denormal-exponent-from-its-field   | ^splitting and back, binary64
nans 2000   | nan16-smaller-significand                  | ^a class by a class: the NaN of binary16
nans 2000   | nan16-divisor-of-equal-significands        | ^a class by a class: the NaN of binary16
nans 2000   | nan16-dividend-of-two                      | ^a class by a class: the NaN of binary16
nans 2000   | nan16-quiet-before-comparing               | ^a class by a class: the NaN of binary16
nans 2000   | nan16-signs-compared                       | ^a class by a class: the NaN of binary16
nans 2000   | nan16-loses-its-sign                       | ^a class by a class: the NaN of binary16
nans 2000   | nan16-not-quiet                            | ^a class by a class: the NaN of binary16
nans 2000   | nan16-house-nan                            | ^a class by a class: the NaN of binary16
nans 2000   | nan16-house-nan-is-negative                | ^a class by a class: the NaN of binary16
nans 2000   | nan16-infinity-counts                      | ^a class by a class: the NaN of binary16
nans 2000   | nan32-smaller-significand                  | ^a class by a class: the NaN of binary32
nans 2000   | nan32-divisor-of-equal-significands        | ^a class by a class: the NaN of binary32
nans 2000   | nan32-dividend-of-two                      | ^a class by a class: the NaN of binary32
nans 2000   | nan32-quiet-before-comparing               | ^a class by a class: the NaN of binary32
nans 2000   | nan32-signs-compared                       | ^a class by a class: the NaN of binary32
nans 2000   | nan32-loses-its-sign                       | ^a class by a class: the NaN of binary32
nans 2000   | nan32-not-quiet                            | ^a class by a class: the NaN of binary32
nans 2000   | nan32-house-nan                            | ^a class by a class: the NaN of binary32
nans 2000   | nan32-house-nan-is-negative                | ^a class by a class: the NaN of binary32
nans 2000   | nan32-infinity-counts                      | ^a class by a class: the NaN of binary32
nans 2000   | nan64-smaller-significand                  | ^a class by a class: the NaN of binary64
nans 2000   | nan64-divisor-of-equal-significands        | ^a class by a class: the NaN of binary64
nans 2000   | nan64-dividend-of-two                      | ^a class by a class: the NaN of binary64
nans 2000   | nan64-quiet-before-comparing               | ^a class by a class: the NaN of binary64
nans 2000   | nan64-signs-compared                       | ^a class by a class: the NaN of binary64
nans 2000   | nan64-loses-its-sign                       | ^a class by a class: the NaN of binary64
nans 2000   | nan64-not-quiet                            | ^a class by a class: the NaN of binary64
nans 2000   | nan64-house-nan                            | ^a class by a class: the NaN of binary64
nans 2000   | nan64-house-nan-is-negative                | ^a class by a class: the NaN of binary64
nans 2000   | nan64-infinity-counts                      | ^a class by a class: the NaN of binary64
nans 2000   | nan80-smaller-significand                  | ^a class by a class: the NaN of x87
nans 2000   | nan80-divisor-of-equal-significands        | ^a class by a class: the NaN of x87
nans 2000   | nan80-dividend-of-two                      | ^a class by a class: the NaN of x87
nans 2000   | nan80-quiet-before-comparing               | ^a class by a class: the NaN of x87
nans 2000   | nan80-signs-compared                       | ^a class by a class: the NaN of x87
nans 2000   | nan80-loses-its-sign                       | ^a class by a class: the NaN of x87
nans 2000   | nan80-not-quiet                            | ^a class by a class: the NaN of x87
nans 2000   | nan80-house-nan                            | ^a class by a class: the NaN of x87
nans 2000   | nan80-house-nan-is-negative                | ^a class by a class: the NaN of x87
nans 2000   | nan80-infinity-counts                      | ^a class by a class: the NaN of x87
nans 2000   | nan80-positive-of-equal-significands       | ^a class by a class: the NaN of x87
nans 2000   | nan80-lost-beside-unsupported              | ^a class by a class: the NaN of x87
nans 2000   | nan80-pseudo-nan-counts                    | ^a class by a class: the NaN of x87
nans 2000   | nan80-only-the-significand-written         | ^a class by a class: the NaN of x87
nans 2000   | nan80-only-the-word-written                | ^a class by a class: the NaN of x87
nans 2000   | nan80-nothing-written-of-none              | ^a class by a class: the NaN of x87
nans 2000   | nan80-writes-behind-the-word               | ^a class by a class: the NaN of x87
nans 2000   | nan16-smaller-significand                  | ^a bit by a bit: the NaN of binary16
nans 2000   | nan32-smaller-significand                  | ^a bit by a bit: the NaN of binary32
nans 2000   | nan64-smaller-significand                  | ^a bit by a bit: the NaN of binary64
nans 2000   | nan80-smaller-significand                  | ^a bit by a bit: the NaN of x87
nans 2000   | nan64-compared-in-32-bits                  | ^a bit by a bit: the NaN of binary64
nans 2000   | nan80-compared-in-32-bits                  | ^a bit by a bit: the NaN of x87
nans 2000   | nan16-dividend-of-two                      | ^drawn: the NaN of binary16
nans 2000   | nan32-dividend-of-two                      | ^drawn: the NaN of binary32
nans 2000   | nan64-dividend-of-two                      | ^drawn: the NaN of binary64
nans 2000   | nan80-dividend-of-two                      | ^drawn: the NaN of x87
nans 2000   | nan16-divisor-of-equal-significands        | ^two halves: the NaN of
nans 2000   | nan16-quiet-before-comparing               | ^two halves: the NaN of
nans 2000   | nan16-infinity-counts                      | ^a half: the NaN of
nans 2000   | nan16-not-quiet                            | ^by a half: the NaN of
nans 2000   | denormal16-zero-counts                     | ^an exponent: denormal, binary16
nans 2000   | denormal16-field-1-counts                  | ^an exponent: denormal, binary16
nans 2000   | denormal16-negative-left-out               | ^an exponent: denormal, binary16
nans 2000   | denormal32-zero-counts                     | ^an exponent: denormal, binary32
nans 2000   | denormal32-field-1-counts                  | ^an exponent: denormal, binary32
nans 2000   | denormal32-negative-left-out               | ^an exponent: denormal, binary32
nans 2000   | denormal64-zero-counts                     | ^an exponent: denormal, binary64
nans 2000   | denormal64-field-1-counts                  | ^an exponent: denormal, binary64
nans 2000   | denormal64-negative-left-out               | ^an exponent: denormal, binary64
nans 2000   | denormal80-zero-counts                     | ^an exponent: denormal, x87
nans 2000   | denormal80-field-1-counts                  | ^an exponent: denormal, x87
nans 2000   | denormal80-negative-left-out               | ^an exponent: denormal, x87
nans 2000   | denormal32-told-by-its-last-byte           | ^an exponent: denormal, binary32
nans 2000   | denormal80-pseudo-denormal-left-out        | ^an exponent: denormal, x87 [08]000[89A-F]
nans 2000   | denormal80-unnormal-counts                 | ^an exponent: denormal, x87
nans 2000   | denormal80-pseudo-nan-counts               | ^an exponent: denormal, x87 [7F]FFF
nans 2000   | denormal16-negative-left-out               | ^a bit: denormal, binary16
nans 2000   | denormal32-negative-left-out               | ^a bit: denormal, binary32
nans 2000   | denormal64-negative-left-out               | ^a bit: denormal, binary64
nans 2000   | denormal80-negative-left-out               | ^a bit: denormal, x87
nans 2000   | denormal64-low-half-not-looked-at          | ^a bit: denormal, binary64
nans 2000   | denormal16-field-1-counts                  | ^drawn: denormal, binary16
nans 2000   | denormal32-field-1-counts                  | ^drawn: denormal, binary32
nans 2000   | denormal64-field-1-counts                  | ^drawn: denormal, binary64
nans 2000   | denormal80-field-1-counts                  | ^drawn: denormal, x87
nans 2000   | denormal16-zero-counts                     | ^a half: denormal, binary16
nans 1      | none                                       | drawn: .* has no pair
chains 2000 | run-zero-loses-its-sign                    | ^run of
chains 2000 | run-spent-by-its-last-step                 | ^run of
chains 2000 | run-quotient-of-the-last-step              | ^run of
chains 2000 | run-a-step-too-many                        | ^run of
chains 2000 | run-refusal-writes                         | ^run of
chains 2000 | run-parts-added-modulo-8                   | ^run of
chains 2000 | run-sum-is-not-folded                      | ^run of
chains 2000 | run-spent-after-two-steps-has-no-quotient  | ^run of
chains 2000 | run-octant-of-four-bits                    | ^run of
chains 2000 | run-octant-of-eight-bits                   | ^run of
chains 2000 | run-quotient-big-endian                    | ^run of
chains 2000 | run-quotient-not-written                   | ^run of
chains 2000 | run-quotient-of-three-bits                 | ^run of
chains 2000 | run-quotient-of-30-bits                    | ^run of
chains 2000 | run-quotient-of-32-bits                    | ^run of
chains 2000 | run-block-of-20-bytes-refused              | ^run of
chains 2000 | step-zero-loses-its-sign                   | ^steps of
chains 2000 | step-end-is-refused                        | ^steps of
chains 2000 | step-c0-lost                               | ^steps of
chains 2000 | step-refusal-writes                        | ^steps of
chains 2000 | step-octant-of-four-bits                   | ^steps of
chains 2000 | step-octant-of-eight-bits                  | ^steps of
chains 2000 | step-quotient-big-endian                   | ^steps of
chains 2000 | step-quotient-not-written                  | ^steps of
chains 2000 | step-quotient-of-three-bits                | ^steps of
chains 2000 | step-quotient-of-30-bits                   | ^steps of
chains 2000 | step-quotient-of-32-bits                   | ^steps of
chains 2000 | step-block-of-20-bytes-refused             | ^steps of
chains 2000 | rem80-quotient-of-three-bits               | ^steps of
chains 2000 | rem80-quotient-of-30-bits                  | ^steps of
chains 2000 | rem80-quotient-of-32-bits                  | ^steps of
chains 2000 | remquo80-quotient-of-three-bits            | ^remquo of
chains 2000 | remquo80-quotient-of-30-bits               | ^remquo of
chains 2000 | remquo80-quotient-of-32-bits               | ^remquo of
chains 2000 | remquo80-quotient-is-cut                   | ^remquo of
chains 2000 | remquo80-sign-of-x                         | ^remquo of
chains 2000 | remquo80-sign-of-y                         | ^remquo of
chains 2000 | remquo80-zero-is-minus-one                 | ^remquo of
chains 2000 | remquo80-by-infinity-is-minus-one          | ^remquo of
chains 2000 | remquo80-zero-has-the-divisors-sign        | ^remquo of
chains 2000 | remquo80-refusal-writes-the-quotient       | ^remquo of
chains 2000 | remquo80-refusal-writes-the-word           | ^remquo of
chains 2000 | remquo80-infinite-dividend-before-unsupported | ^remquo of
chains 2000 | run-pseudo-denormal-kept-with-no-budget    | ^run of [08]000[89A-F].* budget 0:
chains 2000 | run-pseudo-denormal-kept-by-infinity       | ^run of [08]000[89A-F].* by [7F]FFF8
chains 2000 | run-pseudo-denormal-kept-by-a-number       | ^run of [08]000[89A-F]
chains 2000 | run-pseudo-denormal-is-denormal            | ^run of [08]000[89A-F]
chains 2000 | run-pseudo-denormal-divisor-is-denormal    | ^run of .* by [08]000[89A-F]
chains 2000 | run-pseudo-denormal-divisor-refused        | ^run of .* by [08]000[89A-F]
chains 2000 | step-pseudo-denormal-refused               | ^steps of [08]000[89A-F]
chains 2000 | step-pseudo-denormal-kept-by-infinity      | ^steps of [08]000[89A-F]
chains 2000 | step-pseudo-denormal-is-denormal           | ^steps of [08]000[89A-F]
chains 2000 | step-pseudo-denormal-divisor-is-denormal   | ^steps of .* by [08]000[89A-F]
chains 2000 | step-pseudo-denormal-divisor-is-zero       | ^steps of .* by [08]000[89A-F]
chains 2000 | remquo80-pseudo-denormal-is-denormal       | ^remquo of [08]000[89A-F]
chains 2000 | remquo80-pseudo-denormal-kept-by-infinity  | ^remquo of [08]000[89A-F].* by [7F]FFF8
chains 2000 | remquo80-pseudo-denormal-divisor-is-denormal | ^remquo of .* by [08]000[89A-F]
chains 20   | none                                       | gaps: .* has no pair
chains 20   | none                                       | pseudo-denormals: .* has no pair
chains 20   | none                                       | sums of chains: .* has no pair
fold 20     | fold-marked-list-is-refused                | the list is refused
fold 20     | fold-zero-loses-its-sign                   | the list's answer is not
fold 20     | fold-mark-is-negative                      | an infinity's place has another mark
fold 20     | fold-infinity-kept                         | an infinity's place has another mark
fold 20     | fold-infinity-has-its-sign                 | an infinity's place has another mark
fold 20     | fold-house-nan-for-a-nan                   | a NaN's place has another one
fold 20     | fold-nan-not-quiet                         | a NaN's place has another one
fold 20     | fold-nan-loses-its-sign                    | a NaN's place has another one
fold 20     | fold-nan-loses-its-lower-half              | a NaN's place has another one
fold 20     | fold-nan-of-the-first-place                | a NaN's place has another one
fold 20     | fold-nan-not-marked                        | a NaN's place has another one
fold 20     | fold-nan-not-counted                       | the count of marked places
fold 20     | fold-bits-of-the-first-places              | the list's answer is not
fold 20     | fold-byte-of-eight-bits                    | the list's answer is not
fold 20     | fold-count-cut-to-a-byte                   | the count of marked places
fold 20     | fold-result-behind-the-list                | what lies behind the list
fold 20     | fold-byte-behind-the-list                  | what lies behind the list
half 15859  | rem16-denormal-by-infinity-is-zero         | ^.... by 7C00 kind 0
half 15859  | rem16-denormal-by-infinity-is-zero         | ^.... by 7C00 kind 1
half 31744  | rem16-quotient-of-two-bits                 | ^.... by .* kind 0
half 31744  | rem16-quotient-of-two-bits                 | ^.... by .* kind 1
half 31744  | rem16-infinity-by-zero-is-five             | zukemoriha .* number 5
half 31744  | rem16-refusal-writes                       | ^.... by 0000 kind
half 31744  | rem16-quotient-of-three-bits               | ^.... by .* kind 0
half 31744  | rem16-quotient-of-30-bits                  | ^.... by .* kind 0
half 31744  | rem16-quotient-of-30-bits                  | ^.... by .* kind 1
half 31744  | rem16-quotient-of-32-bits                  | ^.... by .* kind 1
half 31744  | remquo16-sign-of-x                         | ^remquo of .* kind 0
half 31744  | remquo16-sign-of-x                         | ^remquo of .* kind 1
half 31744  | remquo16-sign-of-y                         | ^remquo of .* kind 0
half 31744  | remquo16-sign-of-y                         | ^remquo of .* kind 1
half 31744  | remquo16-quotient-of-three-bits            | ^remquo of
half 31744  | remquo16-quotient-of-30-bits               | ^remquo of
half 31744  | remquo16-quotient-of-32-bits               | ^remquo of
half 31744  | remquo16-quotient-is-cut                   | ^remquo of .* kind 1
half 31744  | remquo16-by-infinity-is-minus-one          | ^remquo of .* by [7F]C00
half 31744  | remquo16-zero-loses-its-sign               | ^remquo of
half 31744  | remquo16-infinity-by-zero-is-five          | ^remquo of .* by [08]000
half 31744  | remquo16-refusal-writes-the-quotient       | ^remquo of
half 31744  | remquo16-refusal-writes-the-value          | ^remquo of
half 22527  | remquo16-modulus-is-the-least-number       | ^remquo of 5800 by 0001
half 31744  | scale16-half-always-up                     | ^.... scaled by
half 31744  | scale16-nothing-loses-its-sign             | ^.... scaled by
half 31744  | scale16-nothing-left-is-exact              | ^.... scaled by
half 31744  | scale16-nan-is-infinite                    | ^.... scaled by
half 31744  | scale16-refusal-writes                     | ^.... scaled by
fprem 2000  | step-zero-loses-its-sign                   | ^step of
fprem 2000  | step-zero-finishes                         | ^step of
fprem 2000  | step-partial-not-counted                   | ^step of
fprem 2000  | step-end-has-the-divisors-sign             | ^step of .* kind 0
fprem 2000  | step-end-has-the-divisors-sign             | ^step of .* kind 1
fprem 2000  | step-end-is-refused                        | ^step of
fprem 2000  | step-c0-lost                               | ^step of
fprem 2000  | step-c3-and-c1-exchanged                   | ^step of
fprem 2000  | step-octant-of-four-bits                   | ^step of
fprem 2000  | step-octant-of-eight-bits                  | ^step of
fprem 2000  | step-quotient-big-endian                   | ^step of
fprem 2000  | step-quotient-not-written                  | ^step of
fprem 2000  | step-quotient-of-32-bits                   | ^step of
fprem 2000  | step-block-of-20-bytes-refused             | ^step of
fprem 2000  | step-last-not-counted                      | ^step of
fprem 2000  | step-writes-a-byte-more                    | ^step of
fprem 2000  | step-pseudo-denormal-refused               | ^step of [08]000[89A-F]
fprem 2000  | step-pseudo-denormal-is-denormal           | ^step of [08]000[89A-F].* kind 0
fprem 2000  | step-pseudo-denormal-is-denormal           | ^step of [08]000[89A-F].* kind 1
fprem 2000  | step-pseudo-denormal-kept-by-infinity      | ^step of [08]000[89A-F].* by [7F]FFF8
fprem 2000  | step-pseudo-denormal-kept-by-a-number      | ^step of [08]000[89A-F].* kind 0
fprem 2000  | step-pseudo-denormal-kept-by-a-number      | ^step of [08]000[89A-F].* kind 1
fprem 2000  | step-pseudo-denormal-divisor-refused       | ^step of .* by [08]000[89A-F]
fprem 2000  | step-pseudo-denormal-divisor-is-denormal   | ^step of .* by [08]000[89A-F].* kind 0
fprem 2000  | step-pseudo-denormal-divisor-is-denormal   | ^step of .* by [08]000[89A-F].* kind 1
fprem 2000  | step-pseudo-denormal-divisor-is-zero       | ^step of .* by [08]000[89A-F]
fprem 2000  | run-zero-loses-its-sign                    | ^run of
fprem 2000  | run-budget-cut-to-a-byte                   | ^run of
fprem 2000  | run-quotient-of-the-last-step              | ^run of
fprem 2000  | step-quotient-of-three-bits                | ^run of
fprem 2000  | step-quotient-of-30-bits                   | ^run of
fprem 2000  | run-octant-of-eight-bits                   | ^run of
fprem 2000  | run-parts-added-modulo-8                   | ^run of
fprem 2000  | run-quotient-of-three-bits                 | ^run of
fprem 2000  | run-quotient-of-30-bits                    | ^run of
fprem 2000  | run-pseudo-denormal-is-denormal            | ^run of [08]000[89A-F]
fprem 2000  | run-pseudo-denormal-kept-by-infinity       | ^run of [08]000[89A-F].* by [7F]FFF8
fprem 2000  | run-pseudo-denormal-divisor-is-denormal    | ^run of .* by [08]000[89A-F]
fprem 2000  | rem80-zero-has-the-divisors-sign           | ^remainder of
fprem 2000  | rem80-far-quotient-of-two-bits             | ^remainder of
fprem 2000  | rem80-quotient-of-three-bits               | ^remainder of
fprem 2000  | rem80-quotient-of-30-bits                  | ^remainder of
fprem 2000  | rem80-quotient-of-32-bits                  | ^remainder of
fprem 2000  | remquo80-quotient-of-three-bits            | ^remquo of
fprem 2000  | remquo80-quotient-of-30-bits               | ^remquo of
fprem 2000  | remquo80-quotient-of-32-bits               | ^remquo of
fprem 2000  | remquo80-quotient-is-cut                   | ^remquo of
fprem 2000  | remquo80-sign-of-x                         | ^remquo of
fprem 2000  | remquo80-sign-of-y                         | ^remquo of
fprem 2000  | remquo80-zero-is-minus-one                 | ^remquo of
fprem 2000  | remquo80-zero-has-the-divisors-sign        | ^remquo of
fprem 2000  | remquo80-pseudo-denormal-refused           | ^remquo of [08]000[89A-F]
fprem 2000  | remquo80-pseudo-denormal-kept-by-a-number  | ^remquo of [08]000[89A-F]
fprem 2000  | rem80-pseudo-denormal-is-denormal          | ^remainder of [08]000[89A-F]
fprem 2000  | rem80-pseudo-denormal-kept-by-infinity     | ^remainder of [08]000[89A-F].* by [7F]FFF8
fprem 2000  | rem80-pseudo-denormal-divisor-is-denormal  | ^remainder of .* by [08]000[89A-F]
fprem 2000  | step-refusal-told-as-bad-length            | ^refusal of
fprem 2000  | step-refusal-writes                        | ^refusal of
fprem 2000  | scale80-nothing-loses-its-sign             | ^scaling of
fprem 2000  | scale80-overflow-is-down                   | ^scaling of
fprem 2000  | scale80-nan-is-unsupported                 | ^scaling of
fprem 2000  | scale80-refusal-writes                     | ^scaling of
fprem 2000  | scale80-pseudo-denormal-refused            | ^scaling of [08]000[89A-F]
fprem 2000  | scale80-pseudo-denormal-is-denormal        | ^scaling of [08]000[89A-F]
fprem 2000  | scale80-pseudo-denormal-one-power-too-low  | ^scaling of [08]000[89A-F]
fprem 2000  | scale80-pseudo-denormal-kept-by-0          | ^scaling of [08]000[89A-F].* by 0:
fprem 2000  | scale80-pseudo-infinity-is-infinite        | ^scaling of [7F]FFF0
fprem 2000  | split80-loses-its-sign                     | ^splitting of
fprem 2000  | split80-exponent-one-too-low               | ^splitting of
fprem 2000  | split80-pseudo-denormal-refused            | ^splitting of [08]000[89A-F]
fprem 2000  | split80-pseudo-denormal-is-denormal        | ^splitting of [08]000[89A-F]
fprem 2000  | split80-pseudo-denormal-exponent-too-low   | ^splitting of [08]000[89A-F]
fprem 2000  | scale80-half-of-the-wrong-power            | ^around a half
fprem 2000  | scale80-64-places-as-63                    | ^around a half
fprem 2000  | scale80-half-of-a-denormal-up              | ^around a half
fprem 2000  | scale80-no-place-rounds                    | ^around a half
fprem 2000  | scale80-nothing-loses-its-sign             | ^around a half
fprem 2000  | scale80-pseudo-denormal-is-denormal        | ^around a half, [08]000[89A-F]
fprem 2000  | scale80-pseudo-denormal-kept-by-0          | ^around a half, [08]000[89A-F].* by 0:
fprem 2000  | denormal80-zero-counts                     | ^class of 
fprem 2000  | denormal80-field-1-counts                  | ^class of 
fprem 2000  | denormal80-negative-left-out               | ^class of 
fprem 2000  | denormal80-pseudo-denormal-left-out        | ^class of [08]000[89A-F]
fprem 2000  | denormal80-unnormal-counts                 | ^class of 
fprem 2000  | denormal80-pseudo-nan-counts               | ^class of [7F]FFF
fprem 2000  | denormal80-zero-counts                     | ^denormal operand of a step
fprem 2000  | denormal80-pseudo-denormal-left-out        | ^denormal operand of a step
fprem 2000  | denormal80-negative-left-out               | ^denormal operand of a step
fprem 2000  | denormal80-field-1-counts                  | ^denormal operand of a scaling
fprem 2000  | denormal80-pseudo-denormal-left-out        | ^denormal operand of a scaling
fprem 2000  | nan80-smaller-significand                  | ^FPREM of
fprem 2000  | nan80-quiet-before-comparing               | ^FPREM of
fprem 2000  | nan80-dividend-of-two                      | ^FPREM of
fprem 2000  | nan80-divisor-of-equal-significands        | ^FPREM of
fprem 2000  | nan80-positive-of-equal-significands       | ^FPREM of
fprem 2000  | nan80-loses-its-sign                       | ^FPREM of
fprem 2000  | nan80-not-quiet                            | ^FPREM of
fprem 2000  | nan80-house-nan                            | ^FPREM of
fprem 2000  | nan80-only-the-significand-written         | ^FPREM of
fprem 2000  | nan80-smaller-significand                  | ^FPREM1 of
fprem 2000  | nan80-smaller-significand                  | ^FSCALE of
fprem 2000  | nan80-positive-of-equal-significands       | ^FPREM1 of
fprem 2000  | nan80-positive-of-equal-significands       | ^FSCALE of
fprem 2000  | nan80-loses-its-sign                       | ^FXTRACT of
fprem 2000  | nan80-not-quiet                            | ^FXTRACT of
fprem 20    | none                                       | gaps: .* has no pair
fprem 3     | none                                       | ^denormals: .* has no pair
fprem 3     | none                                       | pseudo-denormals: .* has no pair
fprem 3     | none                                       | ^scaling: no pseudo-denormal
fprem 3     | none                                       | ^splitting: no pseudo-denormal
fprem 2000 1 20 | none                                   | ^x87 has no half at 30 places
libm 2000   | rem64-zero-loses-its-sign                  | ^binary64 .* kind 0
libm 2000   | rem64-half-always-up                       | ^binary64 .* kind 1
libm 2000   | rem64-far-quotient-of-two-bits             | ^binary64 .* kind 0
libm 2000   | rem64-far-quotient-of-two-bits             | ^binary64 .* kind 1
libm 2000   | rem64-quotient-of-three-bits               | ^binary64 .* kind 0
libm 2000   | rem64-quotient-of-30-bits                  | ^binary64 .* kind 0
libm 2000   | rem64-quotient-of-30-bits                  | ^binary64 .* kind 1
libm 2000   | rem64-quotient-of-32-bits                  | ^binary64 .* kind 0
libm 2000   | rem64-fraction-is-infinite                 | ^binary64 .* by
libm 2000   | rem64-refusal-writes                       | ^  zukemoriha .* wrote where it may not$
libm 2000   | rem32-zero-loses-its-sign                  | ^binary32 .* kind 0
libm 2000   | rem32-zero-loses-its-sign                  | ^binary32 .* kind 1
libm 2000   | rem32-far-quotient-of-two-bits             | ^binary32 .* kind 0
libm 2000   | rem32-modulus-is-not-folded                | ^binary32 .* kind 0
libm 2000   | rem32-infinite-dividend-before-nan         | ^binary32 .* by
libm 2000   | rem32-quotient-of-three-bits               | ^binary32 .* kind 0
libm 2000   | rem32-quotient-of-30-bits                  | ^binary32 .* kind 0
libm 2000   | rem32-quotient-of-30-bits                  | ^binary32 .* kind 1
libm 2000   | rem32-quotient-of-32-bits                  | ^binary32 .* kind 1
libm 2000   | rem80-zero-has-the-divisors-sign           | ^x87 .* kind 0
libm 2000   | rem80-zero-has-the-divisors-sign           | ^x87 .* kind 1
libm 2000   | rem80-far-quotient-of-two-bits             | ^x87 .* kind 0
libm 2000   | rem80-far-quotient-of-two-bits             | ^x87 .* kind 1
libm 2000   | rem80-quotient-of-three-bits               | ^x87 .* kind 1
libm 2000   | rem80-quotient-of-30-bits                  | ^x87 .* kind 0
libm 2000   | rem80-quotient-of-30-bits                  | ^x87 .* kind 1
libm 2000   | rem80-quotient-of-32-bits                  | ^x87 .* kind 1
libm 2000   | rem80-infinite-dividend-before-unsupported | ^x87 .* by
libm 2000   | rem80-pseudo-denormal-refused              | ^x87 [08]000[89A-F].* kind 0
libm 2000   | rem80-pseudo-denormal-is-denormal          | ^x87 [08]000[89A-F].* kind 0
libm 2000   | rem80-pseudo-denormal-is-denormal          | ^x87 [08]000[89A-F].* kind 1
libm 2000   | rem80-pseudo-denormal-kept-by-infinity     | ^x87 [08]000[89A-F].* by [7F]FFF8.* kind 0
libm 2000   | rem80-pseudo-denormal-kept-by-infinity     | ^x87 [08]000[89A-F].* by [7F]FFF8.* kind 1
libm 2000   | rem80-pseudo-denormal-kept-by-a-number     | ^x87 [08]000[89A-F].* kind 0
libm 2000   | rem80-pseudo-denormal-kept-by-a-number     | ^x87 [08]000[89A-F].* kind 1
libm 2000   | rem80-pseudo-denormal-divisor-refused      | ^x87 .* by [08]000[89A-F].* kind 1
libm 2000   | rem80-pseudo-denormal-divisor-is-denormal  | ^x87 .* by [08]000[89A-F].* kind 0
libm 2000   | rem80-pseudo-denormal-divisor-is-denormal  | ^x87 .* by [08]000[89A-F].* kind 1
libm 2000   | rem80-pseudo-denormal-divisor-is-zero      | ^x87 .* by [08]000[89A-F]
libm 2000   | rem80-unnormal-is-a-number                 | ^x87 .* by
libm 2000   | remquo64-sign-of-x                         | ^remquo of binary64 .* kind 0
libm 2000   | remquo64-sign-of-x                         | ^remquo of binary64 .* kind 1
libm 2000   | remquo64-sign-of-y                         | ^remquo of binary64 .* kind 0
libm 2000   | remquo64-sign-of-y                         | ^remquo of binary64 .* kind 1
libm 2000   | remquo64-quotient-of-three-bits            | ^remquo of binary64 .* kind 0
libm 2000   | remquo64-quotient-of-30-bits               | ^remquo of binary64 .* kind 0
libm 2000   | remquo64-quotient-of-32-bits               | ^remquo of binary64 .* kind 0
libm 2000   | remquo64-quotient-is-cut                   | ^remquo of binary64 .* kind 1
libm 2000   | remquo64-refusal-writes-the-quotient       | ^remquo of binary64 .* kind 0
libm 2000   | remquo64-refusal-writes-the-value          | ^remquo of binary64 .* kind 0
libm 2000   | remquo32-sign-of-x                         | ^remquo of binary32 .* kind 0
libm 2000   | remquo32-sign-of-x                         | ^remquo of binary32 .* kind 1
libm 2000   | remquo32-sign-of-y                         | ^remquo of binary32 .* kind 0
libm 2000   | remquo32-sign-of-y                         | ^remquo of binary32 .* kind 1
libm 2000   | remquo32-quotient-of-three-bits            | ^remquo of binary32 .* kind 0
libm 2000   | remquo32-quotient-of-30-bits               | ^remquo of binary32 .* kind 0
libm 2000   | remquo32-quotient-of-32-bits               | ^remquo of binary32 .* kind 0
libm 2000   | remquo32-quotient-is-cut                   | ^remquo of binary32 .* kind 1
libm 2000   | remquo32-refusal-writes-the-quotient       | ^remquo of binary32 .* kind 0
libm 2000   | remquo32-refusal-writes-the-value          | ^remquo of binary32 .* kind 0
libm 2000   | remquo80-sign-of-x                         | ^remquo of x87 .* kind 0
libm 2000   | remquo80-sign-of-x                         | ^remquo of x87 .* kind 1
libm 2000   | remquo80-sign-of-y                         | ^remquo of x87 .* kind 0
libm 2000   | remquo80-sign-of-y                         | ^remquo of x87 .* kind 1
libm 2000   | remquo80-quotient-of-three-bits            | ^remquo of x87 .* kind 0
libm 2000   | remquo80-quotient-of-30-bits               | ^remquo of x87 .* kind 0
libm 2000   | remquo80-quotient-of-32-bits               | ^remquo of x87 .* kind 0
libm 2000   | remquo80-quotient-is-cut                   | ^remquo of x87 .* kind 1
libm 2000   | remquo80-refusal-writes-the-quotient       | ^remquo of x87 .* kind 0
libm 2000   | remquo80-refusal-writes-the-value          | ^remquo of x87 .* kind 0
libm 2000   | remquo80-refusal-writes-the-word           | ^remquo of x87 .* kind 0
libm 2000   | remquo64-modulus-is-the-least-number       | ^remquo of binary64 .* kind
libm 2000   | remquo64-zero-loses-its-sign               | ^remquo of binary64 .* kind
libm 2000   | remquo64-zero-divisor-is-infinite          | ^remquo of binary64 .* kind
libm 2000   | remquo32-zero-is-minus-one                 | ^remquo of binary32 .* kind
libm 2000   | remquo32-last-bit-is-wrong                 | ^remquo of binary32 .* kind
libm 2000   | remquo32-infinite-dividend-before-nan      | ^remquo of binary32 .* kind
libm 2000   | remquo80-by-infinity-is-minus-one          | ^remquo of x87 .* by [7F]FFF8.* kind
libm 2000   | remquo80-zero-has-the-divisors-sign        | ^remquo of x87 .* kind
libm 2000   | remquo80-unnormal-is-a-number              | ^remquo of x87 .* kind
libm 2000   | remquo80-pseudo-denormal-refused           | ^remquo of x87 [08]000[89A-F].* kind
libm 2000   | remquo80-pseudo-denormal-kept-by-infinity  | ^remquo of x87 [08]000[89A-F].* by [7F]FFF8
libm 2000   | remquo80-pseudo-denormal-divisor-is-zero   | ^remquo of x87 .* by [08]000[89A-F]
libm 2000 1 31 | none                                       | ^binary64 .* kind
libm 2000 1 31 | none                                       | ^binary32 .* kind
libm 20     | none                                       | gaps: .* has no pair
libm 20     | none                                       | pseudo-denormals: .* has no pair
libm 1      | none                                       | NaNs of fmod, .* has no pair
libm 2000   | nan64-smaller-significand                  | ^fmod of binary64 NaNs
libm 2000   | nan64-divisor-of-equal-significands        | ^fmod of binary64 NaNs
libm 2000   | nan64-quiet-before-comparing               | ^fmod of binary64 NaNs
libm 2000   | nan64-signs-compared                       | ^fmod of binary64 NaNs
libm 2000   | nan64-loses-its-sign                       | ^fmod of binary64 NaNs
libm 2000   | nan64-not-quiet                            | ^fmod of binary64 NaNs
libm 2000   | nan64-house-nan                            | ^fmod of binary64 NaNs
libm 2000   | nan64-not-quiet                            | ^remainder of binary64 NaNs
libm 2000   | nan64-not-quiet                            | ^remquo of binary64 NaNs
libm 2000   | nan32-smaller-significand                  | ^fmod of binary32 NaNs
libm 2000   | nan32-divisor-of-equal-significands        | ^fmod of binary32 NaNs
libm 2000   | nan32-quiet-before-comparing               | ^fmod of binary32 NaNs
libm 2000   | nan32-signs-compared                       | ^fmod of binary32 NaNs
libm 2000   | nan32-loses-its-sign                       | ^fmod of binary32 NaNs
libm 2000   | nan32-not-quiet                            | ^fmod of binary32 NaNs
libm 2000   | nan32-house-nan                            | ^fmod of binary32 NaNs
libm 2000   | nan32-not-quiet                            | ^remainder of binary32 NaNs
libm 2000   | nan32-not-quiet                            | ^remquo of binary32 NaNs
libm 2000   | nan80-smaller-significand                  | ^fmod of x87 NaNs
libm 2000   | nan80-divisor-of-equal-significands        | ^fmod of x87 NaNs
libm 2000   | nan80-quiet-before-comparing               | ^fmod of x87 NaNs
libm 2000   | nan80-signs-compared                       | ^fmod of x87 NaNs
libm 2000   | nan80-loses-its-sign                       | ^fmod of x87 NaNs
libm 2000   | nan80-not-quiet                            | ^fmod of x87 NaNs
libm 2000   | nan80-house-nan                            | ^fmod of x87 NaNs
libm 2000   | nan80-not-quiet                            | ^remainder of x87 NaNs
libm 2000   | nan80-not-quiet                            | ^remquo of x87 NaNs
disputed 99 | none                                       | its remainder and remquo differ
ldexp 2000  | scale16-nothing-loses-its-sign             | ^binary16 .* scaled
ldexp 2000  | scale16-nothing-left-is-exact              | ^binary16 .* scaled
ldexp 2000  | scale16-nan-is-infinite                    | ^binary16 .* scaled
ldexp 2000  | scale32-nothing-loses-its-sign             | ^binary32 .* scaled
ldexp 2000  | scale32-nothing-left-is-up                 | ^binary32 .* scaled
ldexp 2000  | scale64-cut                                | ^binary64 .* scaled
ldexp 2000  | scale64-overflow-is-down                   | ^binary64 .* scaled
ldexp 2000  | scale80-nothing-loses-its-sign             | ^x87 .* scaled
ldexp 2000  | scale80-overflow-is-down                   | ^x87 .* scaled
ldexp 2000  | scale80-refusal-writes                     | ^x87 .* scaled
ldexp 2000  | scale80-pseudo-denormal-refused            | ^x87 [08]000[89A-F].* scaled
ldexp 2000  | scale80-pseudo-denormal-is-denormal        | ^x87 [08]000[89A-F].* scaled
ldexp 2000  | scale80-pseudo-denormal-one-power-too-low  | ^x87 [08]000[89A-F].* scaled
ldexp 2000  | scale80-pseudo-denormal-kept-by-0          | ^x87 [08]000[89A-F].* scaled by 0
ldexp 2000  | split16-denormal-loses-its-sign            | ^binary16 .* split
ldexp 2000  | split32-zero-is-five                       | ^binary32 .* split
ldexp 2000  | split64-denormal-exponent-from-its-field   | ^binary64 .* split
ldexp 2000  | split64-refusal-writes                     | ^binary64 .* split
ldexp 2000  | split80-loses-its-sign                     | ^x87 .* split
ldexp 2000  | split80-exponent-one-too-low               | ^x87 .* split
ldexp 2000  | split80-pseudo-denormal-refused            | ^x87 [08]000[89A-F].* split
ldexp 2000  | split80-pseudo-denormal-is-denormal        | ^x87 [08]000[89A-F].* split
ldexp 2000  | split80-pseudo-denormal-exponent-too-low   | ^x87 [08]000[89A-F].* split
ldexp 2000  | scale16-half-always-up                     | ^binary16 .* around a half
ldexp 2000  | scale16-nothing-loses-its-sign             | ^binary16 .* around a half
ldexp 2000  | scale32-half-always-down                   | ^binary32 .* around a half
ldexp 2000  | scale32-nothing-left-is-up                 | ^binary32 .* around a half
ldexp 2000  | scale64-half-always-up                     | ^binary64 .* around a half
ldexp 2000  | scale64-half-of-a-denormal-up              | ^binary64 .* around a half
ldexp 2000  | scale80-half-of-the-wrong-power            | ^x87 .* around a half
ldexp 2000  | scale80-64-places-as-63                    | ^x87 .* around a half
ldexp 2000  | scale80-half-of-a-denormal-up              | ^x87 .* around a half
ldexp 2000  | scale80-no-place-rounds                    | ^x87 .* around a half
ldexp 2000  | scale80-pseudo-denormal-is-denormal        | ^x87 [08]000[89A-F].* around a half
ldexp 2000  | scale80-pseudo-denormal-kept-by-0          | ^x87 [08]000[89A-F].* around a half by 0:
ldexp 2000 1 20 | none                                   | ^binary64 has no half at 30 places
ldexp 2000  | nan32-loses-its-sign                       | ^binary32 NaN .* by ldexp
ldexp 2000  | nan32-not-quiet                            | ^binary32 NaN .* by ldexp
ldexp 2000  | nan32-house-nan                            | ^binary32 NaN .* by ldexp
ldexp 2000  | nan32-loses-its-sign                       | ^binary32 NaN .* by frexp
ldexp 2000  | nan32-not-quiet                            | ^binary32 NaN .* by frexp
ldexp 2000  | nan32-house-nan                            | ^binary32 NaN .* by frexp
ldexp 2000  | nan64-loses-its-sign                       | ^binary64 NaN .* by ldexp
ldexp 2000  | nan64-not-quiet                            | ^binary64 NaN .* by ldexp
ldexp 2000  | nan64-house-nan                            | ^binary64 NaN .* by ldexp
ldexp 2000  | nan64-loses-its-sign                       | ^binary64 NaN .* by frexp
ldexp 2000  | nan64-not-quiet                            | ^binary64 NaN .* by frexp
ldexp 2000  | nan64-house-nan                            | ^binary64 NaN .* by frexp
ldexp 2000  | nan80-loses-its-sign                       | ^x87 NaN .* by ldexp
ldexp 2000  | nan80-not-quiet                            | ^x87 NaN .* by ldexp
ldexp 2000  | nan80-house-nan                            | ^x87 NaN .* by ldexp
ldexp 2000  | nan80-loses-its-sign                       | ^x87 NaN .* by frexp
ldexp 2000  | nan80-not-quiet                            | ^x87 NaN .* by frexp
ldexp 2000  | nan80-house-nan                            | ^x87 NaN .* by frexp
ldexp 2000  | denormal16-zero-counts                     | ^binary16 .* denormal: 
ldexp 2000  | denormal16-field-1-counts                  | ^binary16 .* denormal: 
ldexp 2000  | denormal16-negative-left-out               | ^binary16 .* denormal: 
ldexp 2000  | denormal32-zero-counts                     | ^binary32 .* denormal: 
ldexp 2000  | denormal32-field-1-counts                  | ^binary32 .* denormal: 
ldexp 2000  | denormal32-negative-left-out               | ^binary32 .* denormal: 
ldexp 2000  | denormal64-zero-counts                     | ^binary64 .* denormal: 
ldexp 2000  | denormal64-field-1-counts                  | ^binary64 .* denormal: 
ldexp 2000  | denormal64-negative-left-out               | ^binary64 .* denormal: 
ldexp 2000  | denormal80-zero-counts                     | ^x87 .* denormal: 
ldexp 2000  | denormal80-field-1-counts                  | ^x87 .* denormal: 
ldexp 2000  | denormal80-negative-left-out               | ^x87 .* denormal: 
ldexp 5     | none                                       | ^x87: no pseudo-denormal
ldexp 5     | none                                       | operands: .* has no pair
stems 2000  | stem-open-most-is-3999                     | ^a good file: the number
stems 2000  | stem-open-start-one-point-too-far          | ^a good file: what is written
stems 2000  | stem-open-start-one-point-too-far          | ^a good file: other points
stems 2000  | stem-open-start-one-point-too-far          | ^a good file: a byte outside
stems 2000  | stem-open-count-one-too-many               | ^a good file: what is written
stems 2000  | stem-open-count-one-too-many               | ^a good file: a byte outside
stems 2000  | stem-open-period-and-origin-exchanged      | ^a good file: what is written
stems 2000  | stem-open-kind-of-a-turn                   | ^a good file: what is written
stems 2000  | stem-open-writes-behind-the-kind           | ^a good file: an output is touched
stems 2000  | stem-open-file-written                     | ^a good file: the file is changed
stems 2000  | stem-open-reads-a-byte-more                | ^a good file: a byte outside
stems 2000  | stem-open-reads-a-byte-before              | ^a good file: a byte outside
stems 2000  | stem-open-mark-in-either-case              | ^a byte of the header: the number
stems 2000  | stem-open-two-letters                      | ^a byte of the header: the number
stems 2000  | stem-open-version-of-one-byte              | ^a byte of the header: the number
stems 2000  | stem-open-kind-is-one-bit                  | ^a byte of the header: the number
stems 2000  | stem-open-13-and-14-exchanged              | ^a byte of the header: the number
stems 2000  | stem-open-count-believed                   | ^a byte of the header: the number
stems 2000  | stem-open-negative-period                  | ^a byte of the header: the number
stems 2000  | stem-open-turn-has-an-origin               | ^a byte of the header: the number
stems 2000  | stem-open-reads-26-bytes-of-any-file       | ^a length: a byte outside
stems 2000  | stem-open-part-of-a-point-ignored          | ^a length: the number
stems 2000  | stem-open-refusal-writes-the-start         | ^a length: an output is touched
stems 2000  | stem-open-most-is-4001                     | ^a count: the number
stems 2000  | stem-open-refusal-writes-the-count         | ^a count: an output is touched
stems 2000  | stem-open-product-of-32-bits               | ^a far count: the number
stems 2000  | stem-open-length-before-count              | ^a far count: the number
stems 2000  | stem-open-reads-the-last-point-of-the-count | ^a far count: a byte outside
stems 2000  | stem-open-zero-period                      | ^a gauge: the number
stems 2000  | stem-open-minus-zero-period                | ^a gauge: the number
stems 2000  | stem-open-infinite-period                  | ^a gauge: the number
stems 2000  | stem-open-quiet-nan-period                 | ^a gauge: the number
stems 2000  | stem-open-signalling-nan-period            | ^a gauge: the number
stems 2000  | stem-open-turn-has-a-minus-zero            | ^a gauge: the number
stems 2000  | stem-open-infinite-origin                  | ^a gauge: the number
stems 2000  | stem-open-nan-origin                       | ^a gauge: the number
stems 2000  | stem-open-origin-in-a-float                | ^a gauge: what is written
stems 2000  | stem-open-refusal-writes-the-kind          | ^a gauge: an output is touched
stems 2000  | stem-open-mark-before-length               | ^faults together: the number
stems 2000  | stem-open-version-before-mark              | ^faults together: the number
stems 2000  | stem-open-kind-before-version              | ^faults together: the number
stems 2000  | stem-open-gauge-before-count               | ^faults together: the number
stems 2000  | stem-open-any-mark-before-many-points      | ^a byte before many points: the number
stems 2000  | stem-open-length-cut-to-32-bits            | ^a long file: the number
stems 2000  | stem-open-refusal-writes-the-start         | ^a long file: an output is touched
stems 2000  | stem-fold-kind-cut-to-24-bits              | ^a class of point: .*
stems 99999 | stem-open-some-denormals-refused           | ^a random file: the number
stems 2000  | stem-open-asks-for-memory                  | ^little memory: the number
stems 2000  | stem-open-keeps-memory                     | ^little memory: the process has grown
stems 2000  | stem-fold-kind-cut-to-a-byte               | ^a class of point: the number
stems 2000  | stem-fold-gauge-before-kind                | ^a class of point: the number
stems 2000  | stem-fold-nan-kept                         | ^a class of point: reading not finite
stems 2000  | stem-fold-refused-gauge-folds              | ^a point: the number
stems 2000  | stem-fold-turn-has-an-origin               | ^a point: the number
stems 2000  | stem-fold-infinite-difference-refused      | ^a point: the number
stems 2000  | stem-fold-refusal-writes                   | ^a point: wrote where it may not
stems 2000  | stem-fold-writes-the-radius                | ^a point: wrote where it may not
stems 2000  | stem-fold-infinite-reading-kept            | ^a point: reading not finite
stems 2000  | stem-fold-mark-is-negative                 | ^a point: reading not finite
stems 2000  | stem-fold-infinite-difference-kept         | ^a point: difference infinite
stems 2000  | stem-fold-turn-is-nearest                  | ^a point: of a turn
stems 2000  | stem-fold-zero-loses-its-sign              | ^a point: of a turn
stems 2000  | stem-fold-origin-added                     | ^a point: difference exact
stems 2000  | stem-fold-denormals-flushed                | ^a point: difference exact
stems 2000  | stem-fold-remainder-before-the-subtraction | ^a point: rounded
stems 2000  | stem-fold-difference-cut                   | ^a point: rounded
stems 99999 | stem-fold-rounded-twice                    | ^a point: rounded
stems 2000  | stem-fold-half-to-odd                      | ^a point: at a half
stems 2000  | stem-fold-origin-added                     | ^a point of a file:
stems 1     | none                                       | has no point
stem_writer 2000 | stem-write-most-is-3999                      | ^a count: the number
stem_writer 2000 | stem-write-no-points-refused                 | ^a count: the number
stem_writer 2000 | stem-write-most-is-4001                      | ^a count: the number
stem_writer 2000 | stem-write-most-is-4001                      | ^a count: the room of a refused call
stem_writer 2000 | stem-write-refusal-written-and-put-back      | ^a count: the room is written
stem_writer 2000 | stem-write-last-point-missing                | ^a count: the file
stem_writer 2000 | stem-write-last-radius-missing               | ^a count: the file
stem_writer 2000 | stem-write-list-after-list                   | ^a count: the file
stem_writer 2000 | stem-write-count-of-two-bytes                | ^a count: the file
stem_writer 2000 | stem-write-count-big-endian                  | ^a count: refused by zk_stem_open
stem_writer 2000 | stem-write-radius-before-reading             | ^a count: other points by zk_stem_open
stem_writer 2000 | stem-write-origin-loses-its-sign             | ^a count: another gauge by zk_stem_open
stem_writer 2000 | stem-write-length-one-too-many               | ^a count: the length
stem_writer 2000 | stem-write-length-without-the-header         | ^a count: the length
stem_writer 2000 | stem-write-writes-behind-the-length          | ^a count: an output is touched
stem_writer 2000 | stem-write-writes-behind-the-room            | ^a count: a byte outside of the room
stem_writer 2000 | stem-write-writes-behind-the-room            | ^a count: bytes beside the room
stem_writer 2000 | stem-write-writes-before-the-room            | ^a count: a byte outside of the room
stem_writer 2000 | stem-write-writes-before-the-room            | ^a count: bytes beside the room
stem_writer 2000 | stem-write-reads-behind-the-room             | ^a count: a byte outside of the room
stem_writer 2000 | stem-write-reads-a-reading-more              | ^a count: a byte outside of the readings
stem_writer 2000 | stem-write-reads-a-reading-before            | ^a count: a byte outside of the readings
stem_writer 2000 | stem-write-reads-a-radius-more               | ^a count: a byte outside of the radii
stem_writer 2000 | stem-write-reads-a-radius-before             | ^a count: a byte outside of the radii
stem_writer 2000 | stem-write-readings-written                  | ^a count: the readings are changed
stem_writer 2000 | stem-write-radii-written                     | ^a count: the radii are changed
stem_writer 2000 | stem-write-writes-before-the-readings        | ^a count: the readings are changed
stem_writer 2000 | stem-write-writes-behind-the-radii           | ^a count: the radii are changed
stem_writer 2000 | stem-write-room-of-a-byte-less               | ^a room: the number
stem_writer 2000 | stem-write-room-of-a-byte-more-asked         | ^a room: the number
stem_writer 2000 | stem-write-header-before-the-room-is-judged  | ^a room: the room of a refused call
stem_writer 2000 | stem-write-short-room-header-put-back        | ^a room: the room is written
stem_writer 2000 | stem-write-refusal-writes-the-length         | ^a room: an output is touched
stem_writer 2000 | stem-write-a-byte-more                       | ^a room: the room behind the file
stem_writer 2000 | stem-write-rest-cleared                      | ^a room: the room behind the file
stem_writer 2000 | stem-write-length-of-the-room                | ^a room: the length
stem_writer 2000 | stem-write-length-of-the-room                | ^a room: refused by zk_stem_open
stem_writer 2000 | stem-write-shorter-list-taken                | ^unequal lists: the number
stem_writer 2000 | stem-write-lists-compared-in-32-bits         | ^unequal lists: the number
stem_writer 2000 | stem-write-lists-compared-in-32-bits         | ^unequal lists: the room of a refused call
stem_writer 2000 | stem-write-refusal-written-and-put-back      | ^unequal lists: the room is written
stem_writer 2000 | stem-write-reads-a-radius-for-each-reading   | ^unequal lists: a byte outside of the radii
stem_writer 2000 | stem-write-reads-the-last-of-any-count       | ^unequal lists: a byte outside of all
stem_writer 2000 | stem-write-kind-cut-to-a-byte                | ^a kind: the number
stem_writer 2000 | stem-write-kind-cut-to-24-bits               | ^a kind: the number
stem_writer 2000 | stem-write-refusal-written-and-put-back      | ^a kind: the room is written
stem_writer 2000 | stem-write-zero-period                       | ^a gauge: the number
stem_writer 2000 | stem-write-minus-zero-period                 | ^a gauge: the number
stem_writer 2000 | stem-write-negative-period                   | ^a gauge: the number
stem_writer 2000 | stem-write-infinite-period                   | ^a gauge: the number
stem_writer 2000 | stem-write-quiet-nan-period                  | ^a gauge: the number
stem_writer 2000 | stem-write-signalling-nan-period             | ^a gauge: the number
stem_writer 2000 | stem-write-turn-has-an-origin                | ^a gauge: the number
stem_writer 2000 | stem-write-turn-origin-left-out              | ^a gauge: the number
stem_writer 2000 | stem-write-turn-has-a-minus-zero             | ^a gauge: the number
stem_writer 2000 | stem-write-infinite-origin                   | ^a gauge: the number
stem_writer 2000 | stem-write-nan-origin                        | ^a gauge: the number
stem_writer 2000 | stem-write-refusal-wipes-the-room            | ^a gauge: the room of a refused call
stem_writer 2000 | stem-write-refusal-written-and-put-back      | ^a gauge: the room is written
stem_writer 2000 | stem-write-period-and-origin-exchanged       | ^a gauge: another gauge by zk_stem_open
stem_writer 2000 | stem-write-negative-radius-refused           | ^a class of point: the number
stem_writer 2000 | stem-write-quiet-reading                     | ^a class of point: the file
stem_writer 2000 | stem-write-quiet-radius                      | ^a class of point: the file
stem_writer 2000 | stem-write-house-nan                         | ^a class of point: the file
stem_writer 2000 | stem-write-nan-loses-its-sign                | ^a class of point: the file
stem_writer 2000 | stem-write-denormals-flushed                 | ^a class of point: the file
stem_writer 2000 | stem-write-zero-loses-its-sign               | ^a class of point: the file
stem_writer 2000 | stem-write-kind-before-lists                 | ^faults together: the number
stem_writer 2000 | stem-write-count-before-lists                | ^faults together: the number
stem_writer 2000 | stem-write-count-before-kind                 | ^faults together: the number
stem_writer 2000 | stem-write-gauge-before-count                | ^faults together: the number
stem_writer 2000 | stem-write-room-before-count                 | ^faults together: the number
stem_writer 2000 | stem-write-room-before-gauge                 | ^faults together: the number
stem_writer 2000 | stem-write-refusal-written-and-put-back      | ^faults together: the room is written
stem_writer 2000 | stem-write-short-room-header-put-back        | ^a refusal: the room is written
stem_writer 2000 | stem-write-count-cut-to-16-bits              | ^a far count: the number
stem_writer 2000 | stem-write-count-cut-to-32-bits              | ^a far count: the number
stem_writer 2000 | stem-write-product-of-32-bits                | ^a far count: the number
stem_writer 2000 | stem-write-product-of-64-bits                | ^a far count: the number
stem_writer 2000 | stem-write-reads-the-last-of-any-count       | ^a far count: a byte outside of the readings
stem_writer 2000 | stem-write-room-cut-to-32-bits               | ^a long room: the number
stem_writer 2000 | stem-write-a-byte-more                       | ^a long room: the room behind the file
stem_writer 2000 | stem-write-rest-cleared                      | ^a long room: a byte outside of the room
stem_writer 2000 | stem-write-refusal-written-and-put-back      | ^a long room: the room is written
stem_writer 2000 | stem-write-asks-for-memory                   | ^little memory: the number
stem_writer 2000 | stem-write-keeps-memory                      | ^little memory: the process has grown
stem_writer 2000 | stem-write-some-denormals-refused            | ^a random call: the number
stem_writer 2000 | stem-write-period-of-the-call-before         | ^a random call: another gauge by zk_stem_open
stem_writer 2000 | stem-write-short-room-header-put-back        | ^a random call: the room is written
stem_writer 2000 | stem-write-version-of-one-byte               | ^a random file: refused by zk_stem_open
stem_writer 2000 | stem-write-quiet-radius                      | ^a random file: another file than was opened
stem_writer 1 2  | none                                         | drawn calls: .* has no case
stem_writer 1 2  | none                                         | rooms that can only be read: .* has no case
stem_writer 1 2  | none                                         | ^readings: .* has no case
stem_writer 1 2  | none                                         | ^radii: .* has no case
stem_writer 1 2  | none                                         | ^files: .* has no case
sanitized-stems 2000       | stem-open-start-one-point-too-far       | heap-buffer-overflow
sanitized-stem_writer 2000 | stem-write-length-one-too-many          | heap-buffer-overflow
modes 2000  | rem32-last-bit-as-the-rounding-mode-says   | ^remainder: another answer
modes 8000  | rem64-zero-divisor-is-divided-by           | ^remainder: a trap
modes 8000  | rem64-zero-divisor-is-divided-by           | ^remainder: a flag is raised
modes 2000  | rem16-leaves-another-precision             | ^remainder: another environment is left
modes 2000  | remquo64-sign-as-the-processor-compares    | ^remquo: another answer
modes 2000  | remquo64-sign-as-the-processor-compares    | ^remquo: a trap
modes 2000  | remquo64-sign-as-the-processor-compares    | ^remquo: a flag is raised
modes 2000  | remquo32-leaves-another-rounding-mode      | ^remquo: another environment is left
modes 2000  | step-c0-lost-in-another-precision          | ^step: another answer
modes 2000  | run-quotient-as-the-control-word-rounds    | ^run: another answer
modes 2000  | scale80-rounded-as-the-control-word-says   | ^scaling: another answer
modes 2000  | scale80-rounded-as-the-control-word-says   | ^scaling: a trap
modes 2000  | split32-zero-as-the-processor-compares     | ^split: another answer
modes 2000  | split16-leaves-another-rounding-mode       | ^split: another environment is left
modes 3000  | split80-pseudo-denormal-in-the-x87-unit    | ^split: a trap
modes 3000  | split80-pseudo-denormal-in-the-x87-unit    | ^split: a flag is raised
modes 2000  | denormal64-as-the-processor-compares       | ^denormal: another answer
modes 2000  | denormal64-as-the-processor-compares       | ^denormal: a trap
modes 2000  | denormal64-as-the-processor-compares       | ^denormal: a flag is raised
modes 2000  | denormal80-leaves-another-precision        | ^denormal: another environment is left
modes 2000  | nan32-quiet-as-the-rounding-mode-says      | ^NaN: another answer
modes 2000  | nan64-made-quiet-by-the-processor          | ^NaN: a trap
modes 2000  | nan64-made-quiet-by-the-processor          | ^NaN: a flag is raised
modes 2000  | nan80-made-quiet-in-the-x87-unit           | ^NaN: a trap
modes 2000  | nan80-made-quiet-in-the-x87-unit           | ^NaN: a flag is raised
modes 2000  | nan16-leaves-another-rounding-mode         | ^NaN: another environment is left
modes 2000  | fold-nan-made-quiet-by-the-processor       | ^list: a trap
modes 2000  | fold-nan-made-quiet-by-the-processor       | ^list: a flag is raised
modes 2000  | fold-flushes-as-the-processor-does         | ^list: another answer
modes 2000  | fold-flushes-as-the-processor-does         | ^list: a trap
modes 2000  | stem-open-period-compared-by-the-processor | ^stem file: another answer
modes 2000  | stem-open-period-compared-by-the-processor | ^stem file: a trap
modes 2000  | stem-fold-rounds-as-the-processor-does     | ^stem point: another answer with MXCSR 3F80
modes 2000  | stem-fold-flushes-as-the-processor-does    | ^stem point: another answer
modes 2000  | stem-fold-traps-as-the-processor-does      | ^stem point: a trap
modes 2000  | stem-write-period-compared-by-the-processor | ^written file: another answer
modes 2000  | stem-write-period-compared-by-the-processor | ^written file: a trap
modes 2000  | stem-write-flushes-as-the-processor-does   | ^written file: another answer
modes 2000  | stem-write-flushes-as-the-processor-does   | ^written file: a trap
modes 2000  | stem-write-flushes-as-the-processor-does   | ^written file: a flag is raised
modes 8     | none                                       | has no question
host        | rem64-last-bit-is-wrong                    | ^C++ host: FAILED
host        | rem64-quotient-of-one-bit                  | ^C++ host: FAILED
host        | rem64-fraction-is-infinite                 | ^C++ host: FAILED
host        | rem64-quotient-of-three-bits               | ^C++ host: FAILED
host        | remquo64-quotient-is-cut                   | ^C++ host: FAILED
host        | remquo64-sign-of-y                         | ^C++ host: FAILED
host        | nan64-house-nan                            | ^C++ host: FAILED
host        | nan64-not-quiet                            | ^C++ host: FAILED
host        | nan80-not-quiet                            | ^C++ host: FAILED
host        | nan80-only-the-significand-written         | ^C++ host: FAILED
host        | denormal64-zero-counts                     | ^C++ host: FAILED
host        | denormal64-low-half-not-looked-at          | ^C++ host: FAILED
ROWS

for program do
    case $tried in *" $program "*) ;; *) echo "$program: no control"; missed=$((missed + 1)) ;; esac
done
echo "$controls controls, $missed not noticed, $untried not tried"
[ $missed -eq 0 ]
