#!/bin/sh
# The places in src/ that docs/DESIGN-PASS.md counts, point by point: sh tools/forms.sh [FOLDER]
# A line is found by its text, so each list holds what a point means and some lines that it does not: the page says which.
cd "${1:-$(dirname "$0")/..}" || exit 1
files=$(find crates -path '*/src/*.rt' -not -path '*/out/*' | sort)
list() { # TITLE PATTERN [WITHOUT]
    printf '\n%s\n' "$1"
    # shellcheck disable=SC2086
    grep -nE "$2" $files | grep -vE "${3:-^$}" | sed 's/^crates\//  /'
}

list '1 enums' '^ *(pub )?enum '
list '1 a flag or a number beside a value' '^ +(pub )?(done|open|number|byte|denormal): (bool|u8),$'
list '1 numbers for refusals and kinds' '^(pub )?const [A-Z_]+: u(8|16) = [0-9]+;'
list '1 functions that answer a number' '^(pub )?fn .*-> u8$'
list '2 functions of one format or width' 'fn [a-z_]+[a-z](2|4|8|16|32|64|80)(_[a-z]+)?[(<]' 'extern'
list '2 a count beside a value, and a rounding' '^ +(pub )?(divisions|says): (u32|Rounding),$'
list '3 loops' '^ *(while|loop)\b'
list '4 tests, conversions and copies by hand' '^ *(pub )?fn (is_(unsupported|nan|infinite|zero|hex)|between|digit_in|upper_hex|read_field|number_of|verdict_number|kind_of|says_number|of_pattern|gauge_of|opposite|store|load)'
list '4 a match that tells true or false' '^ +(true|false)$|=> (true|false),$'
list '5 operands in two parts, and gauges in three' '(x|y): u64, (x|y)w: u16|^ +xw: u16|period: u64' 'extern'
list '6 a length beside a buffer' '(len|known|filled|kept): usize'
list '7 a match on a kind, a layout or a way' '^ +match (kind|layout|F::LAYOUT)'
printf '\n5 facts that three contracts or more ask for\n'
# shellcheck disable=SC2086
grep -hE '^ *requires' $files | sed 's/^ *requires[a-z_ ]*{ //; s/ }$//; s/ × /\n/g' | sed 's/^(\(.*\))$/\1/' |
    sed -E "s/\b([a-z_]+)\.(old|now|significand|value|field)\b/\1/g; s/\b(x|y|a|b|n|value|dividend|divisor|operand|pattern|left|residue)\b/_/g" | sort | uniq -c | sort -rn |
    awk '$1 > 2'
