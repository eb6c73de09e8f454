#!/bin/sh
# What the documents name is there, and the crate's version is the header's: every edit in the list of its crate in docs/PROOF.md and no
# other, every theorem, definition and function that its sections 2 and 3 name, every name that a page gives in backquotes, every crate in
# docs/ARCHITECTURE.md and, with its number of edits, in docs/GATE.md, every file that a link or a path of a page speaks of, and every
# sentence of docs/SCOPE.md that a comment or a page points at. And no function of the files that docs/PROOF.md names for [1.2] asks
# anything of its caller, but for private helpers, and no crate that a binary64 remainder runs has another loop than the one that
# docs/PROOF.md names for [3.10], or recursion, or calls what divides more often than its section 5 says.
# documents.sh [FOLDER]    the repository's, or a copy's
set -eu
unset CDPATH
cd "${1:-.}"
wrong=0
say() { echo "$*"; wrong=1; }

listed=$(mktemp)
trap 'rm -f "$listed"' EXIT
awk 'function flush() { if (crate != "") { sub(/[.]$/, "", text); n = split(text, names, ", "); for (i = 1; i <= n; i++) {
        gsub(/ /, "-", names[i]); print crate "/" names[i] } } crate = "" }
    /^## / { within = ($2 == "4.") }
    within && /^- `[a-z0-9_]*`: / { flush(); split($0, part, "`"); crate = part[2]; text = substr($0, index($0, ": ") + 2); next }
    crate != "" && /^  / { text = text substr($0, 2); next }
    { flush() }
    END { flush() }' docs/PROOF.md | sort > "$listed"
ls crates/*/must-fail/*.edit | sed 's|crates/\(.*\)/must-fail/\(.*\)\.edit|\1/\2|' | sort | diff "$listed" - || say 'docs/PROOF.md lists other edits'
for edit in $(grep -oh '`[a-z0-9_]*/[a-z0-9-][a-z0-9-]*`' docs/PROOF.md | tr -d '`'); do
    [ -e "crates/${edit%/*}/must-fail/${edit#*/}.edit" ] || [ -e "$edit" ] || [ -e "crates/$edit" ] || say "docs/PROOF.md: no edit $edit"
done

# a name with underlines and nothing else is a theorem's, or that of a definition, a function or a crate
stated=$(grep -rhoE '^ *pub [a-z0-9_]+ :' crates/*/proofs | sed 's/^ *pub //; s/ ://')
defined=$(grep -rhoE '^ *(abbrev |unfoldable )?pub [a-z0-9_]+ :' crates/*/specs | sed 's/^.*pub //; s/ ://'
    grep -rhoE '^ *pub ([a-z"C]* )*fn [a-z0-9_]+' crates/*/src | sed 's/.* //'; ls crates)
for theorem in $(awk '/^## / { within = ($2 == "2." || $2 == "3.") } within' docs/PROOF.md | grep -oE '`[a-z0-9]+([_-][a-z0-9]+)+`' | tr -d '`' | sort -u | grep -vxF "$stated" | grep -vxF "$defined"); do
    say "docs/PROOF.md: no theorem, definition or function $theorem"
done

# and wherever a page has such a name between backquotes, alone or in a formula, it is a word of what the repository is made of
find -H crates/*/src crates/*/specs crates/*/proofs rust tests bench include examples Makefile crates.txt -name target -prune -o -type f ! -name altered.sh -print |
    xargs cat | tr -c 'A-Za-z0-9_' '\n' | sort -u > "$listed"
for page in README.md docs/[A-Z]*.md; do
    case $page in docs/PORT.md | docs/DESIGN-PASS.md) continue ;; esac # they name what is gone
    for name in $(awk '/^ *```/ { code = !code; next } !code' "$page" | tr '\n' ' ' | grep -oE '`[^`]*`' | tr -c 'A-Za-z0-9_*' '\n' |
        grep -E '^([a-z0-9]+(_[a-z0-9]+)+|[a-z]+[A-Z][A-Za-z0-9]*)$' | sort -u | grep -vxFf "$listed"); do
        say "$page: nothing is named $name"
    done
done

for crate in $(ls crates); do
    grep -qE "^$crate( staticlib)?:" crates.txt || say "crates.txt does not list the crate $crate"
    grep -q "\`$crate\`" docs/ARCHITECTURE.md || say "docs/ARCHITECTURE.md does not name the crate $crate"
    edits=$(ls crates/$crate/must-fail 2> /dev/null | wc -l)
    grep -q "^| \`$crate\` | [0-9]* | $edits |" docs/GATE.md || say "docs/GATE.md has no times of the crate $crate with its $edits edits"
done

for page in README.md docs/*.md docs/changes/*.md rust/zukemoriha/README.md vectors/README.md; do
    folder=$(dirname "$page")
    for link in $(grep -o '](\([^)#]*\)' "$page" | sed 's/](//' | grep -v '^$' | sort -u); do
        [ -e "$folder/$link" ] || say "$page: no $link"
    done
    for path in $(grep -oE '`(crates|rust|tests|vectors|docs|bench|examples|include)/[A-Za-z0-9_./*-]*`' "$page" | tr -d '`' | sort -u); do
        set -- $path # a path may have a star
        [ -e "$1" ] || say "$page: no $path"
    done
done
numbered=$(awk '/^## [0-9]/ { section = $2 + 0 } /^[0-9]+[.] / { print section "." ($1 + 0) }' docs/SCOPE.md)
for sentence in $(grep -rhoE '\[[0-9]+[.][0-9]+[^]]*\]' crates/*/specs crates/*/proofs crates/*/src docs/PROOF.md | grep -oE '[0-9]+[.][0-9]+' | sort -u |
    grep -vxF "$numbered"); do
    say "docs/SCOPE.md has no sentence $sentence"
done
called=$(awk '/^- \[1.2\]/ { within = 1; print; next } /^- / { within = 0 } within' docs/PROOF.md | grep -oE '`crates/[^`]*`' | tr -d '`')
for file in $(find $called -name out -prune -o -name '*.rt' -print); do
    # a trait's methods and those that meet one are public too
    awk '/^pub trait |^impl.* for / { met = 1 } /^}/ { met = 0 } /^ *pub (extern "C" )?fn / || met && /^    fn / { host = 1 }
        host && /^ *requires/ { print FILENAME ": a host would have to look first"; bad = 1 } /^ *{$|[{;]$/ { host = 0 }
        END { exit bad }' "$file" || wrong=1
done
# [3.10] what a binary64 remainder runs: the crate of its export and all below it
crates=export_remainder
for round in 1 2 3 4 5 6 7 8 9; do
    crates=$({ printf '%s\n' $crates; for crate in $crates; do sed -n "s/^$crate\( staticlib\)\{0,1\}://p" crates.txt; done; } | tr ' ' '\n' | grep . | sort -u)
done
code=$(for crate in $crates; do find crates/$crate/src -name '*.rt'; done)
loops=$(grep -HE '^[^/]*\b(while|loop)\b|^[^/]*\bfor [^ ].* in |^[^/]*[.]([a-z_]*iter[a-z_]*|chars|bytes|windows|chunks[a-z_]*|lines|split[a-z_]*)[(]' $code |
    cut -d: -f1 | tr '\n' ' ')
recursive=$(for crate in $crates; do find crates/$crate -name out -prune -o -name '+*' -print; done
    grep -HE '^ *#\[cycle' $code || true
    for file in $code; do
        awk '/^ *(pub )?(extern "C" )?fn [a-z0-9_]+/ { match($0, /fn [a-z0-9_]+/); name = substr($0, RSTART + 3, RLENGTH - 3); next }
            name != "" && $0 !~ /^ *\/\// && $0 ~ ("(^|[^a-z0-9_])" name "(::<[A-Za-z0-9]+>)?[(]") { print FILENAME ": " name }' "$file"
    done)
[ -z "$recursive" ] || say "docs/PROOF.md: a binary64 remainder has recursion: $recursive"
# [3.9] the calls that divide, as often as section 5 says
awk -F'|' '/^  [|] `crates/ { gsub(/[`,]/, "", $2); gsub(/[`,]/, "", $3); n = split($3, word, " "); split($2, file, " ")
    for (i = 1; i < n; i += 2) print file[1], word[i], word[i + 1] }' docs/PROOF.md > "$listed"
[ -s "$listed" ] || say 'docs/PROOF.md has no table of calls that divide'
while read -r file name times; do
    found=$(grep -vE '^ *(//|use |pub fn |fn )' "$file" | grep -oE "(^|[^a-z0-9_])$name(::<[A-Za-z0-9]+>)?[(]" | wc -l)
    [ "$found" -eq "$times" ] || say "$file calls $name $found times, not $times"
done < "$listed"
# short_division is of binary16 and binary32: quick_short alone calls it, and no function of binary64 calls quick_short
wanted='crates/division/src/turns.rt '
case " $crates " in *[[:space:]]short_division[[:space:]]*)
    wanted="$wanted""crates/short_division/src/lib.rt "
    [ "$(grep -rl 'use short_division\|short_division::' crates/*/src | sort | tr '\n' ' ')" = 'crates/quick_short/src/lib.rt ' ] ||
        say 'docs/PROOF.md: more than quick_short calls short_division'
    awk '/^impl / { met = $0 } /^}/ { met = "" } /^ *(pub )?fn / { match($0, /fn [a-z0-9_]+/); name = substr($0, RSTART + 3, RLENGTH - 3) }
        /is_quick|remainder_quick|remainder_short[(]/ && $0 !~ /^ *(use|ghost use|ensures|requires) / && name != "remainder_short" &&
            met !~ /^impl Remainder for Binary(16|32) / { print FILENAME ": " name " calls quick_short"; bad = 1 }
        END { exit bad }' crates/remainder/src/patterns.rt || wrong=1
    ;;
esac
[ "$loops" = "$wanted" ] || say "docs/PROOF.md: a binary64 remainder has other loops: $loops"
[ "$(sed -n 's/^version = //p' rust/zukemoriha/Cargo.toml)" = "$(sed -n 's/^#define ZK_VERSION //p' include/zukemoriha.h)" ] ||
    say 'the Rust crate and the header are of different versions'
[ $wrong -eq 0 ] && echo 'what the documents name is there'
