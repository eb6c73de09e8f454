#!/bin/sh
# What the tests by diff are worth: each of them on a copy with one difference, which it has to notice.
# MAKE=make altered.sh FOLDER    the folder of the copies, which is made anew; copies of Rattle's files lie outside the repository, where
# rt would refuse them
set -eu
folder=${1:?usage: altered.sh FOLDER}
apart=$(mktemp -d)
trap 'rm -rf "$apart"' EXIT
trap 'exit 1' HUP INT TERM
pages=$apart/pages
controls=0 missed=0
rm -rf "$folder"
mkdir -p "$folder/stored" "$pages" "$folder/left/lib"

# passes TEST VARIABLE=COPY...    the copy as it is
passes() {
    $MAKE "$@" > "$folder/log" 2>&1 || { echo "$1: complains of a copy that is as it was"; missed=$((missed + 1)); }
}

# notices LINE TEST VARIABLE=COPY...    the test fails, and has printed the line
notices() {
    wanted=$1 status=0
    shift
    $MAKE "$@" > "$folder/log" 2>&1 || status=$?
    line=$(grep -m 1 -e "$wanted" "$folder/log") || line=
    controls=$((controls + 1))
    [ $status -ne 0 ] && [ -n "$line" ] || { line="NOT NOTICED (status $status, no '$wanted')"; missed=$((missed + 1)); }
    printf '%-14s %s\n' "$1" "$line"
}

# header EDIT LINE
header() {
    sed "$1" include/zukemoriha.h > "$folder/zukemoriha.h"
    notices "$2" header header="$folder/zukemoriha.h"
}

header '$a uint8_t zk_more(void);' '^< zk_more$'
header '/^uint8_t zk_split16(/d' '^> zk_split16$'
header '/^void zk_nan80(/d' '^> zk_nan80$'
header '$a static inline int zk_taken(bool taken) { return taken; }' 'zukemoriha.h:.*bool'
header '$a static inline int zk_taken(int class) { return class; }' 'zukemoriha.h:.* error: '

# code FUNCTION LINE
code() {
    echo "$1" | ${CC:-gcc} -O1 -x c -c - -o "$folder/code.o"
    notices "$2" machine code="$folder/code.o"
}

code 'double twice(double x) { return x + x; }' 'computes by addsd$'
code 'long double twice(long double x) { return x + x; }' 'computes by f'
code 'int is_nan(double x) { return x != x; }' 'computes by ucomisd$'
code 'float minus(float x) { return -x; }' 'computes by xorps$'
code 'double minus(double x) { return -x; }' 'computes by xorpd$'
code 'long ask(void) { long r; __asm__ volatile("syscall" : "=a"(r) : "0"(12L) : "rcx", "r11", "memory"); return r; }' 'computes by syscall$'
code 'void *malloc(unsigned long); void *room(unsigned long n) { return malloc(n); }' '^asks for malloc$'
code 'static int calls; int next(void) { return ++calls; }' '^keeps data in .bss$'
code '' '^has no code$'

cp examples/*.out "$folder/stored"
passes examples stored="$folder/stored"
for name in fold_angle step80 stem_file; do
    sed '1s/[0-9]/x/' "examples/$name.out" > "$folder/stored/$name.out"
    notices '^< .*x' examples stored="$folder/stored"
    cp "examples/$name.out" "$folder/stored"
done

sed '1s/[0-9]/x/' examples/fold_angle.out > "$folder/stored/fold_angle.out"
notices '^< .*x' install-check placed="$folder/prefix" stored="$folder/stored"
sed 's/-lzukemoriha//' zukemoriha.pc.in > "$folder/pc"
notices 'undefined reference' install-check placed="$folder/prefix" pc="$folder/pc"
touch "$folder/left/lib/other"
notices '/lib/other$' install-check placed="$folder/left"

# what is not altered is a link; what rt keeps in out/ is left out
for name in *; do
    case $name in
    README.md | docs | include) cp -r "$name" "$pages" ;;
    crates) tar -c --exclude='crates/*/out' crates | tar -x -C "$pages" ;;
    target) ;;
    *) ln -s "$PWD/$name" "$pages" ;;
    esac
done
passes documents pages="$pages"

# page FILE EDIT LINE
page() {
    cp "$pages/$1" "$folder/kept"
    sed "$2" "$folder/kept" > "$pages/$1"
    notices "$3" documents pages="$pages"
    cp "$folder/kept" "$pages/$1"
}

edits=$pages/crates/hexadecimal/must-fail
mv "$edits/lower-case-only.edit" "$folder"
notices '^< hexadecimal/lower-case-only$' documents pages="$pages"
mv "$folder/lower-case-only.edit" "$edits"
touch "$edits/upper-case-only.edit"
notices '^> hexadecimal/upper-case-only$' documents pages="$pages"
rm "$edits/upper-case-only.edit"
page docs/PROOF.md 's|`remainder/a-constant`|`remainder/two-constants`|' 'no edit remainder/two-constants$'
page docs/PROOF.md 's|`every_list`|`any_list`|' 'no theorem, definition or function any_list$'
page docs/PROOF.md 's|`every_list`|`every-list`|' 'no theorem, definition or function every-list$'
page docs/DECISIONS.md 's/`fixed_order`/`fixedOrder`/' '^docs/DECISIONS.md: nothing is named fixedOrder$'
page docs/PROOF.md 's/`result[.]now ≡ stem_points/`result.now ≡ all_points/' '^docs/PROOF.md: nothing is named all_points$'
page docs/ARCHITECTURE.md 's/`hexadecimal`/hexadecimal/' 'does not name the crate hexadecimal$'
page docs/GATE.md '/^| `hexadecimal` |/d' 'has no times of the crate hexadecimal with its 4 edits$'
page docs/GATE.md '/^| `hexadecimal` |/s/| 4 | \([0-9]*\) |$/| 2 | \1 |/' 'has no times of the crate hexadecimal with its 4 edits$'
page README.md 's|(docs/SCOPE.md)|(docs/SCOPES.md)|' '^README.md: no docs/SCOPES.md$'
page docs/EVIDENCE.md 's|`tests/faults.c`|`tests/errors.c`|' '^docs/EVIDENCE.md: no tests/errors.c$'
page docs/PROOF.md 's/^- \[1[.]2\]/- [1.99]/' 'has no sentence 1.99$'
page docs/SCOPE.md '0,/^2[.] /s/^2[.] /99. /' 'has no sentence 1.2$'
page include/zukemoriha.h 's/ZK_VERSION "/&9/' 'different versions$'
page crates/export_fold/src/lib.rt '/^    ensures number/i\    requires { }' '^crates/export_fold/src/lib.rt: a host would have to look first$'
page crates/remainder/src/patterns.rt '/^    fn remainder(self, divisor: Self/a\        requires { }' '^crates/remainder/src/patterns.rt: a host would have to look first$'
page crates/packing/src/pack.rt 's/^    let kept = trim/    while false {}\n&/' 'other loops: crates/division/src/turns.rt crates/packing/src/pack.rt \(crates/short_division/src/lib.rt \)\{0,1\}$'
page crates/packing/src/pack.rt 's/^    let kept = trim/    value_fields::<F>(value);\n&/' 'has recursion: crates/packing/src/pack.rt: value_fields$'
page crates/reciprocals/src/lib.rt '/requires { hi < self.divisor }/,/let d/s/^        let d/        self.divide_words(hi, lo);\n&/' 'has recursion: crates/reciprocals/src/lib.rt: divide_words$'
page crates/reciprocals/src/lib.rt 's/^            reciprocal: reciprocal(d)/            divisor: reciprocal(d),\n&/' 'reciprocals/src/lib.rt calls reciprocal 2 times, not 1$'
page crates/remainder/src/patterns.rt 's/^        remainder64_counted(self/        remainder_short(self, divisor, kind);\n&/' '^crates/remainder/src/patterns.rt: remainder calls quick_short$'
page crates/division/src/turns.rt 's/^    b.divide_words(high/    b.divide_words(x, y);\n&/' 'turns.rt calls divide_words 3 times, not 2$'

# held STATUS VERDICT LINE...    what rt ci prints, its verdict last: tests/held.sh ends so, and holds this verdict back
held() {
    status=0 wanted=$1 verdict=$2
    shift 2
    printf '%s\n' "$@" | sh tests/held.sh "$folder/held" > "$folder/log" 2>&1 || status=$?
    line=$(cat "$folder/held/verdict")
    [ "$wanted" -eq 0 ] || controls=$((controls + 1))
    [ $status -eq "$wanted" ] && [ "$line" = "$verdict" ] || { line="NOT NOTICED (status $status, $line)"; missed=$((missed + 1)); }
    [ "$wanted" -eq 0 ] || printf '%-14s %s\n' held "$line"
}

ok='rt: ok; handles allowed: none; must-fail edits: 12 refused, 2 of them only by a limit'
rest='; every proof and must-fail edit was done in this run'
held 0 '13 passed, 0 failed' "$ok$rest" '13 passed, 0 failed'
held 1 '13 passed, 3 failed' "$ok, 3 bad$rest" '13 passed, 0 failed'
held 1 '12 passed, 1 failed' 'rt: FAILED: digits' '12 passed, 1 failed'

echo "$controls controls, $missed not noticed"
[ $missed -eq 0 ]
