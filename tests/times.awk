# A table out of target/ci.log, the lines of `rt ci` behind the seconds since its start: when each crate was proved, how many edits it has
# that must be refused, and how many of these were tried in this run. What an earlier run on this machine proved or tried has no time.
BEGIN { FS = "\t" }
function named(text) { sub(/^rt: /, "", text); sub(/[ :].*/, "", text); return text }
function row(crate, at) { if (!(crate in seen)) { seen[crate]; order[++crates] = crate; when[crate] = at } }
$2 ~ /^rt: [a-z0-9_]+ proved$/ { row(named($2), $1); proofs++ }
$2 ~ /^rt: [a-z0-9_]+ is kept: / { row(named($2), "") }
$2 ~ /^rt: must-fail [a-z0-9_]+\/.*: refused, as it must be/ { split($2, word, /[ \/]/); edits[word[3]]++ }
$2 ~ /^rt: [a-z0-9_]+: trying its must-fail edits \([0-9]+\)$/ { count = $2; sub(/.*\(/, "", count); tried[named($2)] = count + 0 }
{ last = $1 }
END {
    print "| Crate | Proved after, s | Edits | Tried |"
    print "|---|---|---|---|"
    for (n = 1; n <= crates; n++) {
        c = order[n]
        printf "| `%s` | %s | %d | %d |\n", c, when[c], edits[c], tried[c]
        count_all += edits[c]; tried_all += tried[c]
    }
    printf "| all, %d of %d proved in this run | %d | %d | %d |\n", proofs, crates, last, count_all, tried_all
}
