# Prints, for each theorem that a paper names, its file and its name: `CRATE.proofs.FILE.NAME` anywhere,
# and `FILE.NAME` in the row of a function, which is in the function's crate.

function theorem(crate, word, parts) {
    split(word, parts, ".")
    print "crates/" crate "/proofs/" parts[1] ".antt", parts[2]
}

{
    rest = $0
    while (match(rest, /`[a-z_]+\.proofs\.[A-Z][A-Za-z]*\.[a-z][a-z0-9_-]*`/)) {
        word = substr(rest, RSTART + 1, RLENGTH - 2)
        rest = substr(rest, RSTART + RLENGTH)
        crate = word
        sub(/\..*/, "", crate)
        sub(/^[a-z_]+\.proofs\./, "", word)
        theorem(crate, word)
    }
}

/^\| `[a-z_]+::/ {
    crate = $0
    sub(/^\| `/, "", crate)
    sub(/::.*/, "", crate)
    rest = $0
    while (match(rest, /`[A-Z][A-Za-z]*\.[a-z][a-z0-9_-]*`/)) {
        theorem(crate, substr(rest, RSTART + 1, RLENGTH - 2))
        rest = substr(rest, RSTART + RLENGTH)
    }
}
