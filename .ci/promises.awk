# Prints a line for each fault among the public functions, the methods of a public trait among them:
# one without an `ensures`, with a `requires`, or that docs/PROMISES.md does not name by its whole
# path, as `crate::module::name(`, or `crate::module::Type::name(` for a method; and for each function
# that the paper names and that is not there. The last line is the count of public functions and of
# faults.
# Files in this order: docs/PROMISES.md, then the sources, as crates/NAME/src/..rt.

function fault(text) {
    print text
    faults++
}

# The path of a source file's module: crates/card/src/device.rt is card::device.
function module(file, path) {
    path = file
    sub(/^crates\//, "", path)
    sub(/\/src\//, "/", path)
    sub(/\.rt$/, "", path)
    sub(/\/(lib|mod)$/, "", path)
    gsub(/\//, "::", path)
    return path
}

# What a paper says: every `path::name(` of it.
FILENAME ~ /PROMISES\.md$/ {
    rest = $0
    while (match(rest, /`([A-Za-z_0-9]+::)+[a-z_0-9]+\(/)) {
        named[substr(rest, RSTART + 1, RLENGTH - 2)] = 1
        rest = substr(rest, RSTART + RLENGTH)
    }
    next
}

# Whose methods come next: a type's, or those that a public trait declares.
/^(impl|pub trait)[ <]/ {
    owner = $0
    trait = owner ~ /^pub trait/
    sub(/^(impl|pub trait)(<[^>]*>)? */, "", owner)
    sub(/[^A-Za-z0-9_].*/, "", owner)
    owner = owner "::"
}

/^}/ {
    owner = ""
    trait = 0
}

/^[ \t]*pub ((const|unsafe|extern "C") )*fn / || (trait && /^    fn /) {
    name = $0
    sub(/^[ \t]*fn +/, "pub fn ", name)
    sub(/^[ \t]*pub ((const|unsafe|extern "C") )*fn +/, "", name)
    sub(/[^A-Za-z0-9_].*/, "", name)
    path = module(FILENAME) "::" owner name
    place = FILENAME ":" FNR " " name
    head = ""
    inside = 1
}

inside {
    head = head $0 "\n"
    # the body opens on a line of its own, or right after the types; a trait's method has none
    if ($0 ~ /^[ \t]*\{[ \t]*$/ || $0 ~ /\)[ \t]*(->[^{]*)?\{/ || (trait && $0 ~ /;[ \t]*$/)) {
        inside = 0
        functions++
        there[path] = 1
        if (head ~ /(^|[^A-Za-z_])requires[^A-Za-z_]/) fault(place ": a public function with a `requires`")
        if (head !~ /(^|[^A-Za-z_])ensures[^A-Za-z_]/) fault(place ": a public function without an `ensures`")
        if (!(path in named)) fault(place ": docs/PROMISES.md does not name `" path "(`")
    }
}

END {
    for (path in named) if (!(path in there)) fault("docs/PROMISES.md names `" path "(`, which is no public function")
    print functions + 0, faults + 0
}
