# What .ci/pages runs: first the files and the commands, then the tree, then the pages.

BEGIN {
    # the toolchain's crates and commands, words of the languages, of C and of the system, and what stands for any name
    split("std io bytes libc check os lib rings", w, " "); for (i in w) foreign[w[i]] = 1
    split("ci must-fail selftest doc version help new check verdict lib run test try fmt tidy plant all expand lemma seed names", w, " "); for (i in w) tool[w[i]] = 1
    split("requires ensures fn f32 u8 usize bool true false Result Ok Err Some None stdin stdout rt float lseek read_full rgb memcpy memset valgrind python3 gcc clang flock sha256sum rsvg-convert", w, " "); for (i in w) plain[w[i]] = 1
    split("error old: new: faults pathLength stroke-dasharray RINGS_PROVED RINGS_EMULATOR LETTER PATH LIBRARY Lib.antt logic.lock", w, " "); for (i in w) plain[w[i]] = 1
    split("inl inr FIRST_PROOFS.md SHORTER_PROOFS.md Invariants.antt Answers.antt rules .git/gates x86-64 x86_64 float32 Proof search src Option incremental=trusted crate File librings.so.1", w, " "); for (i in w) plain[w[i]] = 1
}

# ---- files and commands

FILENAME == list {
    if (/^command /) { command[substr($0, 9)] = 1; next }
    path[$0] = 1
    n = split($0, at, "/"); folder = at[1]; names[at[n]] = 1
    for (i = 2; i <= n; i++) { path[folder] = 1; path[folder "/"] = 1; folder = folder "/" at[i] }
    if (at[1] == "crates" && n > 2) {
        crate[at[2]] = 1
        inside = $0; sub(/^crates\/[^\/]*\//, "", inside); part[inside] = 1; sub(/\.[a-z]*$/, "", inside); part[inside] = 1
        if (at[3] == "must-fail") { sub(/\.edit$/, "", at[4]); known[at[4]] = 1; within[at[2], at[4]] = 1 }
        if (at[3] == "specs" || at[3] == "proofs") { file = at[4]; sub(/\.antt$/, "", file); within[at[2], file] = 1; known[file] = 1 }
    }
    next
}

# ---- the tree: every name that a line of code or of a proof begins or has behind a keyword, and the cases and fields

FNR == 1 { page = FILENAME !~ /^(crates|include|c)\//; split(FILENAME, at, "/"); here = at[2] }

!page && FILENAME ~ /\.antt$/ {
    line = $0; sub(/^ +/, "", line)
    if (line ~ /^(--|use )/ || line == "") next
    while (line ~ /^(pub|abbrev|unfoldable|data|record|mod) /) sub(/^[a-z]+ /, "", line)
    word = line; sub(/[ :({].*$/, "", word)
    if (line ~ /^[^ ]+ (:|=|.* (:|=|where))/ || $0 ~ /^pub mod/) { known[word] = 1; within[here, word] = 1 }
    next
}

# functions, types, constants, and types of other crates that are to be had here; the cases of enums and the fields; of the header and the Python module any word
!page && FILENAME ~ /\.rt$/ {
    line = $0
    if (line ~ /^ +([A-Z][A-Za-z]*(\(.*\)| \{.*)?,?|(pub )?[a-z_]+: [^=]*,)$/ && !importing) { sub(/^ +(pub )?/, "", line); sub(/[^A-Za-z_].*$/, "", line); known[line] = 1; within[here, line] = 1; next }
    sub(/^ *(pub )?(extern "C" )?/, "", line)
    # what is imported, in one line or in several
    if (line ~ /^use / || importing) {
        importing = line !~ /;/
        n = split(line, w, /[^A-Za-z0-9_]+/)
        for (i = 1; i <= n; i++) if (w[i] != "" && w[i] != "use") { known[w[i]] = 1; within[here, w[i]] = 1 }
        next
    }
    if (line ~ /^(fn|struct|enum|const) /) { sub(/^[a-z]+ /, "", line); sub(/[^A-Za-z0-9_].*$/, "", line) }
    else next
    known[line] = 1; within[here, line] = 1
    next
}

!page {
    line = $0
    while (match(line, /[A-Za-z_][A-Za-z0-9_]*/)) { known[substr(line, RSTART, RLENGTH)] = 1; line = substr(line, RSTART + RLENGTH) }
    next
}

# ---- the pages

function stale(what) { printf "%s:%d: there is no %s\n", FILENAME, FNR - late, what; bad++ }
function good(yes, what) { if (yes) resolved++; else stale(what) }

function begins(word,    c) { for (c in crate) if (index(c, word) == 1) return 1; return 0 }

# a name that may stand anywhere; '..' stands for any letters of it, and words all in capitals for any word
function anywhere(word) {
    if (word ~ /[*]$/) { sub(/[*]$/, "", word); good(begins(word), "name that begins with " word); return }
    if (word !~ /\.\./) sub(/[.:,]+$/, "", word)
    if (word ~ /^[A-Z0-9_]+$/ || word ~ /\.\./ || word ~ /^_[a-z]+$/ || word ~ /^[a-z]+_$/ || word ~ /^[^A-Za-z]*$/) { passed++; return }
    good((word in known) || (word in crate) || (word in command) || (word in plain) || (word in names) || (word ".edit") in names, "name " word)
}

# crate/File.name, crate/edit, a file, or a file of any crate
function placed(word,    c, rest, n, w, i) {
    sub(/^\.\//, "", word)
    if (word in path || ("docs/" word) in path || ("crates/" word) in path || word in part || (word ~ /\/$/)) { resolved++; return }
    if (word ~ /^crates\/[a-z_0-9]+\/./ && word !~ /(LETTER|NAME|CRATE|FUNCTION|FILE|EDIT|[*])/ && word !~ /^crates\/crate\//) { stale("file " word); return }
    if (word in plain || word ~ /(LETTER|NAME|DIR|CRATE|FUNCTION|FILE|EDIT)/ || word ~ /^(lib|target|crate|crates\/crate)\// || word ~ /[*]/) { passed++; return }
    c = word; sub(/\/.*$/, "", c); rest = word; sub(/^[^\/]*\//, "", rest)
    if (!(c in crate)) { if (word ~ /^[0-9a-z]+ ?\/ ?[0-9a-z(]/) passed++; else stale("file " word); return }
    n = split(rest, w, /[.]/)
    for (i = 1; i <= n; i++) good(w[i] == "*" || w[i] == "" || (c, w[i]) in within, w[i] " in " c)
}

function token(text,    word, rest, n, w, i) {
    gsub(/[ \n]+/, " ", text)
    word = text; sub(/ .*$/, "", word)
    if (text ~ /^(\.\/)?rings [a-z]/ && text !~ /^rings\./) { split(text, w, " "); good(w[2] in command || w[2] ~ /^(version|help)$/, "command " w[1] " " w[2]); return }
    if (word == "rt" && text != word) { split(text, w, " "); good(w[2] in tool, "command rt " w[2]); return }
    if (word ~ /::/) {
        sub(/[({].*$/, "", word); n = split(word, w, "::")
        if (w[1] in foreign || w[1] in plain) { passed++; return }
        for (i = 2; i <= n; i++) if (w[i] !~ /[*]|^\.*$/) good(w[1] in crate ? (w[1], w[i]) in within : (w[1] in known) && (w[i] in known), word)
        return
    }
    if (word ~ /^[a-z_]+\(/) { sub(/\(.*$/, "", word); anywhere(word); return }
    if (word ~ /^[^ ({]+\// && text !~ /[<>]/) { placed(word); return }
    # a library's file, or a fact of a proof by its path
    if (word ~ /^(lib|rings|c)\./ || word in plain) { passed++; return }
    if (word ~ /^[A-Z][A-Za-z0-9]*\.[A-Za-z]/) { n = split(word, w, "."); for (i = 1; i <= n; i++) anywhere(w[i]); return }
    if (text ~ / / && word !~ /^[A-Z][a-z]/) { passed++; return }
    if (word ~ /^[A-Za-z_][^({]*$/) { anywhere(word); return }
    passed++
}

# what is set in by four spaces is run, or is a sample; what is set in backticks may go on in the next line
{
    if (/^    / && !open) next
    line = open ? held "\n" $0 : $0
    late = open
    open = 0
    while (match(line, /`[^`]*`/)) { token(substr(line, RSTART + 1, RLENGTH - 2)); line = substr(line, RSTART + RLENGTH); late = 0 }
    if (index(line, "`") && !late) { held = substr(line, index(line, "`")); open = 1 }
}

END {
    printf "pages: %d names and commands resolved, %d texts passed over, %d stale\n", resolved, passed, bad
    exit bad > 0
}
