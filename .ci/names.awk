# What .ci/names runs: first the tree is read, then the tables of docs/CONTRACTS.md.

# words with a capital that are no names of ours
BEGIN { split("Lyndon Moebius Figure Theorem Too Off Not", words, " "); for (i in words) plain[words[i]] = 1 }

# the crates of the repository: what the toolchain's libraries define is not looked into
BEGIN { while (("ls crates" | getline name) > 0) ours[name] = 1 }

# ---- the tree

# crate, part (specs, proofs or src) and file of what is being read
FNR == 1 {
    split(FILENAME, at, "/")
    crate = at[2]; part = at[3]; file = at[4]; sub(/\..*$/, "", file)
    if (at[1] == "crates") { crates[crate] = 1; if (part != "src") files[crate, part, file] = 1 }
    name = ""; table = at[1] != "crates" && FILENAME != list
}

# the must-fail edits and the programs
FILENAME == list {
    split($0, at, "/")
    crates[at[2]] = 1
    if (at[3] == "must-fail") { sub(/\.edit$/, "", at[4]); edits[at[2], at[4]] = 1; has_edits[at[2]] = 1 } else programs[at[2]] = 1
    next
}

!table && (part == "specs" || part == "src") && match($0, /Rattle\.[a-z0-9_]+\.proofs\./) {
    cited = substr($0, RSTART + 7, RLENGTH - 15)
    if (cited != crate && (cited in ours)) { printf "%s:%d: a definition is taken from another crate's proofs/\n", FILENAME, FNR; bad++ }
}

# functions, types and constants, and the cases of enums
!table && part == "src" {
    line = $0
    if (line ~ /^    [A-Z][A-Za-z]*(\(.*\)| \{.*\})?,$/ || line ~ /^    [A-Z][A-Za-z]* \{$/) { sub(/^ +/, "", line); sub(/[^A-Za-z].*$/, "", line); cases[line] = 1; next }
    sub(/^[ \t]*(pub )?(extern "C" )?/, "", line)
    # what is imported, in one line or in several
    if (line ~ /^use / || importing) {
        importing = line !~ /;/
        n = split(line, w, /[^A-Za-z0-9_]+/)
        for (i = 1; i <= n; i++) if (w[i] != "" && w[i] != "use") { code[crate, w[i]] = 1; anywhere[w[i]] = 1 }
        next
    }
    if (line ~ /^(fn|struct|enum|const) /) {
        sub(/^[a-z]+ /, "", line); sub(/[^A-Za-z0-9_].*$/, "", line)
        code[crate, line] = 1; anywhere[line] = 1
        if (line ~ /^check_/) code[crate, "check_*"] = 1
    }
    next
}

# definitions and theorems; what stands up to the next empty line belongs to the last one that begins a line
!table {
    if ($0 == "") { name = ""; next }
    line = $0; sub(/^ +/, "", line)
    if (line ~ /^--/) next
    while (line ~ /^(pub|abbrev|unfoldable|data|record) /) sub(/^[a-z]+ /, "", line)
    word = line; sub(/[ :({].*$/, "", word)
    if (word == "" || word == "use" || word == "unfolding" || word == "where" || word == "module") next
    if ($0 !~ /^ /) {
        name = word; declared[crate, part, file, name] = 1
        anywhere[name] = 1
        # the cases of a definition by cases
        sub(/ = .*$/, "", line); n = split(line, w, /[ ().]+/); for (i = 2; i <= n; i++) parts[crate, part, file, name, w[i]] = 1
    } else if (line ~ /^[^ ]+ : / || (($0 ~ /^  [^ ]/ || $0 ~ /^ +pub /) && line ~ /^[^ ]+ .*: /)) {
        # a constructor, a field, or a theorem of a section
        if ($0 ~ /^  [^ ]/ || $0 ~ /^ +pub /) { declared[crate, part, file, word] = 1; anywhere[word] = 1 }
        if (name != "") parts[crate, part, file, name, word] = 1
    }
    next
}

# ---- the tables

function stale(what) { printf "%s:%d: %s: there is no %s, in the cell '%.120s'\n", FILENAME, FNR, heads[column], what, cell; bad++ }

function good(here) { if (here) resolved++; return here }

# a definition or theorem `c/f.n` or `c/f.n.p`; in the column of definitions it stands in specs/
function check_name(c, f, rest, whole,    n, p, s) {
    lastForm = "name"; lastCrate = c; lastFile = f
    if (rest == "") { if (!good(((c, "specs", f) in files) || (kind != "D" && ((c, "proofs", f) in files)))) stale("file " whole); return }
    n = rest; p = ""
    if (index(rest, ".")) { n = substr(rest, 1, index(rest, ".") - 1); p = substr(rest, index(rest, ".") + 1) }
    s = ((c, "specs", f, n) in declared) ? "specs" : (kind != "D" && ((c, "proofs", f, n) in declared)) ? "proofs" : ""
    if (s == "") { stale("name " whole (kind == "D" ? " in specs/" : "")); return }
    if (!good(p == "" || ((c, s, f, n, p) in parts))) stale("part " whole)
}

function check_code(c, n, whole) {
    lastForm = "code"; lastCrate = c
    if (!good((c, n) in code)) stale("function or type " whole)
}

function check_edit(c, n, whole) {
    lastForm = "edit"; lastCrate = c
    if (!good(n == "*" ? (c in has_edits) : ((c, n) in edits))) stale("edit " whole)
}

function is_file(path,    line, r) { r = (getline line < path); close(path); return r >= 0 }

# a word with its crate or file; 0 where it has neither
function check_word(word,    c, rest, f) {
    if (word ~ /^(\.ci|bench|docs)\/[A-Za-z]/) { if (!good(is_file(word))) stale("file " word); return 1 }
    if (word ~ /^[a-z][a-z0-9_]*::/) {
        c = word; sub(/::.*$/, "", c); rest = word; sub(/^.*::/, "", rest)
        check_code(c, rest, word); return 1
    }
    if (word ~ /^[a-z][a-z0-9_]*\/[A-Z]/) {
        c = word; sub(/\/.*$/, "", c); rest = word; sub(/^[^\/]*\//, "", rest); f = rest; sub(/\..*$/, "", f)
        if (!sub(/^[^.]*\./, "", rest)) rest = ""
        check_name(c, f, rest, word); return 1
    }
    if (word ~ /^[A-Z][A-Za-z0-9]*\.[A-Za-z]/) {
        f = word; sub(/\..*$/, "", f); rest = word; sub(/^[^.]*\./, "", rest)
        if (((lastCrate, "specs", f) in files) || ((lastCrate, "proofs", f) in files)) check_name(lastCrate, f, rest, lastCrate "/" word)
        else check_name(lastCrate, lastFile, word, lastCrate "/" lastFile "." word)
        return 1
    }
    if (word ~ /^[a-z][a-z0-9_]*\/[a-z*]/) {
        c = word; sub(/\/.*$/, "", c); rest = word; sub(/^[^\/]*\//, "", rest)
        check_edit(c, rest, word); return 1
    }
    return 0
}

# a word of a remark: one in backticks, one that begins with a capital or is written as names are stands for something too, somewhere in the tree
function check_remark(word, ticked) {
    gsub(/^['"]+|['":.]+$/, "", word)
    if (!ticked && word !~ /^[A-Z][a-z]/ && word !~ /^[a-z]+[_-][a-z]/ && word !~ /[a-z][A-Z]/) return
    if ((word in anywhere) || (word in cases) || (word in crates)) { resolved++; return }
    if (!ticked && (word in plain)) return
    stale("name " word)
}

# a word that stands alone: of the file or crate of the last one, or a program
function check_alone(word) {
    if (word ~ /^(contracts?|equations?|-)$/) { remarks++; if (word != "-") lastForm = "contract"; return }
    if (kind == "R" || ((kind == "W" || lastForm == "") && (word in programs))) { lastForm = "run"; if (!good(word in programs)) stale("program " word); return }
    if (lastForm == "contract") { if (!good(word in anywhere)) stale("promise " word); return }
    if (lastForm == "name") { check_name(lastCrate, lastFile, word, lastCrate "/" lastFile "." word); return }
    if (lastForm == "code") { check_code(lastCrate, word, lastCrate "::" word); return }
    if (lastForm == "edit") { check_edit(lastCrate, word, lastCrate "/" word); return }
    stale("crate or file for " word)
}

# an item of a list: a name, or words among which names may stand
function item(text,    n, w, i, ticked) {
    gsub(/^[ \t]+|[ \t]+$/, "", text)
    if (text == "") return
    n = split(text, w, / +/)
    if (n == 1) {
        gsub(/`/, "", text); sub(/[:.]$/, "", text)
        if (!check_word(text)) check_alone(text)
        return
    }
    remarks++
    if (w[1] ~ /^contracts?$/) lastForm = "contract"
    for (i = 1; i <= n; i++) {
        ticked = w[i] ~ /^`[A-Za-z][A-Za-z0-9_-]*`[:.]?$/
        gsub(/`/, "", w[i]); sub(/[:.]$/, "", w[i])
        if (!check_word(w[i])) check_remark(w[i], ticked)
    }
}

# a list, set apart by commas and semicolons; what stands in parentheses is a list of its own, of remarks
function items(text, inside,    i, ch, depth, got, held, keepForm, keepCrate, keepFile) {
    got = ""; held = ""; depth = 0
    for (i = 1; i <= length(text); i++) {
        ch = substr(text, i, 1)
        if (ch == "(") { if (depth++ > 0) held = held ch; continue }
        if (ch == ")" && depth > 0) {
            if (--depth > 0) { held = held ch; continue }
            item(got); got = ""
            keepForm = lastForm; keepCrate = lastCrate; keepFile = lastFile
            aside(held); held = ""
            lastForm = keepForm; lastCrate = keepCrate; lastFile = keepFile
            continue
        }
        if (depth > 0) { held = held ch; continue }
        if (ch == "," || ch == ";") { item(got); got = ""; continue }
        got = got ch
    }
    item(got)
}

# a remark in parentheses: of its words those are names that have a crate or a file, and, where edits are told so, the words behind them
function aside(text,    n, w, i, ticked) {
    remarks++
    if (kind == "P") { items(text); return }
    n = split(text, w, /[ ,;]+/)
    for (i = 1; i <= n; i++) {
        ticked = w[i] ~ /^`[A-Za-z][A-Za-z0-9_-]*`[:.]?$/
        gsub(/`/, "", w[i]); sub(/[:.]$/, "", w[i])
        if (!check_word(w[i])) check_remark(w[i], ticked)
    }
}

# the calls of the last table: `crate::function(arguments)`, and behind it functions of the same crate
function calls(text,    n, w, i, c) {
    n = split(text, w, "`")
    for (i = 2; i <= n; i += 2) {
        sub(/\(.*$/, "", w[i])
        if (w[i] ~ /::/) { c = w[i]; sub(/::.*$/, "", c); sub(/^.*::/, "", w[i]) }
        check_code(c, w[i], c "::" w[i])
    }
}

# what a column holds: D definitions, T theorems and contracts, C code, R runs, E edits, W any, P words with edits in parentheses, L calls; S is not looked into
function kind_of(head) {
    if (head == "Definition" || head == "Given exactly when") return "D"
    if (head == "Theorem or contract" || head == "One answer") return "T"
    if (head == "Code") return "C"
    if (head == "Test") return "R"
    if (head == "Edit") return "E"
    if (head == "Where") return "W"
    if (head ~ /^Wrong programs/) return "P"
    if (head == "Call") return "L"
    if (head == "Statement" || head == "In symbols" || head == "About" || head == "From" || head == "Sentence" || head == "Demand" || head == "Row" || head ~ /^Its contract/) return "S"
    return ""
}

/^## / { begun = 1 }

table && begun && /^\| / {
    line = $0; sub(/^\| /, "", line); sub(/ \|[ \t]*$/, "", line)
    n = split(line, cells, / \| /)
    if (!rows) {
        width = n
        for (i = 1; i <= n; i++) {
            heads[i] = cells[i]; kinds[i] = kind_of(cells[i])
            if (kinds[i] == "") { printf "%s:%d: a column '%s' that is not known\n", FILENAME, FNR, cells[i]; bad++ }
        }
    }
    else {
        if (n != width) { printf "%s:%d: %d cells in a table of %d\n", FILENAME, FNR, n, width; bad++ }
        for (column = 1; column <= n; column++) {
            kind = kinds[column]; cell = cells[column]; lastForm = lastCrate = lastFile = ""
            if (kind == "S") continue
            if (kind == "L") calls(cell)
            else if (kind == "P") {
                # words, and behind each group of them its edits in parentheses
                for (rest = cell; match(rest, /\([^()]*\)/); rest = substr(rest, RSTART + RLENGTH)) items(substr(rest, RSTART + 1, RLENGTH - 2))
                if (cell !~ /\(/) items(cell)
            }
            else items(cell)
        }
    }
    rows++; next
}

table { if ($0 !~ /^\|/) rows = 0 }

# what stands beside the tables
table && begun && !/^(\||#)/ {
    kind = "W"; cell = $0; column = 0; heads[0] = "text"; lastForm = lastCrate = lastFile = ""
    n = split($0, w, /[ ,;()`]+/)
    for (i = 1; i <= n; i++) { sub(/[:.]$/, "", w[i]); check_word(w[i]) }
}

END {
    printf "names: %d resolved, %d remarks passed over, %d stale\n", resolved, remarks, bad
    exit bad > 0
}
