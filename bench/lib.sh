# What the scripts of this folder share, and those of c/, .ci/door, .ci/stack and .ci/c with them; they read it with '.', after setting `top` to the repository's folder. It finds the
# toolchain's parts and makes a room for what is built, which is removed at the end. Then: build_programs, build_libraries, static_library and build_calls build, by a proof each, since the
# toolchain compiles nothing that is not proved; build_c compiles C; keep_objects, frames and deepest tell the stack, run runs, count counts instructions.
# Nothing but the toolchain is needed, on x86-64. Every path may have spaces.
# Where RINGS_PROVED names a file, as .ci/run has it behind `rt ci`, what stands in the crates' out/ and is newer was proved and built by that, and is taken as it is.

say() { printf '%s: %s\n' "$(basename "$0")" "$*" >&2; }
die() { say "$*"; exit 2; }

command -v rt >/dev/null 2>&1 || die "the command rt is missing: put the Rattle toolchain's bin folder on PATH"
case $(uname -m) in x86_64 | amd64) ;; *) die "the toolchain is for x86-64, and this machine is $(uname -m)" ;; esac
kit=$(dirname "$(rt doc)")
bin=$kit/toolchain/bin lib=$kit/toolchain/lib
loader=$lib/ld-linux-x86-64.so.2

room=$(mktemp -d)
trap 'rm -rf "$room"' EXIT
trap 'exit 1' HUP INT TERM

# ---- building C

# link OUT FILE..: a program of objects and archives, by the toolchain's own linker and C library.
link() {
    to=$1
    shift
    "$bin/ld.lld" -pie --dynamic-linker /lib64/ld-linux-x86-64.so.2 -o "$to" "$lib/Scrt1.o" "$lib/crti.o" "$lib/crtbeginS.o" "$@" \
        "$lib/libc.so.6" "$lib/libc_nonshared.a" "$lib/libgcc.a" "$lib/crtendS.o" "$lib/crtn.o"
}

# object NAME [WORD..]: room/NAME.o from the C source on standard input, by the toolchain's own compiler.
object() {
    name=$1
    shift
    cat >"$room/$name.c"
    "$bin/clang" --target=x86_64-unknown-linux-gnu "$@" -c "$room/$name.c" -o "$room/$name.o"
}

# build_c NAME [FILE..]: room/NAME from NAME.c of this folder and what it links besides.
build_c() {
    program=$1
    shift
    object "$program" -O3 -fPIE <"$top/bench/$program.c"
    link "$room/$program" "$room/$program.o" "$@"
}

# ---- building what is proved: such a function has its own names, in parentheses

# told FILE WHAT: shows what the toolchain said, and that it did not build
told() {
    cat "$1" >&2
    say "$2 was not built (see above)"
    return 2
}

# by_gate PATH: was it made by the `rt ci` before?
by_gate() { [ -n "${RINGS_PROVED-}" ] && [ -n "$(find "$1" -prune -newer "$RINGS_PROVED" 2>/dev/null)" ]; }

# build_program PROGRAM: crates/PROGRAM/out/PROGRAM. What is not proved yet of it and of what it stands on is proved first, which may take minutes.
build_program() {
    made=$top/crates/$1/out/$1
    ! by_gate "$made" || return 0
    # rt also runs it, on no input
    (cd "$top/crates/$1" && rt run </dev/null) >/dev/null 2>"$room/said" && [ -s "$made" ] || told "$room/said" "'$1'"
}

# build_programs DIR PROGRAM..: the programs, each under its name in DIR.
build_programs() (
    into=$1
    shift
    for program; do
        build_program "$program" && cp "$top/crates/$program/out/$program" "$into/$program" || return 2
    done
)

# build_list: the listing program, where it is not built yet.
build_list() { "$top/rings" list 2 1 >/dev/null; }

# below CRATE..: the crates of the repository that these stand on, these with them, a line each.
below() {
    awk -F: -v from="$*" '
        function visit(crate,    i, m, on) {
            if (!(crate in needs) || crate in seen) return
            seen[crate] = 1
            print crate
            m = split(needs[crate], on, " ")
            for (i = 1; i <= m; i++) visit(on[i])
        }
        { sub(/#.*/, "") }
        NF > 1 { sub(/ .*/, "", $1); needs[$1] = $2 }
        END { m = split(from, first, " "); for (i = 1; i <= m; i++) visit(first[i]) }' "$top/crates.txt"
}

# stands_on CRATE: what crates.txt says that it stands on.
stands_on() { sed -n "s/^$1\( staticlib\)\{0,1\}: *//p" "$top/crates.txt"; }

# libraries_by_gate CRATE..: what a crate above these is built over, all of it made by the `rt ci` before. (Behind its run it gives a checkout back what earlier checks had left there.)
libraries_by_gate() (
    for crate in $(below "$@"); do
        by_gate "$top/crates/$crate/out/rlib/$crate.rlib" || return 1
    done
)

# build_libraries CRATE..: of each crate of the repository what the crates above it are built over, crates/CRATE/out/rlib.
build_libraries() (
    ! libraries_by_gate "$@" || return 0
    for crate; do
        (cd "$top/crates/$crate" && rt lib) >"$room/said" 2>&1 || told "$room/said" "the library $crate" || return 2
    done
)

# static_library FOLDER NAME TO TOOLCHAIN CRATE..: the file TO, the static library of the crate NAME in FOLDER, which is proved here and now, from nothing, over these crates of the
# repository, whose libraries are built. TOOLCHAIN has the compiler.
static_library() (
    folder=$1 name=$2 to=$3 by=$4
    shift 4
    crates=$* under=$(below "$@")
    set -- --crate-name "$name" src/lib.rt --crate-type staticlib --extern "std=$kit/rlibs/std.rlib" -L "dependency=$kit/rlibs"
    for crate in $crates; do
        if [ -d "$top/crates/$crate" ]; then set -- "$@" --extern "$crate=$top/crates/$crate/out/rlib/$crate.rlib"; else set -- "$@" --extern "$crate=$kit/rlibs/$crate.rlib"; fi
    done
    for crate in $under; do set -- "$@" -L "dependency=$top/crates/$crate/out/rlib"; done
    set -- "$@" --antt-project "$kit/rattle/logic/antt-project.json" --logic-built "$kit/logic_built" --links "$name=" --backend llvm
    (cd "$folder" && "$kit/bin/rattle" build "$@" --toolchain "$by" -o "$to") >"$room/said" 2>&1
)

# build_door CRATE: crates/CRATE/out/libCRATE.a, the static library of a crate of the repository.
build_door() (
    made=$top/crates/$1/out/lib$1.a on=$(stands_on "$1")
    ! by_gate "$made" || return 0
    # `rt ci` proves such a crate and builds what it stands on, but not its library
    # shellcheck disable=SC2086
    if libraries_by_gate $on && mkdir -p "$top/crates/$1/out" && static_library "$top/crates/$1" "$1" "$made" "$kit/toolchain" $on; then return; fi
    (cd "$top/crates/$1" && rt lib) >"$room/said" 2>&1 && [ -s "$made" ] || told "$room/said" "$1"
)

# The calls that are measured, under names that C can call. A refusal answers 255.
calls_source() {
    cat <<'RATTLE'
use refusal::Refusal;
use shades::Next;
use walk::Arrival;
use walk::Outcome;
use walk::Stepped;
use walk::Walk;

#[unsafe(no_mangle)]
pub extern "C" fn bring_home(s: &[u8], k: usize, out: &mut [u8]) -> usize {
    match home::bring_home(s, k, out) {
        Ok(home) => home.shift ^ home.period,
        Err(_) => 255,
    }
}

#[unsafe(no_mangle)]
pub extern "C" fn next_ring(s: &[u8], k: usize, counts: &[usize], out: &mut [u8]) -> usize {
    match shades::next_ring(s, k, counts, out) {
        Ok(Next::Ring) => 1,
        Ok(Next::Done) => 0,
        Err(_) => 255,
    }
}

fn step(w: Walk, kind: usize) -> Stepped {
    if kind == 1 {
        return walk::next_prenecklace(w);
    }
    if kind == 2 {
        return walk::next_necklace(w);
    }
    walk::next_lyndon(w)
}

fn moves(outcome: Result<Outcome, Refusal>) -> usize {
    match outcome {
        Ok(Outcome::Moved(m)) => m,
        Ok(Outcome::Done(m)) => m,
        Err(_) => 255,
    }
}

fn arrival(a: Result<Arrival, Refusal>) -> usize {
    match a {
        Ok(Arrival::Moved) => 1,
        Ok(Arrival::Done) => 0,
        Err(_) => 255,
    }
}

fn next_bracelet(w: Walk, out: &mut [u8; 64]) -> usize {
    let arrived = walk::next_bracelet(w);
    let v = arrived.walk;
    let ring = v.ring;
    *out = ring;
    let a = arrived.arrival;
    arrival(a)
}

// A start, and where the kind is not 0 a step behind it.
#[unsafe(no_mangle)]
pub extern "C" fn walk_on(s: &[u8], k: usize, kind: usize, out: &mut [u8; 64]) -> usize {
    let started = walk::start(s, k);
    let w = started.walk;
    if kind == 0 {
        let ring = w.ring;
        *out = ring;
        return 0;
    }
    if kind == 4 {
        return next_bracelet(w, out);
    }
    let stepped = step(w, kind);
    let v = stepped.walk;
    let ring = v.ring;
    *out = ring;
    let o = stepped.outcome;
    moves(o)
}
RATTLE
}

# The calls on sets that are measured, the same way; a sighting answers the target, 253 where there are several, 254 where there is none.
chosen_source() {
    cat <<'RATTLE'
use sets::Picked;
use sight::Sighting;

fn taken(p: Picked) -> usize {
    let answer = p.answer;
    match answer {
        Ok(()) => p.taken,
        Err(_) => 255,
    }
}

#[unsafe(no_mangle)]
pub extern "C" fn pick(guarded: usize, n: usize, k: usize, d: usize, wanted: usize) -> usize {
    if guarded == 0 {
        return taken(sets::pick(n, k, d, wanted));
    }
    taken(sets::pick_guarded(n, k, d, wanted))
}

#[unsafe(no_mangle)]
pub extern "C" fn sight(rings: &[u8], reading: &[u8], k: usize, most: usize) -> usize {
    match sight::sight(rings, reading, k, most) {
        Ok(Sighting::Front { target, .. }) => target,
        Ok(Sighting::Back { target, .. }) => target,
        Ok(Sighting::Several) => 253,
        Ok(Sighting::Unknown) => 254,
        Err(_) => 255,
    }
}
RATTLE
}

# build_measured NAME TOOLCHAIN CRATE..: room/NAME.a, the static library of the Rattle source on standard input. It is a crate that only stands in the room, so that neither the repository nor
# its gate has it.
build_measured() (
    of=$1 with=$2
    shift 2
    mkdir -p "$room/crate-$of/src"
    { printf '#![tactic(auto)]\n\n'; cat; } >"$room/crate-$of/src/lib.rt"
    build_libraries "$@" || return 2
    static_library "$room/crate-$of" "$of" "$room/$of.a" "$with" "$@" || told "$room/said" "the library for C"
)

# build_calls [TOOLCHAIN]: room/calls.a, the library of those calls for C.
build_calls() {
    say "what is not proved yet is proved first, which may take minutes"
    calls_source | build_measured calls "${1:-$kit/toolchain}" refusal home walk shades
}

# ---- the stack

# keep_objects: room/kit, the toolchain's compiler and linker once more, in links, but for the compiler, which also leaves two objects in room/kit: built.o as the code is built, and
# apart.o with no function laid into another. Both carry the compiler's own record of each function's frame.
keep_objects() {
    mkdir -p "$room/kit/bin"
    ln -s "$lib" "$room/kit/lib"
    for part in "$bin"/*; do ln -s "$part" "$room/kit/bin/"; done
    mv "$room/kit/bin/clang" "$room/kit/bin/own-clang"
    cat >"$room/kit/bin/clang" <<'COMPILER'
#!/bin/sh
here=$(dirname "$0") to=$(dirname "$0")/..
"$here/own-clang" "$@" -fstack-size-section -o "$to/built.o" || exit
"$here/own-clang" "$@" -fstack-size-section -mllvm -inline-threshold=-1000000 -o "$to/apart.o" || exit
exec "$here/own-clang" "$@"
COMPILER
    chmod +x "$room/kit/bin/clang"
    ln -s "$bin/clang" "$room/llvm-readelf"
    ln -s "$bin/clang" "$room/llvm-objdump"
}

# frames OBJECT: a line 'frame BYTES FUNCTION' for each function, then a line 'call CALLER CALLED' for each call
frames() {
    "$room/llvm-readelf" --stack-sizes "$1" | awk '$1 ~ /^[0-9]+$/ { print "frame", $1, $2 }'
    "$room/llvm-objdump" -d -r --no-show-raw-insn "$1" | awk '
        /^[0-9a-f]+ <.*>:$/ { caller = $2; gsub(/^<|>:$/, "", caller) }
        $2 == "R_X86_64_PLT32" { called = $3; sub(/^\.text\./, "", called); sub(/-0x[0-9a-f]+$/, "", called); print "call", caller, called }'
}

# deepest CALL: of such lines on standard input, the bytes of the deepest way down, with 8 for each return address on it. What the C library takes is not known, and counts for nothing.
deepest() {
    awk -v call="$1" '
        function deep(f,    i, m, d, best) {
            if (f in depth) return depth[f]
            best = 0
            m = split(calls[f], to, " ")
            for (i = 1; i <= m; i++) list[f, i] = to[i]
            for (i = 1; i <= m; i++) { d = deep(list[f, i]); if (d > best) best = d }
            return depth[f] = best + (f in bytes ? 8 + bytes[f] : 0)
        }
        $1 == "frame" { bytes[$3] = $2 }
        $1 == "call" && !(($2, $3) in seen) { calls[$2] = calls[$2] " " $3; seen[$2, $3] = 1 }
        END { if (call in bytes) print deep(call); else print "none" }'
}

# ---- running and counting

# run PROGRAM [WORD..]: by the toolchain's own loader and C library.
run() { "$loader" --library-path "$lib" "$@"; }

# The way of counting: valgrind where it is installed; else single steps of the processor, which is as exact and much slower. COUNTER=steps or COUNTER=valgrind chooses.
choose_counter() {
    counter=${COUNTER:-}
    if [ -z "$counter" ]; then
        counter=steps
        ! command -v valgrind >/dev/null 2>&1 || counter=valgrind
    fi
    case $counter in
    valgrind) counted_by=valgrind ;;
    steps) counted_by='single steps of the processor' && build_c steps ;;
    *) die "COUNTER is steps or valgrind" ;;
    esac
}

# count PROGRAM [WORD..]: how many instructions a run executes, those of the loader included. What the program writes is dropped.
count() {
    counted=$(
        set -- "$loader" --library-path "$lib" "$@"
        case $counter in
        valgrind) valgrind --vgdb=no --tool=callgrind --callgrind-out-file=/dev/null "$@" 2>&1 >/dev/null | sed -n 's/.*Collected : //p' ;;
        steps) { run "$room/steps" "$@" >/dev/null; } 2>&1 ;;
        esac
    ) || true
    case $counted in '' | *[!0-9]*) die "nothing was counted by $counted_by: $counted" ;; esac
    echo "$counted"
}
