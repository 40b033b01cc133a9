#!/usr/bin/env python3
"""compare.py CRATES: every call of the library that is loaded (rings.py) on the cases of the repository's own runs, compared with their stored texts.

The cases are the lines of crates/test_*/stdin, and the texts crates/test_*/stdout, which were written from the documents: what a program of evidence prints by the calls is printed
here by the library. A case that C cannot put, a walk's record that no walk has made, is passed over, and counted. The lines of the desk, `VERB WORDS`, and the
text of each, are answered by the library too: those of crates/desk, and the files .ci/runs/desk-*.in. The calls that no run has, `nearest`, `pick_guarded`
and `sight`, are tried by their definitions. Ends with 'N cases of M runs .. F differ'."""
import glob
import itertools
import os
import random
import struct
import sys

sys.path.insert(0, os.path.dirname(os.path.abspath(__file__)))
import ctypes

import rings

PASS = object()


# ---- words of a line, and texts, as the programs of evidence read and print them


def sectors(word):
    return bytes(ord(x) % 16 if x < "a" else ord(x) % 16 + 9 for x in word)


def shown(data):
    return "".join("%x" % x if x < 16 else "?" for x in data)


def word(line, i):
    words = line.split(" ")
    return words[i] if i < len(words) else ""


def number(line, i):
    return int(word(line, i) or 0) % (1 << 64)


def refused(e):
    return f"refused {e.number} at {e.place}"


def told(f, *arguments):
    """what the call answers by `f`, or its refusal"""
    try:
        return f(*arguments)
    except rings.Refused as e:
        return refused(e)


def lent(data):
    return ctypes.create_string_buffer(bytes(data), len(data)) if data else None


def held(buffer):
    return buffer.raw if buffer else b""


def class_text(c):
    return "Single" if c.kind == "single" else f"{c.kind.capitalize()} {c.value}"


# ---- the runs: each takes a line and gives the lines that it prints, or PASS where C cannot put the case


def readings(line):
    what, a = word(line, 0), sectors(word(line, 1))
    if what == "class":
        answer = told(lambda: class_text(rings.classify(a, number(line, 2))))
    elif what == "home":
        out = lent(sectors(word(line, 3)))
        answer = told(lambda: "shift {0.shift} period {0.period}".format(rings._c_home(a, len(a), number(line, 2), out, len(word(line, 3))))) + " output " + shown(held(out))
    else:
        return PASS
    return [f"{line}: {answer}"]


def bits(text):
    return struct.unpack(">f", bytes.fromhex(text))[0]


def density(line):
    what, k = word(line, 0), number(line, 2)

    def into(values, k, dark, light, out):
        buffer = lent(out)
        answer = told(lambda: rings._c_ring_shades((ctypes.c_float * len(values))(*values), len(values), k, dark, light, buffer, len(out)) and "written")
        return answer + " output " + shown(held(buffer))

    if what == "sector":
        def sector():
            s = rings.sector_shade(bits(word(line, 1)), k, bits(word(line, 3)), bits(word(line, 4)))
            return f"outside {struct.pack('>f', s.value).hex()}" if s.kind == "outside" else f"shade {s.value}" if s.kind == "shade" else s.kind
        answer = told(sector)
    elif what == "ring":
        answer = into([bits(x) for x in line.split(" ")[6:6 + number(line, 1)]], k, bits(word(line, 3)), bits(word(line, 4)), sectors(word(line, 5)))
    else:
        k = number(line, 1)
        values = [struct.unpack("f", struct.pack("f", j / (k - 1)))[0] for j in range(k)] if 2 <= k else []
        answer = PASS if not 2 <= k <= 65 else into(values, k, 0.0, 1.0, bytes([9] * len(values)))
    return PASS if answer is PASS else [f"{line}: {answer}"]


def strip(line):
    if word(line, 0) == "write":
        out = lent(b"\xff" * number(line, 1))
        answer = told(lambda: rings._c_strip(number(line, 2), number(line, 3), out, number(line, 1)) and "strip")
        return [answer + " " + shown(held(out))]
    return [told(lambda: f"place {rings.place(sectors(word(line, 1)), number(line, 2))}")]


def shades(line):
    what = word(line, 0)
    at = 2 if what == "next" else 1
    k, counts = number(line, at + 1), [int(x) for x in line.split(" ")[at + 3:at + 3 + number(line, at + 2)]]
    out, m, s = lent(sectors(word(line, at))), len(word(line, at)), sectors(word(line, 1))
    if what == "first":
        return [told(lambda: rings._c_first_ring(k, *rings._counts(counts), out, m) and "ring") + " output " + shown(held(out))]
    if what == "next":
        answer = told(lambda: ("done", "ring")[rings._c_next_ring(s, len(s), k, *rings._counts(counts), out, m).value])
        return [answer + " output " + shown(held(out))]
    printed, many = [], 0
    try:
        ring = rings.first_ring(len(s), k, counts)
        while ring is not None and many < 20000:
            many += 1
            if what == "list":
                printed.append(shown(ring))
            ring = rings.next_ring(ring, k, counts)
        if ring is None:
            printed.append("done")
    except rings.Refused as e:
        printed.append(refused(e))
    return printed + [f"rings {many}"]


def walk(line):
    """the records of a walk, made up from the rings that the steps from a reading come to: C keeps no record"""
    what, s, k = word(line, 0), sectors(word(line, 1)), number(line, 2)
    if what == "made":
        return PASS
    steps = {"p": rings.next_prenecklace, "n": rings.next_necklace, "l": rings.next_lyndon, "b": lambda r, k: rings.Step(rings.next_bracelet(r, k), 0)}
    step = steps[word(line, 3)[0]]

    def record(ring):
        return f" record {len(ring)} {k} {shown(ring)} {class_text(rings.classify(ring, k))} " + " ".join(str(ring.count(x)) for x in range(16))

    try:
        moved = step(s, k)
    except rings.Refused as e:
        none = " record 0 0  Loose 0" + 16 * " 0"
        return [refused(e) + none, "refused 1 at 0" + none]
    if what == "walk":
        printed = ["start" + record(s)]
        for _ in range(number(line, 4)):
            moved = step(s, k)
            s = s if moved.ring is None else moved.ring
            printed.append(f"{'done' if moved.ring is None else 'moved'} {moved.moves}" + record(s))
            if moved.ring is None:
                break
        return printed
    many, moves, classes = 0, moved.moves, [rings.classify(s, k)]
    while moved.ring is not None:
        many, s = many + 1, moved.ring
        classes.append(rings.classify(s, k))
        moved = step(s, k)
        moves += moved.moves
    periods = sum(len(s) if c.kind == "single" else c.value for c in classes if c.kind in ("single", "repeating"))
    return [f"{line}: {many} moves {moves} periods {periods} single {sum(c.kind == 'single' for c in classes)}"]


def entry(catalogue, start, out, m):
    a = rings._c_read_record(catalogue, len(catalogue), start, out, m)
    return (f"{('front', 'packed')[a.kind - 1]} n {a.n} k {a.k} next {a.next}", a.next) if a.kind else ("end", start)


def said(line):
    return [line[4:]] if line.startswith("say") else None


def catalogue(line):
    def at(c, start, data):
        out = lent(data)
        try:
            answer, next_ = entry(c, start, out, len(data))
        except rings.Refused as e:
            answer, next_ = refused(e), start
        return f"at {start}: {answer}, output {shown(held(out))}", next_

    what = word(line, 0)
    if what == "at":
        return [at(bytes.fromhex(word(line, 2)), number(line, 1), bytes([9] * 64))[0]]
    if what == "into":
        return [at(bytes.fromhex(word(line, 3)), number(line, 1), sectors(word(line, 2)))[0]]
    c, start, printed = bytes.fromhex(word(line, 1)), 0, []
    for _ in range(100):
        answer, next_ = at(c, start, bytes([9] * 64))
        printed.append(answer)
        if next_ == start:
            break
        start = next_
    return printed


def writer(line):
    k, at, s, data = number(line, 1), number(line, 2), sectors(word(line, 3)), bytes.fromhex(word(line, 4))
    buffer, out = lent(data), lent(bytes([9] * 64))
    call = rings._c_write_packed if word(line, 0) == "pack" else rings._c_write_front
    try:
        a = call(s, len(s), k, buffer, len(data), at)
    except rings.Refused as e:
        return [f"{refused(e)}: {held(buffer).hex()}"]
    read = told(lambda: ", read " + entry(held(buffer), at, out, 64)[0])
    return [f"after {a.value}: {held(buffer).hex()}{read} {shown(held(out))}"]


def records(line):
    what = word(line, 0)
    # moving is reading and writing, and no call of its own
    return PASS if what == "move" else writer(line) if what in ("put", "pack") else catalogue(line)


def converter(line):
    # blocks are no call of the library
    if word(line, 0) != "turn":
        return PASS
    data, old = bytes.fromhex(word(line, 1)), bytes.fromhex(word(line, 2))
    out = lent(data)
    answer = told(lambda: rings._c_convert(old or None, len(old), out, len(data)) and "converted")
    return [f"{held(out).hex()} {answer}"]


def sets(line):
    n, k, d, wanted, guarded = (number(line, i) for i in range(5))
    pick, c_pick = (rings.pick_guarded, rings._c_pick_guarded) if guarded == 1 else (rings.pick, rings._c_pick)
    try:
        p = pick(n, k, d, wanted)
    except rings.Refused as e:
        return [f"{refused(e)}, taken 0 not full, others 0", "laid " + ("" if 1 <= n <= 24 else "refused 1 at 0")]
    # `others` are the sectors beside those of the rings taken: an output that was not 0 before would show
    out = lent(b"\xff" * 768)
    c_pick(n, k, d, wanted, out, 768)
    others = sum(x != 0 for i, x in enumerate(held(out)) if not (i % 24 < n and i // 24 < len(p.rings)))
    return [shown(r) for r in p.rings] + [f"taken {len(p.rings)} {'full' if p.full else 'not full'}, others {others}", "laid " + shown(b"".join(p.rings))]


# ---- the desk: VERB WORDS, and the text of each line


def desk(line):
    def digits(text):
        if any(x not in "0123456789abcdef" for x in text):
            raise ValueError
        return bytes(int(x, 16) for x in text)

    def decimal(text):
        if not text.isdigit() or len(text) > 3 or (text[0] == "0" and text != "0"):
            raise ValueError
        return int(text)

    def stepped(call):
        def f(k, r):
            a = call(r, k)
            return f"next {shown(a.ring)} moves {a.moves}" if a.ring is not None else f"done moves {a.moves}"
        return f

    def homed(k, r):
        h = rings.home(r, k)
        return f"home {shown(h.ring)} shift {h.shift} period {h.period}"

    def classed(k, r):
        c = rings.classify(r, k)
        return {"loose": f"loose at {c.value}", "single": "single"}.get(c.kind, f"{c.kind} {c.value}")

    def sighted(k, most, *words):
        *others, r = words
        # the library takes rings end to end, and the desk each as long as the reading: 10 behind 1 is its own
        if 1 <= len(r) <= 64 and any(len(x) != len(r) for x in others):
            return "refused 10 at 0"
        a = rings.sight(others, r, k, most)
        return a.kind if a.target is None else f"{a.kind} {a.target} turned {a.shift} misread {a.misread}"

    def shaded(k, dark, light, *values):
        if len(values) > 1:
            return "ring " + shown(rings.ring_shades(values, k, dark, light))
        s = rings.sector_shade(values[0], k, dark, light)
        return f"outside {struct.pack('>f', s.value).hex()}" if s.kind == "outside" else f"shade {s.value}" if s.kind == "shade" else s.kind

    def bracelet(k, r):
        v = rings.next_bracelet(r, k)
        return f"next {shown(v)}" if v is not None else "done"

    # a longer line is malformed, whatever it says
    if len(line) > 4095:
        return ["refused 11 at 0"]
    one = {"class": classed, "home": homed, "even": lambda k, r: ("no", "yes")[rings.even_handed(r, k)], "place": lambda k, r: f"place {rings.place(r, k)}",
           "next": stepped(rings.next_necklace), "lyndon": stepped(rings.next_lyndon), "prenecklace": stepped(rings.next_prenecklace), "bracelet": bracelet}
    two = {"same": lambda k, a, b: ("no", "yes")[rings.same(a, b, k)], "apart": lambda k, a, b: f"apart {rings.apart(a, b, k)}"}
    verb, *words = line.split(" ")
    try:
        if verb in one and len(words) == 2:
            return [told(one[verb], decimal(words[0]), digits(words[1]))]
        if verb in two and len(words) == 3:
            return [told(two[verb], decimal(words[0]), digits(words[1]), digits(words[2]))]
        if verb == "sight" and len(words) > 2:
            return [told(sighted, decimal(words[0]), decimal(words[1]), *(digits(x) for x in words[2:]))]
        if verb == "shade" and len(words) > 3 and all(len(x) == 8 and digits(x) for x in words[1:]):
            return [told(shaded, decimal(words[0]), *(bits(x) for x in words[1:]))]
        if verb == "many" and len(words) == 2:
            k, n = map(decimal, words)
            return [told(lambda: f"{rings.necklaces(k, n)} {rings.lyndon_words(k, n)}")]
        if verb == "stock" and len(words) == 1 and decimal(words[0]) < 256:
            return [str(rings.stock_home(int(words[0])))]
        if verb == "strip" and len(words) == 2:
            k, n = map(decimal, words)
            return [told(lambda: shown(rings.strip(n, k)))]
        if verb in ("first", "after"):
            counts = [decimal(x) for x in words[-1].split(",")]
            if verb == "first" and len(words) == 2:
                return [told(lambda: "ring " + shown(rings.first_ring(sum(counts), decimal(words[0]), counts)))]
            if verb == "after" and len(words) == 3:
                ring = rings.next_ring(digits(words[1]), decimal(words[0]), counts)
                return ["ring " + shown(ring) if ring is not None else "done"]
    except rings.Refused as e:
        return [refused(e)]
    except (ValueError, IndexError):
        pass
    # a line that cannot be read, or a verb that is not the library's, is the desk's own
    return PASS


RUNS = {"test_readings": readings, "test_density": density, "test_strip": strip, "test_shades": shades, "test_walk": walk,
        "test_records": records, "test_converter": converter, "test_sets": sets}


# ---- calls that have no run of their own: by their definitions, tried out turn by turn


def by_definition():
    """how many cases of `nearest`, `pick_guarded` and `sight` were compared, and differ"""

    def turns(w):
        return [w[i:] + w[:i] for i in range(len(w))]

    def differing(v, w):
        return sum(x != y for x, y in zip(v, w))

    def nearest(v, w):
        return min((differing(t, w), i) for i, t in enumerate(turns(v)))

    def mirrored(w):
        return min(turns(w[::-1]))

    def clear(d, taken, w):
        return all(nearest(t, w)[0] >= d for t in taken)

    def guarded(n, k, d, want):
        taken = []
        for w in map(bytes, itertools.product(range(k), repeat=n)):
            lyndon = all(w < t for t in turns(w)[1:])
            if lyndon and len(taken) < want and clear(d, taken, w) and clear(d, taken + [w], mirrored(w)) and all(differing(t, w) >= d for t in turns(w)[1:]):
                taken.append(w)
        return taken, len(taken) == want

    def sight(targets, r, most):
        near = [i for i, t in enumerate(targets + [mirrored(t) for t in targets]) if nearest(r, t)[0] <= most]
        if len(near) != 1:
            return ("several" if near else "unknown", None, None, None)
        side, i = divmod(near[0], len(targets))
        return (("front", "back")[side], i, nearest(r[::-1] if side else r, targets[i])[1], nearest(r, mirrored(targets[i]) if side else targets[i])[0])

    compared, differ = 0, 0

    def same(what, got, expected):
        nonlocal compared, differ
        compared += 1
        if got != expected:
            differ += 1
            print(f"c: FAILED: {what}: {got} is not {expected}")

    chance = random.Random(1)
    for _ in range(400):
        n, k = chance.randint(1, 9), chance.randint(2, 4)
        v, w = (bytes(chance.randrange(k) for _ in range(n)) for _ in range(2))
        same(f"nearest {shown(v)} {shown(w)}", tuple(rings.nearest(v, w, k)), nearest(v, w))
        targets = [min(turns(bytes(chance.randrange(k) for _ in range(n)))) for _ in range(chance.randint(0, 4))]
        most = chance.randint(0, 3)
        same(f"sight {[shown(t) for t in targets]} {shown(v)} {most}", tuple(rings.sight(targets, v, k, most)), sight(targets, v, most))
    for n, k, d, want in [(n, k, d, want) for n in range(1, 7) for k in (2, 3) for d in range(1, n + 1) for want in (1, 3, 32)] + [(8, 2, 2, 32), (9, 2, 2, 5)]:
        same(f"pick_guarded {n} {k} {d} {want}", tuple(rings.pick_guarded(n, k, d, want)), guarded(n, k, d, want))
    return compared, differ


# ---- cases that no line of the desk can ask: numbers above 999, rings that are no multiple of the reading, a sector that no digit spells. What is called, and its text.

MOST = (1 << 64) - 1
BEYOND = [(f"{call} {k} {n}", told(getattr(rings, call), k, n), text) for k, n, text in [(2, MOST, "refused 1 at 0"), (MOST, 4, "refused 2 at 0"), (MOST, MOST, "refused 1 at 0")]
          for call in ("necklaces", "lyndon_words")]
BEYOND += [(f"sight {k} {shown(r)} {shown(whole)}", told(rings.sight, whole, r, k, 0), text) for k, r, whole, text in [
    (2, sectors("001"), sectors("0010"), "refused 10 at 0"), (1, sectors("21"), sectors("210"), "refused 10 at 0"),
    (16, sectors("01"), sectors("0g"), "refused 3 at 3"), (1, bytes(65), bytes(3), "refused 1 at 0")]]


def run(name, answer, lines, expected):
    """how many cases were compared, passed over, and differ"""
    compared = passed = differ = at = 0
    for line in lines:
        # what a file of the desk's lines says of the cases behind it, which the desk refuses as it does any line that asks nothing
        if answer is desk and line.startswith("#"):
            at += 1
            continue
        got = said(line) if name in ("test_records", "test_converter") else None
        got = got or answer(line)
        if got is PASS:
            passed, at = passed + 1, at + 1
            continue
        compared += 1
        if got != expected[at:at + len(got)]:
            differ += 1
            print(f"c: FAILED: {name}: {line[:120]}: {got[:2]} is not {expected[at:at + 2]}"[:600])
        at += len(got)
    if at != len(expected):
        differ += 1
        print(f"c: FAILED: {name}: {at} lines, and the stored text has {len(expected)}")
    return compared, passed, differ


def main():
    crates = sys.argv[1]
    stored = os.path.join(crates, os.pardir, ".ci", "runs")
    runs = [(name, answer, os.path.join(crates, name, "stdin"), os.path.join(crates, name, "stdout")) for name, answer in list(RUNS.items()) + [("desk", desk)]]
    runs += [(os.path.basename(f), desk, f, f[:-2] + "out") for f in sorted(glob.glob(os.path.join(stored, "desk-*.in")))]
    totals = [0, 0, 0]
    for name, answer, given, printed in runs:
        lines = open(given, encoding="latin-1", newline="\n").read().split("\n")
        lines = lines[:-1] if lines[-1] == "" else lines
        expected = open(printed, encoding="latin-1", newline="\n").read().split("\n")[:-1]
        totals = [a + b for a, b in zip(totals, run(name, answer, lines, expected))]
    for what, got, expected in BEYOND:
        totals[0] += 1
        if got != expected:
            totals[2] += 1
            print(f"c: FAILED: {what}: {got} is not {expected}")
    tried, wrong = by_definition()
    totals[2] += wrong
    print(f"c: {totals[0]} cases of {len(runs)} runs through the library, {totals[1]} that C cannot put passed over, and {tried} cases by their definitions: {totals[2]} differ")
    return bool(totals[2])


if __name__ == "__main__":
    sys.exit(main())
