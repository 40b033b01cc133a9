# pictures.py SVG PNG: reads every ring of a page or a picture back from its rendering. The shades come from the text: the digits under a target, or of a picture its arcs
# laid out by place; the grays come from the rendering.
import math, re, struct, sys, zlib


def image(path):
    data = open(path, "rb").read()
    at, raw = 8, b""
    while at < len(data):
        size, kind = struct.unpack(">I4s", data[at : at + 8])
        body = data[at + 8 : at + 8 + size]
        at += 12 + size
        if kind == b"IHDR":
            wide, high, bits, colour = struct.unpack(">IIBB", body[:10])
        if kind == b"IDAT":
            raw += body
    raw, step = zlib.decompress(raw), {0: 1, 2: 3, 4: 2, 6: 4}[colour]
    rows, last, at = [], bytearray(wide * step), 0
    for _ in range(high):
        way, row = raw[at], bytearray(raw[at + 1 : at + 1 + wide * step])
        at += 1 + wide * step
        for x in range(wide * step):
            a, b, c = row[x - step] if x >= step else 0, last[x], last[x - step] if x >= step else 0
            if way == 1:
                row[x] = (row[x] + a) & 255
            elif way == 2:
                row[x] = (row[x] + b) & 255
            elif way == 3:
                row[x] = (row[x] + (a + b) // 2) & 255
            elif way == 4:
                p, q, r = abs(b - c), abs(a - c), abs(a + b - 2 * c)
                row[x] = (row[x] + (a if p <= q and p <= r else b if q <= r else c)) & 255
        rows.append(row)
        last = row
    return wide, high, step, rows


text = open(sys.argv[1]).read()
wide, high, step, rows = image(sys.argv[2])
page = re.search(r'viewBox="0 0 2100 2970"', text)
rings = []
if page:
    cell = r'translate\((\d+) (\d+)\)">\n<svg x="-(\d+)".*?\n(.*?)</svg>\n.*?<text[^>]*>(\w*)</text>\n<text[^>]*>(\w*)</text>'
    for x, y, half, arcs, one, two in re.findall(cell, text, re.S):
        rings.append((int(x) * wide / 2100, int(y) * high / 2970, int(half) * wide / 2100, arcs, one + two))
else:
    rings.append((wide / 2, high / 2, wide / 2, text, None))
seen, wrong, mirrored = 0, 0, 0
for x, y, half, arcs, digits in rings:
    radius = int(re.search(r'circle r="(\d+)" pathLength', arcs).group(1))
    n = radius // 113
    grays = {}
    shown = [None] * n
    for long, start, gray in re.findall(r'dasharray="(\d+) \d+" stroke-dashoffset="-(\d+)" stroke="rgb\((\d+),', arcs):
        for i in range(int(long) // 710):
            shown[(int(start) // 710 + i) % n] = int(gray)
    # one gray for each digit, and a brighter one for a greater digit
    if digits is not None:
        for digit, gray in zip(digits, shown):
            if grays.setdefault(digit, gray) != gray or len(digits) != n:
                sys.exit("the digits are those of another ring: " + digits)
        if [grays[d] for d in sorted(grays)] != sorted(grays.values()):
            sys.exit("a greater shade is not brighter: " + digits)
    mirrored += shown == shown[::-1]
    for i in range(n):
        for part in (0.25, 0.5, 0.75):
            turn = 2 * math.pi * (i + part) / n
            reach = half * 113 / 138
            row = rows[int(y - reach * math.cos(turn))]
            seen += 1
            wrong += abs(row[int(x + reach * math.sin(turn)) * step] - shown[i]) > 1
if mirrored == len(rings):
    print("every ring is one way round as the other")
print(len(rings), "rings,", seen, "places looked at,", wrong, "wrong")
if not rings or wrong:
    sys.exit(1)
