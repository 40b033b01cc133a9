"""The proved catalogue of rings from Python: ctypes over librings.so, and nothing else.

    >>> import rings
    >>> rings.home("110100", k=2)
    Home(ring=b'\\x00\\x00\\x01\\x01\\x00\\x01', shift=4, period=6)
    >>> rings.text(rings.home("110100", k=2).ring)
    '001101'
    >>> rings.home("0120", k=2)
    Traceback (most recent call last):
    ...
    rings.Refused: 3 (Sector) at 2

A reading is bytes, a sector each, which are taken as they are; or a string of hexadecimal digits, a digit a sector; or any other sequence of numbers. Rings are answered as bytes.
What a call cannot answer it refuses, by raising `Refused`.

The library is looked for where RINGS_SO says, then beside this file (lib/, ../lib/, ../target/c/lib/), then where the system looks.
"""
import ctypes
import os
from collections import namedtuple

__all__ = ["Refused", "REFUSALS", "version", "text", "classify", "home", "stock_home", "same", "even_handed", "apart", "nearest", "sight", "next_prenecklace", "next_necklace", "next_lyndon", "next_bracelet",
           "walk", "first_ring", "next_ring", "read_record", "records", "write_front", "write_packed", "convert", "sector_shade", "ring_shades", "strip", "place", "necklaces", "lyndon_words", "pick", "pick_guarded"]

#: The names of the refusals by their numbers, 1 to 17.
REFUSALS = {1: "Length", 2: "Shades", 3: "Sector", 4: "Room", 5: "Off walk", 6: "Counts", 7: "Cut", 8: "Mark", 9: "Not home", 10: "Pair", 11: "Line", 12: "Too many", 13: "Set",
            14: "Card", 15: "Unreadable", 16: "Retired", 17: "Padding"}


class Refused(ValueError):
    """A call that was refused: its `number`, 1 to 17, its `name` and its `place`."""

    def __init__(self, number, place):
        self.number, self.name, self.place = number, REFUSALS.get(number, "unknown"), place
        super().__init__(f"{number} ({self.name}) at {place}")


Class = namedtuple("Class", "kind value")
Home = namedtuple("Home", "ring shift period")
Nearest = namedtuple("Nearest", "distance shift")
Sighting = namedtuple("Sighting", "kind target shift misread")
Step = namedtuple("Step", "ring moves")
Record = namedtuple("Record", "ring k kind next")
Shade = namedtuple("Shade", "kind value")
Set = namedtuple("Set", "rings full")


def _library():
    here = os.path.dirname(os.path.abspath(__file__))
    if "RINGS_SO" in os.environ:
        return ctypes.CDLL(os.environ["RINGS_SO"])
    for near in ("lib", os.path.join("..", "lib"), os.path.join("..", "target", "c", "lib"), "."):
        path = os.path.join(here, near, "librings.so")
        if os.path.exists(path):
            return ctypes.CDLL(path)
    return ctypes.CDLL("librings.so.1")


_lib = _library()
_N, _P, _F, _U8 = ctypes.c_size_t, ctypes.c_char_p, ctypes.c_float, ctypes.c_uint8
_COUNTS, _FLOATS = ctypes.POINTER(_N), ctypes.POINTER(_F)


def _answer(*names):
    return type("Answer", (ctypes.Structure,), {"_fields_": [(x, _F if x == "outside" else _N) for x in ("refused", "place") + names]})


_VALUE, _CLASS, _HOME, _STEP = _answer("value"), _answer("kind", "value"), _answer("shift", "period"), _answer("moved", "moves")
_NEAREST, _SIGHTING = _answer("distance", "shift"), _answer("kind", "target", "shift", "misread")
_RECORD, _SECTOR, _SET = _answer("kind", "n", "k", "next"), _answer("kind", "shade", "outside"), _answer("taken", "full")


def _function(name, result, *parameters):
    f = getattr(_lib, "rings_" + name)
    f.restype, f.argtypes = result, parameters
    if result is _U8:
        return f

    def call(*arguments):
        answer = f(*arguments)
        if answer.refused:
            raise Refused(answer.refused, answer.place)
        return answer

    return call


_READING = (_P, _N, _N)
_c_classify = _function("classify", _CLASS, *_READING)
_c_home = _function("home", _HOME, *_READING, _P, _N)
_c_stock_home = _function("stock_home", _U8, _U8)
_c_same = _function("same", _VALUE, _P, _N, *_READING)
_c_even_handed = _function("even_handed", _VALUE, *_READING)
_c_apart = _function("apart", _VALUE, _P, _N, *_READING)
_c_nearest = _function("nearest", _NEAREST, _P, _N, *_READING)
_c_sight = _function("sight", _SIGHTING, _P, _N, *_READING, _N)
_c_next_prenecklace = _function("next_prenecklace", _STEP, *_READING, _P, _N)
_c_next_necklace = _function("next_necklace", _STEP, *_READING, _P, _N)
_c_next_lyndon = _function("next_lyndon", _STEP, *_READING, _P, _N)
_c_next_bracelet = _function("next_bracelet", _VALUE, *_READING, _P, _N)
_c_first_ring = _function("first_ring", _VALUE, _N, _COUNTS, _N, _P, _N)
_c_next_ring = _function("next_ring", _VALUE, *_READING, _COUNTS, _N, _P, _N)
_c_read_record = _function("read_record", _RECORD, *_READING, _P, _N)
_c_write_front = _function("write_front", _VALUE, *_READING, _P, _N, _N)
_c_write_packed = _function("write_packed", _VALUE, *_READING, _P, _N, _N)
_c_convert = _function("convert", _VALUE, _P, _N, _P, _N)
_c_sector_shade = _function("sector_shade", _SECTOR, _F, _N, _F, _F)
_c_ring_shades = _function("ring_shades", _VALUE, _FLOATS, _N, _N, _F, _F, _P, _N)
_c_strip = _function("strip", _VALUE, _N, _N, _P, _N)
_c_place = _function("place", _VALUE, *_READING)
_c_necklaces = _function("necklaces", _VALUE, _N, _N)
_c_lyndon_words = _function("lyndon_words", _VALUE, _N, _N)
_c_pick = _function("pick", _SET, _N, _N, _N, _N, _P, _N)
_c_pick_guarded = _function("pick_guarded", _SET, _N, _N, _N, _N, _P, _N)

#: The version of the library that was loaded.
version = ctypes.string_at(ctypes.addressof(ctypes.c_char.in_dll(_lib, "rings_version"))).decode()


def _bytes(reading):
    # bytes are taken as they are: the fast path
    if type(reading) is bytes:
        return reading
    if isinstance(reading, str):
        return bytes(int(x, 16) for x in reading)
    return bytes(reading)


def _number(x):
    # C would cut a number to its size
    if not 0 <= x < 1 << 64:
        raise OverflowError("a number of the library is 0 to 2 to the power 64, less 1")
    return x


def text(ring):
    """A ring as hexadecimal digits, a digit a sector."""
    return "".join("%x" % x for x in ring)


def classify(reading, k):
    """The class of a reading: ('loose', the place of the first sector that goes wrong), ('opening', lyn), ('repeating', period) or ('single', 0). Refuses by 1, 2, 3."""
    s = _bytes(reading)
    a = _c_classify(s, len(s), _number(k))
    return Class(("loose", "opening", "repeating", "single")[a.kind - 1], a.value)


def home(reading, k):
    """The home reading, its shift and its period. Refuses by 1, 2, 3."""
    s = _bytes(reading)
    out = ctypes.create_string_buffer(len(s))
    a = _c_home(s, len(s), _number(k), out, len(s))
    return Home(out.raw, a.shift, a.period)


def stock_home(target):
    """The home reading of a stock target, a number of 0 to 255 whose highest bit is the first sector."""
    if not 0 <= target < 256:
        raise OverflowError("a stock target is a byte")
    return _c_stock_home(target)


def same(a, b, k):
    """Whether two readings are of one ring. Refuses by 1, 10, 2, 3."""
    a, b = _bytes(a), _bytes(b)
    return _c_same(a, len(a), b, len(b), _number(k)).value == 1


def even_handed(reading, k):
    """Whether a reading is a turn of its mirror image. Refuses by 1, 2, 3."""
    s = _bytes(reading)
    return _c_even_handed(s, len(s), _number(k)).value == 1


def apart(a, b, k):
    """The least number of places at which a turn of one reading differs from the other. Refuses by 1, 10, 2, 3."""
    a, b = _bytes(a), _bytes(b)
    return _c_apart(a, len(a), b, len(b), _number(k)).value


def nearest(a, b, k):
    """How far apart two readings are, and by how many left turns the first comes so near, the fewest that do. Refuses by 1, 10, 2, 3."""
    a, b = _bytes(a), _bytes(b)
    c = _c_nearest(a, len(a), b, len(b), _number(k))
    return Nearest(c.distance, c.shift)


def sight(rings, reading, k, most):
    """Which ring of a list a reading shows with at most `most` sectors misread: ('front' or 'back', its number, the turns, the sectors misread), or ('several', None, None, None) or
    ('unknown', None, None, None). The rings are a sequence of readings as long as the reading, or bytes that hold them end to end. Refuses by 1, 10, 2, 3."""
    s = _bytes(reading)
    whole = rings if type(rings) is bytes else b"".join(map(_bytes, rings))
    a = _c_sight(whole, len(whole), s, len(s), _number(k), _number(most))
    return Sighting(("front", "back")[a.kind - 1], a.target, a.shift, a.misread) if a.kind in (1, 2) else Sighting("several" if a.kind == 3 else "unknown", None, None, None)


def _step(call, reading, k):
    s = _bytes(reading)
    out = ctypes.create_string_buffer(len(s))
    a = call(s, len(s), _number(k), out, len(s))
    return Step(out.raw if a.moved else None, a.moves)


def next_prenecklace(reading, k):
    """The least prenecklace above a reading that is one, and the moves to it; ring is None where there is none. Refuses by 1, 2, 3, 5."""
    return _step(_c_next_prenecklace, reading, k)


def next_necklace(reading, k):
    """The least necklace above a prenecklace, and the moves to it; ring is None where there is none. Refuses by 1, 2, 3, 5."""
    return _step(_c_next_necklace, reading, k)


def next_lyndon(reading, k):
    """The least Lyndon word above a prenecklace, and the moves to it; ring is None where there is none. Refuses by 1, 2, 3, 5."""
    return _step(_c_next_lyndon, reading, k)


def next_bracelet(reading, k):
    """The least bracelet above a prenecklace, or None. Refuses by 1, 2, 3, 5."""
    s = _bytes(reading)
    out = ctypes.create_string_buffer(len(s))
    return out.raw if _c_next_bracelet(s, len(s), _number(k), out, len(s)).value else None


def walk(n, k, step=None):
    """All necklaces of n sectors and k shades in order, or all rings that another step comes to from n times 0, which is the first."""
    ring = bytes(n)
    step = step or next_necklace
    while ring is not None:
        yield ring
        ring = step(ring, k)
        ring = ring.ring if isinstance(ring, Step) else ring


def _counts(counts):
    return (_N * len(counts))(*map(_number, counts)), len(counts)


def first_ring(n, k, counts):
    """The least necklace of n sectors with k given shade counts. Refuses by 1, 2, 6."""
    out = ctypes.create_string_buffer(_room(n))
    _c_first_ring(_number(k), *_counts(counts), out, n)
    return out.raw


def next_ring(reading, k, counts):
    """The least necklace with k given shade counts above a reading, or None. Refuses by 1, 2, 3, 6."""
    s = _bytes(reading)
    out = ctypes.create_string_buffer(len(s))
    return out.raw if _c_next_ring(s, len(s), _number(k), *_counts(counts), out, len(s)).value else None


def _room(n):
    # no output of the library is larger than 4096 bytes; a larger one is refused without it
    if not 0 <= n <= 1 << 24:
        raise Refused(1, 0)
    return n


def read_record(catalogue, start=0):
    """The record at a place of a catalogue, or None at its end. Refuses by 7, 8, 16, 1, 2, 7, 3, 17, 9."""
    out = ctypes.create_string_buffer(64)
    a = _c_read_record(_bytes(catalogue), len(catalogue), _number(start), out, 64)
    return Record(out.raw[:a.n], a.k, ("front", "packed")[a.kind - 1], a.next) if a.kind else None


def records(catalogue):
    """The records of a catalogue, one after another."""
    catalogue = _bytes(catalogue)
    record = read_record(catalogue, 0)
    while record is not None:
        yield record
        record = read_record(catalogue, record.next)


def _write(call, reading, k):
    s = _bytes(reading)
    buffer = ctypes.create_string_buffer(4 + 64)
    end = call(s, len(s), _number(k), buffer, len(buffer), 0).value
    return buffer.raw[:end]


def write_front(reading, k):
    """The front record of a reading's ring, a byte a sector. Refuses by 1, 2, 3."""
    return _write(_c_write_front, reading, k)


def write_packed(reading, k):
    """The packed record of a reading's ring. Refuses by 1, 2, 3."""
    return _write(_c_write_packed, reading, k)


def convert(old):
    """An old catalogue with each back record replaced by the front record of the same ring. Refuses by 7, 8, 1, 2, 7, 3, 9."""
    s = _bytes(old)
    out = ctypes.create_string_buffer(len(s)) if s else None
    _c_convert(s, len(s), out, len(s))
    return out.raw if s else b""


def sector_shade(reflectance, k, dark, light):
    """What one reflectance tells: ('shade', s), ('outside', the reflectance) or ('not a number', None). Refuses by 2, 14."""
    a = _c_sector_shade(reflectance, _number(k), dark, light)
    return Shade("shade", a.shade) if a.kind == 1 else Shade("outside", a.outside) if a.kind == 2 else Shade("not a number", None)


def ring_shades(reflectances, k, dark, light):
    """The shades of a ring's reflectances. Refuses by 1, 2, 14, 15."""
    n = len(reflectances)
    out = ctypes.create_string_buffer(n)
    _c_ring_shades((_F * n)(*reflectances), n, _number(k), dark, light, out, n)
    return out.raw


def strip(n, k):
    """The strip of n and k: joined end to start it shows each reading of n sectors once. Refuses by 1, 2, 12."""
    # the numbers are refused before the output is looked at, and a strip has at most 4096 sectors
    m = k**n if 1 <= n <= 12 and 2 <= k <= 16 and k**n <= 4096 else 0
    out = ctypes.create_string_buffer(m)
    _c_strip(_number(n), _number(k), out, m)
    return out.raw


def place(reading, k):
    """The one place of the strip of n and k at which a reading stands. Refuses by 1, 2, 3, 12."""
    s = _bytes(reading)
    return _c_place(s, len(s), _number(k)).value


def necklaces(k, n):
    """How many necklaces of n sectors and k shades there are. Refuses by 1, 2, 12."""
    return _c_necklaces(_number(k), _number(n)).value


def lyndon_words(k, n):
    """How many Lyndon words of n sectors and k shades there are. Refuses by 1, 2, 12."""
    return _c_lyndon_words(_number(k), _number(n)).value


def _pick(call, n, k, d, wanted):
    out = ctypes.create_string_buffer(768)
    a = call(_number(n), _number(k), _number(d), _number(wanted), out, 768)
    return Set([out.raw[24 * i:24 * i + n] for i in range(a.taken)], a.full == 1)


def pick(n, k, d, wanted):
    """A set of at most `wanted` rings that are at least d apart, and whether it has as many. Refuses by 1, 2, 12, 13."""
    return _pick(_c_pick, n, k, d, wanted)


def pick_guarded(n, k, d, wanted):
    """The same, where the rings and their mirror images are at least d apart from one another, and each ring from its own turns. Refuses by 1, 2, 12, 13."""
    return _pick(_c_pick_guarded, n, k, d, wanted)
