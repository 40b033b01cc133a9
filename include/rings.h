/* rings.h: the proved catalogue of rings, for C and C++ on x86-64 (System V calls). docs/C.md says how to link it.
 *
 * Every function takes any numbers and any bytes: what it cannot answer it refuses, by a number and a place. It allocates nothing, keeps no state, calls nothing but memcpy,
 * memset and the like, and may be called from any number of threads at once. That it answers as the published definitions say is proved for the code behind it.
 *
 * A reading is n bytes, a sector each: shades 0 to k-1, where n is 1 to 64 and k is 2 to 16. A struct that is answered begins with `refused`, the refusal's number (enum
 * rings_refusal) or 0, and `place`, its place; where `refused` is not 0, every number behind it is 0 and no output was written.
 *
 * What a caller owes, as of any C function with pointers:
 *   - a pointer and the number behind it describe readable memory, for an output writable memory. Where that number is 0 the pointer is not followed and may be NULL: an empty
 *     reading (refused by 1), an empty catalogue (which is at its end), no counts, no output (which has another length than it should have).
 *   - an output overlaps no other argument. rings_home(b, n, k, b, n) is wrong, and nothing says so.
 *   - nothing else writes that memory during the call.
 * An output has exactly the length that its function names: another is refused by 4, also a longer one. A function writes to its output alone, and there no byte beyond what it says.
 */
#ifndef RINGS_H
#define RINGS_H
#include <stddef.h>
#include <stdint.h>

#define RINGS_VERSION "1.0.0"

#ifdef __cplusplus
extern "C" {
#endif

/* the version of the library that is linked: that of the header it was built with */
extern const char rings_version[];

/* ---- refusals: their numbers */
enum rings_refusal {
    RINGS_GOOD = 0,
    RINGS_LENGTH = 1,      /* n is 0 or above 64; for a set, above 24 */
    RINGS_SHADES = 2,      /* k is below 2 or above 16 */
    RINGS_SECTOR = 3,      /* a sector is k or more; place: the first such, those of a second reading counted on from n */
    RINGS_ROOM = 4,        /* the output has not the length it should have */
    RINGS_OFF_WALK = 5,    /* the reading is no prenecklace; place: the first sector that goes wrong */
    RINGS_COUNTS = 6,      /* not k counts, or their sum is not n */
    RINGS_CUT = 7,         /* the catalogue, or the buffer for a record, ends too early; place: the record's */
    RINGS_MARK = 8,        /* no known mark; place: the record's */
    RINGS_NOT_HOME = 9,    /* the stored sectors are no necklace; place: the byte to look at */
    RINGS_PAIR = 10,       /* two readings of different lengths */
    RINGS_LINE = 11,       /* a malformed line; no function of this header answers it */
    RINGS_TOO_MANY = 12,   /* k to the power n is above the function's limit */
    RINGS_SET = 13,        /* for a set: d is 0 or above n, or the wanted number is 0 or above 32 */
    RINGS_CARD = 14,       /* not 0 <= dark < light <= 1 */
    RINGS_UNREADABLE = 15, /* a reflectance has no shade; place: the first such sector */
    RINGS_RETIRED = 16,    /* in the reader: the mark of a back record; place: the record's */
    RINGS_PADDING = 17     /* a bit of a packed record that holds no sector is not 0; place: its last byte */
};

/* the name of a refusal by its number: "Length" to "Padding", "none" of 0, "unknown" of any other */
static inline const char *rings_refusal_name(size_t number) {
    static const char *const names[18] = {"none",     "Length", "Shades", "Sector", "Room",     "Off walk", "Counts", "Cut",        "Mark",
                                          "Not home", "Pair",   "Line",   "Too many", "Set",    "Card",     "Unreadable", "Retired", "Padding"};
    return number < 18 ? names[number] : "unknown";
}

/* ---- answers */

/* an answer of one number */
struct rings_answer {
    size_t refused;
    size_t place;
    size_t value;
};

/* a class: kind 1 loose, value the place of the first sector that goes wrong; 2 opening, value lyn; 3 repeating, value the period; 4 single, value 0 */
struct rings_class {
    size_t refused;
    size_t place;
    size_t kind;
    size_t value;
};

/* a reading that was brought home: so many turns bring it there, and it looks the same after so many */
struct rings_home {
    size_t refused;
    size_t place;
    size_t shift;
    size_t period;
};

/* how far apart two readings are, and by how many left turns the first comes so near to the second, the fewest that do */
struct rings_nearest {
    size_t refused;
    size_t place;
    size_t distance;
    size_t shift;
};

/* what is seen of a set: kind 1 one ring from the front, 2 one ring from behind: its number in the set from 0 on, how many left turns bring the reading, or the reading reversed where it is
 * seen from behind, nearest to it, and how many sectors then differ; 3 several rings or sides, 0 none, where the other numbers are 0 */
struct rings_sighting {
    size_t refused;
    size_t place;
    size_t kind;
    size_t target;
    size_t shift;
    size_t misread;
};

/* a step: moved 1 and the moves to the ring that is in the output, or moved 0, where there is none, and the moves that were left */
struct rings_step {
    size_t refused;
    size_t place;
    size_t moved;
    size_t moves;
};

/* a record: kind 1 front, 2 packed, 0 at the catalogue's end, where the other numbers are 0; next: the place behind it */
struct rings_record {
    size_t refused;
    size_t place;
    size_t kind;
    size_t n;
    size_t k;
    size_t next;
};

/* a reflectance: kind 1 with its shade; 2 below 0 or above 1, with the reflectance in outside; 3 not a number */
struct rings_sector {
    size_t refused;
    size_t place;
    size_t kind;
    size_t shade;
    float outside;
};

/* a set: so many rings were taken, and full 1 where that is the wanted number, else 0 */
struct rings_set {
    size_t refused;
    size_t place;
    size_t taken;
    size_t full;
};

/* ---- readings */

/* The class of a reading. Refuses by 1, 2, 3. */
struct rings_class rings_classify(const uint8_t *reading, size_t n, size_t k);

/* Writes the home reading, the least turn of the reading, to the n bytes of `out`. Refuses by 1, 2, 3, 4. */
struct rings_home rings_home(const uint8_t *reading, size_t n, size_t k, uint8_t *out, size_t room);

/* The home reading of a stock target: 8 sectors of 2 shades in a byte, the first sector in the highest bit. Refuses nothing. */
uint8_t rings_stock_home(uint8_t target);

/* value 1 where the two readings are of one ring, else 0. Refuses by 1, 10, 2, 3. a and b may overlap. */
struct rings_answer rings_same(const uint8_t *a, size_t n, const uint8_t *b, size_t m, size_t k);

/* value 1 where the reading is a turn of its mirror image, else 0. Refuses by 1, 2, 3. */
struct rings_answer rings_even_handed(const uint8_t *reading, size_t n, size_t k);

/* value: the least number of places at which a turn of one reading differs from the other. Refuses by 1, 10, 2, 3. a and b may overlap. */
struct rings_answer rings_apart(const uint8_t *a, size_t n, const uint8_t *b, size_t m, size_t k);

/* The same number in distance, and the turns in shift. Refuses by 1, 10, 2, 3. a and b may overlap. */
struct rings_nearest rings_nearest(const uint8_t *a, size_t n, const uint8_t *b, size_t m, size_t k);

/* Which of the rings, n sectors each and end to end in `rings`, the reading of n sectors shows with at most `most` sectors misread, and from which side. Refuses by 1, by 10
 * where `bytes` is no multiple of n, by 2, and by 3, where the places of the rings' sectors count on from n. `rings` and `reading` may overlap. */
struct rings_sighting rings_sight(const uint8_t *rings, size_t bytes, const uint8_t *reading, size_t n, size_t k, size_t most);

/* ---- walks: from ring to ring, in increasing order. Each function writes to the n bytes of `out` the least ring of its kind above the reading, which has to be a prenecklace;
 * where there is none it writes nothing. The first of a walk is n times 0. They refuse by 1, 2, 3, 4, 5. */
struct rings_step rings_next_prenecklace(const uint8_t *reading, size_t n, size_t k, uint8_t *out, size_t room);
struct rings_step rings_next_necklace(const uint8_t *reading, size_t n, size_t k, uint8_t *out, size_t room);
struct rings_step rings_next_lyndon(const uint8_t *reading, size_t n, size_t k, uint8_t *out, size_t room);

/* The same for bracelets, one ring of each pair of mirror images: value 1 where there is a next one, else 0. It tells no moves. */
struct rings_answer rings_next_bracelet(const uint8_t *reading, size_t n, size_t k, uint8_t *out, size_t room);

/* ---- fixed shade counts: k counts, how often each shade stands in the ring */

/* Writes to `out`, whose length is n, the least necklace with these counts; value 1. Refuses by 1, 2, 6. */
struct rings_answer rings_first_ring(size_t k, const size_t *counts, size_t how_many, uint8_t *out, size_t n);

/* Writes to the n bytes of `out` the least necklace with these counts above the reading, which may be any; value 1. Where there is none it writes nothing; value 0.
 * Refuses by 1, 2, 3, 4, 6. */
struct rings_answer rings_next_ring(const uint8_t *reading, size_t n, size_t k, const size_t *counts, size_t how_many, uint8_t *out, size_t room);

/* ---- catalogues */

/* Reads the record at `start` of a catalogue and writes its n sectors to the front of `out`, which has 64 bytes; the others are left as they are. At the catalogue's end kind is 0.
 * Refuses by 4, 7, 8, 16, 1, 2, 7, 3, 17, 9. */
struct rings_record rings_read_record(const uint8_t *catalogue, size_t bytes, size_t start, uint8_t *out, size_t room);

/* Writes the record of the reading's ring, with a byte a sector or packed, to `buffer` from `at` on; value: the place behind it. Every other byte of the buffer is left as it is.
 * Refuses by 1, 2, 3, 7. */
struct rings_answer rings_write_front(const uint8_t *reading, size_t n, size_t k, uint8_t *buffer, size_t bytes, size_t at);
struct rings_answer rings_write_packed(const uint8_t *reading, size_t n, size_t k, uint8_t *buffer, size_t bytes, size_t at);

/* Writes an old catalogue, each ring that is seen from the back replaced by the same ring as seen from the front, to `out`, which has as many bytes; value 1.
 * Refuses by 4, and then the first record that is damaged by 7, 8, 1, 2, 7, 3, 9. */
struct rings_answer rings_convert(const uint8_t *old, size_t bytes, uint8_t *out, size_t room);

/* ---- reflectances, by those of a reference card's dark and light field */

/* What one reflectance tells. Refuses by 2, 14. */
struct rings_sector rings_sector_shade(float reflectance, size_t k, float dark, float light);

/* Writes the shades of n reflectances to the n bytes of `out`; value 1. Refuses by 1, 2, 14, 4, 15. */
struct rings_answer rings_ring_shades(const float *reflectances, size_t n, size_t k, float dark, float light, uint8_t *out, size_t room);

/* ---- strips, and how many rings there are */

/* Writes the strip of n and k to `out`, which has k to the power n bytes, at most 4096; value 1. Refuses by 1, 2, 12, 4. */
struct rings_answer rings_strip(size_t n, size_t k, uint8_t *out, size_t room);

/* value: the one place of that strip, counted from 0, at which the reading stands. Refuses by 1, 2, 3, 12. */
struct rings_answer rings_place(const uint8_t *reading, size_t n, size_t k);

/* value: how many necklaces, or Lyndon words, of n sectors and k shades there are; k to the power n may be as large as 2 to the power 32. Refuses by 1, 2, 12. */
struct rings_answer rings_necklaces(size_t k, size_t n);
struct rings_answer rings_lyndon_words(size_t k, size_t n);

/* ---- target sets */

/* Picks at most `wanted` rings of n sectors and k shades, each at least d apart from those taken before it, and lays them into `out`, which has 768 bytes: 32 places of 24 sectors, in the
 * order in which they were taken, everything unused 0. Refuses by 4, 1, 2, 12, 13. */
struct rings_set rings_pick(size_t n, size_t k, size_t d, size_t wanted, uint8_t *out, size_t room);

/* The guarded set, laid out and refused the same: the rings taken and their mirror images stay at least d apart from one another, and each ring from its own turns. */
struct rings_set rings_pick_guarded(size_t n, size_t k, size_t d, size_t wanted, uint8_t *out, size_t room);

#ifdef __cplusplus
}
#endif
#endif
