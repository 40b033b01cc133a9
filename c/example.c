/* How the calls are used from C; c/example.expected is what it prints. */
#include <math.h>
#include <stdio.h>
#include <string.h>
#include "rings.h"

static void show(const char *name, const uint8_t *ring, size_t n) {
    printf("%s ", name);
    for (size_t i = 0; i < n; i++) printf("%x", ring[i]);
}

static void refused(const char *call, size_t number, size_t place) {
    printf("%s: refused %zu (%s) at %zu\n", call, number, rings_refusal_name(number), place);
}

int main(void) {
    const uint8_t reading[6] = {1, 1, 0, 1, 0, 0}, other[6] = {0, 0, 1, 0, 1, 1}, bad[4] = {0, 1, 2, 0};
    const size_t counts[2] = {3, 3};
    uint8_t ring[64], home[6], next[6], buffer[32], strip[8], set[768];
    printf("version %s\n", strcmp(rings_version, RINGS_VERSION) ? "differs" : "as declared");

    struct rings_home h = rings_home(reading, 6, 2, home, 6);
    show("home", home, 6);
    printf(" shift %zu period %zu\n", h.shift, h.period);
    h = rings_home(bad, 4, 2, home, 4);
    refused("home", h.refused, h.place);
    struct rings_class c = rings_classify((const uint8_t[4]){0, 1, 0, 0}, 4, 2);
    printf("class %zu value %zu\n", c.kind, c.value);
    printf("same %zu even-handed %zu\n", rings_same(reading, 6, other, 6, 2).value, rings_even_handed(other, 6, 2).value);
    printf("apart %zu\n", rings_apart((const uint8_t[6]){0, 1, 0, 1, 0, 1}, 6, other, 6, 2).value);
    struct rings_nearest near = rings_nearest(reading, 6, (const uint8_t[6]){0, 0, 1, 1, 0, 1}, 6, 2);
    printf("nearest %zu by %zu turns\n", near.distance, near.shift);
    refused("same", rings_same(reading, 6, other, 5, 2).refused, 0);
    printf("stock d0 -> %02x\n", rings_stock_home(0xd0));

    memset(ring, 0, 4);
    for (;;) {
        show("", ring, 4);
        struct rings_step s = rings_next_necklace(ring, 4, 2, next, 4);
        printf(", moves %zu\n", s.moves);
        if (!s.moved) break;
        memcpy(ring, next, 4);
    }
    struct rings_answer a = rings_next_bracelet(other, 6, 2, next, 6);
    show("bracelet", next, 6);
    printf(" %zu\n", a.value);
    struct rings_step off = rings_next_lyndon((const uint8_t[2]){1, 0}, 2, 2, next, 2);
    refused("next", off.refused, off.place);
    rings_first_ring(2, counts, 2, home, 6);
    show("first", home, 6);
    a = rings_next_ring(home, 6, 2, counts, 2, next, 6);
    show(", next", next, 6);
    printf(" %zu\n", a.value);

    struct rings_answer w = rings_write_packed(other, 6, 2, buffer, sizeof buffer, 0);
    printf("packed");
    for (size_t i = 0; i < w.value; i++) printf(" %02X", buffer[i]);
    puts("");
    struct rings_record r = rings_read_record(buffer, w.value, 0, ring, 64);
    show("record", ring, r.n);
    printf(" kind %zu n %zu k %zu next %zu\n", r.kind, r.n, r.k, r.next);
    printf("end: kind %zu\n", rings_read_record(buffer, w.value, r.next, ring, 64).kind);
    const uint8_t old[10] = {0x52, 0x42, 6, 2, 0, 0, 1, 0, 1, 1};
    rings_convert(old, 10, buffer, 10);
    show("converted", buffer + 4, 6);
    printf(" mark %c%c\n", buffer[0], buffer[1]);

    struct rings_sector s = rings_sector_shade(0.5f, 2, 0, 1);
    printf("0.5 has shade %zu\n", s.shade);
    s = rings_sector_shade(1.5f, 2, 0, 1);
    printf("1.5 is kind %zu, %g\n", s.kind, s.outside);
    printf("nan is kind %zu\n", rings_sector_shade(NAN, 2, 0, 1).kind);
    const float values[4] = {0.1f, 0.9f, 0.2f, 0.7f};
    rings_ring_shades(values, 4, 2, 0, 1, home, 4);
    show("shades", home, 4);
    puts("");

    rings_strip(3, 2, strip, 8);
    show("strip", strip, 8);
    printf(", 110 stands at %zu\n", rings_place((const uint8_t[3]){1, 1, 0}, 3, 2).value);
    printf("2 4: %zu %zu; 16 8: %zu\n", rings_necklaces(2, 4).value, rings_lyndon_words(2, 4).value, rings_necklaces(16, 8).value);
    refused("16 9", rings_necklaces(16, 9).refused, 0);
    struct rings_set p = rings_pick(8, 2, 3, 32, set, sizeof set);
    for (size_t i = 0; i < p.taken; i++) {
        show("taken", set + 24 * i, 8);
        puts("");
    }
    printf("taken %zu full %zu\n", p.taken, p.full);
    p = rings_pick_guarded(4, 3, 1, 9, set, sizeof set);
    for (size_t i = 0; i < p.taken; i++) show(i ? "" : "guarded", set + 24 * i, 4);
    printf(" full %zu\n", p.full);
    const uint8_t rings[12] = {0, 0, 1, 2, 0, 1, 1, 2, 0, 1, 2, 2}, seen[2][4] = {{1, 2, 0, 0}, {1, 0, 0, 2}};
    for (size_t i = 0; i < 2; i++) {
        struct rings_sighting v = rings_sight(rings, 12, seen[i], 4, 3, 0);
        printf("seen: kind %zu target %zu shift %zu misread %zu\n", v.kind, v.target, v.shift, v.misread);
    }
    printf("seen: kind %zu\n", rings_sight(rings, 12, seen[0], 4, 3, 4).kind);
    return 0;
}
