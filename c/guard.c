/* guard [ROUNDS]: every function with lent memory, on readings and buffers of all lengths, good and bad, each in memory of its own with guard bytes around it. It ends with 'N calls, 0
 * faults' where no guard byte and no input was changed, and no output by a refusal, or beyond what the answer says. Under valgrind it also shows that no byte around them is read: each
 * buffer is allocated by itself, and what stands before and behind it is not part of it. */
#include <stdio.h>
#include <stdlib.h>
#include <string.h>
#include "rings.h"

enum { MARGIN = 32, GUARD = 0xa5 };

static unsigned long long state = 88172645463325252ull;
static size_t calls, faults;

static size_t below(size_t n) {
    state ^= state << 13;
    state ^= state >> 7;
    state ^= state << 17;
    return n ? (size_t)(state % n) : 0;
}

/* lent memory of n bytes between guard bytes, and what it held when it was lent; without a margin where valgrind watches */
static size_t margin = MARGIN;
struct lent {
    uint8_t *all, *at, *held;
    size_t n;
};

static struct lent lend(size_t n, size_t most) {
    struct lent m = {malloc(n + 2 * margin + 1), NULL, malloc(n + 1), n};
    memset(m.all, GUARD, n + 2 * margin + 1);
    /* no bytes: sometimes no pointer */
    m.at = n == 0 && below(2) ? NULL : m.all + margin;
    if (margin == 0) {
        free(m.all);
        m.all = malloc(n ? n : 1);
        if (m.at) m.at = m.all;
    }
    for (size_t i = 0; i < n; i++) m.at[i] = (uint8_t)below(most);
    if (n) memcpy(m.held, m.at, n);
    return m;
}

static void fault(const char *call, const char *what) {
    faults++;
    printf("guard: FAILED: %s: %s\n", call, what);
}

/* takes memory back: the first `written` bytes may have changed, or `written` from `from` on */
static void back(const char *call, struct lent m, size_t from, size_t written) {
    for (size_t i = 0; margin && i < margin; i++)
        if (m.all[i] != GUARD || m.all[margin + m.n + i] != GUARD) fault(call, "a byte outside was written");
    for (size_t i = 0; i < m.n; i++)
        if (m.at[i] != m.held[i] && (i < from || i - from >= written)) fault(call, "a byte was written that the answer does not name");
    free(m.all);
    free(m.held);
}

static size_t most_of(size_t k) { return below(8) ? (k < 2 ? 2 : k > 16 ? 16 : k) : 20; }

int main(int argc, char **argv) {
    size_t rounds = argc > 1 ? strtoul(argv[1], NULL, 10) : 4000;
    if (argc > 2) margin = 0;
    for (size_t r = 0; r < rounds; r++) {
        size_t k = below(8) ? 2 + below(15) : below(20), n = below(67), room = below(6) ? n : below(70), most = most_of(k);
        struct lent s = lend(n, most), t = lend(below(4) ? n : below(67), most), out;
        struct rings_answer a;
        calls += 20;
        rings_classify(s.at, n, k);
        rings_same(s.at, n, t.at, t.n, k);
        rings_even_handed(s.at, n, k);
        rings_apart(s.at, n, t.at, t.n, k);
        rings_nearest(s.at, n, t.at, t.n, k);
        struct lent many_rings = lend(below(6) ? n * below(4) : below(200), most);
        rings_sight(many_rings.at, many_rings.n, s.at, n, k, below(8));
        back("rings_sight", many_rings, 0, 0);
        if (below(8) == 0) rings_place(s.at, n, k);

        out = lend(room, 256);
        back("rings_home", out, 0, rings_home(s.at, n, k, out.at, room).refused ? 0 : n);
        /* steps, from a prenecklace where there is one: the home reading */
        struct lent home = lend(n, 2);
        if (rings_home(s.at, n, k, home.at, n).refused && n) memcpy(home.at, home.held, n);
        if (n) memcpy(home.held, home.at, n);
        struct rings_step (*steps[3])(const uint8_t *, size_t, size_t, uint8_t *, size_t) = {rings_next_prenecklace, rings_next_necklace, rings_next_lyndon};
        for (size_t i = 0; i < 3; i++) {
            out = lend(room, 256);
            struct rings_step w = steps[i](home.at, n, k, out.at, room);
            back("rings_next_", out, 0, w.moved ? n : 0);
        }
        out = lend(room, 256);
        back("rings_next_bracelet", out, 0, rings_next_bracelet(home.at, n, k, out.at, room).value ? n : 0);

        /* counts: those of the reading, or any */
        size_t many = below(6) ? k : below(20), *counts = malloc((many + 1) * sizeof *counts);
        memset(counts, 0, (many + 1) * sizeof *counts);
        for (size_t i = 0; i < n; i++)
            if (s.at[i] < many) counts[s.at[i]]++;
        if (many && below(8) == 0) counts[below(many)] += below(3);
        out = lend(room, 256);
        a = rings_first_ring(k, many ? counts : NULL, many, out.at, room);
        back("rings_first_ring", out, 0, a.value ? room : 0);
        out = lend(room, 256);
        a = rings_next_ring(s.at, n, k, many ? counts : NULL, many, out.at, room);
        back("rings_next_ring", out, 0, a.value ? n : 0);
        free(counts);

        /* a record is written, damaged or not, and read and converted */
        struct lent buffer = lend(below(90), 256);
        size_t at = below(4) ? 0 : below(90);
        a = (below(2) ? rings_write_front : rings_write_packed)(s.at, n, k, buffer.at, buffer.n, at);
        if (buffer.n) {
            for (size_t i = 0; i < buffer.n; i++)
                if (buffer.at[i] != buffer.held[i] && (a.refused || i < at || i >= a.value)) fault("rings_write_", "a byte was written that the answer does not name");
            memcpy(buffer.held, buffer.at, buffer.n);
            if (below(4) == 0) buffer.at[below(buffer.n)] = (uint8_t)below(256);
            memcpy(buffer.held, buffer.at, buffer.n);
        }
        size_t end = a.refused || below(4) == 0 ? buffer.n : a.value;
        out = lend(below(6) ? 64 : below(70), 256);
        struct rings_record record = rings_read_record(buffer.at, end, at, out.at, out.n);
        back("rings_read_record", out, 0, record.n);
        out = lend(below(6) ? end : below(70), 256);
        back("rings_convert", out, 0, rings_convert(buffer.at, end, out.at, out.n).value ? end : 0);
        back("rings_write_", buffer, 0, 0);

        /* reflectances */
        float *values = malloc((n + 1) * sizeof *values);
        for (size_t i = 0; i <= n; i++) values[i] = (float)below(below(64) ? 1001 : 1200) / 1000;
        out = lend(room, 256);
        a = rings_ring_shades(n ? values : NULL, n, k, below(16) ? 0.1f : 0.9f, 0.8f, out.at, room);
        back("rings_ring_shades", out, 0, a.value ? n : 0);
        rings_sector_shade(values[0], k, 0.1f, 0.8f);
        free(values);
        back("a reading", s, 0, 0);
        back("a second reading", t, 0, 0);
        back("a home reading", home, 0, 0);
    }
    for (size_t n = 0; n < 14; n++)
        for (size_t k = 0; k < 18; k++, calls++) {
            size_t m = 1;
            for (size_t i = 0; i < n && m < 10000; i++) m *= k;
            if (m > 8192) m = below(100);
            if (below(8) == 0) m++;
            struct lent out = lend(m, 256);
            back("rings_strip", out, 0, rings_strip(n, k, out.at, m).value ? m : 0);
        }
    for (size_t r = 0; r < 40; r++, calls++) {
        struct lent out = lend(below(4) ? 768 : below(800), 256);
        struct rings_set p = (r % 2 ? rings_pick : rings_pick_guarded)(1 + below(9), 2 + below(2), below(5), below(34), out.at, out.n);
        back("rings_pick", out, 0, p.refused ? 0 : 768);
    }
    printf("%zu calls, %zu faults\n", calls, faults);
    return faults != 0;
}
