/* calls TIMES CALL K READING [COUNT..]: makes a call so many times and prints the ring that it gives and its answer. The reading is a hexadecimal digit a sector.
   CALL is bring_home; start, next_prenecklace, next_necklace, next_lyndon or next_bracelet, a step being made behind a start; or next_ring, which takes the counts.
   The printing costs the same whatever is printed, so that two runs differ by their calls alone. Written without headers, as fkm.c is. */
typedef unsigned long size_t;
typedef long ssize_t;
ssize_t write(int, const void *, size_t);
int strcmp(const char *, const char *);
size_t strlen(const char *);
size_t strtoul(const char *, char **, int);

size_t bring_home(const unsigned char *, size_t, size_t, unsigned char *, size_t);
size_t walk_on(const unsigned char *, size_t, size_t, size_t, unsigned char *);
size_t next_ring(const unsigned char *, size_t, size_t, const size_t *, size_t, unsigned char *, size_t);

static const char *const names[] = {"start", "next_prenecklace", "next_necklace", "next_lyndon", "next_bracelet", "bring_home", "next_ring"};
enum { BRING_HOME = 5, NEXT_RING = 6, CALLS = 7 };

int main(int argc, char **argv)
{
    static unsigned char reading[64], out[64];
    static char text[69];
    size_t counts[16], answer = 0, times, call = 0, k, n, many = 0, i;
    if (argc < 5)
        return 2;
    times = strtoul(argv[1], 0, 10);
    while (call < CALLS && strcmp(argv[2], names[call]) != 0)
        call++;
    k = strtoul(argv[3], 0, 10);
    n = strlen(argv[4]);
    if (call == CALLS || n > 64 || argc > 5 + 16)
        return 2;
    for (i = 0; i < n; i++)
        reading[i] = (unsigned char)(argv[4][i] < 'a' ? argv[4][i] - '0' : argv[4][i] - 'a' + 10);
    for (; many + 5 < (size_t)argc; many++)
        counts[many] = strtoul(argv[5 + many], 0, 10);
    for (i = 0; i < times; i++)
        if (call == BRING_HOME)
            answer = bring_home(reading, n, k, out, n);
        else if (call == NEXT_RING)
            answer = next_ring(reading, n, k, counts, many, out, n);
        else
            answer = walk_on(reading, n, k, call, out);
    for (i = 0; i < n; i++)
        text[i] = "0123456789abcdef"[out[i] % 16];
    text[n] = ' ';
    text[n + 1] = (char)('0' + answer / 100 % 10);
    text[n + 2] = (char)('0' + answer / 10 % 10);
    text[n + 3] = (char)('0' + answer % 10);
    text[n + 4] = '\n';
    write(1, text, n + 5);
    return 0;
}
