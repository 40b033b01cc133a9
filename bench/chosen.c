/* chosen TIMES pick|pick_guarded N K D WANTED: chooses a set so many times and prints how many rings it has.
   chosen TIMES sight M N K MOST: of M rings of N sectors, all of shade 0 but the last sector of each, tells so many times which one a reading of shade K - 1 throughout shows: none of them,
   so that each side is looked at. Written without headers, as fkm.c is. */
typedef unsigned long size_t;
typedef long ssize_t;
ssize_t write(int, const void *, size_t);
int strcmp(const char *, const char *);
size_t strtoul(const char *, char **, int);

size_t pick(size_t, size_t, size_t, size_t, size_t);
size_t sight(const unsigned char *, size_t, const unsigned char *, size_t, size_t, size_t);

int main(int argc, char **argv)
{
    static unsigned char rings[32 * 64], reading[64];
    char text[4];
    size_t x[4], times, answer = 0, i;
    if (argc != 7)
        return 2;
    times = strtoul(argv[1], 0, 10);
    for (i = 0; i < 4; i++)
        x[i] = strtoul(argv[3 + i], 0, 10);
    if (strcmp(argv[2], "sight") == 0) {
        if (x[0] > 32 || x[1] < 1 || x[1] > 64)
            return 2;
        for (i = 1; i <= x[0]; i++)
            rings[i * x[1] - 1] = 1;
        for (i = 0; i < x[1]; i++)
            reading[i] = (unsigned char)(x[2] - 1);
        for (i = 0; i < times; i++)
            answer = sight(rings, x[0] * x[1], reading, x[1], x[2], x[3]);
    } else
        for (i = 0; i < times; i++)
            answer = pick(strcmp(argv[2], "pick"), x[0], x[1], x[2], x[3]);
    text[0] = (char)('0' + answer / 100 % 10);
    text[1] = (char)('0' + answer / 10 % 10);
    text[2] = (char)('0' + answer % 10);
    text[3] = '\n';
    write(1, text, 4);
    return 0;
}
