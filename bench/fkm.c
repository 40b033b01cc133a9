/* The listing in plain C, for comparison: the FKM algorithm (source 001, Figure 3) with a buffered output, the same text as the proved program.
   Written without headers, so that it needs nothing but the toolchain's own compiler and C library. */
typedef unsigned long size_t;
typedef long ssize_t;
ssize_t read(int, void *, size_t);
ssize_t write(int, const void *, size_t);

static char buf[65536];
static size_t at;

static void flush(void)
{
    size_t done = 0;
    while (done < at) {
        ssize_t r = write(1, buf + done, at - done);
        if (r <= 0)
            break;
        done += (size_t)r;
    }
    at = 0;
}

static void number(unsigned long x)
{
    char digits[20];
    int n = 0;
    do {
        digits[n++] = (char)('0' + x % 10);
        x /= 10;
    } while (x);
    while (n)
        buf[at++] = digits[--n];
}

static void text(const char *s)
{
    while (*s)
        buf[at++] = *s++;
}

static void ring(const unsigned char *a, int n, unsigned long moves, int p)
{
    if (at > sizeof buf - 200)
        flush();
    for (int j = 1; j <= n; j++)
        buf[at++] = "0123456789abcdef"[a[j]];
    buf[at++] = ' ';
    number(moves);
    buf[at++] = ' ';
    number((unsigned long)p);
    buf[at++] = '\n';
}

int main(void)
{
    char in[16];
    ssize_t got = read(0, in, 15);
    int k = 0, n = 0, i = 0, p = 1;
    unsigned long rings = 0, sum = 0, moves = 0;
    static unsigned char a[65];
    in[got < 0 ? 0 : got] = 0;
    while (in[i] >= '0' && in[i] <= '9')
        k = k * 10 + in[i++] - '0';
    i++;
    while (in[i] >= '0' && in[i] <= '9')
        n = n * 10 + in[i++] - '0';
    if (k < 2 || k > 16 || n < 1 || n > 64)
        return 1;
    text("necklaces k=");
    number((unsigned long)k);
    text(" n=");
    number((unsigned long)n);
    text("\n");
    for (;;) {
        if (n % p == 0) {
            ring(a, n, moves, p);
            rings++;
            sum += moves;
            moves = 0;
        }
        for (i = n; i > 0 && a[i] == k - 1; i--)
            ;
        if (i == 0)
            break;
        a[i]++;
        for (int j = i + 1; j <= n; j++)
            a[j] = a[j - i];
        p = i;
        moves++;
    }
    text("total ");
    number(rings);
    text(" moves ");
    number(sum);
    text("\n");
    flush();
    return 0;
}
