/* steps PROGRAM [WORD..]: how many instructions the program executes, on standard error. It is run one instruction at a time, at addresses that are the same each time.
   For x86-64 Linux. Written without headers, as fkm.c is. */
typedef int pid_t;
pid_t fork(void);
pid_t waitpid(pid_t, int *, int);
int execv(const char *, char *const *);
int personality(unsigned long);
long ptrace(int, ...);
int dprintf(int, const char *, ...);

enum { TRACE_ME = 0, SINGLE_STEP = 9, FIXED_ADDRESSES = 0x0040000 };

int main(int argc, char **argv)
{
    unsigned long steps = 0;
    int status = 0;
    pid_t child;
    if (argc < 2)
        return 2;
    child = fork();
    if (child < 0)
        return 2;
    if (child == 0) {
        personality(FIXED_ADDRESSES);
        if (ptrace(TRACE_ME, 0, 0, 0) == 0)
            execv(argv[1], argv + 1);
        return 2;
    }
    /* the program stops once as it begins and then behind each instruction */
    while (waitpid(child, &status, 0) == child && (status & 0xff) == 0x7f) {
        steps++;
        if (ptrace(SINGLE_STEP, child, 0, 0) != 0)
            return 2;
    }
    dprintf(2, "%lu\n", steps);
    return status == 0 ? 0 : 1;
}
