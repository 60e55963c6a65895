/*
 * Stands before the system's read and write in an x86-64 program that it is preloaded into, so that
 * calls fail where a test wants them to. The environment's READS and WRITES have a letter for each
 * call, one after the other: i interrupts it, e fails it, a digit lets it move at most so many bytes.
 * After the last letter the calls are the system's. It includes no header, so that no declaration of
 * read and write stands beside these.
 */
enum { READ = 0, WRITE = 1, INTERRUPTED = 4, FAILED = 5 };

extern char *getenv(const char *name);
extern int *__errno_location(void);
extern long syscall(long number, ...);

static long call(long number, const char *plan, unsigned long *at, int fd, void *bytes,
                 unsigned long most) {
    char letter = plan == 0 ? 0 : plan[*at];
    if (letter == 0) return syscall(number, fd, bytes, most);
    (*at)++;
    if (letter == 'i' || letter == 'e') {
        *__errno_location() = letter == 'i' ? INTERRUPTED : FAILED;
        return -1;
    }
    unsigned long few = letter - '0';
    return syscall(number, fd, bytes, few < most ? few : most);
}

long read(int fd, void *bytes, unsigned long most) {
    static unsigned long at;
    return call(READ, getenv("READS"), &at, fd, bytes, most);
}

long write(int fd, const void *bytes, unsigned long most) {
    static unsigned long at;
    return call(WRITE, getenv("WRITES"), &at, fd, (void *)bytes, most);
}
