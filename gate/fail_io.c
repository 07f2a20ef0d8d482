/* A library for LD_PRELOAD that makes one read or write of a file fail. Each read and write of the file whose number is in the
   variable FAIL_FILE moves at most FAIL_BYTES bytes, and the one whose number, counted from 1, is in FAIL_AT fails. The
   toolchain's clang builds it, without the headers of a C library. */

typedef unsigned long size;

extern char *getenv(const char *name);
extern long strtol(const char *text, char **end, int base);
extern long syscall(long number, ...);
extern int *__errno_location(void);

enum { READ = 0, WRITE = 1, INPUT_OUTPUT_ERROR = 5 };

static long file, most, fails, calls;

static long setting(const char *name) {
    const char *number = getenv(name);
    return number ? strtol(number, 0, 10) : -1;
}

/* Runs before `main`. */
__attribute__((constructor)) static void read_settings(void) {
    file = setting("FAIL_FILE");
    most = setting("FAIL_BYTES");
    fails = setting("FAIL_AT");
}

static long move(long call, int of, const void *bytes, size count) {
    if (of != file)
        return syscall(call, of, bytes, count);
    if (__atomic_add_fetch(&calls, 1, __ATOMIC_SEQ_CST) == fails) {
        *__errno_location() = INPUT_OUTPUT_ERROR;
        return -1;
    }
    return syscall(call, of, bytes, count < (size)most ? count : (size)most);
}

long read(int of, void *bytes, size count) { return move(READ, of, bytes, count); }

long write(int of, const void *bytes, size count) { return move(WRITE, of, bytes, count); }
