/* A library for LD_PRELOAD that refuses one allocation of a program: the one whose number, counted from 1, is in the
   variable REFUSE_ALLOCATION. It then creates the file that the variable REFUSED_FILE names, which shows that the program
   made so many allocations. The toolchain's clang builds it, without the headers of a C library. */

typedef unsigned long size;

extern char *getenv(const char *name);
extern long strtol(const char *text, char **end, int base);
extern int creat(const char *path, unsigned mode);
extern int close(int file);
extern int *__errno_location(void);
extern void *__libc_malloc(size bytes);
extern void *__libc_calloc(size count, size bytes);
extern void *__libc_realloc(void *block, size bytes);
extern void *__libc_memalign(size alignment, size bytes);

enum { NO_MEMORY = 12 };

static long asked, refused;

/* Runs before `main`. Allocations before it are not counted, and none of them is refused. */
__attribute__((constructor)) static void read_settings(void) {
    const char *number = getenv("REFUSE_ALLOCATION");
    asked = 0;
    refused = number ? strtol(number, 0, 10) : 0;
}

static int is_refused(void) {
    if (__atomic_add_fetch(&asked, 1, __ATOMIC_SEQ_CST) != refused)
        return 0;
    close(creat(getenv("REFUSED_FILE"), 0600));
    *__errno_location() = NO_MEMORY;
    return 1;
}

void *malloc(size bytes) { return is_refused() ? 0 : __libc_malloc(bytes); }

void *calloc(size count, size bytes) { return is_refused() ? 0 : __libc_calloc(count, bytes); }

void *realloc(void *block, size bytes) { return is_refused() ? 0 : __libc_realloc(block, bytes); }

void *aligned_alloc(size alignment, size bytes) { return is_refused() ? 0 : __libc_memalign(alignment, bytes); }

int posix_memalign(void **block, size alignment, size bytes) {
    *block = is_refused() ? 0 : __libc_memalign(alignment, bytes);
    return *block ? 0 : NO_MEMORY;
}
