// Stands before a program's allocations, and refuses the one whose number REFUSED has. With 0 it refuses none, and says
// at the end how many there were. Threads count together. It needs no header, so that the kit's compiler is enough.
typedef unsigned long size;
extern void *__libc_malloc(size);
extern void *__libc_realloc(void *, size);
extern char *getenv(const char *);
extern long strtol(const char *, char **, int);
extern int dprintf(int, const char *, ...);
extern void _Exit(int);

static long made, refused;

__attribute__((constructor)) static void begin(void) {
    const char *number = getenv("REFUSED");
    refused = number ? strtol(number, 0, 10) : 0;
    made = 0;
}

__attribute__((destructor)) static void end(void) {
    if (refused == 0)
        dprintf(2, "%ld\n", made);
}

// A program with threads ends by this, past what is to be done at its end.
void _exit(int status) {
    end();
    _Exit(status);
}

static int is_refused(void) {
    return __atomic_add_fetch(&made, 1, __ATOMIC_RELAXED) == refused;
}

void *malloc(size bytes) {
    return is_refused() ? 0 : __libc_malloc(bytes);
}

void *realloc(void *block, size bytes) {
    return is_refused() ? 0 : __libc_realloc(block, bytes);
}
