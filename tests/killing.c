// Stands before a program's calls of the system by which it writes files, and kills the program at one of them, as a
// stop of the machine would, or lets one fail.
//
// KILLED names the moment: `open`, `ftruncate`, `write`, `fdatasync`, `fsync` or `rename`, before it is made, or after
// it, where KILLED has `after-` before the name; at `within-write` half of the bytes are written. FAILED names a call
// that fails instead of being made; of a `write` that fails the first byte is written. With TURN=N it is the N-th call
// of that name, and the first one else; a call behind it that FAILED names fails too, if FAILING is set. An `open`
// counts where the file's name ends with `.new`, an `ftruncate`, a `write` and an `fdatasync` of such a file alone, also
// once it is renamed; with LEAST=N a `write` of N bytes at least.
//
// SYNCED names a file that is told what would outlast a loss of power: `file INODE SIZE`, so many written bytes of it;
// `renamed N`, a file has the name of another one, of which the folder does not know yet, and `folder`, it does. With
// KEPT the other one stays, behind its name `.N`, the first such one that is free; N is 0 where there was none. It
// needs no header, so that the kit's compiler is enough.
extern void *dlsym(void *, const char *);
extern char *getenv(const char *);
extern int getpid(void);
extern int kill(int, int);
extern int strcmp(const char *, const char *);
extern unsigned long strlen(const char *);
extern int atoi(const char *);
extern int dprintf(int, const char *, ...);
extern int snprintf(char *, unsigned long, const char *, ...);
extern int fstat(int, void *);
extern long lseek(int, long, int);
extern int link(const char *, const char *);
extern int *__errno_location(void);

enum { FILES = 64, NO_SPACE = 28, EXISTS = 17, APPENDING = 02102, PATH = 4096, STATUS = 32, INODE = 1, HERE = 1 };

static int turns[6];
static char written[FILES];

static int turn(void) {
    const char *named = getenv("TURN");
    return named ? atoi(named) : 1;
}

static int is_named(const char *variable, const char *moment) {
    const char *named = getenv(variable);
    return named && strcmp(named, moment) == 0;
}

// Ends the program where this is the moment that KILLED names.
static void at(const char *moment, int count) {
    if (is_named("KILLED", moment) && count == turn())
        kill(getpid(), 9);
}

// Whether this call is to fail.
static int fails(const char *name, int count) {
    if (!is_named("FAILED", name) || count < turn() || (count > turn() && !getenv("FAILING")))
        return 0;
    *__errno_location() = NO_SPACE;
    return 1;
}

// What the program would have called: the next one of that name.
static void *next(const char *name) {
    return dlsym((void *)-1l, name);
}

static int is_new(const char *path) {
    unsigned long length = strlen(path);
    return length >= 4 && strcmp(path + length - 4, ".new") == 0;
}

static int is_written(int file) {
    return file >= 0 && file < FILES && written[file];
}

// Whether a write of so many bytes counts.
static int is_counted(unsigned long size) {
    const char *least = getenv("LEAST");
    return !least || size >= (unsigned long)atoi(least);
}

// The file that is told what is kept, or -1.
static int told(void) {
    static int file = -1;
    const char *named = getenv("SYNCED");
    int (*opens)(const char *, int, int) = next("open");
    if (named && file < 0)
        file = opens(named, APPENDING, 0600);
    return file;
}

// Tells that what was written of a file is kept.
static void tell_kept(int file) {
    unsigned long status[STATUS];
    if (told() >= 0 && fstat(file, status) == 0)
        dprintf(told(), "file %lu %ld\n", status[INODE], lseek(file, 0, HERE));
}

// Keeps a file that is to be replaced, behind its name a number, which this answers; 0 where there is none.
static int keep_replaced(const char *name) {
    char other[PATH];
    int number = 0, linked = -1;
    if (!getenv("KEPT"))
        return 0;
    do
        snprintf(other, PATH, "%s.%d", name, ++number);
    while ((linked = link(name, other)) != 0 && *__errno_location() == EXISTS);
    return linked == 0 ? number : 0;
}

int open(const char *path, int flags, int mode) {
    int (*opens)(const char *, int, int) = next("open");
    if (!is_new(path)) {
        int other = opens(path, flags, mode);
        if (other >= 0 && other < FILES)
            written[other] = 0;
        return other;
    }
    int count = ++turns[0];
    at("open", count);
    if (fails("open", count))
        return -1;
    int file = opens(path, flags, mode);
    if (file >= 0 && file < FILES)
        written[file] = 1;
    tell_kept(file);
    at("after-open", count);
    return file;
}

int close(int file) {
    int (*closes)(int) = next("close");
    if (file >= 0 && file < FILES)
        written[file] = 0;
    return closes(file);
}

long write(int file, const void *bytes, unsigned long size) {
    long (*writes)(int, const void *, unsigned long) = next("write");
    if (!is_written(file) || !is_counted(size))
        return writes(file, bytes, size);
    int count = ++turns[1];
    at("write", count);
    if (is_named("KILLED", "within-write") && count == turn())
        writes(file, bytes, size / 2);
    at("within-write", count);
    if (fails("write", count)) {
        writes(file, bytes, size > 0);
        *__errno_location() = NO_SPACE;
        return -1;
    }
    long done = writes(file, bytes, size);
    at("after-write", count);
    return done;
}

int ftruncate(int file, long size) {
    int (*truncates)(int, long) = next("ftruncate");
    if (!is_written(file))
        return truncates(file, size);
    int count = ++turns[5];
    at("ftruncate", count);
    if (fails("ftruncate", count))
        return -1;
    int done = truncates(file, size);
    at("after-ftruncate", count);
    return done;
}

int fdatasync(int file) {
    int (*syncs)(int) = next("fdatasync");
    if (!is_written(file))
        return syncs(file);
    int count = ++turns[2];
    at("fdatasync", count);
    if (fails("fdatasync", count))
        return -1;
    int done = syncs(file);
    tell_kept(file);
    at("after-fdatasync", count);
    return done;
}

int fsync(int file) {
    int (*syncs)(int) = next("fsync");
    int count = ++turns[3];
    at("fsync", count);
    if (fails("fsync", count))
        return -1;
    int done = syncs(file);
    if (told() >= 0)
        dprintf(told(), "folder\n");
    at("after-fsync", count);
    return done;
}

int rename(const char *from, const char *to) {
    int (*renames)(const char *, const char *) = next("rename");
    int count = ++turns[4];
    at("rename", count);
    if (fails("rename", count))
        return -1;
    int replaced = keep_replaced(to);
    int done = renames(from, to);
    if (told() >= 0)
        dprintf(told(), "renamed %d\n", replaced);
    at("after-rename", count);
    return done;
}
