/* Refuses calls of a program: tests/refuse/test-refuse loads it before the C library (ld.so(8), LD_PRELOAD).

   REFUSE_CALL names the calls that are counted, `memory`, `read`, `write`, `open` or `stat`, or `step`, which is
   memory while an odd number of files were opened; the call number REFUSE_AT, from 1, is refused, and all behind
   it where REFUSE_ALL is set. Each refusal is told on the descriptor 9, a byte each: of a call on a descriptor the
   digit where that is one of the three that a process begins with, 'a' where it is the first file that was
   opened, 'b' where it is the second .., else '-'; of a request for memory the letter of the file that was opened
   last, '-' where none was. A refused call sets errno to REFUSE_ERRNO; where that is 0 a write takes no byte.
   Where REFUSE_ONLY is set, only calls of that byte are counted.

   NOTE_CALLS names a file to which the calls on files are noted in their order, a line each (tests/calls/test-calls): `open`,
   `create` (an open that may make the file), `stat`, `size` (a stat of what is open), `read` or `write` with the path of
   the file, or the digit of one of the three that a process begins with; or `keys`, which asks for random bytes.
   REFUSE_CALL may be such a line too, as `stat out`.

   SHORT_READ is the most bytes that a read of the third file gives, and SHORT_WRITE the most that a write takes
   (tests/rows/test-rows).

   The toolchain's compiler has no header files, so what is used is declared here, for Linux on x86-64. */
typedef unsigned long size_t;
typedef long ssize_t;

enum { SYS_READ = 0, SYS_WRITE = 1, SYS_OPENAT = 257, SYS_GETRANDOM = 318, SYS_STATX = 332, AT_FDCWD = -100, NO_MEMORY = 12 };
enum { O_WRONLY = 01, O_CREAT = 0100, O_APPEND = 02000, O_CLOEXEC = 02000000 };
/* The descriptors whose files are known, and the bytes of a path that are noted. */
enum { KNOWN = 64, MOST = 200 };

extern void *__libc_malloc(size_t);
extern void *__libc_calloc(size_t, size_t);
extern void *__libc_realloc(void *, size_t);
extern void *__libc_memalign(size_t, size_t);
extern int *__errno_location(void);
extern char *getenv(const char *);
extern int atoi(const char *);
extern int strcmp(const char *, const char *);
extern long syscall(long, ...);

static const char *call = "";
static int at, count, all, number;
static char only;
static size_t most_read = -1, most_written = -1;
/* By descriptor, the letter of the file, and its path. */
static char letters[KNOWN] = "012";
static char paths[KNOWN][MOST] = {"0", "1", "2"};
static char next = 'a';
/* Where calls are noted, and the line of the last one. */
static int notes = -1;
static char line[MOST + 10];

static void set_most(const char *name, size_t *most) {
    const char *word = getenv(name);
    if (word)
        *most = atoi(word);
}

__attribute__((constructor)) static void begin(void) {
    set_most("SHORT_READ", &most_read);
    set_most("SHORT_WRITE", &most_written);
    const char *word = getenv("NOTE_CALLS");
    if (word)
        notes = syscall(SYS_OPENAT, AT_FDCWD, word, O_WRONLY | O_CREAT | O_APPEND | O_CLOEXEC, 0600);
    word = getenv("REFUSE_CALL");
    if (!word)
        return;
    call = word;
    all = getenv("REFUSE_ALL") != 0;
    word = getenv("REFUSE_ERRNO");
    number = word ? atoi(word) : NO_MEMORY;
    word = getenv("REFUSE_AT");
    at = word ? atoi(word) : 1;
    word = getenv("REFUSE_ONLY");
    only = word ? word[0] : 0;
}

/* Whether this call is refused, which `byte` is told of. */
static int refuses(const char *name, char byte) {
    if (strcmp(name, call) || (only && only != byte))
        return 0;
    count += 1;
    if (all ? count < at : count != at)
        return 0;
    syscall(SYS_WRITE, 9, &byte, 1);
    *__errno_location() = number;
    return 1;
}

/* Notes a call on the file of this path. */
static void note(const char *name, const char *path) {
    size_t length = 0;
    while (*name)
        line[length++] = *name++;
    if (*path)
        line[length++] = ' ';
    while (*path && length < MOST + 8)
        line[length++] = *path++;
    line[length] = '\n';
    if (notes >= 0)
        syscall(SYS_WRITE, notes, line, length + 1);
    line[length] = 0;
}

/* Whether the call that was noted last is refused, by its name alone or by its line. */
static int refuses_noted(const char *name, char byte) {
    return refuses(name, byte) || (strcmp(name, line) && refuses(line, byte));
}

static int refuses_memory(void) {
    char byte = next == 'a' ? '-' : next - 1;
    return refuses("memory", byte) || ((next - 'a') % 2 && refuses("step", byte));
}

static int is_known(int descriptor) {
    return descriptor >= 0 && descriptor < KNOWN;
}

static char letter(int descriptor) {
    char byte = is_known(descriptor) ? letters[descriptor] : 0;
    return byte ? byte : '-';
}

static const char *path_of(int descriptor) {
    return is_known(descriptor) ? paths[descriptor] : "?";
}

/* Keeps the letter and the path of a file that was opened. */
static void keep(int descriptor, const char *path) {
    size_t length = 0;
    letters[descriptor] = next++;
    for (; path[length] && length < MOST - 1; length++)
        paths[descriptor][length] = path[length];
    paths[descriptor][length] = 0;
}

void *malloc(size_t size) {
    return refuses_memory() ? 0 : __libc_malloc(size);
}

void *calloc(size_t many, size_t size) {
    return refuses_memory() ? 0 : __libc_calloc(many, size);
}

void *realloc(void *old, size_t size) {
    return refuses_memory() ? 0 : __libc_realloc(old, size);
}

void *aligned_alloc(size_t align, size_t size) {
    return refuses_memory() ? 0 : __libc_memalign(align, size);
}

int posix_memalign(void **made, size_t align, size_t size) {
    void *found = refuses_memory() ? 0 : __libc_memalign(align, size);
    if (!found)
        return NO_MEMORY;
    *made = found;
    return 0;
}

ssize_t read(int descriptor, void *bytes, size_t length) {
    char byte = letter(descriptor);
    if (byte == 'c' && length > most_read)
        length = most_read;
    note("read", path_of(descriptor));
    return refuses_noted("read", byte) ? -1 : syscall(SYS_READ, descriptor, bytes, length);
}

ssize_t write(int descriptor, const void *bytes, size_t length) {
    note("write", path_of(descriptor));
    if (refuses_noted("write", letter(descriptor)))
        return number ? -1 : 0;
    if (length > most_written)
        length = most_written;
    return syscall(SYS_WRITE, descriptor, bytes, length);
}

ssize_t __write(int descriptor, const void *bytes, size_t length) {
    return write(descriptor, bytes, length);
}

int open(const char *path, int flags, ...) {
    __builtin_va_list rest;
    __builtin_va_start(rest, flags);
    unsigned mode = __builtin_va_arg(rest, unsigned);
    __builtin_va_end(rest);
    note(flags & O_CREAT ? "create" : "open", path);
    if (refuses_noted("open", '-'))
        return -1;
    int descriptor = syscall(SYS_OPENAT, AT_FDCWD, path, flags, mode);
    if (is_known(descriptor))
        keep(descriptor, path);
    return descriptor;
}

int statx(int folder, const char *path, int flags, unsigned mask, void *told) {
    note(*path ? "stat" : "size", *path ? path : path_of(folder));
    return refuses_noted("stat", '-') ? -1 : syscall(SYS_STATX, folder, path, flags, mask, told);
}

int getentropy(void *bytes, size_t length) {
    note("keys", "");
    return refuses_noted("keys", '-') || syscall(SYS_GETRANDOM, bytes, length, 0) != (ssize_t)length ? -1 : 0;
}
