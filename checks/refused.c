/* A library that is loaded before the C library (LD_PRELOAD), and refuses growths of memory. checks/refused.py builds and uses it.
 *
 * A growth is a malloc, a calloc, or a realloc to more bytes, of the program and not of the C library.
 *
 * REFUSE_N=n        the n-th growth is refused; the first is 1
 * REFUSE_FROM=n     each growth from the n-th on
 * REFUSE_EVERY=k    each k-th growth
 * REFUSE_COUNT=F    where the program ends, a line `GROWTHS REFUSED` is added to the file F
 * REFUSE_RECORDS=F  copies of the process are made, one after the other, and their records are written to the file F. In the
 *                   copy n the n-th growth is refused; with REFUSE_MODE=from each from it on, with REFUSE_MODE=every each n-th.
 *                   The last copy is the first in which none was refused, or number REFUSE_MOST.
 *
 * With REFUSE_INPUT=I copies are made before the program begins. Each reads the file I, and ends where the program does. Else they
 * are made at each mark `#begin` on standard error; `#end` ends what is refused, and a copy ends at `#done` with status 77.
 * A record is a line `CALL N STATUS REFUSED MEMORY OUT ERR`, and the OUT and ERR bytes that the copy wrote. STATUS is minus the
 * signal of a copy that a signal ended; 14 is that of 20 seconds. MEMORY counts the marks `#memory`.
 *
 * The kit's compiler has no C headers, so what is used of the C library is declared here. */
typedef unsigned long size_t;
typedef long ssize_t;
typedef struct { const char *file; void *base; const char *name; void *at; } Dl_info;
extern void *__libc_malloc(size_t), *__libc_realloc(void *, size_t), *__libc_calloc(size_t, size_t);
extern int *__errno_location(void), dladdr(const void *, Dl_info *), open(const char *, int, ...), close(int), dup2(int, int), fork(void),
    waitpid(int, int *, int), memfd_create(const char *, unsigned), dprintf(int, const char *, ...), memcmp(const void *, const void *, size_t);
extern unsigned alarm(unsigned);
extern char *getenv(const char *);
extern size_t strtoul(const char *, char **, int), malloc_usable_size(void *);
extern long syscall(long, ...), lseek(int, long, int);
extern void *mmap(void *, size_t, int, int, int, long);
enum { READ = 0, WRITE = 1, EXIT_GROUP = 231, OUT_OF_MEMORY = 12, MADE = 02001 | 0100, DONE = 77, SECONDS = 20 };

static _Atomic size_t count, refused;
static size_t n, from, every, call;
static int ready, counts, is_copy, records = -1;
static struct { size_t refused, memory; } *said;
static void *libc;

static size_t number(const char *name) {
    char *it = getenv(name);
    return it ? strtoul(it, 0, 10) : 0;
}

static int is_refused(void *caller) {
    Dl_info info;
    if (!ready || !(counts | n | from | every) || (dladdr(caller, &info) && info.base == libc)) return 0;
    size_t i = ++count;
    int is = i == n || (from && i >= from) || (every && i % every == 0);
    if (is) {
        size_t so_far = ++refused;
        if (said) said->refused = so_far;
        *__errno_location() = OUT_OF_MEMORY;
    }
    return is;
}

void *malloc(size_t size) { return is_refused(__builtin_return_address(0)) ? 0 : __libc_malloc(size); }

void *calloc(size_t k, size_t size) { return is_refused(__builtin_return_address(0)) ? 0 : __libc_calloc(k, size); }

void *realloc(void *old, size_t size) {
    int grows = !old || size > malloc_usable_size(old);
    return grows && is_refused(__builtin_return_address(0)) ? 0 : __libc_realloc(old, size);
}

/* The bytes of a file that a copy has written go to the records. */
static void pass(int file) {
    static char bytes[1 << 16];
    lseek(file, 0, 0);
    for (ssize_t k; (k = syscall(READ, file, bytes, sizeof bytes)) > 0;) syscall(WRITE, records, bytes, k);
    close(file);
}

/* Makes the copies. It returns in each copy, and then in the process itself. */
static void copies(const char *input) {
    char *word = getenv("REFUSE_MODE");
    size_t most = number("REFUSE_MOST"), *of = !word ? &n : word[0] == 'f' ? &from : &every;
    for (size_t i = 1; !most || i <= most; i++) {
        int out = memfd_create("out", 0), err = memfd_create("err", 0), status = 0;
        said->refused = said->memory = 0;
        int child = fork();
        if (child == 0) {
            is_copy = 1;
            dup2(out, 1);
            if (input) dup2(err, 2), dup2(open(input, 0), 0);
            alarm(SECONDS);
            count = refused = 0;
            *of = i;
            return;
        }
        waitpid(child, &status, 0);
        dprintf(records, "%lu %lu %d %lu %lu %ld %ld\n", call, i, status & 127 ? -(status & 127) : status >> 8 & 255, said->refused,
                said->memory, lseek(out, 0, 2), lseek(err, 0, 2));
        pass(out);
        pass(err);
        if (!said->refused || child < 0) return;
    }
}

static void at_mark(const char *mark, size_t length) {
#define IS(word) (length >= sizeof word - 1 && !memcmp(mark, word, sizeof word - 1))
    if (IS("#begin") && !is_copy) call++, copies(0);
    if (!is_copy) return;
    if (IS("#end")) n = from = every = 0;
    if (IS("#memory")) said->memory++;
    if (IS("#done")) syscall(EXIT_GROUP, DONE);
}

ssize_t write(int file, const void *bytes, size_t length) {
    if (file == 2 && records >= 0 && length && *(const char *)bytes == '#') at_mark(bytes, length);
    long done = syscall(WRITE, file, bytes, length);
    return done;
}

void _exit(int status) {
    char *file = getenv("REFUSE_COUNT");
    if (file && !is_copy) dprintf(open(file, MADE, 0644), "%lu %lu\n", (size_t)count, (size_t)refused);
    syscall(EXIT_GROUP, status);
    __builtin_unreachable();
}

__attribute__((constructor)) static void start(void) {
    Dl_info info;
    char *file = getenv("REFUSE_RECORDS"), *input = getenv("REFUSE_INPUT");
    libc = dladdr((void *)&getenv, &info) ? info.base : 0;
    n = number("REFUSE_N"), from = number("REFUSE_FROM"), every = number("REFUSE_EVERY");
    counts = getenv("REFUSE_COUNT") != 0;
    ready = 1;
    if (!file) return;
    records = open(file, MADE, 0644);
    said = mmap(0, 4096, 3, 0x21, -1, 0);
    if (!input) return;
    copies(input);
    if (!is_copy) syscall(EXIT_GROUP, 0);
}
