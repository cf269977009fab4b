/* Stands between a program and the C library in a test, by LD_PRELOAD, and lets calls fail as the environment asks:
 *
 *   FAULT_READ, FAULT_WRITE   FIRST COUNT ERRNO: so many calls, from that one on, fail with the error; the first is 1
 *   FAULT_SHORT               each read and each write moves one byte at most
 *   FAULT_GROWTH              N: the Nth growth of memory is refused
 *   FAULT_COUNTS              FILE, in which stand at the end: how many reads, writes and growths there were
 *
 * It includes no header, so that a compiler alone is enough. It is for Linux on x86-64 and glibc. */

typedef unsigned long size;

extern char *getenv(const char *name);
extern long strtol(const char *text, char **end, int base);
extern int snprintf(char *text, size length, const char *format, ...);
extern long syscall(long number, ...);
extern int *__errno_location(void);
extern void *__libc_malloc(size count);
extern void *__libc_realloc(void *old, size count);
extern size malloc_usable_size(void *old);

enum { READ = 0, WRITE = 1, OPEN = 2, CLOSE = 3 };
enum { NO_MEMORY = 12, WRITE_ONLY_NEW = 01 | 0100 | 01000 };

struct stream {
    long calls, first, count, error;
};

static struct stream input, output;
static long growths, refused;
static int is_short;

static void read_fault(struct stream *it, const char *name) {
    char *text = getenv(name);
    if (text) {
        it->first = strtol(text, &text, 10);
        it->count = strtol(text, &text, 10);
        it->error = strtol(text, &text, 10);
    }
}

__attribute__((constructor)) static void begin(void) {
    read_fault(&input, "FAULT_READ");
    read_fault(&output, "FAULT_WRITE");
    char *text = getenv("FAULT_GROWTH");
    refused = text ? strtol(text, 0, 10) : 0;
    is_short = getenv("FAULT_SHORT") != 0;
    growths = 0;
}

__attribute__((destructor)) static void end(void) {
    char *name = getenv("FAULT_COUNTS"), text[100];
    if (name) {
        long file = syscall(OPEN, name, WRITE_ONLY_NEW, 0644);
        size length = snprintf(text, sizeof text, "%ld %ld %ld\n", input.calls, output.calls, growths);
        syscall(WRITE, file, text, length);
        syscall(CLOSE, file);
    }
}

static long move(struct stream *it, long call, int file, const void *bytes, size count) {
    it->calls++;
    if (it->count && it->calls >= it->first && it->calls - it->first < it->count) {
        *__errno_location() = it->error;
        return -1;
    }
    return syscall(call, file, bytes, is_short && count > 1 ? 1 : count);
}

long read(int file, void *bytes, size count) {
    return move(&input, READ, file, bytes, count);
}

long write(int file, const void *bytes, size count) {
    return move(&output, WRITE, file, bytes, count);
}

static int is_refused(void) {
    if (++growths != refused)
        return 0;
    *__errno_location() = NO_MEMORY;
    return 1;
}

void *malloc(size count) {
    return is_refused() ? 0 : __libc_malloc(count);
}

void *realloc(void *old, size count) {
    if ((!old || count > malloc_usable_size(old)) && is_refused())
        return 0;
    return __libc_realloc(old, count);
}
