/* Preloaded before a program: a read of standard input that gives something, and a write to standard output, answer as many
   bytes more as MORE says than they were asked for. */

typedef unsigned long size_t;

extern void *dlsym(void *library, const char *name);
extern char *getenv(const char *name);
extern unsigned long strtoul(const char *digits, char **end, int base);

typedef long read_bytes(int descriptor, void *bytes, size_t size);
typedef long write_bytes(int descriptor, const void *bytes, size_t size);

static void *const next_library = (void *)-1;

static long more_than(size_t size) {
    return (long)(size + strtoul(getenv("MORE"), 0, 10));
}

long read(int descriptor, void *bytes, size_t size) {
    read_bytes *next = (read_bytes *)dlsym(next_library, "read");
    long given = next(descriptor, bytes, size);
    return descriptor == 0 && given > 0 ? more_than(size) : given;
}

long write(int descriptor, const void *bytes, size_t size) {
    write_bytes *next = (write_bytes *)dlsym(next_library, "write");
    long taken = next(descriptor, bytes, size);
    return descriptor == 1 && taken > 0 ? more_than(size) : taken;
}
