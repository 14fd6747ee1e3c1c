/* Preloaded before a program: a read of standard input and a write to standard output move one byte each. The
   FAIL_READ-th such read, or the FAIL_WRITE-th such write, counted from 1, is an error of the number FAIL_AS, or moves
   nothing where that is 0; later ones go on. */

typedef unsigned long size_t;

extern int *__errno_location(void);
extern void *dlsym(void *library, const char *name);
extern char *getenv(const char *name);
extern unsigned long strtoul(const char *digits, char **end, int base);

typedef long read_bytes(int descriptor, void *bytes, size_t size);
typedef long write_bytes(int descriptor, const void *bytes, size_t size);

static void *const next_library = (void *)-1;
static unsigned long reads;
static unsigned long writes;

static unsigned long number(const char *which) {
    const char *digits = getenv(which);
    return digits == 0 ? 0 : strtoul(digits, 0, 10);
}

static long failure(void) {
    int error = (int)number("FAIL_AS");
    *__errno_location() = error;
    return error == 0 ? 0 : -1;
}

long read(int descriptor, void *bytes, size_t size) {
    read_bytes *next = (read_bytes *)dlsym(next_library, "read");
    if (descriptor != 0) {
        return next(descriptor, bytes, size);
    }
    reads += 1;
    return reads == number("FAIL_READ") ? failure() : next(descriptor, bytes, size < 1 ? size : 1);
}

long write(int descriptor, const void *bytes, size_t size) {
    write_bytes *next = (write_bytes *)dlsym(next_library, "write");
    if (descriptor != 1) {
        return next(descriptor, bytes, size);
    }
    writes += 1;
    return writes == number("FAIL_WRITE") ? failure() : next(descriptor, bytes, size < 1 ? size : 1);
}
