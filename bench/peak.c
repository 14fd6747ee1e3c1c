/* Preloaded before a program: as it ends, it writes what /proc says of it to descriptor 3, with its peak memory. */

typedef unsigned long size_t;

extern int open(const char *name, int flags, ...);
extern long read(int descriptor, void *bytes, size_t size);
extern long write(int descriptor, const void *bytes, size_t size);
extern void *dlsym(void *library, const char *name);

typedef void end_process(int status);

static void *const next_library = (void *)-1;

void _exit(int status) {
    static char told[8192];
    end_process *end = (end_process *)dlsym(next_library, "_exit");
    long size = read(open("/proc/self/status", 0), told, sizeof told);
    if (size > 0) {
        (void)write(3, told, (size_t)size);
    }
    end(status);
    for (;;) {
    }
}
