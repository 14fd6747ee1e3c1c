/* Preloaded before a program: its FAIL_NTH-th growth, counted from 1 over all threads, is refused, and so are its
   FAIL_START-th start of a thread and all later ones; a byte on descriptor 3 tells. The start of a thread counts as a
   growth. */

typedef unsigned long size_t;

extern void *__libc_malloc(size_t size);
extern void *__libc_realloc(void *block, size_t size);
extern void *dlsym(void *library, const char *name);
extern char *getenv(const char *name);
extern unsigned long strtoul(const char *digits, char **end, int base);
extern long write(int descriptor, const void *bytes, size_t size);

typedef int start_thread(void *thread, const void *attributes, void *(*run)(void *), void *given);

static void *const next_library = (void *)-1;
static const int try_again = 11;
static unsigned long growths;
static unsigned long starts;

static unsigned long counted(unsigned long *count) {
    return __atomic_add_fetch(count, 1, __ATOMIC_SEQ_CST);
}

static unsigned long asked_for(const char *which) {
    const char *nth = getenv(which);
    return nth == 0 ? 0 : strtoul(nth, 0, 10);
}

static int is_growth_refused(void) {
    return counted(&growths) == asked_for("FAIL_NTH") && write(3, "!", 1) == 1;
}

static int is_start_refused(void) {
    unsigned long number = counted(&starts), first = asked_for("FAIL_START");
    return first != 0 && number >= first && write(3, "!", 1) == 1;
}

void *malloc(size_t size) {
    return is_growth_refused() ? 0 : __libc_malloc(size);
}

void *realloc(void *block, size_t size) {
    return is_growth_refused() ? 0 : __libc_realloc(block, size);
}

int pthread_create(void *thread, const void *attributes, void *(*run)(void *), void *given) {
    start_thread *start = (start_thread *)dlsym(next_library, "pthread_create");
    if (is_growth_refused() || is_start_refused()) {
        return try_again;
    }
    return start(thread, attributes, run, given);
}
