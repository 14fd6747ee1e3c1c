/* Preloaded before a program: each thread that it starts writes a byte to descriptor 4, and waits before its first step
   until descriptor 3 has no writer any more. */

typedef unsigned long size_t;

extern void *dlsym(void *library, const char *name);
extern long read(int descriptor, void *bytes, size_t size);
extern long write(int descriptor, const void *bytes, size_t size);

typedef void *body(void *given);
typedef int start_thread(void *thread, const void *attributes, body *run, void *given);

struct Held {
    body *run;
    void *given;
};

enum { MOST = 1024 };

static void *const next_library = (void *)-1;
static const int try_again = 11;
static struct Held held[MOST];
static unsigned long started;

static void *wait_and_run(void *given) {
    struct Held *own = given;
    char byte;
    read(3, &byte, 1);
    return own->run(own->given);
}

int pthread_create(void *thread, const void *attributes, body *run, void *given) {
    start_thread *start = (start_thread *)dlsym(next_library, "pthread_create");
    unsigned long place = __atomic_fetch_add(&started, 1, __ATOMIC_SEQ_CST);
    if (place >= MOST || write(4, "!", 1) != 1) {
        return try_again;
    }
    held[place] = (struct Held){run, given};
    return start(thread, attributes, wait_and_run, &held[place]);
}
