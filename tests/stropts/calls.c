/* usage: calls each           makes each call, and each refusal of it, and compares results, errno, words and entries
 *        calls race           eight threads at once, each a process of its own; writes their transcript. Then threads for
 *                             which no number is left
 *        calls scarce         makes some calls again and again, each time with another allocation failing; writes their
 *                             transcripts
 *        calls perform TABLE  performs the lines `PROCESS COMMAND` of standard input by calls, over the drivers of this
 *                             file, and writes the entry of each; each result and errno has to be that of its reply
 *
 * The status is 1 if a call answers what it shouldn't. The program is C99, and also C++. */
#define _POSIX_C_SOURCE 200809L
#include <stdlib.h>
#include <string.h>

#include "muxsim/stropts.h"

#define TABLE "driver top mux 2 8 3 16\ndriver ip mux 4 8 3 16\ndriver eth leaf 2 8 3 16\n"

/* The number of the allocation that fails, from 1 on, or 0 for none; and the number of allocations so far. The program
 * is linked so that malloc, calloc and realloc are the three below. */
static size_t refused, asked;

#ifdef __cplusplus
extern "C" {
#endif
void *__real_malloc(size_t size);
void *__real_calloc(size_t count, size_t size);
void *__real_realloc(void *block, size_t size);

void *__wrap_malloc(size_t size);
void *__wrap_calloc(size_t count, size_t size);
void *__wrap_realloc(void *block, size_t size);

void *__wrap_malloc(size_t size) {
    return refused != 0 && ++asked == refused ? NULL : __real_malloc(size);
}

void *__wrap_calloc(size_t count, size_t size) {
    return refused != 0 && ++asked == refused ? NULL : __real_calloc(count, size);
}

void *__wrap_realloc(void *block, size_t size) {
    return refused != 0 && ++asked == refused ? NULL : __real_realloc(block, size);
}
#ifdef __cplusplus
}
#endif

static void fail(const char *what, long found, long wanted) {
    fprintf(stderr, "%s: %ld in place of %ld (errno %d, why '%s', entry '%s')\n", what, found, wanted, errno, mux_why(),
            mux_entry());
    exit(1);
}

static void wants(long found, long wanted, const char *what) {
    if (found != wanted) fail(what, found, wanted);
}

static void wants_words(const char *found, const char *wanted) {
    if (strcmp(found, wanted) == 0) return;
    fprintf(stderr, "'%s' in place of '%s'\n", found, wanted);
    exit(1);
}

/* A call that was accepted, with its entry. */
static void accepts(long found, long wanted, const char *entry) {
    wants(found, wanted, entry);
    wants_words(mux_entry(), entry);
}

/* A call that was refused, with errno and the words. */
static void refuses(long found, int error, const char *words) {
    int seen = errno;
    wants(found, -1, words);
    wants(seen, error, words);
    wants_words(mux_why(), words);
}

static struct strbuf part(int maxlen, int len, void *buf) {
    struct strbuf made;
    made.maxlen = maxlen;
    made.len = len;
    made.buf = (char *)buf;
    return made;
}

static int put(int fd, uint32_t address, const char *bytes, int len) {
    char copy[2048] = {0};
    struct strbuf control = part(4, 4, &address), data = part(len, len, copy);
    memcpy(copy, bytes, strlen(bytes));
    return mux_putmsg(fd, &control, &data, 0);
}

static int route(int fd, uint32_t address, int link) {
    struct mux_route made;
    made.address = address;
    made.link = link;
    return mux_ioctl(fd, MUX_ROUTE, &made);
}

static void without_a_session(void) {
    wants_words(mux_entry(), "");
    wants_words(mux_why(), "");
    wants(mux_reply()->kind, 0, "no reply");
    refuses(mux_open("/dev/ip", O_RDWR), ENODEV, "ENODEV session");
    refuses(mux_exit(), ENODEV, "ENODEV session");
    refuses(mux_end(), ENODEV, "ENODEV session");
    refuses(mux_begin("programs 1\ndriver ip mux\nend\n", NULL), EINVAL, "line 2: form");
    refuses(mux_begin("", NULL), EINVAL, "line 1: cut");
    refuses(mux_begin("programs 1\ndriver ip mux 4 8 8 16\nend\n", NULL), EINVAL, "driver 0 marks");
    wants_words(mux_entry(), "");
}

static void paths(void) {
    const char *malformed[] = {"", "ip", "/dev", "/dev/", "/dev/IP", "/dev/abcdefghi", "/dev/ip ", "/dev/ip 0",
                               "/dev/ip\n", "/dev/ip:", "/dev/ip:x", "/dev/ip:03", "/dev/ip:-1", "/dev/ip:4294967296",
                               "/dev/ip:1:2", "/dev/ip:00000000000000000000000000000000000000000000000", "/etc/passwd"};
    for (size_t i = 0; i < sizeof malformed / sizeof *malformed; i++) {
        refuses(mux_open(malformed[i], O_RDWR), ENOENT, "ENOENT path");
        refuses(mux_hangup(malformed[i]), ENOENT, "ENOENT path");
        refuses(mux_inject(malformed[i], 0, "a", 1), ENOENT, "ENOENT path");
        refuses(mux_transmit(malformed[i], NULL, NULL, 0), ENOENT, "ENOENT path");
    }
    refuses(mux_hangup("/dev/eth"), ENOENT, "ENOENT path");
    refuses(mux_inject("/dev/eth", 0, "a", 1), ENOENT, "ENOENT path");
    refuses(mux_transmit("/dev/eth", NULL, NULL, 0), ENOENT, "ENOENT path");
    wants_words(mux_entry(), "");
}

/* Each call on a descriptor that is not open. */
static void not_open(int fd, const char *number) {
    int flags = 0;
    char entry[64];
    snprintf(entry, sizeof entry, "0 close %s = EBADF fd", number);
    refuses(mux_close(fd), EBADF, "EBADF fd");
    wants_words(mux_entry(), entry);
    refuses(mux_dup(fd), EBADF, "EBADF fd");
    const int requests[] = {I_LINK,   I_PLINK,    I_UNLINK,    I_PUNLINK,   I_FLUSH,
                            MUX_BIND, MUX_UNBIND, MUX_UNROUTE, MUX_ADDRESS, I_UNLINK + 99};
    for (size_t i = 0; i < sizeof requests / sizeof *requests; i++)
        refuses(mux_ioctl(fd, requests[i], 1), EBADF, "EBADF fd");
    refuses(mux_ioctl(fd, I_UNLINK, MUXID_ALL), EBADF, "EBADF fd");
    refuses(mux_ioctl(fd, I_FLUSH, 9), EBADF, "EBADF fd");
    refuses(route(fd, 5, 1), EBADF, "EBADF fd");
    refuses(put(fd, 5, "a", 1), EBADF, "EBADF fd");
    refuses(mux_putmsg(fd, NULL, NULL, 9), EBADF, "EBADF fd");
    refuses(mux_getmsg(fd, NULL, NULL, &flags), EBADF, "EBADF fd");
    refuses(mux_write(fd, "a", 1), EBADF, "EBADF fd");
    refuses(mux_read(fd, NULL, 0), EBADF, "EBADF fd");
}

/* The calls of processes 0 and 9, each with its entry. */
static void each_call(void) {
    char bytes[2048] = {0};
    uint32_t address = 0;
    int flags = 0;
    struct strbuf control = part(4, 0, &address), data = part(sizeof bytes, 0, bytes);
    accepts(mux_open("/dev/ip", O_RDWR), 0, "0 clone ip = fd 0 0");
    wants(mux_reply()->kind == MUXSIM_FD && mux_reply()->minor == 0, 1, "the minor of the clone");
    accepts(mux_open("/dev/eth:1", O_RDWR | O_NONBLOCK), 1, "0 open eth 1 = fd 1 1");
    wants(mux_reply()->minor, 1, "the minor of the open");
    accepts(mux_dup(1), 2, "0 dup 1 = fd 2 1");
    accepts(mux_close(2), 0, "0 close 2 = done");
    refuses(mux_open("/dev/none", O_RDWR), ENXIO, "ENXIO driver");
    refuses(mux_open("/dev/eth:2", O_RDWR), ENXIO, "ENXIO minor");
    refuses(mux_ioctl(1, I_LINK, 0), EINVAL, "EINVAL notmux");
    refuses(mux_ioctl(0, I_LINK, 9), EBADF, "EBADF fd");
    refuses(mux_ioctl(0, I_LINK, -1), EBADF, "EBADF fd");
    refuses(mux_ioctl(0, I_LINK, 0), EINVAL, "EINVAL cycle");
    accepts(mux_ioctl(0, I_LINK, 1), 1, "0 link 0 1 = id 1");
    accepts(mux_open("/dev/top", O_RDWR), 2, "0 clone top = fd 2 0");
    refuses(mux_ioctl(2, I_PLINK, 1), EINVAL, "EINVAL already");
    refuses(mux_read(1, bytes, 1), EINVAL, "EINVAL below");
    refuses(route(0, 5, 2), EINVAL, "EINVAL id");
    refuses(route(0, 5, -1), EINVAL, "EINVAL id");
    accepts(route(0, 4294967295u, 1), 0, "0 route 0 4294967295 1 = done");
    refuses(mux_ioctl(0, MUX_UNROUTE, 5), EINVAL, "EINVAL unrouted");
    refuses(mux_ioctl(0, MUX_UNBIND), EINVAL, "EINVAL unbound");
    accepts(mux_ioctl(0, MUX_BIND, 9), 0, "0 bind 0 9 = done");
    refuses(mux_ioctl(0, MUX_BIND, 8), EADDRINUSE, "EADDRINUSE");
    /* Down. */
    accepts(put(0, 4294967295u, "ab", 2), 0, "0 write 0 4294967295 6162 = took 1");
    accepts(mux_ioctl(0, MUX_ADDRESS, 4294967295u), 0, mux_entry());
    accepts(mux_write(0, "c", 1), 1, "0 write 0 4294967295 63 = took 2");
    data.len = 1;
    accepts(mux_putmsg(0, NULL, &data, 0), 0, "0 write 0 4294967295 00 = took 3");
    accepts(mux_transmit("/dev/eth:1", &address, bytes, sizeof bytes), 2, "0 transmit eth 1 = got 1 4294967295 6162");
    wants(address == 4294967295u && memcmp(bytes, "ab", 3) == 0, 1, "the message of the device");
    accepts(mux_transmit("/dev/eth:1", NULL, NULL, 0), 1, "0 transmit eth 1 = got 2 4294967295 63");
    accepts(mux_transmit("/dev/eth:1", NULL, bytes, 1), 1, "0 transmit eth 1 = got 3 4294967295 00");
    refuses(mux_transmit("/dev/eth:1", NULL, NULL, 0), EAGAIN, "EAGAIN empty");
    refuses(mux_transmit("/dev/ip:0", NULL, NULL, 0), ENXIO, "ENXIO driver");
    refuses(mux_transmit("/dev/eth:0", NULL, NULL, 0), ENXIO, "ENXIO minor");
    /* Sizes, and parts that aren't there. */
    refuses(mux_write(0, NULL, 0), ERANGE, "ERANGE");
    wants_words(mux_entry(), "0 write 0 4294967295 - = ERANGE");
    refuses(mux_write(0, bytes, 17), ERANGE, "ERANGE");
    refuses(mux_write(0, bytes, 2048), ERANGE, "ERANGE");
    wants((long)strlen(mux_entry()), 21 + 2 * 1025 + 9, "the entry of a long message");
    refuses(put(0, 5, "", 0), ERANGE, "ERANGE");
    data.len = -1;
    control.len = 4;
    refuses(mux_putmsg(0, &control, &data, 0), ERANGE, "ERANGE");
    accepts(mux_putmsg(0, NULL, &data, 0), 0, mux_entry());
    accepts(mux_putmsg(0, NULL, NULL, 0), 0, mux_entry());
    refuses(mux_putmsg(0, &control, &data, RS_HIPRI), EINVAL, "EINVAL part");
    control.len = 3;
    refuses(mux_putmsg(0, &control, &data, 0), EINVAL, "EINVAL part");
    /* Up. */
    refuses(mux_read(0, bytes, 16), EAGAIN, "EAGAIN empty");
    accepts(mux_inject("/dev/eth:1", 9, "hello", 5), 5, "0 inject eth 1 9 68656c6c6f = took 4");
    accepts(mux_read(0, bytes, 2), 2, "0 read 0 = got 4 9 68656c6c6f");
    wants(memcmp(bytes, "he", 2) == 0 && mux_reply()->address == 9, 1, "a part of the message");
    accepts(mux_read(0, bytes, 0), 0, mux_entry());
    accepts(mux_getmsg(0, &control, &data, &flags), 0, mux_entry());
    wants(control.len == -1 && data.len == 3 && memcmp(bytes, "llo", 3) == 0 && flags == 0, 1, "its rest");
    refuses(mux_inject("/dev/eth:1", 9, NULL, 0), ERANGE, "ERANGE");
    accepts(mux_inject("/dev/eth:1", 9, "xyz", 3), 3, "0 inject eth 1 9 78797a = took 5");
    data.maxlen = 2;
    accepts(mux_getmsg(0, &control, &data, &flags), MOREDATA, "0 read 0 = got 5 9 78797a");
    wants(control.len == 4 && address == 9 && data.len == 2 && memcmp(bytes, "xy", 2) == 0, 1, "a message");
    accepts(mux_getmsg(0, NULL, NULL, &flags), MOREDATA, mux_entry());
    accepts(mux_ioctl(0, I_FLUSH, FLUSHW), 0, "0 flush 0 w = done");
    accepts(mux_read(0, bytes, 1), 1, mux_entry());
    wants(bytes[0], 'z', "the last byte");
    accepts(mux_inject("/dev/eth:1", 9, "uv", 2), 2, "0 inject eth 1 9 7576 = took 6");
    accepts(mux_getmsg(0, &control, NULL, &flags), MOREDATA, "0 read 0 = got 6 9 7576");
    accepts(mux_ioctl(0, I_FLUSH, FLUSHR), 0, "0 flush 0 r = done");
    refuses(mux_getmsg(0, &control, &data, &flags), EAGAIN, "EAGAIN empty");
    flags = RS_HIPRI;
    refuses(mux_getmsg(0, &control, &data, &flags), EAGAIN, "EAGAIN empty");
    flags = 2;
    refuses(mux_getmsg(0, &control, &data, &flags), EINVAL, "EINVAL part");
    flags = 0;
    control.maxlen = 3;
    refuses(mux_getmsg(0, &control, &data, &flags), EINVAL, "EINVAL part");
    control.maxlen = 4;
    refuses(mux_ioctl(0, I_FLUSH, 0), EINVAL, "EINVAL sides");
    refuses(mux_ioctl(0, I_FLUSH, 4), EINVAL, "EINVAL sides");
    refuses(mux_ioctl(0, 'S' << 8 | 2, 0), EINVAL, "EINVAL request");
    /* Messages that a command drops, and the ends of links. */
    accepts(put(0, 5, "0123456789", 10), 0, "0 write 0 5 30313233343536373839 = took 7");
    refuses(put(0, 5, "a", 1), EAGAIN, "EAGAIN full");
    accepts(mux_ioctl(0, I_FLUSH, FLUSHRW), 0, "0 flush 0 rw = done 7");
    wants(mux_reply()->kind == MUXSIM_OK && mux_reply()->count == 1, 1, "one message was dropped");
    refuses(mux_ioctl(0, I_UNLINK, 2), EINVAL, "EINVAL id");
    refuses(mux_ioctl(0, I_PUNLINK, 1), EINVAL, "EINVAL id");
    refuses(mux_ioctl(0, I_UNLINK, -2), EINVAL, "EINVAL id");
    accepts(mux_ioctl(0, I_UNLINK, 1), 0, "0 unlink 0 1 = done");
    accepts(mux_ioctl(0, I_UNLINK, MUXID_ALL), 0, "0 unlink 0 all = done");
    accepts(mux_ioctl(0, I_PLINK, 1), 2, "0 plink 0 1 = id 2");
    accepts(mux_ioctl(0, I_PUNLINK, 2), 0, "0 punlink 0 2 = done");
    accepts(mux_ioctl(0, I_PUNLINK, MUXID_ALL), 0, "0 punlink 0 all = done");
    accepts(mux_ioctl(0, MUX_UNBIND), 0, "0 unbind 0 = done");
    /* The end of file. */
    accepts(mux_inject("/dev/eth:1", 7, "w", 1), 1, "0 inject eth 1 7 77 = took 8");
    accepts(mux_hangup("/dev/eth:1"), 0, "0 hangup eth 1 = done");
    refuses(mux_hangup("/dev/eth:0"), ENXIO, "ENXIO minor");
    refuses(mux_write(1, "a", 1), ENXIO, "ENXIO hangup");
    accepts(mux_read(1, bytes, 9), 1, "0 read 1 = got 8 7 77");
    accepts(mux_read(1, bytes, 9), 0, "0 read 1 = eof");
    control.len = data.len = 7;
    accepts(mux_getmsg(1, &control, &data, &flags), 0, "0 read 1 = eof");
    wants(control.len == 0 && data.len == 0, 1, "the parts at the end of file");
    /* Other processes, whose descriptors are their own. */
    refuses(mux_process(64), EINVAL, "EINVAL process");
    accepts(mux_process(9), 0, mux_entry());
    accepts(mux_open("/dev/ip:0", O_RDWR), 0, "9 open ip 0 = fd 0 0");
    accepts(mux_write(0, "s", 1), 1, "9 write 0 0 73 = took 9");
    accepts(mux_ioctl(0, MUX_ADDRESS, 6), 0, mux_entry());
    accepts(mux_dup(0), 1, "9 dup 0 = fd 1 0");
    accepts(mux_write(1, "t", 1), 1, "9 write 1 6 74 = took 10");
    for (int fd = 2; fd < 16; fd++) wants(mux_dup(0), fd, "one more");
    refuses(mux_dup(0), EMFILE, "EMFILE");
    accepts(mux_exit(), 0, "9 exit = done");
    accepts(mux_open("/dev/ip:0", O_RDWR), 0, "9 open ip 0 = fd 0 0");
    accepts(mux_write(0, "u", 1), 1, "9 write 0 0 75 = took 11");
    accepts(mux_process(0), 0, mux_entry());
    not_open(7, "7");
    not_open(16, "16");
    not_open(-1, "4294967295");
    accepts(mux_exit(), 0, "0 exit = done");
    not_open(0, "0");
}

/* 1,024 links, and one more: sixteen drivers of 64 minors. */
static void full_link_table(void) {
    char programs[2048] = "programs 1\ndriver ip mux 1 8 3 16\n", path[16];
    for (int i = 0; i <= 16; i++) sprintf(programs + strlen(programs), "driver eth%d leaf 64 8 3 16\n", i);
    strcat(programs, "end\n");
    wants(mux_begin(programs, NULL), 0, "begin with many");
    int ip = mux_open("/dev/ip", O_RDWR);
    for (int i = 0; i <= 1024; i++) {
        snprintf(path, sizeof path, "/dev/eth%d", i / 64);
        int eth = mux_open(path, O_RDWR);
        if (i == 1024) refuses(mux_ioctl(ip, I_PLINK, eth), EAGAIN, "EAGAIN links");
        else wants(mux_ioctl(ip, I_PLINK, eth), i + 1, "a link");
        wants(mux_close(eth), 0, "close");
    }
    wants(mux_end(), 0, "end with many");
}

static void each(void) {
    without_a_session();
    wants(mux_begin("programs 2\n" TABLE "process 0\nclone ip\nend\n", stdout), 0, "begin");
    refuses(mux_begin("programs 2\nend\n", NULL), EBUSY, "there is a session already");
    paths();
    each_call();
    wants(mux_end(), 0, "end");
    refuses(mux_end(), ENODEV, "ENODEV session");
    full_link_table();
    wants(mux_begin("programs 1\n" TABLE "end\n", NULL), 0, "begin in version 1");
    not_open(0, "0");
    wants(mux_open("/dev/eth", O_RDWR), 0, "a new session");
    refuses(mux_hangup("/dev/eth:0"), ENOENT, "ENOENT path");
    wants(mux_end(), 0, "end in version 1");
    FILE *full = fopen("/dev/full", "w");
    if (full == NULL) return;
    wants(mux_begin("programs 1\nend\n", full), 0, "begin on a full device");
    refuses(mux_end(), EIO, "EIO transcript");
    fclose(full);
}

/* Works as a process of its own, and gets the replies to its own calls. Its number is that of its first reply. */
static void *works(void *data) {
    char wanted[64], bytes[4];
    struct strbuf room = part(4, 0, bytes);
    int flags = 0;
    wants(mux_exit(), 0, "first call");
    unsigned process = mux_reply()->process;
    for (int i = 0; i < 100; i++) {
        snprintf(wanted, sizeof wanted, "%u clone eth = fd 0 ", process);
        int fd = mux_open("/dev/eth", O_RDWR);
        wants(fd, 0, "open");
        wants(strncmp(mux_entry(), wanted, strlen(wanted)), 0, "the entry of another");
        char path[16];
        snprintf(path, sizeof path, "/dev/eth:%u", (unsigned)mux_reply()->minor);
        wants(mux_write(fd, "ab", 2), 2, "write");
        wants(mux_inject(path, 5, "cde", 3), 3, "inject");
        wants(mux_read(fd, bytes, 2), 2, "read");
        wants(mux_getmsg(fd, NULL, &room, &flags), 0, "getmsg");
        wants(bytes[0], 'e', "its rest");
        refuses(mux_read(fd, bytes, 2), EAGAIN, "EAGAIN empty");
        wants(mux_close(fd), 0, "close");
    }
    *(unsigned *)data = process;
    return NULL;
}

static void *first_call(void *data) {
    long *found = (long *)data;
    found[0] = mux_exit();
    found[1] = errno;
    found[2] = strcmp(mux_why(), "EAGAIN process") == 0;
    return NULL;
}

static void race(void) {
    pthread_t threads[8];
    unsigned numbers[8], seen = 0;
    wants(mux_begin("programs 2\ndriver eth leaf 16 8 3 16\nend\n", stdout), 0, "begin");
    for (int i = 0; i < 8; i++)
        if (pthread_create(&threads[i], NULL, works, &numbers[i]) != 0) exit(2);
    for (int i = 0; i < 8; i++) pthread_join(threads[i], NULL);
    for (int i = 0; i < 8; i++) seen |= 1u << numbers[i];
    wants((long)seen, 255, "the processes of the threads");
    for (int number = 8; number <= 64; number++) {
        long found[3];
        if (pthread_create(&threads[0], NULL, first_call, found) != 0) exit(2);
        pthread_join(threads[0], NULL);
        wants(found[0], number < 64 ? 0 : -1, "the first call of a thread");
        wants(number < 64 || (found[1] == EAGAIN && found[2]), 1, "no number is left");
    }
    wants(mux_end(), 0, "end");
}

/* Whether to make a call again, since an allocation failed. It is not made again if only its reply was lost. */
static int again(long result, int *is_lost) {
    int is_failed = result == -1 && errno == ENOMEM, is_entry = strcmp(mux_why(), "ENOMEM entry") == 0;
    if (is_failed && is_entry) *is_lost = 1;
    return is_failed && !is_entry;
}

#define AGAIN(result, call) do result = (long)(call); while (again(result, &is_lost))

/* Makes some calls; one of them meets the allocation that fails. Returns whether the reply of one was lost. */
static int makes_calls(void) {
    int is_lost = 0, flags = 0;
    long result, ip, eth, dup;
    char bytes[16];
    struct strbuf data = part(16, 0, bytes);
    AGAIN(result, mux_begin("programs 2\n" TABLE "end\n", stdout));
    wants(result, 0, "scarce: begin");
    AGAIN(ip, mux_open("/dev/ip", O_RDWR));
    if (ip < 0) ip = 0;
    AGAIN(eth, mux_open("/dev/eth", O_RDWR));
    if (eth < 0) eth = 1;
    AGAIN(dup, mux_dup((int)eth));
    AGAIN(result, mux_ioctl((int)ip, I_LINK, (int)eth));
    AGAIN(result, route((int)ip, 5, 1));
    AGAIN(result, mux_ioctl((int)ip, MUX_ADDRESS, 5));
    wants(result, 0, "scarce: the descriptor is open, even if its reply was lost");
    AGAIN(result, mux_ioctl((int)ip, MUX_BIND, 9));
    AGAIN(result, mux_write((int)ip, "abc", 3));
    wants(result == 3 || is_lost, 1, "scarce: write");
    AGAIN(result, mux_transmit("/dev/eth:0", NULL, bytes, 16));
    wants(result == 3 || is_lost, 1, "scarce: transmit");
    AGAIN(result, mux_inject("/dev/eth:0", 9, "defg", 4));
    AGAIN(result, mux_getmsg((int)ip, NULL, &data, &flags));
    wants((result == 0 && data.len == 4 && memcmp(bytes, "defg", 4) == 0) || is_lost, 1, "scarce: getmsg");
    AGAIN(result, mux_close((int)ip));
    AGAIN(result, mux_ioctl((int)ip, MUX_ADDRESS, 5));
    refuses(result, EBADF, "EBADF fd");
    AGAIN(result, mux_exit());
    AGAIN(result, mux_end());
    wants(result, 0, "scarce: end");
    return is_lost;
}

static void scarce(void) {
    int lost = 0;
    do {
        refused++;
        asked = 0;
        mux_process(0);
        lost += makes_calls();
    } while (asked >= refused);
    fprintf(stderr, "%d allocations, %d lost replies\n", (int)refused - 1, lost);
}

/* Whether the result and errno are those of the reply. */
static void tells(long result, long bytes) {
    const struct muxsim_reply *reply = mux_reply();
    int seen = errno;
    switch (reply->kind) {
    case MUXSIM_FD: wants(result, (long)reply->fd, "a descriptor"); break;
    case MUXSIM_ID: wants(result, (long)reply->id, "a link"); break;
    case MUXSIM_TOOK: wants(result, bytes, "a message that was accepted"); break;
    case MUXSIM_GOT: wants(result, bytes < 0 ? (long)reply->count : bytes, "a message"); break;
    case MUXSIM_REFUSED:
        wants(result, -1, "a refusal");
        wants(seen, reply->error, "its errno");
        break;
    default: wants(result, 0, "0");
    }
}

static const char *device(const char *name, const char *minor) {
    static char path[64];
    snprintf(path, sizeof path, minor == NULL ? "/dev/%s" : "/dev/%s:%s", name, minor == NULL ? "" : minor);
    return path;
}

static size_t unhex(const char *word, uint8_t *bytes) {
    size_t count = strcmp(word, "-") == 0 ? 0 : strlen(word) / 2;
    for (size_t i = 0; i < count; i++) {
        unsigned value;
        if (sscanf(word + 2 * i, "%2x", &value) != 1) exit(2);
        bytes[i] = (uint8_t)value;
    }
    return count;
}

/* Performs one line. Every other message goes by putmsg and getmsg. */
static void perform_line(char *line, int is_odd) {
    char *words[8] = {NULL};
    uint8_t bytes[4096];
    size_t count = 0;
    int number = 0;
    for (char *word = strtok(line, " \n"); word != NULL && number < 8; word = strtok(NULL, " \n"))
        words[number++] = word;
    const char *command = words[1];
    int fd = number > 2 ? atoi(words[2]) : 0;
    uint32_t value = number > 3 ? (uint32_t)strtoul(words[3], NULL, 10) : 0;
    int which = number > 3 && strcmp(words[3], "all") == 0 ? MUXID_ALL : (int)value;
    wants(mux_process((unsigned)atoi(words[0])), 0, "process");
    if (strcmp(command, "clone") == 0) tells(mux_open(device(words[2], NULL), O_RDWR), 0);
    else if (strcmp(command, "open") == 0) tells(mux_open(device(words[2], words[3]), O_RDWR), 0);
    else if (strcmp(command, "dup") == 0) tells(mux_dup(fd), 0);
    else if (strcmp(command, "close") == 0) tells(mux_close(fd), 0);
    else if (strcmp(command, "exit") == 0) tells(mux_exit(), 0);
    else if (strcmp(command, "link") == 0) tells(mux_ioctl(fd, I_LINK, (int)value), 0);
    else if (strcmp(command, "plink") == 0) tells(mux_ioctl(fd, I_PLINK, (int)value), 0);
    else if (strcmp(command, "unlink") == 0) tells(mux_ioctl(fd, I_UNLINK, which), 0);
    else if (strcmp(command, "punlink") == 0) tells(mux_ioctl(fd, I_PUNLINK, which), 0);
    else if (strcmp(command, "bind") == 0) tells(mux_ioctl(fd, MUX_BIND, value), 0);
    else if (strcmp(command, "unbind") == 0) tells(mux_ioctl(fd, MUX_UNBIND), 0);
    else if (strcmp(command, "route") == 0) tells(route(fd, value, atoi(words[4])), 0);
    else if (strcmp(command, "unroute") == 0) tells(mux_ioctl(fd, MUX_UNROUTE, value), 0);
    else if (strcmp(command, "flush") == 0)
        tells(mux_ioctl(fd, I_FLUSH, strcmp(words[3], "rw") == 0 ? FLUSHRW : words[3][0] == 'r' ? FLUSHR : FLUSHW), 0);
    else if (strcmp(command, "write") == 0) {
        count = unhex(words[4], bytes);
        struct strbuf control = part(4, 4, &value), data = part((int)count, (int)count, bytes);
        if (is_odd) tells(mux_putmsg(fd, &control, &data, 0), 0);
        else if (mux_ioctl(fd, MUX_ADDRESS, value) == 0 || value == 0) tells(mux_write(fd, bytes, count), (long)count);
        else tells(mux_putmsg(fd, &control, &data, 0), 0);
    } else if (strcmp(command, "read") == 0) {
        int flags = 0;
        struct strbuf data = part(sizeof bytes, 0, bytes);
        if (is_odd) tells(mux_getmsg(fd, NULL, &data, &flags), 0);
        else tells(mux_read(fd, bytes, sizeof bytes), -1);
    } else if (strcmp(command, "inject") == 0) {
        count = unhex(words[5], bytes);
        tells(mux_inject(device(words[2], words[3]), (uint32_t)strtoul(words[4], NULL, 10), bytes, count), (long)count);
    } else if (strcmp(command, "transmit") == 0) tells(mux_transmit(device(words[2], words[3]), NULL, bytes, 1), -1);
    else if (strcmp(command, "hangup") == 0) tells(mux_hangup(device(words[2], words[3])), 0);
    else exit(2);
    puts(mux_entry());
}

static void perform_lines(const char *name) {
    static char text[1 << 16], line[1 << 14];
    FILE *table = fopen(name, "rb");
    if (table == NULL) exit(2);
    text[fread(text, 1, sizeof text - 1, table)] = 0;
    fclose(table);
    wants(mux_begin(text, NULL), 0, "begin");
    for (int number = 0; fgets(line, sizeof line, stdin) != NULL; number++) perform_line(line, number % 2);
    wants(mux_end(), 0, "end");
}

int main(int argc, char **argv) {
    const char *how = argc > 1 ? argv[1] : "";
    if (argc == 2 && strcmp(how, "each") == 0) each();
    else if (argc == 2 && strcmp(how, "race") == 0) race();
    else if (argc == 2 && strcmp(how, "scarce") == 0) scarce();
    else if (argc == 3 && strcmp(how, "perform") == 0) perform_lines(argv[2]);
    else return 2;
    return 0;
}
