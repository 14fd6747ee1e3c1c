// usage: stack PROGRAMS [leave|unlocked|scarce|race]   performs the commands of a programs text by the library, and
// writes their transcript
//
// Before that, each call is made where it has to answer another code than 0, and the words of refused texts are asked
// for. Two threads share the session, and each performs every other command. With `leave` the session is not closed.
// With `unlocked` they go past the session's lock, by turns that a sanitizer of threads can't see. With `scarce` one
// thread performs them, once for each growth, which is refused: the call says so, and is made again, and the
// transcript has to be the same; so have the words of refused texts. With `race` nothing is written: eight threads
// perform commands at once, and each has to get the replies to its own; then one performs more than a transcript may
// have. The status is 1 where a call answers what it shouldn't.
#include <pthread.h>
#include <sched.h>
#include <stdatomic.h>
#include <stdbool.h>
#include <stdio.h>
#include <stdlib.h>
#include <string.h>

#include "muxsim.h"

enum { ROOM = 1 << 20 };

static char input[ROOM];
static char transcripts[2][ROOM];

// The number of the allocation that fails, from 1 on, or 0 for none; and the number of allocations so far. The program
// is linked so that malloc and realloc are the two below.
static size_t refused;
static size_t asked;

void *__real_malloc(size_t size);
void *__real_realloc(void *block, size_t size);

void *__wrap_malloc(size_t size) {
    return refused != 0 && ++asked == refused ? NULL : __real_malloc(size);
}

void *__wrap_realloc(void *block, size_t size) {
    return refused != 0 && ++asked == refused ? NULL : __real_realloc(block, size);
}

static void wants(int32_t code, int32_t wanted, const char *what) {
    if (code != wanted) {
        fprintf(stderr, "%s: %d in place of %d\n", what, (int)code, (int)wanted);
        exit(1);
    }
}

static void wants_text(const struct muxsim_text *text, const char *wanted, const char *what) {
    if (text->len != strlen(wanted) || memcmp(text->bytes, wanted, text->len) != 0) {
        fprintf(stderr, "%s: '%.*s' in place of '%s'\n", what, (int)text->len, (const char *)text->bytes, wanted);
        exit(1);
    }
}

static int32_t open_with(struct muxsim *shared, const char *programs, struct muxsim_text *text) {
    return muxsim_open(shared, programs, strlen(programs), text);
}

static int32_t perform(struct muxsim *shared, const char *line, struct muxsim_text *text) {
    return muxsim_perform(shared, line, strlen(line), text);
}

// Texts of which there is no session, and why.
static const struct refusal {
    const char *programs;
    int32_t code;
    const char *words;
} refusals[] = {
    {"", MUXSIM_TEXT, "line 1: cut"},
    {"programs 3\nend\n", MUXSIM_TEXT, "line 1: header"},
    {"programs 1\nend", MUXSIM_TEXT, "line 2: cut"},
    {"programs 1\ndriver ip mux\nend\n", MUXSIM_TEXT, "line 2: form"},
    {"programs 1\nclone ip\nend\n", MUXSIM_TEXT, "line 2: form"},
    {"programs 1\nend\n\n", MUXSIM_TEXT, "line 3: trailing"},
    {"programs 1\ndriver ip mux 4 8 8 16\nend\n", MUXSIM_DRIVERS, "driver 0 marks"},
    {"programs 1\ndriver ip mux 4 8 3 16\ndriver eth leaf 0 8 3 16\nend\n", MUXSIM_DRIVERS, "driver 1 minors"},
    {"programs 2\ndriver ip mux 4 8 3 0\nend\n", MUXSIM_DRIVERS, "driver 0 max"},
    {"programs 1\ndriver ip mux 4 8 3 16\ndriver ip leaf 1 8 3 16\nend\n", MUXSIM_DRIVERS, "driver 1 same name"},
};

// The calls that threads share, each where it answers another code.
static void other_codes(void) {
    static struct muxsim shared = MUXSIM_CLOSED_SESSION;
    struct muxsim_text text = {0};
    wants(perform(&shared, "0 exit", &text), MUXSIM_CLOSED, "closed: perform");
    wants(muxsim_entry(&shared, &text), MUXSIM_CLOSED, "closed: entry");
    wants(muxsim_show(&shared, &text), MUXSIM_CLOSED, "closed: show");
    wants(muxsim_close(&shared), MUXSIM_CLOSED, "closed: close");
    for (size_t i = 0; i < sizeof refusals / sizeof *refusals; i++) {
        wants(open_with(&shared, refusals[i].programs, &text), refusals[i].code, refusals[i].programs);
        wants_text(&text, refusals[i].words, refusals[i].programs);
    }
    wants(muxsim_close(&shared), MUXSIM_CLOSED, "not opened: close");
    wants(open_with(&shared, "programs 1\ndriver ip mux 4 8 3 16\nend\n", &text), MUXSIM_DONE, "open");
    wants_text(&text, "", "no words of a session");
    wants(open_with(&shared, "programs 1\nend\n", &text), MUXSIM_IS_OPEN, "open again");
    wants(open_with(&shared, "", &text), MUXSIM_IS_OPEN, "open again, with a text that is none");
    wants_text(&text, "", "no words of another one");
    wants(muxsim_entry(&shared, &text), MUXSIM_NO_ENTRY, "no entry");
    const char *lines[] = {"", "clone ip", "64 clone ip", "0 clone", "0  clone ip", "0 clone ip\n", "0 hangup ip 0",
                           "0 clone ip = fd 0 0", "0 clone ip = done", "00 exit", "0 write 0 5 a",
                           "0 inject ip 0 5 -0"};
    for (size_t i = 0; i < sizeof lines / sizeof *lines; i++)
        wants(perform(&shared, lines[i], &text), MUXSIM_LINE, lines[i]);
    // The same whatever memory there is: each time the first growth would be refused.
    for (size_t i = 0; i < sizeof lines / sizeof *lines; i++) {
        refused = 1, asked = 0;
        wants(perform(&shared, lines[i], &text), MUXSIM_LINE, lines[i]);
    }
    refused = 1, asked = 0;
    wants(muxsim_entry(&shared, &text), MUXSIM_NO_ENTRY, "no entry, and no memory");
    refused = 0;
    wants(muxsim_show(&shared, &text), MUXSIM_DONE, "show nothing");
    wants_text(&text, "config\nnext 1 1\n", "nothing has changed");
    wants(perform(&shared, "0 clone ip", &text), MUXSIM_DONE, "perform");
    wants_text(&text, "0 clone ip = fd 0 0\n", "the entry of the command");
    wants(muxsim_entry(&shared, &text), MUXSIM_DONE, "entry");
    wants_text(&text, "0 clone ip = fd 0 0\n", "the entry again");
    wants(muxsim_show(&shared, &text), MUXSIM_DONE, "show");
    wants_text(&text, "config\nnext 1 1\nfd 0 0 ip 0\n", "the lines");
    wants(muxsim_close(&shared), MUXSIM_DONE, "close");
    wants(muxsim_close(&shared), MUXSIM_CLOSED, "close again");
    wants(open_with(&shared, "programs 2\ndriver eth leaf 1 8 3 16\nend\n", &text), MUXSIM_DONE, "open another");
    wants(perform(&shared, "0 hangup eth 0", &text), MUXSIM_DONE, "a command of version 2");
    wants_text(&text, "0 hangup eth 0 = ENXIO minor\n", "its entry");
    wants(muxsim_close(&shared), MUXSIM_DONE, "close another");
    free(text.bytes);
}

// The library's own calls, with buffers of all lengths.
static void buffers(void) {
    struct muxsim_session session = {NULL};
    const char *programs = "programs 1\ndriver ip mux 4 8 3 16\nend\n";
    const char *line = "63 clone ip", *entry = "63 clone ip = fd 0 0\n";
    uint8_t text[32];
    size_t len = 0;
    wants(muxsim_session_open(&session, (const uint8_t *)programs, strlen(programs)), MUXSIM_DONE, "open");
    wants(session.at != NULL, 1, "a session");
    wants(muxsim_session_perform(&session, (const uint8_t *)line, strlen(line)), MUXSIM_DONE, "perform");
    for (size_t room = 0; room <= sizeof text; room++) {
        memset(text, '.', sizeof text);
        wants(muxsim_session_entry(&session, text, room, &len), room < 21 ? MUXSIM_NO_ROOM : MUXSIM_DONE, "a buffer");
        wants(len == 21, 1, "the length of the entry");
        for (size_t i = 0; i < sizeof text; i++)
            wants(text[i], room >= 21 && i < 21 ? entry[i] : '.', "a byte of a buffer");
    }
    wants(muxsim_session_show(&session, text, 28, &len), MUXSIM_NO_ROOM, "no room for the lines");
    wants(len == 29, 1, "the length of the lines");
    wants(muxsim_session_show(&session, text, 29, &len), MUXSIM_DONE, "the lines");
    wants(memcmp(text, "config\nnext 1 1\nfd 63 0 ip 0\n", 29) == 0, 1, "the bytes of the lines");
    wants(muxsim_session_close(&session), MUXSIM_DONE, "close");
    wants(session.at == NULL, 1, "no session");
}

// The words of why there is no session, by themselves, with buffers of all lengths.
static void reasons(void) {
    const char *fine = "programs 1\ndriver ip mux 4 8 3 16\nend\n";
    struct muxsim_text words = {0};
    uint8_t text[32];
    size_t len = 7;
    for (size_t i = 0; i < sizeof refusals / sizeof *refusals; i++) {
        const struct refusal *refusal = &refusals[i];
        size_t wanted = strlen(refusal->words);
        for (size_t room = 0; room <= sizeof text; room++) {
            memset(text, '.', sizeof text);
            wants(muxsim_session_why((const uint8_t *)refusal->programs, strlen(refusal->programs), text, room, &len),
                  room < wanted ? MUXSIM_NO_ROOM : MUXSIM_DONE, refusal->words);
            wants(len == wanted, 1, "the length of the words");
            for (size_t j = 0; j < sizeof text; j++)
                wants(text[j], room >= wanted && j < wanted ? refusal->words[j] : '.', "a byte of the words");
        }
        wants(muxsim_why(refusal->programs, strlen(refusal->programs), &words), MUXSIM_DONE, "why");
        wants_text(&words, refusal->words, refusal->programs);
    }
    memset(text, '.', sizeof text);
    wants(muxsim_session_why((const uint8_t *)fine, strlen(fine), text, 0, &len), MUXSIM_DONE, "no words");
    wants(len == 0 && text[0] == '.', 1, "no byte of a text that is fine");
    wants(muxsim_why(fine, strlen(fine), &words), MUXSIM_DONE, "why not");
    wants_text(&words, "", "no words of a text that is fine");
    free(words.bytes);
}

// Sessions on the heap, which end while they have a session and while they have none.
static void on_the_heap(void) {
    struct muxsim *shared = malloc(sizeof *shared);
    struct muxsim_text text = {0};
    if (shared == NULL) exit(2);
    memset(shared, 0xff, sizeof *shared);
    wants(muxsim_init(shared), MUXSIM_DONE, "init");
    wants(muxsim_show(shared, &text), MUXSIM_CLOSED, "made: show");
    wants(muxsim_destroy(shared), MUXSIM_DONE, "destroy without a session");
    wants(muxsim_init(shared), MUXSIM_DONE, "init again");
    wants(open_with(shared, "programs 1\ndriver ip mux 4 8 3 16\nend\n", &text), MUXSIM_DONE, "made: open");
    wants(perform(shared, "0 clone ip", &text), MUXSIM_DONE, "made: perform");
    wants_text(&text, "0 clone ip = fd 0 0\n", "made: the entry");
    wants(muxsim_destroy(shared), MUXSIM_DONE, "destroy");
    free(text.bytes);
    free(shared);
}

// Entries as structs, the words for codes, and an opaque session.
static void replies(void) {
    static const struct {
        const char *entry;
        struct muxsim_reply reply;
    } entries[] = {
        {"0 clone ip = fd 15 63\n", {.kind = MUXSIM_FD, .fd = 15, .minor = 63}},
        {"63 link 0 1 = id 4294967294\n", {.kind = MUXSIM_ID, .process = 63, .id = 4294967294}},
        {"0 write 0 5 aa = took 7\n", {.kind = MUXSIM_TOOK, .serial = 7}},
        {"1 read 0 = got 7 4294967295 00ff10\n",
         {.kind = MUXSIM_GOT, .process = 1, .serial = 7, .address = 4294967295, .count = 3}},
        {"0 exit = done\n", {.kind = MUXSIM_OK}},
        {"0 exit = done 1 4294967294\n", {.kind = MUXSIM_OK, .count = 2}},
        {"0 read 0 = eof\n", {.kind = MUXSIM_EOF}},
        {"0 close 0 = EBADF fd\n", {.kind = MUXSIM_REFUSED, .error = EBADF, .cause = "fd"}},
        {"0 unroute 0 5 = EINVAL unrouted\n", {.kind = MUXSIM_REFUSED, .error = EINVAL, .cause = "unrouted"}},
        {"0 read 0 = EAGAIN empty\n", {.kind = MUXSIM_REFUSED, .error = EAGAIN, .cause = "empty"}},
        {"0 clone x = ENXIO driver\n", {.kind = MUXSIM_REFUSED, .error = ENXIO, .cause = "driver"}},
        {"0 dup 0 = EMFILE\n", {.kind = MUXSIM_REFUSED, .error = EMFILE}},
        {"0 bind 0 9 = EADDRINUSE\n", {.kind = MUXSIM_REFUSED, .error = EADDRINUSE}},
        {"0 write 0 5 - = ERANGE\n", {.kind = MUXSIM_REFUSED, .error = ERANGE}},
    };
    const char *others[] = {"", "0", "0 exit", "0 exit =", "0 exit = ", "0 exit = do", "0 exit = well\n", "=", "= fd"};
    struct muxsim_text text = {0};
    struct muxsim_reply reply;
    wants(muxsim_read_reply(&text, &reply), MUXSIM_LINE, "an empty text");
    for (size_t i = 0; i < sizeof entries / sizeof *entries; i++) {
        const struct muxsim_reply *wanted = &entries[i].reply;
        wants(muxsim_text_grow(&text, 64), MUXSIM_DONE, "grow");
        text.len = strlen(entries[i].entry);
        memcpy(text.bytes, entries[i].entry, text.len);
        wants(muxsim_read_reply(&text, &reply), MUXSIM_DONE, entries[i].entry);
        wants(reply.kind == wanted->kind && reply.error == wanted->error && strcmp(reply.cause, wanted->cause) == 0 &&
                  reply.process == wanted->process && reply.fd == wanted->fd && reply.minor == wanted->minor &&
                  reply.id == wanted->id && reply.serial == wanted->serial && reply.address == wanted->address &&
                  reply.count == wanted->count,
              1, entries[i].entry);
        uint8_t bytes[3] = {0};
        uint32_t serials[2] = {1, 4294967294};
        if (reply.kind == MUXSIM_GOT) muxsim_reply_bytes(&reply, bytes);
        wants(memcmp(bytes, reply.kind == MUXSIM_GOT ? "\0\377\20" : "\0\0\0", 3) == 0, 1, "the bytes of a message");
        if (reply.kind == MUXSIM_OK) muxsim_reply_dropped(&reply, serials);
        wants(serials[0] == 1 && serials[1] == 4294967294, 1, "the serials of dropped messages");
    }
    for (size_t i = 0; i < sizeof others / sizeof *others; i++) {
        muxsim_text_free(&text);
        wants(text.bytes == NULL && text.room == 0 && text.len == 0, 1, "a text that was freed");
        text.len = text.room = strlen(others[i]);
        text.bytes = malloc(text.room > 0 ? text.room : 1);
        if (text.bytes == NULL) exit(2);
        memcpy(text.bytes, others[i], text.len);
        wants(muxsim_read_reply(&text, &reply), MUXSIM_LINE, others[i]);
    }
    muxsim_text_free(&text);
    wants(strcmp(muxsim_strerror(MUXSIM_DONE), "done"), 0, "the words of a code");
    wants(strcmp(muxsim_strerror(MUXSIM_NO_LINE), "performed, but out of memory for its line"), 0, "the last code");
    wants(strcmp(muxsim_strerror(MUXSIM_NO_LINE + 1), "unknown code"), 0, "above the last code");
    wants(strcmp(muxsim_strerror(-1), "unknown code"), 0, "below the first code");
    struct muxsim *shared = muxsim_new();
    wants(shared != NULL, 1, "new");
    wants(open_with(shared, "programs 1\nend\n", &text), MUXSIM_DONE, "new: open");
    wants(muxsim_free(shared), MUXSIM_DONE, "free");
    wants(muxsim_free(NULL), MUXSIM_DONE, "free nothing");
    refused = 1, asked = 0;
    wants(muxsim_new() == NULL, 1, "new without memory");
    refused = 0;
    free(text.bytes);
}

struct work {
    struct muxsim shared;
    bool is_locked;
    char *lines[65536];
    size_t count;
    atomic_size_t next;
};

struct worker {
    struct work *work;
    size_t number;
};

// Performs a command, and writes its entry.
static void do_next(struct work *work, size_t number, struct muxsim_text *text) {
    const char *line = work->lines[number];
    if (work->is_locked) {
        wants(perform(&work->shared, line, text), MUXSIM_DONE, line);
    } else {
        struct muxsim_session *session = &work->shared.session;
        wants(muxsim_session_perform(session, (const uint8_t *)line, strlen(line)), MUXSIM_DONE, line);
        wants(muxsim_text_fill(text, session, muxsim_session_entry), MUXSIM_DONE, line);
    }
    fwrite(text->bytes, 1, text->len, stdout);
}

// Performs every other command, each after the one before it was performed. A number says so, which orders nothing
// else: only the lock orders what threads see of the session.
static void *by_turns(void *data) {
    struct worker *worker = data;
    struct work *work = worker->work;
    struct muxsim_text text = {0};
    for (size_t number = worker->number; number < work->count; number += 2) {
        while (atomic_load_explicit(&work->next, memory_order_relaxed) != number) sched_yield();
        do_next(work, number, &text);
        atomic_store_explicit(&work->next, number + 1, memory_order_relaxed);
    }
    free(text.bytes);
    return NULL;
}

// Performs commands of a process of its own, 400 in all, and looks at each reply; in between it looks at the whole.
static void *at_once(void *data) {
    struct worker *worker = data;
    struct muxsim *shared = &worker->work->shared;
    struct muxsim_text text = {0};
    char line[64], wanted[64];
    const char *commands[] = {"clone eth", "write 0 5 c0ffee", "flush 0 w", "close 0"};
    for (size_t i = 0; i < 400; i++) {
        snprintf(line, sizeof line, "%u %s", (unsigned)worker->number, commands[i % 4]);
        int length = snprintf(wanted, sizeof wanted, "%s = ", line);
        wants(perform(shared, line, &text), MUXSIM_DONE, line);
        wants(text.len > (size_t)length && memcmp(text.bytes, wanted, length) == 0, 1, "the reply to another");
        wants(text.bytes[length] != 'E', 1, "a refusal");
        if (i % 8 == 0) wants(muxsim_show(shared, &text), MUXSIM_DONE, "show");
    }
    free(text.bytes);
    return NULL;
}

// Performs more commands than a transcript has entries: a session has no limit of them.
static void on_and_on(struct muxsim *shared) {
    struct muxsim_text text = {0};
    for (size_t i = 0; i <= 100000; i++) wants(perform(shared, "9 exit", &text), MUXSIM_DONE, "one more");
    wants_text(&text, "9 exit = done\n", "the last entry");
    free(text.bytes);
}

static void on_threads(void *each(void *), struct work *work, size_t count) {
    struct worker workers[8];
    pthread_t threads[8];
    for (size_t i = 0; i < count; i++) {
        workers[i] = (struct worker){work, i};
        if (pthread_create(&threads[i], NULL, each, &workers[i]) != 0) exit(2);
    }
    for (size_t i = 0; i < count; i++) pthread_join(threads[i], NULL);
}

// The lines `PROCESS COMMAND` of a programs text, whose header and driver lines are written as those of a transcript.
static void read_lines(struct work *work, char *programs) {
    unsigned process = 0;
    for (char *line = strtok(programs, "\n"); line != NULL; line = strtok(NULL, "\n")) {
        if (sscanf(line, "process %u", &process) == 1 || strcmp(line, "end") == 0) continue;
        if (strncmp(line, "programs ", 9) == 0) {
            printf("transcript %s\n", line + 9);
        } else if (strncmp(line, "driver ", 7) == 0) {
            printf("%s\n", line);
        } else {
            char *copy = malloc(strlen(line) + 16);
            if (copy == NULL || work->count == sizeof work->lines / sizeof *work->lines) exit(2);
            sprintf(copy, "%u %s", process, line);
            work->lines[work->count++] = copy;
        }
    }
}

static void performs_all(struct work *work) {
    struct muxsim_text text = {0};
    read_lines(work, input);
    on_threads(by_turns, work, 2);
    wants(muxsim_show(&work->shared, &text), MUXSIM_DONE, "show");
    printf("%.*send\n", (int)text.len, (const char *)text.bytes);
    free(text.bytes);
    for (size_t i = 0; i < work->count; i++) free(work->lines[i]);
}

// Behind the bytes of a transcript so far.
static size_t append(char *transcript, size_t at, const struct muxsim_text *text) {
    if (ROOM - at < text->len) exit(2);
    memcpy(transcript + at, text->bytes, text->len);
    return at + text->len;
}

// Entries and configuration, where this growth is refused. A call that says so is made again.
static size_t performs_scarce(struct work *work, size_t len, size_t number, char *transcript) {
    struct muxsim_text text = {0};
    size_t at = 0;
    int32_t code;
    asked = 0;
    refused = number;
    while ((code = muxsim_open(&work->shared, input, len, &text)) == MUXSIM_NO_MEMORY) continue;
    wants(code, MUXSIM_DONE, "open");
    for (size_t i = 0; i < work->count; i++) {
        while ((code = perform(&work->shared, work->lines[i], &text)) == MUXSIM_NO_MEMORY) continue;
        if (code == MUXSIM_NO_LINE) code = muxsim_entry(&work->shared, &text);
        wants(code, MUXSIM_DONE, work->lines[i]);
        at = append(transcript, at, &text);
    }
    while ((code = muxsim_show(&work->shared, &text)) == MUXSIM_NO_MEMORY) continue;
    wants(code, MUXSIM_DONE, "show");
    refused = 0;
    wants(muxsim_close(&work->shared), MUXSIM_DONE, "close");
    at = append(transcript, at, &text);
    free(text.bytes);
    return at;
}

// Asks why there is no session, with each allocation failing in turn. If only the allocation for the words fails, the
// code is the same, and they are asked for again.
static void reasons_scarce(struct work *work) {
    size_t wordless = 0;
    for (size_t i = 0; i < sizeof refusals / sizeof *refusals; i++) {
        const struct refusal *refusal = &refusals[i];
        size_t number = 0;
        do {
            struct muxsim_text text = {0};
            int32_t code;
            asked = 0;
            refused = ++number;
            while ((code = open_with(&work->shared, refusal->programs, &text)) == MUXSIM_NO_MEMORY)
                wants_text(&text, "", "no words of want of memory");
            wants(code, refusal->code, refusal->programs);
            if (text.len == 0) {
                wordless++;
                wants(muxsim_why(refusal->programs, strlen(refusal->programs), &text), MUXSIM_DONE, "why");
            }
            wants_text(&text, refusal->words, refusal->programs);
            refused = 0;
            free(text.bytes);
        } while (asked >= number);
    }
    wants(wordless > 0, 1, "words without a growth");
}

static void performs_each_scarce(struct work *work, size_t len) {
    static char programs[ROOM];
    memcpy(programs, input, sizeof programs);
    read_lines(work, programs);
    size_t number = 0, length = performs_scarce(work, len, 0, transcripts[0]);
    do {
        number++;
        size_t other = performs_scarce(work, len, number, transcripts[1]);
        wants(other == length && memcmp(transcripts[0], transcripts[1], length) == 0, 1, "another transcript");
    } while (asked >= number);
    wants(number > 100, 1, "so few growths");
    printf("%.*send\n", (int)length, transcripts[0]);
    for (size_t i = 0; i < work->count; i++) free(work->lines[i]);
}

int main(int argc, char **argv) {
    static struct work work = {.shared = MUXSIM_CLOSED_SESSION};
    FILE *file = argc == 2 || argc == 3 ? fopen(argv[1], "rb") : NULL;
    if (file == NULL) return 2;
    size_t len = fread(input, 1, sizeof input - 1, file);
    fclose(file);
    const char *how = argc == 3 ? argv[2] : "";
    work.is_locked = strcmp(how, "unlocked") != 0;
    other_codes();
    buffers();
    reasons();
    on_the_heap();
    replies();
    if (strcmp(how, "scarce") == 0) {
        reasons_scarce(&work);
        performs_each_scarce(&work, len);
        return 0;
    }
    struct muxsim_text text = {0};
    wants(muxsim_open(&work.shared, input, len, &text), MUXSIM_DONE, "open");
    free(text.bytes);
    if (strcmp(how, "race") == 0) {
        on_threads(at_once, &work, 8);
        on_and_on(&work.shared);
    } else {
        performs_all(&work);
    }
    if (strcmp(how, "leave") != 0) wants(muxsim_close(&work.shared), MUXSIM_DONE, "close");
    work.shared.session.at = NULL;
    return 0;
}
