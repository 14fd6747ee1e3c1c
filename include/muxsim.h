/* muxsim as a library for C: a configuration that performs one command after the other, for any number of threads. The
 * header is C99, and also compiles as C++. muxsim/stropts.h beside it has the calls of STREAMS over it.
 *
 *     static struct muxsim shared = MUXSIM_CLOSED_SESSION;
 *     struct muxsim_text text = {0};
 *     if (muxsim_open(&shared, "programs 1\ndriver ip mux 4 8 3 16\nend\n", 38, &text) == MUXSIM_DONE) {
 *         muxsim_perform(&shared, "0 clone ip", 10, &text);
 *         fwrite(text.bytes, 1, text.len, stdout);             // 0 clone ip = fd 0 0
 *         muxsim_close(&shared);
 *     } else {
 *         fwrite(text.bytes, 1, text.len, stderr);             // the reason why it is refused
 *     }
 *     muxsim_text_free(&text);
 *
 * Each call returns a code, and none aborts. Link libmuxsim.a, which ./install installs, and POSIX threads: the words
 * are those of `pkg-config --cflags --libs --static muxsim`. Without it, link libmuxsim_c.a, which `rt lib` makes in
 * crates/muxsim_c/out, and the kit's c/liblibc_c.a; crates/muxsim_c/README.md has the line.
 *
 * Threads may share a session: each call uses it only under the session's lock. Sessions are independent of each other.
 * Don't copy or move a session, since its lock can't be copied. `muxsim_init` makes one on the heap, or wherever it is,
 * and `muxsim_destroy` ends it. Each thread needs texts of its own. Pointers to a session, a text or bytes must not be
 * null, not even if a length is 0.
 *
 * These are the codes that each call can return, without their prefix MUXSIM_. Each can return DONE.
 *
 *     muxsim_init               NO_LOCK
 *     muxsim_open               NO_LOCK  IS_OPEN  NO_MEMORY  TEXT  DRIVERS
 *     muxsim_why                                  NO_MEMORY
 *     muxsim_perform            NO_LOCK  CLOSED   NO_MEMORY  LINE  NO_LINE
 *     muxsim_entry              NO_LOCK  CLOSED   NO_MEMORY  NO_ENTRY
 *     muxsim_show               NO_LOCK  CLOSED   NO_MEMORY
 *     muxsim_close              NO_LOCK  CLOSED
 *     muxsim_destroy            NO_LOCK
 *
 *     muxsim_session_open                IS_OPEN  NO_MEMORY  TEXT  DRIVERS
 *     muxsim_session_why                          NO_MEMORY  NO_ROOM
 *     muxsim_session_perform             CLOSED   NO_MEMORY  LINE
 *     muxsim_session_entry               CLOSED   NO_MEMORY  NO_ENTRY  NO_ROOM
 *     muxsim_session_show                CLOSED   NO_MEMORY  NO_ROOM
 *     muxsim_session_close               CLOSED */
#ifndef MUXSIM_H
#define MUXSIM_H

#include <errno.h>
#include <pthread.h>
#include <stddef.h>
#include <stdint.h>
#include <stdlib.h>
#include <string.h>

#define MUXSIM_VERSION "0.1.0"

#ifdef __cplusplus
extern "C" {
#endif

enum {
    MUXSIM_DONE = 0,
    MUXSIM_NO_MEMORY = 1, /* an allocation failed */
    MUXSIM_TEXT = 2,      /* the bytes are not a programs text */
    MUXSIM_DRIVERS = 3,   /* the drivers are not valid */
    MUXSIM_LINE = 4,      /* the line is not a process with a command */
    MUXSIM_NO_ENTRY = 5,  /* no command was performed yet */
    MUXSIM_NO_ROOM = 6,   /* the text is longer than the buffer, which is unchanged; its length is written */
    MUXSIM_CLOSED = 7,    /* there is no session */
    MUXSIM_IS_OPEN = 8,   /* there is a session already */
    MUXSIM_NO_LOCK = 9,   /* the lock can't be made, taken or destroyed */
    MUXSIM_NO_LINE = 10   /* the command was performed, but an allocation for its line failed */
};

/* Returns what a code means, such as "out of memory". */
static inline const char *muxsim_strerror(int32_t code) {
    static const char *const words[] = {
        "done", "out of memory", "not a programs text", "invalid drivers", "not a process with a command", "no entry",
        "the buffer is too short", "no session", "there is a session already", "locking failed",
        "performed, but out of memory for its line"};
    return code >= 0 && (size_t)code < sizeof words / sizeof *words ? words[code] : "unknown code";
}

/* The library's own handle: a session, or null. The calls with this handle are proved. They take no lock, so make only
 * one at a time for each session. If the code isn't MUXSIM_DONE, the session is unchanged. */
struct muxsim_session {
    uint8_t *at;
};

/* Makes a session in which nothing is open, over the drivers of a programs text of `len` bytes, whose programs aren't
 * run. If there is a session already, the code is MUXSIM_IS_OPEN. With MUXSIM_TEXT, MUXSIM_DRIVERS and MUXSIM_NO_MEMORY
 * there is no session. */
int32_t muxsim_session_open(struct muxsim_session *session, const uint8_t *programs, size_t len);

/* Writes the reason why muxsim_session_open refuses this text, such as "line 2: form" or "driver 0 marks", without a
 * line feed and without a 0 after it. If muxsim_session_open makes a session of the text, it writes no byte. It needs
 * no session. The reason is written to the beginning of `text`, which has room for `room` bytes and is otherwise
 * unchanged, and its length to `text_len`. With MUXSIM_NO_ROOM only the length is written. With MUXSIM_NO_MEMORY
 * nothing is written. */
int32_t muxsim_session_why(const uint8_t *programs, size_t len, uint8_t *text, size_t room, size_t *text_len);

/* Performs the command of a line of `len` bytes, such as "0 clone ip", which has no line feed. With MUXSIM_LINE,
 * MUXSIM_CLOSED and MUXSIM_NO_MEMORY nothing is performed. A line that is not a process with a command is always
 * MUXSIM_LINE, also if memory has run out. */
int32_t muxsim_session_perform(struct muxsim_session *session, const uint8_t *line, size_t len);

/* Writes the line of the command that was performed last, with its reply and a line feed, to `text` and `len`, as
 * muxsim_session_why does to `text` and `text_len`. With MUXSIM_NO_ENTRY, MUXSIM_CLOSED and MUXSIM_NO_MEMORY both are
 * unchanged. */
int32_t muxsim_session_entry(struct muxsim_session *session, uint8_t *text, size_t room, size_t *len);

/* Writes the lines of the configuration, from "config" on and without "end", to `text` and `len` in the same way. With
 * MUXSIM_CLOSED and MUXSIM_NO_MEMORY both are unchanged. */
int32_t muxsim_session_show(struct muxsim_session *session, uint8_t *text, size_t room, size_t *len);

/* Frees the session and all its memory. With MUXSIM_CLOSED there was no session. */
int32_t muxsim_session_close(struct muxsim_session *session);

/* A session that threads share, or none. Use the calls below rather than those above. */
struct muxsim {
    pthread_mutex_t lock;
    struct muxsim_session session;
};

/* The initial value of a struct muxsim that muxsim_init doesn't make: a lock, and no session. */
#define MUXSIM_CLOSED_SESSION { PTHREAD_MUTEX_INITIALIZER, { NULL } }

/* A text to which calls write: `len` bytes. Start with {0}. Calls let it grow; `free` its bytes at the end. */
struct muxsim_text {
    uint8_t *bytes;
    size_t room, len;
};

/* Frees the bytes of a text, which is then as one that starts with {0}. */
static inline void muxsim_text_free(struct muxsim_text *text) {
    free(text->bytes);
    text->bytes = NULL;
    text->room = text->len = 0;
}

static inline int32_t muxsim_text_grow(struct muxsim_text *text, size_t room) {
    if (room <= text->room) return MUXSIM_DONE;
    uint8_t *bytes = (uint8_t *)realloc(text->bytes, room);
    if (bytes == NULL) return MUXSIM_NO_MEMORY;
    text->bytes = bytes;
    text->room = room;
    return MUXSIM_DONE;
}

static inline int32_t muxsim_text_fill(struct muxsim_text *text, struct muxsim_session *session,
                                       int32_t write(struct muxsim_session *, uint8_t *, size_t, size_t *)) {
    text->len = 0;
    if (muxsim_text_grow(text, 64) != MUXSIM_DONE) return MUXSIM_NO_MEMORY;
    int32_t code = write(session, text->bytes, text->room, &text->len);
    if (code == MUXSIM_NO_ROOM) {
        size_t room = text->len;
        text->len = 0;
        if (muxsim_text_grow(text, room) != MUXSIM_DONE) return MUXSIM_NO_MEMORY;
        code = write(session, text->bytes, text->room, &text->len);
    }
    return code;
}

/* Makes a struct muxsim wherever it is, also on the heap: a lock, and no session. Its memory need not be initialized.
 * With MUXSIM_NO_LOCK there is no lock; then make no other call with it, not even muxsim_destroy. */
static inline int32_t muxsim_init(struct muxsim *shared) {
    shared->session.at = NULL;
    return pthread_mutex_init(&shared->lock, NULL) == 0 ? MUXSIM_DONE : MUXSIM_NO_LOCK;
}

/* Writes the reason why muxsim_open refuses this text, such as "line 2: form" or "driver 0 marks", without a line feed.
 * If muxsim_open makes a session of the text, the code is MUXSIM_DONE too, and no byte is written. With
 * MUXSIM_NO_MEMORY nothing is written. It needs no session and no lock. */
static inline int32_t muxsim_why(const char *programs, size_t len, struct muxsim_text *text) {
    size_t room = 64, words = 0;
    int32_t code;
    text->len = 0;
    do {
        if (muxsim_text_grow(text, room) != MUXSIM_DONE) return MUXSIM_NO_MEMORY;
        code = muxsim_session_why((const uint8_t *)programs, len, text->bytes, text->room, &words);
        room = words;
    } while (code == MUXSIM_NO_ROOM);
    if (code == MUXSIM_DONE) text->len = words;
    return code;
}

/* Makes a session in which nothing is open, over the drivers of a programs text. Its programs, if there are any, aren't
 * run. The code is MUXSIM_TEXT if the bytes are not a programs text, and MUXSIM_DRIVERS if its drivers are not valid.
 * With these two it writes the reason, as muxsim_why does, or nothing if an allocation for the reason fails; then call
 * muxsim_why. With MUXSIM_DONE, MUXSIM_NO_MEMORY, MUXSIM_IS_OPEN and MUXSIM_NO_LOCK nothing is written. With any code
 * except MUXSIM_DONE the session is unchanged: the earlier one with MUXSIM_IS_OPEN. */
static inline int32_t muxsim_open(struct muxsim *shared, const char *programs, size_t len, struct muxsim_text *text) {
    text->len = 0;
    if (pthread_mutex_lock(&shared->lock) != 0) return MUXSIM_NO_LOCK;
    int32_t code = muxsim_session_open(&shared->session, (const uint8_t *)programs, len);
    pthread_mutex_unlock(&shared->lock);
    if (code == MUXSIM_TEXT || code == MUXSIM_DRIVERS) muxsim_why(programs, len, text);
    return code;
}

/* Performs the command of a line, such as "0 clone ip", which has no line feed, and writes the line of its entry, with
 * the reply and a line feed: "0 clone ip = fd 0 0\n". A command that is refused is performed too: its reply says why.
 * With MUXSIM_NO_LINE the command was performed, and nothing is written; call muxsim_entry for its line. With
 * MUXSIM_LINE, MUXSIM_NO_MEMORY, MUXSIM_CLOSED and MUXSIM_NO_LOCK nothing has changed, and nothing is written. A line
 * that is not a process with a command is always MUXSIM_LINE, also if memory has run out.
 *
 * A session performs any number of commands, and keeps only the last one. A transcript has at most 100,000 entries, so
 * `muxsim check` refuses one that is made of the lines of more commands as `many`. */
static inline int32_t muxsim_perform(struct muxsim *shared, const char *line, size_t len, struct muxsim_text *text) {
    text->len = 0;
    if (pthread_mutex_lock(&shared->lock) != 0) return MUXSIM_NO_LOCK;
    int32_t code = muxsim_session_perform(&shared->session, (const uint8_t *)line, len);
    if (code == MUXSIM_DONE && muxsim_text_fill(text, &shared->session, muxsim_session_entry) != MUXSIM_DONE)
        code = MUXSIM_NO_LINE;
    pthread_mutex_unlock(&shared->lock);
    return code;
}

/* Writes the line of the command that was performed last, by any thread. The code is MUXSIM_NO_ENTRY before the first
 * command. With this code, MUXSIM_NO_MEMORY, MUXSIM_CLOSED and MUXSIM_NO_LOCK nothing is written. The session is
 * unchanged in each case. */
static inline int32_t muxsim_entry(struct muxsim *shared, struct muxsim_text *text) {
    text->len = 0;
    if (pthread_mutex_lock(&shared->lock) != 0) return MUXSIM_NO_LOCK;
    int32_t code = muxsim_text_fill(text, &shared->session, muxsim_session_entry);
    pthread_mutex_unlock(&shared->lock);
    return code;
}

/* Writes the lines of the configuration, as a transcript of all commands so far has them: from "config" on and without
 * "end". With MUXSIM_NO_MEMORY, MUXSIM_CLOSED and MUXSIM_NO_LOCK nothing is written. The session is unchanged in each
 * case. */
static inline int32_t muxsim_show(struct muxsim *shared, struct muxsim_text *text) {
    text->len = 0;
    if (pthread_mutex_lock(&shared->lock) != 0) return MUXSIM_NO_LOCK;
    int32_t code = muxsim_text_fill(text, &shared->session, muxsim_session_show);
    pthread_mutex_unlock(&shared->lock);
    return code;
}

/* Frees the session and all its memory. Another one may be opened in its place. With MUXSIM_CLOSED there was no
 * session. With MUXSIM_NO_LOCK the session is unchanged. */
static inline int32_t muxsim_close(struct muxsim *shared) {
    if (pthread_mutex_lock(&shared->lock) != 0) return MUXSIM_NO_LOCK;
    int32_t code = muxsim_session_close(&shared->session);
    pthread_mutex_unlock(&shared->lock);
    return code;
}

/* Ends a struct muxsim: frees its session, if there is one, and then destroys its lock. No other thread may be in a
 * call with it, or make one later unless muxsim_init has made it again. With MUXSIM_NO_LOCK either locking failed and
 * the session is unchanged, or the lock could not be destroyed and there is no session. */
static inline int32_t muxsim_destroy(struct muxsim *shared) {
    if (muxsim_close(shared) == MUXSIM_NO_LOCK) return MUXSIM_NO_LOCK;
    return pthread_mutex_destroy(&shared->lock) == 0 ? MUXSIM_DONE : MUXSIM_NO_LOCK;
}

/* Makes a struct muxsim on the heap: a lock, and no session. Returns null if an allocation fails, or if the lock can't
 * be made. */
static inline struct muxsim *muxsim_new(void) {
    struct muxsim *shared = (struct muxsim *)malloc(sizeof *shared);
    if (shared != NULL && muxsim_init(shared) == MUXSIM_DONE) return shared;
    free(shared);
    return NULL;
}

/* Ends a struct muxsim that muxsim_new made, as muxsim_destroy does, and frees it. Null is allowed. */
static inline int32_t muxsim_free(struct muxsim *shared) {
    int32_t code = shared == NULL ? MUXSIM_DONE : muxsim_destroy(shared);
    free(shared);
    return code;
}

/* The kinds of replies. */
enum {
    MUXSIM_FD = 1,     /* a new descriptor: fd and minor */
    MUXSIM_ID = 2,     /* a new link: id */
    MUXSIM_TOOK = 3,   /* a message was accepted: serial */
    MUXSIM_GOT = 4,    /* a message was delivered: serial, address, and `count` bytes */
    MUXSIM_OK = 5,     /* the command succeeded, and dropped the messages of `count` serials */
    MUXSIM_EOF = 6,    /* end of file */
    MUXSIM_REFUSED = 7 /* a refusal: error and cause */
};

/* A reply to a command. The members that its kind doesn't name are 0. */
struct muxsim_reply {
    int32_t kind;
    int32_t error;       /* such as EINVAL */
    char cause[12];      /* the second word of the refusal, such as "below", or "" */
    uint32_t process;    /* the process whose command it was */
    uint32_t fd, minor, id, serial, address;
    size_t count;        /* of GOT the number of bytes, of OK that of dropped messages */
    const uint8_t *rest; /* their words, within the text of the entry */
};

/* Reads a number, and returns the byte after it and after the space or line feed that follows it. */
static inline const uint8_t *muxsim_number(const uint8_t *at, const uint8_t *end, uint32_t *number) {
    *number = 0;
    while (at < end && *at >= '0' && *at <= '9') *number = *number * 10 + (uint32_t)(*at++ - '0');
    return at < end ? at + 1 : at;
}

/* Returns the byte after this word, or null if another word is there. */
static inline const uint8_t *muxsim_word(const uint8_t *at, const uint8_t *end, const char *word) {
    size_t len = strlen(word);
    if ((size_t)(end - at) <= len || memcmp(at, word, len) != 0 || (at[len] != ' ' && at[len] != '\n')) return NULL;
    return at + len + 1;
}

/* Reads the reply of an entry: the line that muxsim_perform or muxsim_entry wrote. The code is MUXSIM_LINE if the text
 * is not an entry. Keep the text unchanged while the two calls below need it. The three are tested, and not proved. */
static inline int32_t muxsim_read_reply(const struct muxsim_text *text, struct muxsim_reply *reply) {
    static const struct {
        const char *word;
        int32_t error;
    } errors[] = {{"EBADF", EBADF},   {"EINVAL", EINVAL}, {"EAGAIN", EAGAIN},         {"ENXIO", ENXIO},
                  {"EMFILE", EMFILE}, {"ERANGE", ERANGE}, {"EADDRINUSE", EADDRINUSE}};
    const uint8_t *at = text->bytes, *end = at == NULL ? at : at + text->len, *next;
    memset(reply, 0, sizeof *reply);
    if (at == NULL) return MUXSIM_LINE;
    muxsim_number(at, end, &reply->process);
    while (at < end && *at != '=') at++;
    at = end - at < 3 ? end : at + 2;
    if ((next = muxsim_word(at, end, "fd")) != NULL) {
        reply->kind = MUXSIM_FD;
        muxsim_number(muxsim_number(next, end, &reply->fd), end, &reply->minor);
    } else if ((next = muxsim_word(at, end, "id")) != NULL) {
        reply->kind = MUXSIM_ID;
        muxsim_number(next, end, &reply->id);
    } else if ((next = muxsim_word(at, end, "took")) != NULL) {
        reply->kind = MUXSIM_TOOK;
        muxsim_number(next, end, &reply->serial);
    } else if ((next = muxsim_word(at, end, "got")) != NULL) {
        reply->kind = MUXSIM_GOT;
        reply->rest = muxsim_number(muxsim_number(next, end, &reply->serial), end, &reply->address);
        reply->count = (size_t)(end - reply->rest) / 2;
    } else if ((next = muxsim_word(at, end, "done")) != NULL) {
        reply->kind = MUXSIM_OK;
        reply->rest = next;
        for (; at < end; at++) reply->count += *at == ' ';
    } else if (muxsim_word(at, end, "eof") != NULL) {
        reply->kind = MUXSIM_EOF;
    }
    for (size_t i = 0; i < sizeof errors / sizeof *errors && reply->kind == 0; i++) {
        if ((next = muxsim_word(at, end, errors[i].word)) == NULL) continue;
        reply->kind = MUXSIM_REFUSED;
        reply->error = errors[i].error;
        for (size_t j = 0; j + 1 < sizeof reply->cause && next < end && *next != '\n'; j++)
            reply->cause[j] = (char)*next++;
    }
    return reply->kind == 0 ? MUXSIM_LINE : MUXSIM_DONE;
}

/* Writes the `count` bytes of a message that was delivered. */
static inline void muxsim_reply_bytes(const struct muxsim_reply *reply, uint8_t *bytes) {
    for (size_t i = 0; i < 2 * reply->count; i++) {
        uint8_t digit = reply->rest[i], four = (uint8_t)(digit <= '9' ? digit - '0' : digit - 'a' + 10);
        bytes[i / 2] = (uint8_t)(i % 2 == 0 ? four << 4 : bytes[i / 2] | four);
    }
}

/* Writes the `count` serials of the messages that a command dropped. They rise. */
static inline void muxsim_reply_dropped(const struct muxsim_reply *reply, uint32_t *serials) {
    const uint8_t *at = reply->rest;
    for (size_t i = 0; i < reply->count; i++) at = muxsim_number(at, at + 11, &serials[i]);
}

#ifdef __cplusplus
}
#endif

#endif
