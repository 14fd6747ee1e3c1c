/* The calls of muxsim/stropts.h: each makes the line of a command, performs it by muxsim.h, and reads the reply. One
 * lock orders all of it. This file is tested, and not proved. */
#define _POSIX_C_SOURCE 200809L
#include "muxsim/stropts.h"

#include <stdarg.h>

enum { PROCESSES = 64, DESCRIPTORS = 16, LONGEST = 1024, FORMED = 96 };

/* The state of a thread: its last command, and its last refusal. */
struct self {
    struct muxsim_text entry;
    struct muxsim_reply reply;
    char why[64];
    int process; /* -1 until it makes a call */
};

/* A descriptor: the address for writing, and the message that was taken from the stream and is not read to its end. */
struct slot {
    int is_open;
    uint32_t address, from;
    size_t at, len;
    uint8_t bytes[LONGEST];
};

static struct self nobody = {.process = -1};
static struct muxsim shared = MUXSIM_CLOSED_SESSION;
static struct slot slots[PROCESSES][DESCRIPTORS];
static FILE *transcript;
static int owns_transcript, asked_environment, next_process;
static int is_pending; /* whether the entry of the last command is not read yet, since an allocation failed */
static pthread_once_t once = PTHREAD_ONCE_INIT;
static pthread_key_t key;
static int has_key;

static void free_self(void *data) {
    muxsim_text_free(&((struct self *)data)->entry);
    free(data);
}

static void make_key(void) {
    has_key = pthread_key_create(&key, free_self) == 0;
}

/* Returns the calling thread, or `nobody` if an allocation failed. */
static struct self *this_thread(void) {
    pthread_once(&once, make_key);
    struct self *self = has_key ? pthread_getspecific(key) : &nobody;
    if (self != NULL || (self = calloc(1, sizeof *self)) == NULL) return self == NULL ? &nobody : self;
    self->process = -1;
    if (pthread_setspecific(key, self) == 0) return self;
    free(self);
    return &nobody;
}

/* Sets errno and the words of a refusal. Returns -1. */
static int refuse(struct self *self, int error, const char *words) {
    snprintf(self->why, sizeof self->why, "%s", words);
    errno = error;
    return -1;
}

/* Returns the descriptor, if it is open. */
static struct slot *slot_of(struct self *self, int fd) {
    if (self->process < 0 || fd < 0 || fd >= DESCRIPTORS) return NULL;
    struct slot *slot = &slots[self->process][fd];
    return slot->is_open ? slot : NULL;
}

/* Begins the session, and writes the header and the driver lines of its transcript. */
static int begin(struct self *self, const char *programs, size_t len, FILE *file) {
    int32_t code = muxsim_session_open(&shared.session, (const uint8_t *)programs, len);
    if (code == MUXSIM_IS_OPEN || code == MUXSIM_NO_MEMORY)
        return refuse(self, code == MUXSIM_IS_OPEN ? EBUSY : ENOMEM, muxsim_strerror(code));
    if (code != MUXSIM_DONE) {
        char why[sizeof self->why] = "";
        size_t count;
        muxsim_session_why((const uint8_t *)programs, len, (uint8_t *)why, sizeof why - 1, &count);
        return refuse(self, EINVAL, why[0] == 0 ? muxsim_strerror(code) : why);
    }
    memset(slots, 0, sizeof slots);
    is_pending = 0;
    transcript = file;
    const char *table = strchr(programs, '\n') + 1, *line = table;
    while (strncmp(line, "driver ", 7) == 0) line = strchr(line, '\n') + 1;
    if (file != NULL) fprintf(file, "transcript %c\n%.*s", table[-2], (int)(line - table), table);
    return 0;
}

static void end_at_exit(void) {
    mux_end();
}

/* Begins the session that the environment names, the first time. */
static int begin_by_environment(struct self *self) {
    const char *programs = asked_environment ? NULL : getenv("MUXSIM_PROGRAMS"), *name = getenv("MUXSIM_TRANSCRIPT");
    struct muxsim_text text = {NULL, 0, 0};
    asked_environment = 1;
    if (programs == NULL) return refuse(self, ENODEV, "ENODEV session");
    FILE *file = fopen(programs, "rb"), *to = NULL;
    size_t more = 1;
    if (file == NULL) return refuse(self, errno, "MUXSIM_PROGRAMS");
    while (more > 0 && muxsim_text_grow(&text, text.len + 65536) == MUXSIM_DONE)
        text.len += more = fread(text.bytes + text.len, 1, 65536, file);
    fclose(file);
    int result;
    if (more > 0) result = refuse(self, ENOMEM, "ENOMEM session");
    else if (name != NULL && (to = fopen(name, "wb")) == NULL) result = refuse(self, errno, "MUXSIM_TRANSCRIPT");
    else {
        result = begin(self, (const char *)text.bytes, text.len, to);
        owns_transcript = result == 0 && to != NULL;
        if (result == 0) atexit(end_at_exit);
        if (result < 0 && to != NULL) fclose(to);
    }
    muxsim_text_free(&text);
    return result;
}

/* Keeps the table of open descriptors: each entry that opens or closes one says so. */
static void note(const struct muxsim_reply *reply, const char *command) {
    struct slot *mine = slots[reply->process];
    if (reply->kind == MUXSIM_FD) memset(&mine[reply->fd], 0, sizeof *mine);
    if (reply->kind == MUXSIM_FD) mine[reply->fd].is_open = 1;
    if (reply->kind == MUXSIM_OK && strncmp(command, "close ", 6) == 0) mine[atoi(command + 6)].is_open = 0;
    if (reply->kind == MUXSIM_OK && strncmp(command, "exit ", 5) == 0) memset(mine, 0, DESCRIPTORS * sizeof *mine);
}

/* Reads the entry of the command that was performed last, and writes it to the transcript. It ends in 0 then. */
static int catch_up(struct self *self) {
    if (!is_pending) return 0;
    if (muxsim_text_fill(&self->entry, &shared.session, muxsim_session_entry) != MUXSIM_DONE) {
        self->entry.len = 0;
        return refuse(self, ENOMEM, "ENOMEM entry");
    }
    is_pending = 0;
    if (transcript != NULL) fwrite(self->entry.bytes, 1, self->entry.len, transcript);
    muxsim_read_reply(&self->entry, &self->reply);
    self->entry.bytes[self->entry.len - 1] = 0;
    note(&self->reply, strchr((const char *)self->entry.bytes, ' ') + 1);
    return 0;
}

/* Each call begins with enter, and ends with leave. */
static struct self *enter(void) {
    pthread_mutex_lock(&shared.lock);
    struct self *self = this_thread();
    catch_up(self);
    return self;
}

static int leave(int result) {
    pthread_mutex_unlock(&shared.lock);
    return result;
}

/* Performs a command of the calling thread, with these bytes after its words, and reads its reply. Returns -1 and sets
 * errno if it is refused. Each driver refuses more than LONGEST bytes, so no more than one byte above is passed on. */
static int perform(struct self *self, const void *bytes, size_t count, const char *format, ...) {
    char line[FORMED + 2 * (LONGEST + 1)];
    if (self == &nobody) return refuse(self, ENOMEM, "ENOMEM");
    if (shared.session.at == NULL && begin_by_environment(self) < 0) return -1;
    if (catch_up(self) < 0) return refuse(self, ENOMEM, "ENOMEM");
    if (self->process < 0 && next_process == PROCESSES) return refuse(self, EAGAIN, "EAGAIN process");
    if (self->process < 0) self->process = next_process++;
    size_t len = (size_t)snprintf(line, sizeof line, "%d ", self->process);
    va_list words;
    va_start(words, format);
    len += (size_t)vsnprintf(line + len, FORMED - len, format, words);
    va_end(words);
    if (bytes != NULL && count == 0) line[len++] = '-';
    for (size_t i = 0; bytes != NULL && i < count && i <= LONGEST; i++)
        len += (size_t)snprintf(line + len, 3, "%02x", ((const uint8_t *)bytes)[i]);
    int32_t code = muxsim_session_perform(&shared.session, (const uint8_t *)line, len);
    if (code == MUXSIM_LINE) return refuse(self, ENOENT, "ENOENT path");
    if (code != MUXSIM_DONE) return refuse(self, ENOMEM, "ENOMEM");
    is_pending = 1;
    if (catch_up(self) < 0) return -1;
    if (self->reply.kind != MUXSIM_REFUSED) return 0;
    return refuse(self, self->reply.error, strstr((const char *)self->entry.bytes, " = ") + 3);
}

/* Writes the words for a path: "NAME" or "NAME MINOR". Returns how many there are, or 0 if it is malformed. */
static int words_of(const char *path, char words[32]) {
    if (strncmp(path, "/dev/", 5) != 0 || strlen(path) > 5 + 8 + 1 + 10 || strchr(path, ' ') != NULL) return 0;
    strcpy(words, path + 5);
    char *colon = strchr(words, ':');
    if (colon != NULL) *colon = ' ';
    return colon == NULL ? 1 : 2;
}

int mux_begin(const char *programs, FILE *file) {
    return leave(begin(enter(), programs, strlen(programs), file));
}

int mux_end(void) {
    struct self *self = enter();
    int is_whole = 1;
    if (shared.session.at == NULL) return leave(refuse(self, ENODEV, "ENODEV session"));
    if (transcript != NULL) {
        if (catch_up(self) < 0 || muxsim_text_fill(&self->entry, &shared.session, muxsim_session_show) != MUXSIM_DONE)
            return leave(refuse(self, ENOMEM, "ENOMEM"));
        is_whole = fwrite(self->entry.bytes, 1, self->entry.len, transcript) == self->entry.len &&
                   fputs("end\n", transcript) >= 0 && fflush(transcript) == 0 && !ferror(transcript);
        if (owns_transcript) fclose(transcript);
        self->entry.len = 0;
    }
    transcript = NULL;
    owns_transcript = 0;
    muxsim_session_close(&shared.session);
    return leave(is_whole ? 0 : refuse(self, EIO, "EIO transcript"));
}

int mux_process(unsigned number) {
    struct self *self = enter();
    if (self == &nobody) return leave(refuse(self, ENOMEM, "ENOMEM"));
    if (number >= PROCESSES) return leave(refuse(self, EINVAL, "EINVAL process"));
    self->process = (int)number;
    return leave(0);
}

int mux_open(const char *path, int flags, ...) {
    struct self *self = enter();
    char words[32];
    int count = words_of(path, words);
    (void)flags;
    if (count == 0) return leave(refuse(self, ENOENT, "ENOENT path"));
    if (perform(self, NULL, 0, "%s %s", count == 1 ? "clone" : "open", words) < 0) return leave(-1);
    return leave((int)self->reply.fd);
}

int mux_dup(int fd) {
    struct self *self = enter();
    if (perform(self, NULL, 0, "dup %u", (unsigned)fd) < 0) return leave(-1);
    slots[self->process][self->reply.fd].address = slots[self->process][fd].address;
    return leave((int)self->reply.fd);
}

int mux_close(int fd) {
    return leave(perform(enter(), NULL, 0, "close %u", (unsigned)fd));
}

int mux_exit(void) {
    return leave(perform(enter(), NULL, 0, "exit"));
}

static int request_of(struct self *self, int fd, int request, va_list words) {
    static const char *const sides[] = {"rw", "r", "w", "rw"};
    struct slot *slot = slot_of(self, fd);
    const struct mux_route *route;
    unsigned value = (unsigned)fd;
    const char *kind = request == I_PLINK || request == I_PUNLINK ? "p" : "";
    int result, number;
    switch (request) {
    case I_LINK:
    case I_PLINK:
        result = perform(self, NULL, 0, "%slink %u %u", kind, value, (unsigned)va_arg(words, int));
        return result < 0 ? -1 : (int)self->reply.id;
    case I_UNLINK:
    case I_PUNLINK:
        number = va_arg(words, int);
        if (number == MUXID_ALL) return perform(self, NULL, 0, "%sunlink %u all", kind, value);
        return perform(self, NULL, 0, "%sunlink %u %u", kind, value, (unsigned)number);
    case I_FLUSH:
        number = va_arg(words, int);
        if (number < FLUSHR || number > FLUSHRW) number = 0;
        if (slot != NULL && number == 0) return refuse(self, EINVAL, "EINVAL sides");
        result = perform(self, NULL, 0, "flush %u %s", value, sides[number]);
        if (result == 0 && (number & FLUSHR) != 0) slot->at = slot->len;
        return result;
    case MUX_BIND:
        return perform(self, NULL, 0, "bind %u %u", value, va_arg(words, unsigned));
    case MUX_UNBIND:
        return perform(self, NULL, 0, "unbind %u", value);
    case MUX_ROUTE:
        route = va_arg(words, const struct mux_route *);
        return perform(self, NULL, 0, "route %u %u %u", value, (unsigned)route->address, (unsigned)route->link);
    case MUX_UNROUTE:
        return perform(self, NULL, 0, "unroute %u %u", value, va_arg(words, unsigned));
    case MUX_ADDRESS:
        if (slot == NULL) return refuse(self, EBADF, "EBADF fd");
        slot->address = va_arg(words, unsigned);
        return 0;
    default:
        return slot == NULL ? refuse(self, EBADF, "EBADF fd") : refuse(self, EINVAL, "EINVAL request");
    }
}

int mux_ioctl(int fd, int request, ...) {
    va_list words;
    va_start(words, request);
    int result = request_of(enter(), fd, request, words);
    va_end(words);
    return leave(result);
}

int mux_putmsg(int fd, const struct strbuf *control, const struct strbuf *data, int flags) {
    struct self *self = enter();
    struct slot *slot = slot_of(self, fd);
    int has_control = control != NULL && control->len >= 0, has_data = data != NULL && data->len >= 0;
    uint32_t address = slot == NULL ? 0 : slot->address;
    if (slot != NULL && (flags != 0 || (has_control && control->len != 4)))
        return leave(refuse(self, EINVAL, "EINVAL part"));
    if (slot != NULL && !has_control && !has_data) return leave(0);
    if (has_control && control->len == 4) memcpy(&address, control->buf, 4);
    size_t count = has_data ? (size_t)data->len : 0;
    return leave(perform(self, count == 0 ? "" : data->buf, count, "write %u %u ", (unsigned)fd, (unsigned)address));
}

ssize_t mux_write(int fd, const void *bytes, size_t count) {
    struct self *self = enter();
    struct slot *slot = slot_of(self, fd);
    unsigned address = slot == NULL ? 0 : slot->address;
    int result = perform(self, count == 0 ? "" : bytes, count, "write %u %u ", (unsigned)fd, address);
    return leave(result < 0 ? -1 : (int)count);
}

/* Takes the next message, unless the rest of one is left. Returns 1, 0 at the end of file, or -1. */
static int take(struct self *self, struct slot *slot, int fd) {
    if (slot != NULL && slot->at < slot->len) return 1;
    if (perform(self, NULL, 0, "read %u", (unsigned)fd) < 0) return -1;
    if (self->reply.kind != MUXSIM_GOT) return 0;
    muxsim_reply_bytes(&self->reply, slot->bytes);
    slot->from = self->reply.address;
    slot->at = 0;
    slot->len = self->reply.count;
    return 1;
}

/* Moves bytes of the message that was taken, and returns how many. */
static size_t move_bytes(struct slot *slot, void *bytes, size_t room) {
    size_t count = slot->len - slot->at < room ? slot->len - slot->at : room;
    if (count > 0) memcpy(bytes, slot->bytes + slot->at, count);
    slot->at += count;
    return count;
}

int mux_getmsg(int fd, struct strbuf *control, struct strbuf *data, int *flags) {
    struct self *self = enter();
    struct slot *slot = slot_of(self, fd);
    int has_control = control != NULL && control->maxlen >= 0, has_data = data != NULL && data->maxlen >= 0;
    if (slot != NULL && ((*flags & ~RS_HIPRI) != 0 || (has_control && control->maxlen < 4)))
        return leave(refuse(self, EINVAL, "EINVAL part"));
    if (slot != NULL && *flags == RS_HIPRI) return leave(refuse(self, EAGAIN, "EAGAIN empty"));
    int is_rest = slot != NULL && slot->at < slot->len, taken = take(self, slot, fd);
    if (taken < 0) return leave(-1);
    if (has_control) control->len = taken == 0 ? 0 : is_rest ? -1 : 4;
    if (has_control && taken == 1 && !is_rest) memcpy(control->buf, &slot->from, 4);
    if (has_data) data->len = taken == 0 ? 0 : (int)move_bytes(slot, data->buf, (size_t)data->maxlen);
    return leave(taken == 1 && slot->at < slot->len ? MOREDATA : 0);
}

ssize_t mux_read(int fd, void *bytes, size_t count) {
    struct self *self = enter();
    struct slot *slot = slot_of(self, fd);
    if (slot != NULL && count == 0) return leave(0);
    int taken = take(self, slot, fd);
    return leave(taken <= 0 ? taken : (int)move_bytes(slot, bytes, count));
}

ssize_t mux_inject(const char *path, uint32_t address, const void *bytes, size_t count) {
    struct self *self = enter();
    char words[32];
    if (words_of(path, words) != 2) return leave(refuse(self, ENOENT, "ENOENT path"));
    int result = perform(self, count == 0 ? "" : bytes, count, "inject %s %u ", words, (unsigned)address);
    return leave(result < 0 ? -1 : (int)count);
}

ssize_t mux_transmit(const char *path, uint32_t *address, void *bytes, size_t room) {
    struct self *self = enter();
    char words[32];
    uint8_t all[LONGEST];
    if (words_of(path, words) != 2) return leave(refuse(self, ENOENT, "ENOENT path"));
    if (perform(self, NULL, 0, "transmit %s", words) < 0) return leave(-1);
    muxsim_reply_bytes(&self->reply, all);
    if (address != NULL) *address = self->reply.address;
    if (room > 0) memcpy(bytes, all, self->reply.count < room ? self->reply.count : room);
    return leave((int)self->reply.count);
}

int mux_hangup(const char *path) {
    struct self *self = enter();
    char words[32];
    if (words_of(path, words) != 2) return leave(refuse(self, ENOENT, "ENOENT path"));
    return leave(perform(self, NULL, 0, "hangup %s", words));
}

const char *mux_why(void) {
    return this_thread()->why;
}

const char *mux_entry(void) {
    struct self *self = this_thread();
    return self->entry.len == 0 ? "" : (const char *)self->entry.bytes;
}

const struct muxsim_reply *mux_reply(void) {
    return &this_thread()->reply;
}
