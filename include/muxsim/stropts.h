/* The calls of STREAMS for programs in C, over one session of muxsim.h that the whole program shares: set-up code with
 * open, ioctl and putmsg runs against the exact model. The header is C99, and also compiles as C++.
 *
 *     mux_begin("programs 2\ndriver ip mux 4 8 3 16\ndriver eth leaf 2 8 3 16\nend\n", stdout);
 *     int ip = mux_open("/dev/ip", O_RDWR), eth = mux_open("/dev/eth", O_RDWR);
 *     int link = mux_ioctl(ip, I_LINK, eth);
 *     mux_end();                                         // the transcript is on standard output
 *
 * If MUXSIM_STROPTS is defined, the plain names open, close, dup, ioctl, putmsg, getmsg, read and write are those of
 * this header, so that a source file for STREAMS needs no other change. Then include it after all other headers. The
 * program doesn't call mux_begin either, if the environment variable MUXSIM_PROGRAMS names a file with a programs text:
 * the first call begins the session, and writes its transcript to the file that MUXSIM_TRANSCRIPT names, if it is set.
 * It ends when the program ends.
 *
 * Results and errno are those of streamio(7), open(2), close(2), dup(2), putmsg(2), getmsg(2), read(2) and write(2),
 * and each descriptor is as if opened with O_NONBLOCK: a call returns -1 with errno if its command is refused.
 * docs/EMBED.md has the table of calls, commands and refusals. Also:
 *
 *     ENODEV    there is no session, and MUXSIM_PROGRAMS names none
 *     ENOENT    the path is not /dev/NAME or /dev/NAME:MINOR; for mux_hangup also in a session of version 1
 *     ENOMEM    an allocation failed. If mux_why() is "ENOMEM entry", the command was performed, but its reply is lost
 *     EAGAIN    with mux_why() "EAGAIN process": 64 threads have numbers already
 *
 * Each thread is a process with its own descriptors: the first one that makes a call is process 0, the next one is
 * process 1, and so on, unless it calls mux_process. The end of a thread closes nothing. Any thread may make any call.
 *
 * The proved library answers each command. The calls are written in C over it: they are tested, and not proved. */
#ifndef MUXSIM_STROPTS_H
#define MUXSIM_STROPTS_H

#include <fcntl.h>
#include <stdint.h>
#include <stdio.h>
#include <sys/ioctl.h>
#include <sys/types.h>
#include <unistd.h>

#include "../muxsim.h"

#ifdef __cplusplus
extern "C" {
#endif

/* The requests of streamio(7) that the model has, with the numbers of UNIX System V. */
#define I_FLUSH 0x5305   /* an int: FLUSHR, FLUSHW or FLUSHRW */
#define I_LINK 0x530c    /* an int: the descriptor of the lower stream. Returns the id of the link */
#define I_UNLINK 0x530d  /* an int: the id of the link, or MUXID_ALL */
#define I_PLINK 0x5316   /* as I_LINK, for a persistent link */
#define I_PUNLINK 0x5317 /* as I_UNLINK */
#define MUXID_ALL (-1)
#define FLUSHR 1
#define FLUSHW 2
#define FLUSHRW 3

/* The requests of the routing driver, and one of this header. */
#define MUX_BIND 0x4d01    /* an unsigned: binds the stream to this address */
#define MUX_UNBIND 0x4d02  /* nothing */
#define MUX_ROUTE 0x4d03   /* a pointer to a struct mux_route */
#define MUX_UNROUTE 0x4d04 /* an unsigned: the address */
#define MUX_ADDRESS 0x4d05 /* an unsigned: the address of later mux_write calls on this descriptor, 0 at first */

struct mux_route {
    uint32_t address;
    int link; /* the id of the link */
};

/* A part of a message. The control part is the address: four bytes in the order of the machine. */
struct strbuf {
    int maxlen;
    int len;
    char *buf;
};

#define RS_HIPRI 1
#define MORECTL 1
#define MOREDATA 2

/* Begins the session over the drivers of a programs text, and writes its transcript to `transcript`, unless that is
 * null. Fails with EBUSY if there is a session, and with EINVAL if the text is refused: mux_why() is then the reason,
 * such as "line 2: form" or "driver 0 marks". */
int mux_begin(const char *programs, FILE *transcript);

/* Writes the end of the transcript, and ends the session. Fails with EIO if the transcript was not written whole. With
 * ENOMEM the session goes on, and the call can be made again. */
int mux_end(void);

/* Makes the calling thread process `number`, from 0 to 63. Other threads may be the same process. */
int mux_process(unsigned number);

/* Opens a new stream of a driver by "/dev/NAME", or the stream of a minor by "/dev/NAME:MINOR". Ignores the flags. */
int mux_open(const char *path, int flags, ...);
int mux_close(int fd);
int mux_dup(int fd);

/* Closes all descriptors of the process. The program goes on. */
int mux_exit(void);

int mux_ioctl(int fd, int request, ...);

/* Sends a message. Without a control part its address is that of MUX_ADDRESS. The flags are 0. */
int mux_putmsg(int fd, const struct strbuf *control, const struct strbuf *data, int flags);

/* Receives a message, or the rest of one, and then without a control part. A null control part drops the address. The
 * room of the control part is at least 4 bytes, or -1. At the end of file both lengths are 0. The flags are 0. */
int mux_getmsg(int fd, struct strbuf *control, struct strbuf *data, int *flags);

ssize_t mux_write(int fd, const void *bytes, size_t count);

/* Reads a message or a part of it, as in the modes RMSGN and RPROTDIS. Its rest waits at the descriptor until the next
 * call, unless the descriptor is closed or its read side flushed. */
ssize_t mux_read(int fd, void *bytes, size_t count);

/* The side of the device, by "/dev/NAME:MINOR": it brings a message, takes one, or hangs up. mux_transmit writes at
 * most `room` bytes, and returns the number of bytes of the message, which may be more. A null `address` is allowed. */
ssize_t mux_inject(const char *path, uint32_t address, const void *bytes, size_t count);
ssize_t mux_transmit(const char *path, uint32_t *address, void *bytes, size_t room);
int mux_hangup(const char *path);

/* Returns the words of the last refusal in this thread, such as "EINVAL below", or "" if there was none. */
const char *mux_why(void);

/* Returns the entry of the last command of this thread, such as "0 clone ip = fd 0 0", or "". It is valid until the
 * next call. A call that never reaches the model, such as one with a malformed path, performs no command. */
const char *mux_entry(void);

/* Returns its reply: with the minor of a new descriptor, for example. Its `rest` is within mux_entry(). */
const struct muxsim_reply *mux_reply(void);

#ifdef __cplusplus
}
#endif

#ifdef MUXSIM_STROPTS
#define open(...) mux_open(__VA_ARGS__)
#define close(...) mux_close(__VA_ARGS__)
#define dup(...) mux_dup(__VA_ARGS__)
#define ioctl(...) mux_ioctl(__VA_ARGS__)
#define putmsg(...) mux_putmsg(__VA_ARGS__)
#define getmsg(...) mux_getmsg(__VA_ARGS__)
#define read(...) mux_read(__VA_ARGS__)
#define write(...) mux_write(__VA_ARGS__)
#endif

#endif
