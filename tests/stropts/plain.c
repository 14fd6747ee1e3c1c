/* usage: plain   makes each call by its plain name, in the session that the environment names
 *
 * Compile it with -DMUXSIM_STROPTS. The session has the drivers of examples/protocol_stack.mux. The status is 1 if a
 * call answers what it shouldn't. The program is C99, and also C++. */
#include <errno.h>
#include <string.h>
#include <stropts.h>

static int is_wrong;

static void wants(long found, long wanted, int line) {
    if (found == wanted) return;
    fprintf(stderr, "line %d: %ld in place of %ld: %s\n", line, found, wanted, mux_why());
    is_wrong = 1;
}

#define WANTS(found, wanted) wants(found, wanted, __LINE__)

/* A member of this name is not a call. */
struct file {
    int open, read;
};

int main(void) {
    struct file file = {1, 2};
    char bytes[16] = "ab";
    uint32_t address = 5;
    int flags = 0, ip = open("/dev/ip", O_RDWR), eth = open("/dev/eth", O_RDWR);
    struct strbuf control = {4, 4, (char *)&address}, data = {16, 2, bytes};
    struct mux_route route = {5, ioctl(ip, I_LINK, eth)};
    WANTS(ip, 0);
    WANTS(eth, 1);
    WANTS(route.link, 1);
    WANTS(ioctl(ip, MUX_ROUTE, &route), 0);
    WANTS(ioctl(ip, MUX_BIND, 9), 0);
    WANTS(putmsg(ip, &control, &data, 0), 0);
    WANTS(mux_transmit("/dev/eth:0", NULL, bytes, 16), 2);
    WANTS(mux_inject("/dev/eth:0", 9, "xyz", 3), 3);
    WANTS(read(ip, bytes, 1), 1);
    WANTS(getmsg(ip, &control, &data, &flags), 0);
    WANTS(data.len, 2);
    WANTS(write(ip, bytes, 2), 2);
    WANTS(close(dup(ip)), 0);
    WANTS(close(dup(9)), -1);
    WANTS(errno, EBADF);
    WANTS(file.open + file.read, 3);
    printf("%s\n", strerror(errno));
    return is_wrong;
}
