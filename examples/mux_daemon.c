/* A set-up daemon, as a system with STREAMS runs one when it starts: it puts a protocol stack together, ip over two
 * ethernets, tells ip which addresses are reached by which of them, and keeps only the descriptor that holds the links.
 * When it is asked to end, it takes the stack down.
 *
 * Nothing here is specific to muxsim. To run it against the model, and to judge its history:
 *
 *     cc -DMUXSIM_STROPTS -o mux_daemon mux_daemon.c $(pkg-config --cflags --libs --static muxsim)
 *     MUXSIM_PROGRAMS=protocol_stack.mux MUXSIM_TRANSCRIPT=history ./mux_daemon
 *     muxsim check < history */
#include <fcntl.h>
#include <stdint.h>
#include <stdio.h>
#include <stdlib.h>
#include <stropts.h>
#include <sys/ioctl.h>
#include <unistd.h>

/* The addresses that the two ethernets reach. */
static const uint32_t reached[] = {5, 6};

/* Ends the program with the reason if a call failed. */
static int must(int result, const char *what) {
    if (result < 0) {
        perror(what);
        exit(1);
    }
    return result;
}

/* Links an ethernet below ip, and routes an address to it. The link holds the stream, so its descriptor can go. */
static void add_ethernet(int ip, uint32_t address) {
    int eth = must(open("/dev/eth", O_RDWR), "open /dev/eth");
    struct mux_route route = {address, must(ioctl(ip, I_LINK, eth), "I_LINK")};
    must(ioctl(ip, MUX_ROUTE, &route), "MUX_ROUTE");
    must(close(eth), "close");
}

/* Sends a message to an address, to see that the way down is open. */
static void probe(int ip, uint32_t address) {
    char hello[] = "hello";
    struct strbuf control = {sizeof address, sizeof address, (char *)&address}, data = {5, 5, hello};
    must(putmsg(ip, &control, &data, 0), "putmsg");
}

int main(void) {
    int ip = must(open("/dev/ip", O_RDWR), "open /dev/ip");
    for (size_t i = 0; i < sizeof reached / sizeof *reached; i++) add_ethernet(ip, reached[i]);
    for (size_t i = 0; i < sizeof reached / sizeof *reached; i++) probe(ip, reached[i]);
    puts("the stack is up");

    /* A daemon would wait here until it is asked to end. */
    must(ioctl(ip, I_UNLINK, MUXID_ALL), "I_UNLINK");
    must(close(ip), "close");
    puts("the stack is down");
    return 0;
}
