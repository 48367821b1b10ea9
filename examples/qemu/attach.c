/* Runs a program with descriptors that are connected to sockets. QEMU uses such descriptors for functions that
 * another process provides:
 *
 *     attach 5=a0.socket [6=a1.socket ..] qemu-system-x86_64 .. -device x-pci-proxy-dev,id=p,fd=5 */
#define _GNU_SOURCE
#include <errno.h>
#include <fcntl.h>
#include <stdio.h>
#include <stdlib.h>
#include <string.h>
#include <sys/socket.h>
#include <sys/un.h>
#include <unistd.h>

enum { FEWEST = 3, MOST = 64 };

/* Returns the descriptor in FD=SOCKET, and stores the socket's name. Returns 0 if the argument has another form. */
static int read_word(const char *word, const char **path)
{
    char *end;
    long number = strtol(word, &end, 10);

    *path = end + 1;
    return end != word && *end == '=' && number >= FEWEST && number < MOST ? (int)number : 0;
}

/* Connects to a socket, with a descriptor above all that the arguments may name. Returns -1 on failure. */
static int connect_above(const char *path)
{
    struct sockaddr_un address = {.sun_family = AF_UNIX};
    int low, high, why;

    errno = ENAMETOOLONG;
    if (strlen(path) >= sizeof address.sun_path)
        return -1;
    strcpy(address.sun_path, path);
    low = socket(AF_UNIX, SOCK_STREAM, 0);
    if (low < 0)
        return -1;
    high = fcntl(low, F_DUPFD_CLOEXEC, MOST);
    close(low);
    if (high < 0 || connect(high, (struct sockaddr *)&address, sizeof address) == 0)
        return high;
    why = errno;
    close(high);
    errno = why;
    return -1;
}

int main(int argc, char **argv)
{
    int high[MOST] = {0};
    const char *path;
    int at, descriptor;

    for (at = 1; at < argc && (descriptor = read_word(argv[at], &path)); at++)
        if ((high[descriptor] = connect_above(path)) < 0) {
            fprintf(stderr, "attach: %s: %s\n", path, strerror(errno));
            return 1;
        }
    if (at == 1 || at == argc) {
        fputs("attach FD=SOCKET.. PROGRAM [WORD..], FD from 3 to 63\n", stderr);
        return 2;
    }
    for (descriptor = FEWEST; descriptor < MOST; descriptor++)
        if (high[descriptor] && dup2(high[descriptor], descriptor) < 0)
            return 1;
    execvp(argv[at], argv + at);
    fprintf(stderr, "attach: %s: %s\n", argv[at], strerror(errno));
    return 127;
}
