// A library that is preloaded under the program: it refuses growths of memory, and lets reads of
// standard input and writes of standard output fail or stop short. What it does stands in the
// environment:
//
//   COUNTS=FILE         keeps struct counts in this file while the program runs
//   REFUSE_EACH=once    at each growth the process forks, and the growth is refused to the child alone,
//   REFUSE_EACH=onward  or this growth and all after it
//   TABLE=FILE          where the end of each child is told: growth, whether after its refusal the next one was to no
//                       more bytes, status, bytes written, its error line
//   FAIL_READ=N         the Nth read of standard input fails, or FAIL_WRITE=N the Nth write of standard output
//   FAIL_ERROR=E        by this error number, or where it is 0 the write takes no byte
//   FAIL_ONWARD=1       and so do all after it
//   READ_AT_MOST=K, WRITE_AT_MOST=K   bytes that a read gives or a write takes
#define _GNU_SOURCE
#include <dlfcn.h>
#include <errno.h>
#include <fcntl.h>
#include <stdio.h>
#include <stdlib.h>
#include <string.h>
#include <sys/mman.h>
#include <sys/uio.h>
#include <sys/wait.h>
#include <unistd.h>

// The program keeps its output back in one growth of this size, which it makes once the words of the command line are taken.
#define OUTPUT_KEPT_BACK 65536

struct counts {
    unsigned long growths;
    // those before the one for the output
    unsigned long growths_for_words;
    // those before the last read of a file
    unsigned long growths_until_file_read;
    // those before the first read of standard input
    unsigned long growths_before_reading;
    unsigned long reads;
    unsigned long writes;
};

extern void *__libc_malloc(size_t);
extern void *__libc_calloc(size_t, size_t);
extern void *__libc_realloc(void *, size_t);
extern void *__libc_memalign(size_t, size_t);

static struct counts here;
static struct counts *counts = &here;
// what a child asked for next, after the growth that was refused to it; 0 where it asked for nothing
static size_t *asked_next;
static int ready, refuse_once, refuse_onward, in_child, table = -1;
static unsigned long fail_read, fail_write, read_at_most, write_at_most;
static int fail_error = EIO, fail_onward;

static unsigned long number(const char *name) {
    const char *text = getenv(name);
    return text ? strtoul(text, 0, 10) : 0;
}

// Memory that a process shares with its children, or that is kept in a file.
static void *shared(size_t size, int fd) {
    void *at = mmap(0, size, PROT_READ | PROT_WRITE, MAP_SHARED | (fd < 0 ? MAP_ANONYMOUS : 0), fd, 0);
    if (at == MAP_FAILED)
        _exit(97);
    return at;
}

static void prepare(void) {
    if (ready)
        return;
    ready = 1;
    const char *each = getenv("REFUSE_EACH");
    refuse_once = each && !strcmp(each, "once");
    refuse_onward = each && !strcmp(each, "onward");
    if (each)
        asked_next = shared(sizeof *asked_next, -1);
    if (getenv("TABLE"))
        table = open(getenv("TABLE"), O_WRONLY | O_CREAT | O_APPEND | O_CLOEXEC, 0600);
    fail_read = number("FAIL_READ");
    fail_write = number("FAIL_WRITE");
    if (getenv("FAIL_ERROR"))
        fail_error = (int)number("FAIL_ERROR");
    fail_onward = (int)number("FAIL_ONWARD");
    read_at_most = number("READ_AT_MOST");
    write_at_most = number("WRITE_AT_MOST");
    if (getenv("COUNTS")) {
        int fd = open(getenv("COUNTS"), O_RDWR | O_CREAT | O_TRUNC, 0600);
        if (fd >= 0 && !ftruncate(fd, sizeof here))
            counts = shared(sizeof here, fd);
        close(fd);
    }
}

// Gives the child standard input of its own, at the same place, where it is a file.
static void part_input(void) {
    off_t at = lseek(0, 0, SEEK_CUR);
    int fd = open("/proc/self/fd/0", O_RDONLY);
    if (at >= 0 && fd >= 0 && lseek(fd, at, SEEK_SET) == at)
        dup2(fd, 0);
    close(fd);
}

// Tells how the child ended to which a growth was refused.
static void tell(unsigned long growth, int asked_again, int status, int out, int err) {
    char line[300], words[201];
    ssize_t n = pread(err, words, 200, 0);
    words[n > 0 ? n : 0] = 0;
    words[strcspn(words, "\n")] = 0;
    int code = WIFEXITED(status) ? WEXITSTATUS(status) : 1000 + WTERMSIG(status);
    int length = snprintf(line, sizeof line, "%lu %d %d %ld %s\n", growth, asked_again, code,
                          (long)lseek(out, 0, SEEK_END), words);
    if (write(table, line, (size_t)length) != length)
        _exit(99);
}

// Whether a growth to so many bytes is refused.
static int refused(size_t size) {
    prepare();
    if (in_child) {
        if (!*asked_next)
            *asked_next = size;
        return refuse_onward;
    }
    if (!counts->growths_for_words && size == OUTPUT_KEPT_BACK)
        counts->growths_for_words = counts->growths;
    counts->growths++;
    if (!refuse_once && !refuse_onward)
        return 0;
    unsigned long growth = counts->growths;
    int out = memfd_create("out", 0), err = memfd_create("err", 0), status = 0;
    *asked_next = 0;
    pid_t child = fork();
    if (child < 0)
        _exit(98);
    if (child == 0) {
        in_child = 1;
        counts = &here;
        dup2(out, 1);
        dup2(err, 2);
        part_input();
        return 1;
    }
    waitpid(child, &status, 0);
    tell(growth, 0 < *asked_next && *asked_next <= size, status, out, err);
    close(out);
    close(err);
    return 0;
}

static void *no_memory(void) {
    errno = ENOMEM;
    return 0;
}

void *malloc(size_t size) { return refused(size) ? no_memory() : __libc_malloc(size); }

void *calloc(size_t count, size_t size) { return refused(count * size) ? no_memory() : __libc_calloc(count, size); }

void *realloc(void *at, size_t size) { return refused(size) ? no_memory() : __libc_realloc(at, size); }

void *memalign(size_t to, size_t size) { return refused(size) ? no_memory() : __libc_memalign(to, size); }

void *aligned_alloc(size_t to, size_t size) { return memalign(to, size); }

int posix_memalign(void **at, size_t to, size_t size) {
    void *got = memalign(to, size);
    if (!got)
        return ENOMEM;
    *at = got;
    return 0;
}

static int fails(unsigned long call, unsigned long failing) {
    return failing && (call == failing || (fail_onward && call > failing));
}

ssize_t read(int fd, void *at, size_t size) {
    static ssize_t (*next)(int, void *, size_t);
    prepare();
    if (!next)
        next = dlsym(RTLD_NEXT, "read");
    if (fd != 0) {
        counts->growths_until_file_read = counts->growths;
        return next(fd, at, size);
    }
    if (counts->reads == 0)
        counts->growths_before_reading = counts->growths;
    if (fails(++counts->reads, fail_read)) {
        errno = fail_error;
        return -1;
    }
    return next(fd, at, read_at_most && read_at_most < size ? read_at_most : size);
}

ssize_t write(int fd, const void *at, size_t size) {
    static ssize_t (*next)(int, const void *, size_t);
    prepare();
    if (!next)
        next = dlsym(RTLD_NEXT, "write");
    if (fd != 1)
        return next(fd, at, size);
    if (fails(++counts->writes, fail_write)) {
        errno = fail_error;
        return fail_error ? -1 : 0;
    }
    return next(fd, at, write_at_most && write_at_most < size ? write_at_most : size);
}

ssize_t writev(int fd, const struct iovec *parts, int count) {
    return count > 0 ? write(fd, parts[0].iov_base, parts[0].iov_len) : 0;
}
