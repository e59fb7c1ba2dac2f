/* Preloaded by by_hand/turns.py: measures how long the turns of a station take. It is linked into
 * nothing that is proved or shipped.
 *
 * A turn takes what came, and then sends; each datagram that is taken is asked for by a call of
 * `recv`. So what lies between two of these calls is the work for one datagram, or, behind a call
 * that brought none and behind the last one of a turn, all that the turn does beside that: timers,
 * polls, up to 64 frames, commands and what is told. What counts is how long the thread had a
 * processor between two calls, since the machine may be busy; a wait takes none.
 *
 * The file `turns`, in the folder where the station runs, has the longest such time in
 * microseconds, how many calls there were, and how many times were longer than 1, 5 and 10 ms.
 *
 * Where the variable SWALLOW is set, no octets of files are written: each write of more than 512 is
 * answered as if they were. So a gigabyte of files that come takes no room. */
#define _GNU_SOURCE
#include <dlfcn.h>
#include <fcntl.h>
#include <stdio.h>
#include <stdlib.h>
#include <sys/socket.h>
#include <sys/stat.h>
#include <time.h>
#include <unistd.h>

/* The function of the C library that this one stands in front of. */
#define NEXT(name) dlsym(RTLD_NEXT, name)

static long longest, calls, over_1, over_5, over_10;

static long microseconds(void)
{
    struct timespec it;
    clock_gettime(CLOCK_THREAD_CPUTIME_ID, &it);
    return it.tv_sec * 1000000 + it.tv_nsec / 1000;
}

/* Writes down what was measured. */
static void note(void)
{
    char text[128];
    static int file = -1;
    if (file < 0)
        file = open("turns", O_WRONLY | O_CREAT | O_TRUNC | O_CLOEXEC, 0644);
    int len = snprintf(text, sizeof text, "%ld %ld %ld %ld %ld          \n", longest, calls, over_1,
                       over_5, over_10);
    if (file >= 0 && pwrite(file, text, (size_t)len, 0) < 0)
        file = -1;
}

ssize_t recv(int fd, void *to, size_t count, int flags)
{
    static ssize_t (*next)(int, void *, size_t, int);
    static long before = -1, noted = -1;
    if (!next)
        next = NEXT("recv");
    long now = microseconds(), took = before < 0 ? 0 : now - before;
    calls += 1;
    over_1 += took > 1000;
    over_5 += took > 5000;
    over_10 += took > 10000;
    if (took > longest)
        longest = took;
    if (noted < 0 || took > 1000 || now - noted > 100000) {
        noted = now;
        note();
    }
    before = microseconds();
    return next(fd, to, count, flags);
}

ssize_t write(int fd, const void *from, size_t count)
{
    static ssize_t (*next)(int, const void *, size_t);
    struct stat it;
    if (!next)
        next = NEXT("write");
    if (count > 512 && getenv("SWALLOW") && fstat(fd, &it) == 0 && S_ISREG(it.st_mode))
        return (ssize_t)count;
    return next(fd, from, count);
}
