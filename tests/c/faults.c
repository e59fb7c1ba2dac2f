/* Preloaded by tests/run: makes reads of standard input, writes of standard output, files and
 * sockets fail, as the variable FAULTS says. It is linked into nothing that is proved or shipped.
 *
 *   interrupted     each read is interrupted, for ever
 *   interruptions   each read comes after an interruption
 *   one-by-one      a read gives one octet
 *   unreadable      at the end of the input a read fails
 *   endless         the input never ends
 *   shortened=N     a file ends behind N octets that were read of it
 *   torn=N          behind N octets a file can't be read
 *   room=N          writes take N octets in all, and then the disk is full
 *   full-once       the first write finds the disk full, and later ones don't
 *   disk=N          files take N octets in all, and then the disk is full
 *   file-size=N     the system lets no file have more than N octets
 *   no-seek         the place in a file at which is written can't be changed
 *   no-cut          no file can be cut to a length
 *   no-sync         no file can be flushed to its device
 *   no-folder-sync  no folder can be
 *   no-rename       no file can be renamed
 *   no-unlink       no file can be removed
 *   no-link         no file can be given a second name
 *   denied=WORD     no file can be opened whose path ends so
 *   stays=WORD      no file can be removed whose path ends so
 *   locked          all that can be locked is, by another process
 *   no-lock         the system locks nothing
 *   no-socket       no socket can be made
 *   send=K          the Kth datagram isn't sent, or with 0 none is
 *   receive=K       the Kth datagram that came is lost, or with 0 each is
 *   lose=K          the Kth datagram is lost on its way, and nothing tells of it
 *   bent=K          the last bit of the Kth datagram is turned, or with 0 that of each
 *   swallow=K       the Kth datagram that came is thrown away, and nothing tells of it
 *   memory=N        the Nth growth of memory is refused
 *   mark            a file `refused` is made where one of the last five faults shows
 *   clock=N         the time of day is N seconds later, or with a minus earlier
 *   clock=at:N      the time of day is N seconds since 1970 as it is read first, and goes on
 *   kept=FOLDER     what is flushed is copied into this folder, as `keep` says
 *   before=CALL:K:WORD  the process is killed right before its Kth call of a kind whose path has
 *                   this word: `sync`, `rename`, `link`, `unlink`, or `write` to a file
 *   after=CALL:K:WORD   the same right after that call
 *   order           a file `order` gets a line for each file or folder that is flushed to its
 *                   device, and for each that is renamed, in the order of these calls
 *   wire            a file `wire` gets a line for each datagram that is sent: its octets, in
 *                   hexadecimal digits
 */
#define _GNU_SOURCE
#include <dirent.h>
#include <dlfcn.h>
#include <errno.h>
#include <fcntl.h>
#include <signal.h>
#include <stdarg.h>
#include <stdint.h>
#include <stdio.h>
#include <stdlib.h>
#include <string.h>
#include <sys/file.h>
#include <sys/resource.h>
#include <sys/socket.h>
#include <sys/stat.h>
#include <sys/uio.h>
#include <time.h>
#include <unistd.h>

static const char *fault(const char *name)
{
    const char *all = getenv("FAULTS");
    return all ? strstr(all, name) : NULL;
}

/* The function of the C library that this one stands in front of. */
#define NEXT(name) dlsym(RTLD_NEXT, name)

/* The number behind a fault of this name, or else `none`. */
static size_t number(const char *name, size_t none)
{
    const char *found = fault(name);
    return found ? strtoul(found + strlen(name), NULL, 10) : none;
}

/* Reads of a file what the faults leave of it. */
static ssize_t read_file(int fd, void *to, size_t count)
{
    ssize_t (*next)(int, void *, size_t) = NEXT("read");
    static size_t given = 0;
    size_t torn = number("torn=", SIZE_MAX), end = number("shortened=", torn);
    struct stat it;
    if (end == SIZE_MAX || fstat(fd, &it) != 0 || !S_ISREG(it.st_mode))
        return next(fd, to, count);
    if (given == torn) {
        errno = EIO;
        return -1;
    }
    ssize_t got = next(fd, to, count < end - given ? count : end - given);
    if (got > 0)
        given += (size_t)got;
    return got;
}

ssize_t read(int fd, void *to, size_t count)
{
    ssize_t (*next)(int, void *, size_t) = NEXT("read");
    static int was_interrupted = 0;
    if (fd != STDIN_FILENO)
        return read_file(fd, to, count);
    size_t most = fault("one-by-one") && count > 1 ? 1 : count;
    if (fault("endless")) {
        memset(to, '\n', most);
        return (ssize_t)most;
    }
    if (fault("interrupted") || (fault("interruptions") && !was_interrupted)) {
        was_interrupted = 1;
        errno = EINTR;
        return -1;
    }
    was_interrupted = 0;
    ssize_t got = next(fd, to, most);
    if (got == 0 && fault("unreadable")) {
        errno = EPIPE;
        return -1;
    }
    return got;
}

/* A limit of the system itself: what passes it fails, since the signal is ignored. */
__attribute__((constructor)) static void limit_files(void)
{
    size_t most = number("file-size=", SIZE_MAX);
    struct rlimit limit = {most, most};
    if (most == SIZE_MAX)
        return;
    signal(SIGXFSZ, SIG_IGN);
    setrlimit(RLIMIT_FSIZE, &limit);
}

/* How many octets a write may take; -1 where the disk is full. */
static ssize_t room_for(size_t count)
{
    static size_t taken = 0;
    static int failed = 0;
    const char *room = fault("room=");
    if (fault("full-once") && !failed) {
        failed = 1;
        errno = ENOSPC;
        return -1;
    }
    if (!room || count == 0)
        return (ssize_t)count;
    size_t left = strtoul(room + strlen("room="), NULL, 10) - taken;
    if (left == 0) {
        errno = ENOSPC;
        return -1;
    }
    if (count > left)
        count = left;
    taken += count;
    return (ssize_t)count;
}

/* How many octets a write to a file may take; -1 where the disk is full. */
static ssize_t taken_by_disk(int fd, size_t count)
{
    static size_t taken = 0;
    const char *disk = fault("disk=");
    struct stat it;
    if (!disk || count == 0 || fd <= STDERR_FILENO || fstat(fd, &it) != 0 || !S_ISREG(it.st_mode))
        return (ssize_t)count;
    size_t left = strtoul(disk + strlen("disk="), NULL, 10) - taken;
    if (left == 0) {
        errno = ENOSPC;
        return -1;
    }
    if (count > left)
        count = left;
    taken += count;
    return (ssize_t)count;
}

static int failing(const char *name, int error)
{
    if (!fault(name))
        return 0;
    errno = error;
    return 1;
}

/* Notes a call that went well, with its paths, if that is asked for. */
static int noted(int status, const char *call, const char *path, const char *to)
{
    int (*next)(const char *, int, ...) = NEXT("open");
    int order = -1;
    if (status == 0 && fault("order"))
        order = next("order", O_CREAT | O_APPEND | O_WRONLY, 0600);
    if (order >= 0) {
        dprintf(order, "%s %s%s%s\n", call, path, *to ? " " : "", to);
        close(order);
    }
    return status;
}

/* Whether a call fails, since its path ends as the fault of this name says. */
static int is_refused_at(const char *name, const char *path)
{
    const char *word = fault(name);
    if (!word)
        return 0;
    word += strlen(name);
    size_t count = strcspn(word, " "), len = strlen(path);
    return len >= count && strncmp(path + len - count, word, count) == 0 && failing(name, EACCES);
}

/* Kills the process if this is the call that `before=` or `after=` names. */
static void die(const char *when, const char *call, const char *path, long *calls)
{
    const char *found = fault(when);
    size_t len = strlen(call);
    if (!found || strncmp(found += strlen(when), call, len) != 0 || found[len] != ':')
        return;
    char *word, wanted[256];
    long turn = strtol(found + len + 1, &word, 10);
    word += *word == ':';
    snprintf(wanted, sizeof wanted, "%.*s", (int)strcspn(word, " "), word);
    if (strstr(path, wanted) && ++*calls == turn)
        kill(getpid(), SIGKILL);
}

/* Writes the path of an open file. */
static void path_of(int fd, char *path, size_t room)
{
    char link[64];
    snprintf(link, sizeof link, "/proc/self/fd/%d", fd);
    ssize_t len = readlink(link, path, room - 1);
    path[len < 0 ? 0 : len] = 0;
}

/* Writes to a file, if the process isn't killed for that. */
static ssize_t write_file(int fd, const void *from, size_t count)
{
    ssize_t (*next)(int, const void *, size_t) = NEXT("write");
    static long before = 0, after = 0;
    char path[4096] = "";
    if (fault("before=write") || fault("after=write"))
        path_of(fd, path, sizeof path);
    die("before=", "write", path, &before);
    ssize_t done = next(fd, from, count);
    die("after=", "write", path, &after);
    return done;
}

ssize_t write(int fd, const void *from, size_t count)
{
    ssize_t (*next)(int, const void *, size_t) = NEXT("write");
    if (fd != STDOUT_FILENO) {
        ssize_t taken = taken_by_disk(fd, count);
        return taken < 0 ? taken : write_file(fd, from, (size_t)taken);
    }
    ssize_t room = room_for(count);
    return room < 0 ? room : next(fd, from, (size_t)room);
}

ssize_t writev(int fd, const struct iovec *parts, int count)
{
    ssize_t (*next)(int, const struct iovec *, int) = NEXT("writev");
    if (fd != STDOUT_FILENO || count < 1)
        return next(fd, parts, count);
    return write(fd, parts[0].iov_base, parts[0].iov_len);
}

off_t lseek(int fd, off_t offset, int whence)
{
    off_t (*next)(int, off_t, int) = NEXT("lseek");
    int is_written = (fcntl(fd, F_GETFL) & O_ACCMODE) != O_RDONLY;
    return is_written && failing("no-seek", EIO) ? -1 : next(fd, offset, whence);
}

int ftruncate(int fd, off_t length)
{
    int (*next)(int, off_t) = NEXT("ftruncate");
    return failing("no-cut", EIO) ? -1 : next(fd, length);
}

int flock(int fd, int operation)
{
    int (*next)(int, int) = NEXT("flock");
    if (failing("locked", EWOULDBLOCK) || failing("no-lock", ENOLCK))
        return -1;
    return next(fd, operation);
}

/* Copies what a file has into that of this name. */
static void keep_octets(int fd, const char *name)
{
    int (*next)(const char *, int, ...) = NEXT("open");
    char link[64], octets[65536];
    snprintf(link, sizeof link, "/proc/self/fd/%d", fd);
    int from = next(link, O_RDONLY), to = next(name, O_CREAT | O_TRUNC | O_WRONLY, 0600);
    ssize_t (*put)(int, const void *, size_t) = NEXT("write");
    for (ssize_t got; (got = pread(from, octets, sizeof octets, lseek(to, 0, SEEK_CUR))) > 0;)
        if (put(to, octets, (size_t)got) != got)
            abort();
    close(from);
    close(to);
}

/* Writes which files are in a folder, a line each: the inode and the name. */
static void keep_names(int fd, const char *name)
{
    char link[64];
    struct stat it;
    snprintf(link, sizeof link, "/proc/self/fd/%d", fd);
    DIR *folder = opendir(link);
    FILE *to = fopen(name, "w");
    for (struct dirent *each; folder && to && (each = readdir(folder));)
        if (fstatat(fd, each->d_name, &it, AT_SYMLINK_NOFOLLOW) == 0 && S_ISREG(it.st_mode))
            fprintf(to, "%lu %s\n", (unsigned long)it.st_ino, each->d_name);
    if (folder)
        closedir(folder);
    if (to)
        fclose(to);
}

/* What lasts of a disk that loses what isn't flushed to it: of a file what it had when it was
 * flushed last, under its inode, and of a folder which files it had then, under its inode with
 * `.names` behind it. */
static void keep(int fd, const struct stat *it)
{
    int (*next)(const char *, const char *) = NEXT("rename");
    const char *folder = fault("kept=");
    char name[4096], made[4200];
    if (!folder)
        return;
    folder += strlen("kept=");
    int len = (int)strcspn(folder, " ");
    snprintf(name, sizeof name, "%.*s/%lu%s", len, folder, (unsigned long)it->st_ino,
             S_ISDIR(it->st_mode) ? ".names" : "");
    snprintf(made, sizeof made, "%s.%d", name, (int)getpid());
    if (S_ISDIR(it->st_mode))
        keep_names(fd, made);
    else
        keep_octets(fd, made);
    if (next(made, name) != 0)
        abort();
}

/* Flushes a file by this function of the C library. */
static int flush_by(int (*next)(int), const char *call, int fd)
{
    static long before = 0, after = 0;
    char path[4096] = "";
    struct stat it;
    if (failing("no-sync", EIO))
        return -1;
    if (fstat(fd, &it) == 0 && S_ISDIR(it.st_mode) && failing("no-folder-sync", EIO))
        return -1;
    if (fault("order") || fault("before=sync") || fault("after=sync"))
        path_of(fd, path, sizeof path);
    die("before=", "sync", path, &before);
    int status = noted(next(fd), call, path, "");
    if (status == 0)
        keep(fd, &it);
    die("after=", "sync", path, &after);
    return status;
}

int fsync(int fd)
{
    return flush_by(NEXT("fsync"), "fsync", fd);
}

int fdatasync(int fd)
{
    return flush_by(NEXT("fdatasync"), "fdatasync", fd);
}

int rename(const char *from, const char *to)
{
    int (*next)(const char *, const char *) = NEXT("rename");
    static long before = 0, after = 0;
    if (failing("no-rename", EACCES))
        return -1;
    die("before=", "rename", from, &before);
    int status = noted(next(from, to), "rename", from, to);
    die("after=", "rename", from, &after);
    return status;
}

int link(const char *from, const char *to)
{
    int (*next)(const char *, const char *) = NEXT("link");
    static long before = 0, after = 0;
    if (failing("no-link", EPERM))
        return -1;
    die("before=", "link", from, &before);
    int status = next(from, to);
    die("after=", "link", from, &after);
    return status;
}

int unlink(const char *path)
{
    int (*next)(const char *) = NEXT("unlink");
    static long before = 0, after = 0;
    if (failing("no-unlink", EACCES) || is_refused_at("stays=", path))
        return -1;
    die("before=", "unlink", path, &before);
    int status = next(path);
    die("after=", "unlink", path, &after);
    return status;
}

int open(const char *path, int flags, ...)
{
    int (*next)(const char *, int, ...) = NEXT("open");
    va_list rest;
    va_start(rest, flags);
    mode_t mode = flags & O_CREAT ? va_arg(rest, mode_t) : 0;
    va_end(rest);
    return is_refused_at("denied=", path) ? -1 : next(path, flags, mode);
}

int socket(int domain, int type, int protocol)
{
    int (*next)(int, int, int) = NEXT("socket");
    return failing("no-socket", EMFILE) ? -1 : next(domain, type, protocol);
}

/* Leaves a mark that something was refused, if that is asked for. */
static void mark(void)
{
    int (*next)(const char *, int, ...) = NEXT("open");
    int told = fault("mark") ? next("refused", O_CREAT | O_WRONLY, 0600) : -1;
    if (told >= 0)
        close(told);
}

/* Whether this is the call of that number, or each is, by the fault of this name. */
static int is_turn(const char *name, int *calls)
{
    const char *turn = fault(name);
    *calls += 1;
    int wanted = turn ? atoi(turn + strlen(name)) : -1;
    if (wanted != 0 && wanted != *calls)
        return 0;
    mark();
    return 1;
}

/* Notes the octets of a datagram that is sent, if that is asked for. */
static void note_datagram(const unsigned char *octets, size_t count)
{
    int (*next)(const char *, int, ...) = NEXT("open");
    int wire = fault("wire") ? next("wire", O_CREAT | O_APPEND | O_WRONLY, 0600) : -1;
    if (wire < 0)
        return;
    for (size_t at = 0; at < count; at++)
        dprintf(wire, "%02X", octets[at]);
    dprintf(wire, "\n");
    close(wire);
}

ssize_t send(int fd, const void *from, size_t count, int flags)
{
    ssize_t (*next)(int, const void *, size_t, int) = NEXT("send");
    static int calls = 0, calls_lost = 0, calls_bent = 0;
    if (is_turn("send=", &calls)) {
        errno = ECONNREFUSED;
        return -1;
    }
    if (fault("lose=") && is_turn("lose=", &calls_lost))
        return (ssize_t)count;
    unsigned char bent[8192];
    if (fault("bent=") && count > 0 && count <= sizeof bent && is_turn("bent=", &calls_bent)) {
        memcpy(bent, from, count);
        bent[count - 1] ^= 1;
        from = bent;
    }
    note_datagram(from, count);
    return next(fd, from, count, flags);
}

ssize_t recv(int fd, void *to, size_t count, int flags)
{
    ssize_t (*next)(int, void *, size_t, int) = NEXT("recv");
    static int calls = 0, calls_swallowed = 0;
    ssize_t got = next(fd, to, count, flags);
    if (got >= 0 && is_turn("receive=", &calls)) {
        errno = ECONNREFUSED;
        return -1;
    }
    if (got >= 0 && fault("swallow=") && is_turn("swallow=", &calls_swallowed))
        return next(fd, to, count, flags);
    return got;
}

/* The time of day, as the fault sets it; other clocks go as ever. */
int clock_gettime(clockid_t clock, struct timespec *to)
{
    int (*next)(clockid_t, struct timespec *) = NEXT("clock_gettime");
    static struct timespec first = {0, 0};
    const char *set = fault("clock=");
    int status = next(clock, to);
    if (status != 0 || clock != CLOCK_REALTIME || !set)
        return status;
    set += strlen("clock=");
    if (strncmp(set, "at:", 3) != 0) {
        to->tv_sec += atol(set);
        return 0;
    }
    if (first.tv_sec == 0)
        first = *to;
    to->tv_sec += atol(set + 3) - first.tv_sec - (to->tv_nsec < first.tv_nsec);
    to->tv_nsec += (to->tv_nsec < first.tv_nsec ? 1000000000 : 0) - first.tv_nsec;
    return 0;
}

/* ---- memory: what the C library itself has under these names */
void *__libc_malloc(size_t size);
void *__libc_calloc(size_t count, size_t size);
void *__libc_realloc(void *old, size_t size);
void *__libc_memalign(size_t align, size_t size);

/* Whether the growth of memory that is asked for is the one that is refused. */
static int is_refused(void)
{
    static long wanted = -1, asked = 0;
    if (wanted < 0) {
        const char *memory = fault("memory=");
        wanted = memory ? atol(memory + strlen("memory=")) : 0;
    }
    asked += 1;
    if (wanted == 0 || asked != wanted)
        return 0;
    mark();
    errno = ENOMEM;
    return 1;
}

void *malloc(size_t size)
{
    return is_refused() ? NULL : __libc_malloc(size);
}

void *calloc(size_t count, size_t size)
{
    return is_refused() ? NULL : __libc_calloc(count, size);
}

void *realloc(void *old, size_t size)
{
    return is_refused() ? NULL : __libc_realloc(old, size);
}

void *aligned_alloc(size_t align, size_t size)
{
    return is_refused() ? NULL : __libc_memalign(align, size);
}

int posix_memalign(void **to, size_t align, size_t size)
{
    if (is_refused())
        return ENOMEM;
    *to = __libc_memalign(align, size);
    return *to ? 0 : ENOMEM;
}
