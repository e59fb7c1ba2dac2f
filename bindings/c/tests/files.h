/* What programs that test stations with folders share: files whose octets follow from a length and
 * a kind, the folders of two stations, and a device that is full. Include it in one file of a
 * program, which defines _POSIX_C_SOURCE or _DEFAULT_SOURCE before. */
#ifndef CFDP_FILES_H
#define CFDP_FILES_H

#include <signal.h>
#include <stdbool.h>
#include <stddef.h>
#include <stdint.h>
#include <stdio.h>
#include <sys/resource.h>
#include <sys/stat.h>
#include <unistd.h>

/* Returns an octet of the files of a kind, by its offset. */
static inline uint8_t octet_at(size_t at, uint32_t kind)
{
    return (uint8_t)((at * 2654435761u + kind * 40503u) >> 13);
}

/* Writes a file of this length and kind. Returns true if all of it is written. */
static inline bool write_file(const char *path, size_t len, uint32_t kind)
{
    FILE *file = fopen(path, "wb");
    size_t at;

    if (file == NULL)
        return false;
    for (at = 0; at < len; at++)
        putc(octet_at(at, kind), file);
    return fclose(file) == 0;
}

/* Returns true if there is a file of this length and kind. */
static inline bool is_file(const char *path, size_t len, uint32_t kind)
{
    FILE *file = fopen(path, "rb");
    size_t at = 0;
    bool same = file != NULL;
    int octet;

    while (same && (octet = getc(file)) != EOF) {
        same = at < len && octet == octet_at(at, kind);
        at++;
    }
    if (file != NULL)
        fclose(file);
    return same && at == len;
}

static inline bool is_there(const char *path)
{
    return access(path, F_OK) == 0;
}

/* Makes the folders of stations 1 and 2 here, and one more inbox. Returns true if all are made. */
static inline bool make_folders(void)
{
    static const char *const folders[] = {"out1", "out2", "in1", "in2", "in3"};
    bool are_made = true;
    size_t at;

    for (at = 0; at < sizeof folders / sizeof folders[0]; at++)
        are_made = mkdir(folders[at], 0777) == 0 && are_made;
    return are_made;
}

/* Lets no file grow beyond so many octets: a write that would fails, as on a full device. Returns
 * the limit before. */
static inline rlim_t limit_file_size(rlim_t most)
{
    struct rlimit limit;
    rlim_t before;

    signal(SIGXFSZ, SIG_IGN);
    getrlimit(RLIMIT_FSIZE, &limit);
    before = limit.rlim_cur;
    limit.rlim_cur = most;
    setrlimit(RLIMIT_FSIZE, &limit);
    return before;
}

#endif
