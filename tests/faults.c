/* Faults for tests/faults.py, put before the C library by LD_PRELOAD: reading and writing of files whose name has FAULT_PATH in it, and the
 * clock.
 *   FAULT_READ=N      after N bytes of a file reading fails with EIO; FAULT_READ=short hands one byte over at a time
 *   FAULT_WRITE=N     after N bytes writing fails with ENOSPC; FAULT_WRITE=short takes one byte at a time
 *   FAULT_FSYNC=1     fsync fails with EIO
 *   FAULT_RENAME=1    rename to such a name fails with EIO
 *   FAULT_CLOCK=S     the clock is S seconds off
 */
#define _GNU_SOURCE
#include <dlfcn.h>
#include <errno.h>
#include <stdio.h>
#include <stdlib.h>
#include <string.h>
#include <time.h>
#include <unistd.h>

#define REAL(name) ((__typeof__(&name))dlsym(RTLD_NEXT, #name))
enum { FILES = 1024 };

static long long done[2][FILES];

/* The value of a variable, where the file is one that faults are asked for. */
static const char *asked(int file, const char *variable) {
    const char *value = getenv(variable), *part = getenv("FAULT_PATH");
    char link[64], path[4096];
    if (!value || !part || file < 0 || file >= FILES) return NULL;
    snprintf(link, sizeof link, "/proc/self/fd/%d", file);
    ssize_t length = readlink(link, path, sizeof path - 1);
    if (length < 0) return NULL;
    path[length] = 0;
    return strstr(path, part) ? value : NULL;
}

/* How many bytes may pass now: at most `count`, 0 where it is time to fail. */
static size_t room(int file, int way, const char *value, size_t count) {
    if (!strcmp(value, "short")) return count ? 1 : 0;
    long long left = atoll(value) - done[way][file];
    return left <= 0 ? 0 : (size_t)left < count ? (size_t)left : count;
}

ssize_t read(int file, void *out, size_t count) {
    const char *value = asked(file, "FAULT_READ");
    if (!value) return REAL(read)(file, out, count);
    size_t most = room(file, 0, value, count);
    if (!most && count) {
        done[0][file] = 0;
        errno = EIO;
        return -1;
    }
    ssize_t got = REAL(read)(file, out, most);
    done[0][file] = got <= 0 ? 0 : done[0][file] + got;
    return got;
}

ssize_t write(int file, const void *in, size_t count) {
    const char *value = asked(file, "FAULT_WRITE");
    if (!value) return REAL(write)(file, in, count);
    size_t most = room(file, 1, value, count);
    if (!most && count) {
        errno = ENOSPC;
        return -1;
    }
    ssize_t got = REAL(write)(file, in, most);
    if (got > 0) done[1][file] += got;
    return got;
}

int fsync(int file) {
    if (!asked(file, "FAULT_FSYNC")) return REAL(fsync)(file);
    errno = EIO;
    return -1;
}

int rename(const char *from, const char *to) {
    const char *part = getenv("FAULT_PATH");
    if (!getenv("FAULT_RENAME") || !part || !strstr(to, part)) return REAL(rename)(from, to);
    errno = EIO;
    return -1;
}

int clock_gettime(clockid_t which, struct timespec *time) {
    int reply = REAL(clock_gettime)(which, time);
    const char *off = getenv("FAULT_CLOCK");
    if (off && which == CLOCK_REALTIME) time->tv_sec += atoll(off);
    return reply;
}
