/* Counts the calls of the system that hd makes for files, and has one of them fail, or be short, or be the last.
 *
 *     HD_SHIM_AT=N     the call, from 1; 0 for none
 *     HD_SHIM_DO=WHAT  kill: the program is killed before it; short: it reads or writes half of what it might; a number: it fails with this error
 *     HD_SHIM_LOG=FILE each call gets a line in this file: its name, and its file
 *     HD_SHIM_TRACE=FILE each call that was done and that changes a file, or waits for one, gets a record in this file, with the bytes that it wrote
 */
#define _GNU_SOURCE
#include <dlfcn.h>
#include <errno.h>
#include <fcntl.h>
#include <signal.h>
#include <stdarg.h>
#include <stdio.h>
#include <stdlib.h>
#include <string.h>
#include <sys/stat.h>
#include <sys/syscall.h>
#include <unistd.h>

enum { NOTHING = 0, SHORT = -1 };

static long count;

static const char *name_of(int descriptor, char *name)
{
    char link[64];
    snprintf(link, sizeof link, "/proc/self/fd/%d", descriptor);
    long length = syscall(SYS_readlink, link, name, 4095);
    name[length < 0 ? 0 : length] = 0;
    return name;
}

static void tell(const char *call, const char *file)
{
    const char *log = getenv("HD_SHIM_LOG");
    if (!log)
        return;
    long to = syscall(SYS_open, log, O_WRONLY | O_CREAT | O_APPEND, 0600);
    char line[8192];
    int length = snprintf(line, sizeof line, "%s %s\n", call, file);
    syscall(SYS_write, to, line, length);
    syscall(SYS_close, to);
}

/* A record: a letter, then in eight bytes each the place or length, how long the name is and how many bytes there are; then the name and the bytes. */
static void trace(char letter, const char *name, long place, const void *bytes, size_t count)
{
    const char *file = getenv("HD_SHIM_TRACE");
    if (!file)
        return;
    int saved = errno;
    long numbers[3] = {place, strlen(name), count};
    long to = syscall(SYS_open, file, O_WRONLY | O_CREAT | O_APPEND, 0600);
    syscall(SYS_write, to, &letter, 1);
    syscall(SYS_write, to, numbers, sizeof numbers);
    syscall(SYS_write, to, name, numbers[1]);
    syscall(SYS_write, to, bytes, count);
    syscall(SYS_close, to);
    errno = saved;
}

static void trace_of(char letter, int descriptor, long place, const void *bytes, size_t count)
{
    char name[4096];
    if (getenv("HD_SHIM_TRACE"))
        trace(letter, name_of(descriptor, name), place, bytes, count);
}

/* What becomes of a call: NOTHING, SHORT, or the number of an error. */
static int turn(const char *call, const char *file)
{
    const char *at = getenv("HD_SHIM_AT"), *what = getenv("HD_SHIM_DO");
    int saved = errno;
    tell(call, file);
    errno = saved;
    if (!at || !what || ++count != atol(at))
        return NOTHING;
    if (!strcmp(what, "kill"))
        raise(SIGKILL);
    return strcmp(what, "short") ? atoi(what) : SHORT;
}

static int turn_of(const char *call, int descriptor)
{
    char name[4096];
    return turn(call, name_of(descriptor, name));
}

#define REAL(name) ((__typeof__(&name))dlsym(RTLD_NEXT, #name))

#define FAILS(becomes, answer) \
    if ((becomes) > 0) {       \
        errno = (becomes);     \
        return answer;         \
    }

static size_t part(int becomes, size_t count)
{
    return becomes == SHORT && count > 1 ? count / 2 : count;
}

int open(const char *name, int flags, ...)
{
    va_list more;
    va_start(more, flags);
    mode_t mode = flags & O_CREAT ? va_arg(more, mode_t) : 0;
    va_end(more);
    int becomes = turn("open", name);
    FAILS(becomes, -1)
    int opened = REAL(open)(name, flags, mode);
    if (opened >= 0 && flags & O_EXCL)
        trace_of('C', opened, 0, "", 0);
    return opened;
}

ssize_t read(int descriptor, void *bytes, size_t count)
{
    int becomes = turn_of("read", descriptor);
    FAILS(becomes, -1)
    return REAL(read)(descriptor, bytes, part(becomes, count));
}

ssize_t pread(int descriptor, void *bytes, size_t count, off_t place)
{
    int becomes = turn_of("pread", descriptor);
    FAILS(becomes, -1)
    return REAL(pread)(descriptor, bytes, part(becomes, count), place);
}

ssize_t write(int descriptor, const void *bytes, size_t count)
{
    char name[4096];
    int becomes = descriptor == 1 ? turn("write", "output") : turn("write", descriptor == 2 ? "errors" : name_of(descriptor, name));
    FAILS(becomes, -1)
    if (descriptor == 1)
        trace('O', "output", 0, bytes, part(becomes, count));
    return REAL(write)(descriptor, bytes, part(becomes, count));
}

ssize_t pwrite(int descriptor, const void *bytes, size_t count, off_t place)
{
    int becomes = turn_of("pwrite", descriptor);
    FAILS(becomes, -1)
    ssize_t done = REAL(pwrite)(descriptor, bytes, part(becomes, count), place);
    if (done > 0)
        trace_of('W', descriptor, place, bytes, done);
    return done;
}

int ftruncate(int descriptor, off_t length)
{
    int becomes = turn_of("ftruncate", descriptor);
    FAILS(becomes, -1)
    int done = REAL(ftruncate)(descriptor, length);
    if (done == 0)
        trace_of('T', descriptor, length, "", 0);
    return done;
}

int fsync(int descriptor)
{
    int becomes = turn_of("fsync", descriptor);
    FAILS(becomes, -1)
    int done = REAL(fsync)(descriptor);
    if (done == 0)
        trace_of('S', descriptor, 0, "", 0);
    return done;
}

int flock(int descriptor, int how)
{
    int becomes = turn_of("flock", descriptor);
    FAILS(becomes, -1)
    return REAL(flock)(descriptor, how);
}

int fchmod(int descriptor, mode_t mode)
{
    int becomes = turn_of("fchmod", descriptor);
    FAILS(becomes, -1)
    return REAL(fchmod)(descriptor, mode);
}

int fchown(int descriptor, uid_t user, gid_t group)
{
    int becomes = turn_of("fchown", descriptor);
    FAILS(becomes, -1)
    return REAL(fchown)(descriptor, user, group);
}

int rename(const char *from, const char *to)
{
    int becomes = turn("rename", from);
    FAILS(becomes, -1)
    return REAL(rename)(from, to);
}

int unlink(const char *name)
{
    int becomes = turn("unlink", name);
    FAILS(becomes, -1)
    int done = REAL(unlink)(name);
    if (done == 0)
        trace('U', name, 0, "", 0);
    return done;
}

char *realpath(const char *name, char *path)
{
    int becomes = turn("realpath", name);
    FAILS(becomes, NULL)
    return REAL(realpath)(name, path);
}

int statx(int folder, const char *name, int flags, unsigned mask, struct statx *found)
{
    int becomes = *name ? turn("statx", name) : turn_of("statx", folder);
    FAILS(becomes, -1)
    return REAL(statx)(folder, name, flags, mask, found);
}
