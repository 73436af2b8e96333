/* A library that is preloaded ends the process at one of its calls to the system, as a power cut would: before the call whose number CUT
 * says, counted from 1. With COUNT_TO, the descriptor of a file, it writes there how many there were; with TRACE_TO the name of each, and of
 * `open` the path. With FAIL, the name of a call that changes
 * files, such calls fail for want of space, as on a full disk, as long as a file is at the path in FULL. Both are of files alone: what is
 * printed, and what is sent to a socket, isn't written to a full disk. */
#define _GNU_SOURCE
#include <dlfcn.h>
#include <errno.h>
#include <fcntl.h>
#include <stdarg.h>
#include <stdio.h>
#include <stdlib.h>
#include <string.h>
#include <sys/file.h>
#include <sys/socket.h>
#include <sys/stat.h>
#include <sys/syscall.h>
#include <unistd.h>

static long calls;

static void count_call(const char *name, const char *path)
{
    const char *cut = getenv("CUT"), *count = getenv("COUNT_TO"), *trace = getenv("TRACE_TO");
    calls++;
    if (count != NULL)
        pwrite(atoi(count), &calls, sizeof calls, 0);
    if (trace != NULL) {
        char line[300];
        int size = snprintf(line, sizeof line, "%s %s\n", name, path);
        syscall(SYS_write, atoi(trace), line, size);
    }
    if (cut != NULL && calls == atol(cut))
        _exit(137);
}

static int fails(const char *call)
{
    const char *fail = getenv("FAIL"), *full = getenv("FULL");
    if (fail == NULL || full == NULL || strcmp(fail, call) != 0 || syscall(SYS_access, full, F_OK) != 0)
        return 0;
    errno = ENOSPC;
    return 1;
}

static int is_regular(int file)
{
    struct stat found;
    return fstat(file, &found) == 0 && S_ISREG(found.st_mode);
}

#define NEXT(type, name, ...) ((type)dlsym(RTLD_NEXT, name))(__VA_ARGS__)

#define COUNTED(result, name, wanted, given)                                        \
    result name wanted                                                              \
    {                                                                               \
        count_call(#name, "");                                                      \
        return ((result(*) wanted)dlsym(RTLD_NEXT, #name)) given;                   \
    }

#define FAILING(name, wanted, given)                                                \
    int name wanted                                                                 \
    {                                                                               \
        count_call(#name, "");                                                      \
        return fails(#name) ? -1 : ((int (*) wanted)dlsym(RTLD_NEXT, #name)) given; \
    }

FAILING(rename, (const char *from, const char *to), (from, to))
FAILING(link, (const char *from, const char *to), (from, to))
FAILING(mkdir, (const char *path, mode_t mode), (path, mode))
COUNTED(int, unlink, (const char *path), (path))
COUNTED(int, rmdir, (const char *path), (path))
COUNTED(int, chmod, (const char *path, mode_t mode), (path, mode))
COUNTED(int, flock, (int file, int how), (file, how))
COUNTED(int, close, (int file), (file))
COUNTED(int, socket, (int family, int type, int protocol), (family, type, protocol))
COUNTED(int, bind, (int file, const struct sockaddr *to, socklen_t size), (file, to, size))
COUNTED(int, listen, (int file, int most), (file, most))
COUNTED(int, connect, (int file, const struct sockaddr *to, socklen_t size), (file, to, size))
COUNTED(int, accept4, (int file, struct sockaddr *from, socklen_t *size, int flags), (file, from, size, flags))
COUNTED(ssize_t, read, (int file, void *bytes, size_t count), (file, bytes, count))
COUNTED(ssize_t, send, (int file, const void *bytes, size_t count, int flags), (file, bytes, count, flags))
COUNTED(ssize_t, recv, (int file, void *bytes, size_t count, int flags), (file, bytes, count, flags))

int fsync(int file)
{
    count_call("fsync", "");
    if (fails(is_regular(file) ? "fsync" : "fsync of a folder"))
        return -1;
    return NEXT(int (*)(int), "fsync", file);
}

ssize_t write(int file, const void *bytes, size_t count)
{
    count_call("write", "");
    if (is_regular(file) && file > 2 && fails("write"))
        return -1;
    return NEXT(ssize_t (*)(int, const void *, size_t), "write", file, bytes, count);
}

int open(const char *path, int flags, ...)
{
    va_list more;
    va_start(more, flags);
    mode_t mode = (flags & O_CREAT) ? va_arg(more, mode_t) : 0;
    va_end(more);
    count_call("open", path);
    if ((flags & O_CREAT) && syscall(SYS_access, path, F_OK) != 0 && fails("open"))
        return -1;
    return NEXT(int (*)(const char *, int, ...), "open", path, flags, mode);
}
