// A library that is loaded in front of the C library and makes one call of a kind fail: call number FAIL_AT (from 0) of
// the kind FAIL_CALLS, with the error FAIL_ERROR. All other calls are the C library's own. After the failure it makes
// the file FAIL_MARK. It does so only in processes of the program FAIL_PROGRAM. bench/failures.sh builds and uses it:
//
//   cc -shared -fPIC -O1 -o failing-calls.so failing-calls.c
//   LD_PRELOAD=./failing-calls.so FAIL_PROGRAM=tokentree FAIL_CALLS=write FAIL_AT=2 FAIL_ERROR=28 FAIL_MARK=/tmp/mark tokentree ..
//
// Kinds: memory, open, read, write, status (of a file), length, remove, folder, lock (of a file), socket, bind, connect, accept,
// poll, clock, pipe, process, wait, thread.
#define _GNU_SOURCE
#include <dlfcn.h>
#include <errno.h>
#include <fcntl.h>
#include <poll.h>
#include <pthread.h>
#include <spawn.h>
#include <stdarg.h>
#include <stdatomic.h>
#include <stdlib.h>
#include <string.h>
#include <sys/epoll.h>
#include <sys/file.h>
#include <sys/socket.h>
#include <sys/stat.h>
#include <sys/syscall.h>
#include <sys/uio.h>
#include <sys/wait.h>
#include <time.h>
#include <unistd.h>

static const char *kind, *mark;
static long at = -1;
static int error = EIO;
static atomic_long calls;

static void __attribute__((constructor)) begin(void) {
    const char *text = getenv("FAIL_AT");
    const char *program = getenv("FAIL_PROGRAM");
    kind = program && strcmp(program, program_invocation_short_name) == 0 ? getenv("FAIL_CALLS") : NULL;
    mark = getenv("FAIL_MARK");
    at = text ? strtol(text, NULL, 10) : -1;
    text = getenv("FAIL_ERROR");
    error = text ? (int)strtol(text, NULL, 10) : EIO;
}

// Whether this call of a kind is the one that fails.
static int fails(const char *of) {
    if (!kind || at < 0 || strcmp(kind, of) != 0 || atomic_fetch_add(&calls, 1) != at) return 0;
    if (mark) {
        long fd = syscall(SYS_openat, AT_FDCWD, mark, O_CREAT | O_WRONLY, 0600);
        if (fd >= 0) syscall(SYS_close, fd);
    }
    errno = error;
    return 1;
}

#define NEXT(name) __extension__({ static __typeof__(&name) next; if (!next) next = (__typeof__(&name))dlsym(RTLD_NEXT, #name); next; })

#define WRAP(of, type, name, parameters, arguments) \
    type name parameters { return fails(of) ? (type)-1 : NEXT(name) arguments; }

// Memory: the C library's own allocator is still there under its other names.
extern void *__libc_malloc(size_t), *__libc_calloc(size_t, size_t), *__libc_realloc(void *, size_t), *__libc_memalign(size_t, size_t);
void *malloc(size_t size) { return fails("memory") ? NULL : __libc_malloc(size); }
void *calloc(size_t count, size_t size) { return fails("memory") ? NULL : __libc_calloc(count, size); }
void *realloc(void *old, size_t size) { return fails("memory") ? NULL : __libc_realloc(old, size); }
void *aligned_alloc(size_t align, size_t size) { return fails("memory") ? NULL : __libc_memalign(align, size); }
int posix_memalign(void **out, size_t align, size_t size) {
    if (fails("memory")) return ENOMEM;
    *out = __libc_memalign(align, size);
    return *out ? 0 : ENOMEM;
}

#define WRAP_OPEN(name)                                                        \
    int name(const char *path, int flags, ...) {                               \
        va_list more;                                                          \
        va_start(more, flags);                                                 \
        mode_t mode = va_arg(more, mode_t);                                    \
        va_end(more);                                                          \
        return fails("open") ? -1 : NEXT(name)(path, flags, mode);             \
    }
#define WRAP_OPENAT(name)                                                      \
    int name(int folder, const char *path, int flags, ...) {                   \
        va_list more;                                                          \
        va_start(more, flags);                                                 \
        mode_t mode = va_arg(more, mode_t);                                    \
        va_end(more);                                                          \
        return fails("open") ? -1 : NEXT(name)(folder, path, flags, mode);     \
    }
WRAP_OPEN(open)
WRAP_OPEN(open64)
WRAP_OPENAT(openat)
WRAP_OPENAT(openat64)

WRAP("read", ssize_t, read, (int fd, void *to, size_t count), (fd, to, count))
WRAP("read", ssize_t, readv, (int fd, const struct iovec *to, int count), (fd, to, count))
WRAP("read", ssize_t, recv, (int fd, void *to, size_t count, int flags), (fd, to, count, flags))
WRAP("write", ssize_t, write, (int fd, const void *from, size_t count), (fd, from, count))
WRAP("write", ssize_t, writev, (int fd, const struct iovec *from, int count), (fd, from, count))
WRAP("write", ssize_t, send, (int fd, const void *from, size_t count, int flags), (fd, from, count, flags))
WRAP("status", int, stat, (const char *path, struct stat *to), (path, to))
WRAP("status", int, lstat, (const char *path, struct stat *to), (path, to))
WRAP("status", int, fstat, (int fd, struct stat *to), (fd, to))
WRAP("status", int, stat64, (const char *path, struct stat64 *to), (path, to))
WRAP("status", int, lstat64, (const char *path, struct stat64 *to), (path, to))
WRAP("status", int, fstat64, (int fd, struct stat64 *to), (fd, to))
WRAP("status", int, statx, (int folder, const char *path, int flags, unsigned mask, struct statx *to), (folder, path, flags, mask, to))
WRAP("length", int, ftruncate, (int fd, off_t length), (fd, length))
WRAP("length", int, ftruncate64, (int fd, off64_t length), (fd, length))
WRAP("remove", int, unlink, (const char *path), (path))
WRAP("remove", int, unlinkat, (int folder, const char *path, int flags), (folder, path, flags))
WRAP("folder", int, mkdir, (const char *path, mode_t mode), (path, mode))
WRAP("lock", int, flock, (int fd, int operation), (fd, operation))
WRAP("socket", int, socket, (int domain, int type, int protocol), (domain, type, protocol))
WRAP("bind", int, bind, (int fd, const struct sockaddr *address, socklen_t length), (fd, address, length))
WRAP("bind", int, listen, (int fd, int backlog), (fd, backlog))
WRAP("connect", int, connect, (int fd, const struct sockaddr *address, socklen_t length), (fd, address, length))
WRAP("accept", int, accept, (int fd, struct sockaddr *address, socklen_t *length), (fd, address, length))
WRAP("accept", int, accept4, (int fd, struct sockaddr *address, socklen_t *length, int flags), (fd, address, length, flags))
WRAP("poll", int, epoll_create1, (int flags), (flags))
WRAP("poll", int, epoll_ctl, (int poll, int operation, int fd, struct epoll_event *event), (poll, operation, fd, event))
WRAP("poll", int, epoll_wait, (int poll, struct epoll_event *events, int most, int time), (poll, events, most, time))
WRAP("poll", int, poll, (struct pollfd *fds, nfds_t count, int time), (fds, count, time))
WRAP("clock", int, clock_gettime, (clockid_t clock, struct timespec *to), (clock, to))
WRAP("pipe", int, pipe, (int fds[2]), (fds))
WRAP("pipe", int, pipe2, (int fds[2], int flags), (fds, flags))
WRAP("process", pid_t, fork, (void), ())
WRAP("wait", pid_t, waitpid, (pid_t pid, int *status, int options), (pid, status, options))
int posix_spawn(pid_t *pid, const char *path, const posix_spawn_file_actions_t *actions, const posix_spawnattr_t *attributes,
                char *const words[], char *const environment[]) {
    return fails("process") ? error : NEXT(posix_spawn)(pid, path, actions, attributes, words, environment);
}
int posix_spawnp(pid_t *pid, const char *path, const posix_spawn_file_actions_t *actions, const posix_spawnattr_t *attributes,
                 char *const words[], char *const environment[]) {
    return fails("process") ? error : NEXT(posix_spawnp)(pid, path, actions, attributes, words, environment);
}
int pthread_create(pthread_t *thread, const pthread_attr_t *attributes, void *(*start)(void *), void *argument) {
    return fails("thread") ? error : NEXT(pthread_create)(thread, attributes, start, argument);
}
