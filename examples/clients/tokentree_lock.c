/* The lock of a tokentree node, for C and POSIX.
 *
 *     struct lock lock;
 *     if (lock_acquire(&lock, "/tmp/nodes/desk-1.sock", 5000) == GRANTED) {
 *         ...                              you hold the lock; ask lock_is_lost(&lock) now and then
 *         if (!lock_release(&lock)) ...    it was lost meanwhile
 *     }
 * As a program it holds the lock until standard input ends: cc -o lock tokentree_lock.c && ./lock SOCKET SECONDS */
#include <poll.h>
#include <stdio.h>
#include <stdlib.h>
#include <string.h>
#include <sys/socket.h>
#include <sys/un.h>
#include <time.h>
#include <unistd.h>

enum outcome { GRANTED = 0, LATE = 124, UNAVAILABLE = 125 };
struct lock { int fd, lost; size_t have; char line[256]; };

static long now(void) { /* in milliseconds */
    struct timespec at;
    clock_gettime(CLOCK_MONOTONIC, &at);
    return at.tv_sec * 1000 + at.tv_nsec / 1000000;
}

/* Reads the node's next line. 1: it stands in `line`; 0: none came within `wait` milliseconds; -1: the connection has ended. */
static int next_line(struct lock *lock, long wait) {
    for (long end = now() + wait;;) {
        struct pollfd readable = {lock->fd, POLLIN, 0};
        long left = end - now();
        char *next = lock->line + lock->have;
        if (poll(&readable, 1, left > 0 ? (int)left : 0) == 0) return 0;
        if (++lock->have > sizeof lock->line || read(lock->fd, next, 1) != 1) return -1;
        if (*next == '\n') {
            *next = '\0';
            lock->have = 0;
            return 1;
        }
    }
}

static enum outcome lock_acquire(struct lock *lock, const char *path, long limit) { /* `limit` in milliseconds */
    struct sockaddr_un desk = {.sun_family = AF_UNIX};
    int came = -1;
    *lock = (struct lock){.fd = socket(AF_UNIX, SOCK_STREAM, 0)};
    strncpy(desk.sun_path, path, sizeof desk.sun_path - 1);
    if (connect(lock->fd, (struct sockaddr *)&desk, sizeof desk) == 0 && send(lock->fd, "lock\n", 5, MSG_NOSIGNAL) == 5)
        came = next_line(lock, limit);
    if (came == 1 && strcmp(lock->line, "granted") == 0) return GRANTED;
    close(lock->fd);
    return came == 0 ? LATE : UNAVAILABLE;
}

static int lock_is_lost(struct lock *lock) {
    return lock->lost = lock->lost || next_line(lock, 0) != 0;
}

static int lock_release(struct lock *lock) { /* whether it was held all the time */
    int held = !lock->lost && send(lock->fd, "unlock\n", 7, MSG_NOSIGNAL) == 7 && next_line(lock, 10000) == 1
               && strcmp(lock->line, "released") == 0;
    close(lock->fd);
    return held;
}

int main(int count, char **words) {
    struct lock lock;
    char piece[4096];
    enum outcome outcome = count == 3 ? lock_acquire(&lock, words[1], atol(words[2]) * 1000) : UNAVAILABLE;
    if (outcome != GRANTED) return outcome;
    puts("granted");
    fflush(stdout);
    struct pollfd both[] = {{lock.fd, POLLIN, 0}, {STDIN_FILENO, POLLIN, 0}};
    while (!lock_is_lost(&lock) && poll(both, 2, -1) > 0)
        if (both[1].revents && read(STDIN_FILENO, piece, sizeof piece) <= 0) break;
    int held = lock_release(&lock);
    puts(held ? "released" : "lost");
    return held ? 0 : 122;
}
