/* What the examples share: a Unix socket, and one turn of a loop over a handle and its socket. */
#ifndef LINK_H
#define LINK_H
#include <errno.h>
#include <poll.h>
#include <stdint.h>
#include <stdio.h>
#include <string.h>
#include <sys/socket.h>
#include <sys/uio.h>
#include <sys/un.h>
#include <unistd.h>
#include <lnbd.h>

/* A socket that is connected to this path, and does not block; -1 with a message where it can't be had. */
static inline int link_to(const char *path) {
    struct sockaddr_un to;
    int fd = socket(AF_UNIX, SOCK_STREAM | SOCK_NONBLOCK | SOCK_CLOEXEC, 0);
    memset(&to, 0, sizeof to);
    to.sun_family = AF_UNIX;
    if (strlen(path) >= sizeof to.sun_path) {
        fprintf(stderr, "%s: too long\n", path);
        if (fd >= 0) close(fd);
        return -1;
    }
    strcpy(to.sun_path, path);
    if (fd < 0 || connect(fd, (struct sockaddr *)&to, sizeof to) < 0) {
        perror(path);
        if (fd >= 0) close(fd);
        return -1;
    }
    return fd;
}

static inline int is_later(void) { return errno == EAGAIN || errno == EWOULDBLOCK || errno == EINTR; }

/* Writes what waits, as far as the socket takes it. */
static inline void write_out(lnbd_handle *h, int fd) {
    const uint8_t *at;
    size_t n;
    while (lnbd_out(h, &at, &n) == LNBD_OK && n > 0) {
        ssize_t wrote = send(fd, at, n, MSG_NOSIGNAL);
        if (wrote < 0) {
            if (!is_later()) lnbd_link_failed(h);
            return;
        }
        lnbd_wrote(h, (size_t)wrote);
    }
}

/* Hands in bytes that were read. Where memory runs out the rest is handed in again, as long as some of it is taken. */
static inline int hand_in(lnbd_handle *h, const uint8_t *at, size_t left) {
    size_t taken;
    while (left > 0) {
        lnbd_code code = lnbd_arrive(h, at, left, &taken);
        if (code != LNBD_OK && (code != LNBD_NO_MEMORY || taken == 0)) return 0;
        at += taken;
        left -= taken;
    }
    return 1;
}

/* Reads what came: the data of a read into the place where they are to lie, and what comes behind them into a buffer, which is small where data may
 * follow: so the head of the next reply comes with the data before it, and few data are copied. */
static inline void read_in(lnbd_handle *h, int fd) {
    enum { HEADS = 64 };
    uint8_t buffer[65536];
    size_t room = HEADS;
    for (;;) {
        uint8_t *place = NULL;
        size_t n = 0;
        lnbd_place(h, &place, &n);
        if (n > 0) room = HEADS;
        struct iovec parts[2] = { { place, n }, { buffer, room } };
        ssize_t got = readv(fd, parts, 2);
        if (got <= 0) {
            if (got == 0) lnbd_ended(h);
            else if (!is_later()) lnbd_link_failed(h);
            return;
        }
        size_t placed = (size_t)got < n ? (size_t)got : n;
        if (placed > 0) lnbd_placed(h, placed);
        if (!hand_in(h, buffer, (size_t)got - placed)) lnbd_link_failed(h);
        if ((size_t)got < n + room) return;
        room = sizeof buffer;
    }
}

/* One turn: writes what waits, waits until something may be done, and reads what came. 0 once nothing may be read or written any more. */
static inline int turn(lnbd_handle *h, int fd) {
    write_out(h, fd);
    lnbd_code direction = lnbd_aio_get_direction(h);
    if (direction <= 0) return 0;
    struct pollfd p = { fd, direction == LNBD_DIRECTION_BOTH ? POLLIN | POLLOUT : POLLIN, 0 };
    if (poll(&p, 1, -1) < 0 && errno != EINTR) lnbd_link_failed(h);
    if (p.revents & (POLLIN | POLLHUP | POLLERR)) read_in(h, fd);
    return 1;
}

/* Why it did not work, in words. */
static inline int give_up(lnbd_handle *h, const char *what, lnbd_code code) {
    uint32_t kind = 0, detail = 0;
    if (lnbd_get_death(h, &kind, &detail) == LNBD_OK)
        fprintf(stderr, "%s: the connection is gone: kind %u, detail %u\n", what, (unsigned)kind, (unsigned)detail);
    else
        fprintf(stderr, "%s: %s\n", what, lnbd_code_name(code));
    lnbd_close(h);
    return 1;
}
#endif
