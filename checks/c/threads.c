/* A handle that goes from thread to thread: one makes it, the next connects it, the next reads, and the first closes it while eight reads are in flight.
 *
 *     threads SOCKET
 */
#include <inttypes.h>
#include <pthread.h>
#include "link.h"

enum { PIECE = 65536, LEFT = 8 };

struct shared {
    lnbd_handle h;
    const char *path;
    int fd, failed;
    size_t got, in_flight;
};

static void *connects(void *at) {
    struct shared *s = at;
    lnbd_start(&s->h);
    while (lnbd_state(&s->h) == LNBD_STATE_NEGOTIATING && turn(&s->h, s->fd)) {}
    s->failed |= lnbd_state(&s->h) != LNBD_STATE_READY;
    return NULL;
}

static void *reads(void *at) {
    struct shared *s = at;
    uint64_t cookie, done;
    const uint8_t *bytes;
    uint32_t error;
    lnbd_code code;
    s->failed |= lnbd_aio_pread(&s->h, PIECE, 0, 0, &cookie) != LNBD_OK;
    while ((code = lnbd_aio_peek_command_completed(&s->h, &done)) == LNBD_NOT_YET && turn(&s->h, s->fd)) {}
    s->failed |= code != LNBD_OK || done != cookie || lnbd_aio_command_completed(&s->h, cookie, &error, &bytes, &s->got) != LNBD_OK || error != 0;
    for (int i = 0; i < LEFT; i++) s->failed |= lnbd_aio_pread(&s->h, PIECE, (uint64_t)i * PIECE, 0, &cookie) != LNBD_OK;
    write_out(&s->h, s->fd);
    s->failed |= lnbd_aio_in_flight(&s->h, &s->in_flight) != LNBD_OK;
    return NULL;
}

int main(int argc, char **argv) {
    struct shared s = { LNBD_HANDLE_INIT, argc > 1 ? argv[1] : "", -1, 0, 0, 0 };
    void *(*const parts[])(void *) = { connects, reads };
    if ((s.fd = link_to(s.path)) < 0 || lnbd_create(&s.h) != LNBD_OK) return 1;
    for (int i = 0; i < 2; i++) {
        pthread_t thread;
        if (pthread_create(&thread, NULL, parts[i], &s) != 0 || pthread_join(thread, NULL) != 0) return 1;
    }
    lnbd_close(&s.h);
    close(s.fd);
    printf("%zu bytes, %zu in flight\n", s.got, s.in_flight);
    return s.failed;
}
