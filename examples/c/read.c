/* Reads a whole export, 64 reads of 256 KiB in flight, and prints how many bytes it has.
 *
 *     cc read.c $(pkg-config --cflags --libs lnbd) -o read
 *     ./read SOCKET [buffers] [sum]      with 'buffers' the data are received into buffers of the program's own, with 'sum' their checksum is printed too
 */
#include <inttypes.h>
#include <stdbool.h>
#include <stdlib.h>
#include "link.h"
#ifdef __GLIBC__
#include <malloc.h>
#endif

enum { IN_FLIGHT = 64, PIECE = 262144 };

/* How far the program is. */
struct reading {
    bool with_buffers, with_sum;
    uint64_t size, asked, got, sum;
    int flying, spare;
    lnbd_buffer pool[IN_FLIGHT]; /* of which the first `spare` hold a buffer */
};

/* Adds the bytes to the checksum, in words of 8 bytes, where one is wanted. */
static void use(struct reading *r, const uint8_t *at, size_t n) {
    uint64_t word;
    r->got += n;
    if (!r->with_sum) return;
    for (; n >= 8; at += 8, n -= 8) {
        memcpy(&word, at, 8);
        r->sum += word;
    }
    for (; n > 0; n--) r->sum += *at++;
}

/* Asks for n bytes into a buffer: one that came back, or a new one. */
static lnbd_code ask_into(lnbd_handle *h, struct reading *r, size_t n, uint64_t *cookie) {
    lnbd_buffer fresh = LNBD_BUFFER_INIT;
    if (n == PIECE && r->spare > 0) {
        lnbd_code code = lnbd_aio_pread_into(h, &r->pool[r->spare - 1], r->asked, 0, cookie);
        if (code == LNBD_OK) r->spare--;
        return code;
    }
    lnbd_code code = lnbd_buffer_create(&fresh, n);
    if (code == LNBD_OK) code = lnbd_aio_pread_into(h, &fresh, r->asked, 0, cookie);
    if (code != LNBD_OK) lnbd_buffer_close(&fresh);
    return code;
}

/* Asks for what is not asked for, as far as so many reads may be in flight. */
static lnbd_code ask(lnbd_handle *h, struct reading *r) {
    uint64_t cookie;
    while (r->flying < IN_FLIGHT && r->asked < r->size) {
        size_t n = r->size - r->asked < PIECE ? (size_t)(r->size - r->asked) : PIECE;
        lnbd_code code = r->with_buffers ? ask_into(h, r, n, &cookie) : lnbd_aio_pread(h, n, r->asked, 0, &cookie);
        if (code != LNBD_OK) return code;
        r->asked += n;
        r->flying++;
    }
    return LNBD_OK;
}

/* Takes one result: its bytes are lent, or come back in their buffer. */
static lnbd_code take(lnbd_handle *h, struct reading *r, uint64_t cookie, uint32_t *error) {
    lnbd_buffer back = LNBD_BUFFER_INIT;
    const uint8_t *at;
    uint8_t *bytes;
    size_t n;
    r->flying--;
    if (!r->with_buffers) {
        lnbd_code code = lnbd_aio_command_completed(h, cookie, error, &at, &n);
        if (code == LNBD_OK && *error == 0) use(r, at, n);
        return code;
    }
    lnbd_code code = lnbd_aio_command_completed_into(h, cookie, error, &back);
    if (code != LNBD_OK) return code;
    lnbd_buffer_bytes(&back, &bytes, &n);
    if (*error == 0) use(r, bytes, n);
    if (n == PIECE && r->spare < IN_FLIGHT) r->pool[r->spare++] = back; /* (it moves: `back` is used no more) */
    else lnbd_buffer_close(&back);
    return LNBD_OK;
}

/* Reads the export to its end and leaves: 0, or 1 with a message. */
static int read_all(lnbd_handle *h, struct reading *r, int fd, const char *path) {
    bool is_leaving = false;
    uint64_t cookie;
    uint32_t error = 0;
    lnbd_code code;
    do {
        while (lnbd_aio_peek_command_completed(h, &cookie) == LNBD_OK) {
            if ((code = take(h, r, cookie, &error)) != LNBD_OK) return give_up(h, "result", code);
            if (error != 0) {
                fprintf(stderr, "a read failed: %s\n", strerror((int)error));
                return 1;
            }
        }
        if (lnbd_state(h) == LNBD_STATE_READY) {
            lnbd_get_size(h, &r->size);
            if ((code = ask(h, r)) != LNBD_OK) return give_up(h, "read", code);
            if (r->got == r->size && !is_leaving) is_leaving = lnbd_aio_disconnect(h) == LNBD_OK;
        }
    } while (turn(h, fd));
    return lnbd_state(h) == LNBD_STATE_CLOSED && r->got == r->size ? 0 : give_up(h, path, LNBD_DEAD);
}

int main(int argc, char **argv) {
    static struct reading r;
    lnbd_handle h = LNBD_HANDLE_INIT;
    lnbd_code code;
    for (int i = 2; i < argc; i++) {
        r.with_buffers |= strcmp(argv[i], "buffers") == 0;
        r.with_sum |= strcmp(argv[i], "sum") == 0;
    }
    if (argc < 2) {
        fprintf(stderr, "usage: read SOCKET [buffers] [sum]\n");
        return 2;
    }
    int fd = link_to(argv[1]);
    if (fd < 0) return 1;
#ifdef __GLIBC__
    /* (glibc gives the bytes of each result back to the system as they are freed, and takes them again for the next read, but where it is told not to) */
    mallopt(M_MMAP_THRESHOLD, LNBD_MAX_DATA);
    mallopt(M_TRIM_THRESHOLD, 2 * LNBD_MAX_DATA);
#endif
    if ((code = lnbd_create(&h)) != LNBD_OK) return give_up(&h, "create", code);
    lnbd_start(&h);
    int failed = read_all(&h, &r, fd, argv[1]);
    while (r.spare > 0) lnbd_buffer_close(&r.pool[--r.spare]);
    lnbd_close(&h);
    close(fd);
    if (failed) return 1;
    printf("%" PRIu64 " bytes", r.got);
    if (r.with_sum) printf(", sum %016" PRIx64, r.sum);
    printf("\n");
    return 0;
}
