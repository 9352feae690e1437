/* Prints what an export consists of, by its meta context base:allocation: offset, length and flags of each extent, as `nbdinfo --map` does.
 *
 *     cc map.c $(pkg-config --cflags --libs lnbd) -o map
 *     ./map SOCKET
 */
#include <inttypes.h>
#include "link.h"

static const uint8_t CONTEXT[] = "base:allocation";

/* One run of extents with the same flags, which is printed when the next begins. */
struct run {
    uint64_t offset, length, flags;
};

static void flush_run(const struct run *run) {
    static const char *const names[] = { "data", "hole", "zero", "hole,zero" };
    if (run->length > 0)
        printf("%10" PRIu64 "  %10" PRIu64 "  %3" PRIu64 "  %s\n", run->offset, run->length, run->flags, run->flags < 4 ? names[run->flags] : "");
}

/* Takes what was told of the context, and tells where it ends. */
static uint64_t take_extents(lnbd_handle *h, struct run *run) {
    uint64_t cookie, offset, length, flags, end = run->offset + run->length;
    const uint8_t *context;
    uint32_t error;
    size_t n, count;
    for (size_t i = 0; lnbd_get_extents(h, i, &cookie, &context, &n, &offset, &error, &count) == LNBD_OK; i++) {
        if (n != sizeof CONTEXT - 1 || memcmp(context, CONTEXT, n) != 0) continue;
        for (size_t j = 0; j < count && lnbd_get_extent(h, i, j, &length, &flags) == LNBD_OK; j++) {
            if (run->length == 0 || run->flags != flags) {
                flush_run(run);
                run->offset = offset;
                run->length = 0;
                run->flags = flags;
            }
            run->length += length;
            offset += length;
        }
        end = offset;
    }
    lnbd_clear_extents(h);
    return end;
}

int main(int argc, char **argv) {
    lnbd_handle h = LNBD_HANDLE_INIT;
    struct run run = { 0, 0, 0 };
    uint64_t size = 0, at = 0, cookie, done;
    const uint8_t *none;
    uint32_t error;
    size_t n;
    lnbd_code code;
    if (argc < 2) {
        fprintf(stderr, "usage: map SOCKET\n");
        return 2;
    }
    int fd = link_to(argv[1]);
    if (fd < 0) return 1;
    if ((code = lnbd_create(&h)) != LNBD_OK) return give_up(&h, "create", code);
    lnbd_set_request_structured_replies(&h, true);
    if ((code = lnbd_add_meta_context(&h, CONTEXT, sizeof CONTEXT - 1)) != LNBD_OK) return give_up(&h, "context", code);
    lnbd_start(&h);
    while (lnbd_state(&h) == LNBD_STATE_NEGOTIATING && turn(&h, fd)) {}
    if ((code = lnbd_get_size(&h, &size)) != LNBD_OK) return give_up(&h, argv[1], code);
    while (at < size) {
        /* (a request of the wire has at most 2^32 - 1 bytes; 2 GiB are whole blocks of each size that a server may ask for) */
        uint64_t count = size - at < 0x80000000u ? size - at : 0x80000000u;
        if ((code = lnbd_aio_block_status(&h, count, at, 0, &cookie)) != LNBD_OK) return give_up(&h, "block status", code);
        while ((code = lnbd_aio_peek_command_completed(&h, &done)) == LNBD_NOT_YET && turn(&h, fd)) {}
        if (code != LNBD_OK || (code = lnbd_aio_command_completed(&h, cookie, &error, &none, &n)) != LNBD_OK) return give_up(&h, "result", code);
        if (error != 0) {
            fprintf(stderr, "block status failed: %s\n", strerror((int)error));
            lnbd_close(&h);
            return 1;
        }
        uint64_t end = take_extents(&h, &run);
        if (end <= at) return give_up(&h, "nothing was told", LNBD_UNSUPPORTED);
        at = end;
    }
    flush_run(&run);
    lnbd_aio_disconnect(&h);
    while (turn(&h, fd)) {}
    lnbd_close(&h);
    close(fd);
    return 0;
}
