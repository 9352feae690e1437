/* Calls of liblnbd in random order with any arguments, over a peer in memory that answers lawfully and now and then does not. Run under sanitizers and
 * valgrind: no order may be undefined, and nothing may leak.
 *
 *     fuzz CALLS [SEED]
 */
#include <inttypes.h>
#include <stdio.h>
#include <stdlib.h>
#include <string.h>
#include <lnbd.h>

static uint64_t seed = 1;

static uint64_t any(void) {
    seed ^= seed << 13;
    seed ^= seed >> 7;
    seed ^= seed << 17;
    return seed;
}

static uint64_t below(uint64_t n) { return n ? any() % n : 0; }

/* ---- The peer: what the client wrote and is not parsed, and what waits for the client. */

enum { ROOM = 1 << 20, SIZE = 1 << 20 };
static struct {
    uint8_t from[ROOM], to[ROOM];
    size_t got, have, skip;
    int phase; /* 0 flags, 1 options, 2 transmission, 3 over */
    int structured, extended;
} peer;

static void say(const void *p, size_t n) {
    if (peer.have + n <= ROOM) {
        memcpy(peer.to + peer.have, p, n);
        peer.have += n;
    }
}

static void say_number(uint64_t v, int n) {
    uint8_t b[8];
    for (int i = 0; i < n; i++) b[i] = (uint8_t)(v >> (8 * (n - 1 - i)));
    say(b, (size_t)n);
}

static uint64_t number_at(const uint8_t *p, int n) {
    uint64_t v = 0;
    for (int i = 0; i < n; i++) v = v << 8 | p[i];
    return v;
}

static void hello(void) {
    memset(&peer, 0, sizeof peer);
    say("NBDMAGICIHAVEOPT", 16);
    say_number(3, 2);
}

static void say_option(uint64_t option, uint64_t type, const void *body, size_t n) {
    say_number(0x3e889045565a9, 8);
    say_number(option, 4);
    say_number(type, 4);
    say_number(n, 4);
    say(body, n);
}

static void answer_option(uint64_t option, const uint8_t *data, size_t n) {
    static const uint8_t server[] = "\0\0\0\1a", context[] = "\0\0\0\1base:allocation";
    (void)data;
    if (below(20) == 0) {
        say_option(option, 0x80000001 + below(9), "no", 2);
        return;
    }
    switch (option) {
    case 2: peer.phase = 3; break;
    case 3: say_option(option, 2, server, 5); say_option(option, 2, server, 5); break;
    case 6: case 7: {
        size_t at = peer.have;
        say_option(option, 3, "", 0);
        if (peer.have == at + 20) peer.to[at + 19] = 12;
        say_number(0, 2);
        say_number(SIZE, 8);
        say_number(1 | 4 | 8 | 32 | 64 | 128 | 1024 | 2048, 2);
        if (option == 7) peer.phase = 2;
        break;
    }
    case 8: peer.structured = 1; break;
    case 10: if (n > 12) say_option(option, 4, context, 19); break;
    case 11: if (below(2)) { say_option(option, 0x80000001, "", 0); return; } peer.structured = peer.extended = 1; break;
    default: say_option(option, 0x80000001, "", 0); return;
    }
    say_option(option, 1, "", 0);
}

static void say_chunk(int last, int type, uint64_t cookie, uint64_t offset, uint64_t n) {
    say_number(peer.extended ? 0x6e8a278c : 0x668e33ef, 4);
    say_number((uint64_t)last, 2);
    say_number((uint64_t)type, 2);
    say_number(cookie, 8);
    if (peer.extended) say_number(offset, 8);
    say_number(n, peer.extended ? 8 : 4);
}

static void answer_command(int type, uint64_t cookie, uint64_t offset, uint64_t n) {
    static uint8_t bytes[70000];
    int fails = below(10) == 0;
    if (!peer.structured) {
        say_number(0x67446698, 4);
        say_number(fails ? 5 : 0, 4);
        say_number(cookie, 8);
        if (type == 0 && !fails && n <= sizeof bytes) say(bytes, n);
    } else if (fails) {
        say_chunk(1, 0x8001, cookie, offset, 6);
        say_number(5, 4);
        say_number(0, 2);
    } else if (type == 0 && n > 1 && n <= sizeof bytes) {
        uint64_t half = n / 2;
        say_chunk(0, 1, cookie, offset, 8 + half);
        say_number(offset, 8);
        say(bytes, half);
        say_chunk(1, 2, cookie, offset, 12);
        say_number(offset + half, 8);
        say_number(n - half, 4);
    } else if (type == 7) {
        uint64_t half = n / 2 ? n / 2 : n;
        say_chunk(1, peer.extended ? 6 : 5, cookie, offset, peer.extended ? 8 + 32 : 4 + 16);
        say_number(1, 4);
        if (peer.extended) say_number(2, 4);
        say_number(half, peer.extended ? 8 : 4);
        say_number(0, peer.extended ? 8 : 4);
        say_number(n, peer.extended ? 8 : 4);
        say_number(3, peer.extended ? 8 : 4);
    } else {
        say_chunk(1, 0, cookie, offset, 0);
    }
}

/* Takes what the client wrote. */
static void hear(const uint8_t *p, size_t n) {
    if (peer.got + n > ROOM) { peer.phase = 3; return; }
    memcpy(peer.from + peer.got, p, n);
    peer.got += n;
    for (;;) {
        const uint8_t *f = peer.from;
        size_t used = 0, head = peer.extended ? 32 : 28;
        if (peer.skip) {
            used = peer.skip < peer.got ? peer.skip : peer.got;
            peer.skip -= used;
            if (used == 0) return;
        } else if (peer.phase == 0) {
            if (peer.got < 4) return;
            used = 4;
            peer.phase = 1;
        } else if (peer.phase == 1) {
            if (peer.got < 16 || peer.got < 16 + number_at(f + 12, 4)) return;
            used = 16 + (size_t)number_at(f + 12, 4);
            answer_option(number_at(f + 8, 4), f + 16, used - 16);
        } else if (peer.phase == 2) {
            if (peer.got < head) return;
            int type = (int)number_at(f + 6, 2);
            uint64_t length = number_at(f + 24, peer.extended ? 8 : 4);
            used = head;
            if (type == 1) peer.skip = (size_t)length;
            if (type == 2) peer.phase = 3;
            else if (below(12)) answer_command(type, number_at(f + 8, 8), number_at(f + 16, 8), length);
        } else {
            peer.got = 0;
            return;
        }
        peer.got -= used;
        memmove(peer.from, peer.from + used, peer.got);
    }
}

/* The peer's bytes up to here were taken. */
static void spend(size_t n) {
    memmove(peer.to, peer.to + n, peer.have - n);
    peer.have -= n;
}

/* ---- The calls. */

static lnbd_handle h = LNBD_HANDLE_INIT;
static lnbd_buffer buffers[3];
static uint64_t seen, done, told;

static void look(const uint8_t *at, size_t n) {
    for (size_t i = 0; i < n; i++) seen += at[i];
}

static lnbd_code settings(void) {
    static const uint8_t name[] = "base:allocation";
    static const uint8_t odd[] = "\xff\xfe";
    static uint8_t long_name[4200];
    uint32_t bits;
    switch (below(12)) {
    case 0: return lnbd_set_export_name(&h, name, below(16));
    case 1: return lnbd_set_export_name(&h, odd, 2);
    case 2: memset(long_name, 'a', sizeof long_name); return lnbd_set_export_name(&h, long_name, 4090 + below(20));
    case 3: case 4: return lnbd_add_meta_context(&h, name, 15);
    case 5: return lnbd_add_meta_context(&h, odd, 1);
    case 6: case 7: return lnbd_set_request_structured_replies(&h, below(4) != 0);
    case 8: return lnbd_set_request_extended_headers(&h, below(2));
    case 9: return lnbd_set_opt_mode(&h, below(3) == 0);
    case 10: return lnbd_set_strict_mode(&h, below(3) ? 31 : (uint32_t)any());
    default: return lnbd_get_strict_mode(&h, &bits);
    }
}

static lnbd_code write_out(void) {
    const uint8_t *at;
    size_t n;
    lnbd_code code = lnbd_out(&h, &at, &n);
    if (code != LNBD_OK) return code;
    if (below(4) == 0) n = below(n + 1);
    look(at, n);
    hear(at, n);
    return lnbd_wrote(&h, n);
}

static lnbd_code read_in(void) {
    size_t n = below(peer.have + 1), taken;
    if (below(3)) n = n % 40;
    if (peer.have && below(1500) == 0) peer.to[below(peer.have)] ^= 1;
    lnbd_code code = lnbd_arrive(&h, peer.to, n, &taken);
    if (code == LNBD_OK || code == LNBD_NO_MEMORY) spend(taken);
    return code;
}

static lnbd_code read_in_place(void) {
    uint8_t *at;
    size_t n;
    lnbd_code code = lnbd_place(&h, &at, &n);
    if (code != LNBD_OK || n == 0) return code;
    if (n > peer.have) n = peer.have;
    n = below(n + 1);
    memcpy(at, peer.to, n);
    spend(n);
    return lnbd_placed(&h, n);
}

static lnbd_code ask_about(void) {
    const uint8_t *a, *b;
    size_t n, m;
    uint32_t x, y, z;
    uint64_t size;
    lnbd_code code = LNBD_OK;
    switch (below(14)) {
    case 0: code = lnbd_get_death(&h, &x, &y); break;
    case 1: code = lnbd_get_size(&h, &size); break;
    case 2: code = lnbd_get_flags(&h, &x); break;
    case 3: code = lnbd_get_block_sizes(&h, &x, &y, &z); break;
    case 4: code = lnbd_get_agreed(&h, &x, &y); break;
    case 5: code = lnbd_get_canonical_export_name(&h, &a, &n); if (code == LNBD_OK) look(a, n); break;
    case 6: code = lnbd_get_export_description(&h, &a, &n); if (code == LNBD_OK) look(a, n); break;
    case 7: code = lnbd_get_meta_context(&h, below(3), &x, &a, &n); if (code == LNBD_OK) look(a, n); break;
    case 8: code = lnbd_get_listed(&h, below(3), &a, &n, &b, &m); if (code == LNBD_OK) { look(a, n); look(b, m); } break;
    case 9: code = lnbd_opt_answer(&h, &x, &y); break;
    case 10: code = lnbd_aio_in_flight(&h, &n); break;
    case 11: code = lnbd_failure(&h, below(60), &x, &y); break;
    case 12: code = lnbd_aio_get_direction(&h); break;
    default: code = lnbd_state(&h); break;
    }
    return code;
}

static lnbd_code ask_option(void) {
    switch (below(5)) {
    case 0: return lnbd_opt_list(&h);
    case 1: return lnbd_opt_info(&h);
    case 2: return lnbd_opt_set_meta_context(&h);
    case 3: return lnbd_opt_go(&h);
    default: return below(40) ? LNBD_OK : lnbd_opt_abort(&h);
    }
}

static lnbd_code issue(void) {
    static const uint64_t large[] = { 1ull << 63, ~0ull, 1ull << 32, 33554433 };
    static uint8_t bytes[5000];
    lnbd_buffer *b = &buffers[below(3)];
    uint64_t cookie, count = below(30) ? 1 + below(40000) : large[below(4)], offset = below(30) ? below(SIZE) : any();
    uint32_t flags = below(30) ? 0 : (uint32_t)any();
    switch (below(11)) {
    case 0: case 1: return lnbd_aio_pread(&h, (size_t)count, offset, flags, &cookie);
    case 2: return lnbd_aio_pread_structured(&h, (size_t)count, offset, flags, &cookie);
    case 3: return lnbd_aio_pwrite(&h, bytes, below(sizeof bytes), offset, flags, &cookie);
    case 4: return lnbd_aio_flush(&h, flags, &cookie);
    case 5: return lnbd_aio_trim(&h, count, offset, flags, &cookie);
    case 6: return lnbd_aio_zero(&h, count, offset, flags, &cookie);
    case 7: return lnbd_aio_cache(&h, count, offset, flags, &cookie);
    case 8: return lnbd_aio_block_status(&h, count, offset, flags, &cookie);
    case 9: return lnbd_aio_pread_into(&h, b, offset, flags, &cookie);
    default: return lnbd_aio_pwrite_from(&h, b, offset, flags, &cookie);
    }
}

static lnbd_code take(void) {
    const uint8_t *at;
    size_t n;
    uint64_t cookie = below(60);
    uint32_t error;
    lnbd_code code = below(8) ? lnbd_aio_peek_command_completed(&h, &cookie) : LNBD_OK;
    if (code != LNBD_OK) return code;
    if (below(2)) {
        code = lnbd_aio_command_completed(&h, cookie, &error, &at, &n);
        if (code == LNBD_OK) look(at, n);
    } else {
        code = lnbd_aio_command_completed_into(&h, cookie, &error, &buffers[below(3)]);
    }
    done += code == LNBD_OK;
    return code;
}

static lnbd_code hear_told(void) {
    uint64_t cookie, offset, length, flags;
    const uint8_t *context;
    uint32_t status, error;
    size_t n, count, i = below(4);
    if (below(60) == 0) return below(2) ? lnbd_clear_extents(&h) : lnbd_clear_chunks(&h);
    if (below(2)) return lnbd_get_chunk(&h, i, &cookie, &offset, &length, &status, &error);
    lnbd_code code = lnbd_get_extents(&h, i, &cookie, &context, &n, &offset, &error, &count);
    if (code != LNBD_OK) return code;
    look(context, n);
    told++;
    return lnbd_get_extent(&h, i, below(count + 1), &length, &flags);
}

static lnbd_code handle_buffer(void) {
    lnbd_buffer *b = &buffers[below(3)];
    uint8_t *at;
    size_t n;
    lnbd_code code;
    switch (below(3)) {
    case 0: lnbd_buffer_close(b); return LNBD_OK;
    case 1: return lnbd_buffer_create(b, below(30) ? below(5000) : (size_t)1 << below(64));
    default:
        code = lnbd_buffer_bytes(b, &at, &n);
        if (code == LNBD_OK && n > 0) { look(at, n); at[below(n)] = (uint8_t)any(); }
        return code;
    }
}

static lnbd_code end_it(void) {
    switch (below(400)) {
    case 0: case 1: lnbd_close(&h); return LNBD_OK;
    case 2: return lnbd_ended(&h);
    case 3: return lnbd_link_failed(&h);
    case 4: case 5: return lnbd_aio_disconnect(&h);
    case 6: return lnbd_wrote(&h, (size_t)any());
    case 7: return lnbd_placed(&h, (size_t)any());
    case 8: return lnbd_wrote(&h, 1 + below(40));
    default: return LNBD_OK;
    }
}

static lnbd_code call(void) {
    lnbd_code code;
    switch (below(24)) {
    case 0: code = lnbd_create(&h); if (code == LNBD_OK) hello(); return code;
    case 1: return below(3) ? settings() : lnbd_start(&h);
    case 2: case 3: case 4: case 5: return write_out();
    case 6: case 7: case 8: case 9: case 10: case 11: return read_in();
    case 12: case 13: return read_in_place();
    case 14: case 15: return issue();
    case 16: case 17: return take();
    case 18: return hear_told();
    case 19: return ask_about();
    case 20: return below(4) ? ask_about() : ask_option();
    case 21: return handle_buffer();
    default: return end_it();
    }
}

int main(int argc, char **argv) {
    uint64_t calls = argc > 1 ? strtoull(argv[1], NULL, 10) : 100000, codes[12] = { 0 }, states[7] = { 0 };
    if (argc > 2) seed = strtoull(argv[2], NULL, 10) | 1;
    for (uint64_t i = 0; i < calls; i++) {
        lnbd_code code = call();
        if (code <= 0 && code > -12) codes[-code]++;
        lnbd_code state = lnbd_state(&h);
        if (state >= 0) states[state]++;
        if (state >= LNBD_STATE_CLOSED && below(50) == 0) lnbd_close(&h);
    }
    lnbd_close(&h);
    for (int i = 0; i < 3; i++) lnbd_buffer_close(&buffers[i]);
    printf("%" PRIu64 " commands completed, %" PRIu64 " extents told; answers", done, told);
    for (int i = 0; i < 12; i++) printf(" %d:%" PRIu64, -i, codes[i]);
    printf("; states");
    for (int i = 0; i < 7; i++) printf(" %" PRIu64, states[i]);
    printf(" (%" PRIu64 ")\n", seen & 1);
    for (int i = 0; i < 12; i++)
        if (codes[i] == 0 && i != 1 && i != 10) { printf("no call answered %d\n", -i); return 1; }
    return done == 0 || told == 0;
}
