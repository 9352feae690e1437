/* lnbd.h: an NBD client without I/O. The program owns the socket and the event loop; the handle owns the protocol.
 *
 *     poll --> read --> lnbd_arrive --> results wait: lnbd_aio_peek_command_completed, lnbd_aio_command_completed
 *       ^                  | lnbd_state is LNBD_STATE_READY: lnbd_aio_pread and the other commands
 *       +----- write <-- lnbd_out ... lnbd_wrote
 *
 * ANSWERS. Each call answers a lnbd_code: LNBD_OK where it did what it says, and a negative one where it did not. Nothing has changed then,
 *   but where it is said. lnbd_state and lnbd_aio_get_direction answer a number from 0, or LNBD_EMPTY. There is no errno, no global state, no
 *   callback, no lock and no thread; the library calls malloc, realloc, free and the mem*() functions, and nothing else.
 *   What a call writes through its last parameters it writes where it answers LNBD_OK; else they stay as they are, but `taken` of lnbd_arrive.
 *   Each call of a handle may answer LNBD_EMPTY, and each that may answer LNBD_NO_MEMORY says so.
 * ANY ORDER of calls is defined. Undefined are only: a pointer that does not point to what its type says (NULL too, also with length 0),
 *   parameters that overlap, bytes lent by a handle that are handed back to a call on the same handle (copy them, or use a lnbd_buffer), a
 *   lnbd_handle or lnbd_buffer of which two copies are used while it holds something, or whose fields were written but for its INIT, and two calls at a time
 *   on one of them.
 * THREADS. A handle or a buffer is used by one thread at a time, and may go from one to another, where a lock, a start or a join orders the two.
 *   Different handles are independent. Not from a signal handler, and not in the forked child of a process with threads.
 * LENT POINTERS. What lnbd_out, lnbd_place, the texts, the names and lnbd_get_extents lend stands until the next call on the handle that is not
 *   one of lnbd_state, lnbd_aio_get_direction, lnbd_aio_in_flight, lnbd_failure, lnbd_out or lnbd_get_*. The bytes of a result stand until the next result is taken
 *   by lnbd_aio_command_completed, or the handle is closed. Only the place of lnbd_place may be written.
 */
#ifndef LNBD_H
#define LNBD_H
#include <stdbool.h>
#include <stddef.h>
#include <stdint.h>
#ifdef __cplusplus
extern "C" {
#endif

/* A handle, or none: all zero. It lies where the program puts it. */
typedef struct { uint32_t holds_; void *at_; } lnbd_handle;
#define LNBD_HANDLE_INIT { 0, NULL }
/* Bytes that a command reads into or writes from without a copy, or none: all zero. A command takes them, and its result gives them back. */
typedef struct { uint32_t holds_; void *at_; } lnbd_buffer;
#define LNBD_BUFFER_INIT { 0, NULL }

typedef int32_t lnbd_code;
enum {
    LNBD_OK = 0,
    LNBD_NO_MEMORY = -1,   /* memory ran out; the call may be made again */
    LNBD_HELD = -2,        /* the handle or buffer to be made is there already */
    LNBD_EMPTY = -3,       /* there is no handle, or no buffer */
    LNBD_BAD_STATE = -4,   /* not in this state */
    LNBD_TOO_MANY = -5,    /* more bytes than were lent; an index past the end */
    LNBD_NOT_YET = -6,     /* the command is in flight; nothing is told yet */
    LNBD_NO_COOKIE = -7,   /* no command has this cookie: never issued, or retired */
    LNBD_UNSUPPORTED = -8, /* the server does not offer it, or did not tell it */
    LNBD_BAD_REQUEST = -9, /* flags, length, range, alignment, bits or text are not allowed */
    LNBD_FULL = -10,       /* 1,024 commands are not retired, or 16 contexts are asked for */
    LNBD_DEAD = -11        /* the connection is gone: lnbd_get_death says why */
};
enum { LNBD_STATE_CREATED, LNBD_STATE_NEGOTIATING, LNBD_STATE_OPT_MODE, LNBD_STATE_READY, LNBD_STATE_CLOSING,
       LNBD_STATE_CLOSED, LNBD_STATE_DEAD };
enum { LNBD_DIRECTION_NONE = 0, LNBD_DIRECTION_READ = 1, LNBD_DIRECTION_BOTH = 3 };
enum { LNBD_DEATH_BREACH, LNBD_DEATH_REFUSED, LNBD_DEATH_ENDED, LNBD_DEATH_LINK };
enum { LNBD_STRICT_COMMANDS = 1, LNBD_STRICT_FLAGS = 2, LNBD_STRICT_BOUNDS = 4, LNBD_STRICT_ZERO_SIZE = 8, LNBD_STRICT_ALIGN = 16 };
enum { LNBD_CMD_FLAG_FUA = 1, LNBD_CMD_FLAG_NO_HOLE = 2, LNBD_CMD_FLAG_DF = 4, LNBD_CMD_FLAG_REQ_ONE = 8, LNBD_CMD_FLAG_FAST_ZERO = 16 };
enum { LNBD_ORIGIN_TOLD = 1, LNBD_ORIGIN_CONTENT, LNBD_ORIGIN_CALLBACK, LNBD_ORIGIN_LOST };
enum { LNBD_READ_DATA = 1, LNBD_READ_HOLE, LNBD_READ_ERROR };
/* base:allocation: a range that is not allocated, and one that reads as zeroes. */
enum { LNBD_STATE_HOLE = 1, LNBD_STATE_ZERO = 2 };
/* The most bytes of one read, write or buffer. */
#define LNBD_MAX_DATA 33554432

/* ---- From create to close. */

/* Makes a handle (nbd_create). LNBD_HELD, LNBD_NO_MEMORY. */
lnbd_code lnbd_create(lnbd_handle *h);
/* Closes it, whatever is in flight: nothing more is sent, and no result comes (nbd_close). Of none it does nothing. */
void lnbd_close(lnbd_handle *h);
/* The n bytes of the export's name: UTF-8, at most 4,096 bytes, else LNBD_BAD_REQUEST. Before the start and in opt mode, else LNBD_BAD_STATE.
 * LNBD_NO_MEMORY. */
lnbd_code lnbd_set_export_name(lnbd_handle *h, const uint8_t *name, size_t n);
/* Asks for a meta context, as "base:allocation"; the same, and LNBD_FULL above 16 of them. */
lnbd_code lnbd_add_meta_context(lnbd_handle *h, const uint8_t *name, size_t n);
/* Whether structured replies are asked for: block status needs them. And extended headers, and with them structured replies. And whether the
 * program decides which option comes next. Off at first; before the start, else LNBD_BAD_STATE. */
lnbd_code lnbd_set_request_structured_replies(lnbd_handle *h, bool on);
lnbd_code lnbd_set_request_extended_headers(lnbd_handle *h, bool on);
lnbd_code lnbd_set_opt_mode(lnbd_handle *h, bool on);
/* Which rules refuse a command before it is sent: LNBD_STRICT_ bits, all at first (nbd_set_strict_mode). LNBD_BAD_REQUEST: other bits. */
lnbd_code lnbd_set_strict_mode(lnbd_handle *h, uint32_t bits);
lnbd_code lnbd_get_strict_mode(lnbd_handle *h, uint32_t *bits);
/* The socket is connected; the server speaks first. Once, else LNBD_BAD_STATE. */
lnbd_code lnbd_start(lnbd_handle *h);

/* ---- The loop. */

/* LNBD_DIRECTION_NONE: nothing may be read or written; _READ: wait to read; _BOTH: bytes wait to be written too (nbd_aio_get_direction). */
lnbd_code lnbd_aio_get_direction(lnbd_handle *h);
/* Lends the bytes that wait to be written, of which the first part; n is 0 where none do. */
lnbd_code lnbd_out(lnbd_handle *h, const uint8_t **at, size_t *n);
/* So many of them were written (nbd_aio_notify_write). LNBD_TOO_MANY: more than lnbd_out lends. */
lnbd_code lnbd_wrote(lnbd_handle *h, size_t n);
/* These n bytes were read (nbd_aio_notify_read). LNBD_BAD_STATE: the direction is LNBD_DIRECTION_NONE. On LNBD_NO_MEMORY the first `taken` of
 * them have arrived, and the others are to be handed in again; `taken` is n with LNBD_OK and else 0. */
lnbd_code lnbd_arrive(lnbd_handle *h, const uint8_t *bytes, size_t n, size_t *taken);
/* Lends the place where the data that are to come of a read may be received without a copy; n is 0 where there is none. */
lnbd_code lnbd_place(lnbd_handle *h, uint8_t **at, size_t *n);
/* So many bytes were received there. LNBD_TOO_MANY: more than the place has. */
lnbd_code lnbd_placed(lnbd_handle *h, size_t n);
/* read() gave 0; read() or write() failed for good. The commands in flight complete with LNBD_ORIGIN_LOST. */
lnbd_code lnbd_ended(lnbd_handle *h);
lnbd_code lnbd_link_failed(lnbd_handle *h);

/* ---- Where it stands. LNBD_BAD_STATE, but of lnbd_state and lnbd_get_listed: it is not told yet. */

/* An LNBD_STATE_. */
lnbd_code lnbd_state(lnbd_handle *h);
/* An LNBD_DEATH_, and the number of the breach (docs/errors.md), or the code by which the server refused the export: the reply's type less 2^31;
 * else 0. LNBD_BAD_STATE: it is not dead. */
lnbd_code lnbd_get_death(lnbd_handle *h, uint32_t *kind, uint32_t *detail);
/* The export's size in bytes (nbd_get_size). */
lnbd_code lnbd_get_size(lnbd_handle *h, uint64_t *size);
/* The transmission flags of the protocol: 2 read only, 4 flush, 8 FUA, 32 trim, 64 zero, 128 DF, 256 several connections, 1024 cache, 2048 fast zero. */
lnbd_code lnbd_get_flags(lnbd_handle *h, uint32_t *flags);
/* The block sizes in bytes (nbd_get_block_size). LNBD_UNSUPPORTED: the server told none. */
lnbd_code lnbd_get_block_sizes(lnbd_handle *h, uint32_t *minimum, uint32_t *preferred, uint32_t *maximum);
/* Whether structured replies and extended headers are on: 1 or 0. */
lnbd_code lnbd_get_agreed(lnbd_handle *h, uint32_t *structured, uint32_t *extended);
/* Lends the export's name and its description, as the server tells them: UTF-8, no NUL behind it. LNBD_UNSUPPORTED: it told none. */
lnbd_code lnbd_get_canonical_export_name(lnbd_handle *h, const uint8_t **at, size_t *n);
lnbd_code lnbd_get_export_description(lnbd_handle *h, const uint8_t **at, size_t *n);
/* The meta context at index i of those that are agreed, from 0: its number, and its name, lent. LNBD_TOO_MANY ends the walk. */
lnbd_code lnbd_get_meta_context(lnbd_handle *h, size_t i, uint32_t *id, const uint8_t **at, size_t *n);

/* ---- Opt mode: each asks one option, whose answer comes. LNBD_BAD_STATE: not in opt mode, as while another is not answered. LNBD_NO_MEMORY. */

lnbd_code lnbd_opt_list(lnbd_handle *h);
lnbd_code lnbd_opt_info(lnbd_handle *h);
/* LNBD_UNSUPPORTED: structured replies are off. */
lnbd_code lnbd_opt_set_meta_context(lnbd_handle *h);
lnbd_code lnbd_opt_go(lnbd_handle *h);
lnbd_code lnbd_opt_abort(lnbd_handle *h);
/* The last answer: 0 and 0 where the option was acknowledged, else the number of the option and the code of the refusal. LNBD_NOT_YET: none yet. */
lnbd_code lnbd_opt_answer(lnbd_handle *h, uint32_t *option, uint32_t *refusal);
/* The export at index i of those that were listed, from 0; lent. LNBD_TOO_MANY ends the walk. */
lnbd_code lnbd_get_listed(lnbd_handle *h, size_t i, const uint8_t **name, size_t *n, const uint8_t **description, size_t *m);

/* ---- Commands. Offsets and counts are in bytes, flags are LNBD_CMD_FLAG_ bits, and the cookie is 1, 2, 3 and so on. A command that is not
 * answered LNBD_OK was not sent: LNBD_BAD_STATE (not ready, or closing), LNBD_DEAD, LNBD_FULL, LNBD_UNSUPPORTED, LNBD_BAD_REQUEST, and
 * LNBD_NO_MEMORY. */

/* Reads so many bytes. Above LNBD_MAX_DATA it is LNBD_BAD_REQUEST whatever the state. */
lnbd_code lnbd_aio_pread(lnbd_handle *h, size_t count, uint64_t offset, uint32_t flags, uint64_t *cookie);
/* The same, and each piece is kept as it is told: lnbd_get_chunk. */
lnbd_code lnbd_aio_pread_structured(lnbd_handle *h, size_t count, uint64_t offset, uint32_t flags, uint64_t *cookie);
/* Writes these n bytes, which are copied. */
lnbd_code lnbd_aio_pwrite(lnbd_handle *h, const uint8_t *bytes, size_t n, uint64_t offset, uint32_t flags, uint64_t *cookie);
lnbd_code lnbd_aio_flush(lnbd_handle *h, uint32_t flags, uint64_t *cookie);
lnbd_code lnbd_aio_trim(lnbd_handle *h, uint64_t count, uint64_t offset, uint32_t flags, uint64_t *cookie);
lnbd_code lnbd_aio_zero(lnbd_handle *h, uint64_t count, uint64_t offset, uint32_t flags, uint64_t *cookie);
lnbd_code lnbd_aio_cache(lnbd_handle *h, uint64_t count, uint64_t offset, uint32_t flags, uint64_t *cookie);
/* Asks what a range consists of: lnbd_get_extents. */
lnbd_code lnbd_aio_block_status(lnbd_handle *h, uint64_t count, uint64_t offset, uint32_t flags, uint64_t *cookie);
/* Asks for the end; replies to commands in flight still come (nbd_aio_disconnect). LNBD_BAD_STATE, LNBD_DEAD. */
lnbd_code lnbd_aio_disconnect(lnbd_handle *h);

/* ---- Results. One waits with the handle until it is taken; extents and pieces wait until they are cleared. */

/* How many commands are not completed. */
lnbd_code lnbd_aio_in_flight(lnbd_handle *h, size_t *count);
/* The command that completed first and is not taken. LNBD_NOT_YET: commands are left, and none is completed; LNBD_NO_COOKIE: none is left. */
lnbd_code lnbd_aio_peek_command_completed(lnbd_handle *h, uint64_t *cookie);
/* Takes the result of a command, which retires it: its error, and the bytes of a read or a write, lent. The error is 0, or an NBD error number: EPERM 1,
 * EIO 5, ENOMEM 12, EINVAL 22, ENOSPC 28, EOVERFLOW 75, ENOTSUP 95, ESHUTDOWN 108; EPROTO 71 where the reply was no lawful answer, and ENOTCONN 107
 * where the connection was gone first. With an error the bytes mean nothing. LNBD_NOT_YET, LNBD_NO_COOKIE. */
lnbd_code lnbd_aio_command_completed(lnbd_handle *h, uint64_t cookie, uint32_t *error, const uint8_t **at, size_t *n);
/* The first error of a completed command that is not taken, and its LNBD_ORIGIN_. LNBD_NO_COOKIE: no such command has failed. */
lnbd_code lnbd_failure(lnbd_handle *h, uint64_t cookie, uint32_t *error, uint32_t *origin);
/* The extents at index i of those that were told, from 0: their command's cookie, the name of their meta context, lent, where the first begins,
 * the error that was told with them, 0 for none, and how many they are. LNBD_TOO_MANY ends the walk. Where memory ran out for some, none of these is there and their command fails
 * with 12 and LNBD_ORIGIN_CALLBACK. */
lnbd_code lnbd_get_extents(lnbd_handle *h, size_t i, uint64_t *cookie, const uint8_t **context, size_t *n, uint64_t *offset, uint32_t *error, size_t *count);
/* The extent at place j of these, from 0: its length in bytes and its flags. Each begins where the one before it ends. LNBD_TOO_MANY ends the walk. */
lnbd_code lnbd_get_extent(lnbd_handle *h, size_t i, size_t j, uint64_t *length, uint64_t *flags);
lnbd_code lnbd_clear_extents(lnbd_handle *h);
/* The piece at index i of those that reads by lnbd_aio_pread_structured were told, from 0, with its LNBD_READ_ status; its bytes stand in the
 * result. LNBD_TOO_MANY ends the walk. */
lnbd_code lnbd_get_chunk(lnbd_handle *h, size_t i, uint64_t *cookie, uint64_t *offset, uint64_t *length, uint32_t *status, uint32_t *error);
lnbd_code lnbd_clear_chunks(lnbd_handle *h);

/* ---- Buffers, for reads and writes without a copy. Each call may answer LNBD_EMPTY where a handle or a buffer lacks. */

/* Makes one of n zero bytes. LNBD_HELD; LNBD_BAD_REQUEST above LNBD_MAX_DATA; LNBD_NO_MEMORY. */
lnbd_code lnbd_buffer_create(lnbd_buffer *b, size_t n);
void lnbd_buffer_close(lnbd_buffer *b);
/* Lends its bytes, which may be read and written until a command takes the buffer or it is closed. */
lnbd_code lnbd_buffer_bytes(lnbd_buffer *b, uint8_t **at, size_t *n);
/* Reads into it and writes from it, all of it. With LNBD_OK the command has taken it and b is none; else b is as before. */
lnbd_code lnbd_aio_pread_into(lnbd_handle *h, lnbd_buffer *b, uint64_t offset, uint32_t flags, uint64_t *cookie);
lnbd_code lnbd_aio_pwrite_from(lnbd_handle *h, lnbd_buffer *b, uint64_t offset, uint32_t flags, uint64_t *cookie);
/* Takes the result of a command, of whatever kind, with its bytes in b, which was none. LNBD_HELD, LNBD_NOT_YET, LNBD_NO_COOKIE; LNBD_NO_MEMORY: the
 * result waits. */
lnbd_code lnbd_aio_command_completed_into(lnbd_handle *h, uint64_t cookie, uint32_t *error, lnbd_buffer *b);

/* A code in words, for messages: no call of the library. */
static inline const char *lnbd_code_name(lnbd_code code) {
    static const char *const names[] = { "ok", "no memory", "there already", "none", "not in this state", "too many", "not yet",
        "no such cookie", "not offered by the server", "request not allowed", "too many commands", "the connection is gone" };
    return code >= 0 ? names[0] : code < -11 ? "unknown" : names[-code];
}

#ifdef __cplusplus
}
#endif
#endif
