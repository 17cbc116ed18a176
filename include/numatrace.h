/* The modelled NUMA machine of numatrace, inside a program.
 *
 * Two ways: whole traces, from bytes to a report (numatrace_run); and a session, which is opened from the top of a trace and then asked
 * step by step, either in JSON (numatrace_step) or by calls on numbers, such as numatrace_move_pages. The calls do what their namesakes on
 * Linux do on the model (docs/MODEL.md); traces and reports are those of docs/FORMAT.md. The library is proved to answer as the model's
 * definitions say (docs/PROVED.md, "The library"), whatever numbers it is passed. It starts no thread, and keeps nothing between calls but
 * sessions.
 *
 * What the program has to keep to, since nothing can tell:
 *   - pointers are not null and point to as much memory as the length beside them says, which nothing else uses during the call (for a
 *     length of 0, any address that is not null will do);
 *   - a session is set to NUMATRACE_NO_SESSION before its first use, and is then changed by these functions alone. It is not copied: of
 *     two copies only one is good. One thread at a time uses a session; different sessions may be used at once;
 *   - malloc, realloc and free are those of one allocator; no function is called from a signal handler, or from the child of a fork in
 *     a process with threads.
 *
 * Each function returns 0 where it did what it was asked, a status below, or, for a call on numbers that the machine refuses, the errno
 * with a minus sign: -EPERM -1, -ENOENT -2, -ESRCH -3, -EIO -5, -ENOMEM -12, -EACCES -13, -EFAULT -14, -EBUSY -16, -ENODEV -19,
 * -EINVAL -22. A refused call leaves the machine as it was, except mbind with -EIO and offline with -EBUSY after their moves. With any
 * status but 0 nothing is written where the answer would be, except what is said of NUMATRACE_SMALL_ROOM.
 */
#ifndef NUMATRACE_H
#define NUMATRACE_H

#include <stdbool.h>
#include <stddef.h>
#include <stdint.h>

#ifdef __cplusplus
extern "C" {
#endif

/* ---- statuses */

#define NUMATRACE_DONE 0
/* No session, or one where none should be; lists whose lengths do not fit one another; a trace of over NUMATRACE_TRACE_BYTES. Nothing
 * has changed. */
#define NUMATRACE_BAD_ARGUMENT 1
/* The bytes are JSON, but no trace, no top of one, or no step. Nothing has changed. */
#define NUMATRACE_BAD_INPUT 2
/* malloc returned null. A step is not counted, but its call may have been made, in part or whole; of a call on numbers that moves pages
 * the first runs may have been made, and the policy of mbind set. Anything else is as it was. */
#define NUMATRACE_NO_MEMORY 3
/* The bytes are no JSON. Nothing has changed. */
#define NUMATRACE_NOT_JSON 4
/* The room is too small: *needed says how much there has to be, and nothing is written to it. A step was made all the same, and its lines
 * can be had by numatrace_lines; the functions that list something can be called again. */
#define NUMATRACE_SMALL_ROOM 5

/* ---- limits */

#define NUMATRACE_PAGE_BYTES 4096
#define NUMATRACE_NODES 64
#define NUMATRACE_FRAMES 16384
#define NUMATRACE_PROCESSES 1024
#define NUMATRACE_SEGMENTS 65536
#define NUMATRACE_PINS 65535
#define NUMATRACE_RUN_LIMIT 16384
#define NUMATRACE_ADDRESS_END (UINT64_C(1) << 47)
#define NUMATRACE_TRACE_BYTES 16777216

/* ---- whole traces */

/* Plays the trace of `length` bytes, writes its report to `report`, which has `room` bytes, and the report's length to `needed`. Statuses:
 * NUMATRACE_NOT_JSON, NUMATRACE_BAD_INPUT, NUMATRACE_BAD_ARGUMENT, NUMATRACE_NO_MEMORY, NUMATRACE_SMALL_ROOM. */
int32_t numatrace_run(const uint8_t *trace, size_t length, uint8_t *report, size_t room, size_t *needed);

/* ---- sessions */

typedef struct numatrace_session {
    void *machine;
} numatrace_session;

#define NUMATRACE_NO_SESSION {NULL}

/* Opens a session with the machine and the limit on runs at the top of a trace, a JSON object; its `steps` are not looked at, and may be
 * missing. Statuses: NUMATRACE_BAD_ARGUMENT if the session is open already, NUMATRACE_NOT_JSON, NUMATRACE_BAD_INPUT,
 * NUMATRACE_NO_MEMORY. */
int32_t numatrace_open(numatrace_session *session, const uint8_t *top, size_t length);

/* Makes the step of `length` bytes, a JSON object, keeps its lines of the report, and writes them to `lines`, which has `room` bytes, and
 * their length to `needed`. They are numbered by the steps before; a refused call is a step with its line. Statuses:
 * NUMATRACE_BAD_ARGUMENT without a session, NUMATRACE_NOT_JSON, NUMATRACE_BAD_INPUT, NUMATRACE_NO_MEMORY, NUMATRACE_SMALL_ROOM. */
int32_t numatrace_step(numatrace_session *session, const uint8_t *step, size_t length, uint8_t *lines, size_t room, size_t *needed);

/* Writes the lines of the last step once more, none before the first. Statuses: NUMATRACE_BAD_ARGUMENT without a session,
 * NUMATRACE_SMALL_ROOM. */
int32_t numatrace_lines(numatrace_session *session, uint8_t *lines, size_t room, size_t *needed);

/* Closes a session, if one is open, and frees its memory. */
void numatrace_close(numatrace_session *session);

/* ---- calls on numbers: no steps, so they have no lines and are not counted
 *
 * Each returns NUMATRACE_BAD_ARGUMENT without a session, NUMATRACE_NO_MEMORY, or an errno, of which the first that holds is named. Sets of
 * nodes are bits: node n is 1 << n. Addresses and lengths are in bytes, pages of NUMATRACE_PAGE_BYTES. */

/* Makes a process, alive until it exits, with its home node and the nodes that it may use. -EINVAL: pid 0 or one that is alive, a home
 * that is no node, `allowed` 0 or with a node that the machine does not have. -ENOMEM: NUMATRACE_PROCESSES are alive. */
int32_t numatrace_spawn(numatrace_session *session, uint32_t pid, uint32_t uid, uint32_t home, uint64_t allowed, bool privileged);

/* Ends a process; its areas are unmapped. -ESRCH. -EBUSY: one of them shows a page with a pin. */
int32_t numatrace_exit(numatrace_session *session, uint32_t pid);

/* Makes an area of `pages` pages at `addr` over a new segment, and writes its number to `segment`. -ESRCH. -EINVAL: an address that is not
 * a multiple of NUMATRACE_PAGE_BYTES, no page, an end past NUMATRACE_ADDRESS_END, an area in the way. -ENOMEM: no segment number left. */
int32_t numatrace_map(numatrace_session *session, uint32_t pid, uint64_t addr, uint64_t pages, bool shared, uint32_t *segment);

/* Makes an area over the pages of a shared segment from `offset` on, in pages. -ESRCH. -EINVAL: as for numatrace_map; or a segment that is
 * unknown, gone or private, or ends before the area would. */
int32_t numatrace_attach(numatrace_session *session, uint32_t pid, uint64_t addr, uint64_t segment, uint64_t offset, uint64_t pages);

/* Unmaps `pages` pages from `addr` on; there may be holes. -ESRCH. -EINVAL: as for numatrace_map, but for areas in the way. -EBUSY: an
 * area shows a page with a pin there. */
int32_t numatrace_unmap(numatrace_session *session, uint32_t pid, uint64_t addr, uint64_t pages);

/* Reads `length` bytes, 1 to NUMATRACE_PAGE_BYTES inside one page, to `bytes`. -ESRCH. -EINVAL: no byte, or past the page's end. -EFAULT:
 * no area. -ENOMEM: no free frame for a first touch of shared memory. */
int32_t numatrace_read(numatrace_session *session, uint32_t pid, uint64_t addr, uint8_t *bytes, size_t length);

/* Writes `length` bytes inside one page; a first touch takes a frame. Errors as for numatrace_read. */
int32_t numatrace_write(numatrace_session *session, uint32_t pid, uint64_t addr, const uint8_t *bytes, size_t length);

/* Adds a pin to the page at an address, or removes one. -ESRCH, -EFAULT, -ENOENT; then -EBUSY: NUMATRACE_PINS already (pin), or -EINVAL:
 * no pin (unpin). */
int32_t numatrace_pin(numatrace_session *session, uint32_t pid, uint64_t addr);
int32_t numatrace_unpin(numatrace_session *session, uint32_t pid, uint64_t addr);

/* Who asks (`caller`), of which process the addresses are (`pid`, 0 for the caller), and by which flags: 2 is MPOL_MF_MOVE, 4
 * MPOL_MF_MOVE_ALL. */
typedef struct numatrace_asking {
    uint32_t caller;
    uint32_t pid;
    uint32_t flags;
} numatrace_asking;

/* move_pages(2): moves the page at each address to the node at the same index, writes the status of each to `statuses`, and how many of
 * them failed to `failed`. A status is a node, or an errno with a minus sign. All three lists have the same length: otherwise
 * NUMATRACE_BAD_ARGUMENT. -ESRCH, -EINVAL, -EPERM, -ESRCH, -EPERM; then for the first entry that is refused -ENODEV or -EACCES. */
int32_t numatrace_move_pages(numatrace_session *session, const numatrace_asking *asking, const uint64_t *pages, size_t page_count,
                             const uint32_t *nodes, size_t node_count, int32_t *statuses, size_t status_count, size_t *failed);

/* move_pages(2) without nodes: writes the status of the page at each address. Both lists have the same length. -ESRCH, -EINVAL, -EPERM,
 * -ESRCH, -EPERM. */
int32_t numatrace_query(numatrace_session *session, const numatrace_asking *asking, const uint64_t *pages, size_t page_count,
                        int32_t *statuses, size_t status_count);

/* migrate_pages(2): moves the pages of a process on nodes of `old_nodes` to nodes of `new_nodes`, and writes how many failed. -ESRCH,
 * -EINVAL, -ESRCH, -EPERM, -EPERM, -EINVAL. */
int32_t numatrace_migrate_pages(numatrace_session *session, uint32_t caller, uint32_t pid, uint64_t old_nodes, uint64_t new_nodes,
                                size_t *failed);

/* A range of the caller's bytes, and the policy that it is to get: MPOL_DEFAULT 0, MPOL_PREFERRED 1, MPOL_BIND 2, MPOL_INTERLEAVE 3,
 * MPOL_LOCAL 4; flags MPOL_MF_STRICT 1, MPOL_MF_MOVE 2, MPOL_MF_MOVE_ALL 4. */
typedef struct numatrace_binding {
    uint64_t addr;
    uint64_t len;
    uint64_t nodes;
    uint32_t caller;
    uint32_t mode;
    uint32_t flags;
} numatrace_binding;

/* mbind(2). -ESRCH, -EINVAL, -EPERM, -EINVAL, -EFAULT, -EIO. */
int32_t numatrace_mbind(numatrace_session *session, const numatrace_binding *binding);

/* Takes a node offline, moving its pages away, or brings it online. -EINVAL: no such node. -EBUSY (offline): no other node is online, or a
 * page stays. */
int32_t numatrace_offline(numatrace_session *session, uint32_t node);
int32_t numatrace_online(numatrace_session *session, uint32_t node);

/* ---- lists: each writes how long it is to `needed`, and itself to the front of the room if it fits there; otherwise
 * NUMATRACE_SMALL_ROOM */

/* The free frames of a node, front first. -EINVAL: no such node. */
int32_t numatrace_free_list(numatrace_session *session, uint32_t node, uint16_t *frames, size_t room, size_t *needed);

/* An entry: a page number (an address by NUMATRACE_PAGE_BYTES), and its frame, or -1 for the page of zeros. */
typedef struct numatrace_entry {
    uint64_t page;
    int64_t frame;
} numatrace_entry;

/* The entries of a process, in address order, like /proc/PID/pagemap. -ESRCH. */
int32_t numatrace_pagemap(numatrace_session *session, uint32_t pid, numatrace_entry *entries, size_t room, size_t *needed);

/* The areas of a process as text, a line each with a line feed, like /proc/PID/numa_maps. -ESRCH. */
int32_t numatrace_numa_maps(numatrace_session *session, uint32_t pid, uint8_t *text, size_t room, size_t *needed);

/* How many pages have moved, and how many entries have failed: pgmigrate_success and pgmigrate_fail of /proc/vmstat. */
int32_t numatrace_vmstat(numatrace_session *session, uint64_t *moved, uint64_t *failed);

#ifdef __cplusplus
}
#endif

#endif
