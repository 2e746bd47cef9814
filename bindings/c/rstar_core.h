/* A process of a tree, for a program that keeps the log's file itself.
 *
 * rstar.h is this over files of the system; take that, unless the log is to stand somewhere else. Here no call opens,
 * writes or syncs anything. What the log's file is asked for is handed out, call by call, and an answer is told only
 * once each call that it waits for is told to be made. The functions of this header are proved; rstar.h says what each
 * number means, and what every caller keeps.
 *
 * A handle begins as RSTAR_CORE_NONE. What it holds is the library's: it is not read, written or copied. It is given to
 * one call at a time, on the thread that opened it. No place is null, also of no bytes, and no two places overlap. No
 * call comes from a signal handler, or from the forked child of a process with threads. */
#ifndef RSTAR_CORE_H
#define RSTAR_CORE_H
#include <stddef.h>
#ifdef __cplusplus
extern "C" {
#endif

typedef struct rstar_core {
    void *at; /* null: the handle is of no node */
} rstar_core;
#define RSTAR_CORE_NONE { 0 }

/* Kinds of calls. */
#define RSTAR_CALL_WRITE 1   /* write these bytes at this place of the file */
#define RSTAR_CALL_SYNC 2    /* put what was written on the disk */
#define RSTAR_CALL_REPLACE 3 /* put a file of these bytes alone in the place of the file, on the disk, with its name */

/* The version of this interface, RSTAR_VERSION of rstar.h. */
unsigned int rstar_version(void);

/* Opens a process of a tree: the text of the tree's TOML file, the number of the process, and the bytes of its log's
 * file as they stand. how is 0; 1 makes a new log, and the file's bytes are not looked at. RSTAR_DONE or RSTAR_CALLS:
 * the handle is of a node, and its answer is what the process did as it opened. Else the handle is as it was, and no
 * call of the file is asked for. Asks for: a handle of no node. One that is of a node is lost, with its memory. */
unsigned int rstar_core_open(const unsigned char *tree, size_t tree_size, unsigned int process,
                             const unsigned char *file, size_t file_size, unsigned int how, rstar_core *core);

/* Answers a line, without its end, as `rstar node` does.
 *   RSTAR_DONE    the answer is copied to the front of the room if it fits; *size is its size
 *   RSTAR_CALLS   it waits for calls of the file: make them, and fetch it by rstar_core_answer; *size is 0
 *   RSTAR_WAITS   an earlier answer waits for calls: the line was not taken; *size is 0
 *   RSTAR_ENDED   a line `end` was answered before; *size is 0
 *   RSTAR_MEMORY, RSTAR_DEVICE, RSTAR_EXHAUSTED   there is no answer, and each later call says so; *size is 0. The step
 *                 was made or not: open the node again
 * Asks for: an open node. */
unsigned int rstar_core_line(rstar_core *core, const unsigned char *line, size_t line_size, unsigned char *room,
                             size_t room_size, size_t *size);

/* Gives the last answer, by the numbers of rstar_core_line. It changes nothing. Asks for: an open node. */
unsigned int rstar_core_answer(rstar_core *core, unsigned char *room, size_t room_size, size_t *size);

/* Gives the call of the file that is to be made next: its kind, its place, and its bytes, which are copied to the front
 * of the room if they fit; *size is their size. RSTAR_NO_CALL: none is asked for, and nothing was written. It changes
 * nothing. Asks for: an open node. */
unsigned int rstar_core_call(rstar_core *core, unsigned int *kind, unsigned long *place, unsigned char *room,
                             size_t room_size, size_t *size);

/* Tells that this call was made (is_made is not 0), or that it failed (0): then the answer is RSTAR_DEVICE, and so is
 * each later one. A call that was made stays made: tell it only when the bytes are where the call wants them. Asks for:
 * an open node. */
unsigned int rstar_core_done(rstar_core *core, unsigned int is_made);

/* Releases a node and its memory. The handle is then RSTAR_CORE_NONE. To force what stands in the log first, send the
 * line `end` and make its calls. Asks for: an open node. */
void rstar_core_close(rstar_core *core);

#ifdef __cplusplus
}
#endif
#endif
