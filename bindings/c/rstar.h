/* A process of a tree that commits a transaction at all of its stores or at none, linked into a program.
 *
 * Link librstar.a. docs/LIBRARY.md tells the whole; its lines and answers are those of `rstar node` (docs/EXAMPLES.md).
 *
 * What every caller keeps:
 *   - A handle is a place of the caller's own, which begins as RSTAR_NODE_NONE. What it holds is the library's: it is not
 *     read, written or copied, and it stays where it was opened until it is closed.
 *   - A handle is given to one call at a time, and stays on the thread that opened it. Several handles are independent.
 *   - No call comes from a signal handler, or from the forked child of a process that had threads or an open node.
 *   - Places of one call do not overlap. What is asked for by its size has that size. A place of no bytes may be null.
 *   - malloc, realloc and free are of one allocator. */
#ifndef RSTAR_H
#define RSTAR_H
#include <stddef.h>
#ifdef __cplusplus
extern "C" {
#endif

#define RSTAR_VERSION 1

typedef struct rstar_node {
    void *at; /* the library's */
    void *file;
} rstar_node;
#define RSTAR_NODE_NONE { 0, 0 }

/* What a call answers. */
#define RSTAR_DONE 0

/* An opening is refused, and the handle is as it was. But for RSTAR_IO no file has changed. */
#define RSTAR_TREE_TEXT 1    /* the tree's text cannot be read */
#define RSTAR_TREE 2         /* its processes are no tree */
#define RSTAR_NO_PROCESS 3   /* the tree has no such process */
#define RSTAR_PATH 4         /* the name has no bytes, or a zero byte */
#define RSTAR_BUSY 5         /* the log is open, here or in another process */
#define RSTAR_MISSING 6      /* there is no log, and none was to be made: a log that was lost is not begun again */
#define RSTAR_EXISTS 7       /* there is one, and a new one was to be made */
#define RSTAR_DAMAGED_FILE 8 /* what stands there is no file of a log, or is broken */
#define RSTAR_IO 9           /* the system refused a call; errno says why */
#define RSTAR_STRANGER 10    /* it is the log of another process, or of another tree */
#define RSTAR_DAMAGED_LOG 11 /* the log in the file is broken */
#define RSTAR_UNFIT 12       /* its records are not those of a process of this kind */
#define RSTAR_OLD_FORMAT 13  /* it is of the first format: `rstar migrate --file` */
#define RSTAR_NO_FILE 14     /* what has the name is a folder, a pipe or the like */
#define RSTAR_LINKED 15      /* the file has a second name, by which another process could open it */
#define RSTAR_HOW 16         /* how is neither RSTAR_EXISTING nor RSTAR_NEW */
#define RSTAR_TREE_UTF8 17   /* the tree's text is not UTF-8 */
#define RSTAR_OPEN 18        /* the handle is of an open node */

/* A call is refused. */
#define RSTAR_NULL 19        /* a place is null */
#define RSTAR_MEMORY 21      /* memory was refused */
#define RSTAR_DEVICE 23      /* the log's file failed; errno says why, after the call that met it */
#define RSTAR_EXHAUSTED 24   /* numbers are used up */
#define RSTAR_ENDED 25       /* a line `end` was answered before */
#define RSTAR_CLOSED 26      /* the handle is of no node */
#define RSTAR_CALLS 27       /* of rstar_core.h: the answer waits for calls of the log's file */
#define RSTAR_WAITS 28       /* an earlier answer waits: fetch it by rstar_node_answer; the line was not taken */
#define RSTAR_NO_CALL 29     /* of rstar_core.h: no call of the log's file is asked for */

/* There is no XID or no case. */
#define RSTAR_XID_FORMAT 31    /* a negative format */
#define RSTAR_XID_GTRID 32     /* a global name that is not of 1 to 64 bytes */
#define RSTAR_XID_BQUAL 33     /* a name of the branch of more than 64 bytes */
#define RSTAR_XID_SHORT 34     /* too few bytes */
#define RSTAR_XID_LONG 35      /* bytes after it */
#define RSTAR_XID_TEXT 36      /* a text that does not spell an XID */
#define RSTAR_NO_CASE 37       /* a text that spells no case, or a parent that does not fit it */
#define RSTAR_FOREIGN 38       /* an XID that names no case of a tree */

/* How a node is opened. */
#define RSTAR_EXISTING 0
#define RSTAR_NEW 1

/* The version of the library, which is RSTAR_VERSION if header and library fit. */
unsigned int rstar_version(void);

/* Opens a process of a tree (the text of its TOML file) over the log in the file of this name, as `rstar node` does;
 * how is RSTAR_EXISTING, or RSTAR_NEW if a new log is to be made. The file is locked until the node is closed.
 * RSTAR_DONE: the handle is of a node, and its answer is what the process did as it opened: fetch it by
 * rstar_node_answer. Else the handle is as it was. */
unsigned int rstar_node_open(const void *tree, size_t tree_size, unsigned int process, const void *path,
                             size_t path_size, unsigned int how, rstar_node *node);

/* Answers a line, without its end, as `rstar node` does. RSTAR_DONE: the step was made, and what it rests on is on the
 * disk. *size is the size of the answer, which is copied to the front of the room if it fits; if it does not,
 * rstar_node_answer gives it. Else there is no answer, *size is 0, and the room is as it was.
 * RSTAR_MEMORY, RSTAR_DEVICE, RSTAR_EXHAUSTED: the step was made or not, and each later call answers so: close the node
 * and open it again. A line `end` forces all that stands; each later line is RSTAR_ENDED. */
unsigned int rstar_node_line(rstar_node *node, const void *line, size_t line_size, void *room, size_t room_size,
                             size_t *size);

/* Gives the last answer again, as rstar_node_line does. */
unsigned int rstar_node_answer(rstar_node *node, void *room, size_t room_size, size_t *size);

/* Closes a node: all that stands in its log is forced, as at the end of `rstar node`, and its memory, its file and its
 * lock are released. The handle is RSTAR_NODE_NONE, whatever is answered. RSTAR_DONE: all was forced. Else why not: the
 * number by which the node answered last, or RSTAR_CLOSED. */
unsigned int rstar_node_close(rstar_node *node);

/* Audits the logs of a tree, as `rstar audit` does: in comes what `rstar tree --logs` writes, the tree's text and a line
 * for each log. explain 0: a line for each case. Else also, after each in doubt or with a mismatch, what decided it and what
 * to do. *ending is the program's exit status: 0, 1 (the report says what was refused or damaged) or 3 (a mismatch).
 * *size is the size of the report, which is copied to the front of the room if it fits; call again with more room
 * if it does not. RSTAR_MEMORY: nothing is told, and *ending is 4. */
unsigned int rstar_audit(const unsigned char *logs, size_t logs_size, unsigned int explain, unsigned char *room,
                         size_t room_size, size_t *size, unsigned int *ending);

/* Writes what the logs of a tree hold, as `rstar log` does. Else as rstar_audit. */
unsigned int rstar_log(const unsigned char *logs, size_t logs_size, unsigned char *room, size_t room_size, size_t *size,
                       unsigned int *ending);

/* XIDs in bytes are the format (4 bytes, the high one first), the lengths of both names (1 byte each), and the names: 6
 * to 134 bytes. In text they are as 7:01:02, at most 268 bytes. *size is the size of what is told, which is copied to
 * the front of the room if it fits; it is 0 if nothing is told. No place of these four is null, also of no bytes. */

/* The text of the XID of these bytes. */
unsigned int rstar_xid_text(const unsigned char *bytes, size_t bytes_size, unsigned char *room, size_t room_size,
                            size_t *size);

/* The bytes of the XID of this text. */
unsigned int rstar_xid_bytes(const unsigned char *text, size_t text_size, unsigned char *room, size_t room_size,
                             size_t *size);

/* The bytes of the XID by which a case is known at its process: the tree's root, the parent of the case's process (0 at
 * the root), and the case as a trace spells it, as a1.1@2.1.1. */
unsigned int rstar_xid_of_case(unsigned int root, unsigned int parent, const unsigned char *text, size_t text_size,
                               unsigned char *room, size_t room_size, size_t *size);

/* The case that the XID of these bytes names, with its root and the parent of its process (0 at the root). */
unsigned int rstar_xid_case(const unsigned char *bytes, size_t bytes_size, unsigned int *root, unsigned int *parent,
                            unsigned char *room, size_t room_size, size_t *size);

#ifdef __cplusplus
}
#endif
#endif
