/* Each number of rstar.h, seen from C: refusals TREE FOLDER
 *
 * TREE is tree.toml: root 1, manager 2 below it. Prints a line for each number with what it was seen of, and fails if
 * a call answers another. Refused calls are made on real files: locked, linked, cut, damaged, of another process. */
#include "rstar.h"
#include "rstar_core.h"
#include "faults.h"
#include <errno.h>
#include <stdio.h>
#include <stdlib.h>
#include <string.h>
#include <sys/stat.h>
#include <sys/types.h>
#include <unistd.h>

#define NUMBERS 40

static unsigned char tree[4096], file[1 << 16];
static size_t tree_size;
static const char *folder;
static int seen[NUMBERS];
static rstar_node first = RSTAR_NODE_NONE, other = RSTAR_NODE_NONE;

static void want(unsigned int is, unsigned int wanted, const char *what)
{
    if (is != wanted) {
        fprintf(stderr, "%s: %u, not %u (%s)\n", what, is, wanted, strerror(errno));
        exit(1);
    }
    if (!seen[is])
        printf("%2u  %s\n", is, what);
    seen[is] = 1;
}

static const char *name(const char *file_name)
{
    static char path[8][600];
    static int next;
    next = (next + 1) % 8;
    sprintf(path[next], "%s/%s", folder, file_name);
    return path[next];
}

static unsigned int open_as(unsigned int process, const char *path, unsigned int how, rstar_node *node)
{
    return rstar_node_open(tree, tree_size, process, path, strlen(path), how, node);
}

static size_t last_size;
static char last[1 << 16];

static unsigned int say(rstar_node *node, const char *line)
{
    unsigned int why = rstar_node_line(node, line, strlen(line), last, sizeof last - 1, &last_size);
    last[why == RSTAR_DONE ? last_size : 0] = 0;
    return why;
}

static void said(rstar_node *node, const char *line, const char *answer)
{
    want(say(node, line), RSTAR_DONE, line);
    if (strcmp(last, answer)) {
        fprintf(stderr, "%s: %s and not %s\n", line, last, answer);
        exit(1);
    }
}

static size_t read_whole(const char *path)
{
    FILE *f = fopen(path, "rb");
    size_t size = f ? fread(file, 1, sizeof file, f) : 0;
    if (f)
        fclose(f);
    return size;
}

static void write_whole(const char *path, size_t size)
{
    FILE *f = fopen(path, "wb");
    if (!f || fwrite(file, 1, size, f) != size || fclose(f)) {
        perror(path);
        exit(1);
    }
}

static void openings(void)
{
    static const char no_text[] = "[[process", no_utf8[] = "# \377\n",
                      two_roots[] = "[[process]]\nid = 1\nkind = \"coordinator\"\n[[process]]\nid = 2\nkind = \"coordinator\"\n";
    const char *log = name("1.log"), *made = name("2.log");
    size_t size;
    want(open_as(1, log, RSTAR_EXISTING, &first), RSTAR_MISSING, "a log that is not there");
    want(open_as(1, log, 2, &first), RSTAR_HOW, "a way to open that is none");
    want(rstar_node_open(tree, tree_size, 1, "", 0, RSTAR_NEW, &first), RSTAR_PATH, "a name of no bytes");
    want(rstar_node_open(tree, tree_size, 1, "a\0b", 3, RSTAR_NEW, &first), RSTAR_PATH, "a name with a zero byte");
    want(rstar_node_open(0, 5, 1, log, strlen(log), RSTAR_NEW, &first), RSTAR_NULL, "a tree that is null");
    want(rstar_node_open(tree, tree_size, 1, log, strlen(log), RSTAR_NEW, 0), RSTAR_NULL, "a handle that is null");
    want(rstar_node_open(no_text, sizeof no_text - 1, 1, log, strlen(log), RSTAR_NEW, &first), RSTAR_TREE_TEXT, "a tree's text that cannot be read");
    want(rstar_node_open(no_utf8, sizeof no_utf8 - 1, 1, log, strlen(log), RSTAR_NEW, &first), RSTAR_TREE_UTF8, "a tree's text that is not UTF-8");
    want(rstar_node_open(two_roots, sizeof two_roots - 1, 1, log, strlen(log), RSTAR_NEW, &first), RSTAR_TREE, "processes that are no tree");
    want(rstar_node_open(0, 0, 1, log, strlen(log), RSTAR_NEW, &first), RSTAR_TREE, "no process at all");
    want(open_as(9, log, RSTAR_NEW, &first), RSTAR_NO_PROCESS, "a process that is not listed");
    want(open_as(1, name("no/folder"), RSTAR_NEW, &first), RSTAR_IO, "a folder that is not there");
    if (access(log, F_OK) == 0 || access(name("1.log.new"), F_OK) == 0) {
        fprintf(stderr, "a refused opening left a file\n");
        exit(1);
    }
    want(open_as(1, log, RSTAR_NEW, &first), RSTAR_DONE, "a new log");
    want(rstar_node_answer(&first, last, sizeof last, &last_size), RSTAR_DONE, "what it did as it opened");
    if (last_size != 25 || memcmp(last, "log 1 Opened 1 forced\nok\n", 25)) {
        fprintf(stderr, "the opening tells %.*s\n", (int)last_size, last);
        exit(1);
    }
    want(open_as(1, log, RSTAR_EXISTING, &first), RSTAR_OPEN, "a handle that is of an open node");
    want(open_as(1, log, RSTAR_EXISTING, &other), RSTAR_BUSY, "a log that is open");
    want(open_as(1, log, RSTAR_NEW, &other), RSTAR_EXISTS, "a new log where there is one");
    said(&first, "begin pc", "begin c1.1\nok\n");
    said(&first, "join c1.1 2", "1 1->2 JOIN c1.1\nok\n");
    said(&first, "0 2->1 JOINED c1.1 2.1.1", "ok\n");
    said(&first, "commit c1.1", "log 1 Collecting c1.1 forced\n2 1->2 PREPARE c1.1@2.1.1 0\nok\n");
    want(rstar_node_close(&first), RSTAR_DONE, "a close");
    want(rstar_node_close(&first), RSTAR_CLOSED, "a close of a closed handle");
    want(rstar_node_close(0), RSTAR_NULL, "a close of no handle");
    want(say(&first, "doubt"), RSTAR_CLOSED, "a line to a closed handle");
    want(rstar_node_answer(&first, last, sizeof last, &last_size), RSTAR_CLOSED, "the answer of a closed handle");
    want(open_as(2, log, RSTAR_EXISTING, &first), RSTAR_STRANGER, "the log of another process");
    want(open_as(1, folder, RSTAR_EXISTING, &first), RSTAR_NO_FILE, "a folder");
    if (link(log, name("linked")) != 0)
        perror("link");
    want(open_as(1, log, RSTAR_EXISTING, &first), RSTAR_LINKED, "a file with two names");
    unlink(name("linked"));
    size = read_whole(log);
    file[100] ^= 1;
    write_whole(made, size);
    want(open_as(1, made, RSTAR_EXISTING, &first), RSTAR_DAMAGED_FILE, "a file with a byte changed");
    file[100] ^= 1;
    write_whole(made, 30);
    want(open_as(1, made, RSTAR_EXISTING, &first), RSTAR_DAMAGED_FILE, "a file that was cut");
    if (read_whole(made) != 30) {
        fprintf(stderr, "a refused opening changed the file\n");
        exit(1);
    }
    want(open_as(1, name("damaged.log"), RSTAR_EXISTING, &first), RSTAR_DAMAGED_LOG, "a log with a broken record");
    want(open_as(2, name("unfit.log"), RSTAR_EXISTING, &first), RSTAR_UNFIT, "a manager's log with a decision before its promise");
    want(open_as(1, name("old.log"), RSTAR_EXISTING, &first), RSTAR_OLD_FORMAT, "a log of the first format");
    want(open_as(1, name("last.log"), RSTAR_EXISTING, &first), RSTAR_EXHAUSTED, "a file with the last number");
    if (symlink("1.log", name("link")) != 0)
        perror("symlink");
    want(open_as(1, name("link"), RSTAR_EXISTING, &first), RSTAR_DONE, "a link that leads to the log");
    want(rstar_node_close(&first), RSTAR_DONE, "its close");
}

static void lines(void)
{
    const char *log = name("1.log");
    char small[2];
    size_t size = 7;
    unsigned int why;
    want(open_as(1, log, RSTAR_EXISTING, &first), RSTAR_DONE, "the log again");
    want(rstar_node_answer(&first, small, sizeof small, &size), RSTAR_DONE, "an answer that the room does not hold");
    if (size <= sizeof small) {
        fprintf(stderr, "the answer has %u bytes\n", (unsigned int)size);
        exit(1);
    }
    said(&first, "", "");
    said(&first, "# nothing", "");
    said(&first, "what is this", "error\n");
    said(&first, "\377", "error\n");
    said(&first, "commit a9.9", "refused 3\n");
    said(&first, "outcome c1.1", "outcome c1.1 aborted\nok\n");
    why = rstar_node_line(&first, "doubt", 5, small, 2, &size);
    want(why, RSTAR_DONE, "an answer in a small room");
    if (size != 3) {
        fprintf(stderr, "`ok` has %u bytes\n", (unsigned int)size);
        exit(1);
    }
    want(rstar_node_answer(&first, last, sizeof last, &last_size), RSTAR_DONE, "the same answer again");
    if (last_size != 3 || memcmp(last, "ok\n", 3)) {
        fprintf(stderr, "the answer again has %u bytes\n", (unsigned int)last_size);
        exit(1);
    }
    want(rstar_node_line(&first, 0, 0, 0, 0, &size), RSTAR_DONE, "a line and a room of no bytes, both null");
    want(rstar_node_line(&first, 0, 3, last, sizeof last, &size), RSTAR_NULL, "a line that is null");
    want(rstar_node_line(&first, "doubt", 5, 0, 9, &size), RSTAR_NULL, "a room that is null");
    want(rstar_node_line(&first, "doubt", 5, last, sizeof last, 0), RSTAR_NULL, "a size that is null");
    want(rstar_node_line(0, "doubt", 5, last, sizeof last, &size), RSTAR_NULL, "a line to no handle");
    said(&first, "end", "ok\n");
    want(say(&first, "doubt"), RSTAR_ENDED, "a line after `end`");
    want(rstar_node_close(&first), RSTAR_DONE, "a close after `end`");
}

/* A device that fails under a line: it is told by that line, by each later call and by the close. */
static void devices(void)
{
    const char *log = name("3.log");
    static const char *const calls[] = { "pwrite", "fdatasync" };
    int i;
    want(open_as(1, log, RSTAR_NEW, &first), RSTAR_DONE, "a new log");
    want(rstar_node_close(&first), RSTAR_DONE, "its close");
    for (i = 0; i < 2; i++) {
        char line[60];
        want(open_as(1, log, RSTAR_EXISTING, &first), RSTAR_DONE, "the log again");
        want(say(&first, "begin pc"), RSTAR_DONE, "begin pc");
        sprintf(line, "join %.10s 2", last + 6);
        line[5 + strcspn(line + 5, "\n")] = 0;
        strcat(line, " 2");
        want(say(&first, line), RSTAR_DONE, "join");
        sprintf(line, "0 2->1 JOINED c%d.1 2.1.1", 2 + i);
        want(say(&first, line), RSTAR_DONE, "joined");
        fail_next(calls[i], EIO);
        sprintf(line, "commit c%d.1", 2 + i);
        errno = 0;
        want(say(&first, line), RSTAR_DEVICE, calls[i]);
        if (errno != EIO) {
            fprintf(stderr, "errno is %d\n", errno);
            exit(1);
        }
        fail_next(0, 0);
        want(say(&first, "doubt"), RSTAR_DEVICE, "a line after a failed device");
        want(rstar_node_answer(&first, last, sizeof last, &last_size), RSTAR_DEVICE, "the answer after a failed device");
        want(rstar_node_close(&first), RSTAR_DEVICE, "a close after a failed device");
        want(say(&first, "doubt"), RSTAR_CLOSED, "a line after that close");
    }
    want(open_as(1, log, RSTAR_EXISTING, &first), RSTAR_DONE, "the log after failed devices");
    fail_next("fdatasync", ENOSPC);
    want(rstar_node_close(&first), RSTAR_DEVICE, "a close whose force fails");
    fail_next("rename", EIO);
    want(open_as(1, log, RSTAR_EXISTING, &first), RSTAR_IO, "an opening whose rename fails");
    fail_next("fsync", EIO);
    want(open_as(1, log, RSTAR_EXISTING, &first), RSTAR_IO, "an opening whose sync fails");
    fail_next(0, 0);
    /* A file that has lost its name under a running node. */
    want(open_as(1, log, RSTAR_EXISTING, &first), RSTAR_DONE, "the log");
    unlink(log);
    want(rstar_node_close(&first), RSTAR_DEVICE, "a close of a log that was removed");
}

/* Each allocation refused in turn, in an opening, a line and a close: 21, or what is answered without a refusal. */
static void memory(void)
{
    const char *log = name("4.log");
    int n;
    for (n = 1; n < 5000; n++) {
        unsigned int why;
        unlink(log);
        refuse_malloc(n);
        why = open_as(1, log, RSTAR_NEW, &first);
        if (!refuse_malloc(0)) {
            want(why, RSTAR_DONE, "a new log");
            want(rstar_node_close(&first), RSTAR_DONE, "its close");
            break;
        }
        if (why == RSTAR_DONE)
            want(rstar_node_close(&first), RSTAR_DONE, "a close after memory that was not needed");
        else
            want(why, RSTAR_MEMORY, "memory refused in an opening");
    }
    printf("    %d allocations of an opening refused\n", n - 1);
    for (n = 1; n < 5000; n++) {
        unsigned int why, later;
        unlink(log);
        want(open_as(1, log, RSTAR_NEW, &first), RSTAR_DONE, "a new log");
        refuse_malloc(n);
        why = say(&first, "begin pc");
        if (!refuse_malloc(0)) {
            want(rstar_node_close(&first), RSTAR_DONE, "its close");
            break;
        }
        want(why, RSTAR_MEMORY, "memory refused under a line");
        later = say(&first, "doubt");
        want(later, RSTAR_MEMORY, "a line after refused memory");
        want(rstar_node_close(&first), RSTAR_MEMORY, "a close after refused memory");
    }
    printf("    %d allocations of a line refused\n", n - 1);
    for (n = 1; n < 5000; n++) {
        unsigned int why;
        int was;
        unlink(log);
        want(open_as(1, log, RSTAR_NEW, &first), RSTAR_DONE, "a new log");
        refuse_malloc(n);
        why = rstar_node_close(&first);
        was = refuse_malloc(0);
        if (first.at || first.file) {
            fprintf(stderr, "a close left the handle open\n");
            exit(1);
        }
        if (!was)
            break;
        if (why != RSTAR_DONE)
            want(why, RSTAR_MEMORY, "memory refused in a close");
    }
    printf("    %d allocations of a close refused\n", n - 1);
}

/* The calls of rstar_core.h that files of the system make no use of. */
static void core(void)
{
    rstar_core node = RSTAR_CORE_NONE;
    unsigned char room[1 << 12];
    unsigned int kind = 0, calls = 0;
    unsigned long place = 0;
    size_t size = 9;
    memset(room, 0, sizeof room);
    want(rstar_core_open(tree, tree_size, 1, room, 0, 1, &node), RSTAR_CALLS, "a node whose file is to be made");
    want(rstar_core_line(&node, (const unsigned char *)"doubt", 5, room, sizeof room, &size), RSTAR_WAITS, "a line before those calls");
    want(rstar_core_answer(&node, room, sizeof room, &size), RSTAR_CALLS, "the answer before those calls");
    if (size != 0) {
        fprintf(stderr, "an answer left before its calls were made\n");
        exit(1);
    }
    while (rstar_core_call(&node, &kind, &place, room, sizeof room, &size) == RSTAR_DONE) {
        calls++;
        want(rstar_core_answer(&node, room, sizeof room, &size), RSTAR_CALLS, "the answer between its calls");
        want(rstar_core_done(&node, 1), RSTAR_DONE, "a call that was made");
    }
    printf("    an opening asks for %u calls\n", calls);
    want(rstar_core_call(&node, &kind, &place, room, sizeof room, &size), RSTAR_NO_CALL, "a call that is not asked for");
    want(rstar_core_done(&node, 1), RSTAR_NO_CALL, "a call that was not asked for");
    want(rstar_core_done(&node, 0), RSTAR_NO_CALL, "a failure of a call that was not asked for");
    want(rstar_core_answer(&node, room, sizeof room, &size), RSTAR_DONE, "the answer after its calls");
    rstar_core_close(&node);
    if (node.at) {
        fprintf(stderr, "a close left the handle open\n");
        exit(1);
    }
}

static void texts(void)
{
    static const unsigned char bytes[] = { 0, 0, 0, 7, 1, 1, 1, 2 };
    unsigned char room[400], long_name[200];
    char text[400];
    size_t size = 0, at;
    unsigned int root = 0, parent = 0, ending = 9;
    want(rstar_version(), RSTAR_VERSION, "the version");
    want(rstar_xid_text(bytes, 8, room, sizeof room, &size), RSTAR_DONE, "the text of an XID");
    if (size != 7 || memcmp(room, "7:01:02", 7)) {
        fprintf(stderr, "the XID reads %.*s\n", (int)size, (char *)room);
        exit(1);
    }
    want(rstar_xid_bytes((const unsigned char *)"7:01:02", 7, room, sizeof room, &size), RSTAR_DONE, "the bytes of an XID");
    if (size != 8 || memcmp(room, bytes, 8)) {
        fprintf(stderr, "the XID's bytes are others\n");
        exit(1);
    }
    want(rstar_xid_text((const unsigned char *)"\200\0\0\0\1\0\1", 7, room, sizeof room, &size), RSTAR_XID_FORMAT, "a negative format");
    want(rstar_xid_text((const unsigned char *)"\0\0\0\7\0\0", 6, room, sizeof room, &size), RSTAR_XID_GTRID, "no global name");
    memset(long_name, 0, sizeof long_name);
    long_name[3] = 7;
    long_name[4] = 1;
    long_name[5] = 65;
    want(rstar_xid_text(long_name, 72, room, sizeof room, &size), RSTAR_XID_BQUAL, "a name of the branch of 65 bytes");
    want(rstar_xid_text(bytes, 7, room, sizeof room, &size), RSTAR_XID_SHORT, "an XID cut short");
    want(rstar_xid_text(long_name, 3, room, sizeof room, &size), RSTAR_XID_SHORT, "three bytes");
    memcpy(long_name, bytes, 8);
    want(rstar_xid_text(long_name, 9, room, sizeof room, &size), RSTAR_XID_LONG, "a byte after an XID");
    want(rstar_xid_bytes((const unsigned char *)"7:1:2", 5, room, sizeof room, &size), RSTAR_XID_TEXT, "a text that is no XID");
    want(rstar_xid_bytes((const unsigned char *)"-2:01:", 6, room, sizeof room, &size), RSTAR_XID_FORMAT, "a text with a negative format");
    want(rstar_xid_of_case(1, 1, (const unsigned char *)"a1.1@2.1.1", 10, room, sizeof room, &size), RSTAR_DONE, "the XID of a case");
    at = size;
    want(rstar_xid_case(room, at, &root, &parent, (unsigned char *)text, sizeof text, &size), RSTAR_DONE, "the case of an XID");
    if (root != 1 || parent != 1 || size != 10 || memcmp(text, "a1.1@2.1.1", 10)) {
        fprintf(stderr, "the XID names %.*s of %u below %u\n", (int)size, text, root, parent);
        exit(1);
    }
    want(rstar_xid_of_case(1, 0, (const unsigned char *)"c3.4", 4, room, sizeof room, &size), RSTAR_DONE, "the XID of a root's case");
    at = size;
    want(rstar_xid_case(room, at, &root, &parent, (unsigned char *)text, sizeof text, &size), RSTAR_DONE, "its case");
    if (root != 1 || parent != 0 || size != 4 || memcmp(text, "c3.4", 4))
        exit(1);
    want(rstar_xid_of_case(1, 0, (const unsigned char *)"a1.1@2.1.1", 10, room, sizeof room, &size), RSTAR_NO_CASE, "a case below no parent");
    want(rstar_xid_of_case(1, 1, (const unsigned char *)"x", 1, room, sizeof room, &size), RSTAR_NO_CASE, "a text that is no case");
    want(rstar_xid_case(bytes, 8, &root, &parent, room, sizeof room, &size), RSTAR_FOREIGN, "an XID of nobody's");
    at = (size_t)sprintf(text, "%.*s---\nlog 1\nlog 2\n", (int)tree_size, (const char *)tree);
    want(rstar_audit((const unsigned char *)text, at, 0, room, sizeof room, &size, &ending), RSTAR_DONE, "an audit");
    printf("    the audit ends with %u: %.*s", ending, (int)size, (char *)room);
    want(rstar_audit((const unsigned char *)"x", 1, 1, room, sizeof room, &size, &ending), RSTAR_DONE, "an audit of no logs");
    if (ending != 1) {
        fprintf(stderr, "that audit ends with %u\n", ending);
        exit(1);
    }
    want(rstar_log((const unsigned char *)text, at, room, sizeof room, &size, &ending), RSTAR_DONE, "what logs hold");
    want(rstar_log((const unsigned char *)text, at, room, 1, &size, &ending), RSTAR_DONE, "what logs hold, in a small room");
}

int main(int argc, char **argv)
{
    FILE *f;
    int n, lacking = 0;
    static const int absent[] = { 20, 22, 30, 39 };
    if (argc != 3)
        return 2;
    folder = argv[2];
    f = fopen(argv[1], "rb");
    tree_size = f ? fread(tree, 1, sizeof tree, f) : 0;
    if (f)
        fclose(f);
    openings();
    lines();
    devices();
    memory();
    core();
    texts();
    for (n = 0; n < NUMBERS; n++) {
        size_t i;
        int is_absent = 0;
        for (i = 0; i < sizeof absent / sizeof *absent; i++)
            is_absent |= absent[i] == n;
        if (!seen[n] && !is_absent) {
            fprintf(stderr, "%d was not seen\n", n);
            lacking = 1;
        }
    }
    if (!lacking)
        printf("each number was seen\n");
    return lacking;
}
