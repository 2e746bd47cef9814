/* The nodes of rstar.h: those of rstar_core.h over files of the system.
 *
 * What is proved is behind rstar_core.h; here are the calls of the system that a log's file wants, each until it
 * is done, and in the order in which it is asked for. An answer leaves the library only once the calls that it waits
 * for have been made. The file is treated as by `rstar node` (crates/log_file, HostFile): what a call does to it, and
 * what is refused, is the same there. */
#define _DEFAULT_SOURCE 1
#include "rstar.h"
#include "rstar_core.h"
#include <errno.h>
#include <fcntl.h>
#include <limits.h>
#include <stdio.h>
#include <stdlib.h>
#include <string.h>
#include <sys/file.h>
#include <sys/stat.h>
#include <sys/types.h>
#include <unistd.h>

/* An open log file: the file that has the name, locked (-1 until a first one was written), and its folder. */
struct log_file {
    int fd;
    int folder;
    char *path;
    char *beside;          /* the name under which a new file is written */
    unsigned char *room;   /* for the bytes of a call */
    size_t room_size;
    int reason;            /* what the system said of the call that failed */
};

static const unsigned char nothing[1] = { 0 };

/* The same descriptor above the standard streams', so that what is meant for one that was closed does not land in it. */
static int above_streams(int fd)
{
    int higher, reason;
    if (fd < 0 || fd > 2)
        return fd;
    higher = fcntl(fd, F_DUPFD_CLOEXEC, 3);
    reason = errno;
    close(fd);
    errno = reason;
    return higher;
}

static int opened(const char *path, int flags)
{
    int fd;
    do
        fd = open(path, flags | O_CLOEXEC, 0600);
    while (fd < 0 && errno == EINTR);
    return above_streams(fd);
}

/* 0: locked for as long as it is open; 1: another opening of the file has it locked; -1: the call failed. */
static int lock_file(int fd)
{
    int done;
    do
        done = flock(fd, LOCK_EX | LOCK_NB);
    while (done < 0 && errno == EINTR);
    return done == 0 ? 0 : errno == EWOULDBLOCK ? 1 : -1;
}

/* 1: this name, which is no link, is the open file's; 0: it is not; -1: a call failed. */
static int is_named(int fd, const char *path)
{
    struct stat here, there;
    if (fstat(fd, &here) < 0)
        return -1;
    if (lstat(path, &there) < 0)
        return errno == ENOENT ? 0 : -1;
    return here.st_ino == there.st_ino && here.st_dev == there.st_dev;
}

static int sync_all(int fd)
{
    int done;
    do
        done = fsync(fd);
    while (done < 0 && errno == EINTR);
    return done;
}

static int write_all(int fd, const unsigned char *bytes, size_t size, unsigned long place)
{
    while (size > 0) {
        ssize_t moved;
        if (place > (unsigned long)LONG_MAX) {
            errno = EFBIG;
            return -1;
        }
        moved = pwrite(fd, bytes, size, (off_t)place);
        if (moved < 0 && errno == EINTR)
            continue;
        if (moved <= 0) {
            if (moved == 0)
                errno = EIO;
            return -1;
        }
        bytes += moved;
        size -= (size_t)moved;
        place += (unsigned long)moved;
    }
    return 0;
}

/* The name is still the file's; or, if no file was written yet, nobody's. */
static int keeps_name(const struct log_file *file)
{
    struct stat found;
    if (file->fd >= 0) {
        int named = is_named(file->fd, file->path);
        if (named == 0)
            errno = ENOENT;
        return named == 1 ? 0 : -1;
    }
    if (lstat(file->path, &found) == 0) {
        errno = EEXIST;
        return -1;
    }
    return errno == ENOENT ? 0 : -1;
}

/* Removes the file that a process which ended left under the name of a new one. What is no file stays, and so does one
 * that a process has locked. */
static int clear(const char *path)
{
    struct stat found;
    int fd, free_of_lock, named, done, reason;
    if (lstat(path, &found) < 0)
        return errno == ENOENT ? 0 : -1;
    if (!S_ISREG(found.st_mode)) {
        errno = EEXIST;
        return -1;
    }
    fd = opened(path, O_RDONLY);
    if (fd < 0)
        return -1;
    free_of_lock = lock_file(fd);
    named = free_of_lock == 0 ? is_named(fd, path) : 0;
    if (free_of_lock == 0 && named == 1) {
        done = unlink(path);
    } else {
        done = -1;
        if (free_of_lock >= 0 && named >= 0)
            errno = EBUSY;
    }
    reason = errno;
    close(fd);
    errno = reason;
    return done;
}

/* A new file of these bytes in the place of the old one. If it did not take that place it is removed. */
static int replace(struct log_file *file, const unsigned char *bytes, size_t size)
{
    int fd, locked, done, reason;
    if (clear(file->beside) < 0)
        return -1;
    fd = opened(file->beside, O_WRONLY | O_CREAT | O_EXCL);
    if (fd < 0)
        return -1;
    locked = lock_file(fd);
    if (locked != 0) {
        reason = locked > 0 ? EBUSY : errno;
        close(fd);
        errno = reason;
        return -1;
    }
    if (write_all(fd, bytes, size, 0) < 0 || sync_all(fd) < 0 || keeps_name(file) < 0) {
        done = -1;
    } else {
        do
            done = rename(file->beside, file->path);
        while (done < 0 && errno == EINTR);
    }
    if (done < 0) {
        reason = errno;
        unlink(file->beside);
        close(fd);
        errno = reason;
        return -1;
    }
    if (file->fd >= 0)
        close(file->fd);
    file->fd = fd;
    return sync_all(file->folder);
}

/* What is on the disk is no log, if the file has lost its name. */
static int sync_named(const struct log_file *file)
{
    int done;
    do
        done = fdatasync(file->fd);
    while (done < 0 && errno == EINTR);
    return done < 0 ? -1 : keeps_name(file);
}

static int make_call(struct log_file *file, unsigned int kind, unsigned long place, size_t size)
{
    if (kind == RSTAR_CALL_REPLACE)
        return replace(file, file->room, size);
    if (file->fd < 0) {
        errno = ENOENT;
        return -1;
    }
    if (kind == RSTAR_CALL_WRITE)
        return write_all(file->fd, file->room, size, place);
    return sync_named(file);
}

/* Makes the calls that the last answer waits for. RSTAR_MEMORY: some are left, and can be made later. RSTAR_DEVICE: one
 * failed, and errno says why. */
static unsigned int make_calls(rstar_core *core, struct log_file *file)
{
    for (;;) {
        unsigned int kind = 0;
        unsigned long place = 0;
        size_t size = 0;
        if (rstar_core_call(core, &kind, &place, file->room, file->room_size, &size) != RSTAR_DONE)
            return RSTAR_DONE;
        if (size > file->room_size) {
            unsigned char *more = realloc(file->room, size);
            if (!more)
                return RSTAR_MEMORY;
            file->room = more;
            file->room_size = size;
            continue;
        }
        if (make_call(file, kind, place, size) < 0) {
            file->reason = errno;
            rstar_core_done(core, 0);
            errno = file->reason;
            return RSTAR_DEVICE;
        }
        rstar_core_done(core, 1);
    }
}

static void release(struct log_file *file)
{
    if (!file)
        return;
    if (file->fd >= 0)
        close(file->fd);
    if (file->folder >= 0)
        close(file->folder);
    free(file->path);
    free(file->beside);
    free(file->room);
    free(file);
}

/* The reason of a refusal of the system. */
static unsigned int refused(void)
{
    return errno == ENOMEM ? RSTAR_MEMORY : RSTAR_IO;
}

/* The folder that has this name in it, open. The name is whole, from the root on. */
static int folder_of(const char *path)
{
    size_t size = (size_t)(strrchr(path, '/') - path);
    char *folder;
    int fd, reason;
    if (size == 0)
        return opened("/", O_RDONLY);
    folder = malloc(size + 1);
    if (!folder)
        return -1;
    memcpy(folder, path, size);
    folder[size] = 0;
    fd = opened(folder, O_RDONLY);
    reason = errno;
    free(folder);
    errno = reason;
    return fd;
}

/* Names the file, and opens its folder. It takes the name. */
static unsigned int name_file(struct log_file *file, char *path)
{
    size_t size = strlen(path);
    file->path = path;
    file->beside = malloc(size + 5);
    if (!file->beside)
        return RSTAR_MEMORY;
    memcpy(file->beside, path, size);
    memcpy(file->beside + size, ".new", 5);
    file->folder = folder_of(path);
    return file->folder < 0 ? refused() : RSTAR_DONE;
}

/* All the bytes of the file, in memory of its own. */
static unsigned int read_file(int fd, unsigned char **bytes, size_t *size)
{
    struct stat found;
    size_t room;
    if (fstat(fd, &found) < 0)
        return refused();
    room = (size_t)found.st_size + 1;
    *bytes = malloc(room);
    if (!*bytes)
        return RSTAR_MEMORY;
    *size = 0;
    for (;;) {
        ssize_t moved;
        if (*size == room) {
            unsigned char *more = realloc(*bytes, room * 2);
            if (!more)
                return RSTAR_MEMORY;
            *bytes = more;
            room *= 2;
        }
        moved = pread(fd, *bytes + *size, room - *size, (off_t)*size);
        if (moved == 0)
            return RSTAR_DONE;
        if (moved > 0)
            *size += (size_t)moved;
        else if (errno != EINTR)
            return refused();
    }
}

/* Looks at the log that is there: links are followed, and the file is locked and read. Nothing is written. */
static unsigned int look(struct log_file *file, const char *path, unsigned char **bytes, size_t *size)
{
    struct stat found;
    int locked, named;
    unsigned int why;
    char *target = realpath(path, 0);
    if (!target)
        return errno == ENOENT ? RSTAR_MISSING : refused();
    if (stat(target, &found) < 0) {
        why = refused();
        free(target);
        return why;
    }
    if (!S_ISREG(found.st_mode) || found.st_nlink > 1) {
        free(target);
        return S_ISREG(found.st_mode) ? RSTAR_LINKED : RSTAR_NO_FILE;
    }
    why = name_file(file, target);
    if (why != RSTAR_DONE)
        return why;
    file->fd = opened(target, O_RDWR);
    if (file->fd < 0)
        return refused();
    locked = lock_file(file->fd);
    if (locked != 0)
        return locked > 0 ? RSTAR_BUSY : refused();
    named = is_named(file->fd, target);
    if (named != 1)
        return named == 0 ? RSTAR_BUSY : refused();
    return read_file(file->fd, bytes, size);
}

/* The same name from the root on, in memory of its own, so that it stays the file's when the program changes its folder.
 * Null: a call failed. */
static char *whole_name(const char *path)
{
    const char *slash = strrchr(path, '/'), *last = slash ? slash + 1 : path;
    size_t size = slash ? (size_t)(slash - path) : 0;
    char *folder, *real, *whole;
    if (!*last) {
        errno = EISDIR;
        return 0;
    }
    folder = malloc(size + 2);
    if (!folder)
        return 0;
    memcpy(folder, path, size);
    strcpy(folder + size, !slash ? "." : size == 0 ? "/" : "");
    real = realpath(folder, 0);
    free(folder);
    if (!real)
        return 0;
    whole = malloc(strlen(real) + strlen(last) + 2);
    if (whole) {
        strcpy(whole, real);
        if (strcmp(real, "/"))
            strcat(whole, "/");
        strcat(whole, last);
    }
    free(real);
    return whole;
}

/* Looks that nothing has the name of a new log. */
static unsigned int look_new(struct log_file *file, const char *path)
{
    struct stat found;
    char *own;
    if (lstat(path, &found) == 0)
        return RSTAR_EXISTS;
    if (errno != ENOENT)
        return refused();
    own = whole_name(path);
    return own ? name_file(file, own) : refused();
}

static unsigned int open_over(const void *tree, size_t tree_size, unsigned int process, const char *path,
                              unsigned int how, rstar_core *core, struct log_file *file)
{
    unsigned char *bytes = 0;
    size_t size = 0;
    unsigned int why = how == RSTAR_NEW ? look_new(file, path) : look(file, path, &bytes, &size);
    int reason = errno;
    if (why == RSTAR_DONE)
        why = rstar_core_open(tree ? tree : nothing, tree ? tree_size : 0, process, bytes ? bytes : nothing, size, how,
                              core);
    free(bytes);
    errno = reason;
    if (why != RSTAR_CALLS)
        return why;
    why = make_calls(core, file);
    if (why != RSTAR_DONE) {
        reason = errno;
        rstar_core_close(core);
        errno = reason;
    }
    return why == RSTAR_DEVICE ? refused() : why;
}

unsigned int rstar_node_open(const void *tree, size_t tree_size, unsigned int process, const void *path,
                             size_t path_size, unsigned int how, rstar_node *node)
{
    rstar_core core = RSTAR_CORE_NONE;
    struct log_file *file;
    char *name;
    unsigned int why;
    int reason;
    if (!node || (!tree && tree_size > 0) || (!path && path_size > 0))
        return RSTAR_NULL;
    if (node->at || node->file)
        return RSTAR_OPEN;
    if (how > RSTAR_NEW)
        return RSTAR_HOW;
    if (path_size == 0 || memchr(path, 0, path_size))
        return RSTAR_PATH;
    file = calloc(1, sizeof *file);
    name = malloc(path_size + 1);
    if (!file || !name) {
        free(file);
        free(name);
        return RSTAR_MEMORY;
    }
    memcpy(name, path, path_size);
    name[path_size] = 0;
    file->fd = -1;
    file->folder = -1;
    file->room_size = 256;
    file->room = malloc(file->room_size);
    why = file->room ? open_over(tree, tree_size, process, name, how, &core, file) : RSTAR_MEMORY;
    reason = errno;
    free(name);
    if (why == RSTAR_DONE) {
        node->at = core.at;
        node->file = file;
    } else {
        release(file);
    }
    errno = reason;
    return why;
}

unsigned int rstar_node_answer(rstar_node *node, void *room, size_t room_size, size_t *size)
{
    rstar_core core;
    unsigned char none[1];
    unsigned int status;
    if (size)
        *size = 0;
    if (!node || !size || (!room && room_size > 0))
        return RSTAR_NULL;
    if (!node->at)
        return RSTAR_CLOSED;
    core.at = node->at;
    status = make_calls(&core, node->file);
    if (status == RSTAR_DONE)
        status = rstar_core_answer(&core, room ? room : none, room ? room_size : 0, size);
    node->at = core.at;
    return status;
}

unsigned int rstar_node_line(rstar_node *node, const void *line, size_t line_size, void *room, size_t room_size,
                             size_t *size)
{
    rstar_core core;
    unsigned char none[1];
    unsigned int status;
    if (size)
        *size = 0;
    if (!node || !size || (!line && line_size > 0) || (!room && room_size > 0))
        return RSTAR_NULL;
    if (!node->at)
        return RSTAR_CLOSED;
    core.at = node->at;
    status = rstar_core_line(&core, line ? line : nothing, line_size, room ? room : none, room ? room_size : 0, size);
    if (status == RSTAR_CALLS) {
        status = make_calls(&core, node->file);
        if (status == RSTAR_DONE)
            status = rstar_core_answer(&core, room ? room : none, room ? room_size : 0, size);
    }
    node->at = core.at;
    return status;
}

unsigned int rstar_node_close(rstar_node *node)
{
    rstar_core core;
    unsigned char none[1];
    size_t size = 0;
    unsigned int status;
    int reason;
    if (!node)
        return RSTAR_NULL;
    if (!node->at)
        return RSTAR_CLOSED;
    core.at = node->at;
    status = make_calls(&core, node->file);
    if (status == RSTAR_DONE)
        status = rstar_core_line(&core, (const unsigned char *)"end", 3, none, 0, &size);
    if (status == RSTAR_CALLS)
        status = make_calls(&core, node->file);
    if (status == RSTAR_ENDED)
        status = RSTAR_DONE;
    reason = errno;
    rstar_core_close(&core);
    release(node->file);
    node->at = 0;
    node->file = 0;
    errno = reason;
    return status;
}
