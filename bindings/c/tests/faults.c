/* Faults of the system, made for tests. */
#include "faults.h"
#include <errno.h>
#include <stddef.h>
#include <string.h>
#include <sys/types.h>

static const char *failing;
static int why, countdown, refused;
static unsigned long asked;

void fail_next(const char *call, int reason)
{
    failing = call;
    why = reason;
}

int refuse_malloc(int number)
{
    int was = refused;
    countdown = number;
    refused = 0;
    return was;
}

static int fails(const char *call)
{
    if (!failing || strcmp(failing, call))
        return 0;
    errno = why;
    return 1;
}

unsigned long allocations(void)
{
    return asked;
}

static int is_refused(void)
{
    asked++;
    if (countdown == 0 || --countdown > 0)
        return 0;
    refused = 1;
    errno = ENOMEM;
    return 1;
}

ssize_t __real_pwrite(int fd, const void *bytes, size_t size, off_t place);
ssize_t __wrap_pwrite(int fd, const void *bytes, size_t size, off_t place);
int __real_fdatasync(int fd);
int __wrap_fdatasync(int fd);
int __real_fsync(int fd);
int __wrap_fsync(int fd);
int __real_rename(const char *from, const char *to);
int __wrap_rename(const char *from, const char *to);
void *__real_malloc(size_t size);
void *__wrap_malloc(size_t size);
void *__real_realloc(void *at, size_t size);
void *__wrap_realloc(void *at, size_t size);
void *__real_calloc(size_t count, size_t size);
void *__wrap_calloc(size_t count, size_t size);

ssize_t __wrap_pwrite(int fd, const void *bytes, size_t size, off_t place)
{
    return fails("pwrite") ? -1 : __real_pwrite(fd, bytes, size, place);
}

int __wrap_fdatasync(int fd)
{
    return fails("fdatasync") ? -1 : __real_fdatasync(fd);
}

int __wrap_fsync(int fd)
{
    return fails("fsync") ? -1 : __real_fsync(fd);
}

int __wrap_rename(const char *from, const char *to)
{
    return fails("rename") ? -1 : __real_rename(from, to);
}

void *__wrap_malloc(size_t size)
{
    return is_refused() ? NULL : __real_malloc(size);
}

void *__wrap_realloc(void *at, size_t size)
{
    return is_refused() ? NULL : __real_realloc(at, size);
}

void *__wrap_calloc(size_t count, size_t size)
{
    return is_refused() ? NULL : __real_calloc(count, size);
}
