/* For tests, loaded before the C library (LD_PRELOAD): read on descriptor 0 and write on descriptor 1 fail as the variable FAULTS says, and then
 * do what they would have done. FAULTS is words: `read EINTR 3` makes the first three reads fail so; `write short` moves one byte a call;
 * `after 2` lets the first two calls pass. */
#define _GNU_SOURCE
#include <errno.h>
#include <stdlib.h>
#include <string.h>
#include <sys/syscall.h>
#include <unistd.h>

static int passed, failed;

static int number_after(const char *faults, const char *word, int otherwise)
{
    const char *found = strstr(faults, word);
    return found == NULL ? otherwise : atoi(found + strlen(word));
}

/* The errno that a call is to fail with now, or 0. */
static int fault(const char *call)
{
    static const struct {
        const char *name;
        int number;
    } reasons[] = {{"EINTR ", EINTR}, {"EIO ", EIO}, {"EAGAIN ", EAGAIN}, {"ENOSPC ", ENOSPC}};
    const char *faults = getenv("FAULTS");
    if (faults == NULL || strncmp(faults, call, strlen(call)) != 0)
        return 0;
    if (passed < number_after(faults, "after ", 0)) {
        passed++;
        return 0;
    }
    for (size_t k = 0; k < sizeof reasons / sizeof reasons[0]; k++)
        if (failed < number_after(faults, reasons[k].name, 0)) {
            failed++;
            return reasons[k].number;
        }
    return 0;
}

static size_t shortened(const char *call, size_t count)
{
    const char *faults = getenv("FAULTS");
    return faults != NULL && strncmp(faults, call, strlen(call)) == 0 && strstr(faults, "short") != NULL && count > 1 ? 1 : count;
}

ssize_t read(int fd, void *buffer, size_t count)
{
    int error = fd == 0 ? fault("read") : 0;
    if (error != 0) {
        errno = error;
        return -1;
    }
    return syscall(SYS_read, fd, buffer, fd == 0 ? shortened("read", count) : count);
}

ssize_t write(int fd, const void *buffer, size_t count)
{
    int error = fd == 1 ? fault("write") : 0;
    if (error != 0) {
        errno = error;
        return -1;
    }
    return syscall(SYS_write, fd, buffer, fd == 1 ? shortened("write", count) : count);
}
