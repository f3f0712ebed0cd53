/*
 * Makes a host crash between any two steps that it takes on the disk. It is loaded before the C library:
 *
 *     LD_PRELOAD=build/crash.so CRASH_STEP=K CRASH_LOSES=1 HOST ..
 *
 * A step creates a file, writes to it, syncs, or renames. Before step K the process kills itself with SIGKILL; a write is half done by
 * then. With CRASH_LOSES=1 the power goes with it: what was not synced is lost. A write is then held back until the file is synced, and a
 * rename until the folder is synced. No sync waits for a real disk. Files that were not created by the process are left alone.
 */
#define _GNU_SOURCE
#include <fcntl.h>
#include <limits.h>
#include <signal.h>
#include <stdarg.h>
#include <stdio.h>
#include <stdlib.h>
#include <string.h>
#include <sys/syscall.h>
#include <unistd.h>

#define FILES 256
#define RENAMES 8

struct created {
    int is;
    char *held; /* written and not synced */
    size_t length;
};

struct renamed {
    int from_folder, to_folder;
    char from[PATH_MAX], to[PATH_MAX];
};

static struct created files[FILES];
static struct renamed renames[RENAMES];
static size_t renames_held;

/* ---- what the system does */

static int real_open(int folder, const char *path, int flags, mode_t mode)
{
    return (int)syscall(SYS_openat, folder, path, flags, mode);
}

static ssize_t real_write(int file, const void *bytes, size_t length)
{
    return (ssize_t)syscall(SYS_write, file, bytes, length);
}

static int real_rename(int from_folder, const char *from, int to_folder, const char *to)
{
    return (int)syscall(SYS_renameat, from_folder, from, to_folder, to);
}

/* ---- steps */

static int loses(void)
{
    const char *text = getenv("CRASH_LOSES");
    return text != NULL && strcmp(text, "1") == 0;
}

/* Counts a step: whether the process is to end at it. */
static int is_last_step(void)
{
    static long steps;
    const char *text = getenv("CRASH_STEP");
    steps++;
    return text != NULL && steps == atol(text);
}

static void crash(void)
{
    kill(getpid(), SIGKILL);
    pause();
}

static void step(void)
{
    if (is_last_step())
        crash();
}

static struct created *created(int file)
{
    return file >= 0 && file < FILES && files[file].is ? &files[file] : NULL;
}

static void forget(struct created *file)
{
    free(file->held);
    *file = (struct created){0, NULL, 0};
}

/* ---- creating */

static int open_at(int folder, const char *path, int flags, mode_t mode)
{
    int file;
    if ((flags & O_CREAT) == 0)
        return real_open(folder, path, flags, mode);
    step();
    file = real_open(folder, path, flags, mode);
    if (file >= 0 && file < FILES)
        files[file].is = 1;
    return file;
}

static mode_t mode_of(int flags, va_list arguments)
{
    return (flags & O_CREAT) != 0 ? (mode_t)va_arg(arguments, int) : 0;
}

#define OPEN(name, parameters, folder)                                                                                                   \
    int name parameters                                                                                                                  \
    {                                                                                                                                    \
        va_list arguments;                                                                                                               \
        mode_t mode;                                                                                                                     \
        va_start(arguments, flags);                                                                                                      \
        mode = mode_of(flags, arguments);                                                                                                \
        va_end(arguments);                                                                                                               \
        return open_at(folder, path, flags, mode);                                                                                       \
    }

OPEN(open, (const char *path, int flags, ...), AT_FDCWD)
OPEN(open64, (const char *path, int flags, ...), AT_FDCWD)
OPEN(openat, (int folder, const char *path, int flags, ...), folder)
OPEN(openat64, (int folder, const char *path, int flags, ...), folder)

/* ---- writing */

static void hold(struct created *file, const void *bytes, size_t length)
{
    file->held = realloc(file->held, file->length + length);
    memcpy(file->held + file->length, bytes, length);
    file->length += length;
}

ssize_t write(int file, const void *bytes, size_t length)
{
    struct created *mine = created(file);
    if (mine == NULL)
        return real_write(file, bytes, length);
    if (is_last_step()) {
        if (!loses())
            real_write(file, bytes, length / 2);
        crash();
    }
    if (!loses())
        return real_write(file, bytes, length);
    hold(mine, bytes, length);
    return (ssize_t)length;
}

/* What is held of a file goes where nobody finds it. */
int close(int file)
{
    if (created(file) != NULL)
        forget(created(file));
    return (int)syscall(SYS_close, file);
}

/* ---- renaming */

static int rename_at(int from_folder, const char *from, int to_folder, const char *to)
{
    struct renamed *held;
    step();
    if (!loses() || renames_held == RENAMES)
        return real_rename(from_folder, from, to_folder, to);
    held = &renames[renames_held++];
    held->from_folder = from_folder;
    held->to_folder = to_folder;
    snprintf(held->from, sizeof held->from, "%s", from);
    snprintf(held->to, sizeof held->to, "%s", to);
    return 0;
}

int renameat(int from_folder, const char *from, int to_folder, const char *to)
{
    return rename_at(from_folder, from, to_folder, to);
}

int rename(const char *from, const char *to)
{
    return rename_at(AT_FDCWD, from, AT_FDCWD, to);
}

/* ---- syncing */

static void sync_file(int file, struct created *mine)
{
    if (mine->length > 0)
        real_write(file, mine->held, mine->length);
    mine->length = 0;
}

static void sync_folder(void)
{
    for (size_t at = 0; at < renames_held; at++)
        real_rename(renames[at].from_folder, renames[at].from, renames[at].to_folder, renames[at].to);
    renames_held = 0;
}

int fsync(int file)
{
    step();
    if (created(file) != NULL)
        sync_file(file, created(file));
    else
        sync_folder();
    return 0;
}

int fdatasync(int file)
{
    return fsync(file);
}
