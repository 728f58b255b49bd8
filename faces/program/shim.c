/* Stands between a program and the C library in faces/program/test.py (LD_PRELOAD), to see the calls that it makes on files, and to make one of them fail.
   Calls on a file whose name is relative, and on standard input and output, are numbered from 1 in their order.

   LEGS_LOG=PATH        a line for each call: its number, what it is, its answer, and names
   LEGS_FAIL=N,ERRNO    call N fails so; with `,on` behind it, each later create, write, sync and rename too, as on a disk that is full
   LEGS_KILL=N,before   the process is killed before call N, or with `after` behind it
   LEGS_PART=N          a read or a write moves at most N bytes
   LEGS_PID=N           the process's number is N */
#define _GNU_SOURCE
#include <errno.h>
#include <fcntl.h>
#include <signal.h>
#include <stdarg.h>
#include <stdio.h>
#include <stdlib.h>
#include <string.h>
#include <sys/syscall.h>
#include <unistd.h>

enum { FILES = 1024 };
enum kind { OTHER, READ, NEW };
static unsigned char kinds[FILES];
static int calls;
static int log_file = -1;

static long setting(const char *name, int field, long none) {
    const char *said = getenv(name);
    while (said && field-- > 0) {
        said = strchr(said, ',');
        said = said ? said + 1 : NULL;
    }
    return said && *said ? atol(said) : none;
}

static int says(const char *name, const char *word) {
    const char *said = getenv(name);
    return said && strstr(said, word) != NULL;
}

static enum kind kind_of(int fd) { return fd >= 0 && fd < FILES ? kinds[fd] : OTHER; }

static void die(void) {
    syscall(SYS_kill, syscall(SYS_getpid), SIGKILL);
    for (;;) {
    }
}

/* The call gets its number; whether it is to fail. */
static int begin(int lasting) {
    calls++;
    if (setting("LEGS_KILL", 0, 0) == calls && says("LEGS_KILL", "before")) die();
    long at = setting("LEGS_FAIL", 0, 0);
    return at && (at == calls || (lasting && at < calls && says("LEGS_FAIL", ",on")));
}

static void end(int number, const char *what, long answer, const char *one, const char *two) {
    int kept = errno;
    const char *path = getenv("LEGS_LOG");
    if (path) {
        if (log_file < 0) {
            int fd = syscall(SYS_openat, AT_FDCWD, path, O_WRONLY | O_CREAT | O_APPEND | O_CLOEXEC, 0666);
            log_file = syscall(SYS_fcntl, fd, F_DUPFD_CLOEXEC, 900);
            syscall(SYS_close, fd);
        }
        char line[9000];
        int n = snprintf(line, sizeof line, "%d %s %ld\t%s\t%s\n", number, what, answer, one, two);
        if (n > (int)sizeof line) n = sizeof line;
        syscall(SYS_write, log_file, line, n);
    }
    errno = kept;
    if (setting("LEGS_KILL", 0, 0) == number && says("LEGS_KILL", "after")) die();
}

static long failed(int number, const char *what) {
    errno = setting("LEGS_FAIL", 1, EIO);
    end(number, what, -1, "", "");
    return -1;
}

static long opened(const char *path, int flags, int mode) {
    if (path[0] == '/') return syscall(SYS_openat, AT_FDCWD, path, flags, mode);
    int new = (flags & (O_CREAT | O_WRONLY | O_RDWR)) != 0;
    const char *what = new ? "create" : "open";
    if (begin(new)) return failed(calls, what);
    long fd = syscall(SYS_openat, AT_FDCWD, path, flags, mode);
    if (fd >= 0 && fd < FILES) kinds[fd] = new ? NEW : READ;
    end(calls, what, fd, path, new && !(flags & O_EXCL) ? "it may take a file that is there" : "");
    return fd;
}

int open(const char *path, int flags, ...) {
    va_list rest;
    va_start(rest, flags);
    int mode = va_arg(rest, int);
    va_end(rest);
    return opened(path, flags, mode);
}

int open64(const char *path, int flags, ...) {
    va_list rest;
    va_start(rest, flags);
    int mode = va_arg(rest, int);
    va_end(rest);
    return opened(path, flags, mode);
}

ssize_t read(int fd, void *to, size_t size) {
    long part = setting("LEGS_PART", 0, 0);
    const char *what = fd == 0 ? "input" : "read";
    if (fd != 0 && kind_of(fd) == OTHER) return syscall(SYS_read, fd, to, size);
    if (begin(0)) return failed(calls, what);
    long got = syscall(SYS_read, fd, to, part && size > (size_t)part ? (size_t)part : size);
    end(calls, what, got, "", "");
    return got;
}

ssize_t write(int fd, const void *from, size_t size) {
    long part = setting("LEGS_PART", 0, 0);
    const char *what = fd == 1 ? "print" : "write";
    if (fd != 1 && kind_of(fd) == OTHER) return syscall(SYS_write, fd, from, size);
    if (begin(fd != 1)) return failed(calls, what);
    long put = syscall(SYS_write, fd, from, part && size > (size_t)part ? (size_t)part : size);
    end(calls, what, put, "", "");
    return put;
}

static int synced(int fd, long which) {
    if (kind_of(fd) == OTHER) return syscall(which, fd);
    if (begin(1)) return failed(calls, "sync");
    int answer = syscall(which, fd);
    end(calls, "sync", answer, "", "");
    return answer;
}

int fsync(int fd) { return synced(fd, SYS_fsync); }
int fdatasync(int fd) { return synced(fd, SYS_fdatasync); }

/* One that fails has closed the file all the same, as on Linux. */
int close(int fd) {
    enum kind kind = kind_of(fd);
    if (kind == OTHER) return syscall(SYS_close, fd);
    const char *what = kind == NEW ? "close" : "leave";
    int fails = begin(0);
    int answer = syscall(SYS_close, fd);
    kinds[fd] = OTHER;
    if (fails) return failed(calls, what);
    end(calls, what, answer, "", "");
    return answer;
}

int rename(const char *from, const char *to) {
    if (begin(1)) return failed(calls, "rename");
    int answer = syscall(SYS_renameat2, AT_FDCWD, from, AT_FDCWD, to, 0);
    end(calls, "rename", answer, from, to);
    return answer;
}

int unlink(const char *path) {
    if (begin(0)) return failed(calls, "unlink");
    int answer = syscall(SYS_unlinkat, AT_FDCWD, path, 0);
    end(calls, "unlink", answer, path, "");
    return answer;
}

pid_t getpid(void) {
    long said = setting("LEGS_PID", 0, 0);
    return said ? said : syscall(SYS_getpid);
}
