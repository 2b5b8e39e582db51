/* Loaded before a program: refuses, if REFUSED_WATCHES is set, to watch what a client can be written to, and of the watches of
   listeners the one whose number, from 1, is REFUSED_REPORT. The first EMPTY_WRITES writes to regular files take no byte, and the
   first BROKEN_ACCEPTS accepts fail as if their listener were broken. With REFUSED_BINDS no address may be bound. */
#define _GNU_SOURCE
#include <dlfcn.h>
#include <errno.h>
#include <stdatomic.h>
#include <stdlib.h>
#include <sys/epoll.h>
#include <sys/socket.h>
#include <sys/stat.h>
#include <unistd.h>

static atomic_long writes, accepts, reports;

int accept4(int file, struct sockaddr *address, socklen_t *length, int flags) {
  static int (*real)(int, struct sockaddr *, socklen_t *, int);
  if (!real) real = dlsym(RTLD_NEXT, "accept4");
  const char *broken = getenv("BROKEN_ACCEPTS");
  if (broken && atomic_fetch_add(&accepts, 1) < atol(broken)) {
    errno = EBADF;
    return -1;
  }
  return real(file, address, length, flags);
}

int bind(int file, const struct sockaddr *address, socklen_t length) {
  static int (*real)(int, const struct sockaddr *, socklen_t);
  if (!real) real = dlsym(RTLD_NEXT, "bind");
  if (getenv("REFUSED_BINDS")) {
    errno = EACCES;
    return -1;
  }
  return real(file, address, length);
}

int epoll_ctl(int poll, int what, int file, struct epoll_event *event) {
  static int (*real)(int, int, int, struct epoll_event *);
  if (!real) real = dlsym(RTLD_NEXT, "epoll_ctl");
  if (getenv("REFUSED_WATCHES") && what == EPOLL_CTL_ADD && (event->events & EPOLLOUT)) {
    errno = ENOSPC;
    return -1;
  }
  const char *report = getenv("REFUSED_REPORT");
  if (report && what == EPOLL_CTL_ADD && (event->events & EPOLLEXCLUSIVE) && atomic_fetch_add(&reports, 1) + 1 == atol(report)) {
    errno = ENOSPC;
    return -1;
  }
  return real(poll, what, file, event);
}

ssize_t write(int file, const void *bytes, size_t count) {
  static ssize_t (*real)(int, const void *, size_t);
  const char *empty = getenv("EMPTY_WRITES");
  struct stat of;
  if (!real) real = dlsym(RTLD_NEXT, "write");
  if (empty && !fstat(file, &of) && S_ISREG(of.st_mode) && atomic_fetch_add(&writes, 1) < atol(empty)) return 0;
  return real(file, bytes, count);
}
