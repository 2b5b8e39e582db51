/* Loaded before a program: has calls on its standard streams fail or be interrupted, and threads not start.

   FAILS_0, FAILS_1 and FAILS_2: after how many bytes each call on that stream fails. INTERRUPTED: how many reads of
   standard input are interrupted first. REFUSED_THREADS: one digit for each thread that is started, in order; those
   with 1 don't start. CALLS: the file that has a byte `r` for each read of standard input, and a byte `w` for each
   write to standard output. */
#define _GNU_SOURCE
#include <dlfcn.h>
#include <errno.h>
#include <fcntl.h>
#include <pthread.h>
#include <stdatomic.h>
#include <stdlib.h>
#include <string.h>
#include <sys/syscall.h>
#include <unistd.h>

static atomic_long interrupted, threads;
static long moved[3];

static void note(const char *call) {
  const char *path = getenv("CALLS");
  int file = path ? open(path, O_WRONLY | O_CREAT | O_APPEND, 0600) : -1;
  if (path && (file < 0 || syscall(SYS_write, file, call, 1) != 1 || close(file))) _exit(2);
}

/* how many of so many bytes may be moved yet; none where the next call has to fail */
static size_t room(int stream, size_t count) {
  static const char *const names[] = {"FAILS_0", "FAILS_1", "FAILS_2"};
  const char *limit = getenv(names[stream]);
  if (!limit) return count;
  long left = atol(limit) - moved[stream];
  return left <= 0 ? 0 : (size_t)left < count ? (size_t)left : count;
}

static int fails(int stream, size_t count) {
  if (stream < 0 || stream > 2 || count == 0 || room(stream, count) > 0) return 0;
  errno = EIO;
  return 1;
}

static ssize_t moved_by(int stream, ssize_t count) {
  if (stream >= 0 && stream <= 2 && count > 0) moved[stream] += count;
  return count;
}

ssize_t read(int file, void *buffer, size_t count) {
  static ssize_t (*real)(int, void *, size_t);
  if (!real) real = dlsym(RTLD_NEXT, "read");
  if (file != 0) return real(file, buffer, count);
  const char *times = getenv("INTERRUPTED");
  note("r");
  if (times && atomic_fetch_add(&interrupted, 1) < atol(times)) {
    errno = EINTR;
    return -1;
  }
  if (fails(file, count)) return -1;
  return moved_by(file, real(file, buffer, room(file, count)));
}

ssize_t write(int file, const void *buffer, size_t count) {
  static ssize_t (*real)(int, const void *, size_t);
  if (!real) real = dlsym(RTLD_NEXT, "write");
  if (file == 1) note("w");
  if (fails(file, count)) return -1;
  if (file != 1 && file != 2) return real(file, buffer, count);
  return moved_by(file, real(file, buffer, room(file, count)));
}

int pthread_create(pthread_t *thread, const pthread_attr_t *how, void *(*start)(void *), void *with) {
  static int (*real)(pthread_t *, const pthread_attr_t *, void *(*)(void *), void *);
  if (!real) real = dlsym(RTLD_NEXT, "pthread_create");
  const char *refused = getenv("REFUSED_THREADS");
  long number = atomic_fetch_add(&threads, 1);
  if (refused && (size_t)number < strlen(refused) && refused[number] == '1') return EAGAIN;
  return real(thread, how, start, with);
}
