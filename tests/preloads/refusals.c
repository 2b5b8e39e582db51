/* Loaded before a program: refuses allocations, and writes the number of all that it counted to the file that COUNTED
   names, if there is one. Counted are the allocations of at least LEAST bytes, without it all of them. Of these it refuses
   the one whose number, from 1, is in REFUSED, or each one where REFUSED is `all`. With OF_MAIN, only those of the first
   thread are counted and refused, so that their numbers are the same in each run.

   LEFT names a file with a number of 8 bytes. While it is over 0, each allocation counts it down by 1, and the one that
   brings it to 0 is refused. So a test chooses one while the program runs. */
#define _GNU_SOURCE
#include <dlfcn.h>
#include <fcntl.h>
#include <stdatomic.h>
#include <stdio.h>
#include <stdlib.h>
#include <string.h>
#include <sys/mman.h>
#include <sys/syscall.h>
#include <unistd.h>

static atomic_long count;
static atomic_long *left;

__attribute__((constructor)) static void share(void) {
  const char *name = getenv("LEFT");
  int file = name ? open(name, O_RDWR) : -1;
  void *shared = file < 0 ? MAP_FAILED : mmap(NULL, sizeof *left, PROT_READ | PROT_WRITE, MAP_SHARED, file, 0);
  if (shared != MAP_FAILED) left = shared;
}

static int is_refused(size_t size) {
  if (left && atomic_load(left) > 0 && atomic_fetch_sub(left, 1) == 1) return 1;
  const char *refused = getenv("REFUSED"), *least = getenv("LEAST");
  if (least && size < strtoul(least, NULL, 10)) return 0;
  if (getenv("OF_MAIN") && syscall(SYS_gettid) != getpid()) return 0;
  long number = atomic_fetch_add(&count, 1) + 1;
  return refused && (!strcmp(refused, "all") || number == atol(refused));
}

void *malloc(size_t size) {
  static void *(*real)(size_t);
  if (!real) real = dlsym(RTLD_NEXT, "malloc");
  return is_refused(size) ? NULL : real(size);
}

void *realloc(void *old, size_t size) {
  static void *(*real)(void *, size_t);
  if (!real) real = dlsym(RTLD_NEXT, "realloc");
  return is_refused(size) ? NULL : real(old, size);
}

/* takes no memory itself */
static void tell(void) {
  char text[32];
  const char *counted = getenv("COUNTED");
  if (!counted) return;
  int length = snprintf(text, sizeof text, "%ld\n", atomic_load(&count));
  int file = open(counted, O_WRONLY | O_CREAT | O_TRUNC, 0600);
  if (file < 0 || write(file, text, (size_t)length) != length) syscall(SYS_exit_group, 2);
}

__attribute__((destructor)) static void tell_at_exit(void) { tell(); }

void _exit(int status) {
  tell();
  syscall(SYS_exit_group, status);
  __builtin_unreachable();
}
