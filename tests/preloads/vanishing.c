/* Loaded before a program: what it opens by a path whose last name begins with "vanishing" is moved away right before, and what
   it opens as "turning" becomes a folder. */
#define _GNU_SOURCE
#include <dlfcn.h>
#include <fcntl.h>
#include <stdarg.h>
#include <stdio.h>
#include <string.h>
#include <sys/stat.h>

/* a path may end in a slash */
static const char *last_name(const char *path) {
  const char *name = path;
  for (const char *at = path; *at; at++)
    if (*at == '/' && at[1]) name = at + 1;
  return name;
}

static void change(const char *path) {
  const char *name = last_name(path);
  int vanishes = !strncmp(name, "vanishing", 9), turns = !strncmp(name, "turning", 7);
  char hidden[4096];
  if (!vanishes && !turns) return;
  snprintf(hidden, sizeof hidden, "%.*s.%s", (int)(name - path), path, name);
  if (rename(path, hidden) == 0 && turns) mkdir(path, 0700);
}

int open(const char *path, int flags, ...) {
  static int (*real)(const char *, int, ...);
  va_list rest;
  if (!real) real = dlsym(RTLD_NEXT, "open");
  change(path);
  va_start(rest, flags);
  mode_t mode = flags & O_CREAT ? va_arg(rest, mode_t) : 0;
  va_end(rest);
  return real(path, flags, mode);
}

int openat(int folder, const char *path, int flags, ...) {
  static int (*real)(int, const char *, int, ...);
  va_list rest;
  if (!real) real = dlsym(RTLD_NEXT, "openat");
  change(path);
  va_start(rest, flags);
  mode_t mode = flags & O_CREAT ? va_arg(rest, mode_t) : 0;
  va_end(rest);
  return real(folder, path, flags, mode);
}
