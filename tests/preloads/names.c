/* Loaded before a program: the host that NAMED names has the addresses of ADDRESSES, between commas, in this order. */
#define _GNU_SOURCE
#include <dlfcn.h>
#include <netdb.h>
#include <stdlib.h>
#include <string.h>

typedef int lookup(const char *, const char *, const struct addrinfo *, struct addrinfo **);

int getaddrinfo(const char *host, const char *service, const struct addrinfo *hints, struct addrinfo **found) {
  static lookup *real;
  const char *named = getenv("NAMED"), *addresses = getenv("ADDRESSES");
  if (!real) real = (lookup *)dlsym(RTLD_NEXT, "getaddrinfo");
  if (!host || !named || !addresses || strcmp(host, named)) return real(host, service, hints, found);
  char *left = strdup(addresses), *rest = left, *address;
  int failed = 0;
  for (*found = NULL; !failed && (address = strsep(&rest, ","));) {
    failed = real(address, service, hints, found);
    while (!failed && *found) found = &(*found)->ai_next;
  }
  free(left);
  return failed;
}
