/* Clients of a Gopher server on this machine: clients PORT CLIENTS REQUESTS SILENT SELECTORS
   Opens SILENT connections that say nothing; then CLIENTS threads make REQUESTS requests in all, for the selectors of
   the file SELECTORS in turn, and read each reply to its end. Prints requests answered, bytes, and seconds. */
#include <arpa/inet.h>
#include <netinet/in.h>
#include <pthread.h>
#include <stdatomic.h>
#include <stdint.h>
#include <stdio.h>
#include <stdlib.h>
#include <string.h>
#include <sys/socket.h>
#include <time.h>
#include <unistd.h>

#define MOST_SELECTORS 4096

static struct sockaddr_in address;
static char *lines[MOST_SELECTORS];
static size_t line_total;
static long requests;
static atomic_long next_request, answered, received;

static int connected(void) {
  int stream = socket(AF_INET, SOCK_STREAM, 0);
  if (stream >= 0 && !connect(stream, (struct sockaddr *)&address, sizeof address)) return stream;
  if (stream >= 0) close(stream);
  return -1;
}

static void ask(const char *line, char *buffer, size_t room) {
  int stream = connected();
  if (stream < 0) return;
  size_t length = strlen(line);
  long bytes = 0;
  ssize_t got = send(stream, line, length, MSG_NOSIGNAL) == (ssize_t)length ? 1 : -1;
  while (got > 0)
    if ((got = recv(stream, buffer, room, 0)) > 0) bytes += got;
  close(stream);
  if (got < 0 || !bytes) return;
  atomic_fetch_add(&answered, 1);
  atomic_fetch_add(&received, bytes);
}

static void *client(void *unused) {
  (void)unused;
  size_t room = 1 << 18;
  char *buffer = malloc(room);
  for (;;) {
    long number = atomic_fetch_add(&next_request, 1);
    if (number >= requests) break;
    ask(lines[(size_t)number % line_total], buffer, room);
  }
  free(buffer);
  return NULL;
}

static void read_selectors(const char *path) {
  FILE *file = fopen(path, "r");
  char selector[256], line[264];
  if (!file) exit(2);
  while (line_total < MOST_SELECTORS && fgets(selector, sizeof selector, file)) {
    selector[strcspn(selector, "\n")] = 0;
    snprintf(line, sizeof line, "%s\r\n", selector);
    lines[line_total++] = strdup(line);
  }
  fclose(file);
}

static double now(void) {
  struct timespec time;
  clock_gettime(CLOCK_MONOTONIC, &time);
  return (double)time.tv_sec + (double)time.tv_nsec / 1e9;
}

int main(int total, char **words) {
  if (total != 6) return 2;
  address = (struct sockaddr_in){.sin_family = AF_INET, .sin_port = htons((uint16_t)atoi(words[1]))};
  address.sin_addr.s_addr = htonl(INADDR_LOOPBACK);
  int threads = atoi(words[2]), silent = atoi(words[4]);
  requests = atol(words[3]);
  read_selectors(words[5]);
  if (threads < 1 || threads > 256 || !line_total) return 2;
  for (int i = 0; i < silent; i++)
    if (connected() < 0) return 1;
  pthread_t clients[256];
  double start = now();
  for (int i = 0; i < threads; i++)
    if (pthread_create(&clients[i], NULL, client, NULL)) return 1;
  for (int i = 0; i < threads; i++) pthread_join(clients[i], NULL);
  printf("%ld %ld %.6f\n", (long)answered, (long)received, now() - start);
  return 0;
}
