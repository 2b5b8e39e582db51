/* A plain Gopher server, to time one beside: plain_server PORT THREADS TABLE
   TABLE holds entries: a line 'SELECTOR LENGTH', then LENGTH bytes, the reply. Each thread accepts, reads a line, sends
   the reply of its selector, ends the sending side and closes. It runs until it is killed. */
#include <arpa/inet.h>
#include <netinet/in.h>
#include <pthread.h>
#include <signal.h>
#include <stdint.h>
#include <stdio.h>
#include <stdlib.h>
#include <string.h>
#include <sys/socket.h>
#include <unistd.h>

#define LONGEST_LINE 1026

struct entry { char *selector; size_t length, reply_length; char *reply; };

static struct entry *slots;
static uint32_t slot_total;
static int listener;

static uint32_t hash(const char *bytes, size_t length) {
  uint32_t hashed = 2166136261u;
  for (size_t i = 0; i < length; i++) hashed = (hashed ^ (uint8_t)bytes[i]) * 16777619u;
  return hashed;
}

static struct entry *entry_at(const char *selector, size_t length) {
  uint32_t at = hash(selector, length) & (slot_total - 1);
  while (slots[at].selector && (slots[at].length != length || memcmp(slots[at].selector, selector, length)))
    at = (at + 1) & (slot_total - 1);
  return &slots[at];
}

static void read_table(const char *path) {
  FILE *file = fopen(path, "rb");
  char selector[256];
  size_t length;
  if (!file) exit(2);
  slot_total = 8192;
  slots = calloc(slot_total, sizeof *slots);
  while (fscanf(file, "%255[^ \n] %zu", selector, &length) == 2 && fgetc(file) == '\n') {
    struct entry *entry = entry_at(selector, strlen(selector));
    *entry = (struct entry){strdup(selector), strlen(selector), length, malloc(length ? length : 1)};
    if (fread(entry->reply, 1, length, file) != length) exit(2);
  }
  fclose(file);
}

static void serve(int client) {
  char line[LONGEST_LINE];
  size_t held = 0;
  char *end = NULL;
  while (!end && held < sizeof line) {
    ssize_t got = recv(client, line + held, sizeof line - held, 0);
    if (got <= 0) return;
    end = memchr(line + held, '\n', (size_t)got);
    held += (size_t)got;
  }
  if (!end) return;
  size_t length = (size_t)(end - line);
  if (length && line[length - 1] == '\r') length--;
  const struct entry *entry = entry_at(line, length);
  size_t sent = 0;
  while (sent < entry->reply_length) {
    ssize_t put = send(client, entry->reply + sent, entry->reply_length - sent, 0);
    if (put <= 0) return;
    sent += (size_t)put;
  }
  shutdown(client, SHUT_WR);
}

static void *accept_clients(void *unused) {
  (void)unused;
  for (;;) {
    int client = accept(listener, NULL, NULL);
    if (client < 0) return NULL;
    serve(client);
    close(client);
  }
}

int main(int total, char **words) {
  if (total != 4) return 2;
  signal(SIGPIPE, SIG_IGN);
  read_table(words[3]);
  listener = socket(AF_INET, SOCK_STREAM, 0);
  int yes = 1;
  setsockopt(listener, SOL_SOCKET, SO_REUSEADDR, &yes, sizeof yes);
  struct sockaddr_in address = {.sin_family = AF_INET, .sin_port = htons((uint16_t)atoi(words[1]))};
  address.sin_addr.s_addr = htonl(INADDR_LOOPBACK);
  if (bind(listener, (struct sockaddr *)&address, sizeof address) || listen(listener, 4096)) return 1;
  puts("listening");
  fflush(stdout);
  int threads = atoi(words[2]);
  pthread_t last;
  for (int i = 1; i < threads; i++)
    if (pthread_create(&last, NULL, accept_clients, NULL)) return 1;
  accept_clients(NULL);
  return 0;
}
