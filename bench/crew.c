/* Threads that make and index pages side by side, to time a crew's crawl beside: crew FILE WORKERS
   FILE is what pages.py writes. Each thread claims a text behind a lock, copies it as a fetch does, makes its page, adds
   it to postings of its own, and counts it behind the lock. At the end each thread sorts its words, and then packs
   the postings of a part of all words. Unlike a crawl, it knows every place beforehand. Prints the pages a second of the best of several rounds. */
#include <pthread.h>

#include "index.h"

#define MOST_WORKERS 16
#define ROUNDS 5

struct text { const uint8_t *bytes, *end; };

static struct text texts[MOST_PAGES];
static uint32_t text_total, claimed, found;
static size_t longest_text;
static int workers;
static struct table tables[MOST_WORKERS];
static struct index indexes[MOST_WORKERS];
static pthread_mutex_t lock = PTHREAD_MUTEX_INITIALIZER;

/* counts a page that was found, if there is one, and claims the next text; false if none is left */
static int next_text(uint32_t *number, int is_found) {
  pthread_mutex_lock(&lock);
  found += is_found;
  int is_left = claimed < text_total;
  if (is_left) *number = claimed++;
  pthread_mutex_unlock(&lock);
  return is_left;
}

static void *work(void *worker) {
  struct table *table = &tables[(intptr_t)worker];
  struct draft draft = new_draft(longest_text);
  uint8_t *reply = malloc(longest_text + 1);
  uint32_t number = 0;
  for (int is_found = 0; next_text(&number, is_found); is_found = 1) {
    size_t size = texts[number].end - texts[number].bytes;
    memcpy(reply, texts[number].bytes, size + 1);
    make_page(&draft, number, reply, reply + size);
    add_page(table, number);
  }
  sort_table(table);
  free(reply);
  free_draft(&draft);
  return NULL;
}

/* where the words from a limit on begin in a table, or its end if there is no limit */
static uint32_t start_from(const struct table *table, struct word *limit) {
  uint32_t low = 0, high = table->words;
  while (limit && low < high) {
    uint32_t middle = low + (high - low) / 2;
    if (by_bytes(&table->sorted[middle], &limit) < 0) low = middle + 1;
    else high = middle;
  }
  return limit ? low : high;
}

/* packs one of as many parts as there are threads, cut where the words of the first table are */
static void *pack_part(void *number) {
  int part = (int)(intptr_t)number;
  const struct table *first = &tables[0];
  struct word *limit = first->sorted[(uint64_t)first->words * part / workers];
  struct word *next = part + 1 < workers ? first->sorted[(uint64_t)first->words * (part + 1) / workers] : NULL;
  struct part parts[MOST_WORKERS];
  for (int i = 0; i < workers; i++)
    parts[i] = (struct part){part ? start_from(&tables[i], limit) : 0, start_from(&tables[i], next)};
  indexes[part] = pack(tables, parts, workers);
  return NULL;
}

/* runs a thread for each worker, with its number */
static void side_by_side(void *(*run)(void *)) {
  pthread_t threads[MOST_WORKERS];
  for (int i = 0; i < workers; i++)
    if (pthread_create(&threads[i], NULL, run, (void *)(intptr_t)i)) exit(1);
  for (int i = 0; i < workers; i++) pthread_join(threads[i], NULL);
}

/* the microseconds of a crawl; its pages and postings are never freed */
static double crawl(void) {
  double start = microseconds();
  memset(tables, 0, sizeof tables);
  claimed = found = 0;
  side_by_side(work);
  if (!tables[0].words) exit(1);
  side_by_side(pack_part);
  double took = microseconds() - start;
  if (found != text_total) exit(1);
  for (int i = 0; i < workers; i++) free_table(&tables[i]);
  return took;
}

int main(int argc, char **argv) {
  workers = argc == 3 ? atoi(argv[2]) : 0;
  if (workers < 1 || workers > MOST_WORKERS) return 2;
  size_t size;
  const uint8_t *text = read_file(argv[1], &size), *end = text + size, *stop;
  longest_text = longest(text, size);
  for (; text_total < MOST_PAGES && (stop = memchr(text, '\f', end - text)); text = stop + 1)
    texts[text_total++] = (struct text){text, stop};
  fill_word_bytes();
  double best = 1e12;
  for (int i = 0; i < ROUNDS; i++) {
    double took = crawl();
    if (took < best) best = took;
  }
  printf("%d threads of C: %u pages, %.0f pages/s\n", workers, text_total, text_total / best * 1e6);
  return 0;
}
