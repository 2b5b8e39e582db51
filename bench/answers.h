/* What is asked of pages in plain C: the timed queries, the best hits, and the answers with what is told of them. */
#include "index.h"

#define BEST 50

struct term { const char *word; int prefix; char operator; };
struct hit { uint32_t score, page; };

/* what is told of a page that was found */
struct answer { char *host, *selector, *title; uint32_t score; };

/* the best so far, and the lowest score that can come among them */
struct hits { struct hit best[BEST]; size_t held; uint32_t lowest; };

/* the best hits of a query: each program has its own */
static void find_best(const struct term *terms, size_t count, struct hits *hits);

static int comes_before(struct hit a, struct hit b) {
  if (a.score != b.score) return a.score > b.score;
  return strcmp(selectors[a.page], selectors[b.page]) < 0;
}

static void take_in(struct hits *hits, struct hit hit) {
  if (hits->held == BEST && !comes_before(hit, hits->best[BEST - 1])) return;
  size_t last = hits->held == BEST ? BEST - 1 : hits->held++, low = 0, high = last;
  while (low < high) {
    size_t middle = (low + high) / 2;
    if (comes_before(hit, hits->best[middle])) high = middle;
    else low = middle + 1;
  }
  memmove(&hits->best[low + 1], &hits->best[low], (last - low) * sizeof hit);
  hits->best[low] = hit;
  if (hits->held == BEST) hits->lowest = hits->best[BEST - 1].score;
}

/* an answer owns its strings */
static void *copied(const void *bytes, size_t length) {
  char *copy = malloc(length + 1);
  memcpy(copy, bytes, length);
  copy[length] = 0;
  return copy;
}

static size_t search(const struct term *terms, size_t count, struct answer *answers) {
  struct hits hits;
  find_best(terms, count, &hits);
  for (size_t i = 0; i < hits.held; i++) {
    struct hit hit = hits.best[i];
    const struct page *page = &pages[hit.page];
    char *selector = selectors[hit.page];
    answers[i] = (struct answer){copied("h", 1), copied(selector, strlen(selector)),
                                 copied(page->title, page->title_length), hit.score};
  }
  return hits.held;
}

static void free_answers(struct answer *answers, size_t held) {
  for (size_t i = 0; i < held; i++) {
    free(answers[i].host);
    free(answers[i].selector);
    free(answers[i].title);
  }
}

static void ask(const char *name, const struct term *terms, size_t count) {
  double shortest = 1e9;
  struct answer answers[BEST];
  size_t held = 0;
  unsigned long long sum = 0;
  for (int round = 0; round < 20; round++) {
    double start = microseconds();
    held = search(terms, count, answers);
    double took = microseconds() - start;
    if (took < shortest) shortest = took;
    sum = 0;
    for (size_t i = 0; i < held; i++) sum += answers[i].score;
    free_answers(answers, held);
  }
  printf("%s: %.1f us, %zu hits, scores %llu\n", name, shortest, held, sum);
}

static void ask_all(void) {
  ask("moon", (struct term[]){{"moon", 0, 'a'}}, 1);
  ask("moon and sun", (struct term[]){{"moon", 0, 'a'}, {"sun", 0, 'a'}}, 2);
  ask("moon or sun not rain", (struct term[]){{"moon", 0, 'a'}, {"sun", 0, 'o'}, {"rain", 0, 'n'}}, 3);
  ask("mo*", (struct term[]){{"mo", 1, 'a'}}, 1);
  ask("rarely", (struct term[]){{"rarely", 0, 'a'}}, 1);
  ask("nowhere", (struct term[]){{"nowhere", 0, 'a'}}, 1);
}
