/* A plain index of pages, to time a catalogue beside: postings FILE
   FILE is what pages.py writes. Prints microseconds for making a page, for adding it to the postings and for packing
   them once, and the bytes of memory that a page takes with its part of the packed postings; then for each query
   microseconds, hits, and the sum of their scores. An answer has copies of the hosts, selectors and titles of its hits,
   as a catalogue's has. */
#include <malloc.h>
#include <unistd.h>

#include "answers.h"

#define BLOCK 64

/* ---- searches */

static uint32_t page_total;
static struct index whole;
static uint32_t scores[MOST_PAGES];
static uint8_t truths[MOST_PAGES];
/* the counts of one term */
static uint8_t spread[MOST_PAGES];
static uint32_t gathered[MOST_PAGES];

/* the postings of the words that a term means, which stand one after another; a page can be there twice */
static struct list meant(struct term term) {
  struct list list = {NULL, NULL, 0};
  const uint8_t *sought = (const uint8_t *)term.word;
  uint32_t size = strlen(term.word), low = 0, high = whole.total;
  while (low < high) {
    uint32_t middle = low + (high - low) / 2;
    if (compare(whole.words[middle].bytes, whole.words[middle].length, sought, size) < 0) low = middle + 1;
    else high = middle;
  }
  if (low == whole.total) return list;
  list = whole.words[low].list;
  list.length = 0;
  for (; low < whole.total; low++) {
    const struct packed *word = &whole.words[low];
    if (word->length < size || (word->length > size && !term.prefix) || memcmp(word->bytes, sought, size)) break;
    list.length += word->list.length;
  }
  return list;
}

static uint8_t largest(const uint8_t *block) {
  uint8_t most = 0;
  for (int i = 0; i < BLOCK; i++) most = block[i] > most ? block[i] : most;
  return most;
}

/* a word alone: a block of counts is passed over where none reaches the lowest */
static void search_word(struct list list, struct hits *hits) {
  for (uint32_t start = 0; start < list.length; start += BLOCK) {
    uint32_t end = start + BLOCK < list.length ? start + BLOCK : list.length;
    if (end - start == BLOCK && largest(list.counts + start) < hits->lowest) continue;
    for (uint32_t i = start; i < end; i++)
      if (list.counts[i] >= hits->lowest) take_in(hits, (struct hit){list.counts[i], list.pages[i]});
  }
}

static void add_to(uint32_t *sums, struct list list) {
  for (uint32_t i = 0; i < list.length; i++) sums[list.pages[i]] += list.counts[i];
}

static void join_block(uint8_t *truth, uint32_t *score, const uint8_t *count, char operator) {
  if (operator == 'a')
    for (int i = 0; i < BLOCK; i++) truth[i] &= count[i] != 0;
  else if (operator == 'o')
    for (int i = 0; i < BLOCK; i++) truth[i] |= count[i] != 0;
  else
    for (int i = 0; i < BLOCK; i++) truth[i] &= count[i] == 0;
  if (operator != 'n')
    for (int i = 0; i < BLOCK; i++) score[i] += count[i];
}

static void join_word(struct list list, char operator) {
  memset(spread, 0, page_total);
  for (uint32_t i = 0; i < list.length; i++) spread[list.pages[i]] = list.counts[i];
  for (uint32_t start = 0; start < page_total; start += BLOCK)
    join_block(truths + start, scores + start, spread + start, operator);
}

static void join_prefix(struct list list, char operator) {
  memset(gathered, 0, page_total * sizeof *gathered);
  add_to(gathered, list);
  for (uint32_t page = 0; page < page_total; page++) {
    int holds = gathered[page] != 0;
    if (operator == 'o') truths[page] |= holds;
    else truths[page] &= operator == 'a' ? holds : !holds;
    if (operator != 'n') scores[page] += gathered[page];
  }
}

/* whether one of a block of scores reaches the lowest */
static int reaches(const uint32_t *block, uint32_t lowest) {
  int some = 0;
  for (int i = 0; i < BLOCK; i++) some |= (int32_t)block[i] >= (int32_t)lowest;
  return some;
}

/* the arrays reach to the end of a block, where no score is above 0 */
static void take_best(struct hits *hits) {
  hits->lowest = 1;
  for (uint32_t start = 0; start < page_total; start += BLOCK) {
    if (!reaches(scores + start, hits->lowest)) continue;
    for (uint32_t page = start; page < start + BLOCK; page++)
      if (scores[page] >= hits->lowest && truths[page]) take_in(hits, (struct hit){scores[page], page});
  }
}

static void find_best(const struct term *terms, size_t count, struct hits *hits) {
  hits->held = hits->lowest = 0;
  if (count == 1 && !terms[0].prefix) {
    search_word(meant(terms[0]), hits);
    return;
  }
  memset(scores, 0, page_total * sizeof *scores);
  memset(truths, 1, page_total);
  if (count == 1) {
    add_to(scores, meant(terms[0]));
  } else {
    for (size_t i = 0; i < count; i++) {
      if (terms[i].prefix) join_prefix(meant(terms[i]), terms[i].operator);
      else join_word(meant(terms[i]), terms[i].operator);
    }
  }
  take_best(hits);
}

/* ---- the program */

static long resident(void) {
  long whole = 0, held = 0;
  FILE *file = fopen("/proc/self/statm", "r");
  if (!file || fscanf(file, "%ld %ld", &whole, &held) != 2) exit(1);
  fclose(file);
  return held * sysconf(_SC_PAGESIZE);
}

/* makes and adds a page of each text that a byte 12 ends */
static void build(const uint8_t *text, size_t size) {
  struct draft draft = new_draft(longest(text, size));
  struct table table = {NULL, NULL, 0, 0};
  double making = 0, adding = 0, start, made;
  long before = resident();
  const uint8_t *end = text + size, *stop;
  for (; page_total < MOST_PAGES && (stop = memchr(text, '\f', end - text)); page_total++) {
    start = microseconds();
    make_page(&draft, page_total, text, stop);
    made = microseconds();
    add_page(&table, page_total);
    adding += microseconds() - made;
    making += made - start;
    text = stop + 1;
  }
  free_draft(&draft);
  start = microseconds();
  sort_table(&table);
  whole = pack(&table, &(struct part){0, table.words}, 1);
  free_table(&table);
  double packing = microseconds() - start, each = page_total ? page_total : 1;
  malloc_trim(0);
  printf("%u pages\nmaking: %.1f us a page\nadding: %.1f us a page\n", page_total, making / each, adding / each);
  printf("packing: %.1f us a page, once\nmemory: %.0f bytes a page\n", packing / each, (resident() - before) / each);
}

int main(int argc, char **argv) {
  if (argc != 2) return 2;
  size_t size;
  uint8_t *text = read_file(argv[1], &size);
  fill_word_bytes();
  build(text, size);
  ask_all();
  return 0;
}
