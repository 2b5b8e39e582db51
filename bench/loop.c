/* A plain loop over pages, to time a catalogue of few pages beside: loop FILE
   FILE is what pages.py writes. It keeps no postings: each query goes through all pages once, and finds each of its
   terms in the words of the page by halves. Prints for each query microseconds, hits, and the sum of their scores. */
#include "answers.h"

static uint32_t page_total;
/* where each word of a page begins, for each page */
static uint32_t *starts[MOST_PAGES];

/* a term with its first 8 bytes as a number */
struct sought_term { const uint8_t *bytes; uint64_t first; uint32_t length; int prefix; char operator; };

/* whether a word of a page comes before a term; 8 bytes behind each word can be read */
static int word_is_before(const uint8_t *word, uint32_t length, const struct sought_term *term) {
  uint64_t first = first_bytes(word, length);
  if (first != term->first) return first < term->first;
  if (length <= 8 || term->length <= 8) return length < term->length;
  return compare(word + 8, length - 8, term->bytes + 8, term->length - 8) < 0;
}

/* how often the words that a term means stand in a page */
static uint32_t count_in(uint32_t number, const struct sought_term *term) {
  const struct page *page = &pages[number];
  const uint32_t *start = starts[number];
  uint32_t low = 0, high = page->words, count = 0;
  while (low < high) {
    uint32_t middle = low + (high - low) / 2;
    if (word_is_before(page->bytes + start[middle], page->lengths[middle], term)) low = middle + 1;
    else high = middle;
  }
  for (; low < page->words; low++) {
    uint32_t length = page->lengths[low];
    if (length < term->length || (length > term->length && !term->prefix)) break;
    if (memcmp(page->bytes + start[low], term->bytes, term->length)) break;
    count += page->counts[low];
    if (!term->prefix) break;
  }
  return count;
}

static void find_best(const struct term *terms, size_t count, struct hits *hits) {
  struct sought_term sought[8];
  for (size_t i = 0; i < count; i++) {
    uint8_t room[LONGEST_WORD + 8] = {0};
    uint32_t length = strlen(terms[i].word);
    memcpy(room, terms[i].word, length);
    sought[i] = (struct sought_term){(const uint8_t *)terms[i].word, first_bytes(room, length), length, terms[i].prefix,
                                     terms[i].operator};
  }
  hits->held = 0;
  hits->lowest = 1;
  for (uint32_t number = 0; number < page_total; number++) {
    uint32_t score = 0;
    int truth = 1;
    for (size_t i = 0; i < count; i++) {
      uint32_t found = count_in(number, &sought[i]);
      if (sought[i].operator == 'o') truth |= found != 0;
      else truth &= sought[i].operator == 'a' ? found != 0 : found == 0;
      if (sought[i].operator != 'n') score += found;
    }
    if (truth && score >= hits->lowest) take_in(hits, (struct hit){score, number});
  }
}

/* makes a page of each text that a byte 12 ends */
static void build(const uint8_t *text, size_t size) {
  struct draft draft = new_draft(longest(text, size));
  const uint8_t *end = text + size, *stop;
  for (; page_total < MOST_PAGES && (stop = memchr(text, '\f', end - text)); page_total++) {
    make_page(&draft, page_total, text, stop);
    const struct page *page = &pages[page_total];
    uint32_t *start = starts[page_total] = malloc((page->words + 1) * sizeof *start);
    start[0] = 0;
    for (uint32_t i = 0; i < page->words; i++) start[i + 1] = start[i] + page->lengths[i];
    text = stop + 1;
  }
  free_draft(&draft);
}

int main(int argc, char **argv) {
  if (argc != 2) return 2;
  size_t size;
  uint8_t *text = read_file(argv[1], &size);
  fill_word_bytes();
  build(text, size);
  ask_all();
  return 0;
}
