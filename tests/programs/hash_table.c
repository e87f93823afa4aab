/* Counts the words of the input in a hash table with chains, and prints those that come more than once, by their number. */
#include <stdio.h>
#include <stdlib.h>

enum { BUCKETS = 31, LONGEST = 32 };

struct entry {
  char word[LONGEST];
  int count;
  struct entry *next;
};

struct entry *table[BUCKETS];

static unsigned hash(const char *s) {
  unsigned h = 5381;
  while (*s)
    h = h * 33 ^ (unsigned char)*s++;
  return h % BUCKETS;
}

static int same(const char *a, const char *b) {
  while (*a && *a == *b)
    a++, b++;
  return *a == *b;
}

static void copy(char *to, const char *from) {
  while ((*to++ = *from++))
    ;
}

static struct entry *find(const char *word) {
  unsigned h = hash(word);
  struct entry *e;
  for (e = table[h]; e && !same(e->word, word); e = e->next)
    ;
  if (!e) {
    if (!(e = malloc(sizeof *e)))
      exit(1);
    copy(e->word, word);
    e->count = 0;
    e->next = table[h];
    table[h] = e;
  }
  return e;
}

static int read_word(char *word) {
  int c, n = 0;
  while ((c = getchar()) != EOF && !(c >= 'a' && c <= 'z') && !(c >= 'A' && c <= 'Z'))
    ;
  while ((c >= 'a' && c <= 'z') || (c >= 'A' && c <= 'Z')) {
    if (n < LONGEST - 1)
      word[n++] = c >= 'A' && c <= 'Z' ? c - 'A' + 'a' : c;
    c = getchar();
  }
  word[n] = 0;
  return n;
}

int main(void) {
  char word[LONGEST];
  int most = 0, different = 0;
  while (read_word(word)) {
    struct entry *e = find(word);
    if (!e->count++)
      different++;
    if (e->count > most)
      most = e->count;
  }
  for (int n = most; n > 1; n--)
    for (int i = 0; i < BUCKETS; i++)
      for (struct entry *e = table[i]; e; e = e->next)
        if (e->count == n)
          printf("%s %d\n", e->word, n);
  printf("%d words\n", different);
  for (int i = 0; i < BUCKETS; i++)
    while (table[i]) {
      struct entry *e = table[i];
      table[i] = e->next;
      free(e);
    }
  return 0;
}
