/* How often each letter stands in the input, the most frequent first. */
#include <stdio.h>

struct letter {
  char name;
  unsigned count;
};

struct letter letters[26];

static void sort(struct letter *all, int n) {
  for (int i = 1; i < n; i++) {
    struct letter x;
    int j = i;
    x = all[i];
    for (; j && all[j - 1].count < x.count; j--)
      all[j] = all[j - 1];
    all[j] = x;
  }
}

int main(void) {
  int c, others = 0;
  for (int i = 0; i < 26; i++)
    letters[i].name = 'a' + i;
  while ((c = getchar()) != EOF)
    if ((c >= 'a' && c <= 'z') || (c >= 'A' && c <= 'Z'))
      ++letters[(c | 32) - 'a'].count;
    else
      others++;
  sort(letters, 26);
  for (struct letter *l = letters; l < letters + 26 && l->count; l++) {
    printf("%c %u ", l->name, l->count);
    for (unsigned i = 0; i < l->count; i++)
      putchar('=');
    printf("\n");
  }
  printf("%d others\n", others);
  return 0;
}
