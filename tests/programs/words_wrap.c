/* Fills lines of at most 40 columns with the words of the input, and spreads their blanks. */
#include <stdio.h>

enum { WIDTH = 40, MOST = WIDTH };

char line[WIDTH * 2];
int starts[WIDTH], ends[WIDTH], words, used;

static void blanks(int n) {
  while (n-- > 0)
    putchar(' ');
}

static void flush(int last) {
  int letters = 0, gaps = words - 1;
  for (int i = 0; i < words; i++)
    letters += ends[i] - starts[i];
  for (int i = 0, left = WIDTH - letters; i < words; i++) {
    for (int k = starts[i]; k < ends[i]; putchar(line[k++]))
      ;
    if (i < gaps) {
      int n = last ? 1 : (left + gaps - i - 1) / (gaps - i);
      blanks(n);
      left -= n;
    }
  }
  if (words)
    printf("\n");
  words = used = 0;
}

static void add(const char *word, int n) {
  int length = n;
  for (int i = 0; i < words; i++)
    length += ends[i] - starts[i] + 1;
  if (length > WIDTH)
    flush(0);
  starts[words] = used;
  while (n--)
    line[used++] = *word++;
  ends[words++] = used;
}

int main(void) {
  char word[MOST];
  int c, n = 0, newlines = 0, paragraphs = 1;
  while ((c = getchar()) != EOF)
    switch (c) {
    case '\n':
      if (newlines++ == 1)
        n ? add(word, n) : (void)0, flush(1), putchar('\n'), paragraphs++;
    case ' ':
    case '\t':
      if (n)
        add(word, n), n = 0;
      break;
    default:
      newlines = 0;
      if (n < MOST)
        word[n++] = c;
    }
  if (n)
    add(word, n);
  flush(1);
  return paragraphs;
}
