/* A ring buffer: `+c` puts a letter, `-` takes one, `?` tells how many there are. */
#include <stdio.h>

struct ring {
  char bytes[4];
  unsigned head, tail;
};

enum { SIZE = sizeof((struct ring *)0)->bytes };

static unsigned count(const struct ring *r) {
  return r->head - r->tail;
}

static int put(struct ring *r, char c) {
  if (count(r) == SIZE)
    return 0;
  r->bytes[r->head++ % SIZE] = c;
  return 1;
}

static int take(struct ring *r) {
  return count(r) ? r->bytes[r->tail++ % SIZE] : -1;
}

int main(void) {
  struct ring ring;
  int c, failed = 0;
  /* the numbers wrap soon */
  ring.head = ring.tail = -3;
  while ((c = getchar()) != EOF)
    switch (c) {
    case '+':
      if ((c = getchar()) == EOF)
        return 2;
      if (!put(&ring, c))
        printf("full\n"), failed++;
      break;
    case '-':
      if ((c = take(&ring)) == -1)
        printf("empty\n"), failed++;
      else
        printf("%c\n", c);
      break;
    case '?':
      printf("%u\n", count(&ring));
      break;
    case ' ':
    case '\n':
      continue;
    default:
      printf("what?\n");
      return 2;
    }
  return failed != 3;
}
