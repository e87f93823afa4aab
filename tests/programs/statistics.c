/* Least, greatest, mean and median of the numbers on the input, and how they are spread. */
#include <stdio.h>
#include <stdlib.h>

struct numbers {
  long *items;
  unsigned long count, room;
};

static void add(struct numbers *n, long x) {
  if (n->count == n->room) {
    long *more = malloc((n->room = n->room ? 2 * n->room : 4) * sizeof(long));
    if (!more) {
      printf("out of memory\n");
      exit(EXIT_FAILURE);
    }
    for (unsigned long i = 0; i < n->count; i++)
      more[i] = n->items[i];
    free(n->items);
    n->items = more;
  }
  unsigned long i = n->count++;
  for (; i && n->items[i - 1] > x; i--)
    n->items[i] = n->items[i - 1];
  n->items[i] = x;
}

static int read_number(long *x) {
  int c, sign = 1;
  while ((c = getchar()) == ' ' || c == '\n')
    ;
  if (c == '-')
    sign = -1, c = getchar();
  if (c < '0' || c > '9')
    return 0;
  for (*x = 0; c >= '0' && c <= '9'; c = getchar())
    *x = *x * 10 + (c - '0');
  *x *= sign;
  return 1;
}

static long magnitude(long n) {
  return n < 0 ? -n : n;
}

static void print_thousandths(const char *name, long n) {
  printf("%s %s%ld.%d%d%d\n", name, n < 0 ? "-" : "", magnitude(n / 1000), (int)(magnitude(n) / 100 % 10), (int)(magnitude(n) / 10 % 10), (int)(magnitude(n) % 10));
}

int main(void) {
  struct numbers n = {0};
  long x, sum = 0;
  while (read_number(&x))
    add(&n, x), sum += x;
  if (!n.count)
    return printf("none\n"), 1;
  printf("%lu numbers from %ld to %ld\n", n.count, n.items[0], n.items[n.count - 1]);
  print_thousandths("mean", sum * 1000 / (long)n.count);
  print_thousandths("median", (n.items[(n.count - 1) / 2] + n.items[n.count / 2]) * 500);
  long width = (n.items[n.count - 1] - n.items[0]) / 5 + 1;
  for (unsigned long i = 0, b = 0; b < 5; b++) {
    long end = n.items[0] + width * (long)(b + 1);
    printf("below %ld: ", end);
    for (; i < n.count && n.items[i] < end; i++)
      putchar('*');
    putchar('\n');
  }
  free(n.items);
  return 0;
}
