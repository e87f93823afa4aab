/* The towers of Hanoi, with the pegs after each move. */
#include <stdio.h>

enum { DISCS = 4 };

struct peg {
  const char *name;
  int discs[DISCS], height;
} pegs[3] = {{"left"}, {"middle"}, {"right"}};

int moves;

static void show(void) {
  for (struct peg *p = pegs; p < pegs + 3; p++) {
    printf(" %c:", p->name[0]);
    for (int i = 0; i < p->height; printf("%d", p->discs[i++]))
      ;
  }
  putchar('\n');
}

static void move(int n, struct peg *from, struct peg *by, struct peg *to) {
  if (n == 0)
    return;
  move(n - 1, from, to, by);
  to->discs[to->height++] = from->discs[--from->height];
  printf("%d %s to %s,", ++moves, from->name, to->name);
  show();
  move(n - 1, by, from, to);
}

int main(void) {
  for (int i = DISCS; i; )
    pegs->discs[pegs->height++] = i--;
  show();
  move(DISCS, &pegs[0], &pegs[1], &pegs[2]);
  return moves;
}
