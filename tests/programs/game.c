/* Noughts and crosses: the best moves of both sides, from the position on the input. */
#include <stdio.h>

char board[9];
unsigned tried;

static int wins(char who) {
  for (int i = 0; i < 3; i++)
    if ((board[3 * i] == who && board[3 * i + 1] == who && board[3 * i + 2] == who)
        || (board[i] == who && board[i + 3] == who && board[i + 6] == who))
      return 1;
  return board[4] == who && ((board[0] == who && board[8] == who) || (board[2] == who && board[6] == who));
}

static char other(char who) {
  return who == 'x' ? 'o' : 'x';
}

/* 1 if `who` wins, 0 for a draw, -1 for a loss */
static int value(char who, int *best) {
  int most = -2, v, unused;
  tried++;
  *best = -1;
  if (wins(other(who)))
    return -1;
  for (int i = 0; i < 9 && most < 1; i++) {
    if (board[i] != '.')
      continue;
    board[i] = who;
    if ((v = -value(other(who), &unused)) > most)
      most = v, *best = i;
    board[i] = '.';
  }
  return *best < 0 ? 0 : most;
}

int main(void) {
  int c, n = 0, x = 0, o = 0, at;
  while ((c = getchar()) != EOF && n < 9)
    switch (c) {
    case 'x': x++; board[n++] = c; break;
    case 'o': o++;
    case '.': board[n++] = c;
    }
  char who = x > o ? 'o' : 'x';
  while (n == 9) {
    for (int i = 0; i < 9; i++)
      printf("%c%s", board[i], i % 3 == 2 ? "\n" : "");
    int v = value(who, &at);
    if (at < 0) {
      printf("%s\n", v ? "lost" : "drawn");
      break;
    }
    printf("%c to %d, %s, %u tried\n", who, at + 1, v > 0 ? "wins" : v ? "loses" : "draws", tried);
    board[at] = who;
    who = other(who);
  }
  return 0;
}
