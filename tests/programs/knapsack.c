/* The best things for a bag, by a table of what each weight allows. The input is `weight value` a line, and `0 room` at its end. */
#include <stdio.h>

enum { THINGS = 20, ROOM = 100 };

int weights[THINGS], values[THINGS], count;
int best[THINGS + 1][ROOM + 1];

static int number(void) {
  int c, n = -1;
  while ((c = getchar()) == ' ' || c == '\n')
    ;
  while (c >= '0' && c <= '9')
    n = (n < 0 ? 0 : n * 10) + (c - '0'), c = getchar();
  return n;
}

static void choose(int i, int room) {
  if (!i)
    return;
  if (best[i][room] == best[i - 1][room])
    choose(i - 1, room);
  else {
    choose(i - 1, room - weights[i - 1]);
    printf("%d:%d ", weights[i - 1], values[i - 1]);
  }
}

int main(void) {
  int w, v, room = 0;
  while ((w = number()) >= 0 && (v = number()) >= 0)
    if (!w)
      room = v < ROOM ? v : ROOM;
    else if (count < THINGS)
      weights[count] = w, values[count++] = v;
  for (int i = 1; i <= count; i++)
    for (int r = 0, with; r <= room; r++) {
      best[i][r] = best[i - 1][r];
      if (r >= weights[i - 1] && (with = best[i - 1][r - weights[i - 1]] + values[i - 1]) > best[i][r])
        best[i][r] = with;
    }
  choose(count, room);
  printf("= %d\n", best[count][room]);
  return count;
}
