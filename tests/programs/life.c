/* The game of life on a torus, from a picture on the input. */
#include <stdio.h>

enum { WIDTH = 12, HEIGHT = 8, TURNS = 4 };

char cells[2][HEIGHT][WIDTH];

static int around(char from[HEIGHT][WIDTH], int y, int x) {
  int n = 0;
  for (int dy = -1; dy <= 1; dy++)
    for (int dx = -1; dx <= 1; dx++)
      if (dy || dx)
        n += from[(y + dy + HEIGHT) % HEIGHT][(x + dx + WIDTH) % WIDTH];
  return n;
}

static int turn(char from[HEIGHT][WIDTH], char to[HEIGHT][WIDTH]) {
  int alive = 0;
  for (int y = 0; y < HEIGHT; y++)
    for (int x = 0; x < WIDTH; x++)
      switch (around(from, y, x)) {
      case 2:
        alive += to[y][x] = from[y][x];
        break;
      case 3:
        alive += to[y][x] = 1;
        break;
      default:
        to[y][x] = 0;
      }
  return alive;
}

static void show(char from[HEIGHT][WIDTH]) {
  for (int y = 0; y < HEIGHT; y++) {
    for (int x = 0; x < WIDTH; x++)
      putchar(from[y][x] ? '#' : '.');
    printf("\n");
  }
  printf("\n");
}

int main(void) {
  int c, y = 0, x = 0, now = 0, alive = 0;
  while ((c = getchar()) != EOF)
    if (c == '\n')
      y++, x = 0;
    else if (y < HEIGHT && x < WIDTH)
      alive += cells[0][y][x++] = c == '#';
  for (int n = 0; n < TURNS && alive; n++) {
    show(cells[now]);
    alive = turn(cells[now], cells[!now]);
    now = !now;
  }
  show(cells[now]);
  return alive;
}
