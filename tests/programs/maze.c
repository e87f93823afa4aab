/* The shortest way through a maze from S to G, by breadth first search with a queue. */
#include <stdio.h>

enum { WIDTH = 24, HEIGHT = 16, CELLS = WIDTH * HEIGHT };

char maze[HEIGHT][WIDTH + 1];
int from[CELLS];
int queue[CELLS];

static int read_maze(int *start, int *goal) {
  int c, y = 0, x = 0;
  *start = *goal = -1;
  while (y < HEIGHT && (c = getchar()) != EOF) {
    if (c == '\n') {
      y++, x = 0;
      continue;
    }
    if (x == WIDTH)
      continue;
    switch (maze[y][x] = c) {
    case 'S':
      *start = y * WIDTH + x;
      break;
    case 'G':
      *goal = y * WIDTH + x;
    }
    x++;
  }
  return y;
}

static int is_free(int y, int x) {
  return y >= 0 && y < HEIGHT && x >= 0 && x < WIDTH && maze[y][x] && maze[y][x] != '#';
}

static int search(int start, int goal) {
  int head = 0, tail = 0, i;
  for (i = 0; i < CELLS; from[i++] = -1)
    ;
  from[queue[tail++] = start] = start;
  while (head < tail) {
    int here = queue[head++], y = here / WIDTH, x = here % WIDTH;
    if (here == goal)
      return 1;
    for (i = 0; i < 4; i++) {
      int ny = y + (i == 1) - (i == 3), nx = x + (i == 0) - (i == 2), there = ny * WIDTH + nx;
      if (is_free(ny, nx) && from[there] < 0)
        from[queue[tail++] = there] = here;
    }
  }
  return 0;
}

int main(void) {
  int start, goal, steps = 0, height = read_maze(&start, &goal);
  if (start < 0 || goal < 0 || !search(start, goal)) {
    printf("-\n");
    return 255;
  }
  for (int at = from[goal]; at != start; at = from[at], steps++)
    maze[at / WIDTH][at % WIDTH] = '*';
  for (int y = 0; y < height; printf("%s\n", maze[y++]))
    ;
  return steps;
}
