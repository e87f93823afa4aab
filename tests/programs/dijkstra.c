/* Shortest paths in a graph with costs, by a heap. The input is `from to cost`, a line each; 0 is the start. */
#include <stdio.h>
#include <limits.h>
#include <stdlib.h>

enum { NODES = 10 };

struct edge {
  int to, cost;
  struct edge *next;
};

struct item {
  int node, distance;
};

struct edge *edges[NODES];
int distance[NODES];
struct item heap[100];
int size;

static int number(void) {
  int c, n = 0;
  while ((c = getchar()) == ' ' || c == '\n')
    ;
  if (c == EOF)
    return -1;
  do
    n = n * 10 + c - '0';
  while ((c = getchar()) >= '0' && c <= '9');
  return n;
}

static void push(int node, int d) {
  int i = size++;
  while (i && heap[(i - 1) / 2].distance > d) {
    heap[i] = heap[(i - 1) / 2];
    i = (i - 1) / 2;
  }
  heap[i].node = node, heap[i].distance = d;
}

static int pop(int *d) {
  int node = heap[0].node, i = 0, child;
  *d = heap[0].distance;
  struct item last;
  last = heap[--size];
  while ((child = 2 * i + 1) < size) {
    if (child + 1 < size && heap[child + 1].distance < heap[child].distance)
      child++;
    if (last.distance <= heap[child].distance)
      break;
    heap[i] = heap[child];
    i = child;
  }
  heap[i] = last;
  return node;
}

int main(void) {
  int a, b, cost, d, reached = 0;
  while ((a = number()) >= 0 && (b = number()) >= 0 && (cost = number()) >= 0) {
    struct edge *e = malloc(sizeof *e);
    if (!e || a >= NODES || b >= NODES)
      return 1;
    e->to = b, e->cost = cost, e->next = edges[a], edges[a] = e;
  }
  for (int i = 0; i < NODES; distance[i++] = INT_MAX)
    ;
  push(0, distance[0] = 0);
  while (size) {
    int node = pop(&d);
    if (d > distance[node])
      continue;
    for (struct edge *e = edges[node]; e; e = e->next)
      if (d + e->cost < distance[e->to])
        push(e->to, distance[e->to] = d + e->cost);
  }
  for (int i = 0; i < NODES; i++)
    if (distance[i] < INT_MAX)
      printf("%d %d\n", i, distance[i]), reached++;
    else
      printf("%d -\n", i);
  for (int i = 0; i < NODES; i++)
    for (struct edge *e = edges[i], *next; e; e = next)
      next = e->next, free(e);
  return reached;
}
