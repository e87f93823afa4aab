/* Sorts the lines of the input as a list, by merging, and drops those that come twice. */
#include <stdio.h>
#include <stdlib.h>

struct line {
  char *text;
  struct line *next;
};

static char *read_line(void) {
  int c, n = 0, room = 8;
  char *s = malloc(room);
  while (s && (c = getchar()) != EOF && c != '\n') {
    if (n + 1 == room) {
      char *more = malloc(room *= 2);
      for (int i = 0; more && i < n; i++)
        more[i] = s[i];
      free(s);
      if (!(s = more))
        break;
    }
    s[n++] = c;
  }
  if (!s)
    exit(9);
  if (c == EOF && !n) {
    free(s);
    return NULL;
  }
  s[n] = '\0';
  return s;
}

static int compare(const char *a, const char *b) {
  for (; *a == *b; a++, b++)
    if (!*a)
      return 0;
  return (unsigned char)*a - (unsigned char)*b;
}

static struct line *merge(struct line *a, struct line *b) {
  struct line *first = NULL, **end = &first;
  while (a && b) {
    if (compare(a->text, b->text) <= 0)
      *end = a, a = a->next;
    else
      *end = b, b = b->next;
    end = &(*end)->next;
  }
  *end = a ? a : b;
  return first;
}

static struct line *sort(struct line *list) {
  struct line *half = list, *end = list;
  if (!list || !list->next)
    return list;
  while ((end = end->next) && (end = end->next))
    half = half->next;
  end = half->next;
  half->next = NULL;
  return merge(sort(list), sort(end));
}

static int drop_doubles(struct line *list) {
  int dropped = 0;
  for (struct line *p = list; p && p->next; )
    if (!compare(p->text, p->next->text)) {
      struct line *twice = p->next;
      p->next = twice->next;
      free(twice->text), free(twice);
      dropped++;
    } else
      p = p->next;
  return dropped;
}

int main(void) {
  struct line *list = NULL, *next;
  char *text;
  while ((text = read_line())) {
    struct line *l = malloc(sizeof *l);
    if (!l)
      return 9;
    l->text = text, l->next = list, list = l;
  }
  list = sort(list);
  int dropped = drop_doubles(list);
  for (; list; list = next) {
    printf("%s\n", list->text);
    next = list->next;
    free(list->text);
    free(list);
  }
  return dropped;
}
