/* Reads dates as `31.12.1999`, `1999-12-31` or `12/31/1999`, and writes the day of the year and the week. */
#include <stdio.h>

enum form { GERMAN, ISO, AMERICAN, NO_FORM };

struct date {
  int day, month, year;
};

const short before[] = {0, 31, 59, 90, 120, 151, 181, 212, 243, 273, 304, 334};

static int leap(int y) {
  return !(y % 4) && (y % 100 || !(y % 400));
}

static int number(int *c) {
  int n = 0;
  for (; *c >= '0' && *c <= '9' && n < 100000; *c = getchar())
    n = n * 10 + *c - '0';
  return n;
}

static enum form form_of(int mark) {
  switch (mark) {
  case '.': return GERMAN;
  case '-': return ISO;
  case '/': return AMERICAN;
  }
  return NO_FORM;
}

static int read_date(struct date *d, int *c) {
  int a = number(c), mark = *c, b, e;
  enum form f = form_of(mark);
  if (f == NO_FORM)
    return 0;
  *c = getchar();
  b = number(c);
  if (*c != mark)
    return 0;
  *c = getchar();
  e = number(c);
  switch (f) {
  case GERMAN: d->day = a, d->month = b, d->year = e; break;
  case ISO: d->year = a, d->month = b, d->day = e; break;
  default: d->month = a, d->day = b, d->year = e;
  }
  return d->month >= 1 && d->month <= 12 && d->day >= 1
    && d->day <= (d->month == 12 ? 31 : before[d->month] - before[d->month - 1] + (d->month == 2 && leap(d->year)));
}

/* with zeros in front */
static void put(int n, int width) {
  for (int least = 1; --width > 0; )
    if (n < (least *= 10))
      putchar('0');
  printf("%d", n);
}

int main(void) {
  struct date d;
  int c, good = 0, bad = 0;
  while ((c = getchar()) != EOF) {
    if (read_date(&d, &c)) {
      int day = before[d.month - 1] + d.day + (d.month > 2 && leap(d.year));
      int y = d.year - 1, weekday = (y + y / 4 - y / 100 + y / 400 + day) % 7;
      put(d.year, 4), putchar('/'), put(day, 3);
      printf(" %c%c\n", "SMTWTFS"[weekday], "uouehra"[weekday]);
      good++;
    } else
      printf("?\n"), bad++;
    while (c != '\n' && c != EOF)
      c = getchar();
  }
  return 10 * good + bad;
}
