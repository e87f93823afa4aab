/* The months of the years on the input, week by week. */
#include <stdio.h>

const char *const months[] = {
  "January", "February", "March", "April", "May", "June", "July",
  "August", "September", "October", "November", "December"};

static int is_leap(int year) {
  return (year % 4 == 0 && year % 100 != 0) || year % 400 == 0;
}

static int days(int month, int year) {
  switch (month) {
  case 4: case 6: case 9: case 11:
    return 30;
  case 2:
    return 28 + is_leap(year);
  default:
    return 31;
  }
}

/* 0 is Monday */
static int weekday(int day, int month, int year) {
  int days_before = 0;
  for (int y = 1601; y < year; y++)
    days_before += 365 + is_leap(y);
  for (int m = 1; m < month; days_before += days(m++, year))
    ;
  return (days_before + day - 1) % 7;
}

static void print_day(int d) {
  if (d < 10)
    putchar(' ');
  printf("%d", d);
}

static int number(void) {
  int c, n = 0;
  while ((c = getchar()) != EOF && (c < '0' || c > '9'))
    ;
  for (; c >= '0' && c <= '9'; c = getchar())
    n = n * 10 + c - '0';
  return n;
}

int main(void) {
  int month, year, count = 0;
  while ((month = number()) && (year = number()) >= 1601) {
    if (month > 12)
      return 1;
    printf("%s %d\nMo Tu We Th Fr Sa Su\n", months[month - 1], year);
    int column = weekday(1, month, year), i;
    for (i = 0; i < column; i++)
      printf("   ");
    for (int d = 1; d <= days(month, year); d++) {
      print_day(d);
      putchar(++column % 7 ? ' ' : '\n');
    }
    printf("\n");
    count++;
  }
  printf("%d months\n", count);
  return 0;
}
