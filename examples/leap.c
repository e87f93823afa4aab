/* Counts the leap years of the Gregorian calendar from the year 1 on, and prints for each century whether its last year is one. */
#include <stdio.h>

int is_leap(int year) {
  return year % 4 == 0 && year % 100 != 0;
}

int main(void) {
  int leaps = 0;
  for (int year = 1; year <= 2000; year++) {
    int leap = is_leap(year);
    leaps += leap;
    if (year % 100 == 0)
      putchar(leap ? '+' : '.');
    //@ assert leap ==> year % 4 == 0;
    //@ assert leaps == year / 4 - year / 100 + year / 400;
  }
  return leaps;
}
