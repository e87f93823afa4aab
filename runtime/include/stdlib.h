#pragma eacsl stays <stdlib.h>
/* Of <stdlib.h> (C99 7.20) what the program doesn't know by itself. A text has what it uses of this at the head of the line after its #include.
   Contracts say that a result fits in its type and that there is a string, and assertions that it ends and that its number fits. */
#ifndef EACSL_STDLIB_H
#define EACSL_STDLIB_H

#ifdef EACSL_USES_abs
/*@ requires -__number <= INT_MAX; */
int abs(int __number) {
  return __number < 0 ? -__number : __number;
}
#endif

#ifdef EACSL_USES_labs
/*@ requires -__number <= LONG_MAX; */
long labs(long __number) {
  return __number < 0 ? -__number : __number;
}
#endif

#ifdef EACSL_USES_atoi
/*@ requires \valid_read(__string); */
int atoi(const char *__string) {
  int __negative, __value = 0;
  for (;; __string++) {
    //@ assert \valid_read(__string);
    //@ assert \initialized(__string);
    if (*__string != ' ' && (*__string < '\t' || *__string > '\r'))
      break;
  }
  __negative = *__string == '-';
  if (*__string == '-' || *__string == '+')
    __string++;
  for (;; __string++) {
    //@ assert \valid_read(__string);
    //@ assert \initialized(__string);
    if (*__string < '0' || *__string > '9')
      return __value;
    int __digit = __negative ? '0' - *__string : *__string - '0';
    //@ assert INT_MIN <= 10 * __value + __digit <= INT_MAX;
    __value = 10 * __value + __digit;
  }
}
#endif

#endif
