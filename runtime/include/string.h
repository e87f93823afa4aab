/* Strings and bytes (C99 7.21), as plain C that eacsl takes. Of this what a text uses is put on the line of its #include. Contracts say what C99 asks of the arguments
   of a call, and assertions inside what is seen only while the bytes are read: that a string ends. A count of 0 asks for nothing.

   Bytes are copied and compared as numbers. A byte that nothing was written to is none, and the bytes of a pointer are none either: to copy or compare an object
   that has a pointer, or room between its members, is undefined here, and an assertion says so. Assign the whole struct. */
#ifndef EACSL_STRING_H
#define EACSL_STRING_H

#ifdef EACSL_USES_strlen
/*@ requires \valid_read(__string); */
size_t strlen(const char *__string) {
  for (size_t __i = 0;; __i++) {
    //@ assert \valid_read(__string + __i);
    //@ assert \initialized(__string + __i);
    if (__string[__i] == 0)
      return __i;
  }
}
#endif

#ifdef EACSL_USES_strcmp
/*@ requires \valid_read(__left);
  @ requires \valid_read(__right); */
int strcmp(const char *__left, const char *__right) {
  for (size_t __i = 0;; __i++) {
    //@ assert \valid_read(__left + __i);
    //@ assert \valid_read(__right + __i);
    //@ assert \initialized(__left + __i);
    //@ assert \initialized(__right + __i);
    if (__left[__i] != __right[__i] || __left[__i] == 0)
      return (unsigned char)__left[__i] - (unsigned char)__right[__i];
  }
}
#endif

#ifdef EACSL_USES_strncmp
/*@ requires __most > 0 ==> \valid_read(__left);
  @ requires __most > 0 ==> \valid_read(__right); */
int strncmp(const char *__left, const char *__right, size_t __most) {
  for (size_t __i = 0; __i < __most; __i++) {
    //@ assert \valid_read(__left + __i);
    //@ assert \valid_read(__right + __i);
    //@ assert \initialized(__left + __i);
    //@ assert \initialized(__right + __i);
    if (__left[__i] != __right[__i] || __left[__i] == 0)
      return (unsigned char)__left[__i] - (unsigned char)__right[__i];
  }
  return 0;
}
#endif

#ifdef EACSL_USES_strcpy
/*@ requires \valid_read(__from); */
char *strcpy(char *__to, const char *__from) {
  size_t __length = 0;
  for (;; __length++) {
    //@ assert \valid_read(__from + __length);
    //@ assert \initialized(__from + __length);
    if (__from[__length] == 0)
      break;
  }
  //@ assert \valid(__to + (0 .. __length));
  //@ assert \separated(__to + (0 .. __length), __from + (0 .. __length));
  for (size_t __i = 0; __i <= __length; __i++)
    __to[__i] = __from[__i];
  return __to;
}
#endif

#ifdef EACSL_USES_strncpy
/*@ requires \valid(__to + (0 .. __count - 1));
  @ requires __count > 0 ==> \valid_read(__from); */
char *strncpy(char *__to, const char *__from, size_t __count) {
  size_t __length = 0;
  for (; __length < __count; __length++) {
    //@ assert \valid_read(__from + __length);
    //@ assert \initialized(__from + __length);
    if (__from[__length] == 0)
      break;
  }
  //@ assert \separated(__to + (0 .. __count - 1), __from + (0 .. __length < __count ? __length : __count - 1));
  for (size_t __i = 0; __i < __count; __i++)
    __to[__i] = __i < __length ? __from[__i] : 0;
  return __to;
}
#endif

#ifdef EACSL_USES_strcat
/*@ requires \valid(__to);
  @ requires \valid_read(__from); */
char *strcat(char *__to, const char *__from) {
  size_t __end = 0, __length = 0;
  for (;; __end++) {
    //@ assert \valid_read(__to + __end);
    //@ assert \initialized(__to + __end);
    if (__to[__end] == 0)
      break;
  }
  for (;; __length++) {
    //@ assert \valid_read(__from + __length);
    //@ assert \initialized(__from + __length);
    if (__from[__length] == 0)
      break;
  }
  //@ assert \valid(__to + (__end .. __end + __length));
  //@ assert \separated(__to + (0 .. __end + __length), __from + (0 .. __length));
  for (size_t __i = 0; __i <= __length; __i++)
    __to[__end + __i] = __from[__i];
  return __to;
}
#endif

#ifdef EACSL_USES_strchr
/*@ requires \valid_read(__string); */
char *strchr(const char *__string, int __byte) {
  for (char __wanted = __byte;; __string++) {
    //@ assert \valid_read(__string);
    //@ assert \initialized(__string);
    if (*__string == __wanted)
      return (char *)__string;
    if (*__string == 0)
      return NULL;
  }
}
#endif

#ifdef EACSL_USES_strrchr
/*@ requires \valid_read(__string); */
char *strrchr(const char *__string, int __byte) {
  const char *__last = NULL;
  for (char __wanted = __byte;; __string++) {
    //@ assert \valid_read(__string);
    //@ assert \initialized(__string);
    if (*__string == __wanted)
      __last = __string;
    if (*__string == 0)
      return (char *)__last;
  }
}
#endif

#ifdef EACSL_USES_memcpy
/*@ requires \valid((char *)__to + (0 .. __count - 1));
  @ requires \valid_read((char *)__from + (0 .. __count - 1));
  @ requires \separated((char *)__to + (0 .. __count - 1), (char *)__from + (0 .. __count - 1)); */
void *memcpy(void *__to, const void *__from, size_t __count) {
  unsigned char *__target = __to;
  const unsigned char *__source = __from;
  for (size_t __i = 0; __i < __count; __i++) {
    //@ assert 0 <= __source[__i] <= UCHAR_MAX;
    __target[__i] = __source[__i];
  }
  return __to;
}
#endif

#ifdef EACSL_USES_memmove
/* Pointers into different blocks have no order, so that the target is looked for among the bytes of the source. */
/*@ requires \valid((char *)__to + (0 .. __count - 1));
  @ requires \valid_read((char *)__from + (0 .. __count - 1)); */
void *memmove(void *__to, const void *__from, size_t __count) {
  unsigned char *__target = __to;
  const unsigned char *__source = __from;
  int __inside = 0;
  for (size_t __i = 0; __i < __count && !__inside; __i++)
    __inside = __source + __i == __target;
  for (size_t __i = 0; __i < __count; __i++) {
    size_t __at = __inside ? __count - 1 - __i : __i;
    //@ assert 0 <= __source[__at] <= UCHAR_MAX;
    __target[__at] = __source[__at];
  }
  return __to;
}
#endif

#ifdef EACSL_USES_memset
/*@ requires \valid((char *)__to + (0 .. __count - 1)); */
void *memset(void *__to, int __byte, size_t __count) {
  unsigned char *__target = __to;
  for (size_t __i = 0; __i < __count; __i++)
    __target[__i] = __byte;
  return __to;
}
#endif

#ifdef EACSL_USES_memcmp
/*@ requires \valid_read((char *)__left + (0 .. __count - 1));
  @ requires \valid_read((char *)__right + (0 .. __count - 1)); */
int memcmp(const void *__left, const void *__right, size_t __count) {
  const unsigned char *__first = __left;
  const unsigned char *__second = __right;
  for (size_t __i = 0; __i < __count; __i++) {
    //@ assert 0 <= __first[__i] <= UCHAR_MAX;
    //@ assert 0 <= __second[__i] <= UCHAR_MAX;
    if (__first[__i] != __second[__i])
      return __first[__i] - __second[__i];
  }
  return 0;
}
#endif

#endif
