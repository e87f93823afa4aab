/* Characters (C99 7.4) in the locale "C", of which ASCII is the coding. Each function takes EOF and the values of an unsigned char, and its contract says so: a char that
   may be negative is cast to unsigned char first. */
#ifndef EACSL_CTYPE_H
#define EACSL_CTYPE_H

#ifdef EACSL_USES_isalnum
/*@ requires __c == EOF || 0 <= __c <= UCHAR_MAX; */
int isalnum(int __c) {
  return __c >= 'a' && __c <= 'z' || __c >= 'A' && __c <= 'Z' || __c >= '0' && __c <= '9';
}
#endif

#ifdef EACSL_USES_isalpha
/*@ requires __c == EOF || 0 <= __c <= UCHAR_MAX; */
int isalpha(int __c) {
  return __c >= 'a' && __c <= 'z' || __c >= 'A' && __c <= 'Z';
}
#endif

#ifdef EACSL_USES_isblank
/*@ requires __c == EOF || 0 <= __c <= UCHAR_MAX; */
int isblank(int __c) {
  return __c == ' ' || __c == '\t';
}
#endif

#ifdef EACSL_USES_iscntrl
/*@ requires __c == EOF || 0 <= __c <= UCHAR_MAX; */
int iscntrl(int __c) {
  return __c >= 0 && __c < 32 || __c == 127;
}
#endif

#ifdef EACSL_USES_isdigit
/*@ requires __c == EOF || 0 <= __c <= UCHAR_MAX; */
int isdigit(int __c) {
  return __c >= '0' && __c <= '9';
}
#endif

#ifdef EACSL_USES_isgraph
/*@ requires __c == EOF || 0 <= __c <= UCHAR_MAX; */
int isgraph(int __c) {
  return __c > 32 && __c < 127;
}
#endif

#ifdef EACSL_USES_islower
/*@ requires __c == EOF || 0 <= __c <= UCHAR_MAX; */
int islower(int __c) {
  return __c >= 'a' && __c <= 'z';
}
#endif

#ifdef EACSL_USES_isprint
/*@ requires __c == EOF || 0 <= __c <= UCHAR_MAX; */
int isprint(int __c) {
  return __c >= 32 && __c < 127;
}
#endif

#ifdef EACSL_USES_ispunct
/*@ requires __c == EOF || 0 <= __c <= UCHAR_MAX; */
int ispunct(int __c) {
  return __c > 32 && __c < '0' || __c > '9' && __c < 'A' || __c > 'Z' && __c < 'a' || __c > 'z' && __c < 127;
}
#endif

#ifdef EACSL_USES_isspace
/*@ requires __c == EOF || 0 <= __c <= UCHAR_MAX; */
int isspace(int __c) {
  return __c == ' ' || __c >= '\t' && __c <= '\r';
}
#endif

#ifdef EACSL_USES_isupper
/*@ requires __c == EOF || 0 <= __c <= UCHAR_MAX; */
int isupper(int __c) {
  return __c >= 'A' && __c <= 'Z';
}
#endif

#ifdef EACSL_USES_isxdigit
/*@ requires __c == EOF || 0 <= __c <= UCHAR_MAX; */
int isxdigit(int __c) {
  return __c >= '0' && __c <= '9' || __c >= 'a' && __c <= 'f' || __c >= 'A' && __c <= 'F';
}
#endif

#ifdef EACSL_USES_tolower
/*@ requires __c == EOF || 0 <= __c <= UCHAR_MAX; */
int tolower(int __c) {
  return __c >= 'A' && __c <= 'Z' ? __c - 'A' + 'a' : __c;
}
#endif

#ifdef EACSL_USES_toupper
/*@ requires __c == EOF || 0 <= __c <= UCHAR_MAX; */
int toupper(int __c) {
  return __c >= 'a' && __c <= 'z' ? __c - 'a' + 'A' : __c;
}
#endif

#endif
