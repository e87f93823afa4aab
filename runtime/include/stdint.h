/* Integer types (C99 7.18), with the widths that the types of eacsl have, and the limits of 64-bit Linux. There is no intptr_t: no pointer becomes a number here. */
#ifndef EACSL_STDINT_H
#define EACSL_STDINT_H

#ifdef EACSL_USES_int8_t
typedef signed char int8_t;
#endif
#ifdef EACSL_USES_uint8_t
typedef unsigned char uint8_t;
#endif
#ifdef EACSL_USES_int16_t
typedef short int16_t;
#endif
#ifdef EACSL_USES_uint16_t
typedef unsigned short uint16_t;
#endif
#ifdef EACSL_USES_int32_t
typedef int int32_t;
#endif
#ifdef EACSL_USES_uint32_t
typedef unsigned int uint32_t;
#endif
#ifdef EACSL_USES_int64_t
typedef long int64_t;
#endif
#ifdef EACSL_USES_uint64_t
typedef unsigned long uint64_t;
#endif
#ifdef EACSL_USES_int_least8_t
typedef signed char int_least8_t;
#endif
#ifdef EACSL_USES_uint_least8_t
typedef unsigned char uint_least8_t;
#endif
#ifdef EACSL_USES_int_least16_t
typedef short int_least16_t;
#endif
#ifdef EACSL_USES_uint_least16_t
typedef unsigned short uint_least16_t;
#endif
#ifdef EACSL_USES_int_least32_t
typedef int int_least32_t;
#endif
#ifdef EACSL_USES_uint_least32_t
typedef unsigned int uint_least32_t;
#endif
#ifdef EACSL_USES_int_least64_t
typedef long int_least64_t;
#endif
#ifdef EACSL_USES_uint_least64_t
typedef unsigned long uint_least64_t;
#endif
#ifdef EACSL_USES_int_fast8_t
typedef signed char int_fast8_t;
#endif
#ifdef EACSL_USES_uint_fast8_t
typedef unsigned char uint_fast8_t;
#endif
#ifdef EACSL_USES_int_fast16_t
typedef long int_fast16_t;
#endif
#ifdef EACSL_USES_uint_fast16_t
typedef unsigned long uint_fast16_t;
#endif
#ifdef EACSL_USES_int_fast32_t
typedef long int_fast32_t;
#endif
#ifdef EACSL_USES_uint_fast32_t
typedef unsigned long uint_fast32_t;
#endif
#ifdef EACSL_USES_int_fast64_t
typedef long int_fast64_t;
#endif
#ifdef EACSL_USES_uint_fast64_t
typedef unsigned long uint_fast64_t;
#endif
#ifdef EACSL_USES_intmax_t
typedef long intmax_t;
#endif
#ifdef EACSL_USES_uintmax_t
typedef unsigned long uintmax_t;
#endif

#define INT8_MIN (-128)
#define INT8_MAX 127
#define UINT8_MAX 255
#define INT16_MIN (-32768)
#define INT16_MAX 32767
#define UINT16_MAX 65535
#define INT32_MIN (-2147483647 - 1)
#define INT32_MAX 2147483647
#define UINT32_MAX 4294967295U
#define INT64_MIN (-9223372036854775807L - 1)
#define INT64_MAX 9223372036854775807L
#define UINT64_MAX 18446744073709551615UL
#define INT_LEAST8_MIN (-128)
#define INT_LEAST8_MAX 127
#define UINT_LEAST8_MAX 255
#define INT_LEAST16_MIN (-32768)
#define INT_LEAST16_MAX 32767
#define UINT_LEAST16_MAX 65535
#define INT_LEAST32_MIN (-2147483647 - 1)
#define INT_LEAST32_MAX 2147483647
#define UINT_LEAST32_MAX 4294967295U
#define INT_LEAST64_MIN (-9223372036854775807L - 1)
#define INT_LEAST64_MAX 9223372036854775807L
#define UINT_LEAST64_MAX 18446744073709551615UL
#define INT_FAST8_MIN (-128)
#define INT_FAST8_MAX 127
#define UINT_FAST8_MAX 255
#define INT_FAST16_MIN (-9223372036854775807L - 1)
#define INT_FAST16_MAX 9223372036854775807L
#define UINT_FAST16_MAX 18446744073709551615UL
#define INT_FAST32_MIN (-9223372036854775807L - 1)
#define INT_FAST32_MAX 9223372036854775807L
#define UINT_FAST32_MAX 18446744073709551615UL
#define INT_FAST64_MIN (-9223372036854775807L - 1)
#define INT_FAST64_MAX 9223372036854775807L
#define UINT_FAST64_MAX 18446744073709551615UL
#define INTMAX_MIN (-9223372036854775807L - 1)
#define INTMAX_MAX 9223372036854775807L
#define UINTMAX_MAX 18446744073709551615UL
#define PTRDIFF_MIN (-9223372036854775807L - 1)
#define PTRDIFF_MAX 9223372036854775807L
#define SIZE_MAX 18446744073709551615UL

#define INT8_C(__number) __number
#define UINT8_C(__number) __number
#define INT16_C(__number) __number
#define UINT16_C(__number) __number
#define INT32_C(__number) __number
#define UINT32_C(__number) __number ## U
#define INT64_C(__number) __number ## L
#define UINT64_C(__number) __number ## UL
#define INTMAX_C(__number) __number ## L
#define UINTMAX_C(__number) __number ## UL

#endif
