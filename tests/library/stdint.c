/* The sizes, limits and conversions of the types of <stdint.h>. */
#include "numbers.h"
#include <stdint.h>

#define SIZES(NAME) \
  put(sizeof(int##NAME##_t)); \
  put(sizeof(uint##NAME##_t))
#define LIMITS(NAME) \
  printf("%ld %ld %lu\n", (long)INT##NAME##_MIN, (long)INT##NAME##_MAX, (unsigned long)UINT##NAME##_MAX)

void sizes(void) {
  SIZES(8); SIZES(16); SIZES(32); SIZES(64);
  SIZES(_least8); SIZES(_least16); SIZES(_least32); SIZES(_least64);
  SIZES(_fast8); SIZES(_fast16); SIZES(_fast32); SIZES(_fast64);
  SIZES(max);
  printf("\n");
}

void limits(void) {
  LIMITS(8); LIMITS(16); LIMITS(32); LIMITS(64);
  LIMITS(_LEAST8); LIMITS(_LEAST16); LIMITS(_LEAST32); LIMITS(_LEAST64);
  LIMITS(_FAST8); LIMITS(_FAST16); LIMITS(_FAST32); LIMITS(_FAST64);
  LIMITS(MAX);
  printf("%ld %ld %lu\n", PTRDIFF_MIN, PTRDIFF_MAX, SIZE_MAX);
}

/* The sign of a limit less 1 tells how the type of the limit is promoted. */
void constants(void) {
  put(sizeof(INT8_C(1)) + sizeof(UINT8_C(1)) + sizeof(INT16_C(1)) + sizeof(UINT16_C(1)));
  put(sizeof(INT32_C(1)));
  put(sizeof(INT64_C(1)) + sizeof(UINT64_C(1)));
  put(sizeof(INTMAX_C(1)));
  put(-1 < UINT8_MAX);
  put(-1 < UINT16_MAX);
  put(-1 < UINT32_MAX);
  put(-1 < UINT64_MAX);
  put(-1 < UINT32_C(7));
  put(-1 < UINT8_C(7));
  put(-1 < UINT16_C(7));
  put(-1 < UINT64_C(7));
  put(-1 < UINTMAX_C(7));
  put(UINT64_C(18446744073709551615) == UINT64_MAX);
  printf("\n");
}

void conversions(int64_t number) {
  printf("%d %u %d %u %d %u %ld %lu\n", (int8_t)number, (uint8_t)number, (int16_t)number, (uint16_t)number, (int32_t)number, (uint32_t)number, number, (uint64_t)number);
}

int main(void) {
  sizes();
  limits();
  constants();
  for (int round = 0; round < 200; round++) {
    uint64_t high = next(65536), low = next(65536), number = (high << next(32)) * 65536u + low;
    conversions((int64_t)number);
    conversions((int64_t)(0u - number));
  }
  return 0;
}
