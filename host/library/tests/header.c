/* The layout that the Rust side has too. It is compiled and not run. */
#include "tsconfig_questions.h"

_Static_assert(sizeof(tsconfig_numbers) == 40, "five numbers of eight bytes");
_Static_assert(offsetof(tsconfig_numbers, number) == 0, "the first");
_Static_assert(offsetof(tsconfig_numbers, place) == 8, "the second");
_Static_assert(offsetof(tsconfig_numbers, first) == 16, "the third");
_Static_assert(offsetof(tsconfig_numbers, second) == 24, "the fourth");
_Static_assert(offsetof(tsconfig_numbers, bytes) == 32, "the fifth");
