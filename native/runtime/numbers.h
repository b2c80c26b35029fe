// Not proved: numbers as the language has them. Sums and products wrap by -fwrapv; the least number by -1 would trap.
#pragma once
#include "machine.h"

static inline long quotient(long a, long b) { return RARE(b == -1) ? -a : a / b; }
static inline long remainder(long a, long b) { return RARE(b == -1) ? 0 : a % b; }
static inline long max(long a, long b) { return a < b ? b : a; }
static inline long min(long a, long b) { return b < a ? b : a; }
