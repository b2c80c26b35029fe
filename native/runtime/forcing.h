// Not proved: for tests. With FORCED all that is marked is shared, however light, and who could give work waits a
// little for others to ask: FORCED pauses at each look. A region is forced for FORCED_REGION, and each place where
// regions begin for FORCED_PLACE in all; behind that it goes on as without, so that no test takes much longer than the
// program.
#pragma once
#include "machine.h"

#ifdef FORCED
#ifndef FORCED_REGION
#define FORCED_REGION (50000 * MICROSECOND)
#endif
#ifndef FORCED_PLACE
#define FORCED_PLACE (500000 * MICROSECOND)
#endif
// What a turn is said to take alone where that isn't tried: seconds, so that others never look slow.
const double FORCED_TURN = 1e9;
static std::atomic<Time> forced_until{0};
static inline bool is_forced() {
  const Time until = forced_until.load(std::memory_order_relaxed);
  return until != 0 && now() < until;
}

// What is forced of a place, and whether any worker was given a part of a region there.
struct Forcing {
  Time left = FORCED_PLACE;
  bool is_known = false, was_shared = false;
  static inline int places = 0, shared = 0;
  void begin() {
    if (!is_known) places++;
    is_known = true;
    if (left > 0) forced_until.store(now() + (left < FORCED_REGION ? left : FORCED_REGION), std::memory_order_relaxed);
  }
  void end(Time took, bool has_given) {
    forced_until.store(0, std::memory_order_relaxed);
    left -= took < FORCED_REGION ? took : FORCED_REGION;
    if (has_given && !was_shared) shared++;
    was_shared = was_shared || has_given;
  }
};
#else
const double FORCED_TURN = 0;
static constexpr bool is_forced() { return false; }
#endif
