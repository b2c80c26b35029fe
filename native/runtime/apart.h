// Not proved: loops of which each turn has an object of its own: shared as they stand, though their operations may not
// commute with themselves.
#pragma once
#include "loops.h"

static unsigned char last_stamp = 0;

// Whether all turns have different objects: each gets the stamp of this pass. A pass that takes half of what the turns
// take isn't worth it.
template <class Receiver> static bool are_apart(long at, long end, double each, const Receiver &receiver) {
  if (last_stamp == 255) {
    each_object([](Object &it) { it.stamp = 0; });
    last_stamp = 0;
  }
  last_stamp++;
  const Time begun = now();
  for (long i = at; i < end; i++) {
    Object *it = receiver(i);
    if (it == nullptr || it->stamp == last_stamp) return false;
    it->stamp = last_stamp;
    if (i - at == 63 && !is_forced() && double(now() - begun) > each * 32) return false;
  }
  return true;
}

// Whether the turns were shared as they stand, since they have different objects. Else `at` is the first that hasn't
// begun. `receiver` gives the object of a turn. Turns that were tried alone are over when others begin, so their
// objects may come again.
template <int SIZE, class Turn, class Range, class Receiver>
static bool shared_apart(Worker &w, long &at, long end, const Turn &turn, const Range &range,
                         const Receiver &receiver) {
  const Trial trial = first_turns(w, at, end, range);
  at = trial.at;
  if (at >= end) return true;
  const bool is_alone = !pays_threads(Time(trial.each * double(end - at)));
  if (!is_alone && !are_apart(at, end, trial.each, receiver)) return false;
  if (is_alone)
    range(at, end);
  else
    share_loop<SIZE>(w, at, end, trial.each, turn, range);
  return true;
}

// A loop that isn't marked: alone where an object comes twice.
template <int SIZE, class Turn, class Range, class Receiver>
static void loop_apart(Worker &w, long at, long end, const Turn &turn, const Range &range, const Receiver &receiver) {
  if (shared_apart<SIZE>(w, at, end, turn, range, receiver)) return;
  gave_up = true;
  range(at, end);
}

// A marked loop whose operations call nothing: where its objects are different it needs neither locks nor copies. Where
// one came twice nobody looks again for a while.
template <int SIZE, class Turn, class Range, class Receiver, class Marked>
static void loop_where_apart(Worker &w, long at, long end, const Turn &turn, const Range &range,
                             const Receiver &receiver, const Marked &marked) {
  static unsigned skipped = 0;
  if (skipped == 0 && shared_apart<SIZE>(w, at, end, turn, range, receiver)) return;
  skipped = skipped == 0 ? 63 : skipped - 1;
  w.tries = SOME_TURNS;
  marked(w, at, end);
}
