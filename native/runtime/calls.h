// Not proved: calls of operations. In the upper levels of a recursion each call has a frame from which the rest of its
// body can be given: who asks gets the oldest. Below, a call is a call, and the worker begins anew with frames where it
// has nothing left to give.
#pragma once
#include "loops.h"

template <class Rest> struct RestFrame : Frame {
  const Rest *what;
  bool is_given;
};

template <class Rest> static void run_rest(Worker &w, Task &task) {
  Rest rest = *static_cast<const Rest *>(task.first.at());
  task.first.drop();
  rest(w, LEVELS);
}
template <class Rest> static void run_rest_alone(Worker &w, Task &task) {
  Rest rest = *static_cast<const Rest *>(task.first.at());
  task.first.drop();
  rest(w, 0);
}

template <class Rest> static bool rest_of_body(Frame &frame, Task &task) {
  RestFrame<Rest> &it = static_cast<RestFrame<Rest> &>(frame);
  if (it.is_given) return false;
  task.run = run_rest<Rest>;
  task.run_alone = run_rest_alone<Rest>;
  task.second.outside = nullptr;
  task.first.keep(it.what, sizeof(Rest));
  return it.is_given = true;
}
template <class Rest> static bool part_of_body(Frame &frame, bool, Task *task) {
  RestFrame<Rest> &it = static_cast<RestFrame<Rest> &>(frame);
  if (it.is_given || task == nullptr) return !it.is_given;
  task->run = run_rest<Rest>;
  task->second.outside = nullptr;
  task->first.keep(it.what, sizeof(Rest));
  return it.is_given = true;
}

template <class Call, class Rest>
__attribute__((noinline)) static void call_with_frame(Worker &w, int levels, Call call, Rest rest) {
  RestFrame<Rest> frame;
  frame.part = part_of_body<Rest>;
  frame.rest = rest_of_body<Rest>;
  frame.what = &rest;
  frame.is_given = false;
  w.begin(frame);
  if (w.asked() && is_wanted(w)) give_oldest(w);
  call(w, levels - 1);
  w.end(frame);
  if (!frame.is_given) rest(w, levels);
}

// Whether a worker that was asked and has nothing to give should begin with frames here: not at the small calls that
// stand deepest, but at the shallowest that comes within some microseconds.
static inline bool is_high_enough(Worker &w, char *here) {
  if (is_forced()) return true;
  if (w.noticed++ == 0) {
    w.since = now();
    w.highest = here;
    return false;
  }
  if (here > w.highest) w.highest = here;
  if (w.noticed < 16 && (w.noticed & (w.noticed - 1)) != 0) return false;
  if (w.noticed >= 16 && w.noticed % 8 != 0 && here < w.highest) return false;
  Time took = now() - w.since;
  return took >= 4 * MICROSECOND && (here == w.highest || took >= 16 * MICROSECOND);
}

// A call below the levels that have frames, where somebody asks.
template <class Call, class Rest> __attribute__((noinline)) static void call_asked(Worker &w, Call call, Rest rest) {
  if (is_wanted(w) && !give_oldest(w) && is_high_enough(w, static_cast<char *>(__builtin_frame_address(0)))) {
    w.noticed = 0;
    return call_with_frame(w, LEVELS, call, rest);
  }
  call(w, 0);
  rest(w, 0);
}

// A call, and then the rest of the body that it stands in, unless another worker was given that.
template <class Call, class Rest>
__attribute__((always_inline)) static inline void call_then(Worker &w, int levels, const Call &call, Rest &rest) {
  if (levels > 0) return call_with_frame(w, levels, call, rest);
  if (w.asked()) return call_asked(w, call, rest);
  call(w, 0);
  rest(w, 0);
}

// Below the levels of frames a worker looks now and then who asks.
static inline void look(Worker &w) {
  if (w.asked() && is_wanted(w)) give_oldest(w);
}

static inline int below(int levels) { return levels > 0 ? levels - 1 : 0; }
