// Not proved: value methods that call several of their kind. They change nothing, so these calls may go to several
// workers; who makes them waits for what others found, and helps elsewhere meanwhile.
#pragma once
#include "calls.h"
#include <tuple>

// One of the calls: its result has room with who makes it, who doesn't leave before it is there.
struct Branch {
  void (*run)(Worker &, int levels, Branch &);
  const void *call;
  void *result;
  std::atomic<bool> is_done{false};
};

struct ForkFrame : Frame {
  Branch *branches;
  int next, end; // those that haven't begun
};

static inline void run_branch(Worker &w, Task &task) {
  Branch &it = **static_cast<Branch *const *>(task.first.at());
  it.run(w, LEVELS, it);
  it.is_done.store(true, std::memory_order_release);
}

// The last one, which comes latest with who made the frame.
static inline bool part_of_fork(Frame &frame, bool, Task *task) {
  ForkFrame &it = static_cast<ForkFrame &>(frame);
  if (it.next >= it.end || task == nullptr) return it.next < it.end;
  Branch *given = &it.branches[--it.end];
  task->run = run_branch;
  task->second.outside = nullptr;
  task->first.keep(&given, sizeof(given));
  return true;
}
static inline bool nothing_of_fork(Frame &, Task &) { return false; }

// Below the levels that have frames a call is the plain one, where the last such calls were short: so that small trees
// cost what they cost alone. Each 16th looks at who asks, and is measured.
const int PLAIN = -1;
const Time SHORT = 100 * MICROSECOND;
const unsigned SOME = 8;

static inline void run_lowest(Worker &w, Branch &it) {
  if (!is_forced() && w.short_ones >= SOME && w.short_ones++ % 16 != 0) return it.run(w, PLAIN, it);
  const Time begun = now();
  it.run(w, 0, it);
  w.short_ones = now() - begun < SHORT ? w.short_ones + 1 : 0;
}

static inline void run_branches(Worker &w, int levels, Branch *branches, int count) {
  ForkFrame frame;
  frame.part = part_of_fork;
  frame.rest = nothing_of_fork;
  frame.branches = branches;
  frame.next = 0;
  frame.end = count;
  w.begin(frame);
  while (frame.next < frame.end) {
    Branch &it = branches[frame.next++];
    look(w);
    if (levels > 1)
      it.run(w, levels - 1, it);
    else
      run_lowest(w, it);
  }
  w.end(frame);
  for (int i = frame.end; i < count; i++)
    while (!branches[i].is_done.load(std::memory_order_acquire)) {
      look(w);
      if (!helped(w, &branches[i].is_done)) pause_briefly();
    }
}

template <class Call, class Result> static void run_one(Worker &w, int levels, Branch &it) {
  *static_cast<Result *>(it.result) = (*static_cast<const Call *>(it.call))(w, levels);
}

template <class Call> using Answer = decltype(std::declval<const Call &>()(std::declval<Worker &>(), 0));

template <std::size_t... at, class... Calls>
static inline std::tuple<Answer<Calls>...> answered(Worker &w, int levels, std::index_sequence<at...>,
                                                    const Calls &...calls) {
  std::tuple<Answer<Calls>...> found;
  Branch branches[] = {{run_one<Calls, Answer<Calls>>, &calls, &std::get<at>(found)}...};
  run_branches(w, levels, branches, int(sizeof...(calls)));
  return found;
}

template <class... Calls>
__attribute__((noinline)) static std::tuple<Answer<Calls>...> fork_with_frame(Worker &w, int levels, Calls... calls) {
  return answered(w, levels, std::index_sequence_for<Calls...>(), calls...);
}

template <class... Calls>
__attribute__((noinline)) static std::tuple<Answer<Calls>...> fork_asked(Worker &w, Calls... calls) {
  if (is_wanted(w) && !give_oldest(w) && is_high_enough(w, static_cast<char *>(__builtin_frame_address(0)))) {
    w.noticed = 0;
    return answered(w, LEVELS, std::index_sequence_for<Calls...>(), calls...);
  }
  return std::tuple<Answer<Calls>...>{calls(w, 0)...};
}

// The results of calls, in their order.
template <class... Calls>
__attribute__((always_inline)) static inline std::tuple<Answer<Calls>...> fork(Worker &w, int levels,
                                                                               const Calls &...calls) {
  if (levels > 0) return fork_with_frame(w, levels, calls...);
  if (w.asked()) return fork_asked(w, calls...);
  return std::tuple<Answer<Calls>...>{calls(w, 0)...};
}
