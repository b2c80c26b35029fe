// Not proved: walks along lists. A worker does object by object; who asks gets what lies behind some objects, which are
// looked at for it alone then.
#pragma once
#include "calls.h"

// How many objects a worker keeps of a list whose length it doesn't know.
const long KEPT = 1024;
const long UNKNOWN = std::int64_t(~std::uint64_t(0) >> 1);

// `NEXT` is the field that leads to the next object.
template <class Made, class Turn> struct WalkFrame : Frame {
  Made *at;  // the first that hasn't begun
  long left; // how many there are at most
  const Turn *turn;
};

template <class Made> struct Part {
  Made *at;
  long left;
};

template <auto NEXT, class Made, class Turn> static void walk_part(Worker &w, Made *at, long left, const Turn &turn);

template <auto NEXT, class Made, class Turn> static void run_walk(Worker &w, Task &task) {
  const Turn turn = *static_cast<const Turn *>(task.first.at());
  const Part<Made> part = *static_cast<const Part<Made> *>(task.second.at());
  task.first.drop();
  walk_part<NEXT>(w, part.at, part.left, turn);
}

// Half of what is left, or where the end is far all that lies behind KEPT objects.
template <auto NEXT, class Made, class Turn> static bool part_of_walk(Frame &frame, bool is_top, Task *task) {
  auto &it = static_cast<WalkFrame<Made, Turn> &>(frame);
  if (it.at == nullptr || it.left < 1 || (is_top && (it.left < 2 || it.at->*NEXT == nullptr))) return false;
  if (task == nullptr) return true;
  const long most = it.left < 2 * KEPT ? it.left : 2 * KEPT;
  long count = 0;
  for (Made *at = it.at; at != nullptr && count < most; at = at->*NEXT) count++;
  const long kept = is_top ? (count + 1) / 2 : count / 2;
  Made *behind = it.at;
  for (long i = 0; i < kept; i++) behind = behind->*NEXT;
  Part<Made> part{behind, it.left - kept};
  it.left = kept;
  task->run = run_walk<NEXT, Made, Turn>;
  task->first.keep(it.turn, sizeof(Turn));
  task->second.keep(&part, sizeof(part));
  return true;
}

template <auto NEXT, class Made, class Turn> static bool rest_of_walk(Frame &frame, Task &task) {
  auto &it = static_cast<WalkFrame<Made, Turn> &>(frame);
  if (it.at == nullptr || it.left < 1) return false;
  Part<Made> part{it.at, it.left};
  it.left = 0;
  task.run = task.run_alone = run_walk<NEXT, Made, Turn>;
  task.first.keep(it.turn, sizeof(Turn));
  task.second.keep(&part, sizeof(part));
  return true;
}

template <auto NEXT, class Made, class Turn> static void walk_part(Worker &w, Made *at, long left, const Turn &turn) {
  WalkFrame<Made, Turn> frame;
  frame.part = part_of_walk<NEXT, Made, Turn>;
  frame.rest = rest_of_walk<NEXT, Made, Turn>;
  frame.at = at;
  frame.left = left;
  frame.turn = &turn;
  w.begin(frame);
  while (frame.at != nullptr && frame.left > 0) {
    Made *it = frame.at;
    frame.at = it->*NEXT;
    frame.left--;
    turn(w, it);
    look(w);
  }
  w.end(frame);
}

// `turn` does what a walk does with one object.
template <auto NEXT, class Made, class Turn> static inline void walk(Worker &w, Made *first, const Turn &turn) {
  walk_part<NEXT>(w, first, UNKNOWN, turn);
}
