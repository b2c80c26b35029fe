// Not proved: loops of calls. A loop is run turn by turn; half of what is left goes to who asks.
#pragma once
#include "closing.h"
#include "copies.h"
#include "threads.h"

struct LoopFrame : Frame {
  long at, end;
  const void *turn, *range;
  std::size_t turn_size, range_size;
  void (*run)(Worker &, Task &), (*run_alone)(Worker &, Task &);
};

static inline bool part_of_loop(Frame &frame, bool is_top, Task *task) {
  LoopFrame &it = static_cast<LoopFrame &>(frame);
  long left = it.end - it.at;
  if (left < (is_top ? 2 : 1)) return false;
  if (task == nullptr) return true;
  long part = is_top ? left / 2 : (left + 1) / 2;
  task->run = it.run;
  task->at = it.end - part;
  task->end = it.end;
  task->first.keep(it.turn, it.turn_size);
  task->second.keep(it.range, it.range_size);
  it.end -= part;
  return true;
}

static inline bool rest_of_loop(Frame &frame, Task &task) {
  LoopFrame &it = static_cast<LoopFrame &>(frame);
  if (it.at >= it.end) return false;
  task.run = it.run;
  task.run_alone = it.run_alone;
  task.at = it.at;
  task.end = it.end;
  task.first.keep(it.turn, it.turn_size);
  task.second.keep(it.range, it.range_size);
  it.end = it.at;
  return true;
}

// So many turns without a look at who asks, on a copy of what they have, which no update of a turn can change: so its
// values stay in registers.
template <int SIZE, class Turn> static inline long turned(Worker &w, LoopFrame &it, long at, const Turn &turn) {
  const long to = SIZE > 1 && it.end - at > SIZE ? at + SIZE : SIZE > 1 ? it.end : at + 1;
  it.at = to;
  const Turn own = turn;
  for (; at < to; at++) own(w, at);
  return to;
}

template <int SIZE, class Turn, class Range> static void run_loop(Worker &w, Task &task);
template <class Range> static void run_range(Worker &, Task &task) {
  const Range range = *static_cast<const Range *>(task.second.at());
  task.first.drop();
  task.second.drop();
  range(task.at, task.end);
}

template <int SIZE, class Turn, class Range>
static inline void begin_loop(Worker &w, LoopFrame &it, long at, long end, const Turn &turn, const Range &range) {
  it.part = part_of_loop;
  it.rest = rest_of_loop;
  it.at = at;
  it.end = end;
  it.turn = &turn;
  it.range = &range;
  it.turn_size = sizeof(Turn);
  it.range_size = sizeof(Range);
  it.run = run_loop<SIZE, Turn, Range>;
  it.run_alone = run_range<Range>;
  w.begin(it);
}

template <int SIZE, class Turn, class Range>
static void outermost(Worker &w, long at, long end, const Turn &turn, const Range &range);

// `turn` is one turn among those of others, `range` some turns as the unmarked text has them. SIZE turns are so short
// that nobody need look who asks before they are over, and no more of them have no frame.
template <int SIZE, class Turn, class Range>
static inline void loop(Worker &w, long at, long end, const Turn &turn, const Range &range) {
  if (at >= end) return;
  if (RARE(w.tries != NOTHING)) return outermost<SIZE>(w, at, end, turn, range);
  if (SIZE > 1 && end - at <= SIZE) {
    const Turn own = turn;
    do own(w, at);
    while (++at < end);
    return;
  }
  LoopFrame frame;
  begin_loop<SIZE>(w, frame, at, end, turn, range);
  do {
    at = turned<SIZE>(w, frame, at, turn);
    if (w.asked() && is_wanted(w)) give_oldest(w);
  } while (at < frame.end);
  w.end(frame);
}

template <int SIZE, class Turn, class Range> static void run_loop(Worker &w, Task &task) {
  const Turn turn = *static_cast<const Turn *>(task.first.at());
  const Range range = *static_cast<const Range *>(task.second.at());
  const long at = task.at, end = task.end;
  task.first.drop();
  task.second.drop();
  loop<SIZE>(w, at, end, turn, range);
}

// Of the outermost loop of a region: what a turn takes alone, and whether it is worth others.
struct Trial {
  double each;
  long at;
};

// No trial takes longer, whatever part of a loop it was to be.
const Time LONG_TRIAL = 100 * MICROSECOND;

// Runs turns alone, until so much time and so many of them have passed, or LONG_TRIAL, and what is left looks worth
// others. What the first ones touch isn't near yet, so those that came last say what a turn takes, if it is less.
template <class Range> static inline Trial tried(long at, long end, Time least, long part, const Range &range) {
  const long from = at;
  long size = 1;
  Time took = 0;
  double each = 0;
  while (at < end) {
    const long to = end - at > size ? at + size : end;
    const Time begun = now();
    range(at, to);
    const Time last = now() - begun;
    took += last;
    each = std::min(double(last) / double(to - at), double(took) / double(to - from));
    at = to;
    const bool is_known = took >= LONG_TRIAL || (took >= least && at - from > 1 && at - from >= part);
    if (is_known && each * double(end - at) >= double(LIGHT)) break;
    size = each * 2 * double(size) > 10 * MICROSECOND ? long(10 * MICROSECOND / each) + 1 : size * 2;
  }
  return {each, at};
}

// Whether the first worker's turns take longer among others than so many workers make up for, by its own processor
// time: asked after 50 microseconds at first, and half as often each time. As what is touched first takes longer, two
// answers in turn have to say so, each of the turns since the one before.
struct Judge {
  double each;      // what a turn takes alone
  double among = 0; // and among others, of late
  Time begun = now(), last = begun, due = begun + 50 * MICROSECOND, spent = own_time();
  long from;
  unsigned left = 1, gap = 1, slow = 0;
  Judge(double alone, long at) : each(alone), from(at) {}
  bool is_too_long() const { return among > 0.9 * double(workers) * each; }
  bool finds_slow(long at) {
    if (--left > 0) return false;
    const Time time = now();
    if (time - last < MICROSECOND) gap *= 2;
    left = gap;
    last = time;
    return time >= due && is_slow(at, time);
  }
  bool is_slow(long at, Time time) {
    due += time - begun;
    const Time own = own_time();
    among = double(own - spent) / double(at - from);
    slow = is_too_long() && is_shared ? slow + 1 : 0;
    spent = own;
    from = at;
    return slow == 2;
  }
  // Turns may take longer by now than those that were tried first. So some are tried again, with nobody else about.
  bool is_right(const Trial &trial) {
    each = trial.each;
    from = trial.at;
    spent = own_time();
    slow = 0;
    due = now() + (due - begun);
    return is_too_long();
  }
};

// Tests judge by counting and not by time: each 16th answer is that others make it slow, and each 16th of these is
// right.
static unsigned judged = 0;
static inline bool is_slow(Judge &judge, long at) { return is_forced() ? ++judged % 16 == 0 : judge.finds_slow(at); }
static inline bool is_right(Judge &judge, const Trial &trial) {
  return is_forced() ? judged % 256 == 0 : judge.is_right(trial);
}

// Where others seem to make it slow, some turns are tried alone. If they do, the rest is done alone, too; else all goes
// on among others.
template <class Range>
__attribute__((noinline)) static void doubted(Worker &w, LoopFrame &frame, Judge &judge, const Range &range) {
  close_region();
  const Trial trial = tried(frame.at, frame.end, 30 * MICROSECOND, 0, range);
  frame.at = trial.at;
  gave_up = is_right(judge, trial);
  if (!gave_up) open_again();
  run_returned(w);
  if (!gave_up) return;
  range(frame.at, frame.end);
  frame.at = frame.end;
}

// What the outermost loop of a region would take alone, by its first turns.
static double foreseen;

// The first turns of it, run alone.
template <class Range> static inline Trial first_turns(Worker &w, long at, long end, const Range &range) {
  const long PARTS = 32, part = w.tries == ONE_PART ? (end - at) / PARTS : 0;
  w.tries = NOTHING;
  const Trial trial = is_forced() ? Trial{FORCED_TURN, at} : tried(at, end, 3 * MICROSECOND, part, range);
  foreseen = trial.each * double(end - at);
  return trial;
}

// The turns from `at` on among others, who are let in.
template <int SIZE, class Turn, class Range>
static void share_loop(Worker &w, long at, long end, double each, const Turn &turn, const Range &range) {
  let_in(w);
  LoopFrame frame;
  begin_loop<SIZE>(w, frame, at, end, turn, range);
  Judge judge(each, at);
  do {
    at = turned<SIZE>(w, frame, at, turn);
    if (w.asked() && is_wanted(w)) give_oldest(w);
    if (RARE(is_slow(judge, at))) {
      doubted(w, frame, judge, range);
      at = frame.at;
    }
  } while (at < frame.end);
  w.end(frame);
}

template <int SIZE, class Turn, class Range>
__attribute__((noinline)) static void outermost(Worker &w, long at, long end, const Turn &turn, const Range &range) {
  const Trial trial = first_turns(w, at, end, range);
  if (trial.at >= end) return;
  if (!pays_threads(Time(trial.each * double(end - trial.at)))) return range(trial.at, end);
  share_loop<SIZE>(w, trial.at, end, trial.each, turn, range);
}
