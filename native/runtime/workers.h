// Not proved: workers that ask each other for work (private deques, as Acar, Chargueraud and Rainey have them, 2013).
// Until one asks, a call is a call and a loop a loop: what a worker could give stands in frames on its own stack, which
// it alone looks at.
#pragma once
#include "forcing.h"
#include "objects.h"

enum Kind { SUM, PRODUCT, MAX, MIN, AND, OR, XOR, KINDS };
const int MOST_WORKERS = 64;
// How many calls one in another have frames, below where a worker begins or has nothing left to give.
const int LEVELS = 10;

struct Worker;

// Values that a call, a loop or the rest of a body is handed, copied from the stack of who gives it.
struct Values {
  alignas(16) char inside[256];
  void *outside; // those that don't fit
  const void *at() const { return outside == nullptr ? inside : outside; }
  void keep(const void *from, std::size_t size) {
    outside = size > sizeof(inside) ? std::malloc(size) : nullptr;
    if (size > sizeof(inside) && outside == nullptr) fail("no memory");
    std::memcpy(outside == nullptr ? inside : outside, from, size);
  }
  void drop() { std::free(outside); }
};

struct Task {
  void (*run)(Worker &, Task &), (*run_alone)(Worker &, Task &); // among others, and by one when no other has work
  Values first, second;
  long at, end;
};

// What a worker is about, of which it can give a part. The oldest stands nearest to `Worker::root`.
struct Frame {
  Frame *up, *down;
  bool (*part)(Frame &, bool is_top,
               Task *); // makes a task of some of what is left, or tells whether it could where there is none to make
  bool (*rest)(Frame &, Task &); // makes a task of all that hasn't begun; false: there is nothing
};

// Tasks that were given back, since they are done faster by one.
struct Returned {
  Returned *next;
  Task task;
};

// What a worker's word `asking` says beside the number of who asks, which is its index and one.
enum Asking { NOBODY = 0, IS_CLOSED = -1, IS_TRIED = -2 };

// What is tried alone of the next loop, which is the outermost of a region: some of its turns, or a part of them.
enum Tries { NOTHING, SOME_TURNS, ONE_PART };

struct alignas(128) Worker {
  char *off[KINDS];     // the distance from a field to this worker's copy, 0: the field itself. As a pointer, which no
                        // update changes
  bool *touched[KINDS]; // by page, from address 0 on
  Frame root;
  Frame *top, *oldest; // `oldest` is the first that may have something to give
  unsigned noticed;    // looks since another worker asked
  Time since;
  char *highest;
  unsigned long given, taken;
  bool has_copies; // for the fold: whether it took tasks of the region
  Tries tries;     // the first worker's alone
  int index;
  unsigned random;
  Time patience;       // how long it waits for one that it asked
  unsigned short_ones; // how many of the last lowest calls of value methods were short
  alignas(128) std::atomic<int> asking;
  std::atomic<bool> is_busy;
  alignas(128) std::atomic<bool> is_full; // whether `box` has a task
  Task box;

  bool asked() const {
#ifdef FORCED
    if (is_forced())
      for (int i = 0; i < FORCED && asking.load(std::memory_order_relaxed) == NOBODY; i++) pause_briefly();
#endif
    return RARE(asking.load(std::memory_order_relaxed) != NOBODY);
  }
  template <Kind kind> void touch(const void *at) { touched[kind][reinterpret_cast<std::uintptr_t>(at) / PAGE] = true; }
  void begin(Frame &it) {
    it.up = top;
    it.down = nullptr;
    top->down = &it;
    top = &it;
    if (oldest == nullptr) oldest = &it;
  }
  void end(Frame &it) {
    top = it.up;
    top->down = nullptr;
    if (oldest == &it) oldest = nullptr;
  }
};

static Worker *all;
static int workers;
// Tasks that one worker gave another; between regions alone.
static unsigned long all_given() {
  unsigned long given = 0;
  for (int i = 0; i < workers; i++) given += all[i].given;
  return given;
}
static bool is_shared =
    false; // whether others have work of this region: changed by the first worker alone, while none has
static std::atomic<int> active{0};      // tasks that aren't done, the first worker's with them
static std::atomic<unsigned> opened{0}; // odd while a region is open to others
static std::atomic<unsigned> sleeping{0};
static std::atomic<bool> is_over{false}, is_closed{false};
static std::atomic<Returned *> returned{nullptr};

// Who asks, if it still does: the promise to give it something.
static inline Worker *promised(Worker &w) {
  int who = w.asking.load(std::memory_order_relaxed);
  if (who <= NOBODY || !w.asking.compare_exchange_strong(who, NOBODY, std::memory_order_acquire)) return nullptr;
  return &all[who - 1];
}

// Gives who asks a part of the oldest frame that has something left. False where none has.
__attribute__((noinline)) static bool give_oldest(Worker &w) {
  Frame *it = w.oldest;
  while (it != nullptr && !it->part(*it, it == w.top, nullptr)) it = it->down;
  if (it == nullptr) return false;
  w.oldest = it;
  Worker *to = promised(w);
  if (to == nullptr) return true;
  if (!is_shared) is_shared = true;
  it->part(*it, it == w.top, &to->box);
  w.given++;
  active.fetch_add(1, std::memory_order_relaxed);
  to->is_full.store(true, std::memory_order_release);
  return true;
}

// Where one alone is faster, the others hand back what they haven't begun.
__attribute__((noinline)) static void give_back(Worker &w) {
  int none = IS_CLOSED;
  w.asking.compare_exchange_strong(none, NOBODY, std::memory_order_relaxed);
  if (&w == all) return;
  for (Frame *it = w.root.down; it != nullptr; it = it->down) {
    Returned *back = static_cast<Returned *>(std::malloc(sizeof(Returned)));
    if (back == nullptr) fail("no memory");
    if (!it->rest(*it, back->task)) {
      std::free(back);
      continue;
    }
    back->next = returned.load(std::memory_order_relaxed);
    while (!returned.compare_exchange_weak(back->next, back, std::memory_order_release)) {
    }
  }
}

static void open_region();
static bool is_worth_others();

// The end of the time in which a region is tried alone.
static inline void let_in(Worker &w) {
  int tried = IS_TRIED;
  if (w.asking.compare_exchange_strong(tried, NOBODY, std::memory_order_relaxed)) open_region();
}

// What a worker does that was asked, before it gives something: true where somebody waits for it.
__attribute__((noinline)) static bool is_wanted(Worker &w) {
  int who = w.asking.load(std::memory_order_relaxed);
  if (who == IS_TRIED) {
    if (is_worth_others()) let_in(w);
    return false;
  }
  if (RARE(is_closed.load(std::memory_order_relaxed))) {
    give_back(w);
    return false;
  }
  return who > NOBODY;
}

static inline void nap(Time length) {
  timespec it{0, length};
  nanosleep(&it, nullptr);
}

// How long a worker waits for one that it asked: the longer, the more often it waited for nothing, since a turn may
// take long. What takes longer than SPUN it doesn't spend on looking all the time.
const Time SHORT_PATIENCE = 20 * MICROSECOND, LONG_PATIENCE = 5000 * MICROSECOND, SPUN = 100 * MICROSECOND;

// Whether the answer came. False: the question is taken back.
static inline bool is_answered(Worker &w, Worker &other, const std::atomic<bool> *done) {
  const Time begun = now();
  while (!w.is_full.load(std::memory_order_acquire)) {
    const Time waited = now() - begun;
    const bool goes_on = other.is_busy.load(std::memory_order_relaxed) && waited < w.patience &&
                         (done == nullptr || !done->load(std::memory_order_relaxed));
    if (goes_on) {
      if (waited < SPUN)
        pause_briefly();
      else
        nap(20 * MICROSECOND);
      continue;
    }
    int me = w.index + 1;
    if (other.asking.compare_exchange_strong(me, NOBODY, std::memory_order_relaxed)) {
      if (waited >= w.patience && w.patience < LONG_PATIENCE) w.patience *= 2;
      return false;
    }
    while (!w.is_full.load(std::memory_order_acquire)) pause_briefly();
  }
  w.patience = SHORT_PATIENCE;
  return true;
}

// One question to one of the others, taken by chance. Whether there was work, which then is done. Who waits for `done`
// asks no longer than that.
static bool helped(Worker &w, const std::atomic<bool> *done = nullptr) {
  w.random = w.random * 1664525 + 1013904223;
  Worker &other = all[(w.random >> 16) % unsigned(workers)];
  if (&other == &w || !other.is_busy.load(std::memory_order_relaxed)) return false;
  int me = w.index + 1, none = NOBODY;
  if (other.asking.load(std::memory_order_relaxed) != NOBODY) return false;
  if (!other.asking.compare_exchange_strong(none, me, std::memory_order_acq_rel)) return false;
  if (!is_answered(w, other, done)) return false;
  w.is_full.store(false, std::memory_order_relaxed);
  w.noticed = 0;
  w.taken++;
  bool was_busy = w.is_busy.load(std::memory_order_relaxed);
  w.is_busy.store(true, std::memory_order_relaxed);
  w.box.run(w, w.box);
  w.is_busy.store(was_busy, std::memory_order_relaxed);
  active.fetch_sub(1, std::memory_order_release);
  return true;
}
