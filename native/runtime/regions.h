// Not proved: regions: the marked calls and loops, of which each place in the text learns whether others make it
// faster.
#pragma once
#include "apart.h"
#include "values.h"
#include "walks.h"

// A place in the text where a region begins, and what is known of it.
struct Site {
  const bool begins_with_loop;
  unsigned skip = 0, lights = 0, runs = 0;
  long most = 0; // the turns that were light
  bool is_alone = false;
  unsigned slow = 0;          // how many of the last runs by many seemed slow
  unsigned due = 0;           // so many of the next runs are alone, to see what that takes
  double alone = 0, many = 0; // what it took: a loop a unit
#ifdef FORCED
  Forcing forcing;
#endif
  constexpr explicit Site(bool loop) : begins_with_loop(loop) {}
};

static bool is_within = false;
const Time LONG = 5000 * MICROSECOND;
static Time region_begun, folded; // and how long the copies of the last one took
static unsigned looks;
static unsigned long regions_shared = 0;

// Of a recursion or a walk, whose length nobody knows: it has taken so long.
static bool is_worth_others() {
  if (is_forced()) return true;
  looks++;
  if (looks < 16 ? (looks & (looks - 1)) != 0 : looks % 16 != 0) return false;
  return now() - region_begun >= (has_begun || missed >= THREADS ? LIGHT : THREADS / 2);
}

static void help_to_end(Worker &w) {
  w.is_busy.store(false, std::memory_order_relaxed);
  active.fetch_sub(1, std::memory_order_release);
  while (active.load(std::memory_order_acquire) != 0)
    if (!helped(w)) pause_briefly();
}

// Copies go into the objects; many pages are folded by many workers. Who has copies is settled before, since who folds
// takes tasks, too.
static void fold_all(Worker &w) {
  if (COPIES == 0) return;
  const long PIECE = 8, end = long(pages());
  for (int i = 1; i < workers; i++) all[i].has_copies = all[i].taken != 0;
  const auto piece = [end](Worker &, long k) {
    for (long page = k * PIECE; page < (k + 1) * PIECE && page < end; page++) fold(std::size_t(page));
  };
  const long pieces = (end + PIECE - 1) / PIECE;
  if (pieces < 16 || is_closed.load(std::memory_order_relaxed)) {
    for (long k = 0; k < pieces; k++) piece(w, k);
    return;
  }
  active.store(1, std::memory_order_relaxed);
  w.is_busy.store(true, std::memory_order_relaxed);
  loop<1>(w, 0, pieces, piece, [](long, long) {});
  help_to_end(w);
}

enum class Way { ALONE, MANY, GAVE_UP };

static inline void begin_region(Worker &w, Tries tries) {
  w.top = &w.root;
  w.root.down = nullptr;
  w.oldest = nullptr;
  w.noticed = 0;
  w.tries = tries;
  for (int i = 0; i < workers; i++) all[i].taken = 0;
  active.store(1, std::memory_order_relaxed);
  is_open = gave_up = false;
  looks = 0;
  region_begun = now();
  // Who asked in the region before, and didn't see its end, goes away by itself.
  for (int none = NOBODY; !w.asking.compare_exchange_weak(none, IS_TRIED); none = NOBODY) pause_briefly();
  w.is_busy.store(true, std::memory_order_relaxed);
}

static inline Way end_region(Worker &w) {
  w.tries = NOTHING;
  if (!is_open) {
    missed += now() - region_begun;
    w.is_busy.store(false, std::memory_order_relaxed);
    w.asking.store(NOBODY, std::memory_order_relaxed);
    return gave_up ? Way::GAVE_UP : Way::ALONE;
  }
  regions_shared++;
  help_to_end(w);
  const Time begun = now();
  if (is_shared) fold_all(w);
  folded = now() - begun;
  opened.fetch_add(1);
  is_shared = false;
  if (!gave_up) return Way::MANY;
  open_again();
  return Way::GAVE_UP;
}

template <class Many> static Way by_many(const Many &many, Tries tries) {
  begin_region(all[0], tries);
  many(all[0]);
  return end_region(all[0]);
}

static inline void is_light(Site &site, long units) {
  site.lights = site.lights < 512 ? site.lights * 2 + 1 : 1023;
  site.skip = site.lights;
  site.most = units;
}

static inline double each_of(Time took, long units) { return double(took) / double(units < 1 ? 1 : units); }

// A loop is to be run alone twice where it seems no faster by many three times in turn: its first turns promised as
// much of one alone, or much of the time goes to copies. So is one of short turns after some runs, whatever it seems:
// what others wrote is far, which makes its first turns slow, too. Of what takes long no run alone is worth it.
static inline void doubt(Site &site, unsigned run, long units, Time took) {
  const Time SHORT_TURN = 200;
  const unsigned SOME_RUNS = 3;
  site.many = each_of(took, units);
  const bool is_slow = double(took) > 0.9 * foreseen || folded > took / 5;
  const bool is_short = foreseen < double(SHORT_TURN) * double(units);
  site.slow = is_slow && took < LONG ? site.slow + 1 : 0;
  if (site.slow == 3 || (run + 1 == SOME_RUNS && is_short && took < LONG)) site.due = 2;
}

// The last of such runs says it: the one before has brought near what others wrote.
template <class Alone> static inline void run_due(Site &site, long units, const Alone &alone) {
  const Time begun = now();
  alone();
  if (--site.due > 0) return;
  site.alone = each_of(now() - begun, units);
  site.is_alone = site.alone < site.many;
  if (site.is_alone) site.slow = 2;
}

// A loop finds out itself whether it is worth others, and goes back where it isn't; then it is tried each 64th time.
// After the first time a part of it is tried alone three times, which says better what all of it takes.
template <class Alone, class Many>
static void loop_judged(Site &site, long units, const Alone &alone, const Many &many) {
  const unsigned run = site.runs++;
  if (site.is_alone && run % 64 != 0) return alone();
  if (site.due > 0) return run_due(site, units, alone);
  const Time begun = now();
  const Way way = by_many(many, run >= 1 && run <= 3 ? ONE_PART : SOME_TURNS);
  const Time took = now() - begun;
  if (way == Way::MANY) doubt(site, run, units, took);
  site.is_alone = way == Way::GAVE_UP || (way == Way::MANY && site.is_alone && site.alone < site.many);
  if (way == Way::ALONE && took < LIGHT)
    is_light(site, units);
  else
    site.lights = 0;
}

// How a recursion or a walk is alone is tried at the second time, unless it takes long, and each 64th.
template <class Alone, class Many>
static void recursion_judged(Site &site, long units, const Alone &alone, const Many &many) {
  const unsigned run = site.runs++;
  const bool goes_alone = run == 0 ? false : run == 1 ? site.many < LONG : (run % 64 == 63) != site.is_alone;
  const Time begun = now();
  double &known = goes_alone ? site.alone : site.many;
  Way way = Way::ALONE;
  if (goes_alone)
    alone();
  else
    way = by_many(many, NOTHING);
  const Time took = now() - begun;
  known = known == 0 ? double(took) : (known + double(took)) / 2;
  if (way == Way::ALONE && took < LIGHT)
    is_light(site, units);
  else
    site.lights = 0;
  site.is_alone = site.alone != 0 && site.alone < site.many;
}

// Whether a region was run as forced.
template <class Many> static inline bool region_forced([[maybe_unused]] Site &site, [[maybe_unused]] const Many &many) {
#ifdef FORCED
  const Time begun = now();
  const unsigned long before = all_given();
  site.forcing.begin();
  if (!is_forced()) return false;
  by_many(many, site.begins_with_loop ? SOME_TURNS : NOTHING);
  site.forcing.end(now() - begun, all_given() != before);
  return true;
#else
  return false;
#endif
}

template <class Alone, class Many>
__attribute__((noinline)) static void region_judged(Site &site, long units, const Alone &alone, const Many &many) {
  is_within = true;
  if (region_forced(site, many))
    ;
  else if (site.begins_with_loop)
    loop_judged(site, units, alone, many);
  else
    recursion_judged(site, units, alone, many);
  is_within = false;
}

// `alone` is as the unmarked text has it, `many` shares; `units` says how much it is, in the same unit each time.
template <class Alone, class Many>
static inline void region(Site &site, long units, const Alone &alone, const Many &many) {
  if (workers == 1 || is_within || is_outgrown) return alone();
  if (site.skip > 0 && units <= site.most) {
    site.skip--;
    return alone();
  }
  region_judged(site, units, alone, many);
}
